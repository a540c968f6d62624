"""The log's entries in order: far behind by pages of keys, then by one watch."""
import asyncio
import time
from typing import AsyncIterator, Callable, Dict, List, NamedTuple, Optional, Tuple

from .etcd import SILENCE, Behind, Compacted, Etcd, Unreachable, entry_of
from .keys import end_of
from .messages import Message
from .position import Entry, Position
from .grpc import Fault
from .ways import WaitsFor

# Revisions behind which a watch isn't asked: a member reads all that a watch is behind into its memory.
NEAR = 64
# The bytes of a page of keys, about.
PAGE = 1 << 22
# Seconds between two tries.
PAUSE = 0.1

# By what entries are ordered: keys that somebody put together have one revision.
Order = Tuple[int, bytes]


class News(NamedTuple):
    """Entries by rising revisions, and what else changed under the prefix."""

    entries: List[Entry]
    others: List[Message]


class Stream:
    """The entries of one sequencer behind a number and a place of the log, as of a later revision, read by pages."""

    def __init__(self, etcd: Etcd, name: str, number: int, after: Order, revision: int) -> None:
        self.etcd, self.number, self.revision = etcd, number, revision
        self.start, self.end = etcd.keys.entry(name, number + 1), end_of(etcd.keys.sequencer(name))
        self.waiting: List[Entry] = []
        # The place of the last entry, or that up to which the log has run: what was put before it has been passed over.
        self.limit, self.is_over, self.has_gap, self.last = 1, False, False, after

    async def head(self) -> Optional[Entry]:
        """The next entry. Raises Behind."""
        while not self.waiting and not self.is_over:
            kvs, more = await self.etcd.page(self.start, self.end, self.limit, self.revision)
            size = sum(len(kv.get("value", b"")) for kv in kvs)
            self.limit = max(1, min(1000, 4 * self.limit, PAGE * len(kvs) // (size + 1)))
            for kv in kvs:
                await self.add(kv)
            self.is_over = self.has_gap or not more
            if kvs:
                self.start = kvs[-1]["key"] + b"\0"
        return self.waiting[0] if self.waiting else None

    async def add(self, kv: Message) -> None:
        """Takes a key that continues the sequencer. One that was put before those in front of it didn't then."""
        named = self.etcd.keys.read_entry(kv["key"])
        if not named or self.has_gap:
            return
        if named[1] != self.number + 1:
            # Behind a gap nothing counts. Where something stood before it, somebody deleted an entry, or put one too far.
            self.has_gap = True
            if self.number:
                raise Behind(f"{kv['key']!r} is there, and what is to stand before it isn't")
        elif (kv["create_revision"], kv["key"]) > self.last:
            entry = entry_of(self.etcd.keys, kv if kv.get("version") == 1 else await first_version(self.etcd, kv))
            if entry:
                self.waiting.append(entry)
                self.last, self.number = order_of(entry), named[1]


def order_of(entry: Entry) -> Order:
    return entry.revision, entry.key


def order_at(position: Position) -> Order:
    """Where the last entry is that was run. Others of its revision may be behind it."""
    return position.revision, position.key.encode("latin-1")


async def first_version(etcd: Etcd, kv: Message) -> Message:
    """A key as it was put first: somebody put it again. Raises Behind if that is compacted."""
    try:
        kvs, _ = await etcd.page(kv["key"], kv["key"] + b"\0", 1, kv["create_revision"])
    except Compacted as fault:
        raise Behind(f"{kv['key']!r} was overwritten, and what it was is compacted") from fault
    return kvs[0] if kvs else kv


class Follower:
    """Reads the log behind a position that its owner moves."""

    def __init__(self, etcd: Etcd, position: Callable[[], Position], numbers: Callable[[], Dict[str, int]],
                 waits_for: Optional[WaitsFor] = None) -> None:
        self.etcd, self.position, self.numbers, self.waits_for = etcd, position, numbers, waits_for
        self.reconnects = 0
        # Revisions that were missing when it began to read; 0 once the watch sends.
        self.missing = 1

    async def news(self) -> AsyncIterator[News]:
        """All news, without end. Raises Rewound, Behind or Refused."""
        near, is_first = NEAR, True
        while True:
            try:
                told = await self.etcd.confirm(self.position())
                if is_first:
                    # Later the members are taken in turn, since this one may be what failed.
                    is_first = False
                    await self.etcd.turn_to_leader()
                after = order_at(self.position())
                # The last revision too: a replica that ended within it has run a part of it.
                first = max(1, after[0])
                self.missing = max(0, told.revision - after[0])
                if self.missing > near:
                    if told.last >= first:
                        async for entries in self.pages(told.revision):
                            yield News(entries, [])
                    first = told.revision + 1
                    # What others told meanwhile was passed over.
                    held = await self.etcd.held(self.etcd.keys.digests)
                    yield News([], [{"kv": {"key": key, "value": value}} for key, value in held.items()])
                near = NEAR
                async for news in self.watched(first, after):
                    yield news
            except Compacted:
                # A watch can't begin there; the keys are still there, or a fence says that they aren't.
                near = -1
            except Fault:
                self.etcd.turn()
            except Unreachable:
                pass
            self.reconnects += 1
            await asyncio.sleep(PAUSE)

    async def watched(self, first: int, after: Order) -> AsyncIterator[News]:
        """What a watch sends from a revision on, of entries those behind a place, until it is silent though there is something."""
        stream = self.etcd.watch(first, self.waits_for)
        quiet = time.monotonic()
        try:
            async for events in stream:
                if events is not None:
                    self.missing, quiet = 0, time.monotonic()
                    yield self.sorted(events, max(after, (first, b"")))
                elif (await self.etcd.confirm(self.position())).last > self.position().revision:
                    if time.monotonic() - quiet > 2 * SILENCE:
                        raise Fault(0, "the watch is silent")
        finally:
            await stream.aclose()  # type: ignore[attr-defined]
        raise Fault(0, "the watch ended")

    def sorted(self, events: List[Message], after: Order) -> News:
        entries, others = [], []
        for event in events:
            kv = event["kv"]
            entry = None if event.get("type") else entry_of(self.etcd.keys, kv)
            # A member that lags may send what was before the revision that was asked for.
            if entry and order_of(entry) > after:
                entries.append(entry)
            elif not entry and kv["key"] != self.etcd.keys.last:
                others.append(event)
        entries.sort(key=order_of)
        return News(entries, others)

    async def pages(self, revision: int) -> AsyncIterator[List[Entry]]:
        """The entries behind the position, as of a revision, by their own revisions. Those of one revision come together."""
        numbers, after = self.numbers(), order_at(self.position())
        held: List[Entry] = []
        streams = [Stream(self.etcd, name, numbers.get(name, 0), after, revision) for name in await self.names(revision)]
        heads = [(order_of(head), stream) for stream in streams if (head := await stream.head())]
        while heads:
            heads.sort(key=lambda pair: pair[0])
            stream = heads[0][1]
            until = heads[1][0] if len(heads) > 1 else (revision + 1, b"")
            taken = [entry for entry in stream.waiting if order_of(entry) < until]
            del stream.waiting[:len(taken)]
            held += taken
            yield [entry for entry in held if entry.revision < held[-1].revision]
            held = [entry for entry in held if entry.revision == held[-1].revision]
            head = await stream.head()
            heads[:1] = [(order_of(head), stream)] if head else []
        yield held

    async def names(self, revision: int) -> List[str]:
        """The sequencers that have entries."""
        found: List[str] = []
        start, end = self.etcd.keys.log, end_of(self.etcd.keys.log)
        while True:
            kvs, _ = await self.etcd.page(start, end, 1, revision)
            if not kvs:
                return found
            key: bytes = kvs[0]["key"]
            named = self.etcd.keys.read_entry(key)
            if named:
                found.append(named[0])
                start = end_of(self.etcd.keys.sequencer(named[0]))
            else:
                start = key + b"\0"

