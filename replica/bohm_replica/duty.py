"""One replica, which etcd's lease elects, puts what all clients sent, and bounds the log: it deletes entries that most replicas have
in their files.

What is deleted is stated by a fence in etcd, put together with the deletion: who is behind it fetches a copy of another replica's
files. An entry that an abandoned request puts again later has a number that its sequencer has passed, and is passed over."""
import asyncio
import collections
import contextlib
from typing import Callable, Deque, Dict, List, NamedTuple, Optional

from .etcd import Compacted, Etcd, Refused, Unreachable, created, put_of
from .keys import Fence, Member, Members, read_fence, read_member
from .log import EVERY, Log
from .messages import EQUAL, LEASE, Message

# Seconds that the duty stays with a replica that doesn't answer, and between two looks.
LONGEST, LOOK = 30, 5.0
# The most operations of a transaction of etcd, of which it takes 128.
MOST = 100


class Mark(NamedTuple):
    """The revision of an entry, the entries up to it, and the sequencers' numbers there."""

    revision: int
    entries: int
    numbers: Dict[str, int]


class Duty:
    """Elects a replica, and bounds the log where it is this one."""

    def __init__(self, etcd: Etcd, name: str, log: Log, keep: int, say: Callable[[str], None]) -> None:
        self.etcd, self.name, self.log, self.say = etcd, name, log, say
        # Replicas compare etcd with the last entry that they ran, which therefore stays.
        self.keep = max(keep, EVERY)
        self.marks: Deque[Mark] = collections.deque()
        self.lease = 0
        self.leads = False
        # The URL of another replica that has the duty.
        self.chief: Optional[str] = None
        self.deleted: Dict[str, int] = {}

    def moved(self) -> None:
        """To be called where the log has moved on."""
        here = self.log.position
        if not self.marks or here.entries >= self.marks[-1].entries + EVERY:
            self.marks.append(Mark(here.revision, here.entries, dict(self.log.numbers)))

    async def run(self) -> None:
        while True:
            try:
                holder = await self.holder()
                self.leads = holder == self.name
                self.chief = None if self.leads else await self.url_of(holder)
                if self.leads:
                    await self.bound()
            except (Refused, Unreachable):
                self.leads, self.chief = False, None
            await asyncio.sleep(LOOK)

    async def holder(self) -> Optional[str]:
        """The replica that has the duty, which this one takes if nobody has it; none where the name isn't one."""
        if self.lease:
            said = await self.etcd.ask("keep", {"ID": self.lease})
            if said.get("TTL", 0) <= 0:
                self.lease = 0
        if not self.lease:
            self.lease = (await self.etcd.ask("grant", {"TTL": LONGEST}))["ID"]
        mine = self.etcd.keys.duty
        said = await self.etcd.ask("txn", {
            "compare": [created(mine, 0)], "success": [put_of(mine, self.name.encode(), self.lease)],
            "failure": [{"request_range": {"key": mine}}]})
        if said.get("succeeded"):
            return self.name
        held = said["responses"][0]["response_range"].get("kvs", [])
        if held and held[0].get("lease") == self.lease:
            return self.name
        name = held[0].get("value", b"").decode("latin-1") if held else self.name
        return None if name == self.name else name

    async def url_of(self, name: Optional[str]) -> Optional[str]:
        """Where another replica is, if it has told that."""
        member = (await self.members()).get(name or "")
        return member.url if member else None

    async def members(self) -> Members:
        found: Members = {}
        for key, value in (await self.etcd.held(self.etcd.keys.replicas)).items():
            name, member = self.etcd.keys.read_name(self.etcd.keys.replicas, key), read_member(value)
            if name and member:
                found[name] = member
        return found

    async def bound(self) -> None:
        """Deletes what most replicas have and nobody is to find in etcd any more."""
        mark = self.reachable(list((await self.members()).values()))
        if not mark:
            return
        held = (await self.etcd.held(self.etcd.keys.fence)).get(self.etcd.keys.fence)
        if read_fence(held).entries >= mark.entries:
            return
        await self.delete(mark)
        # Somebody may have compacted more.
        with contextlib.suppress(Compacted):
            await self.etcd.ask("compact", {"revision": mark.revision})
        while self.marks and self.marks[0].entries <= mark.entries:
            self.marks.popleft()
        self.say(f"entries up to revision {mark.revision} are deleted in etcd, {mark.entries} in all")

    def reachable(self, members: List[Member]) -> Optional[Mark]:
        """The last place up to which entries may go: more than half of the replicas have them, and so many are behind it."""
        if not members:
            return None
        durable = sorted((member.entries for member in members), reverse=True)[len(members) // 2]
        limit = min(durable, self.log.position.entries) - self.keep
        found = [mark for mark in self.marks if mark.entries <= limit]
        return found[-1] if found else None

    async def delete(self, mark: Mark) -> None:
        """Deletes the entries up to a place, the first of them together with the fence."""
        gone = [(name, number) for name, number in mark.numbers.items() if self.deleted.get(name, 0) < number]
        parts: List[Message] = [{"request_delete_range": {
            "key": self.etcd.keys.sequencer(name), "range_end": self.etcd.keys.entry(name, number + 1)}} for name, number in gone]
        fence = put_of(self.etcd.keys.fence, Fence(mark.revision, mark.entries).text())
        mine = {"result": EQUAL, "target": LEASE, "key": self.etcd.keys.duty, "lease": self.lease}
        for at in range(0, len(parts), MOST):
            said = await self.etcd.ask("txn", {"compare": [mine], "success": [*([fence] if at == 0 else []), *parts[at:at + MOST]]})
            if not said.get("succeeded"):
                raise Refused("another replica has the duty")
        self.deleted.update(gone)
