"""The members of one cluster of etcd, asked in turn."""
import asyncio
import time
from typing import Any, AsyncIterator, Callable, Dict, List, NamedTuple, Optional, Sequence, Tuple, Union

from . import ways
from .grpc import DEADLINE, DENIED, EXHAUSTED, FAILED, INVALID, PASSED, UNAUTHENTICATED, UNAVAILABLE, Fault
from .keys import NO_FENCE, Fence, Keys, end_of, read_fence
from .messages import CREATE, EQUAL, Message
from .position import Entry, Position
from .tasks import cancelled
from .ways import Tls

# Seconds: for one try of a request, at first and at most, and between two tries.
TRY, SLOWEST, PAUSE = 2.0, 20.0, 0.05
# Seconds within which a member says whether it leads.
LEADING = 1.0
# Seconds that a request may take with all its tries, and without a word of a watch until that is told.
PATIENCE, SILENCE = 60.0, 3.0

# Kinds of failures, which are counted from 0: Prometheus sees no rise in a count that begins with its first failure.
FAULTS = ("deadline", "unavailable", "exhausted", "large", "refused")

Way = Union[ways.Grpc, ways.Gateway]


class Unreachable(Exception):
    """No member answered in time."""


class Refused(Exception):
    """etcd refuses the request, whoever of its members is asked: rights that are missing, no space."""


class TooLarge(Refused):
    """etcd takes no request of this size (`--max-request-bytes`)."""


class Compacted(Exception):
    """etcd no longer has the revision."""


class Rewound(Exception):
    """etcd no longer has what was read from it: it was restored from a backup, or it is another log."""


class Behind(Exception):
    """Entries behind the position are deleted."""


class Taken(Exception):
    """The key of an entry has another value: somebody else put it."""


class Told(NamedTuple):
    """etcd's revision, that of the last entry, and the fence."""

    revision: int
    last: int
    fence: Fence


def created(key: bytes, revision: int) -> Message:
    """The comparison that a key was created at a revision; 0: it isn't there."""
    return {"result": EQUAL, "target": CREATE, "key": key, "create_revision": revision}


def put_of(key: bytes, value: bytes, lease: int = 0) -> Message:
    return {"request_put": {"key": key, "value": value, "lease": lease}}


def range_of(key: bytes, **more: Any) -> Message:
    return {"request_range": {"key": key, **more}}


def kvs_of(response: Message) -> List[Message]:
    found: List[Message] = response.get("response_range", response).get("kvs", [])
    return found


def value_of(response: Message) -> Optional[bytes]:
    kvs = kvs_of(response)
    return kvs[0].get("value", b"") if kvs else None


class Etcd:
    """A client of one cluster, for one event loop."""

    def __init__(self, members: Sequence[str], keys: Keys, tls: Optional[Tls] = None, login: Optional[Tuple[str, str]] = None,
                 by_gateway: bool = False) -> None:
        """By gRPC, or by etcd's gateway."""
        self.members, self.keys, self.tls, self.login = list(members), keys, tls, login
        self.by_gateway = by_gateway
        self.at = 0
        self.open: Dict[str, Way] = {}
        self.token: Optional[str] = None
        # The cluster's number, by which its revisions are told from others; 0 until it is known.
        self.cluster = 0
        # Counts of requests and of failures, by their words, and the time of the last answer.
        self.requests = 0
        self.faults = dict.fromkeys(FAULTS, 0)
        self.heard = time.monotonic()

    @property
    def member(self) -> str:
        """The member that is asked."""
        return self.members[self.at]

    def way(self, member: Optional[str] = None) -> Way:
        member = member or self.member
        if member not in self.open:
            self.open[member] = ways.Gateway(member, self.tls) if self.by_gateway else ways.Grpc(member, self.tls)
        return self.open[member]

    def turn(self) -> None:
        """Goes over to the next member."""
        self.at = (self.at + 1) % len(self.members)

    async def turn_to_leader(self) -> None:
        """Goes over to the member that leads, if one says so in time: others pass on to it what they are to put, and hear of it later."""
        asking = [asyncio.ensure_future(self.leads(member)) for member in self.members]
        try:
            for each in asyncio.as_completed(asking, timeout=LEADING):
                leader = await each
                if leader:
                    self.at = self.members.index(leader)
                    return
        except asyncio.TimeoutError:
            pass
        finally:
            await cancelled(asking)

    async def leads(self, member: str) -> Optional[str]:
        """The member, if it leads the cluster."""
        try:
            said = await self.way(member).call("status", {}, self.token or None, LEADING)
        except Fault:
            return None
        head = said.get("header", {})
        leads = said.get("leader") is not None and said["leader"] == head.get("member_id") and head.get("cluster_id") == self.cluster
        return member if leads else None

    async def close(self) -> None:
        for way in self.open.values():
            await way.close()

    async def entitled(self, wait: float) -> Optional[str]:
        """The token by which etcd knows who asks, if it wants to."""
        if self.login and self.token is None:
            try:
                said = await self.way().call("login", {"name": self.login[0], "password": self.login[1]}, None, wait)
                self.token = said.get("token", "")
            except Fault as fault:
                if "authentication is not enabled" not in str(fault):
                    raise
                self.token = ""
        return self.token or None

    async def ask(self, name: str, message: Message, patience: float = PATIENCE) -> Message:
        """The first answer of a member. The request may have taken effect more than once."""
        end, wait = time.monotonic() + patience, TRY
        while True:
            left = max(0.1, end - time.monotonic())
            try:
                self.requests += 1
                said = await self.way().call(name, message, await self.entitled(min(wait, left)), min(wait, left))
                self.check_cluster(said)
                self.heard = time.monotonic()
                return said
            except Fault as fault:
                self.judge(fault)
                if fault.code == DEADLINE:
                    wait = min(SLOWEST, 1.5 * wait)
                if time.monotonic() > end:
                    raise Unreachable(str(fault)) from fault
            await asyncio.sleep(PAUSE)

    def judge(self, fault: Fault) -> None:
        """Raises what no other try mends. Otherwise the next member is to be tried."""
        words = str(fault)
        is_large = "request is too large" in words or "message larger than max" in words
        kind = "large" if is_large else {DEADLINE: "deadline", UNAVAILABLE: "unavailable", EXHAUSTED: "exhausted"}.get(fault.code, "refused")
        self.faults[kind] += 1
        if is_large:
            raise TooLarge(words) from fault
        if fault.code == PASSED:
            raise Compacted(words) from fault
        if fault.code == UNAUTHENTICATED or "auth token" in words or self.token == "" and "user name is empty" in words:
            self.token = None
            return
        if fault.code in (INVALID, DENIED, FAILED) or fault.code == EXHAUSTED and "too many requests" not in words:
            raise Refused(words) from fault
        self.turn()

    def check_cluster(self, said: Message) -> None:
        """Notes the cluster that answers first. A member of another one counts as one that doesn't answer."""
        number = said.get("header", {}).get("cluster_id", self.cluster)
        self.cluster = self.cluster or number
        if number != self.cluster:
            raise Fault(UNAVAILABLE, f"{self.members[self.at]} is a member of another cluster")

    # What is asked of the log.

    async def confirm(self, position: Position, patience: float = PATIENCE) -> Told:
        """What etcd has, as of all that was acknowledged before, if it has the entry at the position. Raises Rewound, or
        Behind."""
        asked = [range_of(self.keys.last, keys_only=True), range_of(self.keys.fence)]
        mark = [created(position.key.encode("latin-1"), position.revision)] if position.entries else []
        said = await self.ask("txn", {"compare": mark, "success": asked, "failure": asked}, patience)
        last, fence = said.get("responses", [{}, {}])
        kvs = kvs_of(last)
        told = Told(said["header"].get("revision", 0), kvs[0].get("mod_revision", 0) if kvs else 0, read_fence(value_of(fence)))
        self.judge_position(position, told, bool(said.get("succeeded")))
        return told

    def judge_position(self, position: Position, told: Told, has_mark: bool) -> None:
        if position.cluster and self.cluster != position.cluster:
            raise Rewound(f"the cluster is {self.cluster:x}, and the log was read from {position.cluster:x}")
        if told.revision < position.revision:
            raise Rewound(f"etcd's revision is {told.revision}, and {position.revision} was read from it")
        if told.fence > (position.revision, position.entries):
            raise Behind(f"entries up to revision {told.fence.revision} are deleted, and {position.revision} was reached")
        if not has_mark:
            raise Rewound(f"etcd's revision {position.revision} isn't the one that was read from it")

    async def put_entry(self, name: str, number: int, value: bytes, position: Callable[[], Position]) -> int:
        """Puts an entry, once, if etcd has the log up to the position, and returns its revision. Raises Taken, Rewound, Behind
        or Refused."""
        key = self.keys.entry(name, number)
        success = [put_of(key, value), put_of(self.keys.last, b"")]
        failure = [range_of(key), range_of(self.keys.fence)]
        while True:
            here = position()
            mark = [created(here.key.encode("latin-1"), here.revision)] if here.entries else []
            said = await self.ask("txn", {"compare": [created(key, 0), *mark], "success": success, "failure": failure}, 3600.0)
            revision: int = said["header"].get("revision", 0)
            if said.get("succeeded"):
                return revision
            entry, fence = said["responses"]
            kvs = kvs_of(entry)
            if kvs and kvs[0].get("value", b"") == value:
                # An earlier try put it.
                created_at: int = kvs[0]["create_revision"]
                return created_at
            if kvs:
                raise Taken(f"{key!r} has another value")
            self.judge_position(here, Told(revision, 0, read_fence(value_of(fence))), here != position())

    async def held(self, prefix: bytes, patience: float = PATIENCE) -> Dict[bytes, bytes]:
        """The keys with a prefix, and their values."""
        said = await self.ask("range", {"key": prefix, "range_end": end_of(prefix)}, patience)
        return {kv["key"]: kv.get("value", b"") for kv in said.get("kvs", [])}

    async def put(self, key: bytes, value: bytes, patience: float = PATIENCE) -> None:
        await self.ask("put", {"key": key, "value": value}, patience)

    async def page(self, start: bytes, end: bytes, limit: int, revision: int) -> Tuple[List[Message], bool]:
        """The first keys from `start` up to `end` as of a revision, and whether there are more."""
        said = await self.ask("range", {"key": start, "range_end": end, "limit": limit, "revision": revision})
        return said.get("kvs", []), bool(said.get("more"))

    async def watch(self, first: int, waits_for: Optional[ways.WaitsFor] = None) -> AsyncIterator[Optional[List[Message]]]:
        """The changes under the prefix from a revision on, as one member sends them, all that have come together; nothing after
        some seconds of silence. Those that nobody waits for come some milliseconds later, together. Ends by Fault, or
        Compacted."""
        request = {"key": self.keys.prefix, "range_end": end_of(self.keys.prefix), "start_revision": first}
        stream = self.way().watch({"create_request": request}, await self.entitled(TRY), SILENCE, waits_for)
        try:
            async for answers in stream:
                if answers:
                    self.heard = time.monotonic()
                yield [event for said in answers for event in self.events_of(said)] if answers else None
        finally:
            await stream.aclose()  # type: ignore[attr-defined]

    def hurry(self) -> None:
        """Somebody waits for changes that a watch may hold back."""
        for way in self.open.values():
            way.hurry()

    def events_of(self, said: Message) -> List[Message]:
        """The changes in an answer to a watch. Raises Fault, or Compacted, where that has ended."""
        self.check_cluster(said)
        if said.get("canceled"):
            if said.get("compact_revision"):
                raise Compacted(f"etcd is compacted up to revision {said['compact_revision']}")
            raise Fault(UNAVAILABLE, said.get("cancel_reason", "the watch is cancelled"))
        events: List[Message] = said.get("events", [])
        return events


def entry_of(keys: Keys, kv: Message) -> Optional[Entry]:
    """The entry that a key and its value are as they were put first; none if they aren't one."""
    named = keys.read_entry(kv["key"])
    if not named or kv.get("version") != 1:
        return None
    return Entry(kv["mod_revision"], *named, kv["key"], kv.get("value", b""))


__all__ = ["NO_FENCE", "Behind", "Compacted", "Etcd", "Refused", "Rewound", "Taken", "Told", "TooLarge", "Unreachable", "entry_of"]
