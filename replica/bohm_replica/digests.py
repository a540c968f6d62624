"""Digests at fixed places, by which replicas notice that one of them is wrong."""
import asyncio
import collections
from typing import Dict, Optional, Set

from .etcd import Etcd, Refused, Unreachable
from .keys import Digest, read_digest
from .log import EVERY, Log
from .messages import Message
from .position import KEPT


class Diverged(Exception):
    """This replica's digests aren't those of most replicas."""


class Digests:
    """This replica's digests, and what the others told of theirs."""

    def __init__(self, etcd: Etcd, name: str, log: Log) -> None:
        self.etcd, self.name, self.log = etcd, name, log
        # What others told, by place and name; and the places at which one differs from this replica's.
        self.told: Dict[int, Dict[str, Digest]] = collections.defaultdict(dict)
        self.differing: Set[int] = set()
        self.doubted: Set[int] = set()
        self.some = asyncio.Event()
        self.published = 0

    def last(self) -> Optional[Digest]:
        return self.log.digests[max(self.log.digests)] if self.log.digests else None

    def note(self, event: Message) -> None:
        """Notes another replica's digest from a change of a key, if it is one."""
        kv = event["kv"]
        name = self.etcd.keys.read_name(self.etcd.keys.digests, kv["key"])
        digest = read_digest(kv.get("value", b"")) if name and not event.get("type") else None
        here = self.log.position.entries
        if name and digest and digest.place % EVERY == 0 and abs(digest.place - here) <= KEPT * EVERY:
            self.told[digest.place][name] = digest
            self.compare(digest.place)

    def moved(self) -> None:
        """To be called where the log has moved on."""
        last = self.last()
        if last and last.place > self.published:
            for place in [place for place in self.told if place in self.log.digests and place not in self.differing]:
                self.compare(place)
            for old in [place for place in self.told if place <= last.place - KEPT * EVERY]:
                del self.told[old]
                self.differing.discard(old)
            self.some.set()

    def compare(self, place: int) -> None:
        """Has a place judged where one differs: again with each that is told, since more of them may make a majority."""
        own = self.log.digests.get(place)
        if own and any(told != own for told in self.told[place].values()):
            self.differing.add(place)
            self.doubted.add(place)
            self.some.set()

    async def run(self) -> None:
        """Publishes digests, and judges places at which one differs. Raises Diverged."""
        for key, value in (await self.etcd.held(self.etcd.keys.digests)).items():
            self.note({"kv": {"key": key, "value": value}})
        while True:
            await self.some.wait()
            self.some.clear()
            try:
                last = self.last()
                if last and last.place > self.published:
                    await self.etcd.put(self.etcd.keys.digests + self.name.encode(), last.text())
                    self.published = last.place
                while self.doubted:
                    place = self.doubted.pop()
                    try:
                        await self.judge(place)
                    except (Refused, Unreachable):
                        self.doubted.add(place)
                        raise
            except (Refused, Unreachable):
                await asyncio.sleep(1.0)
                self.some.set()

    async def judge(self, place: int) -> None:
        """Raises Diverged if more than half of the named replicas have other digests than this one, and the same."""
        names = {self.etcd.keys.read_name(self.etcd.keys.replicas, key) for key in await self.etcd.held(self.etcd.keys.replicas)}
        own = self.log.digests.get(place)
        votes = collections.Counter(digest for name, digest in self.told[place].items() if name in names and name != self.name)
        for digest, count in votes.items():
            if own and digest != own and 2 * count > len(names - {None}):
                raise Diverged(f"{self.name} has {shortly(own)} after entry {place}, where {count} of {len(names)} replicas have "
                               f"{shortly(digest)}")


def shortly(digest: Digest) -> str:
    return f"log {digest.chain[:16]}, answers {digest.answers[:16]}, store {digest.store[:16]}"
