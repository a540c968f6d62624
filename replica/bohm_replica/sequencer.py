"""A sequencer: what clients sent within some milliseconds becomes one entry of the log."""
import asyncio
import collections
import secrets
import time
from typing import Callable, Deque, Dict, List, NamedTuple, Optional, Protocol, Sequence, Tuple

from . import batches
from .etcd import Etcd, Refused, Taken, Unreachable
from .handing import Handing, Place, Untaken
from .log import Ran
from .position import Position

# The most texts and bytes of an entry of the log, and of all that wait for an answer.
MOST, LARGEST = batches.MOST, 1 << 18
MOST_WAITING, LARGEST_WAITING = 20_000, 1 << 24
# Seconds for which what is about to come is waited for, and texts of which no more are waited for, since an entry's own cost is then a
# small part of theirs.
GATHER, ENOUGH = 0.002, 512
# Bytes of texts under way up to which they are handed over: an entry's own cost is a small part of that of more.
HANDED = 1 << 14
# Entries of others that are remembered while it isn't known in which of them texts are that were handed over, and seconds after
# which the entry with such texts has been missed.
MOST_SEEN, MISSED = 64, 60.0
# The part of its peak that the number of texts under way has to reach, and what the peak keeps from one entry to the next.
MOSTLY, KEPT = 0.9, 0.8


class Busy(Exception):
    """So much waits that no more is taken."""


class Sent(Protocol):
    """Texts that wait for their answers, and their bytes. One of the last two calls ends it, once."""

    texts: Sequence[str]
    size: int

    def placed(self, place: Place) -> None:
        """Takes the place at which the texts are about to be put."""

    def take(self, revision: int, answers: Sequence[str], now: float) -> None:
        """Takes the answers, the revision of the entry in which the texts were put, and the time."""

    def fail(self, fault: Exception) -> None:
        """Takes the fault by which there are no answers."""


class Elsewhere(NamedTuple):
    """Texts in an entry of another sequencer, how many are before them there, and since when that is known."""

    at: int
    group: List[Sent]
    begun: float


class Sequencer:
    """Puts entries of its own name, one after another; or hands texts to the replica that puts for all."""

    def __init__(self, etcd: Etcd, replica: str, position: Callable[[], Position], linger: float,
                 handing: Optional[Handing] = None) -> None:
        self.etcd, self.replica, self.position, self.linger = etcd, replica, position, linger
        self.waiting: Deque[Sent] = collections.deque()
        self.put: Dict[int, List[Sent]] = {}
        self.handing = handing
        if handing:
            handing.lost = self.lose
        # Texts that are being handed over; entries of others that ran meanwhile; and texts in entries of others.
        self.handed: List[Sent] = []
        self.seen: Dict[Tuple[str, int], Ran] = {}
        self.elsewhere: Dict[Tuple[str, int], Elsewhere] = {}
        self.some = asyncio.Event()
        # Texts that haven't been put; so many of them that `enough` is set; and how many were under way at most, lately.
        self.queued, self.expected, self.enough, self.peak = 0, 0.0, asyncio.Event(), 0.0
        self.count = self.size = 0
        self.begin()

    def begin(self) -> None:
        """Takes a name that no other sequencer has, before or now."""
        self.name, self.number = f"{self.replica}.{secrets.token_hex(6)}", 0
        # What each key of its entries has, and few others; and the same of the sequencer that took texts last.
        self.mark, self.other = f"/{self.name}/".encode(), b""

    def submit(self, sent: Sent) -> None:
        """Texts without a NUL, at most `MOST`, which are put together. Raises Busy."""
        count, size = self.count + len(sent.texts), self.size + sent.size
        if count > MOST_WAITING or size > LARGEST_WAITING:
            raise Busy(f"{self.count} entries wait")
        self.count, self.size = count, size
        self.waiting.append(sent)
        self.queued += len(sent.texts)
        if len(self.waiting) == 1:
            self.some.set()
        if self.queued >= self.expected:
            self.enough.set()

    def taken(self) -> List[Sent]:
        """What goes into the next entry."""
        group = [self.waiting.popleft()]
        count, size = len(group[0].texts), group[0].size
        while self.waiting and count + len(self.waiting[0].texts) <= MOST and size + self.waiting[0].size <= LARGEST:
            group.append(self.waiting.popleft())
            count += len(group[-1].texts)
            size += group[-1].size
        self.queued -= count
        return group

    async def run(self) -> None:
        """Puts what comes, without end. Raises Rewound, or Behind."""
        begun = 0.0
        while True:
            if not self.waiting:
                self.some.clear()
                await self.some.wait()
            # One that comes alone is put at once, and what comes while it is under way goes together. Where several came
            # together before, the others are about to come again, now that they were answered.
            self.peak = max(self.count, KEPT * self.peak)
            come_together = self.count > 1 or self.peak > 1.5
            hands = come_together and self.size <= HANDED and self.handing is not None and self.handing.is_open
            if come_together:
                await self.gather(0.0 if hands else begun + self.linger - time.monotonic())
            begun = time.monotonic()
            group = self.taken()
            if not hands or not await self.hand_over(group):
                await self.put_group(group)

    async def gather(self, left: float) -> None:
        """Waits so many seconds, and then, for some milliseconds, until most have come of those that come again."""
        if left > 0:
            await asyncio.sleep(left)
        self.expected = min(MOSTLY * self.peak, ENOUGH)
        if self.queued < self.expected:
            self.enough.clear()
            timer = asyncio.get_running_loop().call_later(GATHER, self.enough.set)
            await self.enough.wait()
            timer.cancel()

    async def put_group(self, group: List[Sent]) -> None:
        value = self.value_of(group)
        while True:
            self.put[self.number + 1] = group
            at = 0
            for sent in group:
                sent.placed(Place(self.name, self.number + 1, at))
                at += len(sent.texts)
            try:
                await self.etcd.put_entry(self.name, self.number + 1, value, self.position)
                self.number += 1
                return
            except Refused as fault:
                self.end(self.put.pop(self.number + 1, []), fault)
                # Other replicas were told this number for their texts.
                self.begin()
                return
            except Taken:
                del self.put[self.number + 1]
                self.begin()

    def value_of(self, group: Sequence[Sent]) -> bytes:
        return batches.written([text for sent in group for text in sent.texts], self.position().rules)

    async def hand_over(self, group: List[Sent]) -> bool:
        """Gives texts to the replica that puts for all. Whether it took them, or may have taken them."""
        assert self.handing
        self.lose(Unreachable("the entry was missed"), MISSED)
        self.handed = group
        self.seen.clear()
        try:
            place = await self.handing.hand(self.value_of(group))
        except Untaken:
            self.handed = []
            return False
        except Unreachable as fault:
            self.handed = []
            self.end(group, fault)
            return True
        self.handed = []
        self.other = f"/{place.name}/".encode()
        ran = self.seen.get((place.name, place.number))
        if ran:
            self.give_from(group, ran, place.at)
        else:
            self.elsewhere[place.name, place.number] = Elsewhere(place.at, group, time.monotonic())
        return True

    def lose(self, fault: Exception, age: float = 0.0) -> None:
        """Ends what has been in entries of others for so many seconds: nothing more is known of it."""
        limit = time.monotonic() - age
        for key in [key for key, found in self.elsewhere.items() if found.begun <= limit]:
            self.end(self.elsewhere.pop(key).group, fault)

    def is_awaited(self, changes: bytes) -> bool:
        """Whether somebody waits for changes of etcd, by their bytes."""
        return self.mark in changes or bool(self.handed or self.elsewhere) and self.other in changes

    def ran(self, name: str, number: int, ran: Ran) -> None:
        """Gives the answers of an entry to those who sent its texts."""
        if name == self.name:
            if group := self.put.pop(number, None):
                self.give(group, ran, 0)
            return
        if found := self.elsewhere.pop((name, number), None):
            self.give_from(found.group, ran, found.at)
        if self.handed:
            self.seen[name, number] = ran
            if len(self.seen) > MOST_SEEN:
                del self.seen[next(iter(self.seen))]

    def give_from(self, group: Sequence[Sent], ran: Ran, at: int) -> None:
        """Gives the answers of somebody else's entry, from an offset on, if the texts are there."""
        texts = [text for sent in group for text in sent.texts]
        if [*ran.texts[at:at + len(texts)]] == texts:
            self.give(group, ran, at)
        else:
            self.end(group, Unreachable("the entry isn't where it was said to be: it may run later, so send it again with its id"))

    def give(self, group: Sequence[Sent], ran: Ran, at: int) -> None:
        """Gives the answers of an entry, from an offset on."""
        if ran.skipped:
            self.end(group, Refused(f"the entry was skipped: {ran.skipped}"))
            return
        self.forget(group)
        revision, answers, now = ran.entry.revision, ran.answers, time.monotonic()
        for sent in group:
            end = at + len(sent.texts)
            sent.take(revision, answers[at:end], now)
            at = end

    def end(self, group: Sequence[Sent], fault: Exception) -> None:
        """Ends with a fault what was sent."""
        self.forget(group)
        for sent in group:
            sent.fail(fault)

    def end_all(self, fault: Exception) -> None:
        groups = [self.waiting, *self.put.values(), self.handed, *(found.group for found in self.elsewhere.values())]
        ended = [sent for group in groups for sent in group]
        self.waiting.clear()
        self.put.clear()
        self.elsewhere.clear()
        self.handed, self.queued = [], 0
        self.end(ended, fault)

    def forget(self, group: Sequence[Sent]) -> None:
        self.count -= sum([len(sent.texts) for sent in group])
        self.size -= sum([sent.size for sent in group])

    def is_full(self) -> bool:
        """Whether so much waits that no batch may come."""
        return self.count + MOST > MOST_WAITING or self.size + LARGEST > LARGEST_WAITING
