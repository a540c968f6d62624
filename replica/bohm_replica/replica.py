"""A replica: it follows the log in etcd, runs it, and answers clients at its door."""
import asyncio
import contextlib
import os
import sys
import time
from concurrent.futures import ThreadPoolExecutor
from pathlib import Path
from typing import Any, Awaitable, Callable, List, NamedTuple, Optional, Sequence, TypeVar

from . import access, checkpoints, peers
from .batches import RULES
from .bohm_of import bohm
from .digests import Digests, Diverged
from .door import Door
from .duty import Duty
from .etcd import Behind, Compacted, Etcd, Refused, Rewound, Told, Unreachable
from .figures import Figures
from .follow import Follower, News
from .handing import Handing
from .http_server import Server
from .keys import Keys, Member
from .log import Damaged, Log, NeedsNewer, Ran
from .options import Options
from .position import Entry, Position
from .sequencer import Sequencer
from .tasks import cancelled
from .ways import Tls

# Seconds from one look at etcd to the next, that it counts as heard of, and from one registration to the next.
LOOK, LATELY, REGISTER = 1.0, 10.0, 5.0
# Seconds until what has run is stored, together with what runs meanwhile.
STORE = 0.05
# Bytes of entries that are run without leaving the loop, and that are run at once.
INLINE, SLICE = 1 << 15, 1 << 20
# Seconds within which a second divergence ends a replica.
HOUR = 3600.0
Kind = TypeVar("Kind")


class InUse(Exception):
    """Another replica has the name."""


class Ended(Exception):
    """The replica can't go on."""


class Waiter(NamedTuple):
    revision: int
    future: "asyncio.Future[None]"


def say(text: str) -> None:
    print(text, file=sys.stderr, flush=True)


class Replica:
    """A replica with its log, its door and its ways to etcd. All but `work` runs in one event loop."""

    def __init__(self, options: Options, library: "bohm.Library") -> None:
        self.options, self.library = options, library
        self.version = getattr(bohm, "__version__", library.version)
        tls = options.get("etcd-authority")
        self.etcd = Etcd(options.members, Keys(options.get("prefix")),
                         Tls(tls, options.get("etcd-certificate"), options.get("etcd-key")) if tls else None, options.login,
                         options.get("etcd-way") == "gateway")
        users = options.get("users")
        self.access = access.Access(Path(users).read_text(encoding="utf-8") if users else None)
        self.figures = Figures()
        self.log: Optional[Log] = None
        self.sequencer: Optional[Sequencer] = None
        self.follower: Optional[Follower] = None
        self.digests: Optional[Digests] = None
        self.duty: Optional[Duty] = None
        # Why it answers less than it should; and whether it answers nothing.
        self.trouble: Optional[str] = "starting"
        self.is_stopped = self.takes = False
        # Whether the other thread runs entries; and that some have run.
        self.is_running, self.some = False, asyncio.Event()
        self.told: Optional[Told] = None
        self.told_at = 0.0
        self.waiters: List[Waiter] = []
        self.asking: "Optional[asyncio.Task[int]]" = None
        self.next: "Optional[asyncio.Task[int]]" = None
        self.diverged_at: Optional[float] = None
        self.may_take_log: bool = options.get("take-log")
        self.worker = ThreadPoolExecutor(1)
        self.server = Server(Door(self), lambda fault: say(f"a request failed: {fault!r}"), options.get("connections"), options.get("idle"))

    @property
    def mark(self) -> Path:
        """A file that is there as long as nothing may be answered from the others, also behind a restart."""
        return Path(self.options.folder) / "stopped"

    def stop_answering(self, why: str) -> None:
        self.is_stopped = True
        self.mark.write_text(f"{why}\n", encoding="utf-8")
        self.pause(why)

    def go_on_answering(self) -> None:
        self.is_stopped = False
        self.mark.unlink(missing_ok=True)

    @property
    def leads(self) -> bool:
        return self.duty is not None and self.duty.leads

    def position(self) -> Position:
        return self.log.position if self.log else Position()

    async def work(self, act: Callable[..., Kind], *given: Any) -> Kind:
        """Runs what takes long in the thread that changes the ledger."""
        return await asyncio.get_running_loop().run_in_executor(self.worker, act, *given)

    # Its life.

    async def run(self, ended: asyncio.Event) -> None:
        """Goes on until `ended` is set. Raises Ended, OSError, InUse, or bohm.LedgerError."""
        os.makedirs(self.options.folder, exist_ok=True)
        certificate = self.options.get("certificate")
        context = access.context_of(certificate, self.options.get("key"), self.options.get("client-authority"),
                                    not self.options.get("users")) if certificate else None
        if self.mark.exists():
            self.is_stopped, self.trouble = True, self.mark.read_text(encoding="utf-8").strip()
        await self.open_log()
        await self.server.start(*self.options.listen, context)
        going = asyncio.ensure_future(self.go_on())
        ending = asyncio.ensure_future(ended.wait())
        try:
            await asyncio.wait({going, ending}, return_when=asyncio.FIRST_COMPLETED)
            if going.done():
                going.result()
        finally:
            await self.stop([going, ending])

    async def stop(self, tasks: Sequence["asyncio.Future[Any]"]) -> None:
        await cancelled(tasks)
        self.end_clients(Unreachable("the replica ends"))
        await asyncio.sleep(0)
        await self.server.stop()
        await self.etcd.close()
        if self.log:
            await self.work(self.log.release if self.is_stopped else self.log.close)
        self.worker.shutdown()

    async def open_log(self) -> None:
        """Opens the folder's ledger. One that is damaged is set aside."""
        path = os.path.join(self.options.folder, checkpoints.NAME)
        given = self.options.get("checkpoint-every"), self.library, self.options.get("edition")
        try:
            self.log = await self.work(Log, path, *given)
        except Damaged as fault:
            self.set_aside(f"damaged: {fault}")
            self.log = await self.work(Log, path, *given)
        if not self.may_take_log:
            # Members of another cluster then count as ones that don't answer.
            self.etcd.cluster = self.log.position.cluster

    def set_aside(self, why: str) -> None:
        """Moves the files away, and has no log then."""
        if self.log:
            self.log.release()
            self.log = None
        stamp = time.strftime("%Y%m%dT%H%M%S") + f".{time.time_ns() % 10**9:09d}"
        say(f"{why}; its files are in {checkpoints.set_aside(Path(self.options.folder), why, stamp)}")

    async def go_on(self) -> None:
        """Follows the log, and mends what can be mended."""
        while True:
            try:
                await self.follow()
            except Behind as fault:
                self.pause(f"behind: {fault}")
                if not await self.start_from_peer():
                    # Somebody may mend the log meanwhile.
                    await asyncio.sleep(peers.ROUND)
            except Diverged as fault:
                await self.start_again(fault)
            except Rewound as fault:
                await self.take_other_log(fault)
            except NeedsNewer as fault:
                self.is_stopped = True
                raise Ended(f"NeedsNewer: {fault}") from fault
            except (Refused, Unreachable, Compacted) as fault:
                self.pause(f"etcd: {fault}")
                await asyncio.sleep(LOOK)
            except bohm.LedgerError as fault:
                self.pause(f"disk: {fault}")
                await asyncio.sleep(LOOK)
                await self.reopen()

    def pause(self, why: str) -> None:
        """From here on nothing is taken, until it follows again."""
        if why != self.trouble:
            say(why)
        self.trouble, self.takes = why, False
        self.end_clients(Unreachable(why))

    def end_clients(self, fault: Exception) -> None:
        if self.sequencer:
            self.sequencer.end_all(fault)
        for waiter in self.waiters:
            if not waiter.future.done():
                waiter.future.set_exception(fault)
        self.waiters = []

    async def reopen(self) -> None:
        """Reads the files again, after a write that failed."""
        if self.log:
            await self.work(self.log.release)
            self.log = None
        with contextlib.suppress(bohm.LedgerError):
            await self.open_log()

    async def start_again(self, fault: Diverged) -> None:
        """One that diverged keeps its files for whoever looks, and starts from another replica. A second time ends it."""
        now = time.monotonic()
        self.stop_answering(f"Diverged: {fault}")
        if self.diverged_at is not None and now - self.diverged_at < HOUR:
            raise Ended(f"Diverged: {fault}, and it has once before")
        self.diverged_at = now
        self.set_aside(f"Diverged: {fault}")
        self.go_on_answering()
        while not await self.start_from_peer():
            await asyncio.sleep(peers.ROUND)

    async def take_other_log(self, fault: Rewound) -> None:
        """Ends, unless the log that etcd has now is to be taken."""
        self.stop_answering(f"Rewound: {fault}")
        if not self.may_take_log:
            raise Ended(f"Rewound: {fault}")
        self.may_take_log, self.etcd.cluster = False, 0
        self.set_aside(f"Rewound: {fault}")
        await self.open_log()
        self.go_on_answering()

    async def start_from_peer(self) -> bool:
        """Takes the files of another replica in place of its own, which may be read meanwhile, if one has files that fit."""
        incoming = await peers.fetched(self.options, self.etcd, self.library)
        if not incoming:
            return False
        folder = Path(self.options.folder)
        if self.log:
            self.set_aside("behind what etcd has")
        checkpoints.placed(incoming, folder)
        await self.open_log()
        return True

    # Following the log.

    async def follow(self) -> None:
        """Everything that goes on at once, until one part of it fails."""
        if not self.log:
            await self.open_log()
        assert self.log
        log = self.log
        self.digests = Digests(self.etcd, self.options.name, log)
        self.duty = Duty(self.etcd, self.options.name, log, self.options.get("keep-entries"), say)
        self.end_clients(Unreachable("the log is followed anew"))
        duty = self.duty
        handing = Handing(self.options, lambda: duty.chief)
        self.sequencer = Sequencer(self.etcd, self.options.name, self.position, self.options.get("linger") / 1000, handing)
        self.follower = Follower(self.etcd, self.position, lambda: log.numbers, self.waits_for)
        parts: List[Awaitable[None]] = [self.take_all(log), self.look(), self.sequencer.run(), handing.run(), self.digests.run(),
                                        self.duty.run(), self.register(log), self.keep(log)]
        tasks = {asyncio.ensure_future(part) for part in parts}
        try:
            done, _ = await asyncio.wait(tasks, return_when=asyncio.FIRST_EXCEPTION)
            for task in done:
                task.result()
        finally:
            await cancelled(tasks)
            self.takes = False

    def waits_for(self, changes: bytes) -> bool:
        """Whether a client waits for changes of etcd: for an entry of its own, or for a read of all that there is."""
        return bool(self.waiters) or self.sequencer is not None and self.sequencer.is_awaited(changes)

    async def take_all(self, log: Log) -> None:
        assert self.follower
        news = self.follower.news()
        try:
            async for each in news:
                await self.take(log, each)
        finally:
            await news.aclose()  # type: ignore[attr-defined]

    async def take(self, log: Log, news: News) -> None:
        if not log.position.cluster and news.entries:
            log.position = log.position._replace(cluster=self.etcd.cluster)
        for part in sliced(news.entries):
            begun = time.monotonic()
            if sum(len(entry.value) for entry in part) < INLINE:
                ran = log.apply(part)
            else:
                ran = await self.run_beside(log.apply, part)
            self.figures.apply.add(time.monotonic() - begun)
            self.after(log, ran)
            if log.is_due():
                await self.run_beside(log.checkpoint)
        if self.digests:
            for event in news.others:
                self.digests.note(event)

    async def run_beside(self, act: Callable[..., Kind], *given: Any) -> Kind:
        """Changes the log in the other thread."""
        self.is_running = True
        try:
            return await self.work(act, *given)
        finally:
            self.is_running = False

    async def keep(self, log: Log) -> None:
        """Stores what has run, some milliseconds later. What isn't stored comes again from etcd."""
        while True:
            await self.some.wait()
            await asyncio.sleep(STORE)
            if not self.is_running:
                self.some.clear()
                log.store()

    def after(self, log: Log, ran: Sequence[Ran]) -> None:
        """Tells those who wait that entries have run."""
        assert self.sequencer and self.digests and self.duty
        self.some.set()
        self.figures.note(ran)
        for each in ran:
            self.sequencer.ran(each.entry.name, each.entry.number, each)
        self.digests.moved()
        self.duty.moved()
        self.wake()

    def wake(self) -> None:
        revision = self.position().revision
        if self.waiters:
            for waiter in self.waiters:
                if waiter.revision <= revision and not waiter.future.done():
                    waiter.future.set_result(None)
            self.waiters = [waiter for waiter in self.waiters if not waiter.future.done()]

    async def look(self) -> None:
        """Asks etcd again and again what it has, and whether it still has what was read from it."""
        while True:
            try:
                self.told = await self.etcd.confirm(self.position(), 5.0)
                self.told_at = time.monotonic()
                self.trouble, self.takes = None, True
                if self.is_stopped:
                    self.go_on_answering()
            except Unreachable as fault:
                self.trouble = f"etcd: {fault}"
                # What waits may still run; no more is taken.
                self.takes = time.monotonic() - self.told_at < LATELY
            await asyncio.sleep(LOOK)

    def unready(self) -> Optional[str]:
        """Why clients had better ask another replica, if they had."""
        if self.trouble or self.is_stopped or not self.log:
            return self.trouble or "stopped"
        if not self.told or time.monotonic() - self.told_at > LATELY:
            return "etcd hasn't told lately what it has"
        missing = self.told.last > self.log.position.revision and self.follower is not None and self.follower.missing
        return f"{missing} revisions of etcd are missing" if missing else None

    # Fresh reads.

    async def fresh(self) -> None:
        """Waits until all has run that was acknowledged before this call. Raises asyncio.TimeoutError, Unreachable, Rewound or
        Behind."""
        wait = self.options.get("wait")
        end = time.monotonic() + wait
        revision = await asyncio.wait_for(self.last(), wait)
        if self.position().revision < revision:
            waiter = Waiter(revision, asyncio.get_running_loop().create_future())
            self.waiters.append(waiter)
            self.etcd.hurry()
            await asyncio.wait_for(waiter.future, max(0.001, end - time.monotonic()))

    async def last(self) -> int:
        """The revision of etcd's last entry, by a request that begins behind this call. Those who call while one is under way
        share the next."""
        if self.next is None:
            self.next = asyncio.ensure_future(self.asked(self.asking))
        return await asyncio.shield(self.next)

    async def asked(self, before: "Optional[asyncio.Task[int]]") -> int:
        if before and not before.done():
            await asyncio.wait({before})
        self.asking, self.next = self.next, None
        return (await self.etcd.confirm(self.position(), self.options.get("wait"))).last

    # Being known.

    async def register(self, log: Log) -> None:
        """Tells the others where this replica is, and what its file holds for certain."""
        key = self.etcd.keys.replicas + self.options.name.encode()
        if (await peers.name_at(self.options, (await self.etcd.held(key)).get(key))) == self.options.name:
            raise InUse(f"another replica is called {self.options.name}")
        before: Optional[Member] = None
        while True:
            try:
                here = await self.work(log.sync)
                member = Member(self.options.url, here.revision, here.entries, RULES)
                if member != before:
                    await self.etcd.put(key, member.text())
                    before = member
            except (Refused, Unreachable) as fault:
                # A full etcd takes nothing, and the name that is there stays.
                if before is None:
                    say(f"the name isn't told: {fault}")
                before = before or Member(self.options.url, 0, 0, RULES)
            await asyncio.sleep(REGISTER)


def sliced(entries: Sequence[Entry]) -> List[List[Entry]]:
    """Entries in parts of about a size, those of one revision in one."""
    parts: List[List[Entry]] = []
    size = 0
    for entry in entries:
        if not parts or size >= SLICE and entry.revision > parts[-1][-1].revision:
            parts.append([])
            size = 0
        parts[-1].append(entry)
        size += len(entry.value)
    return parts
