"""The faults that members and replicas suffer during the demo, drawn from a seed."""
from __future__ import annotations

import itertools
import random
import sqlite3
import subprocess
import threading
import time
from collections import Counter
from collections.abc import Callable, Iterator
from pathlib import Path

import network
from scene import Failed, Scene
from stage import PYTHON, Child, ReplicaChild
from trial import OPERATE, told

# What somebody else puts in an entry's place.
FOREIGN = b"batch 1\nhello"

# Seconds that a fault lasts, and from its end to the next fault.
LASTS, BETWEEN = (0.5, 4.5), (0.3, 2.0)
# Seconds that a clock jumps forwards or back.
JUMPS = (1, 60, 86_400, 10_000_000)


class Faults(threading.Thread):
    """Disturbs one of several processes at a time, for some seconds."""

    def __init__(self, scene: Scene, rng: random.Random, seconds: float) -> None:
        super().__init__(daemon=True)
        self.scene, self.rng, self.seconds = scene, rng, seconds
        self.done: Counter[str] = Counter()

    def run(self) -> None:
        try:
            self.play()
        except Exception as fault:
            self.scene.fault = self.scene.fault or fault

    def play(self) -> None:
        raise NotImplementedError

    def do(self, name: str, act: Callable[[], None]) -> None:
        act()
        self.done[name] += 1

    def shuffled(self, names: list[str], until: float) -> Iterator[str]:
        """All names in a random order, repeated, with pauses, until a part of the time is over."""
        self.rng.shuffle(names)
        for name in itertools.cycle(names):
            time.sleep(self.rng.uniform(*BETWEEN))
            if self.scene.elapsed() > until * self.seconds:
                return
            yield name

    def last(self) -> None:
        time.sleep(self.rng.uniform(*LASTS))

    def kill(self, child: Child) -> None:
        child.disturbed = True
        child.kill()
        self.scene.tell(f"{child.name} killed")
        self.last()
        self.scene.start(child)
        self.scene.tell(f"{child.name} started again")

    def pause(self, child: Child) -> None:
        child.pause()
        self.scene.tell(f"{child.name} paused")
        self.last()
        child.go_on()
        self.scene.tell(f"{child.name} goes on")


class MemberFaults(Faults):
    """Kills, pauses and, if there are namespaces, partitions etcd's members."""

    def play(self) -> None:
        acts = {"member killed": self.kill, "member paused": self.pause}
        if network.inside():
            acts["members parted"] = self.part
        for name in self.shuffled(list(acts), 0.9):
            self.do(name, lambda: acts[name](self.rng.choice(self.scene.members)))

    def part(self, child: Child) -> None:
        """Cuts one member off from both others, or from one of them."""
        one = self.scene.members.index(child) + 1
        others = [number for number in (1, 2, 3) if number != one][:self.rng.randrange(1, 3)]
        for other in others:
            network.part(one, other)
        self.scene.tell(f"{child.name} parted from {' and '.join(f'member{other}' for other in others)}")
        self.last()
        for other in others:
            network.join(one, other)
        self.scene.tell(f"{child.name} joined again")


class ReplicaFaults(Faults):
    """Disturbs the replicas in turn and upgrades them, and puts foreign keys into etcd; starts the late one. `newer` is the program
    that an upgrade starts."""

    def __init__(self, scene: Scene, rng: random.Random, seconds: float, late: ReplicaChild, newer: Path) -> None:
        super().__init__(scene, rng, seconds)
        self.late, self.newer = late, newer

    def play(self) -> None:
        acts = {"replica killed": self.kill, "replica paused": self.pause, "files changed": self.spoil, "files lost": self.lose,
                "foreign keys": self.intrude, "upgraded": self.upgrade}
        acts |= {"disk full": self.fill} if network.inside() else {}
        acts |= {"clock jumped": self.jump} if find_faketime() else {}
        for name in self.shuffled(list(acts), 0.85):
            if self.late not in self.scene.replicas and self.scene.elapsed() > 0.4 * self.seconds:
                self.do("joined", lambda: self.join_late(self.rng.choice(self.scene.replicas)))
            self.do(name, lambda: acts[name](self.rng.choice(self.scene.replicas)))
        self.do("replica killed", lambda: self.kill(self.rng.choice(self.scene.replicas)))

    def fill(self, replica: ReplicaChild) -> None:
        """A replica whose disk is full says so, and goes on when there is room."""
        said = replica.said.stat().st_size
        network.fill(replica.folder)
        self.scene.tell(f"{replica.name}'s disk is full")
        # Without clients it writes nothing.
        self.scene.wait(f"{replica.name} says so", lambda: b"disk: " in replica.said.read_bytes()[said:] or not self.scene.loaded())
        self.last()
        network.empty(replica.folder)
        self.scene.status(replica)
        self.scene.tell(f"{replica.name} goes on with room")

    def jump(self, replica: ReplicaChild) -> None:
        """A replica's clock jumps. Those of etcd's members can't be changed: a program in Go asks the kernel itself."""
        by = self.rng.choice(JUMPS) * self.rng.choice((1, -1))
        set_clock(replica, by)
        self.scene.tell(f"{replica.name}'s clock jumps by {by:+,} s")
        self.last()
        set_clock(replica, 0)
        self.scene.tell(f"{replica.name}'s clock jumps back")

    def spoil(self, replica: ReplicaChild) -> None:
        """Changed files are set aside, and the log is run from its beginning, or another replica's files are taken."""
        replica.disturbed = True
        if status := replica.end():
            raise Failed(f"{replica.name} ended with status {status}")
        changes = ["UPDATE balance SET value = value + 1 WHERE key = (SELECT min(key) FROM balance)",
                   "UPDATE request SET answer = answer || '1' WHERE id = (SELECT max(id) FROM request)",
                   "UPDATE position SET requests = '" + "0" * 63 + "1'", "DELETE FROM sequencer; DELETE FROM position"]
        self.rng.shuffle(changes)
        with sqlite3.connect(replica.folder / "ledger") as base:
            # One that has run nothing yet has neither ids nor balances.
            for change in changes:
                base.executescript(change)
                if base.total_changes:
                    break
        base.close()
        said = replica.said.stat().st_size
        self.scene.start(replica)
        if b"damaged: " not in replica.said.read_bytes()[said:]:
            raise Failed(f"{replica.name} took files that were changed: {change}")
        self.scene.tell(f"{replica.name} ended, its files changed; started again, refused them")

    def lose(self, replica: ReplicaChild) -> None:
        """Files that are gone come again from the log, or from another replica."""
        replica.disturbed = True
        replica.kill()
        for path in replica.folder.glob("ledger*"):
            path.unlink()
        self.scene.start(replica)
        self.scene.tell(f"{replica.name} killed, its files deleted; started again")

    def intrude(self, _: ReplicaChild) -> None:
        """Keys that are nobody's, an entry that is overwritten, and one with a number too far."""
        puts = self.scene.witness.puts
        old, last = self.rng.choice(puts), puts[-1]
        far = last.key[:-4] + b"%04d" % ((int(last.key[-4:]) + self.rng.randrange(3, 99)) % 10_000)
        keys = [(b"bohm/digest/x/y", b"z"), (b"bohm/log/x", b"z"), (b"bohm/replica/\xff", b"["), (b"bohm/digest/r1", b"1 2 3 4"),
                (old.key, FOREIGN), (far, FOREIGN)]
        key, value = self.rng.choice(keys)
        if key == far:
            self.scene.foreign.append(key)
        told(self.scene.addresses, lambda etcd: etcd.put(key, value))
        self.scene.tell(f"somebody put {key!r}")

    def upgrade(self, _: ReplicaChild) -> None:
        """Each replica is ended, started as another program and waited for, one at a time."""
        for replica in self.scene.replicas:
            replica.disturbed = True
            if status := replica.end():
                raise Failed(f"{replica.name} ended with status {status}")
            replica.command[1] = str(self.newer)
            self.scene.start(replica)
            self.scene.caught_up(replica)
            self.scene.tell(f"{replica.name} upgraded")

    def join_late(self, source: ReplicaChild) -> None:
        """One more replica starts from the backup of another one, which continues meanwhile, or from nothing."""
        if self.rng.randrange(2):
            file = self.late.folder.with_suffix(".backup")
            operate("backup", f"http://127.0.0.1:{source.port}", str(file))
            operate("restore", str(file), str(self.late.folder))
        self.scene.replicas.append(self.late)
        self.scene.start(self.late)
        self.scene.tell(f"{self.late.name} started")


def set_clock(replica: ReplicaChild, by: int) -> None:
    new = replica.folder.with_suffix(".clock.new")
    new.write_text(f"{by:+d}\n")
    new.rename(replica.folder.with_suffix(".clock"))


def faked_clock(replica: ReplicaChild, faketime: Path) -> None:
    """Gives a replica its own wall clock; the monotonic clock stays the system's."""
    set_clock(replica, 0)
    replica.variables |= {"LD_PRELOAD": str(faketime), "FAKETIME_CACHE_DURATION": "1",
                          "FAKETIME_TIMESTAMP_FILE": str(replica.folder.with_suffix(".clock")),
                          "FAKETIME_DONT_FAKE_MONOTONIC": "1"}


def find_faketime() -> Path | None:
    return next(Path("/usr/lib").glob("*/faketime/libfaketimeMT.so.1"), None)


def left_out() -> list[str]:
    """The faults that can't be made here, and why."""
    why = network.missing()
    found = [f"left out: partitions and full disks: {why}"] if why else []
    return found + ([] if find_faketime() else ["left out: clocks that jump: there is no libfaketime"])


def operate(*words: str) -> str:
    done = subprocess.run([PYTHON, OPERATE, *words], capture_output=True, text=True, timeout=300)
    if done.returncode:
        raise Failed(done.stderr.strip())
    return done.stdout.strip()
