"""The processes and clients of a run, and its log of events as they happen."""
from __future__ import annotations

import sys
import threading
import time
from collections.abc import Callable
from dataclasses import dataclass, field
from typing import Any

from load import Client
from stage import Child, ReplicaChild
from trial import Witness, told

# Seconds: for a new process to answer on a machine that has other work, and between two checks.
STARTED, LOOK = 600.0, 0.02
# Seconds that a replica may take to report its progress, for the log of events.
GLANCE = 2.0


class Failed(Exception):
    """The run can't continue, or has found an error."""


@dataclass
class Scene:
    """The processes and the clients, and the time by which all must be over. `addresses` are the members'."""
    addresses: list[str]
    members: list[Child]
    replicas: list[ReplicaChild]
    clients: list[Client]
    limit: float
    quiet: bool = False
    began: float = field(default_factory=time.monotonic)
    story: list[str] = field(default_factory=list)
    fault: Exception | None = None
    known: dict[str, int] = field(default_factory=dict)
    # Keys that somebody else put where an entry may be missing before them.
    foreign: list[bytes] = field(default_factory=list)
    over: bool = False

    def __post_init__(self) -> None:
        self.witness = Witness(self.addresses)
        threading.Thread(target=self.look, daemon=True).start()

    def elapsed(self) -> float:
        return time.monotonic() - self.began

    def loaded(self) -> bool:
        return any(client.is_alive() for client in self.clients)

    def look(self) -> None:
        """Records the progress of each replica."""
        while not self.over:
            for replica in list(self.replicas):
                status = replica.status(GLANCE) if replica.process else None
                if status and "entries" in status:
                    self.known[replica.name] = status["entries"]
                else:
                    self.known.pop(replica.name, None)
            time.sleep(0.2)

    def tell(self, words: str) -> None:
        far = "  ".join(f"{self.known[replica.name]:>7,}" if replica.name in self.known else "      -"
                        for replica in self.replicas)
        line = f"{self.elapsed():6.1f} s  {words:<56}  {far}"
        self.story.append(line)
        if not self.quiet:
            print(line, flush=True)

    def check(self) -> None:
        """Raises Failed if a client or a process failed by itself."""
        if self.fault:
            raise Failed(f"{type(self.fault).__name__}: {self.fault}")
        for client in self.clients:
            if client.fault:
                raise Failed(f"client {client.number}: {client.fault!r}")
        for child in (*self.members, *self.replicas):
            if child.ended_alone() and not child.disturbed:
                raise Failed(f"{child.name} ended by itself: {child.said.read_text()[-500:]}")

    def wait(self, what: str, ready: Callable[[], object], wait: float = STARTED) -> None:
        end = time.monotonic() + wait
        while not ready():
            if time.monotonic() > end or self.elapsed() > self.limit:
                raise Failed(f"too long a wait: {what}")
            self.check()
            time.sleep(LOOK)

    def start(self, child: Child) -> dict[str, Any]:
        """Starts a process. For a replica it waits for the first status, and returns it."""
        child.start()
        child.disturbed = False
        return self.status(child) if isinstance(child, ReplicaChild) else {}

    def status(self, replica: ReplicaChild) -> dict[str, Any]:
        """A replica's status, as soon as it has a log."""
        found: dict[str, Any] = {}

        def answers() -> bool:
            found.update(replica.status() or {})
            return "entries" in found

        self.wait(f"{replica.name} answers", answers)
        return found

    def caught_up(self, replica: ReplicaChild) -> None:
        """Waits until a replica has run all that etcd has at the time of the call."""
        revision = self.last()
        self.wait(f"{replica.name} at revision {revision}", lambda: (replica.status() or {}).get("revision", -1) >= revision)

    def last(self) -> int:
        """The revision of etcd's last entry."""
        kvs = told(self.addresses, lambda etcd: etcd.ask("range", {"key": etcd.keys.last})).get("kvs", [])
        return int(kvs[0]["mod_revision"]) if kvs else 0

    def stop(self) -> None:
        self.over = True
        with Child.lock:
            Child.over = True
        for child in (*self.replicas, *self.members):
            child.go_on()
            child.kill()


def complain(words: str) -> None:
    print(words, file=sys.stderr, flush=True)
