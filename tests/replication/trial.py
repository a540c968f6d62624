"""What tests of replicas on etcd stand on: members on loopback, replicas, a witness of the log, and what clients send."""
from __future__ import annotations

import asyncio
import random
import subprocess
import sys
import threading
import time
from collections.abc import Callable
from pathlib import Path
from typing import Any

HERE = Path(__file__).resolve().parent
sys.path.insert(0, str(HERE.parents[1] / "replica"))
from bohm_replica import ways  # noqa: E402
from bohm_replica.bohm_of import bohm  # noqa: E402
from bohm_replica.etcd import Etcd, Unreachable  # noqa: E402
from bohm_replica.keys import Keys  # noqa: E402

import serial  # noqa: E402
import stage  # noqa: E402
from load import openings, transfer  # noqa: E402
from serial import Put, Serial  # noqa: E402
from stage import Child, ReplicaChild, replica_child  # noqa: E402

# The most seconds to wait for anything.
LIMIT = 120.0
OPERATE = HERE.parents[1] / "replica" / "operate"


def wait(what: str, ready: Callable[[], Any], seconds: float = LIMIT) -> Any:
    end = time.monotonic() + seconds
    while not (found := ready()):
        assert time.monotonic() < end, f"too long a wait: {what}"
        time.sleep(0.05)
    return found


def told(members: list[str], act: Callable[[Etcd], Any]) -> Any:
    """What a client of etcd does, in an event loop of its own."""
    async def done() -> Any:
        etcd = Etcd(members, Keys("bohm/"), by_gateway=True)
        try:
            return await act(etcd)
        finally:
            await etcd.close()

    return asyncio.run(done())


class Witness(threading.Thread):
    """Keeps each key of the log that was ever made, from the first revision on, and each digest that was told. It goes on behind
    a revision with the keys up to there that another one saw."""

    def __init__(self, members: list[str], before: Witness | None = None, revision: int = 0) -> None:
        super().__init__(daemon=True)
        self.members = members
        self.puts: list[Put] = [put for put in before.puts if put.revision <= revision] if before else []
        self.digests: list[bytes] = []
        self.revision = revision

    def run(self) -> None:
        asyncio.run(self.follow())

    async def follow(self) -> None:
        etcd = Etcd(self.members, Keys("bohm/"), by_gateway=True)
        while True:
            try:
                async for events in etcd.watch(self.revision + 1):
                    self.note(etcd, events or [])
            except ways.Fault:
                etcd.turn()
            await asyncio.sleep(0.05)

    def note(self, etcd: Etcd, events: list[dict[str, Any]]) -> None:
        for event in sorted(events, key=lambda each: (each["kv"]["mod_revision"], each["kv"]["key"])):
            kv = event["kv"]
            if kv["mod_revision"] <= self.revision or event.get("type"):
                continue
            if kv["key"].startswith(etcd.keys.log) and kv.get("version") == 1:
                self.puts.append(Put(kv["mod_revision"], kv["key"], kv.get("value", b"")))
            if kv["key"].startswith(etcd.keys.digests):
                self.digests.append(kv.get("value", b""))
        self.revision = max([self.revision, *(event["kv"]["mod_revision"] for event in events)])


class Trial:
    """Members, replicas, and the entries that are sent."""

    members_count = 3
    names: tuple[str, ...] = ("r1", "r2", "r3")
    more: list[str] = []

    def __init__(self, folder: Path, library: Path, program: Path) -> None:
        self.folder, self.library, self.program = folder, library, program
        self.seats = stage.on_loopback(self.members_count)
        self.addresses = [f"{seat.host}:{seat.client}" for seat in self.seats]
        self.members = stage.members_of(folder, self.seats)
        self.children: list[Child] = list(self.members)
        self.rng = random.Random(7)
        self.count = 0
        self.replicas: list[ReplicaChild] = []

    def begin(self) -> None:
        for member in self.members:
            member.start()
        self.witness = Witness(self.addresses)
        self.witness.start()
        self.replicas = [self.replica(name) for name in self.names]
        self.client = bohm.Client([f"127.0.0.1:{replica.port}" for replica in self.replicas], patience=LIMIT)
        self.client.batch(openings())

    def replica(self, name: str, folder: str = "", more: list[str] | None = None) -> ReplicaChild:
        words = ["--name", name, *(self.more if more is None else more)]
        # One in three by the gateway.
        words += ["--etcd-way", "gateway"] if name.endswith("3") else []
        child = replica_child(self.folder / (folder or name), stage.free_ports(1)[0], self.library, self.addresses, words)
        self.children.append(child)
        child.start()
        return child

    def send(self, count: int, size: int = 100) -> list[tuple[str, str]]:
        """Sends entries, some of them bad, and returns them with their answers."""
        found: list[tuple[str, str]] = []
        while len(found) < count:
            texts = []
            for _ in range(min(size, count - len(found))):
                self.count += 1
                texts.append(transfer(self.rng, f"k{self.count}"))
            found += zip(texts, map(str, self.client.batch(texts)))
        return found

    def fill(self, entries: int) -> None:
        """Sends entries of the log until there are so many."""
        while (self.replicas[0].entries()) < entries:
            self.send(20, 1)

    def settle(self, *replicas: ReplicaChild) -> None:
        """Waits until replicas have run all that etcd has, and the witness has seen it."""
        last = told(self.addresses, lambda etcd: etcd.ask("range", {"key": etcd.keys.last}))
        kvs = last.get("kvs", [])
        revision = kvs[0]["mod_revision"] if kvs else 0
        for replica in replicas or self.replicas:
            wait(f"{replica.name} at revision {revision}", lambda: (replica.status() or {}).get("revision", -1) >= revision)
        wait("the witness", lambda: self.witness.revision >= revision)

    def serial(self) -> Serial:
        return serial.run(self.witness.puts, self.program)

    def operate(self, *words: str) -> tuple[int, str]:
        done = subprocess.run([stage.PYTHON, OPERATE, *words], capture_output=True, text=True, timeout=LIMIT)
        return done.returncode, (done.stdout + done.stderr).strip()

    def stop(self) -> None:
        for child in self.children:
            child.go_on()
            child.kill()


def wait_failed(replica: ReplicaChild, status: int) -> str:
    """Waits until a replica ends by itself with a status, and returns what it said."""
    wait(f"{replica.name} ends", replica.ended_alone)
    assert replica.process and replica.process.returncode == status, (replica.process, replica.said.read_text())
    return replica.said.read_text()


__all__ = ["LIMIT", "Etcd", "Trial", "Unreachable", "Witness", "told", "wait", "wait_failed"]
