"""Compares the final state of replicas and clients with one another and with the serial run by `./bohm`."""
from __future__ import annotations

import contextlib
import re
import sqlite3
from collections import defaultdict
from dataclasses import dataclass, field
from pathlib import Path

import history
import serial
from scene import Scene
from serial import Serial
from stage import ReplicaChild

# The digests that a replica tells: after how many entries, and those of the log, the answers and the store.
TOLD = re.compile(r"([0-9]{1,18}) ([0-9a-f]{64} [0-9a-f]{64} [0-9a-f]{64})")


@dataclass
class Outcome:
    """The results of the run. `faults` lists the errors."""
    serial: Serial
    verdict: history.Verdict
    places: int = 0
    differing: int = 0
    faults: list[str] = field(default_factory=list)


def judge(scene: Scene, program: Path) -> Outcome:
    """Reads the files of the replicas, which have ended, and judges the run."""
    run = serial.run(scene.witness.puts, program)
    verdict = history.check([each for client in scene.clients for each in client.asked], run)
    found = Outcome(run, verdict, faults=list(verdict.faults()))
    check_digests(scene, program, found)
    for replica in scene.replicas:
        check_replica(replica, found)
    return found


def check_digests(scene: Scene, program: Path, found: Outcome) -> None:
    """Compares all digests that replicas ever told, place by place, with one another and the serial run's stores."""
    told: dict[int, set[str]] = defaultdict(set)
    for value in scene.witness.digests:
        place, digests = read_told(value)
        if 0 < place <= found.serial.entries:
            told[place].add(digests)
    found.places = len(told)
    for place, each in told.items():
        wanted = serial.digest_at(found.serial, place, program)
        if len(each) > 1 or next(iter(each)).split(" ")[2] != wanted:
            found.differing += 1
            found.faults.append(f"digests after entry {place}: {sorted(each)}, the serial run's store has {wanted}")


def read_told(value: bytes) -> tuple[int, str]:
    """The place and the digests that a value of etcd tells; no place if it is somebody else's, who also puts such keys."""
    told = TOLD.fullmatch(value.decode("latin-1"))
    return (int(told[1]), told[2]) if told else (0, "")


def check_replica(replica: ReplicaChild, found: Outcome) -> None:
    """A replica's file has the serial run's store, and exactly its ids with their answers."""
    with contextlib.closing(sqlite3.connect(replica.folder / "ledger")) as base:
        entries, checkpoint = base.execute("SELECT entries, checkpoint FROM position, ledger").fetchone()
        ids = dict(base.execute("SELECT id, answer FROM request").fetchall())
        store = "".join(f"{key} {value}\n" for key, value in base.execute("SELECT key, value FROM balance ORDER BY key")).encode()
    if (entries, checkpoint) != (found.serial.entries, len(found.serial.transactions)):
        found.faults.append(f"{replica.name} is after entry {entries}, transaction {checkpoint}, not {found.serial.entries}, "
                            f"{len(found.serial.transactions)}")
    if store != found.serial.store:
        found.faults.append(f"{replica.name}: another store than the serial run's")
    if ids != found.serial.ids:
        found.faults.append(f"{replica.name}: {len(ids)} ids, not the serial run's {len(found.serial.ids)}, or other answers")
