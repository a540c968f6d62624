"""The processes of a test: etcd's members and the replicas. They end with it."""
from __future__ import annotations

import http.client
import json
import os
import random
import signal
import socket
import subprocess
import sys
import threading
from contextlib import ExitStack
from dataclasses import dataclass, field
from pathlib import Path
from typing import Any, ClassVar

from network import Seat

# Ports below those that the system uses for outgoing connections, so that a port stays free while its owner is down.
PORTS = range(10_000, 32_000)
# Seconds that an answer, and the end of a process, may take on a machine that has other work.
ANSWER, END = 30.0, 300.0
PROGRAM = Path(__file__).resolve().parents[2] / "replica" / "corkbamboo-replica"
# Milliseconds after which etcd's members consider one another lost, for machines that have other work.
PATIENT = ["--heartbeat-interval", "200", "--election-timeout", "2000"]


def free_ports(count: int) -> list[int]:
    """Distinct loopback ports that no process is bound to."""
    found: list[int] = []
    with ExitStack() as held:
        while len(found) < count:
            bound = held.enter_context(socket.socket())
            try:
                bound.bind(("127.0.0.1", random.SystemRandom().choice(PORTS)))
            except OSError:
                continue
            found.append(bound.getsockname()[1])
    return found


def on_loopback(count: int) -> list[Seat]:
    """Where members run if they can't be partitioned."""
    ports = free_ports(2 * count)
    return [Seat("127.0.0.1", client, peer, []) for client, peer in zip(ports[::2], ports[1::2])]


@dataclass
class Child:
    """A process, which may be started again. Its standard error is appended to a file."""
    name: str
    command: list[str]
    said: Path
    variables: dict[str, str] = field(default_factory=dict)
    process: subprocess.Popen[bytes] | None = None
    # It is being disturbed on purpose, so that it may end.
    disturbed: bool = False
    # When everything is over, no thread starts a process again.
    over: ClassVar[bool] = False
    lock: ClassVar[threading.Lock] = threading.Lock()

    def start(self) -> None:
        with Child.lock:
            if not Child.over:
                self.launch()

    def launch(self) -> None:
        plain = {name: value for name, value in os.environ.items() if not name.startswith("ETCD")}
        with self.said.open("ab") as said:
            # In its own session, so that Ctrl-C reaches only the demo, which ends its processes.
            self.process = subprocess.Popen(self.command, stdin=subprocess.DEVNULL, stdout=said, stderr=said,
                                            env=plain | self.variables, start_new_session=True)

    def kill(self) -> None:
        if self.process:
            self.process.kill()
            self.process.wait()
        self.process = None

    def pause(self) -> None:
        if self.process:
            self.process.send_signal(signal.SIGSTOP)

    def go_on(self) -> None:
        if self.process:
            self.process.send_signal(signal.SIGCONT)

    def tell_to_end(self) -> None:
        if self.process:
            self.process.send_signal(signal.SIGTERM)

    def end(self) -> int:
        """Tells it to end, and returns its exit status."""
        self.tell_to_end()
        return self.await_end()

    def await_end(self) -> int:
        if not self.process:
            return 0
        status = self.process.wait(END)
        self.process = None
        return status

    def ended_alone(self) -> bool:
        return self.process is not None and self.process.poll() is not None


def members_of(folder: Path, seats: list[Seat]) -> list[Child]:
    """The members of a cluster, from where they run."""
    cluster = ",".join(f"m{number}=http://{seat.host}:{seat.peer}" for number, seat in enumerate(seats, 1))
    found = []
    for number, seat in enumerate(seats, 1):
        client, peer = f"http://{seat.host}:{seat.client}", f"http://{seat.host}:{seat.peer}"
        found.append(Child(f"member{number}", [
            *seat.words, "etcd", "--name", f"m{number}", "--data-dir", str(folder / f"member{number}"),
            "--listen-client-urls", client, "--advertise-client-urls", client, "--listen-peer-urls", peer,
            "--initial-advertise-peer-urls", peer, "--initial-cluster", cluster, "--initial-cluster-state", "new",
            *PATIENT],
            folder / f"member{number}.said"))
    return found


@dataclass
class ReplicaChild(Child):
    """A replica with its folder and port."""
    folder: Path = field(default=Path())
    port: int = 0
    how: str = ""

    def ask(self, path: str, wait: float = ANSWER) -> tuple[int, bytes] | None:
        """The status and the text of an answer; none if there is none."""
        line = http.client.HTTPConnection("127.0.0.1", self.port, timeout=wait)
        try:
            line.request("GET", path)
            said = line.getresponse()
            return said.status, said.read()
        except (OSError, http.client.HTTPException):
            return None
        finally:
            line.close()

    def status(self, wait: float = ANSWER) -> dict[str, Any] | None:
        """Its status, if it answers."""
        said = self.ask("/status", wait)
        return json.loads(said[1]) if said and said[0] == 200 else None

    def entries(self) -> int:
        """The entries of the log that have run there; -1 if it doesn't tell."""
        return int((self.status() or {}).get("entries", -1))


def is_open(port: int) -> bool:
    try:
        socket.create_connection(("127.0.0.1", port), 5).close()
        return True
    except OSError:
        return False


def replica_child(folder: Path, port: int, library: Path, members: list[str], more: list[str], program: Path = PROGRAM,
                  how: str = "") -> ReplicaChild:
    """A replica that isn't started yet; `more` are options. `how` is how it is described."""
    command = [PYTHON, str(program), "--library", str(library), "--folder", str(folder), "--members", ",".join(members),
               "--listen", f"127.0.0.1:{port}", *more]
    return ReplicaChild(folder.name, command, folder.with_suffix(".said"), folder=folder, port=port, how=how)


# The Python that runs replicas.
PYTHON = os.environ.get("REPLICA_PYTHON") or sys.executable
