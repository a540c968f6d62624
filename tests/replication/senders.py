"""Clients of the door that cost little: each process has many of them, on one epoll, and each sends the next request when it has the
answer to the one before."""
from __future__ import annotations

import random
import re
import select
import socket
import time

from load import ACCOUNTS
from trial import bohm

# An answer of 200: its length, and where its body begins.
ANSWER = re.compile(rb"HTTP/1\.1 200 .*?\r\nContent-Length: (\d+)\r\n.*?\r\n\r\n", re.DOTALL)
# Seconds that an answer may take; pairs of accounts.
LATE, TRANSFERS = 60.0, len(ACCOUNTS) ** 2
# Ids as the clients of the package draw them.
drawn_id = bohm.client.drawn_id


class Sender:
    """A client: its connection, and the request that is under way."""

    def __init__(self, name: str, port: int, size: int) -> None:
        self.name, self.size, self.number, self.said = name, size, 0, b""
        self.rng = random.Random(name)
        self.line = socket.create_connection(("127.0.0.1", port))
        self.line.setsockopt(socket.IPPROTO_TCP, socket.TCP_NODELAY, 1)
        self.path = "/call" if size == 1 else "/batch"

    def send(self) -> None:
        texts = []
        for _ in range(self.size):
            self.number += 1
            at = int(self.rng.random() * TRANSFERS)
            texts.append(f"call #{drawn_id()} transfer {ACCOUNTS[at % len(ACCOUNTS)]} {ACCOUNTS[at // len(ACCOUNTS)]} {1 + at % 7}\n")
        body = "".join(texts)
        self.begun = time.monotonic()
        self.line.sendall(f"POST {self.path} HTTP/1.1\r\nHost: x\r\nContent-Length: {len(body)}\r\n\r\n{body}".encode())

    def take(self) -> bool:
        """Reads what came, and whether the answer is whole. Raises RuntimeError where it is none."""
        piece = self.line.recv(1 << 17)
        self.said += piece
        found = ANSWER.match(self.said)
        if not piece or not found and b"\r\n\r\n" in self.said:
            raise RuntimeError(f"{self.name} was answered {self.said!r}")
        if not found or len(self.said) < found.end() + int(found[1]):
            return False
        self.said = b""
        return True


def run(senders: list[Sender], seconds: float) -> list[float]:
    """The seconds that each request took, of all that ended in so many seconds."""
    took: list[float] = []
    of = {sender.line.fileno(): sender for sender in senders}
    waiting = select.epoll()
    for handle, sender in of.items():
        waiting.register(handle, select.EPOLLIN)
        sender.send()
    end, under_way = time.monotonic() + seconds, len(senders)
    while under_way:
        ready = waiting.poll(LATE)
        if not ready:
            raise RuntimeError("no answer in time")
        for handle, _ in ready:
            sender = of[handle]
            if sender.take():
                now = time.monotonic()
                took.append(now - sender.begun)
                if now < end:
                    sender.send()
                else:
                    under_way -= 1
    for sender in senders:
        sender.line.close()
    return took
