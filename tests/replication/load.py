"""The clients: transfers between accounts, reads, and bad entries, at which no replica may fail; and the clients' record."""
from __future__ import annotations

import http.client
import json
import random
import threading
import time
from dataclasses import dataclass

ACCOUNTS = [f"a{number:03d}" for number in range(160)]
OPENING = 1000
# Seconds for which a client tries, that one answer may take, and between two tries.
PATIENCE, ANSWER, PAUSE = 300.0, 15.0, 0.05
# Of this many requests one has a bad entry, one sends an id again with another text, one is read, one is sent twice.
BAD, RUDE, READ, AGAIN = 50, 100, 12, 20
# The number of entries in one request is drawn from these. The share of transfers that are text.
BATCHES = [1, 1, 1, 3, 16, 64]
TEXT = 0.25
# In edition 2 a transfer from an account to itself changes nothing.
PROCEDURE = """procedure 2
key from
key to
value amount
reads from to
writes from to
need from >= $amount
set from = from - $amount
set to = to + $amount
show from
end
"""


def openings() -> list[str]:
    """The procedure, and transactions that open all accounts, 16 in each."""
    groups = [ACCOUNTS[at:at + 16] for at in range(0, len(ACCOUNTS), 16)]
    texts = [f"txn #open{number}\nreads\nwrites {' '.join(group)}\n" + "".join(f"set {key} = {OPENING}\n" for key in group) + "end\n"
             for number, group in enumerate(groups)]
    return [f"define #transfer transfer\n{PROCEDURE}", *texts]


def transfer(rng: random.Random, name: str, text: float = TEXT) -> str:
    """Moves an amount from one account to another, if the first has that much, as text or as a call with this id. Some name an
    account that isn't there, some the same account twice."""
    payer, payee = rng.sample(ACCOUNTS, 2)
    odd = rng.randrange(40)
    if odd < 2:
        payee = "nobody" if odd else payer
    amount = rng.randrange(1, 600)
    if rng.random() >= text:
        return f"call #{name} transfer {payer} {payee} {amount}\n"
    both = " ".join(sorted({payer, payee}))
    return (f"txn #{name}\nreads {both}\nwrites {both}\nneed {payer} >= {amount}\nset {payer} = {payer} - {amount}\n"
            f"set {payee} = {payee} + {amount}\nshow {payer}\nend\n")


def bad_entries() -> list[tuple[str, str]]:
    """Entries that are refused, each with the refusal. Lines are counted from the entry's first one."""
    shapeless = ["hello\n", "log 2\n", "call\n", "call  a b\n", "call transfer a001  a002 1\n", "call transfer a001 a002\t1\n",
                 "call transfer a001 a002 1\r\n", "call transfer a001 a\xe9 1\n", "call Transfer a b 1\n",
                 "define 1\nprocedure 2\nreads\nwrites\nend\n", "txn \nreads\nwrites\nend\n", "txn\r\nreads\nwrites\nend\n"]
    others = [("txn\nend\n", "line 2"), ("txn\nreads b a\nwrites\nend\n", "check order 1 0"),
              ("txn\nreads\nwrites\nset a = 9223372036854775808\nend\n", "line 4"),
              ("txn\nreads\nwrites a\nset a  = 1\nend\n", "line 4"), ("txn\nreads\nwrites\nshow a\nend\n", "check unread 1 1"),
              ("txn\nreads a\nwrites\nshow a\nset a = 1\nend\n", "check unwritten 1 2"),
              ("txn\nreads\nwrites\nlet $x = 1\nlet $x = 2\nend\n", "check local 1 2"),
              ("txn\nreads\nwrites\n" + "fail\n" * 65 + "end\n", "check limit 1 0"),
              ("call nothing a\n", "procedure"), ("call transfer a001 a002\n", "arguments"),
              ("call transfer a001 a002 3 4\n", "arguments"), ("call transfer a001 a002 03\n", "value"),
              ("call transfer a001 a002 9223372036854775808\n", "value"), ("call transfer a001 A 3\n", "key"),
              ("define other\nprocedure 1\nreads\nwrites\nend\n", "line 1"),
              ("define other\nprocedure 2\nreads b a\nwrites\nend\n", "check order 1 0")]
    return [(text, "refused: shape") for text in shapeless] + [(text, f"refused: {why}") for text, why in others]


BY_TEXT = dict(bad_entries())


def id_of(text: str) -> str | None:
    """The id of an entry."""
    words = text.split("\n", 1)[0].split(" ")
    return words[1][1:] if len(words) > 1 and words[1].startswith("#") else None


@dataclass
class Asked:
    """An entry that a client sent, or a fresh read of an account, and the answer once it has it. Times are seconds of one clock.
    `port` is the replica's. An entry that is rude has the id of another one."""
    text: str
    begin: float
    reads: bool = False
    rude: bool = False
    revision: int = 0
    told: str = ""
    end: float = 0.0
    port: int = 0


class Client(threading.Thread):
    """Sends one request after another, each when it has the answer to the one before; at most `rate` a second."""

    def __init__(self, number: int, seed: int, ports: list[int], seconds: float, rate: float = 0.0) -> None:
        super().__init__(daemon=True)
        self.number, self.seconds, self.rate = number, seconds, rate
        self.rng = random.Random(f"{seed} {number}")
        self.bad = bad_entries()
        self.ports = ports[number % len(ports):] + ports[:number % len(ports)]
        self.lines: dict[int, http.client.HTTPConnection] = {}
        self.asked: list[Asked] = []
        self.made = 0
        self.fault: Exception | None = None

    def run(self) -> None:
        try:
            begin = time.monotonic()
            while time.monotonic() < begin + self.seconds:
                self.step()
                if self.rate:
                    time.sleep(max(0.0, begin + len(self.asked) / self.rate - time.monotonic()))
        except Exception as fault:
            self.fault = fault

    def step(self) -> None:
        draw = self.rng.random()
        if draw < 1 / READ:
            self.read(self.rng.choice(ACCOUNTS))
        elif draw < 1 / READ + 1 / BAD:
            self.send([self.rng.choice(self.bad)[0]])
        elif draw < 1 / READ + 1 / BAD + 1 / RUDE:
            first = self.entry()
            self.send([first])
            self.send([transfer(self.rng, id_of(first) or "")], rude=True)
        else:
            texts = [self.entry() for _ in range(self.rng.choice(BATCHES))]
            self.send(texts)
            if self.rng.randrange(AGAIN) == 0:
                self.send(texts)

    def entry(self) -> str:
        self.made += 1
        return transfer(self.rng, f"c{self.number}_{self.made}")

    def send(self, texts: list[str], rude: bool = False) -> None:
        asked = [Asked(text, time.monotonic(), rude=rude) for text in texts]
        self.asked += asked
        if len(texts) > 1:
            path = "/batch"
        else:
            word = texts[0].split(" ")[0].split("\n")[0]
            path = {"txn": "/transaction", "define": "/define"}.get(word, "/call")
        port, revision, told = self.ask("POST", path, "".join(texts).encode("latin-1"))
        for each, line in zip(asked, told.splitlines()):
            each.revision, each.told, each.port, each.end = revision, line, port, time.monotonic()

    def read(self, account: str) -> None:
        asked = Asked(account, time.monotonic(), reads=True)
        self.asked.append(asked)
        asked.port, _, asked.told = self.ask("GET", f"/value/{account}?fresh=1", b"")
        asked.end = time.monotonic()

    def ask(self, method: str, path: str, body: bytes) -> tuple[int, int, str]:
        """The first replica that answers, beginning with the client's own; the revision, and the answer."""
        end = time.monotonic() + PATIENCE
        while time.monotonic() < end:
            for port in self.ports:
                if said := self.tried(port, method, path, body):
                    return port, *said
            time.sleep(PAUSE)
        raise TimeoutError(f"no replica answers {path}")

    def tried(self, port: int, method: str, path: str, body: bytes) -> tuple[int, str] | None:
        line = self.lines.setdefault(port, http.client.HTTPConnection("127.0.0.1", port, timeout=ANSWER))
        try:
            line.request(method, path, body or None)
            said = line.getresponse()
            text = said.read().decode()
            return (int(said.getheader("Bohm-Revision", "0")), text) if said.status in (200, 400, 409) else None
        except (OSError, http.client.HTTPException):
            line.close()
            return None


def read_value(told: str) -> tuple[int, int | None]:
    """The sequence number and the value of a read."""
    found = json.loads(told)
    return found["sequence"], found["value"]
