"""The results of a log's serial run, by `./bohm` on its text: the entries that count and the text of calls are made here as
docs/replicas.md, docs/ledger.md and docs/procedures.md say, and not by the program's code."""
from __future__ import annotations

import hashlib
import re
import subprocess
from collections.abc import Callable
from dataclasses import dataclass, field
from pathlib import Path

from load import BY_TEXT, id_of

HEAD = b"log 2\n"
# The most texts of an entry of the log that counts.
MOST = 4096
KEY = re.compile(rb"bohm/log/([A-Za-z0-9_.-]{1,64})/([0-9]{16})")
TRANSFER = re.compile(r"call #\S+ transfer (\w+) (\w+) (\d+)\n|txn #\S+\n.*\nneed (\w+) >= (\d+)\n.*\nset (\w+) = .*\nshow .*\n",
                      re.DOTALL)
OPENING = re.compile(r"set (\w+) = (\d+)\n")


@dataclass(frozen=True)
class Put:
    """A key of etcd that was made, at a revision, with a value."""
    revision: int
    key: bytes
    value: bytes


def instance(text: str, arguments: list[str]) -> str:
    """The transaction that a call of a procedure represents. No parameter of the procedure may be a statement's word."""
    lines = [line.split(" ") for line in text.splitlines()[1:-1]]
    names = [line[1] for line in lines if line[0] in ("key", "value")]
    count = sum(line[0] == "key" for line in lines)
    stands = dict(zip(names[:count], arguments))
    lets = ["let $%s = %s\n" % pair for pair in zip(names[count:], map(literal, arguments[count:]))]
    body = [[stands.get(word, word) for word in line] for line in lines[len(names):]]
    sets = [" ".join([line[0], *sorted(set(line[1:]))]) + "\n" for line in body[:2]]
    return "".join(["txn\n", *sets, *lets, *[" ".join(line) + "\n" for line in body[2:]], "end\n"])


def literal(value: str) -> str:
    """A value as a sum: the least value has no literal."""
    return "-9223372036854775807 - 1" if value == "-9223372036854775808" else value


def counting(puts: list[Put]) -> list[Put]:
    """The puts that are entries: each continues its sequencer by one."""
    last: dict[bytes, int] = {}
    found = []
    for put in puts:
        named = KEY.fullmatch(put.key)
        if named and int(named[2]) == last.get(named[1], 0) + 1:
            last[named[1]] = int(named[2])
            found.append(put)
    return found


@dataclass
class Serial:
    """The texts of all entries in order, with the place of the entry of the log that has each; the answers, and the sequence
    number of the last transaction up to each. The store is the final one; accounts' values are kept by sequence numbers."""
    texts: list[str] = field(default_factory=list)
    places: list[int] = field(default_factory=list)
    answers: list[str] = field(default_factory=list)
    tops: list[int] = field(default_factory=list)
    transactions: list[str] = field(default_factory=list)
    store: bytes = b""
    ids: dict[str, str] = field(default_factory=dict)
    values: dict[str, list[tuple[int, int]]] = field(default_factory=dict)
    procedures: dict[str, str] = field(default_factory=dict)
    entries: int = 0


@dataclass(frozen=True)
class Owed:
    """An answer that is known without a run; or the number of the transaction whose reply it is; or the place of the entry that
    had the id first."""
    answer: str = ""
    number: int = 0
    first: int = -1


def run(puts: list[Put], program: Path) -> Serial:
    """What the log means, from the keys that were made under the prefix, by rising revisions."""
    found = Serial()
    firsts: dict[str, int] = {}
    owed: list[Owed] = []
    for place, put in enumerate(counting(puts), 1):
        found.entries = place
        head, _, rest = put.value.decode("latin-1").partition("\n")
        texts = rest.split("\0") if head == "batch 1" else []
        for text in texts if len(texts) <= MOST else []:
            text = text if text.endswith("\n") else text + "\n"
            owed.append(owed_to(found, text, firsts))
            found.texts.append(text)
            found.places.append(place)
            found.tops.append(len(found.transactions))
    replies, found.store = answer_of(found.transactions, by_program(program))
    for text, owes in zip(found.texts, owed):
        answer = replies[owes.number - 1] if owes.number else found.answers[owes.first] if owes.first >= 0 else owes.answer
        found.answers.append(answer)
        name = id_of(text)
        if name and owes.first < 0 and not answer.startswith("refused"):
            found.ids[name] = answer
        if owes.number:
            move(found.values, text, answer)
    return found


def owed_to(found: Serial, text: str, firsts: dict[str, int]) -> Owed:
    """What an entry is answered, and the transaction that it is, which is added."""
    name = id_of(text)
    if name in firsts:
        return Owed(first=firsts[name]) if found.texts[firsts[name]] == text else Owed("refused: id")
    if text in BY_TEXT:
        return Owed(BY_TEXT[text])
    if name:
        firsts[name] = len(found.texts)
    words = [word for word in text.split("\n", 1)[0].split(" ") if not word.startswith("#")]
    if words[0] not in ("call", "define", "txn"):
        return Owed("refused: shape")
    if words[0] == "define":
        found.procedures[words[1]] = text.split("\n", 1)[1]
        return Owed(f"defined {words[1]}")
    found.transactions.append(instance(found.procedures[words[1]], words[2:]) if words[0] == "call"
                              else "txn\n" + text.split("\n", 1)[1])
    return Owed(number=len(found.transactions))


def move(values: dict[str, list[tuple[int, int]]], text: str, answer: str) -> None:
    """Applies a committed transfer or opening to the accounts."""
    sequence, outcome = answer.split(" ")[:2]
    if outcome != "commit":
        return
    if found := TRANSFER.fullmatch(text):
        payer, payee = (found[1], found[2]) if found[1] else (found[4], found[6])
        amount = int(found[3] or found[5])
        for key, change in ((payer, -amount), (payee, amount)):
            values[key].append((int(sequence), values[key][-1][1] + change))
    else:
        for key, value in OPENING.findall(text):
            values.setdefault(key, []).append((int(sequence), int(value)))


def by_program(program: Path) -> Callable[[bytes], bytes]:
    """The function from a log to its answer by a program."""
    return lambda log: subprocess.run([program], input=log, stdout=subprocess.PIPE, check=True).stdout


def answer_of(transactions: list[str], answer: Callable[[bytes], bytes]) -> tuple[list[str], bytes]:
    """The replies of transactions, and the store after them."""
    said, _, store = answer(HEAD + "".join(transactions).encode("latin-1")).partition(b"--\n")
    return said.decode().splitlines(), store


def digest_at(serial: Serial, place: int, program: Path) -> str:
    """The SHA-256 of the serial run's store after `place` entries of the log, with a line `--` before it."""
    count = max((top for top, at in zip(serial.tops, serial.places) if at <= place), default=0)
    return hashlib.sha256(b"--\n" + answer_of(serial.transactions[:count], by_program(program))[1]).hexdigest()
