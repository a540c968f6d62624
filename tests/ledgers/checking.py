"""What a ledger's file must hold, found without the package: the file is read by sqlite3, calls are written out by replacing
words, and the log is run by the program `bohm`."""
import contextlib
import re
import shutil
import sqlite3
import subprocess
import tempfile
from pathlib import Path

HEAD = re.compile(r"(call|define|txn)(?: #(\S+))?(.*)", re.DOTALL)


class Wrong(Exception):
    """The file isn't what it has to be."""


def need(is_so, what):
    if not is_so:
        raise Wrong(what)


def copied(path, folder):
    """A copy of a file with its log and its archives."""
    for each in path.parent.glob(path.name + "*"):
        if not each.name.endswith(("-shm", ".new")):
            shutil.copy(each, folder)
    return Path(folder) / path.name


def rows_of(path, query):
    with contextlib.closing(sqlite3.connect(path)) as base:
        try:
            return base.execute(query).fetchall()
        except sqlite3.Error as error:
            raise Wrong(f"{path.name}: {error}") from error


def batches_of(path):
    """All batches, by place."""
    archives = [each for each in path.parent.glob(path.name + "-*") if each.name[len(path.name) + 1:].isdigit()]
    found = {}
    for each in [*archives, path]:
        for place, first, text in rows_of(each, "SELECT place, first, entries FROM batch"):
            need(found.setdefault(place, (first, text)) == (first, text), f"batch {place} is there twice, and differs")
    need(sorted(found) == list(range(1, len(found) + 1)), f"the places are {sorted(found)}")
    return [found[place] for place in sorted(found)]


def entries_of(text):
    """The entries of a batch, as their lines."""
    lines = []
    for line in text.split("\n")[:-1]:
        lines.append(line)
        if lines[0].startswith("call ") or line == "end":
            yield lines
            lines = []
    need(not lines, "a batch ends within an entry")


def instance(procedure, words):
    """A call as a transaction. The parameters' names aren't used for anything else."""
    lines = procedure.split("\n")[1:-1]
    parameters = [line.split(" ")[1] for line in lines if line.split(" ")[0] in ("key", "value")]
    keys = [line.split(" ")[1] for line in lines if line.split(" ")[0] == "key"]
    need(len(parameters) == len(words), "a call has another number of arguments")
    body = [line for line in lines if line.split(" ")[0] not in ("key", "value")]
    given = dict(zip(parameters, words))
    for name in keys:
        body = [re.sub(rf"(?<!\$)\b{name}\b", given[name], line) for line in body]
    sets = [" ".join([line.split(" ")[0], *sorted(set(line.split(" ")[1:]))]) for line in body[:2]]
    lets = [f"let ${name} = {given[name]}" for name in parameters if name not in keys]
    return "\n".join(["txn", *sets, *lets, *body[2:]]) + "\n"


def answer_of(program, log):
    said = subprocess.run([program], input=log, capture_output=True, text=True)
    need(said.returncode == 0, f"bohm refuses the log: {said.stderr}")
    replies, _, store = said.stdout.rpartition("--\n")
    return replies.splitlines(), store


class Past:
    """What a file's batches mean: its transactions and the answers to its ids."""

    def __init__(self, batches, program):
        self.transactions, self.texts, self.ids, self.places = [], {}, {}, {}
        procedures = {}
        for place, (first, batch) in enumerate(batches, 1):
            need(first == len(self.transactions) + 1, f"batch {place} begins at {first}")
            for lines in entries_of(batch):
                text = "\n".join(lines) + "\n"
                kind, request, rest = HEAD.fullmatch(text).groups()
                words = rest.split("\n")[0].split(" ")[1:]
                if kind == "define":
                    procedures[words[0]] = text.split("\n", 1)[1]
                    answer = f"defined {words[0]}"
                else:
                    self.transactions.append(instance(procedures[words[0]], words[1:]) if kind == "call" else "txn" + rest)
                    answer = len(self.transactions)
                if request:
                    need(request not in self.ids, f"the id {request} ran twice")
                    self.ids[request], self.texts[request], self.places[request] = answer, text, place
        self.replies, self.store = answer_of(program, "log 2\n" + "".join(self.transactions))
        for request, answer in self.ids.items():
            if isinstance(answer, int):
                self.ids[request] = self.replies[answer - 1]


def check(path, acknowledged, program):
    """Checks a file, to whose entries (by id) the answers were these. Returns how many transactions it holds."""
    with tempfile.TemporaryDirectory() as folder:
        copy = copied(Path(path), folder)
        sound = subprocess.run(["sqlite3", copy, "PRAGMA integrity_check"], capture_output=True, text=True)
        need(sound.stdout == "ok\n", f"sqlite3 says {sound.stdout}{sound.stderr}")
        if not rows_of(copy, "SELECT name FROM sqlite_master") or not rows_of(copy, "SELECT format FROM ledger"):
            need(not acknowledged, "the tables are gone")
            return 0
        past = Past(batches_of(copy), program)
        stored = {name: (place, answer) for name, place, answer in rows_of(copy, "SELECT * FROM request")}
        need(stored == {name: (past.places[name], answer) for name, answer in past.ids.items()}, "the table request differs")
        for name, (text, answer) in acknowledged.items():
            need(past.texts.get(name) == text, f"the acknowledged {text!r} isn't in the file")
            need(past.ids[name] == answer, f"{name} was answered {answer}, the serial run's is {past.ids[name]}")
        (top,), = rows_of(copy, "SELECT checkpoint FROM ledger")
        need(top <= len(past.transactions), "the checkpoint is ahead of the batches")
        balance = "".join(f"{key} {value}\n" for key, value in rows_of(copy, "SELECT key, value FROM balance ORDER BY key"))
        need(balance == answer_of(program, "log 2\n" + "".join(past.transactions[:top]))[1], "the table balance differs")
    return len(past.transactions)
