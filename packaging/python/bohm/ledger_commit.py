"""A commit: entries are run, and those that are accepted are stored with the answers of their ids."""
import sqlite3
from typing import Callable, Dict, List, NamedTuple, Optional, Sequence, Set, Tuple

from . import entries
from .entries import Entry, Refused
from .ledger_file import LedgerFile
from .ledger_state import Answer, State, answer_of
from .replies import lines_of


# Writes rows of tables that aren't a ledger's, in the transaction of a commit: by the connection, the answers to its entries, and
# the ids that it stores, with their answers.
Beside = Callable[[sqlite3.Connection, Sequence[Answer], Sequence[Tuple[str, str]]], None]


class First(NamedTuple):
    """The first accepted entry with an id, none if it was forgotten; and its answer."""

    text: Optional[str]
    answer: Answer


class Ran(NamedTuple):
    """What a commit has run: the answers, the accepted entries, and their ids with the answers."""

    answers: Sequence[Answer]
    text: str
    requests: Sequence[Tuple[str, str]]


def commit(file: LedgerFile, state: State, texts: Sequence[str], beside: Optional[Beside] = None) -> Sequence[Answer]:
    """Runs entries and stores them; their answers are those of the file from then on. After an exception the state may be
    ahead of the file."""
    first = state.top + 1
    ran = run(file, state, texts)
    if ran.text or beside:
        file.commit(first, ran.text, ran.requests, bound(beside, ran.answers, ran.requests))
    return ran.answers


def run(file: LedgerFile, state: State, texts: Sequence[str]) -> Ran:
    """Runs entries, which aren't stored."""
    alike = state.alike(texts) if len(texts) > 1 else None
    if alike and are_new(file, [*filter(None, alike.ids)]):
        replies = state.run_alike(alike)
        pairs = zip(alike.ids, lines_of(replies))
        requests = [*pairs] if all(alike.ids) else [pair for pair in pairs if pair[0]]
        return Ran(replies, "".join(texts), requests)
    under_way = Commit(file, state, texts)
    under_way.take_all()
    return Ran(under_way.answers, "".join(under_way.accepted), under_way.requests)


def bound(beside: Optional[Beside], answers: Sequence[Answer],
          requests: Sequence[Tuple[str, str]]) -> Optional[Callable[[sqlite3.Connection], None]]:
    """What a commit writes beside its batch, by the connection."""
    if beside is None:
        return None
    write = beside
    return lambda connection: write(connection, answers, requests)


def are_new(file: LedgerFile, ids: Sequence[str]) -> bool:
    """Whether ids are known neither to the file nor twice among themselves."""
    return not ids or len({*ids}) == len(ids) and not file.requests(ids)


class Commit:
    """The entries of a commit, and what is known of their ids."""

    def __init__(self, file: LedgerFile, state: State, texts: Sequence[str]) -> None:
        self.file, self.state, self.texts = file, state, texts
        self.read = [*map(entries.read, texts)]
        ids = {request for request, _ in self.read if request}
        self.known = file.requests([*ids]) if ids else {}
        self.firsts: Dict[str, First] = {}
        self.answers: List[Answer] = [entries.SHAPE] * len(texts)
        # The entries that are to be run next, their places, and those whose ids are other entries'.
        self.waiting: List[Entry] = []
        self.places: List[int] = []
        self.barred: Set[int] = set()
        self.ids: Set[str] = set()
        self.accepted: List[str] = []
        self.requests: List[Tuple[str, str]] = []

    def take_all(self) -> None:
        for at, (request, entry) in enumerate(self.read):
            if isinstance(entry, Refused):
                continue
            if len(self.texts[at]) > entries.LONGEST and entries.size_of(self.texts[at], request) > entries.LONGEST:
                self.answers[at] = entries.LARGE
            elif request is None or not self.is_known(at, request):
                self.waiting.append(entry)
                self.places.append(at)
        self.run()

    def is_known(self, at: int, request: str) -> bool:
        """Whether an entry was run before, and is answered as then. One that has its id with another text is barred."""
        if request in self.ids:
            # An entry before this one has its id: it is to be known if that is accepted.
            self.run()
        if request in self.known and request not in self.firsts:
            place, answer = self.known[request]
            self.firsts[request] = First(self.file.entry_of(request, place), answer_of(answer))
        first = self.firsts.get(request)
        if first and first.text == self.texts[at]:
            self.answers[at] = first.answer
            return True
        if first:
            self.barred.add(len(self.waiting))
        self.ids.add(request)
        return False

    def run(self) -> None:
        """Runs the entries that wait."""
        for at, answer in zip(self.places, self.state.run(self.waiting, self.barred)):
            self.answers[at] = answer
            if isinstance(answer, Refused):
                continue
            self.accepted.append(self.texts[at])
            request = self.read[at][0]
            if request:
                self.firsts[request] = First(self.texts[at], answer)
                self.requests.append((request, str(answer)))
        self.waiting, self.places, self.barred, self.ids = [], [], set(), set()
