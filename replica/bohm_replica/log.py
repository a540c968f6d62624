"""The log as a replica has run it: a ledger, and the position in etcd up to which its entries come from there."""
import contextlib
import os
import sqlite3
import sys
from typing import Dict, List, NamedTuple, Optional, Sequence, Tuple, Union
from urllib.parse import quote

from . import position as places
from .batches import MOST, RULES, Batch, Rules, read
from .bohm_of import bohm
from .keys import Digest
from .position import Entry, Position

Answer = Union["bohm.Reply", "bohm.Defined", "bohm.Refused"]
# Entries from one place at which digests are compared to the next.
EVERY = 256


class Damaged(Exception):
    """The files hold what no replica writes, or something else than was written."""


class OtherEdition(Exception):
    """The file's ledger has another edition than the replica was given."""


class NeedsNewer(Exception):
    """The log asks for rules that this program doesn't have."""


class Ran(NamedTuple):
    """An entry of the log, its texts, and the answers to them, as lines; why it was skipped, if it was."""

    entry: Entry
    texts: Sequence[str]
    answers: Sequence[str]
    skipped: Optional[str] = None


class Planned(NamedTuple):
    """An entry with the texts that are run for it."""

    entry: Entry
    texts: List[str]
    rules: int
    skipped: Optional[str]


class Log:
    """A ledger's file with the tables of its position. One thread at a time writes; any reads."""

    def __init__(self, path: str, checkpoint_every: int, library: "Optional[bohm.Library]", edition: int = 2) -> None:
        """Opens the file, or makes it, and checks it. Raises Damaged, OtherEdition, or bohm.LedgerError."""
        self.path = path
        is_there = os.path.exists(path)
        try:
            self.ledger = bohm.Ledger(path, None if is_there else edition, checkpoint_every=sys.maxsize, library=library,
                                      synchronous=False, beside=self.write)
        except (bohm.DamagedError, bohm.NoLedgerError, bohm.BohmError, ValueError, IndexError, KeyError) as fault:
            raise Damaged(f"{path}: {fault}") from fault
        self.every, self.floor = checkpoint_every, 0
        # The numbers that the file doesn't have yet.
        self.moved: Dict[str, int] = {}
        try:
            if self.ledger.edition != edition:
                raise OtherEdition(f"{path} has edition {self.ledger.edition}, and the replica was given {edition}")
            if not is_there:
                self.ledger.append_beside([], lambda connection, *_: places.make_tables(connection))
            self.digests: Dict[int, Digest] = {}
            self.open()
        except BaseException:
            self.release()
            raise

    def open(self) -> None:
        """Reads the position, and holds what the file has against it."""
        try:
            with contextlib.closing(self.connection()) as connection:
                self.position, self.numbers, digests = places.read(connection)
                requests = places.sum_of(connection)
                self.floor = connection.execute("SELECT checkpoint FROM ledger").fetchone()[0]
        except (sqlite3.Error, ValueError, TypeError) as fault:
            raise Damaged(f"{self.path}: {fault}") from fault
        if requests != self.position.requests:
            raise Damaged(f"{self.path}: its ids with their answers aren't those that were stored")
        if places.hash_of(self.ledger.procedures) != self.position.procedures:
            raise Damaged(f"{self.path}: its procedures aren't those that were stored")
        self.digests = {digest.place: digest for _, digest in digests if digest.place % EVERY == 0}
        for sequence, digest in digests:
            if self.floor <= sequence <= self.ledger.top and self.ledger.at(sequence).digest().hex() != digest.store:
                raise Damaged(f"{self.path}: its store after transaction {sequence} isn't the one that was stored")

    def connection(self) -> sqlite3.Connection:
        """A connection that reads the file."""
        return sqlite3.connect(f"file:{quote(os.path.abspath(self.path))}?mode=ro", uri=True, isolation_level=None,
                               check_same_thread=False)

    # Running.

    def apply(self, entries: Sequence[Entry]) -> List[Ran]:
        """Runs entries, which follow the position, as few commits as there may be. Entries that don't continue their sequencer
        are passed over. Raises NeedsNewer; what it doesn't return of then isn't run."""
        ran: List[Ran] = []
        group: List[Planned] = []
        count = 0
        numbers: Dict[str, int] = {}
        rules = self.position.rules
        for entry in entries:
            if entry.number != numbers.get(entry.name, self.numbers.get(entry.name, 0)) + 1:
                continue
            planned = planned_of(entry, rules)
            rules = planned.rules
            if group and (count + len(planned.texts) > MOST or (self.position.entries + len(group)) % EVERY == 0):
                ran += self.commit(group, numbers)
                group, count, numbers = [], 0, {}
            group.append(planned)
            count += len(planned.texts)
            numbers[entry.name] = entry.number
        if group:
            ran += self.commit(group, numbers)
        return ran

    def commit(self, group: Sequence[Planned], numbers: Dict[str, int]) -> List[Ran]:
        """Runs entries, which are stored later, with the position behind them."""
        texts = [text for planned in group for text in planned.texts]
        ran: List[Ran] = []

        def note(answers: Sequence[Answer], requests: Sequence[Tuple[str, str]]) -> None:
            # Where each text was accepted with an id, its line is made already.
            lines = [line for _, line in requests] if len(requests) == len(answers) else bohm.replies.lines_of(answers)
            ran.extend(shared(group, lines))
            self.move(group, numbers, ran, requests)

        self.ledger.hold(texts, note)
        self.note_place()
        return ran

    def move(self, group: Sequence[Planned], numbers: Dict[str, int], ran: Sequence[Ran], requests: Sequence[Tuple[str, str]]) -> None:
        """Moves the position behind entries that have run."""
        here = places.moved(self.position, [planned.entry for planned in group])
        here = here._replace(rules=group[-1].rules, requests=bohm.hashes.summed(here.requests, requests),
                             answers=places.chained_answers(here.answers, (each.answers for each in ran)))
        if any(b"define " in planned.entry.value for planned in group):
            here = here._replace(procedures=places.hash_of(self.ledger.procedures))
        self.position = here
        self.numbers.update(numbers)
        self.moved.update(numbers)

    def write(self, connection: sqlite3.Connection) -> None:
        """Writes the position beside what is stored."""
        places.write(connection, self.position, self.moved)
        self.moved = {}

    def store(self) -> None:
        """Stores what has run."""
        if self.moved:
            self.ledger.store()

    def note_place(self) -> None:
        """Notes the digests, where the position is at a fixed place."""
        if self.position.entries % EVERY == 0:
            self.add_digest()
            for old in sorted(self.digests)[:-places.KEPT]:
                del self.digests[old]

    def add_digest(self) -> Digest:
        """Stores the digests at the position."""
        here = self.position
        digest = Digest(here.entries, here.chain, here.answers, self.ledger.digest().hex())
        sequence = self.ledger.top
        self.ledger.append_beside([], lambda connection, *_: places.write_digest(connection, sequence, digest))
        if here.entries % EVERY == 0:
            self.digests[digest.place] = digest
        return digest

    # Keeping.

    def is_due(self) -> bool:
        """Whether so many transactions have run since the last checkpoint that the next is to be made."""
        return bool(self.ledger.top - self.floor >= self.every)

    def checkpoint(self) -> None:
        """Makes all durable, and stores the store. What was before can't be read any more."""
        self.add_digest()
        self.floor = self.ledger.checkpoint()
        self.ledger.sync()

    def sync(self) -> Position:
        """The position up to which all is durable."""
        found = self.position
        self.ledger.sync()
        return found

    def close(self) -> None:
        self.add_digest()
        self.ledger.close()

    def release(self) -> None:
        """Closes the file, whatever it holds."""
        with contextlib.suppress(Exception):
            self.ledger.close()


def shared(group: Sequence[Planned], answers: Sequence[str]) -> List[Ran]:
    """Each entry of a commit with its own of the answers."""
    at, ran = 0, []
    for planned in group:
        ran.append(Ran(planned.entry, planned.texts, answers[at:at + len(planned.texts)], planned.skipped))
        at += len(planned.texts)
    return ran


def planned_of(entry: Entry, rules: int) -> Planned:
    """What is run for an entry by the rules in force. Raises NeedsNewer."""
    found = read(entry.value)
    if isinstance(found, Batch):
        return Planned(entry, found.texts, rules, None) if found.rules == rules else Planned(entry, [], rules, "rules")
    if isinstance(found, Rules):
        if found.version > RULES:
            raise NeedsNewer(f"the log has gone over to rules {found.version}, and this program has {RULES}")
        return Planned(entry, [], max(rules, found.version), None)
    return Planned(entry, [], rules, found.why)
