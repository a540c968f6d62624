"""What a ledger holds in memory: the machine that has run its entries, and its procedures."""
from array import array
from typing import TYPE_CHECKING, Collection, Dict, Iterable, Iterator, List, NamedTuple, Optional, Sequence, Set, Tuple, Union

from . import _core, entries
from .entries import Call, Definition, Entry, Form, Refused, Transaction
from .errors import NoKeyError, RefusedError, UnsortedError
from .ledger_file import DamagedError
from .library import Library
from .machine import Machine, answer
from .procedures import Procedure
from .replies import Reply, reply_of

if TYPE_CHECKING:
    from ._native import ReadCalls

# The bytes of text that a machine is given at once, and at most a transaction more. Its limit is twice as much.
LONGEST_TEXT = 1 << 25
# A machine is replaced by one that begins at timestamp 0 where it has passed this one: timestamps have 32 bits.
RESTART = 1 << 31
# The most keys whose handles are kept; a commit may bring more.
MOST_HANDLES = 1 << 18
# A machine is compacted where it holds so many names more than twice those of its last compaction.
SPARE = 1 << 16


class Defined(NamedTuple):
    """The answer to a definition."""

    name: str

    def __str__(self) -> str:
        return f"defined {self.name}"


Answer = Union[Reply, Defined, Refused]


def answer_of(line: str) -> Answer:
    """The answer that `str` made a line of."""
    return Defined(line[len("defined "):]) if line.startswith("defined ") else reply_of(line)


class Prepared(NamedTuple):
    """A procedure that a machine has prepared, and its text's form."""

    form: Form
    procedure: Procedure


class Alike(NamedTuple):
    """Calls of one procedure that are all accepted: of each its id, or an empty text; and their arguments, in rows behind the id, or as the
    extension has read them."""

    prepared: Prepared
    ids: List[str]
    rows: Sequence[Tuple[str, ...]]
    read: "Optional[ReadCalls]" = None


class State:
    """A machine on the store after the transaction with a sequence number, and the procedures defined until then."""

    def __init__(self, edition: int, sequence: int, store: Iterable[Tuple[str, int]], library: Optional[Library]) -> None:
        self.edition, self.library = edition, library
        self.procedures: Dict[str, Prepared] = {}
        # Handles of keys on the machine.
        self.handles: Dict[str, int] = {}
        # The keys that may have changed since the last checkpoint.
        self.changed: Set[str] = set()
        # The sequence number of the last transaction, and of the machine's timestamp 0.
        self.top = sequence
        self.machine, self.base = opened(sequence, store, library)
        # The names that the machine held when each of them had a value.
        self.named = self.machine.counts().names

    def restart(self, store: Iterable[Tuple[str, int]]) -> None:
        """Replaces the machine by one on the present store."""
        machine, self.base = opened(self.top, store, self.library)
        self.named = machine.counts().names
        self.handles.clear()
        self.procedures = {name: Prepared(form, machine.prepare(form.text)) for name, (form, _) in self.procedures.items()}
        self.machine = machine

    def forget_past(self) -> None:
        """Drops the past and, where there may be many, the names of keys without a value."""
        if self.machine.counts().names > 2 * self.named + SPARE:
            self.machine.compact()
            self.named = self.machine.counts().names
        else:
            self.machine.trim()

    def changes(self) -> Iterator[Tuple[str, Optional[int]]]:
        """The keys that may have changed since the last checkpoint, with their values."""
        if _core.NATIVE:
            self.machine._changed(self.changed)
        for key in sorted(self.changed):
            yield key, self.machine.value_at(key)

    def run(self, read: Sequence[Entry], barred: Collection[int] = ()) -> List[Answer]:
        """Runs entries, and returns the answer to each. Those at barred places aren't run: their ids are known with other
        entries, which refuses them if nothing else does. After an exception any part may have run."""
        answers: List[Optional[Answer]] = []
        texts: List[str] = []
        for entry in read:
            found: Union[str, Answer]
            is_barred = len(answers) in barred
            if isinstance(entry, Call):
                found = self.instance(entry)
            elif isinstance(entry, Transaction):
                found = self.whole(entry, is_barred)
            else:
                found = self.define(entry, is_barred)
            if not isinstance(found, str):
                answers.append(found)
            elif is_barred:
                answers.append(entries.TAKEN)
            else:
                texts.append(found)
                answers.append(None)
        replies = self.replies(texts)
        return [next(replies) if answer is None else answer for answer in answers]

    def alike(self, texts: Sequence[str]) -> Optional[Alike]:
        """The texts as calls of one procedure that are all accepted; none if they aren't that. Calls are read together in a
        third of the time."""
        words = texts[0].rstrip("\n").split(" ", 3)
        at = 2 if words[1:] and words[1].startswith("#") else 1
        prepared = self.procedures.get(words[at]) if words[0] == "call" and len(words) > at else None
        if not prepared:
            return None
        if _core.NATIVE and self.machine._known < MOST_HANDLES:
            read = prepared.procedure._read(words[at], "".join(texts), len(texts))
            return Alike(prepared, read.ids, (), read) if read else None
        rows = prepared.form.rows(texts)
        return Alike(prepared, [row[0] for row in rows], rows) if rows else None

    def run_alike(self, alike: Alike) -> Sequence[Reply]:
        """Runs calls of one procedure, and returns their replies. After an exception any part may have run."""
        form = alike.prepared.form
        if alike.read:
            replies: Sequence[Reply] = self.machine._run_read(alike.read, form.written)
            self.top += len(replies)
            self.changed.update(form.fixed_writes)
            return self.numbered(replies)
        if len(self.handles) < MOST_HANDLES:
            return self.numbered(self.run_columns(alike.prepared, [*zip(*alike.rows)][1:]))
        found: List[Reply] = []
        for piece in pieces([form.instance(row[1:]) for row in alike.rows]):
            found += self.apply(piece)
        return found

    def run_columns(self, prepared: Prepared, columns: Sequence[Tuple[str, ...]]) -> Sequence[Reply]:
        """Runs calls whose arguments are in columns, keys by their handles."""
        form, procedure = prepared
        keys = [array("I", self.handles_of(column)) for column in columns[:len(form.keys)]]
        values = [array("q", map(int, column)) for column in columns[len(form.keys):]]
        replies = self.machine.run_many(procedure, *keys, *values)
        self.top += len(replies)
        self.changed.update(form.fixed_writes)
        for place in form.written:
            self.changed.update(columns[place])
        return replies

    def handles_of(self, keys: Sequence[str]) -> Iterator[int]:
        """Keys' handles on the machine, each of which is looked up once."""
        for key in {*keys}.difference(self.handles):
            self.handles[key] = self.machine.key(key).handle
        return map(self.handles.__getitem__, keys)

    def instance(self, call: Call) -> Union[str, Refused]:
        """The transaction that a call stands for."""
        prepared = self.procedures.get(call.name)
        if not prepared:
            return Refused("refused: procedure")
        return prepared.form.fault(call.arguments) or prepared.form.instance(call.arguments)

    def whole(self, transaction: Transaction, is_barred: bool) -> Union[str, Refused]:
        """A transaction's text, or why it is refused, if it is barred or more than one transaction: then it isn't run with
        others to see."""
        fault = self.fault(transaction.text) if is_barred or entries.ended(transaction.text)[1] else None
        return fault or transaction.text

    def define(self, definition: Definition, is_barred: bool) -> Answer:
        text, behind = entries.ended(definition.text)
        if text and not text.startswith(f"procedure {self.edition}\n"):
            return Refused("refused: line 1")
        try:
            procedure = self.machine.prepare(text.encode("latin-1"))
        except RefusedError as refusal:
            return fault_of(refusal.line, text, behind)
        if behind:
            return fault_of("", text, behind)
        if is_barred:
            return entries.TAKEN
        self.procedures[definition.name] = Prepared(Form(definition.name, text), procedure)
        return Defined(definition.name)

    def replies(self, texts: Sequence[str]) -> Iterator[Union[Reply, Refused]]:
        """Runs transactions, and gives the reply to each, or why it is refused."""
        for piece in pieces(texts):
            refused: Dict[int, Refused] = {}
            try:
                replies = self.apply(piece)
            except RefusedError:
                refused = {at: fault for at, text in enumerate(piece) if (fault := self.fault(text))}
                replies = self.apply([text for at, text in enumerate(piece) if at not in refused])
            rest = iter(replies)
            for at, text in enumerate(piece):
                yield refused[at] if at in refused else next(rest)

    def apply(self, texts: Sequence[str]) -> Sequence[Reply]:
        """Runs transactions: all of them, or none where a RefusedError is raised. Replies have the ledger's numbers."""
        if not texts:
            return []
        replies = self.machine.apply("".join([f"log {self.edition}\n", *texts]).encode("latin-1"))
        self.top += len(replies)
        for text in texts:
            self.changed.update(entries.writes_of(text))
        return self.numbered(replies)

    def numbered(self, replies: Sequence[Reply]) -> Sequence[Reply]:
        """Replies with the ledger's numbers."""
        return [reply._replace(timestamp=self.base + reply.timestamp) for reply in replies] if self.base else replies

    def fault(self, transaction: str) -> Optional[Refused]:
        """Why a transaction is refused."""
        text, behind = entries.ended(transaction)
        try:
            answer(f"log {self.edition}\n{text}".encode("latin-1"), library=self.library)
        except RefusedError as refusal:
            kind, _, number = refusal.line.rpartition(" ")
            # The log's first line isn't the entry's.
            return fault_of(f"{kind} {int(number) - 1}" if kind == "refused: line" else refusal.line, text, behind)
        return fault_of("", text, behind) if behind else None


def fault_of(line: str, text: str, behind: str) -> Refused:
    """The refusal of a text that is refused by itself, unless `line` is empty, or is followed by more behind its end: a bad
    line comes before the check."""
    if behind and not line.startswith("refused: line"):
        return Refused(f"refused: line {text.count(chr(10)) + 1}")
    return Refused(line)


def pieces(texts: Sequence[str]) -> Iterator[List[str]]:
    """Transactions in groups that a machine reads at once."""
    piece: List[str] = []
    size = 0
    for text in texts:
        piece.append(text)
        size += len(text)
        if size > LONGEST_TEXT:
            yield piece
            piece, size = [], 0
    yield piece


def opened(sequence: int, store: Iterable[Tuple[str, int]], library: Optional[Library]) -> Tuple[Machine, int]:
    """A machine on a store of any size, its keys rising, after the transaction with a sequence number; and the number of the
    machine's timestamp 0."""
    top = sequence if sequence < RESTART else 0
    try:
        return Machine.open_rows(store, top, library=library), sequence - top
    except (NoKeyError, UnsortedError) as error:
        raise DamagedError(f"the file's balances: {error}") from None
