"""What a ledger's file means: the state that its entries lead to, and the log of the transactions that they are."""
import contextlib
import itertools
from typing import Iterable, Iterator, List, Optional, Sequence, Tuple, Type

from . import entries
from .entries import Definition, Entry, Refused, Transaction
from .errors import TrimmedError
from .ledger_file import DamagedError, LedgerTables, StoredBatch
from .ledger_state import State
from .library import Library

# The entries that are run at once.
MANY = 4096


def checkpointed(tables: LedgerTables, library: Optional[Library]) -> State:
    """The state of the checkpoint."""
    state = State(tables.edition, tables.checkpointed, tables.balance(), library)
    for batch in tables.definitions():
        run(state, [text for text in entries.split(batch) if is_definition(text)])
    return state


def recovered(tables: LedgerTables, library: Optional[Library]) -> State:
    """The state that a file holds: that of the checkpoint, with what the entries behind it did."""
    state = checkpointed(tables, library)
    waiting: List[str] = []
    for _, text in behind(tables.behind(), tables.checkpointed):
        waiting.append(text)
        if len(waiting) == MANY:
            run(state, waiting)
            waiting = []
    run(state, waiting)
    return state


def is_definition(text: str) -> bool:
    return text.startswith("define ")


def entry_of(text: str) -> Entry:
    """A stored entry."""
    entry = entries.read(text)[1]
    if isinstance(entry, Refused):
        raise DamagedError(f"the file has the entry {text[:100]!r}")
    return entry


def run(state: State, stored: Sequence[str]) -> None:
    """Runs entries that were accepted."""
    alike = state.alike(stored) if stored else None
    if alike:
        state.run_alike(alike)
        return
    for text, answer in zip(stored, state.run([*map(entry_of, stored)])):
        if isinstance(answer, Refused):
            raise DamagedError(f"the file has the entry {text[:100]!r}, to which the answer is `{answer}`")


def behind(batches: Iterable[StoredBatch], sequence: int, missing: Type[Exception] = DamagedError) -> Iterator[Tuple[int, str]]:
    """The entries of batches but for the transactions up to a sequence number, each with its own number, or with the next
    one's if it is a definition. Raises `missing` where a batch is."""
    last: Optional[StoredBatch] = None
    number = 0
    for batch in batches:
        if last and (batch.place, batch.first) != (last.place + 1, number) or not last and batch.first > sequence + 1:
            raise missing(f"what is before batch {batch.place} isn't there")
        last, number = batch, batch.first
        for text in entries.split(batch.entries):
            if is_definition(text):
                yield number, text
            else:
                if number > sequence:
                    yield number, text
                number += 1
    if last and number <= sequence:
        raise missing(f"the checkpoint is at {sequence}, and batch {last.place}, the last one, ends before it")


def log_of(tables: LedgerTables, first: int, last: int, library: Optional[Library]) -> str:
    """The log of the transactions from one number to another, with the store before them. Raises TrimmedError if it would
    take entries that were forgotten."""
    with contextlib.closing(tables.batches()) as batches:
        if first > tables.checkpointed:
            state, source = checkpointed(tables, library), behind(tables.behind(), tables.checkpointed)
        else:
            state, source = State(tables.edition, 0, (), library), behind(batches, 0, TrimmedError)
        rest = run_until(state, source, first)
        lines = [f"log {tables.edition}\n", *(f"{key} {value}\n" for key, value in state.machine.store_at().items())]
        lines += transactions(state, (text for _, text in itertools.takewhile(lambda one: one[0] <= last, rest)))
    return "".join(lines)


def run_until(state: State, source: Iterator[Tuple[int, str]], first: int) -> Iterator[Tuple[int, str]]:
    """Runs the entries before a transaction, and returns it and the others."""
    waiting: List[str] = []
    rest: List[Tuple[int, str]] = []
    for number, text in source:
        if number >= first and not is_definition(text):
            rest.append((number, text))
            break
        waiting.append(text)
        if len(waiting) == MANY:
            run(state, waiting)
            waiting = []
    run(state, waiting)
    return itertools.chain(rest, source)


def transactions(state: State, source: Iterable[str]) -> Iterator[str]:
    """The transactions that entries are, as text; a definition counts from then on."""
    for text in source:
        entry = entry_of(text)
        if isinstance(entry, Definition):
            run(state, [text])
        elif isinstance(entry, Transaction):
            yield entry.text
        else:
            yield state.procedures[entry.name].form.instance(entry.arguments)
