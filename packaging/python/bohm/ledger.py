"""A durable ledger: entries in a file, and the machine that has run them."""
import contextlib
import os
import sqlite3
import textwrap
import threading
from types import TracebackType
from typing import Any, Callable, Dict, Iterable, Iterator, List, NoReturn, Optional, Sequence, Tuple, Type, Union, cast

from . import ledger_commit, ledger_file, ledger_recovery, ledger_state
from .entries import ID, KEY, Refused, text_of
from .errors import ClosedError, FutureError, NoKeyError, RefusedError, TrimmedError
from .ledger_commit import Beside
from .ledger_file import LedgerError, LedgerFile
from .ledger_state import Answer, Defined, State, answer_of
from .ledger_turns import MOST, Turns
from .library import Library, Text
from .machine import Machine
from .replies import Reply

# A checkpoint moves batches into an archive where they have so many bytes.
ARCHIVED = 1 << 24

Accepted = Union[Reply, Defined]


class Store:
    """A ledger's store after the transaction with a sequence number, until a later checkpoint."""

    def __init__(self, machine: Machine, base: int, sequence: int) -> None:
        self._machine, self._base, self.sequence = machine, base, sequence

    def at(self, sequence: int) -> "Store":
        """The store after an earlier transaction, down to that of the last checkpoint."""
        if sequence > self.sequence:
            raise FutureError()
        if sequence < self._base + self._machine.floor:
            raise TrimmedError()
        return Store(self._machine, self._base, sequence)

    def get(self, key: Text, default: Optional[int] = None) -> Optional[int]:
        """A key's value, or `default` if it has none."""
        value = self._machine.value_at(key, self.sequence - self._base)
        return default if value is None else value

    def __getitem__(self, key: Text) -> int:
        value = self.get(key)
        if value is None:
            raise KeyError(key)
        return value

    def __contains__(self, key: Text) -> bool:
        return self.get(key) is not None

    def items(self) -> Dict[str, int]:
        """Each key's value, in key order."""
        return self._machine.store_at(self.sequence - self._base)

    def text(self) -> bytes:
        """A line of each key with its value, in key order: `alice 100`. It takes a tenth of the time of `items`."""
        return self._machine.snapshot(self.sequence - self._base).partition(b"\n")[2]

    def digest(self) -> bytes:
        """The store's 32-byte digest: equal stores have equal digests."""
        return self._machine.digest(self.sequence - self._base)


def accepted(answer: Optional[Answer]) -> Accepted:
    """The answer to an accepted entry. Raises RefusedError for a refusal."""
    if answer is None:
        raise LedgerError("the batch isn't stored")
    if isinstance(answer, Refused):
        raise RefusedError(answer.line)
    return answer


class Pending:
    """A call in a batch."""

    def __init__(self, text: str) -> None:
        self._text = text
        self._answer: Optional[Answer] = None

    @property
    def reply(self) -> Accepted:
        """The call's reply, once the batch is stored. Raises RefusedError if the call was refused."""
        return accepted(self._answer)


class Batch:
    """The calls of a `with` block, which are stored where it ends, or not at all where it raises an exception."""

    def __init__(self, ledger: "Ledger", own: threading.local) -> None:
        self._ledger, self._own = ledger, own
        self._pending: List[Pending] = []

    def _add(self, text: str) -> Pending:
        self._pending.append(Pending(text))
        return self._pending[-1]

    def __enter__(self) -> "Batch":
        if getattr(self._own, "batch", None):
            raise LedgerError("this thread has begun a batch already")
        self._own.batch = self
        return self

    def __exit__(self, kind: Optional[Type[BaseException]], error: Optional[BaseException],
                 trace: Optional[TracebackType]) -> None:
        self._own.batch = None
        if kind is None:
            answers = self._ledger.append(pending._text for pending in self._pending)
            for pending, answer in zip(self._pending, answers):
                pending._answer = answer


class Caller:
    """A procedure of a ledger, as a function."""

    def __init__(self, ledger: "Ledger", name: str) -> None:
        self._ledger, self._name = ledger, name

    def __call__(self, *given: Any, **named: Any) -> Any:
        return self._ledger.call(self._name, *given, **named)

    def __repr__(self) -> str:
        return f"<procedure {self._name} of {self._ledger!r}>"


class Ledger:
    """A ledger in a file, which is made if it isn't there.

        with bohm.Ledger("bank.ledger") as ledger:
            ledger.define("transfer", text, id="transfer")
            reply = ledger.transfer("alice", "bob", 30, id="r17")
            print(reply.committed, ledger["bob"])

    What a call returns is on the disk. A procedure is called by its name, or by `call`. An entry with an `id` runs once: sent
    again, also after a restart, it is answered as the first time. Any thread may call: entries that wait while others are
    written are stored together, and readers don't wait for the disk. After an exception of a call that writes, all of its
    commit is stored or nothing; the next call reads the file again, and an entry with an id can simply be sent again.

    The file is a SQLite database (`docs/ledger.md`), which other programs may read meanwhile."""

    def __init__(self, path: "Union[str, os.PathLike[str]]", edition: Optional[int] = None, *,
                 checkpoint_every: int = 1_000_000, library: Optional[Library] = None, synchronous: bool = True,
                 beside: Optional[Callable[[sqlite3.Connection], None]] = None) -> None:
        """Opens a ledger; a new one has edition 2 if `edition` isn't given. A checkpoint is made behind so many transactions,
        and by `close`. If not `synchronous`, what a call returns is durable once `sync` returns, and a crash of the machine
        may take the last commits away: for entries that another log holds, and that can be run again. `beside` writes into
        tables of the caller's own, by the transaction that stores what was held (`hold`)."""
        self._path, self._edition, self._every, self._library = os.fspath(path), edition, checkpoint_every, library
        self._synchronous, self._beside = synchronous, beside
        # Whether something that was held couldn't be stored.
        self._is_lost = False
        self._own, self._turns, self._is_open = threading.local(), Turns(self._store), True
        self._file: Optional[LedgerFile] = None
        self._state: Optional[State] = None
        self._opened()

    def _opened(self) -> Tuple[LedgerFile, State]:
        """The file and its state. After a failure both are read anew: the machine may be ahead of the file, and the file
        ahead of what was answered."""
        if not self._is_open:
            raise ClosedError("the ledger is closed")
        if self._is_lost:
            raise LedgerError(f"{self._path}: what was held isn't stored: the ledger has to be opened again")
        if self._file is None or self._state is None:
            if self._file:
                self._file.close()
            self._file = LedgerFile(self._path, self._edition, self._synchronous)
            self._file.beside = self._beside
            try:
                self._state = ledger_recovery.recovered(self._file, self._library)
            except BaseException:
                self._file.close()
                raise
            self._show(self._state)
        return self._file, self._state

    def _settled(self) -> Tuple[LedgerFile, State]:
        """The same, with all stored that was held."""
        file, state = self._opened()
        with self._losing():
            file.store()
        return file, state

    @contextlib.contextmanager
    def _losing(self) -> Iterator[None]:
        """Takes nothing more after a failure: what was held is known to its owner, and not to the file."""
        try:
            yield
        except BaseException:
            self._is_lost = True
            raise

    def _show(self, state: State) -> None:
        """Lets readers see all that has run."""
        self._shown = Store(state.machine, state.base, state.top)

    def _current(self) -> State:
        state = self._state
        if state is None:
            with self._turns.alone():
                state = self._opened()[1]
        return state

    # Writing.

    def _store(self, texts: Sequence[str], beside: Optional[Beside] = None) -> Sequence[Answer]:
        """Runs and stores a commit."""
        file, state = self._settled()
        try:
            answers = ledger_commit.commit(file, state, texts, beside)
        except BaseException:
            self._state = None
            raise
        self._show(state)
        if state.top - file.checkpointed >= self._every:
            # What was stored is answered, whether or not there can be a checkpoint now.
            with contextlib.suppress(LedgerError):
                self._checkpoint()
        return answers

    def append(self, entries: Iterable[Text]) -> Sequence[Answer]:
        """Runs and stores entries, and returns the answer to each: a Reply, a Defined or a Refused, of which `str` is
        the line. A refused entry isn't stored. At most 4,096 entries are one commit, which is stored whole or not at all;
        more are several. Where a later commit fails, the error's `answers` has those of the earlier ones."""
        texts = [*map(text_of, entries)]
        if len(texts) <= MOST:
            return self._turns.submit(texts)
        answers: List[Answer] = []
        for at in range(0, len(texts), MOST):
            try:
                answers += self._turns.submit(texts[at:at + MOST])
            except LedgerError as error:
                error.answers = answers
                raise
        return answers

    def append_beside(self, entries: Iterable[Text], write: Beside) -> Sequence[Answer]:
        """Runs and stores at most 4,096 entries as one commit, and in its transaction what `write` writes into tables of the
        caller's own: it is given the connection, the answers, and the ids that are stored, with their answers. So whoever
        reads entries from another log stores with them how far it has read."""
        texts = texts_of_commit(entries)
        with self._turns.alone():
            return self._store(texts, write)

    def hold(self, entries: Iterable[Text], note: Callable[[Sequence[Answer], Sequence[Tuple[str, str]]], None]) -> Sequence[Answer]:
        """Runs at most 4,096 entries as one commit, which is stored later, together with others and with what `beside` writes: by
        `store`, or by a call that needs the file. `note` is told the answers, and the accepted ids with theirs, before that can
        happen. For entries that another log holds: a crash takes away what is held. After an error the ledger has to be opened
        again."""
        texts = texts_of_commit(entries)
        with self._turns.alone():
            file, state = self._opened()
            with self._losing():
                file.make_room(len(texts))
                first = state.top + 1
                ran = ledger_commit.run(file, state, texts)
                note(ran.answers, ran.requests)
                file.hold(first, ran.text, ran.requests, len(texts))
            self._show(state)
        return ran.answers

    def store(self) -> None:
        """Stores what is held."""
        with self._turns.alone():
            self._settled()

    def answer_to(self, id: str) -> Optional[Answer]:
        """The answer to the entry with an id; none if no entry has it."""
        with self._turns.alone():
            found = self._settled()[0].requests([id])
        return answer_of(found[id][1]) if id in found else None

    def sync(self) -> None:
        """Makes durable what was stored before, if the ledger isn't `synchronous`. Other threads go on meanwhile."""
        with self._turns.alone():
            file = self._settled()[0]
            log = file.log_handle()
        try:
            with ledger_file.told(self._path):
                os.fsync(log)
                if not file.synchronous:
                    ledger_file.settle_beside(file.path)
        finally:
            os.close(log)

    def call(self, name_: str, *given: Any, **named: Any) -> Any:
        """Calls a procedure; arguments are given in the order of its parameters, or by name. `id` is the entry's id: a parameter
        `id` is named `id_`. Returns the reply, or in a `batch` a Pending. Raises RefusedError if the id is another
        entry's."""
        text = self._text_of_call(name_, given, named)
        batch: Optional[Batch] = getattr(self._own, "batch", None)
        if batch:
            return batch._add(text)
        return accepted(self.append([text])[0])

    def _text_of_call(self, name: str, given: Tuple[Any, ...], named: Dict[str, Any]) -> str:
        request = named.pop("id", None)
        if "id_" in named:
            named["id"] = named.pop("id_")
        procedures = self._current().procedures
        if name not in procedures:
            raise LookupError(f"there is no procedure {name}")
        call = procedures[name].procedure.call(*given, **named)
        keys = [text_of(cast(bytes, key))[:-1] for key in call.keys]
        for key in keys:
            if not KEY.fullmatch(key):
                raise NoKeyError(f"{key!r} is no key")
        return " ".join([*headed("call", request), name, *keys, *map(str, call.values)]) + "\n"

    def define(self, name: str, text: Text, id: Optional[str] = None) -> Defined:
        """From now on the name means the procedure of a text. The text may be indented, and begin with a newline. Raises
        RefusedError."""
        lines = textwrap.dedent(text_of(text)).strip("\n")
        answer = accepted(self.append([" ".join([*headed("define", id), name]) + "\n" + lines])[0])
        assert isinstance(answer, Defined)
        return answer

    def batch(self) -> Batch:
        """Begins a batch of this thread: calls in its `with` block are stored together where it ends, and return a Pending
        each."""
        return Batch(self, self._own)

    # Checkpoints and archives.

    def checkpoint(self) -> int:
        """Stores the keys that changed since the last checkpoint, and returns the sequence number of the last transaction.
        The past before it can't be read any more, and opening runs only what is behind it."""
        with self._turns.alone():
            return self._checkpoint()

    def _checkpoint(self) -> int:
        file, state = self._settled()
        if state.top == file.checkpointed:
            return state.top
        try:
            file.checkpoint(state.top, state.changes())
            state.changed.clear()
            state.forget_past()
            if file.archivable >= ARCHIVED:
                file.archive()
            if state.top - state.base >= ledger_state.RESTART:
                state.restart(file.balance())
        except BaseException:
            self._state = None
            raise
        self._show(state)
        return state.top

    def forget(self, sequence: int) -> None:
        """Deletes the archives whose transactions all have numbers up to this one, and up to the checkpoint. Logs that begin
        at or before the checkpoint can't be had any more. Nothing else that was stored is ever deleted."""
        with self._turns.alone():
            self._settled()[0].forget(sequence)

    # Reading.

    @property
    def top(self) -> int:
        """The sequence number of the last transaction that is stored."""
        return self._shown.sequence

    @property
    def edition(self) -> int:
        return self._current().edition

    @property
    def procedures(self) -> Dict[str, str]:
        """The texts of the procedures, by their names."""
        return {name: prepared.form.text for name, prepared in self._current().procedures.items()}

    def at(self, sequence: Optional[int] = None) -> Store:
        """The store after the transaction with a sequence number, or after the last one. Raises TrimmedError for one before the
        last checkpoint, FutureError for one that isn't there."""
        return self._shown if sequence is None else self._shown.at(sequence)

    def get(self, key: Text, default: Optional[int] = None) -> Optional[int]:
        """A key's value, or `default` if it has none."""
        return self._shown.get(key, default)

    def __getitem__(self, key: Text) -> int:
        return self._shown[key]

    def __contains__(self, key: Text) -> bool:
        return key in self._shown

    def digest(self) -> bytes:
        """The 32-byte digest of the store after the last transaction."""
        return self._shown.digest()

    def log(self, first: int = 1, last: Optional[int] = None) -> str:
        """The log of the transactions with these numbers, calls written out, and the store before them: `bohm` answers it with
        their replies, numbered from 1, and the store after them. Raises TrimmedError if it takes entries that were
        forgotten."""
        last = self.top if last is None else last
        if not 1 <= first <= last + 1:
            raise ValueError(f"there is no range from {first} to {last}")
        if last > self.top:
            raise FutureError()
        if self._file and self._file.held:
            self.store()
        with ledger_file.snapshot(self._path) as tables:
            return ledger_recovery.log_of(tables, first, last, self._library)

    def __getattr__(self, name: str) -> Caller:
        if name.startswith("_") or name not in self._current().procedures:
            raise AttributeError(f"a ledger has no method and no procedure {name}")
        return Caller(self, name)

    def __repr__(self) -> str:
        return f"<ledger {self._path}>"

    def __reduce__(self) -> NoReturn:
        raise TypeError("a ledger can't be copied: close it, and open its file")

    def close(self) -> None:
        """Makes a checkpoint, and closes the file. Does nothing if it is closed."""
        with self._turns.alone():
            if not self._is_open:
                return
            try:
                self._checkpoint()
            finally:
                self._is_open = False
                if self._file:
                    self._file.close()

    def __enter__(self) -> "Ledger":
        return self

    def __exit__(self, *what: object) -> None:
        self.close()


def texts_of_commit(entries: Iterable[Text]) -> List[str]:
    """The texts of a commit's entries. Raises ValueError where they are too many."""
    texts = [text if isinstance(text, str) and text.isascii() and text.endswith("\n") else text_of(text) for text in entries]
    if len(texts) > MOST:
        raise ValueError(f"a commit has at most {MOST} entries")
    return texts


def headed(word: str, request: Optional[str]) -> List[str]:
    """The first words of an entry with an id, if there is one."""
    if request is None:
        return [word]
    if not ID.fullmatch(request):
        raise ValueError(f"an id has 1 to 64 bytes from ! to ~, and not {request!r}")
    return [word, f"#{request}"]
