"""The package's foundation by ctypes, for where there is no extension module: the same classes, slower.

A signal's handler may run between any two steps, and raise. So a machine notes what the library has run before replies are
taken, and a later call finds them."""
import ctypes
import hashlib
import operator
import re
import struct
import threading
import time
from ctypes import POINTER, byref, c_char_p, c_int64, c_size_t, c_uint8, c_uint32, c_uint64, c_void_p
from functools import partial
from itertools import groupby, islice
from queue import SimpleQueue
from typing import Any, Callable, Dict, Iterable, Iterator, List, Mapping, Optional, Tuple, Union

from .errors import (
    BusyError, ClosedError, KeptError, NoKeyError, Status, StoppedError, UnfitError, error_for, note_on, refusal_for,
)
from .replies import REASONS, Reply

BATCH = 4096
LAST_TIMESTAMP = (1 << 32) - 1
KEY = re.compile(rb"[a-z][a-z0-9_]{0,31}")
# Seconds for which a call that runs batches lets others take their turn between two of them.
PAUSE = 0.0001
# The layout of the library's reply: outcome, statement, the index of its first value among all values, and their count.
ROW = struct.Struct("=IIQQ")


# The most workers of a machine.
MOST_WORKERS = 16
# The bytes of a row of a store.
ENTRY = 40


class _Handle(ctypes.Structure):
    """A machine, a procedure, a list of calls or a worker: null if it is closed."""

    _fields_ = [("at", c_void_p)]


class _Array(ctypes.Structure):
    _fields_ = [("at", c_void_p), ("len", c_size_t)]


class _KeyBytes(ctypes.Structure):
    _fields_ = [("at", c_char_p), ("len", c_size_t)]


class _Counts(ctypes.Structure):
    _fields_ = [("floor", c_uint32), ("top", c_uint32), ("versions", c_uint64), ("waiting", c_uint64), ("names", c_uint64),
                ("bytes", c_uint64), ("left", c_uint32), ("unused", c_uint32)]


_TEXT = [c_char_p, c_size_t]
_HANDLE, _OUT = POINTER(_Handle), POINTER(_Array)
# The reply to a single call, and the values that it shows, of which there are at most 16.
_Row, _Shown = ctypes.c_char * ROW.size, c_int64 * 16
# What follows the keys of a single call.
_REPLIED = [c_size_t, POINTER(c_int64), c_size_t, _Row, _Shown, c_size_t]
_DECLARED: Dict[str, List[Any]] = {
    "bohm_answer": [c_char_p, *_TEXT, _OUT],
    "bohm_open": [_HANDLE, c_char_p, *_TEXT, c_uint32, _OUT],
    "bohm_open_rows": [_HANDLE, c_char_p, c_char_p, c_size_t, c_uint32],
    "bohm_apply_held": [_HANDLE, *_TEXT, _OUT],
    "bohm_rows": [_HANDLE, _OUT, _OUT],
    "bohm_value_at": [_HANDLE, *_TEXT, c_uint32, POINTER(c_uint8), POINTER(c_int64)],
    "bohm_store_at": [_HANDLE, c_uint32, _OUT],
    "bohm_store_rows": [_HANDLE, c_uint32, _OUT],
    "bohm_digest": [_HANDLE, c_uint32, ctypes.c_char * 32],
    "bohm_trim": [_HANDLE, c_uint32],
    "bohm_compact": [_HANDLE],
    "bohm_timestamps": [_HANDLE, POINTER(c_uint32), POINTER(c_uint32)],
    "bohm_counts_sized": [_HANDLE, POINTER(_Counts), c_size_t],
    "bohm_prepare_report": [_HANDLE, c_char_p, *_TEXT, _OUT],
    "bohm_statement_text": [_HANDLE, c_uint32, POINTER(c_size_t), _OUT],
    "bohm_open_calls_for": [_HANDLE, _HANDLE, c_uint32],
    "bohm_push": [_HANDLE, _HANDLE, POINTER(_KeyBytes), c_size_t, POINTER(c_int64), c_size_t],
    "bohm_key_handle": [_HANDLE, *_TEXT, POINTER(c_uint32)],
    "bohm_push_named": [_HANDLE, _HANDLE, POINTER(c_uint32), c_size_t, POINTER(c_int64), c_size_t],
    "bohm_run_calls_held": [_HANDLE, _HANDLE],
    "bohm_share_calls": [_HANDLE, _HANDLE, c_uint32],
    "bohm_open_worker": [_HANDLE, _HANDLE],
    "bohm_work": [_HANDLE],
    "bohm_finish_calls": [_HANDLE, _HANDLE],
    "bohm_calls_text": [_HANDLE, _OUT],
    "bohm_clear_calls": [_HANDLE],
    "bohm_call": [_HANDLE, _HANDLE, POINTER(_KeyBytes), *_REPLIED],
    "bohm_machine_key": [_HANDLE, *_TEXT, POINTER(c_uint32)],
    "bohm_call_named": [_HANDLE, _HANDLE, POINTER(c_uint32), *_REPLIED],
}
_WITHOUT_STATUS: Dict[str, List[Any]] = {
    "bohm_close": [_HANDLE], "bohm_close_procedure": [_HANDLE], "bohm_close_calls": [_HANDLE], "bohm_free": [c_void_p]}


class Table:
    """The functions of a loaded library, by their addresses."""

    def __init__(self, addresses: Mapping[str, int]) -> None:
        self.calls: Dict[str, Any] = {}
        for declared, result in ((_DECLARED, c_uint32), (_WITHOUT_STATUS, None)):
            for name, words in declared.items():
                self.calls[name] = ctypes.CFUNCTYPE(result, *words)(addresses[name])

    def call(self, name: str, *words: Any) -> int:
        """The status of a call."""
        status: int = self.calls[name](*words)
        return status

    def taken(self, out: _Array, size: int = 1) -> bytes:
        """The bytes of an array that a call returned, with elements of this size. The array is freed."""
        data = ctypes.string_at(out.at, out.len * size) if out.at else b""
        at, out.at = out.at, None
        self.calls["bohm_free"](at)
        return data

    def asked(self, name: str, *words: Any, size: int = 1) -> bytes:
        """The bytes of what a call returns, elements of this size. Raises its status's exception, or a refusal with its line."""
        out = _Array()
        status = self.call(name, *words, byref(out))
        given = self.taken(out, size)
        if status == Status.REFUSED:
            raise refusal_for(given)
        if status:
            raise error_for(status)
        return given

    def answer(self, seed: bytes, log: bytes) -> bytes:
        return self.asked("bohm_answer", seed, log, len(log))


# The replies of a batch: the rows and all shown values, by the timestamp before the first.
_Chunks = Dict[int, Tuple[bytes, bytes]]


class Rows:
    """The rows of replies."""

    __slots__ = ("_chunks", "_starts")

    def __init__(self, chunks: Optional[_Chunks] = None) -> None:
        self._chunks = list((chunks or {}).items())
        self._starts = [0]
        for _, (rows, _) in self._chunks:
            self._starts.append(self._starts[-1] + len(rows) // ROW.size)

    def __len__(self) -> int:
        return self._starts[-1]

    def __getitem__(self, place: Any) -> Any:
        if isinstance(place, slice):
            return [self[at] for at in range(*place.indices(len(self)))]
        index = operator.index(place)
        index += len(self) if index < 0 else 0
        if not 0 <= index < len(self):
            raise IndexError("there is no such reply")
        at = next(number for number, start in enumerate(self._starts[1:]) if index < start)
        behind, (rows, values) = self._chunks[at]
        return _reply(behind, rows, values, index - self._starts[at])

    def __iter__(self) -> Iterator[Reply]:
        for behind, (rows, values) in self._chunks:
            for place in range(len(rows) // ROW.size):
                yield _reply(behind, rows, values, place)


_replies: Any = Rows


def use_replies(replies: type) -> None:
    """Sets the class of the replies that calls return, a subclass of Rows."""
    global _replies
    _replies = replies


def _reply(behind: int, rows: bytes, values: bytes, place: int) -> Reply:
    outcome, statement, first, count = ROW.unpack_from(rows, place * ROW.size)
    return Reply(behind + place + 1, struct.unpack_from(f"={count}q", values, first * 8), REASONS[outcome], statement)


def summed(before: str, pairs: Iterable[Tuple[str, str]]) -> str:
    """The sum modulo 2^256 of a number and of the SHA-256 of the two texts of each pair, with a space between them; numbers have 64
    hexadecimal digits."""
    hashed, number = hashlib.sha256, int.from_bytes
    total = sum((number(hashed(f"{first} {second}".encode()).digest(), "big") for first, second in pairs), int(before, 16))
    return f"{total % (1 << 256):064x}"


def _octets(text: Any) -> bytes:
    if isinstance(text, str):
        return text.encode()
    try:
        return bytes(memoryview(text))
    except TypeError:
        raise TypeError(f"a str or a bytes-like object is expected, not {type(text).__name__}") from None


class Key:
    """A key that a machine has looked up."""

    __slots__ = ("__weakref__", "handle", "machine", "name")

    def __init__(self, machine: "Machine", name: Any) -> None:
        octets = _octets(name)
        if not KEY.fullmatch(octets):
            raise NoKeyError(f"{name!r} is not a key")
        self.machine, self.name = machine, octets.decode()
        self.handle = machine._index_of(octets)

    def __repr__(self) -> str:
        return f"<key {self.name}>"


class Call:
    """A procedure with its arguments."""

    __slots__ = ("_named", "keys", "procedure", "values")

    def __init__(self, procedure: "Procedure", keys: Iterable[Any], values: Iterable[Any]) -> None:
        given, numbers = tuple(keys), tuple(values)
        if (len(given), len(numbers)) != (len(procedure.keys), len(procedure.values)):
            raise TypeError("another number of keys or of values than the procedure has")
        self.procedure = procedure
        # Each key as the list of calls names it: by its place among the machine's keys, or by its bytes.
        self._named = tuple(procedure._key_of(*each) for each in zip(procedure.keys, given))
        self.keys = tuple(key if isinstance(key, (Key, str)) else _octets(key).decode() for key in given)
        self.values = tuple(_value_of(*each) for each in zip(procedure.values, numbers))

    def __repr__(self) -> str:
        return f"Call({self.procedure!r}, {self.keys!r}, {self.values!r})"


def _value_of(name: str, value: Any) -> int:
    try:
        number = operator.index(value)
    except TypeError:
        raise TypeError(f"{name} must be an int, not {type(value).__name__}") from None
    if not -(1 << 63) <= number < 1 << 63:
        raise OverflowError(f"{name}: {number} does not fit in 64 bits")
    return number


class Procedure:
    """A procedure."""

    machine: Any
    keys: Tuple[str, ...] = ()
    values: Tuple[str, ...] = ()

    def _prepare(self, machine: "Machine", text: bytes) -> None:
        self.machine, self._raw = machine, _Handle(None)
        machine._check_turn()
        with machine._inside:
            machine._opened()
            machine._table.asked("bohm_prepare_report", byref(self._raw), machine._seed, text, len(text))

    def _statement(self, number: int) -> Optional[Tuple[int, str]]:
        """The line and the text of a statement, if there is one with this number."""
        line = c_size_t(0)
        # A handler may look, too: no call of its own thread is within the library.
        with self.machine._inside:
            if self.closed:
                raise ClosedError("the procedure is closed")
            try:
                text = self.machine._table.asked("bohm_statement_text", byref(self._raw), number, byref(line))
            except UnfitError:
                return None
        return line.value, text.decode()

    def _describe(self, edition: int, keys: Tuple[str, ...], values: Tuple[str, ...], places: Dict[str, int]) -> None:
        self.edition, self.keys, self.values, self._places = edition, keys, values, places

    def _arguments(self, given: Tuple[Any, ...], named: Optional[Mapping[str, Any]]) -> List[Any]:
        raise NotImplementedError

    def _key_of(self, name: str, key: Any) -> Union[int, bytes]:
        if isinstance(key, Key):
            if key.machine is not self.machine:
                raise ValueError("the key belongs to another machine")
            return key.handle
        octets = _octets(key)
        if not KEY.fullmatch(octets):
            raise NoKeyError(f"{name}: {key!r} is not a key")
        return octets

    def call(self, /, *given: Any, **named: Any) -> Call:
        """A call with these arguments."""
        filled = self._arguments(given, named)
        count = len(self.keys)
        return Call(self, filled[:count], filled[count:])

    def __call__(self, /, *given: Any, **named: Any) -> Reply:
        machine: Machine = self.machine
        reply: Reply = machine._returned(machine._run_calls((self.call(*given, **named),)), lambda replies: replies[0])
        return reply

    @property
    def closed(self) -> bool:
        return not self._raw.at

    def close(self) -> None:
        """Frees the procedure. Does nothing if it is closed."""
        if self._raw.at:
            self.machine._check_turn()
            with self.machine._writing, self.machine._inside:
                self.machine._table.calls["bohm_close_procedure"](byref(self._raw))

    def __del__(self) -> None:
        raw = getattr(self, "_raw", None)
        # Nothing uses it any more, whatever its machine is doing.
        if raw and raw.at:
            self.machine._table.calls["bohm_close_procedure"](byref(raw))


# Appends a batch's calls to a list. Raises the exception of a status.
_Fill = Callable[[Any], None]


class Worker:
    """A worker of shared calls. It works once, on the thread that comes first; others wait until it has."""

    def __init__(self) -> None:
        self.raw, self.lock = _Handle(None), threading.Lock()

    def work(self, table: Table) -> None:
        with self.lock:
            table.call("bohm_work", byref(self.raw))


def _work_on(given: "SimpleQueue[Optional[Callable[[], None]]]") -> None:
    """What a thread does: what it is given, until it is given nothing, which it passes on to the others."""
    for work in iter(given.get, None):
        work()
    given.put(None)


class Threads:
    """Threads beside the caller's. None of them keeps the process from its end, also one whose start an exception of a signal's
    handler interrupted: so they are no pool of the standard library, which would wait for that one."""

    def __init__(self, most: int) -> None:
        self.most, self.started = most, 0
        self.given: "SimpleQueue[Optional[Callable[[], None]]]" = SimpleQueue()

    def give(self, work: Callable[[], None]) -> None:
        """Has one of the threads do this, if the system starts any."""
        if self.started < self.most:
            self.started += 1
            try:
                threading.Thread(target=_work_on, args=(self.given,), name="bohm", daemon=True).start()
            except RuntimeError:
                self.most = self.started = self.started - 1
        self.given.put(work)

    def end(self) -> None:
        self.given.put(None)


class Machine:
    """A store with its past."""

    def __init__(self, table: Table, seed: bytes, store: Any, top: int, is_rows: bool = False, workers: int = 1) -> None:
        if not 1 <= workers <= MOST_WORKERS:
            raise ValueError(f"a machine has 1 to {MOST_WORKERS} workers, not {workers}")
        # Who is changing the machine, for all of a call; and who is using it, for a batch or to read.
        self._writing, self._inside = threading.RLock(), threading.RLock()
        self._table, self._seed = table, seed
        self._lists: Dict[int, _Handle] = {}
        self._raw = _Handle(None)
        # Threads beside the caller's, and a list whose calls they run, with the workers for it.
        self._workers, self._threads = workers, Threads(workers - 1) if workers > 1 else None
        self._shared: Optional[Tuple[Any, List[Worker]]] = None
        self._names: List[bytes] = []
        self._indices: Dict[bytes, int] = {}
        self._handles: Dict[Tuple[int, int], int] = {}
        self._pending: Dict[int, _Chunks] = {}
        # The arrays that replies are taken in, and the timestamp before them.
        self._taking = -1, _Array(), _Array()
        # The timestamp before a single call, and where the library puts its reply.
        self._single: Optional[Tuple[int, Any, Any]] = None
        self._floor = self._top = self._timestamp(top)
        given = store if isinstance(store, bytes) else bytes(store)
        if is_rows:
            self._open_rows(given)
        else:
            table.asked("bohm_open", byref(self._raw), seed, given, len(given), self._top)

    def _open_rows(self, rows: bytes) -> None:
        count, rest = divmod(len(rows), ENTRY)
        if rest:
            raise ValueError("the rows of a store have 40 bytes each")
        self._demand("bohm_open_rows", byref(self._raw), self._seed, rows, count, self._top)

    floor = property(lambda self: self._floor, doc="The least timestamp that can be read.")
    top = property(lambda self: self._top, doc="The timestamp of the last transaction.")
    closed = property(lambda self: not self._raw.at, doc="Whether it is closed.")

    def _check_turn(self) -> None:
        """A lock's owner is tested in one step, before it is taken: a handler that runs in between ends before that."""
        if self._writing._is_owned() or self._inside._is_owned():  # type: ignore[attr-defined]
            raise BusyError()

    def _opened(self) -> Any:
        if not self._raw.at:
            raise ClosedError("the machine is closed")
        self._finish_calls()
        return byref(self._raw)

    def _timestamp(self, ts: Optional[Any]) -> int:
        if ts is None:
            return self._top
        number = operator.index(ts)
        if not 0 <= number <= LAST_TIMESTAMP:
            raise ValueError(f"{number} is not a timestamp")
        return number

    # --- keys and lists of calls ---

    def _index_of(self, name: bytes) -> int:
        """The place of a key among those that the machine has looked up."""
        self._check_turn()
        with self._inside:
            self._opened()
            if name not in self._indices:
                self._names.append(name)
                self._indices[name] = len(self._names) - 1
            return self._indices[name]

    def _list(self, edition: int) -> Any:
        if edition not in self._lists:
            self._lists[edition] = _Handle(None)
        calls = byref(self._lists[edition])
        if not self._lists[edition].at:
            self._demand("bohm_open_calls_for", self._opened(), calls, edition)
        return calls

    def _demand(self, name: str, *words: Any) -> None:
        status = self._table.call(name, *words)
        if status:
            raise error_for(status)

    def _handle(self, edition: int, index: int) -> int:
        """A key's handle in the list of an edition, or on the machine for edition 0."""
        if (edition, index) not in self._handles:
            made, name = c_uint32(0), self._names[index]
            if edition:
                self._demand("bohm_key_handle", self._list(edition), name, len(name), byref(made))
            else:
                self._demand("bohm_machine_key", self._opened(), name, len(name), byref(made))
            self._handles[edition, index] = made.value
        return self._handles[edition, index]

    def _keys(self, edition: int, named: Tuple[Union[int, bytes], ...]) -> Tuple[str, Any]:
        """The keys of a call, and the end of the name of the function that takes them: handles if all were looked up, or
        bytes."""
        count = len(named)
        if all(isinstance(key, int) for key in named):
            return "_named", (c_uint32 * count)(*[self._handle(edition, key) for key in named if isinstance(key, int)])
        names = [self._names[key] if isinstance(key, int) else key for key in named]
        return "", (_KeyBytes * count)(*[_KeyBytes(name, len(name)) for name in names])

    def _push(self, procedure: Procedure, named: Tuple[Union[int, bytes], ...], values: Tuple[int, ...]) -> None:
        calls, numbers = self._list(procedure.edition), (c_int64 * len(values))(*values)
        way, keys = self._keys(procedure.edition, named)
        self._demand("bohm_push" + way, calls, byref(procedure._raw), keys, len(named), numbers, len(values))

    # --- running ---

    def _take_rows(self, into: _Chunks) -> None:
        """Moves the replies that wait in the library into a call's chunks, which are pending, if there are any. A call that
        was interrupted in here may have done a part of it."""
        floor, top = c_uint32(0), c_uint32(0)
        self._table.call("bohm_timestamps", self._opened(), byref(floor), byref(top))
        if top.value == self._top:
            return
        is_taken = any(self._top in chunks for chunks in self._pending.values())
        if self._single and self._single[0] == self._top:
            if not is_taken:
                into[self._top] = (self._single[1].raw, bytes(self._single[2]))
            self._top = top.value
            return
        if self._taking[0] != self._top:
            self._taking = self._top, _Array(), _Array()
        behind, rows, values = self._taking
        if not is_taken:
            if not rows.at and self._table.call("bohm_rows", self._opened(), byref(rows), byref(values)):
                raise KeptError()
            into[behind] = (ctypes.string_at(rows.at, rows.len * ROW.size), ctypes.string_at(values.at, values.len * 8) if values.at else b"")
        self._top = top.value
        self._table.taken(rows, 0)
        self._table.taken(values, 0)

    def _set_aside(self) -> None:
        """Takes the replies that an interrupted call left in the library."""
        chunks: _Chunks = {}
        self._pending[id(chunks)] = chunks
        with self._inside:
            self._take_rows(chunks)
        if not chunks:
            self._pending.pop(id(chunks))

    def _check_room(self, count: int) -> None:
        if count > LAST_TIMESTAMP - self._top:
            raise error_for(Status.TIMESTAMPS)

    def _run_batch(self, chunks: _Chunks, run: Callable[[], int]) -> None:
        with self._inside:
            self._opened()
            self._single = None
            status = run()
            if status == Status.STOPPED or not status:
                self._take_rows(chunks)
        if status:
            raise error_for(status)

    def _run_batches(self, batches: Iterable[Callable[[], int]]) -> _Chunks:
        """Runs batches. Their replies are pending until the call returns them."""
        chunks: _Chunks = {}
        self._pending[id(chunks)] = chunks
        try:
            for number, run in enumerate(batches):
                if number:
                    time.sleep(PAUSE)
                self._run_batch(chunks, run)
        except BaseException as error:
            self._end_early(chunks, error)
            raise
        return chunks

    def _returned(self, chunks: _Chunks, part: Callable[[Any], Any] = lambda replies: replies) -> Any:
        """Replies, or the part of them that is wanted, which aren't pending any more."""
        try:
            wanted = part(_replies(chunks))
            self._pending.pop(id(chunks), None)
            return wanted
        except BaseException as error:
            self._end_early(chunks, error)
            raise

    def _end_early(self, chunks: _Chunks, error: BaseException) -> None:
        """Raises StoppedError for want of memory; else the replies stay pending."""
        if not isinstance(error, KeptError):
            with self._inside:
                self._take_rows(chunks)
        ran = sum(len(rows) for rows, _ in chunks.values()) // ROW.size
        no_memory = isinstance(error, MemoryError) and not isinstance(error, KeptError)
        if not ran:
            self._pending.pop(id(chunks), None)
            if isinstance(error, StoppedError):
                raise error_for(Status.NO_MEMORY) from None
        elif no_memory:
            stopped = StoppedError(_replies(chunks))
            self._pending.pop(id(chunks), None)
            raise stopped from None
        else:
            self._pending[id(chunks)] = chunks
            note_on(error, f"{ran} transactions ran: Machine.replies returns their replies")

    def _list_run(self, edition: int, fill: Callable[[], None]) -> Callable[[], int]:
        """The run of a batch whose calls a function appends to the list of an edition."""
        def run() -> int:
            calls = self._list(edition)
            # An interrupted call may have left some of its own there.
            self._table.call("bohm_clear_calls", calls)
            fill()
            return self._run_list(calls)
        return run

    def _run_list(self, calls: Any) -> int:
        """Runs the calls of a list, on several threads if that takes less time."""
        raw = self._opened()
        if self._threads:
            workers = [Worker()]
            self._shared = calls, workers
            status = self._table.call("bohm_share_calls", raw, calls, self._workers)
            if not status:
                # What has no worker, for want of memory, is run at the end.
                while not self._table.call("bohm_open_worker", raw, byref(workers[-1].raw)):
                    workers.append(Worker())
                for worker in workers[1:-1]:
                    self._threads.give(partial(worker.work, self._table))
                return self._finish_calls()
            self._shared = None
            if status not in (Status.IN_ORDER, Status.NO_MEMORY):
                return status
        return self._table.call("bohm_run_calls_held", raw, calls)

    def _finish_calls(self) -> int:
        """Ends calls that are shared, if there are any, with this thread in the place of those that are late; also the calls of
        a run that was interrupted."""
        if not self._shared:
            return Status.DONE
        with self._inside:
            if not self._shared:
                return Status.DONE
            calls, workers = self._shared
            for worker in workers:
                worker.work(self._table)
            status = self._table.call("bohm_finish_calls", byref(self._raw), calls)
            self._shared = None
            return status

    def _call_batches(self, calls: Tuple[Call, ...]) -> Iterator[Callable[[], int]]:
        for edition, group in groupby(calls, lambda call: call.procedure.edition):
            while part := list(islice(group, BATCH)):
                def fill(part: List[Call] = part) -> None:
                    for call in part:
                        self._push(call.procedure, call._named, call.values)
                yield self._list_run(edition, fill)

    def run(self, calls: Iterable[Call]) -> Any:
        """Runs calls."""
        return self._returned(self._run_calls(tuple(calls)))

    def _single_run(self, call: Call) -> Callable[[], int]:
        """The run of a call without a list."""
        def run() -> int:
            values, row, shown = (c_int64 * len(call.values))(*call.values), _Row(), _Shown()
            way, keys = self._keys(0, call._named)
            self._single = self._top, row, shown
            return self._table.call("bohm_call" + way, self._opened(), byref(call.procedure._raw), keys, len(call._named), values, len(values),
                                    row, shown, len(shown))
        return run

    def _check_calls(self, wanted: Tuple[Any, ...]) -> None:
        for place, call in enumerate(wanted):
            if not isinstance(call, Call):
                raise TypeError(f"call {place}: {call!r} is not a Call")
            if call.procedure.machine is not self:
                raise ValueError(f"call {place}: the procedure belongs to another machine")

    def _check_open(self, wanted: Tuple[Call, ...]) -> None:
        self._opened()
        closed = next((place for place, call in enumerate(wanted) if call.procedure.closed), None)
        if closed is not None:
            raise ClosedError("the procedure is closed" if len(wanted) == 1 else f"call {closed}: the procedure is closed")

    def _run_calls(self, wanted: Tuple[Call, ...]) -> _Chunks:
        self._check_calls(wanted)
        self._check_turn()
        with self._writing:
            self._check_open(wanted)
            self._set_aside()
            self._check_room(len(wanted))
            return self._run_batches((self._single_run(wanted[0]),) if len(wanted) == 1 else self._call_batches(wanted))

    def _calls_text(self, calls: Tuple[Call, ...]) -> bytes:
        """The log that calls of one edition are, of which a batch has room."""
        self._check_calls(calls)
        editions = [*{call.procedure.edition for call in calls}]
        if len(editions) != 1:
            raise ValueError("the calls are of two editions")
        self._check_turn()
        with self._writing:
            self._check_open(calls)
            with self._inside:
                listed = self._list(editions[0])
                self._table.call("bohm_clear_calls", listed)
                for call in calls:
                    self._push(call.procedure, call._named, call.values)
                text = self._table.asked("bohm_calls_text", listed)
                self._table.call("bohm_clear_calls", listed)
                return text

    def _column(self, name: str, column: Any, is_key: bool) -> List[int]:
        try:
            view = memoryview(column)
        except TypeError:
            view = memoryview(b"").cast("c")
        if view.ndim != 1 or view.format.lstrip("@=<") not in tuple("bBhHiIlLqQnN"):
            raise TypeError(f"{name}: a buffer of one dimension with whole numbers is expected")
        numbers: List[int] = view.tolist()
        limit = len(self._names)
        for row, number in enumerate(numbers):
            if is_key and not 0 <= number < limit:
                raise ValueError(f"{name}[{row}]: {number} is no handle of a key of this machine")
            if not is_key and number >= 1 << 63:
                raise OverflowError(f"{name}[{row}] does not fit in 64 bits with a sign")
        return numbers

    def _run_columns(self, procedure: Procedure, columns: Tuple[Any, ...]) -> Any:
        """Runs a procedure on columns of arguments."""
        names = procedure.keys + procedure.values
        count = len(procedure.keys)
        if len(columns) != len(names):
            raise TypeError(f"{len(names)} columns expected, {len(columns)} given")
        if not names:
            raise TypeError("a procedure without parameters has no columns")
        numbers = [self._column(name, column, place < count) for place, (name, column) in enumerate(zip(names, columns))]
        for name, column in zip(names, numbers):
            if len(column) != len(numbers[0]):
                raise ValueError(f"{name} has {len(column)} items, and the columns before it have {len(numbers[0])}")
        rows = list(zip(*numbers))

        def batch(part: List[Tuple[int, ...]]) -> Callable[[], int]:
            def fill() -> None:
                for row in part:
                    self._push(procedure, row[:count], row[count:])
            return self._list_run(procedure.edition, fill)
        self._check_turn()
        with self._writing:
            self._opened()
            if procedure.closed:
                raise ClosedError("the procedure is closed")
            self._set_aside()
            self._check_room(len(rows))
            chunks = self._run_batches(batch(rows[at:at + BATCH]) for at in range(0, len(rows), BATCH))
        return self._returned(chunks)

    def _apply_part(self, text: bytes) -> Callable[[], int]:
        def run() -> int:
            out = _Array()
            status = self._table.call("bohm_apply_held", self._opened(), text, len(text), byref(out))
            line = self._table.taken(out)
            if status == Status.REFUSED:
                raise refusal_for(line)
            return status
        return run

    def _parts(self, text: bytes) -> List[bytes]:
        """The segments of at most 4,096 transactions that a text is, if it has more of them, and no store."""
        if text[6:10] != b"txn\n" or text.count(b"\nend\n") <= BATCH or not text.endswith(b"\nend\n"):
            return [text]
        ends = [found.end() for found in islice(re.finditer(rb"\nend\n", text), BATCH - 1, None, BATCH)]
        places = [6, *(end for end in ends if end < len(text)), len(text)]
        return [text[:6] + text[begin:end] for begin, end in zip(places, places[1:])]

    def _check_text(self, text: bytes) -> None:
        """Refuses a segment before a part of it runs: opening a machine on it reads and checks it, and then finds that it
        has transactions."""
        other = _Handle(None)
        try:
            self._table.asked("bohm_open", byref(other), self._seed, text, len(text), 0)
        except Exception as error:
            if getattr(error, "status", None) != Status.HAS_LOG:
                raise
        finally:
            self._table.calls["bohm_close"](byref(other))

    def apply(self, segment: Any) -> Any:
        """Runs a segment."""
        text = _octets(segment)
        parts = self._parts(text)
        if len(parts) > 1:
            self._check_text(text)
        self._check_turn()
        with self._writing:
            self._opened()
            self._set_aside()
            if len(parts) > 1:
                self._check_room(text.count(b"\nend\n"))
            chunks = self._run_batches(map(self._apply_part, parts))
        return self._returned(chunks)

    def replies(self) -> Any:
        """The replies that no call has returned."""
        self._check_turn()
        with self._writing:
            self._opened()
            self._set_aside()
            chunks: _Chunks = {}
            for pending in self._pending.values():
                chunks.update(pending)
            replies = _replies(chunks)
            self._pending.clear()
            return replies

    # --- reading ---

    def _read(self, name: bytes, ts: Optional[int]) -> Optional[int]:
        present, value = c_uint8(0), c_int64(0)
        self._check_turn()
        with self._inside:
            raw = self._opened()
            self._demand("bohm_value_at", raw, name, len(name), self._timestamp(ts), byref(present), byref(value))
        return value.value if present.value else None

    def value_at(self, key: Any, ts: Optional[int] = None) -> Optional[int]:
        """A key's value at a timestamp, or at the top."""
        name = _octets(key.name if isinstance(key, Key) else key)
        if not KEY.fullmatch(name):
            raise NoKeyError(f"{key!r} is not a key")
        return self._read(name, ts)

    def _look_up(self, key: Any) -> Optional[int]:
        name = _octets(key.name if isinstance(key, Key) else key)
        return self._read(name, None) if KEY.fullmatch(name) else None

    def __getitem__(self, key: Any) -> int:
        value = self._look_up(key)
        if value is None:
            raise KeyError(key)
        return value

    def __contains__(self, key: Any) -> bool:
        return self._look_up(key) is not None

    def snapshot(self, ts: Optional[int] = None) -> bytes:
        """The snapshot at a timestamp, or at the top, on which another machine can be opened."""
        self._check_turn()
        with self._inside:
            return self._table.asked("bohm_store_at", self._opened(), self._timestamp(ts))

    def digest(self, ts: Optional[int] = None) -> bytes:
        """The 32-byte digest of the store at a timestamp, or at the top."""
        digest = (ctypes.c_char * 32)()
        self._check_turn()
        with self._inside:
            self._demand("bohm_digest", self._opened(), self._timestamp(ts), digest)
        return digest.raw

    def trim(self, floor: Optional[int] = None) -> None:
        """Drops the past below a timestamp, or all of it."""
        self._check_turn()
        with self._inside:
            least = self._timestamp(floor)
            self._demand("bohm_trim", self._opened(), least)
            self._floor = max(self._floor, least)

    def store_rows(self, ts: Optional[int] = None) -> bytes:
        """The rows of the store at a timestamp, or at the top, which `open_rows` takes."""
        self._check_turn()
        with self._inside:
            return self._table.asked("bohm_store_rows", self._opened(), self._timestamp(ts), size=ENTRY)

    def compact(self) -> None:
        """Drops the past, and gives back the memory of all keys that have no value."""
        self._check_turn()
        with self._writing:
            self._opened()
            self._set_aside()
            with self._inside:
                # Lists share names that the machine gives back, and their handles are made again.
                self._handles = {of: handle for of, handle in self._handles.items() if not of[0]}
                for calls in self._lists.values():
                    self._table.calls["bohm_close_calls"](byref(calls))
                self._demand("bohm_compact", self._opened())
                self._floor = self._top

    def _counts(self) -> Tuple[int, int, int, int, int, int, int]:
        raw = _Counts()
        self._check_turn()
        with self._inside:
            self._table.call("bohm_counts_sized", self._opened(), byref(raw), ctypes.sizeof(raw))
            pending = sum(len(rows) // ROW.size for chunks in self._pending.values() for rows, _ in chunks.values())
        return raw.floor, raw.top, raw.versions, raw.waiting + pending, raw.names, raw.bytes, raw.left

    def close(self) -> None:
        """Frees the machine. Does nothing if it is closed."""
        if not self._raw.at:
            return
        self._check_turn()
        with self._writing, self._inside:
            self._close()

    def _close(self) -> None:
        if self._threads:
            self._threads.end()
        for calls in self._lists.values():
            self._table.calls["bohm_close_calls"](byref(calls))
        self._table.calls["bohm_close"](byref(self._raw))

    def __del__(self) -> None:
        # Nothing uses it any more.
        if getattr(self, "_raw", None):
            self._close()
