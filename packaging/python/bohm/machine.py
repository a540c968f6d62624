"""Machines: stores with their past, to which segments and calls are applied."""
from array import array
from typing import Any, Dict, Iterable, Iterator, List, NamedTuple, NoReturn, Optional, Tuple, Union, cast

from . import _core
from ._core import Call, Key
from .errors import NoKeyError
from .library import Buffer, Library, Text, drawn_seed, load, octets
from .procedures import Procedure
from .replies import Answer, ReplySequence, answer_of
from .stores import ROW, Pairs, packed, unpacked


class Replies(_core.Rows, ReplySequence):
    """The replies of a call, each made when it is looked at. It is a sequence, and equals a list of the same replies."""

    __slots__ = ()


_core.use_replies(Replies)


# The most calls whose text is made at once.
MANY = 4096


class Counts(NamedTuple):
    """What a machine holds."""

    floor: int
    """The least timestamp that can be read."""
    top: int
    """The greatest one, that of the last transaction."""
    versions: int
    """How many versions are kept."""
    waiting: int
    """How many replies no call has returned."""
    names: int
    """How many keys take memory, also without a value: `compact` leaves those with one."""
    bytes: int
    """About how many bytes the versions and the names take."""
    left: int
    """How many transactions can still run, before timestamps end at 4294967295."""


def answer(log: Text, *, library: Optional[Library] = None) -> Answer:
    """Runs a whole log, and returns its answer."""
    return answer_of((library or load())._table.answer(drawn_seed(), octets(log)))


class Machine(_core.Machine):
    """A store with its past, from a floor up to a top, which are timestamps.

        with bohm.Machine("log 2\\nalice 100\\nbob 20\\n") as machine:
            transfer = machine.prepare(text)
            reply = transfer(from_="alice", to="bob", amount=30)
            print(machine["bob"], "carol" in machine, len(machine), list(machine))

    Texts are `str` or any bytes-like object. A machine runs one call at a time, from any thread. Others wait: those that
    change it until the whole call has run, those that read it for a batch of 4,096 transactions at most, and they see the
    store at a batch's end. A thread whose call is running can't make another one, as from a signal's handler or a
    finalizer: that is a `BusyError`.

    If a signal's handler raises an exception during a call, the call ends behind a batch, and `replies` returns the replies
    of what has run."""

    def __init__(self, snapshot: Text = b"log 1\n", top: int = 0, *, workers: int = 1, library: Optional[Library] = None) -> None:
        """Opens a snapshot: the store after the transaction with the timestamp `top`, as text of at most 64 MiB. `open_rows`
        opens larger ones. With `workers`, up to 16, calls of long procedures run on so many threads, which the machine has
        until it is closed; replies and store are the same."""
        self.library = library or load()
        super().__init__(self.library._table, drawn_seed(), octets(snapshot), top, False, workers)

    @classmethod
    def open_rows(cls, rows: "Union[Buffer, Pairs]", top: int = 0, *, workers: int = 1,
                  library: Optional[Library] = None) -> "Machine":
        """Opens a store of any size, as it is after the transaction with the timestamp `top`: what `store_rows` returned, a
        mapping, or pairs of keys and values in rising order of the keys. Raises UnsortedError."""
        machine = cls.__new__(cls)
        machine.library = library or load()
        store: Buffer
        try:
            store = memoryview(cast(bytes, rows))
        except TypeError:
            store = packed(cast(Pairs, rows))
        _core.Machine.__init__(machine, machine.library._table, drawn_seed(), store, top, True, workers)
        return machine

    def prepare(self, text: Text) -> Procedure:
        """Reads and checks a procedure, to be called on this machine. A `str` may be indented and begin with newlines, as
        between triple quotes; lines of a refusal are counted from its first one."""
        return Procedure(self, text)

    def key(self, name: Text) -> Key:
        """Looks up a key. The result replaces its name in calls on this machine, and its `handle` in columns of `run_many`;
        a key that is used again and again is then looked up once."""
        return Key(self, name)

    def calls_text(self, calls: Iterable[Call]) -> bytes:
        """The log of calls of one edition, as a segment that `apply` would run with the same replies. Written to a disk it is
        what `bohm` and other programs can check."""
        wanted = tuple(calls)
        parts = [self._calls_text(wanted[at:at + MANY]) for at in range(0, len(wanted), MANY)] or [b"log 2\n"]
        if len({part[:6] for part in parts}) > 1:
            raise ValueError("the calls are of two editions")
        return b"".join([parts[0], *(part[6:] for part in parts[1:])])

    def run_many(self, procedure: Procedure, *columns: Any) -> "Replies":
        """Runs a call for each row of columns, one for each parameter: buffers, such as arrays of `array` or NumPy, of keys'
        handles and of whole numbers; or lists of keys and of ints."""
        if procedure.machine is not self:
            raise ValueError("the procedure belongs to another machine")
        if len(columns) != len(procedure.parameters):
            raise TypeError(f"{len(procedure.parameters)} columns expected, {len(columns)} given")
        buffers: List[Any] = []
        for name, column in zip(procedure.parameters, columns):
            buffers.append(self._buffer(name, column, len(buffers) < len(procedure.keys)))
        return self._run_columns(procedure, tuple(buffers))

    def _buffer(self, name: str, column: Any, is_key: bool) -> Any:
        """A column as a buffer."""
        if isinstance(column, (str, bytes, bytearray)):
            raise TypeError(f"{name}: a column is a buffer of whole numbers, or a list")
        if not isinstance(column, (list, tuple)):
            return column
        return array("I", [self._handle_of(name, *each) for each in enumerate(column)]) if is_key else array("q", column)

    def _handle_of(self, name: str, row: int, key: Union[Text, Key]) -> int:
        if not isinstance(key, Key):
            try:
                key = Key(self, key)
            except (NoKeyError, TypeError) as error:
                raise type(error)(f"{name}[{row}]: {error}") from None
        if key.machine is not self:
            raise ValueError(f"{name}[{row}]: the key belongs to another machine")
        return key.handle

    def store_at(self, ts: Optional[int] = None) -> Dict[str, int]:
        """Each key's value after the transaction with timestamp `ts`, or at the top, in key order."""
        return unpacked(self.store_rows(ts))

    def counts(self) -> Counts:
        """What the machine holds."""
        return Counts(*self._counts())

    def get(self, key: Union[Text, Key], default: Any = None) -> Any:
        """A key's value at the top, or the default."""
        try:
            return self[key]
        except KeyError:
            return default

    def keys(self) -> List[str]:
        """The keys that have a value at the top, in their order. Its time grows with the store, as those of `len`, `items`
        and iteration."""
        return list(self.store_at())

    def items(self) -> List[Tuple[str, int]]:
        """The keys with their values at the top, in their order."""
        return list(self.store_at().items())

    def __iter__(self) -> Iterator[str]:
        return iter(self.keys())

    def __len__(self) -> int:
        return len(self.store_rows()) // ROW.size

    def __bool__(self) -> bool:
        """A machine is true even if its store is empty."""
        return True

    def __repr__(self) -> str:
        return "<machine, closed>" if self.closed else f"<machine, timestamps {self.floor} to {self.top}>"

    def __reduce__(self) -> NoReturn:
        raise TypeError("a machine can't be copied: open another one on its snapshot")

    def __enter__(self) -> "Machine":
        return self

    def __exit__(self, *what: object) -> None:
        self.close()
