"""The statuses that a call can return, and the exception of each."""
import enum
from typing import TYPE_CHECKING, ClassVar, Dict, Sequence, Tuple, Type

if TYPE_CHECKING:
    from .replies import Reply


class Status(enum.IntEnum):
    """The status of a call: the enum of bohm.h."""

    DONE = 0
    REFUSED = 1
    NO_MEMORY = 2
    TRIMMED = 3
    FUTURE = 4
    HAS_STORE = 5
    TIMESTAMPS = 6
    HAS_LOG = 7
    NO_KEY = 8
    WAITING = 9
    STOPPED = 10
    KEPT = 11
    UNFIT = 12
    MISUSE = 13
    UNSORTED = 14
    IN_ORDER = 15
    SHARED = 16


class BohmError(Exception):
    """A call failed. Nothing has changed, unless the exception's class says so."""

    status: ClassVar[Status]
    why: ClassVar[str]

    def __init__(self, why: str = "") -> None:
        super().__init__(why or self.why)


class RefusedError(BohmError, ValueError):
    """A text was refused. `line` says why, as `refused: line 3`. The exception's text is that line, or for a procedure all that
    bohm-check says of it: each fault's line, what is wrong, and what to write instead."""

    status = Status.REFUSED
    why = "the text was refused"

    def __init__(self, report: str = "") -> None:
        self.line = report.partition("\n")[0]
        super().__init__(report)


class OutOfMemoryError(BohmError, MemoryError):
    """An allocation failed, and nothing has changed."""

    status = Status.NO_MEMORY
    why = "an allocation failed"


class TrimmedError(BohmError, LookupError):
    """The timestamp is below the machine's floor."""

    status = Status.TRIMMED
    why = "the timestamp is below the floor"


class FutureError(BohmError, LookupError):
    """The timestamp is above the machine's top."""

    status = Status.FUTURE
    why = "the timestamp is above the top"


class HasStoreError(BohmError, ValueError):
    """The segment has a store."""

    status = Status.HAS_STORE
    why = "the segment has a store"


class TimestampsError(BohmError, OverflowError):
    """The segment's timestamps would pass 4294967295."""

    status = Status.TIMESTAMPS
    why = "the segment's timestamps would pass 4294967295"


class HasLogError(BohmError, ValueError):
    """The snapshot has transactions."""

    status = Status.HAS_LOG
    why = "the snapshot has transactions"


class NoKeyError(BohmError, ValueError):
    """The text isn't a key."""

    status = Status.NO_KEY
    why = "a key is 1 to 32 lower-case letters, digits and underscores, the first of them a letter"


class WaitingError(BohmError):
    """Replies of an earlier segment are waiting: call `Machine.replies` first."""

    status = Status.WAITING
    why = "replies of an earlier segment were not taken yet"


class StoppedError(BohmError, MemoryError):
    """An allocation failed part way. `replies` are those of the transactions that ran: whole batches."""

    status = Status.STOPPED
    why = "an allocation failed after part of the segment had run"

    def __init__(self, replies: Sequence["Reply"] = ()) -> None:
        self.replies: Sequence["Reply"] = replies
        super().__init__()


class KeptError(BohmError, MemoryError):
    """The last transactions ran, but their replies could not be allocated: `Machine.replies` returns them later."""

    status = Status.KEPT
    why = "the replies could not be allocated: take them later"


class BusyError(BohmError, RuntimeError):
    """The machine was called by the thread that it is running a call of: by a signal's handler, a finalizer or a callback."""

    status = Status.MISUSE
    why = "the machine is running a call of this thread"


class UnfitError(BohmError, ValueError):
    """An edition, a statement, or a number of arguments, calls or workers is not acceptable."""

    status = Status.UNFIT
    why = "an edition, a statement, or a number of arguments, calls or workers is not acceptable"


class UnsortedError(BohmError, ValueError):
    """The keys of a store's rows don't rise, each above the one before it."""

    status = Status.UNSORTED
    why = "the keys are not in rising order"


class ClosedError(BohmError, ValueError):
    """The machine or the procedure is closed."""

    status = Status.MISUSE
    why = "it is closed"


KINDS: Tuple[Type[BohmError], ...] = (
    RefusedError, OutOfMemoryError, TrimmedError, FutureError, HasStoreError, TimestampsError, HasLogError, NoKeyError,
    WaitingError, StoppedError, KeptError, UnfitError, ClosedError,
    UnsortedError,
)
BY_STATUS: Dict[Status, Type[BohmError]] = {kind.status: kind for kind in KINDS}


def error_for(status: int) -> BohmError:
    """The exception of a status that isn't `Status.DONE`."""
    return BY_STATUS[Status(status)]()


def refusal_for(report: bytes) -> RefusedError:
    """The exception of a refusal, from the library's line or report."""
    return RefusedError(report.decode(errors="replace").rstrip("\n"))


def note_on(error: BaseException, text: str) -> None:
    """Adds a note to an exception: before Python 3.11 to its arguments."""
    add = getattr(error, "add_note", None)
    if add:
        add(text)
    else:
        error.args += (text,)
