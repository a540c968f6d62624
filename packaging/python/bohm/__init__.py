"""The proved executor in a Python program.

    import bohm

    with bohm.Machine("log 2\\nalice 100\\nbob 20\\n") as machine:
        transfer = machine.prepare(open("transfer.procedure").read())
        reply = transfer(from_="alice", to="bob", amount=30)
        print(reply.committed, machine["bob"])

`answer` runs a whole log. Texts are `str` or any bytes-like object. A call that fails raises an exception of its status's
class, a subclass of `BohmError`; a ledger on a disk raises `LedgerError` too. `NATIVE` is whether an extension module
makes the library's calls, and not ctypes."""
from . import entries, hashes
from ._core import NATIVE, Call, Key
from .client import Client, DeniedError, Read, UnavailableError
from .entries import Refused
from .errors import (
    BohmError, BusyError, ClosedError, FutureError, HasLogError, HasStoreError, KeptError, NoKeyError, OutOfMemoryError,
    RefusedError, Status, StoppedError, TimestampsError, TrimmedError, UnfitError, UnsortedError, WaitingError,
)
from .ledger import Batch, Ledger, Pending, Store
from .ledger_file import DamagedError, InUseError, LedgerError, NoLedgerError
from .ledger_state import Defined
from .library import SHARED, Library, load
from .machine import Counts, Machine, Replies, answer
from .procedures import Procedure, Statement
from .replies import Answer, Reason, Reply

__all__ = [
    "NATIVE", "SHARED", "Answer", "Batch", "BohmError", "BusyError", "Call", "Client", "ClosedError", "Counts",
    "DamagedError", "Defined", "DeniedError", "FutureError", "HasLogError", "HasStoreError", "InUseError", "KeptError",
    "Key", "Ledger", "LedgerError", "Library", "Machine", "NoKeyError", "NoLedgerError", "OutOfMemoryError", "Pending",
    "Procedure", "Read", "Reason", "Refused", "RefusedError", "Replies", "Reply", "Statement", "Status", "StoppedError", "Store",
    "TimestampsError", "TrimmedError", "UnavailableError", "UnfitError", "UnsortedError", "WaitingError", "answer",
    "entries", "hashes", "load",
]
