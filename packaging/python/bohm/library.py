"""The shared object, with the functions that bohm.h declares."""
import ctypes
import functools
import os
from typing import Optional, Union

from ._core import Table

Buffer = Union[bytes, bytearray, memoryview]
Text = Union[str, Buffer]

# The shared object's name, which changes with the interface that programs rely on.
SHARED = "libbohm.so.1"

# The number of that interface.
ABI = 1
FUNCTIONS = (
    "bohm_answer", "bohm_open", "bohm_open_rows", "bohm_apply_held", "bohm_rows", "bohm_value_at", "bohm_store_at",
    "bohm_store_rows", "bohm_digest", "bohm_trim", "bohm_compact", "bohm_timestamps", "bohm_counts_sized", "bohm_close",
    "bohm_prepare_report", "bohm_statement_text", "bohm_close_procedure", "bohm_open_calls_for", "bohm_push",
    "bohm_key_handle", "bohm_push_named", "bohm_run_calls_held", "bohm_share_calls", "bohm_open_worker", "bohm_work",
    "bohm_finish_calls", "bohm_calls_text", "bohm_clear_calls", "bohm_close_calls", "bohm_call", "bohm_machine_key", "bohm_call_named", "bohm_free",
)


def octets(text: Text) -> bytes:
    """The bytes of a `str` or of a bytes-like object."""
    return text.encode() if isinstance(text, str) else bytes(memoryview(text))


def drawn_seed() -> bytes:
    """The seed for hashing keys: random bytes, so that whoever chooses keys can't choose ones that collide."""
    return os.urandom(16)


class Library:
    """A loaded shared object: the one at `path`, or else the one beside this file, or else the system's."""

    def __init__(self, path: "Optional[str | os.PathLike[str]]" = None) -> None:
        beside = os.path.join(os.path.dirname(os.path.abspath(__file__)), SHARED)
        self.path = os.path.abspath(path) if path else beside if os.path.exists(beside) else SHARED
        self._loaded = ctypes.CDLL(self.path)
        self._check_interface()
        self._table = Table({name: self._address(name) for name in FUNCTIONS})

    def _check_interface(self) -> None:
        """Refuses a library with another interface, whose calls would read other arguments."""
        number = getattr(self._loaded, "bohm_abi", None)
        if number and number() != ABI:
            raise OSError(f"{self.path} has the interface {number()}, and this package needs {ABI}")

    def _address(self, name: str) -> int:
        function = getattr(self._loaded, name, None)
        address = ctypes.cast(function, ctypes.c_void_p).value if function else None
        if not address:
            raise OSError(f"{self.path} is older than this package: it has no {name}")
        return address

    def _word(self, name: str) -> str:
        return ctypes.string_at(ctypes.addressof(ctypes.c_char.in_dll(self._loaded, name))).decode()

    @property
    def version(self) -> str:
        """The library's version."""
        return self._word("bohm_version")

    @property
    def sources(self) -> str:
        """The checksum of the sources that the library is built from."""
        return self._word("bohm_sources")


@functools.lru_cache(maxsize=None)
def load(path: "Optional[str | os.PathLike[str]]" = None) -> Library:
    """The library at a path, which is loaded once."""
    return Library(path)
