"""Stores as rows: 40 bytes for each key, in rising order of the keys: the key's bytes, filled up with zeros to 32, and its
value as 8 bytes of the machine's order. NumPy reads them by the dtype `[("key", "S32"), ("value", "i8")]`."""
import operator
import re
import struct
from typing import Dict, Iterable, Mapping, Tuple, Union

from .errors import NoKeyError
from .library import Text, octets

ROW = struct.Struct("=32sq")
KEY = re.compile(rb"[a-z][a-z0-9_]{0,31}")
Pairs = Union[Mapping[str, int], Iterable[Tuple[Text, int]]]


def packed(store: Pairs) -> bytearray:
    """The rows of keys and their values: those of a mapping are sorted."""
    pairs: Iterable[Tuple[Text, int]] = sorted(store.items()) if isinstance(store, Mapping) else store
    rows = bytearray()
    for key, value in pairs:
        rows += row_of(key, value)
    return rows


def row_of(key: Text, value: int) -> bytes:
    name = octets(key)
    if not KEY.fullmatch(name):
        raise NoKeyError(f"{key!r} is not a key")
    try:
        return ROW.pack(name, value)
    except struct.error:
        number = operator.index(value)
        raise OverflowError(f"{name.decode()}: {number} does not fit in 64 bits") from None


def unpacked(rows: bytes) -> Dict[str, int]:
    """Each key's value."""
    return {key.rstrip(b"\0").decode(): value for key, value in ROW.iter_unpack(rows)}
