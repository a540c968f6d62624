"""What the package is built on: the extension module, or ctypes where there is none, or where the environment has a
BOHM_CTYPES that isn't empty."""
import os
from typing import TYPE_CHECKING

__all__ = ["Call", "Key", "Machine", "NATIVE", "Procedure", "Rows", "Table", "summed", "use_replies"]

if TYPE_CHECKING:
    from ._native import Call, Key, Machine, Procedure, Rows, Table, summed, use_replies

    NATIVE: bool
else:
    try:
        if os.environ.get("BOHM_CTYPES"):
            raise ImportError("the environment asks for ctypes")
        from ._native import Call, Key, Machine, Procedure, Rows, Table, summed, use_replies

        NATIVE = True
    except ImportError:
        from ._foreign import Call, Key, Machine, Procedure, Rows, Table, summed, use_replies

        NATIVE = False
