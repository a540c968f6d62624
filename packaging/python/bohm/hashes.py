"""Sums of hashes, which don't depend on an order."""
from ._core import summed

__all__ = ["summed"]
