"""The package `bohm`: the installed one, or that of this repository."""
import importlib.util
import sys
from pathlib import Path

if not importlib.util.find_spec("bohm"):
    sys.path.insert(0, str(Path(__file__).resolve().parents[2] / "packaging" / "python"))
import bohm  # noqa: E402

__all__ = ["bohm"]
