"""The values of the log: texts that clients sent, put together by a sequencer, behind the version of their rules."""
import re
from typing import List, NamedTuple, Optional, Sequence, Union

# The version of the rules by which this program runs entries.
RULES = 1
# The most texts of a value: they are one commit of a ledger.
MOST = 4096
HEAD = re.compile(rb"(batch|rules) ([1-9][0-9]{0,8})\n")


class Batch(NamedTuple):
    """Texts for the ledger, each answered by itself."""

    rules: int
    texts: List[str]


class Rules(NamedTuple):
    """From here on entries are run by the rules of a version."""

    version: int


class Skipped(NamedTuple):
    """Why a value is none of these: it counts as an entry, and does nothing."""

    why: str


def written(texts: Sequence[str], rules: int) -> bytes:
    """The value of texts, none of which has a NUL."""
    return b"batch %d\n" % rules + "\0".join(texts).encode("latin-1")


def read(value: bytes) -> Union[Batch, Rules, Skipped]:
    head = HEAD.match(value)
    if not head:
        return Skipped("shape")
    number, rest = int(head[2]), value[head.end():]
    if head[1] == b"rules":
        return Skipped("shape") if rest else Rules(number)
    text = rest.decode("latin-1")
    texts = text.split("\0")
    if len(texts) > MOST:
        return Skipped("large")
    # A sequencer's texts all have their last newlines.
    are_whole = text.endswith("\n") and text.count("\n\0") == len(texts) - 1
    return Batch(number, texts if are_whole else [text if text.endswith("\n") else text + "\n" for text in texts])


def texts_of(value: bytes, rules: int) -> Optional[List[str]]:
    """The texts of a value by the rules in force; none if it has none that count."""
    found = read(value)
    return found.texts if isinstance(found, Batch) and found.rules == rules else None
