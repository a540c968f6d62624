"""Replies, and the answers of whole logs."""
import enum
from typing import Any, Dict, List, NamedTuple, Optional, Sequence, Tuple


class Reason(enum.Enum):
    """Why a transaction aborted."""

    NEED = "need"
    FAIL = "fail"
    ABSENT = "absent"
    RANGE = "range"


class Reply(NamedTuple):
    """The reply to the transaction with a timestamp. `str` returns its line in the text of an answer.

    A commit has the shown values. An abort has its reason and the number of the statement that aborted, counted from 1;
    in a call the count begins with the `let`s of the procedure's values: `Procedure.statement` returns its text."""

    timestamp: int
    shows: Tuple[int, ...] = ()
    reason: Optional[Reason] = None
    statement: int = 0

    @property
    def committed(self) -> bool:
        return self.reason is None

    def __str__(self) -> str:
        if self.reason is None:
            return " ".join([f"{self.timestamp} commit", *map(str, self.shows)])
        return f"{self.timestamp} abort {self.reason.value} {self.statement}"


# A reply's reason, by the library's number of its outcome.
REASONS = (None, Reason.NEED, Reason.FAIL, Reason.ABSENT, Reason.RANGE)


class ReplySequence(Sequence[Reply]):
    """Replies that are made when they are looked at. It equals a list of the same replies."""

    __slots__ = ()

    def lines(self) -> List[str]:
        """The line of each."""
        return [*map(str, self)]

    def __eq__(self, other: object) -> bool:
        if not isinstance(other, (ReplySequence, list, tuple)):
            return NotImplemented
        return len(self) == len(other) and all(mine == theirs for mine, theirs in zip(self, other))

    __hash__ = None  # type: ignore[assignment]

    def __repr__(self) -> str:
        return repr(list(self)) if len(self) <= 20 else f"<{len(self)} replies, {self[0]!r} to {self[-1]!r}>"


class ReplyLines(ReplySequence):
    """The replies of lines of an answer."""

    __slots__ = ("_lines",)

    def __init__(self, lines: List[str]) -> None:
        self._lines = lines

    def __len__(self) -> int:
        return len(self._lines)

    def __getitem__(self, place: Any) -> Any:
        return [reply_of(line) for line in self._lines[place]] if isinstance(place, slice) else reply_of(self._lines[place])


def lines_of(answers: Sequence[object]) -> List[str]:
    """The line of each answer."""
    return answers.lines() if isinstance(answers, ReplySequence) else [*map(str, answers)]


class Answer(NamedTuple):
    """The replies of a log, and the final store. `str` returns the answer's text."""

    replies: Sequence[Reply]
    store: Dict[str, int]

    def __str__(self) -> str:
        lines = [*map(str, self.replies), "--", *(f"{key} {value}" for key, value in self.store.items())]
        return "".join(f"{line}\n" for line in lines)


def reply_of(line: str) -> Reply:
    timestamp, outcome, *rest = line.split(" ")
    if outcome == "commit":
        return Reply(int(timestamp), tuple(map(int, rest)))
    return Reply(int(timestamp), (), Reason(rest[0]), int(rest[1]))


def store_of(lines: List[str]) -> Dict[str, int]:
    """The store from lines that have a key and its value."""
    return {key: int(value) for key, value in (line.split(" ") for line in lines)}


def answer_of(text: bytes) -> Answer:
    lines = text.decode().splitlines()
    end = lines.index("--")
    return Answer(ReplyLines(lines[:end]), store_of(lines[end + 1:]))
