"""The entries of a ledger or of a replicated log: definitions of procedures, calls of them, transactions as text.

An entry is text: `define NAME` and a procedure's text, `call NAME ARGUMENT..` with keys before values, or the lines of a
transaction from `txn` to `end`. It may carry an id: `define #ID NAME`, `call #ID NAME ARGUMENT..`, `txn #ID`. The last
newline may be missing. Bytes that aren't ASCII are held as one character each (Latin-1): no accepted entry has any."""
import re
from typing import Iterator, List, NamedTuple, Optional, Sequence, Tuple, Union

from .library import Text

NAME = "[a-z][a-z0-9_]{0,31}"
NUMBER = "(?:0|-?[1-9][0-9]{0,18})"
LEAST, GREATEST = -(1 << 63), (1 << 63) - 1
LEAST_WORD = str(LEAST)
# The most bytes of an entry without its id and its last newline.
LONGEST = 1 << 20

KEY = re.compile(NAME)
ID = re.compile("[!-~]{1,64}")
VALUE = re.compile(NUMBER)
DEFINE = re.compile(f"define (?:#([!-~]{{1,64}}) )?({NAME})\n")
TXN = re.compile("txn(?: #([!-~]{1,64}))?\n")


class Definition(NamedTuple):
    """From here on the name means the procedure of a text, which ends with a newline unless it is empty."""

    name: str
    text: str


class Call(NamedTuple):
    """A procedure's name, and an argument for each of its parameters, keys first."""

    name: str
    arguments: Tuple[str, ...]


class Transaction(NamedTuple):
    """Lines; the first is `txn`."""

    text: str


class Refused(NamedTuple):
    """Why an entry isn't stored, as `refused: line 3`."""

    line: str

    def __str__(self) -> str:
        return self.line


Entry = Union[Definition, Call, Transaction]
SHAPE, LARGE, TAKEN = (Refused(f"refused: {why}") for why in ("shape", "large", "id"))


def text_of(given: Text) -> str:
    """An entry's text with a newline at its end, one character for each byte."""
    if not isinstance(given, str):
        given = bytes(memoryview(given)).decode("latin-1")
    elif not given.isascii():
        given = given.encode().decode("latin-1")
    return given if given.endswith("\n") else given + "\n"


def read(text: str) -> Tuple[Optional[str], Union[Entry, Refused]]:
    """The id of a text that ends with a newline, if it has one, and the entry, or why its first line is none's."""
    if text.startswith("call "):
        return read_call(text)
    if found := TXN.match(text):
        return found[1], Transaction("txn\n" + text[found.end():])
    elif found := DEFINE.match(text):
        return found[1], Definition(found[2], text[found.end():])
    return None, SHAPE


def read_call(text: str) -> Tuple[Optional[str], Union[Call, Refused]]:
    words = text[:-1].split(" ")
    request = None
    if words[1][:1] == "#":
        request = words.pop(1)[1:]
        if not ID.fullmatch(request):
            return None, SHAPE
    # Words aren't empty, and hold no other bytes than `!` to `~`.
    if len(words) < 2 or not (text.isascii() and text[:-1].isprintable() and all(words) and KEY.fullmatch(words[1])):
        return None, SHAPE
    return request, Call(words[1], tuple(words[2:]))


def size_of(text: str, request: Optional[str]) -> int:
    """The bytes of a text that ends with a newline, without that and the id."""
    return len(text) - 1 - (0 if request is None else len(" #") + len(request))


def find(batch: str, request: str) -> Optional[str]:
    """The entry of a stored batch that carries an id, with its last newline."""
    for end in (" ", "\n"):
        at = batch.find(f" #{request}{end}")
        while at >= 0:
            begin = batch.rfind("\n", 0, at) + 1
            if batch[begin:at] in ("call", "define", "txn"):
                return next(split(batch, begin))
            at = batch.find(f" #{request}{end}", at + 1)
    return None


def split(batch: str, at: int = 0) -> Iterator[str]:
    """The entries of a stored batch from the one at an offset on, each with its last newline."""
    while at < len(batch):
        end = batch.find("\n" if batch.startswith("call ", at) else "\nend\n", at)
        if end < 0:
            yield batch[at:]
            return
        end += 1 if batch.startswith("call ", at) else len("\nend\n")
        yield batch[at:end]
        at = end


def transactions(batch: str) -> int:
    """How many entries of a stored batch have sequence numbers."""
    return sum(not entry.startswith("define ") for entry in split(batch))


def ended(text: str) -> Tuple[str, str]:
    """A text up to its first line `end`, and what follows. An entry that is accepted is followed by nothing."""
    end = text.find("\nend\n")
    cut = len(text) if end < 0 else end + len("\nend\n")
    return text[:cut], text[cut:]


def writes_of(transaction: str) -> List[str]:
    """The keys that an accepted transaction declares to write."""
    return transaction.split("\n", 3)[2].split(" ")[1:]


def is_value(word: str) -> bool:
    """Whether a word is a value as a log writes it."""
    if len(word) < 19 and word.isdigit():
        return word[0] != "0" or word == "0"
    return VALUE.fullmatch(word) is not None and LEAST <= int(word) <= GREATEST


def sum_of(word: str) -> str:
    """A value, or a key, as a sum: the least value has no literal."""
    return f"{LEAST + 1} - 1" if word == LEAST_WORD else word


class Form:
    """What a procedure's accepted text says of its calls: their arguments, and their instances."""

    def __init__(self, name: str, text: str) -> None:
        self.text = text
        lines = text.splitlines()
        sets = next(number for number, line in enumerate(lines) if line.split(" ")[0] == "reads")
        heads = [line.split(" ") for line in lines[1:sets]]
        self.keys = [words[1] for words in heads if words[0] == "key"]
        self.values = [words[1] for words in heads if words[0] == "value"]
        self.count = len(self.keys) + len(self.values)
        # The sets' keys by their places among the arguments and, behind those, the keys that are no parameters.
        self.fixed: List[str] = []
        self.reads, self.writes = ([*map(self.placed, line.split(" ")[1:])] for line in lines[sets:sets + 2])
        # The places of parameters that are written, and the other keys that are.
        self.written = bytes(place for place in self.writes if place < self.count)
        self.fixed_writes = [self.fixed[place - self.count] for place in self.writes if place >= self.count]
        # Lines with a slot for each argument, and the places of these arguments.
        slots = [f"let ${value} = {{{place}}}" for place, value in enumerate(self.values, len(self.keys))]
        body = "".join(f"{line}\n" for line in [*slots, *map(self.slotted, lines[sets + 2:])])
        self.body = re.sub(r"\{\d+\}", "%s", body)
        self.slots = [int(place) for place in re.findall(r"\{(\d+)\}", body)]
        words = [f"({NAME})"] * len(self.keys) + [f"({NUMBER})"] * len(self.values)
        self.calls = re.compile(" ".join(["^call(?: #([!-~]{1,64}))?", name, *words]) + "$", re.MULTILINE)

    def placed(self, name: str) -> int:
        if name in self.keys:
            return self.keys.index(name)
        self.fixed.append(name)
        return self.count + len(self.fixed) - 1

    def slotted(self, line: str) -> str:
        """A statement with `{N}` for the N-th key parameter. Every other word of a sum is an operator."""
        words = line.split(" ")
        if words[0] == "need" and len(words) == 3:
            at = [2]
        elif words[0] in ("set", "drop"):
            at = [1, *range(3, len(words), 2)]
        else:
            at = [*range(3 if words[0] == "let" else 1, len(words), 2)]
        for place in at:
            sign = "-" if words[place][0] == "-" else ""
            name = words[place][len(sign):]
            if name in self.keys:
                words[place] = f"{sign}{{{self.keys.index(name)}}}"
        return " ".join(words)

    def fault(self, arguments: Sequence[str]) -> Optional[Refused]:
        """Why a call with these arguments is refused."""
        if len(arguments) != self.count:
            return Refused("refused: arguments")
        keys = len(self.keys)
        if not all(map(is_value, arguments[keys:])):
            return Refused("refused: value")
        if not all(map(KEY.fullmatch, arguments[:keys])):
            return Refused("refused: key")
        return None

    def instance(self, arguments: Sequence[str]) -> str:
        """The transaction that an accepted call stands for."""
        named = [*arguments, *self.fixed]
        reads = " ".join(["", *sorted({*map(named.__getitem__, self.reads)})])
        writes = reads if self.reads == self.writes else " ".join(["", *sorted({*map(named.__getitem__, self.writes)})])
        if LEAST_WORD in arguments:
            named = [*map(sum_of, arguments)]
        return f"txn\nreads{reads}\nwrites{writes}\n{self.body % (*map(named.__getitem__, self.slots),)}"

    def rows(self, texts: Sequence[str]) -> Optional[List[Tuple[str, ...]]]:
        """The ids, or empty, and the arguments of texts that all are accepted calls of the procedure; none if they aren't, or if
        a value has more than 18 digits."""
        joined = "".join(texts)
        found: List[Tuple[str, ...]] = self.calls.findall(joined)
        if not len(found) == len(texts) == joined.count("\n") or not self.count:
            return None
        values = [*zip(*found)][1 + len(self.keys):]
        return found if all(max(map(len, column)) < 19 for column in values) else None
