"""Procedures: transactions with parameters, called like Python functions."""
import keyword
import textwrap
from typing import TYPE_CHECKING, Any, List, Mapping, NamedTuple, NoReturn, Optional, Tuple

from . import _core
from .library import Text, octets

if TYPE_CHECKING:
    from .machine import Machine


def _word_of(name: str) -> str:
    """A parameter's name in Python: with an underscore after a keyword."""
    return name + "_" if keyword.iskeyword(name) else name


def _exact(text: Text) -> bytes:
    """A procedure's bytes. A `str` may be indented, begin with newlines, and lack the last one."""
    return (textwrap.dedent(text).strip("\n") + "\n").encode() if isinstance(text, str) else octets(text)


def _named(lines: List[List[str]], kind: str) -> Tuple[str, ...]:
    """The parameters of a kind, from the lines between the head and `reads`."""
    head = next(number for number, words in enumerate(lines) if words[0] == "reads")
    return tuple(words[1] for words in lines[1:head] if words[0] == kind)


class Statement(NamedTuple):
    """A statement of a procedure: the number of its line in the procedure's text, and that line. As a `str` it is the line."""

    line: int
    text: str

    def __str__(self) -> str:
        return self.text


class Procedure(_core.Procedure):
    """A transaction with parameters, read and checked once. `Machine.prepare` makes it.

        transfer = machine.prepare(text)
        reply = transfer(from_="alice", to="bob", amount=30)

    Arguments are given in the order of the parameters, keys before values, or by name. A parameter whose name is a Python
    keyword takes an underscore after it. Keys are texts, or results of `Machine.key`; values are 64-bit integers. `call`
    returns a call that `Machine.run` runs together with others."""

    def __init__(self, machine: "Machine", text: Text) -> None:
        given = _exact(text)
        self._prepare(machine, given)
        self.text = given.decode()
        lines = [line.split(" ") for line in self.text.splitlines()]
        keys, values = _named(lines, "key"), _named(lines, "value")
        places = {_word_of(name): place for place, name in enumerate(keys + values)}
        places.update({name: place for place, name in enumerate(keys + values)})
        self._describe(int(lines[0][1]), keys, values, places)

    @property
    def parameters(self) -> Tuple[str, ...]:
        """The parameters' names: keys, then values."""
        return self.keys + self.values

    def statement(self, number: int) -> Statement:
        """The statement with a number as replies have it, from 1 on: the values' bindings count first, and their lines are
        those of the values.

            print(f"{reply}: {transfer.statement(reply.statement)}")    # 7 abort need 3: need from >= $amount"""
        found = self._statement(number) if 0 < number < 1 << 32 else None
        if not found:
            raise IndexError(f"the procedure has no statement {number}")
        return Statement(*found)

    def _arguments(self, given: Tuple[Any, ...], named: Optional[Mapping[str, Any]]) -> List[Any]:
        """An argument for each parameter, in their order."""
        wanted = len(self.parameters)
        if len(given) > wanted:
            raise TypeError(f"{wanted} arguments expected, {len(given)} given")
        missing = object()
        filled = [*given, *[missing] * (wanted - len(given))]
        for word, value in (named or {}).items():
            place = self._places.get(word)
            if place is None:
                raise TypeError(f"unexpected argument '{word}'")
            if filled[place] is not missing:
                raise TypeError(f"'{word}' was given twice")
            filled[place] = value
        absent = [_word_of(name) for name, value in zip(self.parameters, filled) if value is missing]
        if absent:
            raise TypeError(f"missing arguments: {', '.join(absent)}")
        return filled

    def __repr__(self) -> str:
        return f"<procedure ({', '.join(map(_word_of, self.parameters))})>"

    def __reduce__(self) -> NoReturn:
        raise TypeError("a procedure can't be copied: prepare its text again")

    def __enter__(self) -> "Procedure":
        return self

    def __exit__(self, *what: object) -> None:
        self.close()
