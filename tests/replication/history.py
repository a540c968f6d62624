"""Compares the clients' own record with the log and its serial run.

Each acknowledged entry was run once, with the answer that its client was told. The order of the log agrees with real time: an
entry that was acknowledged before another one was sent precedes it. A fresh read returns the serial run's value at a sequence
number that agrees with real time in the same way.
"""
from __future__ import annotations

from bisect import bisect_right
from collections.abc import Callable, Iterable
from dataclasses import dataclass, field

from load import BY_TEXT, Asked, id_of, read_value
from serial import Serial


@dataclass
class Verdict:
    """The counts of what was checked, and the faults, as texts."""
    acknowledged: int = 0
    unanswered: int = 0
    reads: int = 0
    repeated: int = 0
    lost: list[str] = field(default_factory=list)
    wrong: list[str] = field(default_factory=list)
    disorder: list[str] = field(default_factory=list)

    def faults(self) -> list[str]:
        return self.lost + self.wrong + self.disorder


@dataclass(frozen=True)
class Span:
    """An operation at a place of the order, with the times at which it began and, if it was, was acknowledged."""
    place: float
    begin: float
    end: float | None


def check(asked: list[Asked], serial: Serial) -> Verdict:
    found = Verdict()
    told = [each for each in asked if each.end]
    found.unanswered = len(asked) - len(told)
    sent = [each for each in told if not each.reads]
    reads = [each for each in told if each.reads]
    found.acknowledged, found.reads = len(sent), len(reads)
    check_entries(sent, serial, found)
    check_unasked(asked, serial, found)
    order = spans_of(asked, serial)
    check_order(order, found.disorder, lambda at: f"transaction {at:g}")
    check_reads(reads, order, serial, found)
    return found


def check_entries(sent: list[Asked], serial: Serial, found: Verdict) -> None:
    """Compares the answer to each entry with the serial run's."""
    seen: set[str] = set()
    for each in sent:
        name = id_of(each.text)
        if name is None:
            if each.told != BY_TEXT[each.text]:
                found.wrong.append(f"{each.text!r}: told {each.told!r}, not {BY_TEXT[each.text]!r}")
        elif each.rude and each.told == "refused: id":
            continue
        elif name not in serial.ids:
            found.lost.append(f"{each.text!r} was answered {each.told!r}, and isn't in the log")
        elif each.told != serial.ids[name]:
            found.wrong.append(f"{each.text!r}: told {each.told!r}, the serial run's is {serial.ids[name]!r}")
        found.repeated += name in seen
        seen.add(name or "")


def check_unasked(asked: list[Asked], serial: Serial, found: Verdict) -> None:
    """The log has nothing that no client sent."""
    texts = {each.text for each in asked}
    for text in serial.texts:
        name = id_of(text)
        if text not in texts and not (name or "").startswith(("open", "transfer")):
            found.wrong.append(f"{text!r} is in the log, and nobody sent it")


def spans_of(asked: list[Asked], serial: Serial) -> list[Span]:
    """The transactions in the log's order, each from when it was sent first to when it was acknowledged first."""
    begun: dict[str, float] = {}
    ended: dict[str, float] = {}
    for each in asked:
        name = id_of(each.text)
        if not name or each.reads or each.rude:
            continue
        begun.setdefault(name, each.begin)
        if each.end:
            ended[name] = min(ended.get(name, each.end), each.end)
    numbers = ((name, int(answer.split(" ")[0])) for name, answer in serial.ids.items() if answer[:1].isdigit())
    return [Span(number, begun.get(name, 0.0), ended.get(name)) for name, number in numbers]


def check_order(spans: Iterable[Span], faults: list[str], name: Callable[[float], str]) -> None:
    """No operation is ordered after one that began after its end. Operations at one place are in any order."""
    latest = pending = 0.0
    place = -1.0
    for span in sorted(spans, key=lambda span: span.place):
        if span.place != place:
            latest, place = max(latest, pending), span.place
        if span.end is not None and span.end < latest:
            faults.append(f"{name(span.place)} was acknowledged at {span.end:.6f}, and is behind what was begun at {latest:.6f}")
        pending = max(pending, span.begin)


def check_reads(reads: list[Asked], order: list[Span], serial: Serial, found: Verdict) -> None:
    spans = list(order)
    for each in reads:
        number, value = read_value(each.told)
        spans.append(Span(number + 0.5, each.begin, each.end))
        held = serial.values.get(each.text, [])
        at = bisect_right([sequence for sequence, _ in held], number)
        wanted = held[at - 1][1] if at else None
        if value != wanted:
            found.wrong.append(f"{each.text!r} read at {number}: {value}, the serial run's is {wanted}")
    check_order(spans, found.disorder, lambda place: f"what was read at {place:g}")
