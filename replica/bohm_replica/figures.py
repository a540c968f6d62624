"""Counts and measurements of a replica, as Prometheus' text."""
import bisect
import itertools
import resource
from collections import Counter
from pathlib import Path
from typing import Dict, Iterator, Sequence, Tuple

from .log import Ran

# The upper bounds of the histograms: of entries' texts, and of seconds.
SIZES = (1, 4, 16, 64, 256, 1024, 4096)
SECONDS = (0.001, 0.0025, 0.005, 0.01, 0.025, 0.05, 0.1, 0.25, 1.0, 10.0)


class Histogram:
    """How many values are at most each bound, and their sum."""

    def __init__(self, bounds: Sequence[float]) -> None:
        self.bounds, self.counts, self.sum = bounds, [0] * (len(bounds) + 1), 0.0

    def add(self, value: float) -> None:
        self.counts[bisect.bisect_left(self.bounds, value)] += 1
        self.sum += value

    def lines(self, name: str) -> Iterator[str]:
        upto = list(itertools.accumulate(self.counts))
        for bound, count in zip([*map(str, self.bounds), "+Inf"], upto):
            yield f'{name}_bucket{{le="{bound}"}} {count}'
        yield f"{name}_sum {self.sum}"
        yield f"{name}_count {upto[-1]}"


class Figures:
    """Counts since the start of a replica."""

    def __init__(self) -> None:
        self.answers: Counter[str] = Counter()
        self.skipped: Counter[str] = Counter()
        self.requests: Counter[Tuple[str, int]] = Counter()
        self.refused: Counter[str] = Counter()
        self.texts, self.apply, self.waits = Histogram(SIZES), Histogram(SECONDS), Histogram(SECONDS)

    def note(self, ran: Sequence[Ran]) -> None:
        for each in ran:
            self.texts.add(len(each.answers))
            if each.skipped:
                self.skipped[each.skipped] += 1
            self.count(each.answers)

    def count(self, answers: Sequence[str]) -> None:
        """Counts answers by their kinds, most of which are replies."""
        text = "\n".join(answers)
        commits, aborts = text.count(" commit"), text.count(" abort ")
        if commits + aborts == len(answers) and "defined " not in text:
            self.answers["commit"] += commits
            self.answers["abort"] += aborts
            return
        for answer in answers:
            self.answers[kind_of(answer)] += 1

    def lines(self) -> Iterator[str]:
        yield from labelled("answers_total", "answers to entries of clients", "kind", self.answers)
        yield from labelled("skipped_total", "entries of the log that were skipped", "why", self.skipped)
        yield from labelled("connections_refused_total", "connections that were closed or refused", "why", self.refused)
        yield from headed("requests_total", "counter", "requests that were answered, by path and status")
        for (path, status), count in sorted(self.requests.items()):
            yield f'bohm_requests_total{{path="{path}",status="{status}"}} {count}'
        for name, help_, histogram in (("entry_texts", "clients' entries in an entry of the log", self.texts),
                                       ("apply_seconds", "time to run and store", self.apply),
                                       ("request_seconds", "time from a client's entry to its answer", self.waits)):
            yield from headed(name, "histogram", help_)
            yield from histogram.lines(f"bohm_{name}")


def kind_of(answer: str) -> str:
    """commit, abort, defined or refused."""
    first, second = answer.split(" ", 2)[:2]
    return second if first.isdigit() else first.rstrip(":")


def headed(name: str, kind: str, help_: str) -> Iterator[str]:
    yield f"# HELP bohm_{name} {help_}"
    yield f"# TYPE bohm_{name} {kind}"


def one(name: str, kind: str, help_: str, value: float) -> Iterator[str]:
    yield from headed(name, kind, help_)
    yield f"bohm_{name} {value}"


def labelled(name: str, help_: str, label: str, counts: Dict[str, int]) -> Iterator[str]:
    yield from headed(name, "counter", help_)
    for word, count in sorted(counts.items()):
        yield f'bohm_{name}{{{label}="{word}"}} {count}'


def memory() -> int:
    """Bytes of this process's memory in use."""
    return int(Path("/proc/self/statm").read_text().split()[1]) * resource.getpagesize()
