"""The time of a transaction on a number of cores, computed from the times of its parts on one. README.md has the model."""
from dataclasses import dataclass, replace
from itertools import product

# The most workers of each side that the program takes.
MOST_WORKERS = 16

# Where a part is done: on one thread before or after (`behind`) the rest, by all workers of the planning or the executing
# side, or by one thread of the executing side in log order.
BEFORE, PLANNING, EXECUTING_ORDER, EXECUTING, BEHIND = ("before", "planning", "executing in order", "executing", "behind")

DESIGNS = {
    # The planning side's workers parse and check windows. The executing side reads and runs them.
    "windows": {"input": EXECUTING_ORDER, "reading": PLANNING, "checking": PLANNING, "planning": PLANNING,
                "sweep": EXECUTING, "settling": EXECUTING, "printing": EXECUTING, "rest": EXECUTING_ORDER},
    # The whole text is read first, on one thread.
    "whole": {"input": BEFORE, "reading": BEFORE, "checking": BEFORE, "planning": PLANNING,
              "sweep": EXECUTING, "settling": EXECUTING_ORDER, "printing": BEHIND, "rest": BEHIND},
}
# The terms that more workers shorten.
WORK = {"planning side, its workers", "executing side, its workers", "all cores at work"}
PARTS = list(DESIGNS["windows"])


@dataclass
class Measured:
    """The measurements of a log. Times are in seconds."""
    txns: int
    # The work done once for each run: starting, the store's lines, writing.
    fixed: float
    # The time of each part for one transaction, with no other core busy.
    parts: dict
    # The share of a batch that is the longest chain of transactions, each reading what the one before it wrote.
    chain: float
    # How much longer one core takes for each other busy core: caches and memory are shared.
    crowding: float


@dataclass
class Point:
    cores: int
    planners: int
    executors: int
    # Seconds for each transaction.
    seconds: float
    # The term that is largest.
    bound: str

    @property
    def rate(self):
        return 1 / self.seconds


def terms(measured, places, cores, planners, executors):
    """The terms of a transaction's time; those of the two sides and of the cores overlap in time."""
    sums = dict.fromkeys((BEFORE, PLANNING, EXECUTING_ORDER, EXECUTING, BEHIND), 0.0)
    for part, seconds in measured.parts.items():
        sums[places[part]] += seconds
    others = sums[EXECUTING] - measured.parts["sweep"]
    shared = max(measured.parts["sweep"] / executors, measured.parts["sweep"] * measured.chain) + others / executors
    alone = {"start, store and writing": measured.fixed / measured.txns,
             "one thread before": sums[BEFORE], "one thread behind": sums[BEHIND]}
    is_chain = measured.chain * executors > 1 and measured.parts["sweep"] * measured.chain > others / executors
    beside = [{"planning side, its workers": sums[PLANNING] / planners},
              {"executing side, in order": sums[EXECUTING_ORDER],
               "chain of the log" if is_chain else "executing side, its workers": shared},
              {"all cores at work": (sum(measured.parts.values()) - sums[BEFORE] - sums[BEHIND]) / cores}]
    return alone, max(beside, key=lambda side: sum(side.values()))


def point(measured, places, cores, planners, executors):
    alone, longest = terms(measured, places, cores, planners, executors)
    together = {**alone, **longest}
    busy = min(cores, planners + executors)
    seconds = sum(together.values()) * (1 + measured.crowding * (busy - 1))
    return Point(cores, planners, executors, seconds, max(together, key=together.get))


def best_division(measured, design, cores):
    counts = range(1, min(cores, MOST_WORKERS) + 1)
    pairs = [(cc, execute) for cc, execute in product(counts, counts) if cc + execute <= max(cores, 2)]
    points = [point(measured, DESIGNS[design], cores, *pair) for pair in pairs]
    return min(points, key=lambda it: (it.seconds, it.planners + it.executors))


def best(measured, design, cores):
    """The best division of the cores between the two sides, with the fewest workers. If more workers would pay off but
    for crowding, the bound is the one that they would have, or the crowding itself."""
    found = best_division(measured, design, cores)
    uncrowded = best_division(replace(measured, crowding=0.0), design, cores)
    if uncrowded.planners + uncrowded.executors == found.planners + found.executors:
        is_most = found.bound in WORK and MOST_WORKERS in (found.planners, found.executors)
        return replace(found, bound=f"{MOST_WORKERS} workers of a side") if is_most else found
    is_work = uncrowded.bound in WORK
    return replace(found, bound="shared caches and memory" if is_work else uncrowded.bound)
