"""The Python package where allocations fail, its own and the library's: `refusals.py LIBRARY STEPS`, with tests/refusals.c
preloaded, PYTHONMALLOC=malloc, and the package on the path. Each of the first STEPS allocations of each call fails in turn, and then
some later ones. Nothing is lost or done twice: the replies that are returned, raised or pending
are those of the transactions that ran, and the next call works."""
import ctypes
import sys
from array import array
from functools import partial

import bohm

LIBRARY, STEPS = bohm.load(sys.argv[1]), int(sys.argv[2])
SWITCH = ctypes.CDLL(None)
MANY, NAMES = 4096 + 40, 50
ADD = "procedure 2\nkey k\nvalue n\nreads k\nwrites k\nset k = k + $n\nshow k\nend\n"
LINES = "call #r1 add a 1\n" * MANY
TEXT = "log 2\n" + "txn\nreads a\nwrites a\nset a = a + 1\nshow a\nend\n" * MANY


class Trial:
    """A machine whose key `a` counts the transactions that ran."""

    def __init__(self):
        self.machine = bohm.Machine("log 2\na 0\n", library=LIBRARY)
        self.add = self.machine.prepare(ADD)
        self.key = self.machine.key("a")
        self.calls = [self.add.call(self.key, 1)] * MANY
        self.names = [self.add.call("a", 1)] * MANY
        self.columns = array("I", [self.key.handle]) * MANY, array("q", [1]) * MANY


WORKS = {
    "call by key": lambda trial: trial.add(trial.key, 1),
    "call by name": lambda trial: trial.add(k="a", n=1),
    "two calls": lambda trial: trial.machine.run(trial.calls[:2]),
    "many calls": lambda trial: trial.machine.run(trial.calls),
    "many calls by names": lambda trial: trial.machine.run(trial.names),
    "columns": lambda trial: trial.machine.run_many(trial.add, *trial.columns),
    **({"lines": lambda trial: trial.machine._run_read(trial.add._read("add", LINES, MANY), b"\0"),
        "sums": lambda trial: bohm.hashes.summed("0" * 64, [("a", "b")])} if bohm.NATIVE else {}),
    "segment": lambda trial: trial.machine.apply(TEXT),
    "replies": lambda trial: trial.machine.replies(),
    "key": lambda trial: trial.machine.key("b").handle,
    "making a call": lambda trial: trial.add.call("b", 1).keys,
    "reading": lambda trial: trial.machine["a"] is trial.machine.value_at("a") is trial.machine.digest(),
    "snapshot": lambda trial: bohm.Machine(trial.machine.snapshot(), library=LIBRARY).top,
    "rows": lambda trial: bohm.Machine.open_rows(trial.machine.store_rows(), library=LIBRARY).top,
    "compacting": lambda trial: trial.machine.compact(),
    "text of calls": lambda trial: trial.machine.calls_text([*trial.calls[:2], *trial.names[:2]]),
    # Not by `prepare`, whose closures crash CPython 3.12 and 3.13 if they can't be allocated.
    "preparing": lambda trial: bohm._core.Procedure()._prepare(trial.machine, ADD.encode()),
    "a report": lambda trial: refused(trial.machine, b"procedure 1\nkey k\nreads k\nwrites k\nset k += 1\nshow other\nend\n"),
    "a statement": lambda trial: trial.add.statement(2),
}


def refused(machine, text):
    """Prepares a procedure that is refused."""
    try:
        bohm._core.Procedure()._prepare(machine, text)
    except bohm.RefusedError as refusal:
        assert refusal.line == "refused: line 5"


# By ctypes these take too long to be tried hundreds of times.
LONG_WORKS = ("many calls", "many calls by names", "columns", "segment")


def tried(name, work, count):
    """Runs work with an allocation refused. Returns whether there were no more allocations than that."""
    trial = Trial()
    machine, told, error = trial.machine, None, None
    SWITCH.refuse_after(count)
    try:
        told = work(trial)
    except MemoryError as raised:
        error = raised
    except (SystemError, RuntimeError, ctypes.ArgumentError) as raised:
        # CPython itself and ctypes report some refused allocations like this.
        assert not isinstance(raised, bohm.BohmError), (name, count, repr(raised))
        error = raised
    over = SWITCH.accept_all()
    returned = [told] if isinstance(told, bohm.Reply) else told if isinstance(told, bohm.Replies) else []
    replies = [*returned, *getattr(error, "replies", ()), *machine.replies()]
    top = machine.top
    where = (name, count, repr(error))
    assert machine["a"] == top, where
    assert [reply.timestamp for reply in replies] == list(range(1, top + 1)), (*where, len(replies), top)
    assert [reply.shows for reply in replies] == [(number,) for number in range(1, top + 1)], where
    assert error is None or top in (0, 1, 2, 4096, MANY), (*where, top)
    assert str(trial.add(trial.key, 1)) == f"{top + 1} commit {top + 1}", where
    more = len(machine.run(trial.calls if bohm.NATIVE else trial.calls[:3]))
    assert machine["a"] == machine.top == top + 1 + more, where
    return over


def tried_names(count):
    """Asks which keys have changed with an allocation refused: what isn't told then is told the next time, and nothing after that."""
    names, told = {f"k{number}" for number in range(NAMES)}, set()
    machine = bohm.Machine("log 2\n", library=LIBRARY)
    machine._run_read(machine.prepare(ADD)._read("add", "".join(f"call add {name} 1\n" for name in names), NAMES), b"\0")
    SWITCH.refuse_after(count)
    try:
        machine._changed(told)
    except MemoryError:
        pass
    over = SWITCH.accept_all()
    machine._changed(told)
    assert told == names, (count, len(told))
    told.clear()
    machine._changed(told)
    assert not told, (count, told)
    return over


def main():
    failed = 0
    trials = {name: partial(tried, name, work) for name, work in WORKS.items() if bohm.NATIVE or name not in LONG_WORKS}
    if bohm.NATIVE:
        trials["names of keys"] = tried_names
    for trial in trials.values():
        count, step = 0, 1
        while not trial(count):
            failed += 1
            step += count >= STEPS
            count += step
    print(f"refused allocations: {failed}, {'under the extension' if bohm.NATIVE else 'under ctypes'}: as it should be")


main()
