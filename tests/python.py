"""The Python package, as an extension module or by ctypes: `python.py LIBRARY`, with the package on the path. A machine that is
entered again says so and does nothing; exceptions leave it usable, with all replies; other threads read between batches."""
import copy
import gc
import hashlib
import os
import pickle
import random
import signal
import struct
import sys
import threading
import time
import unittest
import weakref
from array import array

import bohm

LIBRARY = bohm.load(sys.argv.pop(1) if len(sys.argv) > 1 else None)
BATCH = 4096
LONG = 5 * BATCH + 77 if bohm.NATIVE else 2 * BATCH + 77
ADD = "procedure 2\nkey k\nvalue n\nreads k\nwrites k\nset k = k + $n\nshow k\nend\n"
TRANSFER = """
    procedure 2
    key from
    key to
    value amount
    reads from to
    writes from to
    need $amount > 0
    need from >= $amount
    set from = from - $amount
    set to = to + $amount
    show from
    show to
    end
"""


# The same with sums behind it that nobody reads: workers share its calls.
LONG_ADD = ADD.replace("end\n", "".join(f"let $s{n} = k + k\n" for n in range(40)) + "end\n")


def opened(store="a 0\nheld 1000000\n", top=0, workers=1):
    return bohm.Machine("log 2\n" + store, top, workers=workers, library=LIBRARY)


def changed(machine):
    """The names of the keys that were noted as changed."""
    names = set()
    machine._changed(names)
    return names


def texts(count, key="a"):
    """A segment that adds 1 that many times, and shows the sums."""
    return "log 2\n" + f"txn\nreads {key}\nwrites {key}\nset {key} = {key} + 1\nshow {key}\nend\n" * count


class Entered(unittest.TestCase):
    """A call from within a call either runs before or after it, whole, or is a BusyError, and did nothing."""

    def setUp(self):
        self.machine = opened()
        self.add = self.machine.prepare(ADD)
        self.takes, self.refusals = [], []

    # Lists grow in one step, even where a handler interrupts another one.
    @property
    def taken(self):
        return len(self.takes)

    @property
    def busy(self):
        return len(self.refusals)

    def take(self):
        """What a finalizer or a handler does: takes 1 from a key."""
        try:
            self.add("held", -1)
            self.takes.append(None)
        except bohm.BusyError:
            self.refusals.append(None)

    def check(self, asked, replies):
        self.assertEqual(self.machine.store_at(), {"a": asked, "held": 1000000 - self.taken})
        self.assertEqual(self.machine.top, asked + self.taken)
        self.assertEqual([reply.shows for reply in replies], [(number,) for number in range(1, asked + 1)])
        self.assertEqual(self.add("a", 1).shows, (asked + 1,))

    def test_finalizer(self):
        outer = self

        class Reservation:
            def __init__(self):
                self.self = self

            def __del__(self):
                outer.take()
        gc.set_threshold(50)
        self.addCleanup(gc.set_threshold, 700)
        replies = []
        for _ in range(5):
            calls = []
            for _ in range(600):
                Reservation()
                calls.append(self.add.call("a", 1))
            replies += self.machine.run(calls)
        gc.collect()
        self.assertGreater(self.taken, 0)
        self.check(3000, replies)

    def test_weak_reference(self):
        class Thing:
            pass
        kept, replies = [], []
        for number in range(3000):
            thing = Thing()
            thing.self = thing
            kept.append(weakref.ref(thing, lambda _: self.take()))
            replies.append(self.add("a", 1))
        del thing
        gc.collect()
        self.assertGreater(self.taken, 0)
        self.check(3000, replies)

    def test_iterator_and_index(self):
        """A generator of calls and an argument's __index__ may use the machine: the call has not begun."""
        class Number:
            def __init__(self, outer):
                self.outer = outer

            def __index__(self):
                self.outer.take()
                return 1

        def calls():
            for _ in range(5):
                self.take()
                yield self.add.call("a", Number(self))
        replies = self.machine.run(calls())
        self.assertEqual((self.taken, self.busy), (10, 0))
        self.check(5, replies)

    def alarmed(self, work):
        """Lets a handler of a signal that comes again and again use the machine while work is done."""
        signal.signal(signal.SIGALRM, lambda *_: self.take())
        self.addCleanup(signal.signal, signal.SIGALRM, signal.SIG_DFL)
        signal.setitimer(signal.ITIMER_REAL, 0.0005, 0.0005)
        try:
            return work()
        finally:
            signal.setitimer(signal.ITIMER_REAL, 0)

    def test_handler_in_run(self):
        calls = [self.add.call("a", 1)] * LONG
        replies = self.alarmed(lambda: [*self.machine.run(calls), *self.machine.run(calls)])
        self.assertGreater(self.taken + self.busy, 0)
        self.check(2 * LONG, replies)

    def test_handler_in_apply(self):
        replies = self.alarmed(lambda: self.machine.apply(texts(LONG)))
        self.assertGreater(self.taken + self.busy, 0)
        self.check(LONG, replies)

    def test_handler_in_columns_and_single_calls(self):
        key = self.machine.key("a")
        columns = array("I", [key.handle]) * LONG, array("q", [1]) * LONG
        replies = self.alarmed(lambda: [*self.machine.run_many(self.add, *columns), *(self.add(key, 1) for _ in range(500))])
        self.check(LONG + 500, replies)

    def test_reads_are_busy_too(self):
        seen = []

        def look(*_):
            try:
                self.machine["a"]
                return
            except bohm.BusyError:
                seen.append(self.machine.top)
            self.assertEqual(self.add.statement(2).text, "set k = k + $n")
            for use in (lambda: self.machine.value_at("a"), lambda: "a" in self.machine, self.machine.snapshot, self.machine.counts,
                        self.machine.digest, self.machine.close, self.machine.trim, lambda: self.machine.key("x"), self.machine.replies,
                        self.machine.store_rows, self.machine.compact, lambda: self.machine.calls_text([self.add.call("a", 1)]),
                        lambda: self.machine.prepare(ADD), self.add.close, lambda: self.machine.apply(texts(1)), lambda: self.machine.run([])):
                with self.assertRaises(bohm.BusyError):
                    use()
        signal.signal(signal.SIGALRM, look)
        self.addCleanup(signal.signal, signal.SIGALRM, signal.SIG_DFL)
        self.addCleanup(signal.setitimer, signal.ITIMER_REAL, 0)
        signal.setitimer(signal.ITIMER_REAL, 0.001, 0.001)
        calls = [self.add.call("a", 1)] * LONG
        while not seen:
            self.machine.run(calls)
        signal.setitimer(signal.ITIMER_REAL, 0)
        self.assertEqual({top % LONG % BATCH for top in seen}, {0})
        self.assertEqual(self.machine["a"], self.machine.top)


class Raised(unittest.TestCase):
    """Whatever a handler raises in mid-call, what ran is told, its replies can be had, and the next call works."""

    class Stop(Exception):
        pass

    def setUp(self):
        self.machine = opened()
        self.add = self.machine.prepare(ADD)
        self.key = self.machine.key("a")

    def stopped(self, work, interrupted=False):
        """Runs work until a signal's exception ends it in the middle. Returns the replies of all that ran, the exception's
        notes, and how many replies were pending."""
        def stop(*_):
            if not interrupted:
                raise Raised.Stop("stop")
            signal.raise_signal(signal.SIGINT)
        self.addCleanup(signal.signal, signal.SIGALRM, signal.signal(signal.SIGALRM, stop))
        told, delay = [], 0.002
        while True:
            behind = self.machine.top
            try:
                signal.setitimer(signal.ITIMER_REAL, delay)
                # In one step: the handler may raise while replies are looked at.
                told.append(work())
                while True:
                    time.sleep(0.001)
            except (Raised.Stop, KeyboardInterrupt) as error:
                self.assertEqual(isinstance(error, KeyboardInterrupt), interrupted)
                pending = self.machine.replies()
                self.assertEqual(len(pending), self.machine.top - sum(map(len, told)))
                told.append(pending)
                if pending and self.machine.top - behind < LONG:
                    return [reply for replies in told for reply in replies], " ".join([*getattr(error, "__notes__", ()), *map(str, error.args)]), len(pending)
            delay = delay * 1.3 if self.machine.top == behind else delay * 0.8

    def check(self, work, **words):
        replies, note, ran = self.stopped(work, **words)
        top = self.machine.top
        self.assertEqual(len(replies), top)
        self.assertEqual([reply.timestamp for reply in replies], list(range(1, top + 1)))
        self.assertEqual([reply.shows for reply in replies], [(number,) for number in range(1, top + 1)])
        self.assertEqual(self.machine["a"], top)
        self.assertIn(f"{ran} transactions ran", note)
        self.assertEqual(list(self.machine.replies()), [])
        self.assertEqual(str(self.add("a", 5)), f"{top + 1} commit {top + 5}")

    def test_run(self):
        self.check(lambda: self.machine.run([self.add.call("a", 1)] * LONG))

    def test_apply(self):
        self.check(lambda: self.machine.apply(texts(LONG)))

    def test_columns(self):
        self.check(lambda: self.machine.run_many(self.add, array("I", [self.key.handle]) * LONG, array("q", [1]) * LONG))

    def test_interrupt(self):
        self.check(lambda: self.machine.run([self.add.call("a", 1)] * LONG), interrupted=True)

    def test_workers(self):
        for _ in range(4):
            self.machine = opened(workers=3)
            self.add = self.machine.prepare(LONG_ADD)
            self.check(lambda: self.machine.run([self.add.call("a", 1)] * LONG))

    def test_replies_of_several(self):
        """Replies that nobody took are kept over later calls, in their order."""
        def stop(*_):
            raise Raised.Stop
        self.addCleanup(signal.signal, signal.SIGALRM, signal.signal(signal.SIGALRM, stop))
        # Replies are taken in one step: a handler may raise while they are looked at.
        told, stops, delay = [], 0, 0.002
        while stops < 3:
            behind, waiting = self.machine.top, self.machine.counts().waiting
            try:
                signal.setitimer(signal.ITIMER_REAL, delay)
                told.append(self.machine.run([self.add.call("a", 1)] * LONG))
                while True:
                    time.sleep(0.001)
            except Raised.Stop:
                stops += self.machine.counts().waiting > waiting
            delay = delay * 1.3 if self.machine.top == behind else delay * 0.8
            told.append(self.machine.run([self.add.call("a", 1)] * 3))
        told = [reply for replies in told for reply in replies]
        top = self.machine.top
        pending = self.machine.replies()
        self.assertEqual(list(pending), sorted(pending, key=lambda reply: reply.timestamp))
        self.assertEqual(sorted(reply.timestamp for reply in [*told, *pending]), list(range(1, top + 1)))
        self.assertTrue(all(reply.shows == (reply.timestamp,) for reply in [*told, *pending]))
        self.assertEqual((len(self.machine.replies()), self.machine.counts().waiting), (0, 0))

    def test_single_calls(self):
        """Signals that raise while single calls are made: each call's reply is returned, or can be had."""
        def stop(*_):
            raise Raised.Stop
        self.addCleanup(signal.signal, signal.SIGALRM, signal.signal(signal.SIGALRM, stop))
        self.addCleanup(signal.setitimer, signal.ITIMER_REAL, 0)
        told = lost = 0
        for _ in range(40):
            try:
                signal.setitimer(signal.ITIMER_REAL, 0.0007)
                while True:
                    self.add(self.key, 1)
                    told += 1
            except Raised.Stop:
                told += len(self.machine.replies())
            # The signal may come when the call has returned, and nobody has taken its reply or counted it yet.
            lost += self.machine.top - told
            told = self.machine.top
        self.assertLessEqual(lost, 40)
        self.assertEqual(self.machine["a"], self.machine.top)


class Threads(unittest.TestCase):
    def test_readers_between_batches(self):
        """A reader isn't kept waiting by a long run: it sees the store at a batch's end."""
        machine = opened()
        add = machine.prepare(ADD)
        calls = [add.call("a", 1)] * (4 * LONG)
        seen, done = [], threading.Event()

        def read():
            while not done.is_set():
                seen.append(machine["a"])
        reader = threading.Thread(target=read)
        reader.start()
        machine.run(calls)
        done.set()
        reader.join()
        ends = {*range(0, 4 * LONG, BATCH), 4 * LONG}
        self.assertLessEqual(set(seen), ends)
        self.assertGreater(len(set(seen)), len(ends) // 2, "batches at whose end the reader had its turn")
        self.assertEqual(machine["a"], 4 * LONG)

    def test_readers_during_apply(self):
        machine = opened()
        text = texts(4 * LONG)
        seen, done = [], threading.Event()

        def read():
            while not done.is_set():
                seen.append(machine.value_at("a"))
        reader = threading.Thread(target=read)
        reader.start()
        machine.apply(text)
        done.set()
        reader.join()
        self.assertLessEqual(set(seen), {*range(0, 4 * LONG, BATCH), 4 * LONG})
        self.assertGreater(len(set(seen)), 3)

    def test_writers_wait_for_each_other(self):
        machine = opened()
        add = machine.prepare(ADD)
        told = []

        def write(size):
            for _ in range(3):
                told.append(machine.run([add.call("a", 1)] * size))
        writers = [threading.Thread(target=write, args=(size,)) for size in (LONG, 100, BATCH + 1, 1)]
        for writer in writers:
            writer.start()
        for writer in writers:
            writer.join()
        total = 3 * (LONG + 100 + BATCH + 1 + 1)
        self.assertEqual(machine["a"], total)
        for replies in told:
            begin = replies[0].timestamp
            self.assertEqual([reply.shows for reply in replies], [(begin + at,) for at in range(len(replies))])

    def test_the_interpreter_goes_on(self):
        """Other threads run Python while a machine runs a batch."""
        machine = opened()
        add = machine.prepare(ADD)
        turns, done = [0], threading.Event()

        def count():
            while not done.is_set():
                turns[0] += 1
        counter = threading.Thread(target=count)
        counter.start()
        went_on = 0
        for _ in range(50 if bohm.NATIVE else 8):
            calls = [add.call("a", 1)] * LONG
            before = turns[0]
            machine.run(calls)
            went_on += turns[0] > before
        done.set()
        counter.join()
        self.assertGreater(went_on, 4)


class Workers(unittest.TestCase):
    """Machines with workers do what others do."""

    STORE = "".join(f"k{n:02} {n}\n" for n in range(50))

    def told(self, workers, count):
        with opened(self.STORE, 7, workers) as machine:
            add, long_add = machine.prepare(ADD), machine.prepare(LONG_ADD)
            keys = [f"k{n * n % 50:02}" for n in range(count)]
            told = [machine.run([long_add.call(*each) for each in zip(keys, range(count))]),
                    machine.run([add.call("k01", 1)] * 50),
                    machine.run_many(long_add, keys, list(range(count))),
                    machine.run([long_add.call("none", 1), long_add.call("k02", 5)] * 20)]
            return [list(replies) for replies in told], machine.store_at(), machine.digest(), tuple(machine.counts())[:5]

    def test_every_number(self):
        right = self.told(1, LONG // 2)
        for workers in (2, 3, 4, 16):
            self.assertEqual(self.told(workers, LONG // 2), right)

    def test_numbers(self):
        for workers in (0, 17, -1):
            with self.assertRaises(ValueError):
                opened(workers=workers)
        with bohm.Machine.open_rows({"a": 1, "b": 2}, workers=3, library=LIBRARY) as machine:
            add = machine.prepare(LONG_ADD)
            self.assertEqual([reply.shows for reply in machine.run([add.call("a", 2)] * 40)], [(3 + 2 * n,) for n in range(40)])

    def test_readers_between_batches(self):
        machine = opened(workers=3)
        add = machine.prepare(LONG_ADD)
        seen, done = set(), threading.Event()

        def read():
            while not done.is_set():
                seen.add(machine["a"])
        reader = threading.Thread(target=read)
        reader.start()
        machine.run([add.call("a", 1)] * LONG)
        done.set()
        reader.join()
        self.assertLessEqual(seen, {*range(0, LONG, BATCH), LONG})
        machine.close()

    def test_several_machines(self):
        """Threads have a machine with workers each."""
        told = []
        threads = [threading.Thread(target=lambda: told.append(self.told(3, BATCH))) for _ in range(3)]
        for thread in threads:
            thread.start()
        for thread in threads:
            thread.join()
        self.assertEqual(told, [self.told(1, BATCH)] * 3)

    def test_interrupted_start(self):
        """A process ends, though exceptions came while threads of its machine were started."""
        child = os.fork()
        if not child:
            start = threading.Thread.start

            def interrupted(thread):
                start(thread)
                raise Raised.Stop
            threading.Thread.start = interrupted
            machine = opened(workers=3)
            add = machine.prepare(LONG_ADD)
            for _ in range(3):
                try:
                    machine.run([add.call("a", 1)] * 100)
                except Raised.Stop:
                    pass
            threading.Thread.start = start
            right = len(machine.run([add.call("a", 1)] * 100)) == 100 and machine["a"] == machine.top
            # As at the end of a process: this returns once the threads that keep it from its end have ended.
            threading._shutdown()
            os._exit(7 if right else 1)
        ended = 0, 0
        for _ in range(600):
            ended = os.waitpid(child, os.WNOHANG)
            if ended[0]:
                break
            time.sleep(0.1)
        else:
            os.kill(child, signal.SIGKILL)
            ended = os.waitpid(child, 0)
        self.assertEqual(os.waitstatus_to_exitcode(ended[1]), 7)

    def test_forked_child(self):
        machine = opened(workers=3)
        machine.run([machine.prepare(LONG_ADD).call("a", 1)] * 100)
        child = os.fork()
        if not child:
            machine.close()
            os._exit(7)
        self.assertEqual(os.waitstatus_to_exitcode(os.waitpid(child, 0)[1]), 7)


class Habits(unittest.TestCase):
    def test_mapping(self):
        machine = opened("a 5\nb -6\n")
        self.assertEqual((machine["a"], machine[b"b"], machine[machine.key("a")]), (5, -6, 5))
        self.assertEqual(("a" in machine, "c" in machine, "A" in machine), (True, False, False))
        self.assertEqual((len(machine), list(machine), machine.keys(), machine.items()), (2, ["a", "b"], ["a", "b"], [("a", 5), ("b", -6)]))
        self.assertEqual((machine.get("a"), machine.get("c"), machine.get("c", 0), dict(machine)), (5, None, 0, {"a": 5, "b": -6}))
        self.assertTrue(opened(""))
        for key in ("c", "C", ""):
            with self.assertRaises(KeyError):
                machine[key]
        with self.assertRaises(TypeError):
            machine[5]
        with self.assertRaises(bohm.NoKeyError):
            machine.value_at("A")

    def test_transfer_to_itself(self):
        """In edition 2 nothing changes; in edition 1 the second `set` doesn't see the first one."""
        machine = opened("alice 100\nbob 20\n")
        second = machine.prepare(TRANSFER)
        self.assertEqual(str(second("alice", "alice", 30)), "1 commit 100 100")
        self.assertEqual(machine.store_at(), {"alice": 100, "bob": 20})
        first = machine.prepare(TRANSFER.replace("procedure 2", "procedure 1"))
        self.assertEqual(str(first("alice", "alice", 30)), "2 commit 100 100")
        self.assertEqual(machine.store_at(), {"alice": 130, "bob": 20})
        self.assertEqual([str(reply) for reply in machine.run([second.call("alice", "bob", 130), first.call("bob", "alice", 50)])],
                         ["3 commit 0 150", "4 commit 150 0"])

    def test_texts_of_procedures(self):
        machine = opened()
        for text in (TRANSFER, TRANSFER.strip(), TRANSFER.replace("    ", ""), TRANSFER.replace("    ", "\t"), "\n\n" + TRANSFER + "\n\n"):
            if text == TRANSFER.strip():
                text = text.replace("    ", "")
            procedure = machine.prepare(text)
            self.assertEqual(procedure.parameters, ("from", "to", "amount"))
            self.assertTrue(procedure.text.startswith("procedure 2\nkey from\n") and procedure.text.endswith("show to\nend\n"))
        # Bytes are taken as they are.
        for text in (TRANSFER.encode(), TRANSFER.replace("    ", "").strip().encode(), b""):
            with self.assertRaises(bohm.RefusedError):
                machine.prepare(text)
        # tests/reports compares more reports with bohm-check's.
        for old, new, line, shown in (("need $amount", "nedd $amount", "line 7", "line 7:\n    nedd $amount > 0"),
                                      ("reads from to", "reads to from", "check order 1 0", "line 5:\n    reads to from"),
                                      ("show to", "show fees", "check unread 1 7", "line 12, statement 6:\n    show fees"),
                                      ("show to\n", "set fees = 1\n", "check unwritten 1 7", "line 12, statement 6:\n    set fees = 1"),
                                      ("show to", "let $amount = 1", "check local 1 7", "line 12, statement 6:\n    let $amount = 1"),
                                      ("    end\n", "", "short", "line 13:"), ("    key to\n", "    key from\n", "line 3", "line 3:\n    key from"),
                                      ("show to\n", "fail\n" * 65, "check limit 1 0", "line 1:\n    procedure 2")):
            with self.assertRaises(bohm.RefusedError) as caught:
                machine.prepare(TRANSFER.replace(old, new).replace("    ", ""))
            self.assertEqual(caught.exception.line, "refused: " + line)
            self.assertTrue(str(caught.exception).startswith(f"refused: {line}\n{shown}\n"), str(caught.exception))

    def test_statements(self):
        machine = opened("alice 100\nbob 20\n")
        transfer = machine.prepare(TRANSFER)
        reply = transfer("alice", "bob", 101)
        self.assertEqual(f"{reply}: {transfer.statement(reply.statement)}", "1 abort need 3: need from >= $amount")
        self.assertEqual(transfer.statement(reply.statement), (8, "need from >= $amount"))
        reply = transfer("alice", "bob", 0)
        self.assertEqual(f"{reply}: {transfer.statement(reply.statement)}", "2 abort need 2: need $amount > 0")
        self.assertEqual([transfer.statement(number).line for number in range(1, 8)], [4, 7, 8, 9, 10, 11, 12])
        self.assertEqual((transfer.statement(1).text, transfer.statement(7).text), ("value amount", "show to"))
        for number in (-1, 0, 8, 1 << 31, 1 << 32, 1 << 64):
            with self.assertRaises(IndexError):
                transfer.statement(number)
        with self.assertRaises(TypeError):
            transfer.statement("3")
        transfer.close()
        with self.assertRaises(bohm.ClosedError):
            transfer.statement(1)

    def test_names_of_parameters(self):
        machine = opened("a 1\nb 2\n")
        names = ["self", "given", "named", "args", "key", "class", "import", "procedure"]
        text = "".join([f"key {name}\n" for name in names[:4]] + [f"value {name}\n" for name in names[4:]])
        procedure = machine.prepare("procedure 2\n" + text + "reads args given named self\nwrites\nshow self\nshow given\nshow $class\nend\n")
        words = {"self": "a", "given": "b", "named": "a", "args": "b", "key": 1, "class_": 2, "import": 3, "procedure": 4}
        self.assertEqual(procedure(**words).shows, (1, 2, 2))
        self.assertEqual(machine.run([procedure.call(**words)])[0].shows, (1, 2, 2))
        for wrong in ({**words, "class": 5}, {**words, "other": 1}, {key: words[key] for key in list(words)[1:]}):
            for use in (procedure, procedure.call):
                with self.assertRaises(TypeError):
                    use(**wrong)
        with self.assertRaises(TypeError) as caught:
            procedure("a", "b", "a", "b", 1)
        self.assertEqual(str(caught.exception), "missing arguments: class_, import_, procedure")
        with self.assertRaises(TypeError):
            procedure("a", self="b")

    def test_arguments(self):
        machine = opened("a 1\n")
        add = machine.prepare(ADD)
        a = machine.key("a")
        for value in (1 << 63, -(1 << 63) - 1, 2 ** 64 + 5):
            for use in (lambda: add("a", value), lambda: add.call("a", value), lambda: bohm.Call(add, ("a",), (value,))):
                with self.assertRaisesRegex(OverflowError, f"n: {value} does not fit"):
                    use()
        for value in (1.0, "1", None):
            with self.assertRaisesRegex(TypeError, "n must be an int, not"):
                add("a", value)
        for key in ("A", "", b"a-b", "a" * 33, "ä"):
            with self.assertRaisesRegex(bohm.NoKeyError, "k: .* is not a key"):
                add.call(key, 1)
        for key in (5, None, 1.5):
            with self.assertRaises(TypeError):
                add(key, 1)
        with self.assertRaises(ValueError):
            opened().prepare(ADD)(a, 1)
        self.assertEqual(machine.top, 0)
        self.assertEqual(add("a" * 32, -(1 << 63)).reason, bohm.Reason.ABSENT)
        self.assertEqual(add(bytearray(b"a"), True).shows, (2,))
        self.assertEqual(add(a, -(1 << 63)).shows, (2 - (1 << 63),))

    def test_calls(self):
        machine = opened("a 1\nb 2\n")
        add = machine.prepare(ADD)
        key = machine.key("b")
        call = add.call(k=key, n=7)
        self.assertEqual((call.procedure, call.keys, call.values), (add, (key,), (7,)))
        self.assertEqual(add.call(b"a", -1).keys, ("a",))
        self.assertEqual([reply.shows for reply in machine.run([call, bohm.Call(add, ["a"], [5]), call])], [(9,), (6,), (16,)])
        for calls, kind, told in (([call, 5], TypeError, "call 1: 5 is not a Call"), ([call, opened().prepare(ADD).call("a", 1)], ValueError, "call 1: "),
                                  (5, TypeError, "")):
            with self.assertRaisesRegex(kind, told):
                machine.run(calls)
        for keys, values in (((), (1,)), (("a", "b"), (1,)), (("a",), ())):
            with self.assertRaises(TypeError):
                bohm.Call(add, keys, values)
        self.assertEqual(machine.top, 3)
        self.assertEqual(list(machine.run([])), [])

    def test_columns(self):
        machine = opened("a 10\nb 20\n")
        transfer = machine.prepare(TRANSFER)
        a, b = machine.key("a").handle, machine.key("b").handle
        self.assertEqual((machine.key("a").handle, machine.key("b").name), (a, "b"))
        told = ["1 commit 7 23", "2 commit 23 7", "3 abort need 3"]
        for kind, number in (("I", "q"), ("Q", "i"), ("i", "h"), ("l", "b")):
            machine = opened("a 10\nb 20\n")
            transfer = machine.prepare(TRANSFER)
            a, b = machine.key("a").handle, machine.key("b").handle
            replies = machine.run_many(transfer, array(kind, [a, b, a]), array(kind, [b, b, b]), array(number, [3, 9, 8]))
            self.assertEqual([str(reply) for reply in replies], ["1 commit 7 23", "2 commit 23 23", "3 abort need 3"])
            self.assertEqual(replies.lines(), ["1 commit 7 23", "2 commit 23 23", "3 abort need 3"])
        replies = opened("a 10\nb 20\n")
        transfer = replies.prepare(TRANSFER)
        self.assertEqual([str(reply) for reply in replies.run_many(transfer, ["a", "b", "a"], [replies.key("b"), "a", b"b"], [3, 16, 30])],
                         ["1 commit 7 23", "2 commit 7 23", "3 abort need 3"])
        self.assertEqual(told[0], "1 commit 7 23")
        steps = memoryview(array("I", [a, 99, b, 99]))[::2], memoryview(array("q", [3, 5]))
        self.assertEqual([reply.shows for reply in machine.run_many(machine.prepare(ADD), *steps)], [(10,), (28,)])

    def test_wrong_columns(self):
        machine = opened("a 10\nb 20\n")
        transfer = machine.prepare(TRANSFER)
        a, b = machine.key("a").handle, machine.key("b").handle
        good = array("I", [a] * 5000), array("I", [b] * 5000), array("q", [1] * 5000)
        bad = array("I", good[0])
        bad[4999] = 2
        large = array("Q", good[2])
        large[3] = 1 << 63
        for columns, kind, told in (
                ((bad, *good[1:]), ValueError, r"from\[4999\]: 2 is no handle"), ((*good[:2], large), OverflowError, r"amount\[3\]"),
                ((good[0], array("i", [-1] * 5000), good[2]), ValueError, r"to\[0\]: -1 is no handle"),
                ((good[0], good[1][1:], good[2]), ValueError, "to has 4999 items"), (good[:2], TypeError, "3 columns"),
                ((*good, good[0]), TypeError, "3 columns"), ((*good[:2], array("d", good[2])), TypeError, "amount"),
                ((b"aaa", *good[1:]), TypeError, "from"), ((5, *good[1:]), TypeError, "from"), ((*good[:2], [1 << 63] * 5000), OverflowError, ""),
                ((["a", "b", "A"], *good[1:]), bohm.NoKeyError, r"from\[2\]: 'A' is not a key"),
                (([a], *good[1:]), TypeError, r"from\[0\]: "), ((*good[:2], memoryview(bytes(8)).cast("B", (2, 4))), TypeError, "amount")):
            with self.assertRaisesRegex(kind, told):
                machine.run_many(transfer, *columns)
        with self.assertRaises(ValueError):
            machine.run_many(opened().prepare(TRANSFER), *good)
        self.assertEqual((machine.top, machine.store_at()), (0, {"a": 10, "b": 20}))

    def test_replies_are_a_sequence(self):
        machine = opened()
        add = machine.prepare(ADD)
        replies = machine.run([add.call("a", 2)] * 10)
        right = [bohm.Reply(number, (2 * number,)) for number in range(1, 11)]
        self.assertEqual(replies, right)
        self.assertEqual((replies[0], replies[-1], replies[2:8:3], len(replies)), (right[0], right[9], right[2:8:3], 10))
        self.assertEqual((list(reversed(replies)), right[3] in replies, replies.index(right[3])), (right[::-1], True, 3))
        self.assertNotEqual(replies, right[:9])
        for place in (10, -11):
            with self.assertRaises(IndexError):
                replies[place]
        self.assertIsInstance(replies[0], bohm.Reply)
        self.assertEqual(hash(replies[0]), hash(right[0]))
        aborted = machine.run([add.call("none", 2)])[0]
        self.assertEqual(aborted, bohm.Reply(11, (), bohm.Reason.ABSENT, 2))

    def test_answers(self):
        log = "log 2\na 1\n" + "txn\nreads a\nwrites a\nneed a < 3\nset a = a + 1\nshow a\nend\n" * 3
        answer = bohm.answer(log, library=LIBRARY)
        right = [bohm.Reply(1, (2,)), bohm.Reply(2, (3,)), bohm.Reply(3, (), bohm.Reason.NEED, 1)]
        self.assertEqual((answer.replies, answer.replies[1:], answer.replies[-1], answer.store), (right, right[1:], right[2], {"a": 3}))
        self.assertEqual(str(answer), "1 commit 2\n2 commit 3\n3 abort need 1\n--\na 3\n")
        machine = opened("a 1\n")
        self.assertEqual(machine.apply("log 2\n" + log.partition("\na 1\n")[2]), answer.replies)
        with self.assertRaises(bohm.RefusedError):
            bohm.answer("log 2\nb 1\na 1\n", library=LIBRARY)

    def test_nothing_is_copied(self):
        machine = opened()
        for each in (machine, machine.prepare(ADD)):
            for way in (copy.copy, copy.deepcopy, pickle.dumps):
                with self.assertRaises(TypeError):
                    way(each)
        self.assertEqual(machine["a"], 0)

    def test_closed(self):
        machine = opened()
        add = machine.prepare(ADD)
        call = add.call("a", 1)
        add.close()
        add.close()
        self.assertTrue(add.closed)
        for use in (lambda: add("a", 1), lambda: machine.run([call]), lambda: machine.run_many(add, ["a"], [1])):
            with self.assertRaises(bohm.ClosedError):
                use()
        with machine:
            add = machine.prepare(ADD)
        machine.close()
        self.assertTrue(machine.closed)
        for use in (lambda: add("a", 1), lambda: machine.run([]), lambda: machine["a"], machine.snapshot, machine.counts, machine.replies,
                    machine.store_rows, machine.compact, lambda: machine.calls_text([call]),
                    lambda: machine.apply("log 1\n"), machine.trim, machine.digest, lambda: machine.key("a"), lambda: machine.prepare(ADD)):
            with self.assertRaises(bohm.ClosedError):
                use()


class Segments(unittest.TestCase):
    def test_long_segment(self):
        machine = opened()
        replies = machine.apply(texts(LONG))
        self.assertEqual([reply.shows for reply in replies], [(number,) for number in range(1, LONG + 1)])
        self.assertEqual((machine["a"], machine.value_at("a", BATCH + 1), machine.top), (LONG, BATCH + 1, LONG))

    def test_refused_whole(self):
        """A fault in the last batch is refused before the first one runs."""
        machine = opened()
        with self.assertRaises(bohm.RefusedError) as caught:
            machine.apply(texts(LONG) + "txn\nreads b\nwrites\nshow b +\nend\n")
        self.assertEqual(caught.exception.line, f"refused: line {6 * LONG + 5}")
        with self.assertRaises(bohm.RefusedError) as caught:
            machine.apply(texts(LONG) + "txn\nreads\nwrites\nshow b\nend\n")
        self.assertEqual(caught.exception.line, f"refused: check unread {LONG + 1} 1")
        with self.assertRaises(bohm.HasStoreError):
            machine.apply(texts(LONG).replace("log 2\n", "log 2\nb 1\n"))
        with self.assertRaises(bohm.RefusedError):
            machine.apply("end\n" * (3 * BATCH))
        self.assertEqual((machine.top, machine["a"], list(machine.replies())), (0, 0, []))

    def test_timestamps_end(self):
        for work in (lambda machine, add: machine.apply(texts(LONG)), lambda machine, add: machine.run([add.call("a", 1)] * LONG),
                     lambda machine, add: machine.run_many(add, ["a"] * LONG, [1] * LONG)):
            machine = opened(top=2 ** 32 - LONG)
            add = machine.prepare(ADD)
            with self.assertRaises(bohm.TimestampsError):
                work(machine, add)
            self.assertEqual((machine.top, machine["a"]), (2 ** 32 - LONG, 0))
            machine.run([add.call("a", 1)] * (LONG - 1))
            with self.assertRaises(bohm.TimestampsError):
                add("a", 1)
            self.assertEqual((machine.top, machine["a"]), (2 ** 32 - 1, LONG - 1))
        for top in (-1, 2 ** 32):
            with self.assertRaises(ValueError):
                opened(top=top)

    def test_lines(self):
        """The lines of replies are those that each has by itself, whatever it shows, and however it ended."""
        machine = opened(f"a {-2 ** 63}\n", top=2 ** 32 - LONG - 9)
        shows = "show a\n" * 15
        endings = ["", "need a > 0\n", "fail\n", "show gone\n", "show a - 1\n"]
        text = "log 2\n" + "".join(f"txn\nreads a gone\nwrites\n{shows}{endings[number % 5]}end\n" for number in range(LONG))
        replies = machine.apply(text)
        self.assertEqual(replies.lines(), [str(reply) for reply in replies])
        self.assertEqual(replies.lines()[0], " ".join([f"{2 ** 32 - LONG - 8} commit", *[str(-2 ** 63)] * 15]))
        self.assertEqual({line.split(" ", 1)[1] for line in replies.lines()[1:5]},
                         {"abort need 16", "abort fail 16", "abort absent 16", "abort range 16"})
        self.assertEqual(machine.run([]).lines(), [])

    def test_past(self):
        machine = opened("a 0\n")
        add = machine.prepare(ADD)
        machine.run([add.call("a", 1)] * 10)
        self.assertEqual([machine.value_at("a", ts) for ts in (0, 4, 10, None)], [0, 4, 10, 10])
        machine.trim(5)
        self.assertEqual((machine.floor, machine.top, machine.counts()[:2]), (5, 10, (5, 10)))
        with self.assertRaises(bohm.TrimmedError):
            machine.value_at("a", 4)
        with self.assertRaises(bohm.FutureError):
            machine.snapshot(11)
        self.assertEqual((machine.snapshot(5), machine.store_at(6)), (b"log 1\na 5\n", {"a": 6}))
        again = bohm.Machine(machine.snapshot(), machine.top, library=LIBRARY)
        self.assertEqual((again.digest(), again.top), (machine.digest(), 10))


class Stores(unittest.TestCase):
    """Stores as rows, logs of calls, and memory that is given back."""

    ROW = struct.Struct("=32sq")

    def test_rows(self):
        long = "k" * 32
        store = {"a": -(1 << 63), "a0": 0, "ab": 7, long: (1 << 63) - 1}
        machine = bohm.Machine.open_rows(store, 9, library=LIBRARY)
        rows = machine.store_rows()
        self.assertEqual(rows, b"".join(self.ROW.pack(key.encode(), value) for key, value in store.items()))
        self.assertEqual((machine.top, machine.floor, machine.store_at(), len(machine), list(machine)), (9, 9, store, 4, [*store]))
        text = bohm.Machine("log 1\n" + "".join(f"{key} {value}\n" for key, value in store.items()), 9, library=LIBRARY)
        self.assertEqual((text.digest(), text.store_rows(9)), (machine.digest(), rows))
        # Mappings in any order, pairs in rising order, rows in any buffer, also one that isn't aligned.
        reverse = dict(reversed([*store.items()]))
        for given in (rows, bytearray(rows), memoryview(b"x" + rows)[1:], reverse, store.items(), iter(store.items()),
                      [(key.encode(), value) for key, value in store.items()]):
            self.assertEqual(bohm.Machine.open_rows(given, library=LIBRARY).store_rows(), rows)
        for empty in (b"", {}, [], bytearray()):
            self.assertEqual(bohm.Machine.open_rows(empty, library=LIBRARY).store_rows(), b"")
        add = machine.prepare(ADD)
        self.assertEqual(str(add("ab", 1)), "10 commit 8")
        self.assertEqual((machine.store_rows(9), machine.store_at()), (rows, {**store, "ab": 8}))
        for ts, kind in ((8, bohm.TrimmedError), (11, bohm.FutureError), (-1, ValueError)):
            with self.assertRaises(kind):
                machine.store_rows(ts)

    def test_wrong_rows(self):
        row = self.ROW.pack
        for wrong, kind in ((row(b"b", 1) + row(b"a", 1), bohm.UnsortedError), (row(b"a", 1) * 2, bohm.UnsortedError), (row(b"", 1), bohm.NoKeyError),
                            (row(b"A", 1), bohm.NoKeyError), (row(b"a", 1)[:-1], ValueError), ([("b", 1), ("a", 1)], bohm.UnsortedError),
                            ([("a", 1), ("a", 1)], bohm.UnsortedError), ({"A": 1}, bohm.NoKeyError), ({"a" * 33: 1}, bohm.NoKeyError),
                            ({"a\0b": 1}, bohm.NoKeyError), ({"a": 1 << 63}, OverflowError), ({"a": 1.5}, TypeError), ({5: 1}, TypeError), (5, TypeError)):
            with self.assertRaises(kind):
                bohm.Machine.open_rows(wrong, library=LIBRARY)
        with self.assertRaises(ValueError):
            bohm.Machine.open_rows({}, 1 << 32, library=LIBRARY)

    def test_above_64_mebibytes(self):
        """A store whose text no call reads any more is opened by its rows."""
        count = 1_250_000
        rows = b"".join(self.ROW.pack(b"k%031d" % number, number - (1 << 63)) for number in range(count))
        machine = bohm.Machine.open_rows(rows, 5, library=LIBRARY)
        text = machine.snapshot()
        self.assertGreater(len(text), 64 << 20)
        with self.assertRaisesRegex(bohm.RefusedError, "too long"):
            bohm.Machine(text, 5, library=LIBRARY)
        del text
        second = bohm.Machine.open_rows(machine.store_rows(), machine.top, library=LIBRARY)
        for each in (machine, second):
            self.assertEqual(each.prepare(ADD)("k" + "0" * 31, 7).shows, (7 - (1 << 63),))
        self.assertEqual((second.digest(), second.top, len(second)), (machine.digest(), 6, count))

    def test_calls_text(self):
        machine = opened("a 10\nb 20\n")
        transfer, add = machine.prepare(TRANSFER), machine.prepare(ADD)
        a = machine.key("a")
        calls = [transfer.call(a, "b", 3), add.call("b", -(1 << 63)), transfer.call(a, a, 1)]
        text = ("log 2\n"
                "txn\nreads a b\nwrites a b\nlet $amount = 3\nneed $amount > 0\nneed a >= $amount\nset a = a - $amount\nset b = b + $amount\n"
                "show a\nshow b\nend\n"
                "txn\nreads b\nwrites b\nlet $n = -9223372036854775807 - 1\nset b = b + $n\nshow b\nend\n"
                "txn\nreads a\nwrites a\nlet $amount = 1\nneed $amount > 0\nneed a >= $amount\nset a = a - $amount\nset a = a + $amount\n"
                "show a\nshow a\nend\n")
        self.assertEqual(machine.calls_text(calls).decode(), text)
        self.assertEqual((machine.top, machine.calls_text([])), (0, b"log 2\n"))
        other = opened("a 10\nb 20\n")
        many = [*calls, *[add.call(a, 1)] * LONG]
        self.assertEqual(other.apply(machine.calls_text(many)), machine.run(many))
        self.assertEqual(other.digest(), machine.digest())
        first = machine.prepare(ADD.replace("procedure 2", "procedure 1")).call("a", 1)
        self.assertEqual(machine.calls_text([first])[:6], b"log 1\n")
        for mixed in ([first, calls[0]], [calls[0]] * BATCH + [first]):
            with self.assertRaisesRegex(ValueError, "two editions"):
                machine.calls_text(mixed)
        for calls, kind in (([5], TypeError), (5, TypeError), ([opened().prepare(ADD).call("a", 1)], ValueError)):
            with self.assertRaises(kind):
                machine.calls_text(calls)

    def test_compaction(self):
        machine = opened("a 1\nb 2\n")
        add, key = machine.prepare(ADD), machine.key("a")
        drop = machine.prepare("procedure 2\nkey k\nreads\nwrites k\ndrop k\nend\n")
        machine.run([add.call("a", 1)] * 10 + [add.call(f"made_up_{number}", 1) for number in range(500)] + [drop.call("b")])
        before = machine.counts()
        self.assertEqual((before.floor, before.top, before.waiting, before.left), (0, 511, 0, 2 ** 32 - 1 - 511))
        store, digest = machine.store_rows(), machine.digest()
        machine.compact()
        after = machine.counts()
        self.assertEqual((machine.floor, machine.top, after.versions, after.names), (511, 511, 1, 1))
        self.assertLess(after.bytes, before.bytes)
        self.assertEqual((machine.store_rows(), machine.digest()), (store, digest))
        with self.assertRaises(bohm.TrimmedError):
            machine.value_at("a", 510)
        # Keys that were looked up, procedures and calls are as good as before.
        self.assertEqual([str(reply) for reply in (add(key, 1), *machine.run([add.call(key, 1), drop.call("a")]), *machine.run_many(add, [key], [1]))],
                         ["512 commit 12", "513 commit 13", "514 commit", "515 abort absent 2"])
        machine.compact()
        self.assertEqual((machine.store_rows(), machine.counts().names), (b"", 0))

    def test_names_held(self):
        """A key that only an aborted call named takes memory until the machine is compacted."""
        machine = opened("a 1\n")
        add = machine.prepare(ADD)
        self.assertEqual(machine.counts().names, 1)
        add("made_up", 1)
        self.assertEqual(machine.counts().names, 2)
        machine.compact()
        self.assertEqual(machine.counts().names, 1)


class Reading(unittest.TestCase):
    """What a ledger leaves to the extension: calls that are read from lines, and sums of hashes."""

    WORDS = ["a", "b_1", "abcdefghijklmnopqrstuvwxyz012345", "abcdefghijklmnopqrstuvwxyz0123456", "A", "1a", "", "a-b", "\xe9", "a\t"]
    NUMBERS = ["0", "7", "-7", "999999999999999999", "-99999999999999999", "1000000000000000000", "-999999999999999999", "00", "-0", "01", "-",
               "", "+1", "1 ", "7\xe9", "0x1"]
    IDS = ["", "", "#r1 ", "#" + "!" * 64 + " ", "#" + "~" * 65 + " ", "# ", "#a", "##x ", "#\xe9 ", " "]
    HEADS = ["call ", "call ", "call ", "call  ", "cal ", "Call ", "", "call\t"]
    ENDS = ["\n", "\n", "\n", "\n", " \n", "\r\n", "\n\n", ""]

    def drawn_line(self, rng, odd):
        """A line that is a call of the procedure `move`, but for one part if it is to be odd."""
        parts = [["call "], ["", "#r1 ", "#!~ "], ["move"], [" "], self.WORDS[:3], [" "], self.WORDS[:3], [" "], self.NUMBERS[:5], [" "], ["5"], ["\n"]]
        others = [self.HEADS, self.IDS, ["move", "mov", "moved", "MOVE"], [" ", "  ", ""], self.WORDS, [" ", "\t"], self.WORDS, [" ", "\n"],
                  self.NUMBERS, [" ", ""], self.NUMBERS, self.ENDS]
        at = rng.randrange(len(parts)) if odd else None
        return "".join(rng.choice(others[place] if place == at else part) for place, part in enumerate(parts))

    @unittest.skipUnless(bohm.NATIVE, "ctypes reads no lines")
    def test_lines(self):
        """The extension takes the lines that the package's own rule takes, and reads them alike."""
        rng, taken = random.Random(3), 0
        text = "procedure 2\nkey from\nkey to\nvalue a\nvalue b\nreads from to\nwrites from to\nset from = 0\nset to = $a + $b\nshow to\nend\n"
        with opened("a 0\n") as machine, opened("a 0\n") as other:
            move, same, form = machine.prepare(text), other.prepare(text), bohm.entries.Form("move", text)
            for _ in range(1500):
                lines = [self.drawn_line(rng, rng.random() < 0.2) for _ in range(rng.randrange(1, 5))]
                rows = form.rows(lines)
                read = move._read("move", "".join(lines), len(lines))
                self.assertEqual(read is None, not rows, lines)
                if rows:
                    taken += 1
                    self.assertEqual(read.ids, [row[0] for row in rows])
                    columns = [[*column] for column in zip(*rows)][1:]
                    wanted = other.run_many(same, *columns[:2], *([*map(int, column)] for column in columns[2:]))
                    self.assertEqual(machine._run_read(read, bytes([1])).lines(), wanted.lines())
                    self.assertEqual(changed(machine), {*columns[1]})
                    self.assertEqual(changed(machine), set())
            self.assertEqual(machine.store_rows(), other.store_rows())
            self.assertTrue(300 < taken < 1200, taken)

    @unittest.skipUnless(bohm.NATIVE, "ctypes reads no lines")
    def test_wrong_reading(self):
        with opened() as machine, opened() as other:
            add = machine.prepare(ADD)
            line = "call add a 1\n"
            for count in (0, 2, -1, 1 << 40):
                self.assertIsNone(add._read("add", line, count))
            self.assertIsNone(machine.prepare("procedure 2\nreads\nwrites\nend\n")._read("add", "call add\n", 1))
            read = add._read("add", line, 1)
            with self.assertRaises(ValueError):
                other._run_read(read, b"\0")
            with self.assertRaises(ValueError):
                machine._run_read(read, b"\1")
            with self.assertRaises(TypeError):
                machine._run_read(add, b"\0")
            with self.assertRaises(ValueError):
                machine._run_read(type(read)(), b"\0")
            self.assertEqual(changed(machine), set())
            with self.assertRaises(TypeError):
                machine._changed([])
            self.assertEqual(machine._run_read(read, b"\0").lines(), ["1 commit 1"])
            add.close()
            with self.assertRaises(bohm.ClosedError):
                machine._run_read(read, b"\0")
            many = "".join(f"call add k{at} 1\n" for at in range(LONG))
            add = machine.prepare(ADD)
            changed(machine)
            self.assertEqual(machine._run_read(add._read("add", many, LONG), b"\0")[-1].timestamp, LONG + 1)
            self.assertEqual(changed(machine), {f"k{at}" for at in range(LONG)})
            self.assertEqual(machine._known, LONG + 1)

    def test_sums(self):
        """Sums of SHA-256 modulo 2^256, of texts of all lengths around a block's."""
        rng, before = random.Random(4), "f" * 60 + "0123"
        pairs = [("".join(map(chr, rng.choices(range(33, 127), k=rng.randrange(65)))), "x\xe9"[rng.randrange(2)] * size) for size in range(200)]
        total = int(before, 16) + sum(int(hashlib.sha256(f"{one} {other}".encode()).hexdigest(), 16) for one, other in pairs)
        self.assertEqual(bohm.hashes.summed(before, pairs), f"{total % (1 << 256):064x}")
        self.assertEqual(bohm.hashes.summed(before, iter(pairs[:0])), before)
        self.assertEqual(bohm.hashes.summed("0" * 64, [("abc", "")]), hashlib.sha256(b"abc ").hexdigest())


if __name__ == "__main__":
    # A shell starts what runs in the background with this signal ignored.
    signal.signal(signal.SIGINT, signal.default_int_handler)
    print("by the extension module" if bohm.NATIVE else "by ctypes", file=sys.stderr)
    unittest.main(argv=[sys.argv[0], *sys.argv[1:]], verbosity=int(os.environ.get("VERBOSITY", "1")))
