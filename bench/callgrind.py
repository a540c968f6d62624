"""Instruction counts by valgrind's callgrind: for a whole run, and by function with the functions that each one calls."""
import re
import subprocess
from collections import defaultdict

NAME = re.compile(r"\((\d+)\)(?: (.*))?")
SETTLED = 60


def run_callgrind(command, log, out):
    """Runs the command on the log; returns its instruction count, and leaves the profile in the file `out`."""
    words = ["valgrind", "--tool=callgrind", f"--callgrind-out-file={out}"]
    with open(log, "rb") as source:
        done = subprocess.run(words + command, stdin=source, capture_output=True, check=True)
    return int(re.search(rb"Collected : (\d+)", done.stderr)[1])


class Profile:
    """Each function's own instructions, and the instructions of the calls between each caller and callee."""

    def __init__(self, path):
        self.own, self.calls, self.names = defaultdict(int), defaultdict(int), {}
        function = callee = None
        with open(path) as lines:
            for line in lines:
                if line.startswith("fn="):
                    function = self.name_of(line[3:])
                elif line.startswith("cfn="):
                    callee = self.name_of(line[4:])
                elif line[0] in "0123456789+-*" and function:
                    cost = int(line.split()[1])
                    if callee:
                        self.calls[function, callee] += cost
                    else:
                        self.own[function] += cost
                    callee = None
                elif line.startswith("totals:"):
                    function = None

    def name_of(self, text):
        """A name, which is written in full only where it first occurs."""
        number, name = NAME.match(text.strip()).groups()
        if name:
            self.names[number] = name
        return self.names[number]

    def parts(self, patterns):
        """The instructions of each part. A function belongs to the part of the first pattern that matches its name; a
        function without a match, such as one of the C library, is divided among its callers' parts, by their calls."""
        part_of = {}
        for name in set(self.own) | {name for call in self.calls for name in call}:
            part_of[name] = next((part for pattern, part in patterns if re.search(pattern, name)), None)
        shares = self.callers_shares(part_of)
        found, left = defaultdict(float), {}
        for name, own in self.own.items():
            if part_of[name]:
                found[part_of[name]] += own
            else:
                left[name] = float(own)
        # Each round passes the rest to the callers; less of it stays in a cycle of calls each time.
        for _ in range(SETTLED):
            nexts = defaultdict(float)
            for name, amount in left.items():
                for caller, share in shares.get(name, [(None, 1.0)]):
                    if caller is None or part_of[caller]:
                        found[part_of[caller] if caller else "rest"] += amount * share
                    else:
                        nexts[caller] += amount * share
            left = nexts
        found["rest"] += sum(left.values())
        return dict(found)

    def callers_shares(self, part_of):
        callers, totals = defaultdict(list), defaultdict(int)
        for (caller, callee), cost in self.calls.items():
            if not part_of[callee] and caller != callee:
                callers[callee].append((caller, cost))
                totals[callee] += cost
        return {
            callee: [(caller, cost / totals[callee]) for caller, cost in pairs]
            for callee, pairs in callers.items() if totals[callee]
        }

    def largest(self, patterns, count):
        """The functions without a part that have the most instructions of their own."""
        others = {name: own for name, own in self.own.items() if not any(re.search(p, name) for p, _ in patterns)}
        return sorted(others.items(), key=lambda item: -item[1])[:count]
