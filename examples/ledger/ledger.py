"""A durable ledger as a program, like ledger.c: `ledger.py FILE [BATCH]` reads entries on standard input, and writes the answer
to each once it is on the disk, BATCH entries (1) to a commit. `BOHM_LIBRARY` names the shared library, if it isn't found."""
import itertools
import os
import sys

import bohm
from bohm import entries


def read(lines):
    """The entries: a call's line, or the lines up to `end`."""
    entry = []
    for line in lines:
        entry.append(line)
        if not entry[0].startswith(("define ", "txn")) or line == "end\n":
            yield "".join(entry)
            entry = []
    if entry:
        yield "".join(entry)


def main(path, size="1"):
    with bohm.Ledger(path, library=bohm.load(os.environ.get("BOHM_LIBRARY"))) as ledger:
        given = read(sys.stdin)
        while texts := list(itertools.islice(given, int(size))):
            for text, answer in zip(texts, ledger.append(texts)):
                request, _ = entries.read(entries.text_of(text))
                print(f"#{request} {answer}" if request else answer)
            sys.stdout.flush()


main(*sys.argv[1:])
