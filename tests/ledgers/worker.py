"""Writes to a ledger until it is killed: `worker.py LIBRARY FILE SEED`.

The first line on standard input has entries that an earlier process sent without an answer, as JSON: they are sent first.
Before each commit a line `send` and its entries goes to standard output, and behind it a line `done` and the answers. Where
the commit fails, a line `failed` goes there, and after a line on standard input the same entries are sent again."""
import json
import random
import sys
from pathlib import Path

sys.path[:0] = [str(Path(__file__).resolve().parents[2] / "packaging" / "python"), str(Path(__file__).resolve().parent)]
import bohm  # noqa: E402
import bohm.ledger  # noqa: E402
from drawing import entry, first  # noqa: E402


def tell(word, what):
    print(word, json.dumps(what), flush=True)


def send(ledger, texts):
    """Sends entries until they are answered."""
    while True:
        tell("send", texts)
        try:
            tell("done", [str(answer) for answer in ledger.append(texts)])
            return
        except bohm.LedgerError as error:
            tell("failed", str(error))
            if not sys.stdin.readline():
                sys.exit(3)


def checkpoint(ledger):
    try:
        ledger.checkpoint()
    except bohm.LedgerError as error:
        tell("failed", str(error))
        if not sys.stdin.readline():
            sys.exit(3)


def main(library, path, seed):
    unanswered, rng = json.loads(sys.stdin.readline()), random.Random(seed)
    bohm.ledger.ARCHIVED = 3000
    ledger = bohm.Ledger(path, 2, library=bohm.load(library))
    tell("open", ledger.top)
    if unanswered:
        send(ledger, unanswered)
    if not ledger.top:
        for texts in first():
            send(ledger, texts)
    number, sent = 0, []
    while True:
        kind = rng.random()
        if kind < 0.1:
            checkpoint(ledger)
            continue
        texts = []
        for _ in range(1 if kind < 0.5 else rng.randrange(1, 30)):
            number += 1
            # A third is sent again, in the same commit or in a later one.
            texts.append(rng.choice(sent) if sent and rng.random() < 0.25 else entry(rng, f"{seed}.{number}"))
            sent = [*sent[-50:], texts[-1]]
        send(ledger, texts)


main(*sys.argv[1:])
