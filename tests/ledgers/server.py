"""Answers commits of a ledger by lines of JSON, until its standard input ends or it is killed: `server.py LIBRARY FILE`."""
import json
import sys
from pathlib import Path

sys.path.insert(0, str(Path(__file__).resolve().parents[2] / "packaging" / "python"))
import bohm  # noqa: E402

with bohm.Ledger(sys.argv[2], library=bohm.load(sys.argv[1]), checkpoint_every=100_000) as ledger:
    for line in sys.stdin:
        print(json.dumps([str(answer) for answer in ledger.append(json.loads(line))]), flush=True)
