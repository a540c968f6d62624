"""A ledger in a Python program, like ledger.c: `ledger.py LOG SIZE`. `BOHM_LIBRARY` names the shared library, if it isn't
found."""
import os
import sys

import bohm


def check_balances(ledger, ts):
    """Checks that each balance at a past timestamp is the one in that timestamp's store."""
    for key, value in ledger.store_at(ts).items():
        assert ledger.value_at(key, ts) == value


def main(log, size):
    library = bohm.load(os.environ.get("BOHM_LIBRARY"))
    with open(log) as file:
        text = file.read()
    store, found, txns = text.partition("\ntxn\n")
    store += "\n" if found else ""
    txns = [txn + "\nend\n" for txn in ("txn\n" + txns).split("\nend\n")[:-1]] if found else []
    segments = [text[:6] + "".join(txns[at:at + size]) for at in range(0, len(txns), size)]
    with bohm.Machine(store, library=library) as ledger:
        second = None
        for number, segment in enumerate(segments):
            replies = ledger.apply(segment)
            sys.stdout.writelines(f"{reply}\n" for reply in replies)
            if second:
                assert second.apply(segment) == replies
            elif number == len(segments) // 2:
                second = bohm.Machine.open_rows(ledger.store_rows(), ledger.top, library=library)
        if second:
            assert second.digest() == ledger.digest()
            second.close()
        for ts in (0, ledger.top // 2, ledger.top):
            check_balances(ledger, ts)
        ledger.trim()
        assert ledger.floor == ledger.top
        print("--", *(f"{key} {value}" for key, value in ledger.store_at().items()), sep="\n")


main(sys.argv[1], int(sys.argv[2]))
