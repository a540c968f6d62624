"""Transfers between accounts by procedures, like procedures.c. `BOHM_LIBRARY` names the shared library, if it isn't found."""
import os

import bohm

ACCOUNTS = """\
log 1
alice 100
bob 20
carol 0
"""

TRANSFER = """\
procedure 2
key from
key to
value amount
reads from to
writes from to
need from >= $amount
set from = from - $amount
set to = to + $amount
end
"""

AUDIT = """\
procedure 2
reads alice bob carol
writes
show alice + bob + carol
show carol
end
"""


def main():
    with bohm.Machine(ACCOUNTS, library=bohm.load(os.environ.get("BOHM_LIBRARY"))) as machine:
        transfer, audit = machine.prepare(TRANSFER), machine.prepare(AUDIT)
        print(transfer(from_="alice", to="bob", amount=30))
        alice, bob, carol = map(machine.key, ["alice", "bob", "carol"])
        calls = [transfer.call(bob, carol, 80), transfer.call(alice, carol, amount=70), transfer.call(alice, bob, 1),
                 transfer.call(bob, bob, 50)]
        print(*machine.run(calls), audit(), sep="\n")
        reply = transfer("alice", "carol", 5)
        print(f"{reply}: {transfer.statement(reply.statement)}")
        print("--", *(f"{key} {value}" for key, value in machine.store_at().items()), sep="\n")


main()
