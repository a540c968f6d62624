"""Drawn entries of a ledger, and what is defined before them."""

ACCOUNTS = [f"a{number}" for number in range(12)]
TRANSFER = """\
procedure 2
key payer
key payee
value amount
reads payee payer
writes payee payer
need payer >= $amount
set payer = payer - $amount
set payee = payee + $amount
show payee
end
"""
FILL = """\
procedure 2
key account
value amount
reads
writes account
set account = $amount
end
"""


def first():
    """The entries that a new ledger begins with, in two commits."""
    return [["define #transfer transfer\n" + TRANSFER, "define #fill fill\n" + FILL],
            [f"call #{account} fill {account} 50\n" for account in ACCOUNTS]]


def entry(rng, name):
    """An entry with an id, or one that is refused."""
    kind = rng.random()
    payer, payee = rng.choice(ACCOUNTS), rng.choice(ACCOUNTS)
    if kind < 0.6:
        return f"call #{name} transfer {payer} {payee} {rng.randrange(1, 60)}\n"
    if kind < 0.75:
        return f"call #{name} fill {payer} {rng.randrange(100)}\n"
    if kind < 0.9:
        return f"txn #{name}\nreads {payer}\nwrites {payer}\nset {payer} = {payer} - 7\nneed {payer} >= 0\nend\n"
    if kind < 0.95:
        return f"define #{name} transfer\n" + TRANSFER.replace("show payee\n", rng.choice(["", "show payee\n", "show payer\n"]))
    return rng.choice([f"call #{name} transfer {payer}\n", f"txn #{name}\nreads\nwrites\nset {payer} = 1\nend\n", "nothing\n"])
