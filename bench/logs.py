#!/usr/bin/env python3
"""Writes a generated log to standard output; the same arguments give the same bytes.

    logs.py transfers [--n 100000] [--keys 10000] [--seed 1] [--prefix TEXT] [--two]   moves an amount between two
                                                               keys, if the first has that much
    logs.py counters  ..                                       adds one to one of the keys, and shows it
    logs.py adds      ..                                       adds an amount to one of the keys by way of a local
    logs.py hot       ..                                       adds one to the first key, and shows it
    logs.py blind     ..                                       sets two keys to literals
    logs.py long      ..                                       1,024 terms over 16 keys, two of which it writes
    logs.py mixed     ..                                       each is a transfer, counters, adds, blind or hot
    logs.py ycsb      ..                                       adds one to each of ten keys (YCSB's 10 RMW)
    logs.py ycsb8     ..                                       adds one to two of ten keys, and shows the sum of the
                                                               others (YCSB's 2 RMW and 8 reads)
    logs.py smallbank ..                                       SmallBank's five transactions, in equal parts; each of
                                                               --keys customers has a savings and a checking account

With --two the log has edition 2. Names are as short as the number of keys allows, so that many transactions fit into
the longest text; --prefix makes them longer.
"""
import argparse
import random
import sys

KINDS = ["transfers", "counters", "adds", "hot", "blind", "long", "mixed", "ycsb", "ycsb8", "smallbank"]
DIGITS = "0123456789abcdefghijklmnopqrstuvwxyz"


def names_of(count, prefix=""):
    """The first `count` names of one length, in order, each after the prefix."""
    width = 1
    while 26 * 36 ** (width - 1) < count:
        width += 1
    names = []
    for number in range(count):
        name = ""
        for _ in range(width - 1):
            number, digit = divmod(number, 36)
            name = DIGITS[digit] + name
        names.append(prefix + DIGITS[10 + number] + name)
    return names


def transfer(rng, keys):
    payer, payee = rng.sample(range(len(keys)), 2)
    x, y, amount = keys[payer], keys[payee], rng.randrange(1, 100)
    both = f"{min(x, y)} {max(x, y)}"
    return f"txn\nreads {both}\nwrites {both}\nneed {x} >= {amount}\nset {x} = {x} - {amount}\nset {y} = {y} + {amount}\nend\n"


def count(key):
    return f"txn\nreads {key}\nwrites {key}\nset {key} = {key} + 1\nshow {key}\nend\n"


def add(rng, key):
    return f"txn\nreads {key}\nwrites {key}\nlet $old = {key}\nset {key} = $old + {rng.randrange(1, 9)}\nshow $old\nend\n"


def blind(rng, keys):
    a, b = sorted(rng.sample(keys, 2))
    return f"txn\nreads\nwrites {a} {b}\nset {a} = {rng.randrange(1000)}\nset {b} = {rng.randrange(1000)}\nend\n"


def long_body(rng, keys):
    read = sorted(rng.sample(keys, 16))
    put = sorted(rng.sample(read, 2))
    lines = [f"txn\nreads {' '.join(read)}\nwrites {' '.join(put)}\n"]
    for line in range(62):
        terms = " ".join(f"{rng.choice('+-')} {rng.choice(read)}" for _ in range(15))
        lines.append(f"let $l{line} = {read[line % 16]} {terms}\n")
    for key in put:
        terms = " ".join(f"+ $l{rng.randrange(62)} - $l{rng.randrange(62)}" for _ in range(7))
        lines.append(f"set {key} = {key} {terms} + 1\n")
    lines.append("end\n")
    return "".join(lines)


def mixed(rng, keys):
    kind = rng.randrange(5)
    if kind == 0:
        return transfer(rng, keys)
    if kind == 1:
        return blind(rng, keys)
    key = keys[0] if kind == 2 else rng.choice(keys)
    return add(rng, key) if kind == 3 else count(key)


def ycsb(rng, keys, written):
    """Adds one to `written` of ten keys; where there are others it shows their sum."""
    read = sorted(rng.sample(keys, 10))
    put = sorted(rng.sample(read, written))
    others = [key for key in read if key not in put]
    lines = [f"txn\nreads {' '.join(read)}\nwrites {' '.join(put)}\n"]
    lines += [f"set {key} = {key} + 1\n" for key in put]
    if others:
        lines.append(f"show {' + '.join(others)}\n")
    return "".join(lines) + "end\n"


def sets(reads, writes):
    return f"txn\nreads {' '.join(sorted(reads))}\nwrites {' '.join(sorted(writes))}\n".replace("writes \n", "writes\n")


def smallbank(rng, customers):
    """Balance, DepositChecking, TransactSavings, Amalgamate or WriteCheck, of a customer with accounts `c..` and `s..`."""
    one, other = rng.sample(customers, 2)
    saving, checking, amount = f"s{one}", f"c{one}", rng.randrange(1, 100)
    kind = rng.randrange(5)
    if kind == 0:
        return sets([saving, checking], []) + f"show {saving} + {checking}\nend\n"
    if kind == 1:
        return sets([checking], [checking]) + f"set {checking} = {checking} + {amount}\nend\n"
    if kind == 2:
        return sets([saving], [saving]) + f"need {saving} >= {amount}\nset {saving} = {saving} - {amount}\nend\n"
    if kind == 3:
        target, own = f"c{other}", [saving, checking]
        return (sets([*own, target], [*own, target]) + f"set {target} = {target} + {saving} + {checking}\n"
                f"set {saving} = 0\nset {checking} = 0\nend\n")
    return (sets([saving, checking], [checking])
            + f"set {checking} = {checking} - {amount} - 1 when {saving} + {checking} < {amount}\n"
            f"set {checking} = {checking} - {amount} when {saving} + {checking} >= {amount}\nend\n")


def store_of(kind, names):
    """The keys of the starting store."""
    return [letter + name for letter in "cs" for name in names] if kind == "smallbank" else names


def write_log(out, said):
    rng = random.Random(said.seed)
    names = names_of(said.keys, said.prefix)
    out.write(f"log {2 if said.two else 1}\n")
    out.writelines(f"{name} {rng.randrange(200)}\n" for name in store_of(said.kind, names))
    make = {
        "transfers": lambda: transfer(rng, names),
        "counters": lambda: count(rng.choice(names)),
        "adds": lambda: add(rng, rng.choice(names)),
        "hot": lambda: count(names[0]),
        "blind": lambda: blind(rng, names),
        "long": lambda: long_body(rng, names),
        "mixed": lambda: mixed(rng, names),
        "ycsb": lambda: ycsb(rng, names, 10),
        "ycsb8": lambda: ycsb(rng, names, 2),
        "smallbank": lambda: smallbank(rng, names),
    }[said.kind]
    for _ in range(said.n):
        out.write(make())


if __name__ == "__main__":
    words = argparse.ArgumentParser()
    words.add_argument("kind", choices=KINDS)
    words.add_argument("--n", type=int, default=100_000)
    words.add_argument("--keys", type=int, default=10_000)
    words.add_argument("--seed", type=int, default=1)
    words.add_argument("--prefix", default="")
    words.add_argument("--two", action="store_true")
    write_log(sys.stdout, words.parse_args())
