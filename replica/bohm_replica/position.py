"""Where a replica is in the log, and the tables of its ledger's file that say it.

    position   one row: the last entry that was run
    sequencer  each sequencer's last number
    digest     digests at the last fixed places, and at checkpoints
"""
import hashlib
import sqlite3
from typing import Dict, Iterable, List, NamedTuple, Sequence, Tuple

from .bohm_of import bohm
from .keys import Digest

TABLES = {
    "position": "revision INTEGER, entries INTEGER, key TEXT, chain TEXT, answers TEXT, rules INTEGER, cluster INTEGER, "
                "requests TEXT, procedures TEXT",
    "sequencer": "name TEXT PRIMARY KEY, number INTEGER",
    "digest": "sequence INTEGER PRIMARY KEY, place INTEGER, chain TEXT, answers TEXT, store TEXT",
}
# Digests that are kept.
KEPT = 64
ZERO = "0" * 64
EMPTY = hashlib.sha256().hexdigest()


class Entry(NamedTuple):
    """An entry of the log: the revision at which it was put, its sequencer and number, its key and its value."""

    revision: int
    name: str
    number: int
    key: bytes
    value: bytes


class Position(NamedTuple):
    """After the entry at a revision: how many entries there were, its key, the chain of hashes over revisions, keys and values,
    that over the answers, the version of the rules, etcd's cluster, a sum over the hashes of all ids with their answers, and
    the hash of the procedures."""

    revision: int = 0
    entries: int = 0
    key: str = ""
    chain: str = ZERO
    answers: str = ZERO
    rules: int = 1
    cluster: int = 0
    requests: str = ZERO
    procedures: str = EMPTY


def chained(before: str, *parts: bytes) -> str:
    """The next hash of a chain. Each part but the last has a length before it, so that none can run into the next."""
    made = hashlib.sha256(bytes.fromhex(before))
    for part in parts:
        made.update(b"%d " % len(part))
        made.update(part)
    return made.hexdigest()


def chained_entry(chain: str, entry: Entry) -> str:
    return chained(chain, b"%d" % entry.revision, entry.key, entry.value)


def chained_answers(chain: str, answers: Iterable[Sequence[str]]) -> str:
    """The chain over the answers to each of several entries of the log."""
    for each in answers:
        chain = chained(chain, "\n".join(each).encode())
    return chain


def hash_of(procedures: Dict[str, str]) -> str:
    made = EMPTY
    for name, text in sorted(procedures.items()):
        made = chained(made, name.encode(), text.encode())
    return made


def make_tables(connection: sqlite3.Connection) -> None:
    for table, columns in TABLES.items():
        connection.execute(f"CREATE TABLE IF NOT EXISTS {table}({columns}) STRICT")
    connection.execute("INSERT INTO position SELECT ?, ?, ?, ?, ?, ?, ?, ?, ? WHERE NOT EXISTS (SELECT 1 FROM position)",
                       Position())


def write(connection: sqlite3.Connection, position: Position, numbers: Dict[str, int]) -> None:
    """Stores the position, and the numbers of these sequencers."""
    columns = ", ".join(f"{name} = ?" for name in Position._fields)
    connection.execute(f"UPDATE position SET {columns}", position)
    connection.executemany("INSERT INTO sequencer VALUES (?, ?) ON CONFLICT DO UPDATE SET number = excluded.number",
                           numbers.items())


def write_digest(connection: sqlite3.Connection, sequence: int, digest: Digest) -> None:
    connection.execute("INSERT OR REPLACE INTO digest VALUES (?, ?, ?, ?, ?)", (sequence, *digest))
    connection.execute("DELETE FROM digest WHERE sequence NOT IN "
                       "(SELECT sequence FROM digest ORDER BY sequence DESC LIMIT ?)", (KEPT,))


def read(connection: sqlite3.Connection) -> Tuple[Position, Dict[str, int], List[Tuple[int, Digest]]]:
    """The position, the sequencers' numbers, and the digests with the sequence numbers, by rising ones. Raises sqlite3.Error
    or ValueError."""
    rows = connection.execute(f"SELECT {', '.join(Position._fields)} FROM position").fetchall()
    if len(rows) != 1:
        raise ValueError(f"the table position has {len(rows)} rows")
    numbers = dict(connection.execute("SELECT name, number FROM sequencer").fetchall())
    digests = connection.execute("SELECT sequence, place, chain, answers, store FROM digest ORDER BY sequence")
    return Position._make(rows[0]), numbers, [(row[0], Digest._make(row[1:])) for row in digests]


def sum_of(connection: sqlite3.Connection) -> str:
    """The sum over all ids that the file has, with their answers."""
    return bohm.hashes.summed(ZERO, connection.execute("SELECT id, answer FROM request"))


def moved(position: Position, entries: Sequence[Entry]) -> Position:
    """The position after more entries, as far as these alone say it."""
    chain = position.chain
    for entry in entries:
        chain = chained_entry(chain, entry)
    last = entries[-1]
    return position._replace(revision=last.revision, entries=position.entries + len(entries), chain=chain,
                             key=last.key.decode("latin-1"))
