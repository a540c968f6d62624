"""A ledger's file: a SQLite database with the tables `ledger`, `batch`, `balance` and `request`, and its archives."""
import contextlib
import fcntl
import heapq
import json
import os
import re
import sqlite3
from typing import Callable, Dict, Generator, Iterable, Iterator, List, NamedTuple, Optional, Sequence, Set, Tuple
from urllib.parse import quote

from . import entries

FORMAT = 1
TABLES = {
    "ledger": "format INTEGER, edition INTEGER, checkpoint INTEGER",
    "batch": "place INTEGER PRIMARY KEY, first INTEGER, entries TEXT",
    "balance": "key TEXT PRIMARY KEY, value INTEGER",
    "request": "id TEXT PRIMARY KEY, place INTEGER, answer TEXT",
}
KEYED_BY_TEXT = ("balance", "request")
# Batches that hold a definition: `define` begins no other line.
DEFINES = "(substr(entries, 1, 7) = 'define ' OR instr(entries, char(10) || 'define '))"
# Seconds that a write waits for another program's.
PATIENCE = 5.0
# Pages that the log of a file that isn't synchronous has at most, unless a commit or a reader takes more.
LOG_PAGES = 1 << 14
# The most entries of a batch of commits that are stored together.
MOST = 4096
# Batches that are kept in memory, for ids that are sent again; and ids, twice as many at most and those of a commit.
MOST_FOUND, MOST_RECENT = 64, 1 << 15


class LedgerError(Exception):
    """A ledger's file couldn't be opened, read or written. `answers` has those of the entries that were stored before, in
    an `append` of several commits."""

    answers: Sequence[object] = ()


class InUseError(LedgerError):
    """Another program, or another ledger of this one, has the file."""


class NoLedgerError(LedgerError):
    """The file is no ledger, or its edition isn't the one asked for."""


class DamagedError(LedgerError):
    """The file holds what no ledger writes."""


class StoredBatch(NamedTuple):
    """The accepted entries of a commit, and the sequence number of its first transaction."""

    place: int
    first: int
    entries: str


class Held(NamedTuple):
    """A commit that isn't stored yet: the number of its first transaction, its accepted entries, and their ids with the answers."""

    first: int
    text: str
    requests: Sequence[Tuple[str, str]]


@contextlib.contextmanager
def told(what: str) -> Iterator[None]:
    """Raises errors of SQLite and of the system as a ledger's."""
    try:
        yield
    except (sqlite3.Error, OSError) as error:
        said = str(error)
        kind = (InUseError if "locked" in said else NoLedgerError if "not a database" in said
                else DamagedError if "malformed" in said else LedgerError)
        raise kind(f"{what}: {said}") from error


def declared(table: str) -> str:
    """The statement that makes a table."""
    return f"CREATE TABLE {table}({TABLES[table]}) STRICT{', WITHOUT ROWID' if table in KEYED_BY_TEXT else ''}"


def columns(connection: sqlite3.Connection, table: str) -> str:
    """A table's columns, as `TABLES` has them."""
    rows = connection.execute(f"PRAGMA table_info({table})")
    return ", ".join(f"{name} {kind}{' PRIMARY KEY' * is_key}" for _, name, kind, _, _, is_key in rows)


def sync(path: str) -> None:
    """Makes a file, or the names in a folder, durable."""
    handle = os.open(path, os.O_RDONLY)
    try:
        os.fsync(handle)
    finally:
        os.close(handle)


def reading(path: str, immutable: bool = False) -> sqlite3.Connection:
    """A connection that reads a database, beside whoever writes to it."""
    words = f"file:{quote(path)}?mode=ro{'&immutable=1' if immutable else ''}"
    return sqlite3.connect(words, uri=True, timeout=PATIENCE, isolation_level=None, check_same_thread=False)


def settle_beside(path: str) -> None:
    """Copies the log of a database into it and makes both durable, beside whoever writes, as far as no reader needs the log."""
    with contextlib.closing(sqlite3.connect(path, timeout=PATIENCE, isolation_level=None)) as connection:
        connection.execute("PRAGMA wal_checkpoint(PASSIVE)")


class LedgerTables:
    """The tables of a ledger's file, and its archives, as a connection reads them."""

    def __init__(self, path: str, connection: sqlite3.Connection) -> None:
        self.path, self.connection = path, connection
        self.edition = self.checkpointed = 0

    def read_head(self) -> None:
        """Reads the edition and the checkpoint."""
        rows = self.connection.execute("SELECT format, edition, checkpoint FROM ledger").fetchall()
        if len(rows) != 1 or rows[0][0] != FORMAT or rows[0][1] not in (1, 2) or rows[0][2] is None or rows[0][2] < 0:
            raise NoLedgerError(f"{self.path}: its table ledger has {rows}")
        _, self.edition, self.checkpointed = rows[0]

    def balance(self) -> Iterator[Tuple[str, int]]:
        """The keys and values of the checkpoint, by rising keys."""
        return self.connection.execute("SELECT key, value FROM balance ORDER BY key")

    def definitions(self) -> Iterator[str]:
        """The batches before those of `behind` that hold definitions."""
        rows = self.connection.execute(
            f"SELECT entries FROM batch WHERE place < ? AND {DEFINES} ORDER BY place", (self.middle(),))
        return (text for text, in rows)

    def middle(self) -> int:
        """The place of the last batch that may have transactions at or below the checkpoint."""
        rows = self.connection.execute("SELECT max(place) FROM batch WHERE first <= ?", (self.checkpointed,))
        return rows.fetchone()[0] or 0

    def behind(self) -> Iterator[StoredBatch]:
        """The batches that may have transactions behind the checkpoint."""
        rows = self.connection.execute(
            "SELECT place, first, entries FROM batch WHERE place >= ? ORDER BY place", (self.middle(),))
        return map(StoredBatch._make, rows)

    def archives(self) -> List[str]:
        """The archives, the oldest first."""
        folder, name = os.path.split(self.path)
        numbered = re.compile(re.escape(name) + "-([1-9][0-9]*)")
        found = (numbered.fullmatch(each) for each in os.listdir(folder))
        return [f"{self.path}-{number}" for number in sorted(int(each[1]) for each in found if each)]

    def batches(self) -> Generator[StoredBatch, None, None]:
        """All batches, of archives too, in their order. It is to be closed before the connection."""
        with contextlib.ExitStack() as held:
            archives = [held.enter_context(contextlib.closing(reading(path, immutable=True))) for path in self.archives()]
            rows = [file.execute("SELECT place, first, entries FROM batch ORDER BY place") for file in [*archives, self.connection]]
            last = 0
            for row in heapq.merge(*rows):
                # What was archived stands in both files until it is deleted.
                if row[0] != last:
                    yield StoredBatch._make(row)
                last = row[0]


class Recent:
    """The last ids that a file took, and the greatest of all others. Ids that rise with time are known to be new by these."""

    def __init__(self, greatest: str) -> None:
        self.greatest = greatest
        self.young: Set[str] = set()
        self.old: Set[str] = set()

    def add(self, ids: Iterable[str]) -> None:
        self.young.update(ids)
        if len(self.young) > MOST_RECENT:
            self.greatest = max(self.greatest, max(self.old, default=""))
            self.young, self.old = set(), self.young

    def are_new(self, ids: Sequence[str]) -> bool:
        """Whether it is certain that the file has none of these."""
        return min(ids) > self.greatest and self.young.isdisjoint(ids) and self.old.isdisjoint(ids)


@contextlib.contextmanager
def snapshot(path: str) -> Iterator[LedgerTables]:
    """The tables of a ledger's file as they are now. A writer goes on meanwhile."""
    path = os.path.realpath(path)
    with told(path), contextlib.closing(reading(path)) as connection:
        connection.execute("BEGIN")
        tables = LedgerTables(path, connection)
        tables.read_head()
        yield tables


class LedgerFile(LedgerTables):
    """An open file of a ledger. One thread at a time calls it."""

    def __init__(self, path: str, edition: Optional[int], synchronous: bool = True) -> None:
        if sqlite3.sqlite_version_info < (3, 37):
            raise LedgerError(f"a ledger needs SQLite 3.37 or newer, and this is {sqlite3.sqlite_version}")
        path = os.path.realpath(path)
        self.lock: Optional[int] = None
        self.synchronous = synchronous
        # Batches that were looked up, by place.
        self.found: Dict[int, Optional[str]] = {}
        # Commits that are stored later, how many entries they were given, and what is written beside them.
        self.held: List[Held] = []
        self.held_count = 0
        self.beside: Optional[Callable[[sqlite3.Connection], None]] = None
        is_new = not os.path.exists(path)
        with told(path):
            connection = sqlite3.connect(path, timeout=1.0, isolation_level=None, check_same_thread=False)
        super().__init__(path, connection)
        try:
            with told(path):
                self.begin(edition)
                if is_new:
                    sync(os.path.dirname(path))
        except BaseException:
            self.close()
            raise

    def begin(self, edition: Optional[int]) -> None:
        """Takes the file for this ledger, and makes the tables if it has none."""
        if self.connection.execute("SELECT count(*) FROM sqlite_master").fetchone()[0]:
            self.check()
        if self.connection.execute("PRAGMA journal_mode = WAL").fetchone()[0] != "wal":
            raise LedgerError(f"{self.path}: SQLite can't keep a log of it")
        self.connection.execute(f"PRAGMA synchronous = {'FULL' if self.synchronous else 'NORMAL'}")
        if not self.synchronous:
            # `settle_beside` copies it before, where no commit waits for the disk.
            self.connection.execute(f"PRAGMA wal_autocheckpoint = {LOG_PAGES}")
        self.lock = self.locked()
        self.connection.execute(f"PRAGMA busy_timeout = {int(PATIENCE * 1000)}")
        with self.transaction():
            if not self.connection.execute("SELECT count(*) FROM sqlite_master").fetchone()[0]:
                for table in TABLES:
                    self.connection.execute(declared(table))
                self.connection.execute("INSERT INTO ledger VALUES (?, ?, 0)", (FORMAT, edition or 2))
        self.check()
        self.settle()
        self.read_head()
        if edition not in (None, self.edition):
            raise NoLedgerError(f"{self.path}: its edition is {self.edition}")
        self.place = self.last_place()
        # The bytes of the batches that an archive may take.
        size = f"SELECT coalesce(sum(length(entries)), 0) FROM batch WHERE NOT {DEFINES}"
        self.archivable: int = self.connection.execute(size).fetchone()[0]
        self.recent = Recent(self.connection.execute("SELECT max(id) FROM request").fetchone()[0] or "")

    def check(self) -> None:
        for table, wanted in TABLES.items():
            if columns(self.connection, table) != wanted:
                raise NoLedgerError(f"{self.path}: its table {table} isn't a ledger's")

    def locked(self) -> int:
        """A lock that no other ledger has. It is on the log of the database, which stays where it is as long as a connection
        reads the database, and on which SQLite takes no locks: closing a handle of a file drops all locks of SQLite on
        it."""
        self.connection.execute("SELECT count(*) FROM sqlite_master").fetchone()
        handle = os.open(self.path + "-wal", os.O_RDWR)
        try:
            fcntl.flock(handle, fcntl.LOCK_EX | fcntl.LOCK_NB)
            if os.path.samestat(os.fstat(handle), os.stat(self.path + "-wal")):
                return handle
        except BlockingIOError:
            pass
        os.close(handle)
        raise InUseError(f"{self.path}: another ledger has it")

    def settle(self) -> None:
        """Makes all that the file holds durable. A process that was killed may have left a commit that was never
        synchronised, and the next one must not answer by it before it is. The log keeps its size: to synchronise a file that
        grows takes much longer than one that is written over."""
        busy = self.connection.execute("PRAGMA wal_checkpoint(RESTART)").fetchone()[0]
        if busy:
            raise InUseError(f"{self.path}: a reader keeps its log from being written over")

    def last_place(self) -> int:
        """The place of the last batch, which may be in an archive."""
        place = self.connection.execute("SELECT max(place) FROM batch").fetchone()[0]
        for archive in reversed(self.archives() if place is None else []):
            with contextlib.closing(reading(archive, immutable=True)) as old:
                place = old.execute("SELECT max(place) FROM batch").fetchone()[0]
            break
        return place or 0

    @contextlib.contextmanager
    def transaction(self) -> Iterator[None]:
        """Commits what is written in it, with one synchronisation; or nothing, where an exception is raised."""
        self.connection.execute("BEGIN IMMEDIATE")
        try:
            yield
            self.connection.execute("COMMIT")
        except BaseException:
            # SQLite ends some transactions itself.
            if self.connection.in_transaction:
                self.connection.execute("ROLLBACK")
            raise

    def commit(self, first: int, text: str, requests: Sequence[Tuple[str, str]],
               more: Optional[Callable[[sqlite3.Connection], None]] = None) -> None:
        """Stores a batch, unless it is empty, with the ids of its entries and their answers, and what `more` writes. Where
        another program has stored a batch in its place, nothing is stored."""
        self.write(first, text, requests, more)
        self.recent.add(name for name, _ in requests)

    def hold(self, first: int, text: str, requests: Sequence[Tuple[str, str]], count: int) -> None:
        """Has a commit of so many entries, for which there is room, stored later."""
        self.held.append(Held(first, text, requests))
        self.held_count += count
        self.recent.add(name for name, _ in requests)

    def make_room(self, count: int) -> None:
        """Stores what is held where so many entries more would be too many for a batch."""
        if self.held_count + count > MOST:
            self.store()

    def store(self) -> None:
        """Stores the commits that are held as one batch, and in its transaction what is written beside them."""
        if self.held:
            requests = [request for held in self.held for request in held.requests]
            self.write(self.held[0].first, "".join([held.text for held in self.held]), requests, self.beside)
            self.held, self.held_count = [], 0

    def write(self, first: int, text: str, requests: Sequence[Tuple[str, str]],
              more: Optional[Callable[[sqlite3.Connection], None]]) -> None:
        """Writes a batch by one transaction."""
        place = self.place + 1 if text else self.place
        with told(self.path), self.transaction():
            if text:
                self.connection.execute("INSERT INTO batch VALUES (?, ?, ?)", (place, first, text))
            if requests:
                rows = sorted([(name, place, answer) for name, answer in requests])
                self.connection.executemany("INSERT INTO request VALUES (?, ?, ?)", rows)
            if more:
                more(self.connection)
        self.place = place
        self.archivable += len(text)

    def checkpoint(self, sequence: int, cells: Iterable[Tuple[str, Optional[int]]]) -> None:
        """Stores the cells of keys that may have changed; they are those after the transaction with this number."""
        present = []
        absent = []
        for key, value in cells:
            if value is None:
                absent.append((key,))
            else:
                present.append((key, value))
        with told(self.path), self.transaction():
            ours = (self.checkpointed, self.place)
            moved = self.connection.execute(
                "UPDATE ledger SET checkpoint = ? WHERE checkpoint = ? AND (SELECT max(place) FROM batch) IS ?",
                (sequence, self.checkpointed, self.place or None))
            if moved.rowcount != 1:
                raise InUseError(f"{self.path}: another program wrote to it behind checkpoint and place {ours}")
            self.connection.executemany(
                "INSERT INTO balance VALUES (?, ?) ON CONFLICT DO UPDATE SET value = excluded.value "
                "WHERE value IS NOT excluded.value", present)
            self.connection.executemany("DELETE FROM balance WHERE key = ?", absent)
        self.checkpointed = sequence

    def requests(self, ids: Sequence[str]) -> Dict[str, Tuple[int, str]]:
        """The places and answers of the ids that are known."""
        if self.recent.are_new(ids):
            return {}
        self.store()
        if len(ids) == 1:
            rows = self.connection.execute("SELECT id, place, answer FROM request WHERE id = ?", (ids[0],))
        else:
            rows = self.connection.execute(
                "SELECT id, place, answer FROM request WHERE id IN (SELECT value FROM json_each(?))", (json.dumps(ids),))
        return {name: (place, answer) for name, place, answer in rows}

    def entry_of(self, request: str, place: int) -> Optional[str]:
        """The entry at a place that carries an id; none if its archive was forgotten."""
        batch = self.batch_at(place)
        return entries.find(batch, request) if batch else None

    def batch_at(self, place: int) -> Optional[str]:
        """The entries of a batch, which may be in an archive; none if it was forgotten."""
        if place not in self.found:
            if len(self.found) == MOST_FOUND:
                self.found.clear()
            self.found[place] = self.looked_up(place)
        return self.found[place]

    def looked_up(self, place: int) -> Optional[str]:
        query = "SELECT entries FROM batch WHERE place = ?"
        row = self.connection.execute(query, (place,)).fetchone()
        for path in [] if row else reversed(self.archives()):
            with contextlib.closing(reading(path, immutable=True)) as archive:
                row = archive.execute(query, (place,)).fetchone()
            if row:
                break
        return row[0] if row else None

    def archive(self) -> None:
        """Moves the batches before `middle` into a new archive, but for those with definitions, which opening reads. They
        leave the file once the archive is on the disk."""
        moving = f"place < {self.middle()} AND NOT {DEFINES}"
        archives = self.archives()
        number = int(archives[-1].rpartition("-")[2]) + 1 if archives else 1
        path, new = f"{self.path}-{number}", f"{self.path}-{number}.new"
        with told(self.path):
            if archives:
                self.drop_archived(archives[-1])
            rows = self.connection.execute(f"SELECT place, first, entries FROM batch WHERE {moving} ORDER BY place")
            if write_archive(new, rows):
                os.rename(new, path)
                sync(os.path.dirname(path))
                self.drop_archived(path)
            else:
                os.remove(new)
        self.archivable = 0

    def drop_archived(self, path: str) -> None:
        """Deletes the batches that an archive holds, but for the last, whose place goes before the next one's."""
        with contextlib.closing(reading(path, immutable=True)) as archive:
            places = archive.execute("SELECT place FROM batch WHERE place < ?", (self.place,)).fetchall()
        with self.transaction():
            self.connection.executemany("DELETE FROM batch WHERE place = ?", places)

    def forget(self, sequence: int) -> None:
        """Deletes the archives whose transactions are all at or below a number and the checkpoint."""
        for path in self.archives():
            with told(path), contextlib.closing(reading(path, immutable=True)) as archive:
                last = archive.execute("SELECT first, entries FROM batch ORDER BY place DESC LIMIT 1").fetchone()
            if last and last[0] + entries.transactions(last[1]) - 1 <= min(sequence, self.checkpointed):
                os.remove(path)
        sync(os.path.dirname(self.path))
        self.found.clear()

    def log_handle(self) -> int:
        """A handle of the database's log, whose synchronisation makes all commits durable. The caller closes it."""
        assert self.lock is not None
        return os.dup(self.lock)

    def close(self) -> None:
        """Closes the file, and lets other ledgers have it. Does nothing if it is closed."""
        self.connection.close()
        if self.lock is not None:
            os.close(self.lock)
            self.lock = None

    def __del__(self) -> None:
        if hasattr(self, "connection"):
            self.close()


def write_archive(path: str, rows: Iterable[Tuple[int, int, str]]) -> int:
    """Makes a database with a table `batch` of these rows, and synchronises it. Returns how many they are."""
    with contextlib.suppress(FileNotFoundError):
        os.remove(path)
    with contextlib.closing(sqlite3.connect(path, isolation_level=None)) as archive:
        archive.execute("PRAGMA journal_mode = OFF")
        archive.execute("PRAGMA synchronous = FULL")
        archive.execute(declared("batch"))
        archive.execute("BEGIN")
        count = archive.executemany("INSERT INTO batch VALUES (?, ?, ?)", rows).rowcount
        archive.execute("COMMIT")
    return count
