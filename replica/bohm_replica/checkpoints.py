"""A copy of a replica's files, which another one, or an operator, fetches.

It is a sequence of files: a line `file NAME SIZE`, and the bytes; behind the last a line `end SHA256` of all before."""
import asyncio
import contextlib
import hashlib
import os
import re
import shutil
import tempfile
from pathlib import Path
from typing import TYPE_CHECKING, AsyncIterator, Callable, Iterator, List, Optional, Tuple

from . import http_client
from .http_server import Connection, Response, refusal
from .log import Log
from .ways import address_of

if TYPE_CHECKING:
    from .replica import Replica

NAME = "ledger"
FILE = re.compile(rb"file (ledger(?:-[1-9][0-9]{0,8})?) ([0-9]{1,15})\n")
END = re.compile(rb"end ([0-9a-f]{64})\n")
PIECE = 1 << 20
# The most bytes of an answer with files.
MOST = 1 << 40


class BadCopy(Exception):
    """What came isn't a whole copy, or not one of this log."""


# Giving.

async def given(replica: "Replica", connection: Connection, turn: asyncio.Semaphore) -> Response:
    """Sends a copy of the files, as they are at one moment."""
    log = replica.log
    if not log or replica.is_stopped:
        return refusal(503, replica.trouble or "there is nothing here yet")
    async with turn:
        with tempfile.TemporaryDirectory(prefix="copy", dir=replica.options.folder) as room:
            files = await asyncio.get_running_loop().run_in_executor(None, copied, log, Path(room))
            size = sum(len(head_of(path)) + path.stat().st_size for path in files) + len("end \n") + 64
            await connection.send(f"HTTP/1.1 200 OK\r\nContent-Length: {size}\r\nConnection: close\r\n\r\n".encode())
            async for piece in pieces(files):
                await connection.send(piece)
    connection.close()
    return Response(200, b"", closes=True)


def copied(log: Log, room: Path) -> List[Path]:
    """A copy of the ledger's file in a folder, with links to its archives, which never change."""
    with contextlib.closing(log.connection()) as connection:
        connection.execute("VACUUM INTO ?", (str(room / NAME),))
    for archive in archives(Path(log.path)):
        with contextlib.suppress(FileNotFoundError):
            os.link(archive, room / archive.name)
    return [room / NAME, *archives(room / NAME)]


def archives(path: Path) -> List[Path]:
    numbered = re.compile(re.escape(path.name) + "-[1-9][0-9]*")
    return sorted(each for each in path.parent.iterdir() if numbered.fullmatch(each.name))


def head_of(path: Path) -> bytes:
    return f"file {path.name} {path.stat().st_size}\n".encode()


async def pieces(files: List[Path]) -> AsyncIterator[bytes]:
    made = hashlib.sha256()
    for piece in read_all(files):
        made.update(piece)
        yield piece
        await asyncio.sleep(0)
    yield f"end {made.hexdigest()}\n".encode()


def read_all(files: List[Path]) -> Iterator[bytes]:
    for path in files:
        yield head_of(path)
        with path.open("rb") as file:
            while piece := file.read(PIECE):
                yield piece


# Taking.

async def fetched(url: str, token: Optional[str], authority: Optional[str], certificate: Optional[Tuple[str, str]],
                  folder: Path) -> None:
    """Fetches a replica's files into a folder, which is made. Raises OSError, EOFError, ValueError or BadCopy."""
    scheme, _, rest = url.partition("://")
    context = http_client.context_of(authority, certificate) if scheme == "https" else None
    line = await asyncio.wait_for(http_client.opened(*address_of(rest.rstrip("/")), context), 10.0)
    try:
        heads = {"Authorization": f"Bearer {token}"} if token else {}
        line.send("GET", "/checkpoint", heads, b"")
        status, said = await asyncio.wait_for(line.head(), 600.0)
        if status != 200:
            raise BadCopy(f"{url} answers {status}")
        shutil.rmtree(folder, ignore_errors=True)
        folder.mkdir(parents=True)
        taker = Taker(folder)
        async for piece in line.pieces(said, MOST):
            taker.take(piece)
        taker.end()
    finally:
        line.close()


class Taker:
    """Takes a copy apart into files."""

    def __init__(self, folder: Path) -> None:
        self.folder, self.rest, self.left = folder, b"", 0
        self.write: Callable[[bytes], object] = len
        self.stack = contextlib.ExitStack()
        self.hash, self.is_whole = hashlib.sha256(), False

    def take(self, piece: bytes) -> None:
        self.rest += piece
        while self.rest:
            if self.left:
                part, self.rest = self.rest[:self.left], self.rest[self.left:]
                self.left -= len(part)
                self.hash.update(part)
                self.write(part)
            elif not self.begin():
                return

    def begin(self) -> bool:
        """Begins the next file, if its line is there."""
        end = self.rest.find(b"\n") + 1
        if not end:
            if len(self.rest) > 200:
                raise BadCopy("what came isn't a copy")
            return False
        line, self.rest = self.rest[:end], self.rest[end:]
        if found := FILE.fullmatch(line):
            self.hash.update(line)
            self.stack.close()
            self.write = self.stack.enter_context((self.folder / found[1].decode()).open("xb")).write
            self.left = int(found[2])
            return True
        last = END.fullmatch(line)
        if not last or last[1].decode() != self.hash.hexdigest() or self.rest:
            raise BadCopy("what came isn't a whole copy")
        self.is_whole = True
        return True

    def end(self) -> None:
        self.stack.close()
        if not self.is_whole:
            raise BadCopy("the copy ended early")


def placed(incoming: Path, folder: Path) -> None:
    """Moves the files of a copy to where a ledger is opened, which has none."""
    for path in [*archives(incoming / NAME), incoming / NAME]:
        path.rename(folder / path.name)
    handle = os.open(folder, os.O_RDONLY)
    try:
        os.fsync(handle)
    finally:
        os.close(handle)
    shutil.rmtree(incoming, ignore_errors=True)


def set_aside(folder: Path, why: str, stamp: str) -> Path:
    """Moves a ledger's files into a folder of their own, for whoever looks."""
    aside = folder / f"aside-{stamp}"
    aside.mkdir()
    for path in [*folder.glob(f"{NAME}"), *folder.glob(f"{NAME}-*")]:
        path.rename(aside / path.name)
    (aside / "why").write_text(f"{why}\n", encoding="utf-8")
    return aside
