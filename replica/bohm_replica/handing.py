"""One replica puts what clients sent to all of them: the others hand it their texts, over a connection that they keep."""
import asyncio
import time
from typing import Callable, Dict, NamedTuple, Optional, Tuple

from . import http_client, peers
from .etcd import Unreachable
from .options import Options
from .ways import address_of

# Seconds until the other replica is tried again: where it takes no more, where it was lost, and where it doesn't know who asks or
# what; and within which it is to be reached, and to take texts.
AGAIN, LOST, LATER, REACH = 1.0, 10.0, 60.0, 2.0
# The most bytes of an answer, and its statuses by which the texts weren't taken: for now, or for good.
MOST = 1 << 16
UNTAKEN, UNKNOWN = (413, 429), (401, 403, 404)


class Place(NamedTuple):
    """Where texts are put: the sequencer and the number of the entry, and how many texts are before them in it."""

    name: str
    number: int
    at: int

    def text(self) -> bytes:
        return f"{self.name} {self.number} {self.at}\n".encode()


def read_place(text: bytes) -> Place:
    """Raises ValueError."""
    name, number, at = text.decode("latin-1").split()
    return Place(name, int(number), int(at))


class Untaken(Exception):
    """The other replica didn't take the texts."""


class Line(asyncio.Protocol):
    """A connection to the other replica, for one request after another."""

    def __init__(self, lost: Callable[["Line"], None]) -> None:
        self.lost, self.buffer, self.is_open = lost, bytearray(), True
        self.answer: "Optional[asyncio.Future[Tuple[int, bytes]]]" = None

    def connection_made(self, transport: asyncio.BaseTransport) -> None:
        assert isinstance(transport, asyncio.Transport)
        self.transport = transport

    def connection_lost(self, fault: Optional[Exception]) -> None:
        self.close()

    def close(self) -> None:
        if not self.is_open:
            return
        self.is_open = False
        self.transport.abort()
        if self.answer and not self.answer.done():
            self.answer.set_exception(Unreachable("the connection to the replica that puts entries has ended"))
        self.lost(self)

    def data_received(self, data: bytes) -> None:
        self.buffer += data
        end = self.buffer.find(b"\r\n\r\n")
        try:
            if end < 0 and len(self.buffer) > MOST:
                raise ValueError("its head is too long")
            if end < 0:
                return
            status, size = read_head(self.buffer[:end].decode("latin-1"))
            if size > MOST or not self.answer or self.answer.done():
                raise ValueError("it says more than was asked")
        except (ValueError, IndexError):
            self.close()
            return
        if len(self.buffer) >= end + 4 + size:
            body = bytes(self.buffer[end + 4:end + 4 + size])
            del self.buffer[:end + 4 + size]
            self.answer.set_result((status, body))

    async def ask(self, head: str, body: bytes, wait: float) -> Tuple[int, bytes]:
        """The status and the body of an answer. Raises Unreachable, and is closed then."""
        loop = asyncio.get_running_loop()
        if not self.is_open:
            raise Unreachable("the connection to the replica that puts entries has ended")
        self.answer = loop.create_future()
        timer = loop.call_later(wait, self.close)
        try:
            self.transport.write(f"{head}Content-Length: {len(body)}\r\n\r\n".encode("latin-1") + body)
            return await self.answer
        finally:
            timer.cancel()


def read_head(text: str) -> Tuple[int, int]:
    """The status of an answer, and the length of its body. Raises ValueError or IndexError."""
    first, *lines = text.split("\r\n")
    heads: Dict[str, str] = {name.lower(): value.strip() for name, _, value in (line.partition(":") for line in lines)}
    return int(first.split(" ")[1]), int(heads["content-length"]) if "content-length" in heads else 0


class Handing:
    """The way to the replica that puts entries, as long as there is one and it answers."""

    def __init__(self, options: Options, chief: Callable[[], Optional[str]]) -> None:
        """`chief` tells the URL of the replica that puts entries, unless that is this one."""
        self.options, self.chief = options, chief
        # What is told when it isn't known what becomes of texts that were taken.
        self.lost: Callable[[Exception], None] = lambda fault: None
        self.line: Optional[Line] = None
        self.url: Optional[str] = None
        # From when on it may be tried.
        self.begin = 0.0
        self.counts: Dict[str, int] = {}
        token = peers.token_of(options)
        self.more = f"Authorization: Bearer {token}\r\n" if token else ""
        # At most half of what clients wait: those that came meanwhile then aren't late.
        self.wait: float = min(REACH, options.get("wait") / 2)

    @property
    def is_open(self) -> bool:
        return self.line is not None and time.monotonic() > self.begin

    async def run(self) -> None:
        """Keeps the connection, without end."""
        try:
            while True:
                url = self.chief()
                if self.line and url != self.url:
                    self.line.close()
                if url and not self.line and time.monotonic() > self.begin:
                    await self.reach(url)
                await asyncio.sleep(AGAIN)
        finally:
            if self.line:
                self.line.close()

    async def reach(self, url: str) -> None:
        """Opens a connection, which is used once the other replica says that it is ready."""
        made: Optional[Line] = None
        try:
            made = await asyncio.wait_for(self.opened(url), REACH)
            status, _ = await made.ask(self.head("GET", "/readyz"), b"", REACH)
            if status == 200 and made.is_open:
                self.line, self.url = made, url
        except (OSError, ValueError, Unreachable, asyncio.TimeoutError):
            pass
        finally:
            if made and self.line is not made:
                made.close()

    async def opened(self, url: str) -> Line:
        scheme, _, rest = url.partition("://")
        context = None
        if scheme == "https":
            context = http_client.context_of(self.options.get("peer-authority"), peers.certificate_of(self.options))
        host, port = address_of(rest)
        self.host = host
        _, made = await asyncio.get_running_loop().create_connection(lambda: Line(self.ended), host, port, ssl=context)
        return made

    def head(self, method: str, path: str) -> str:
        return f"{method} {path} HTTP/1.1\r\nHost: {self.host}\r\n{self.more}"

    def ended(self, line: Line) -> None:
        if self.line is line:
            self.line = None
            self.begin = max(self.begin, time.monotonic() + LOST)
            self.lost(Unreachable("the replica that puts entries is gone: an entry may run later, so send it again with its id"))

    def count(self, kind: str) -> None:
        self.counts[kind] = self.counts.get(kind, 0) + 1

    async def hand(self, value: bytes) -> Place:
        """Where the texts of a value are put. Raises Untaken, or Unreachable where they may be put."""
        line = self.line
        if not line:
            raise Untaken("there is no connection")
        try:
            status, said = await line.ask(self.head("POST", "/put"), value, self.wait)
            if status in UNTAKEN or status in UNKNOWN:
                self.count("refused")
                self.begin = time.monotonic() + (LATER if status in UNKNOWN else AGAIN)
                raise Untaken(said.decode("latin-1"))
            if status != 200:
                raise ValueError(said.decode("latin-1"))
            place = read_place(said)
        except (Unreachable, ValueError) as fault:
            self.count("lost")
            line.close()
            raise Unreachable(f"{fault}: an entry may run later, so send it again with its id") from fault
        self.count("taken")
        return place
