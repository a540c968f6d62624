"""An HTTP/1.1 server whose costs are bounded: connections, the time of each part of a request, and the bytes in memory. What
is refused is refused by its head, and its body isn't read."""
import asyncio
import contextlib
import functools
import resource
import socket
import ssl
import time
from typing import Awaitable, Callable, Dict, List, NamedTuple, Optional, Set, Tuple, Union
from urllib.parse import unquote_to_bytes

from .tasks import cancelled

# Bytes of a head, of one that a connection keeps, and of all bodies that are in memory; heads that are kept for all connections.
HEAD, HEAD_KEPT, BODIES, HEADS_KEPT = 8192, 512, 1 << 26, 512
# Seconds: a head may take, a body, and a client to take an answer.
HEADS, BODY, TAKE = 10.0, 30.0, 60.0
# Descriptors that stay for etcd, files and peers; connections that haven't agreed on TLS yet.
RESERVED, SHAKING = 512, 256
# Bytes of answers that wait to be taken, above which no more whole stores are answered.
UNSENT = 1 << 26
WORDS = {200: "OK", 400: "Bad Request", 401: "Unauthorized", 403: "Forbidden", 404: "Not Found", 405: "Method Not Allowed",
         408: "Request Timeout", 409: "Conflict", 410: "Gone", 411: "Length Required", 413: "Content Too Large",
         429: "Too Many Requests", 431: "Request Header Fields Too Large", 500: "Internal Server Error",
         503: "Service Unavailable", 507: "Insufficient Storage"}
TEXT, JSON, BYTES = "text/plain; charset=utf-8", "application/json", "application/octet-stream"


class Request(NamedTuple):
    """A request's head. `segment` is the path's first part, by which requests are counted; `who` is the name in the client's
    certificate; `closes` says that the client sends no other request."""

    method: str
    path: str
    query: str
    heads: Dict[str, str]
    length: int
    segment: str
    who: Optional[str]
    closes: bool


class Response(NamedTuple):
    status: int
    body: bytes
    kind: str = TEXT
    heads: str = ""
    closes: bool = False


@functools.lru_cache(maxsize=HEADS_KEPT)
def head_of(status: int, kind: str, size: int, heads: str, closes: bool) -> bytes:
    """The head of an answer. Answers that are given together have much the same."""
    return (f"HTTP/1.1 {status} {WORDS[status]}\r\nContent-Type: {kind}\r\nContent-Length: {size}\r\n{heads}"
            f"{'Connection: close' * closes}{chr(13) + chr(10) if closes else ''}\r\n").encode("latin-1")


def refusal(status: int, words: str, heads: str = "", closes: bool = False) -> Response:
    return Response(status, words.encode(errors="replace") + b"\n", TEXT, heads, closes)


class Later:
    """An answer that somebody else's work gives, by `give`; and what is answered if that takes too long."""

    __slots__ = ("seconds", "late", "connection")

    def __init__(self, seconds: float, late: Response) -> None:
        self.seconds, self.late = seconds, late
        self.connection: "Optional[Connection]" = None

    def give(self, said: Response) -> None:
        """Answers, if the client still waits for it."""
        connection, self.connection = self.connection, None
        if connection:
            connection.come(said)


Given = Union[Response, Later, Awaitable[Response]]


class Site:
    """What a server serves."""

    def admit(self, request: Request) -> Optional[Response]:
        """Why a request is refused by its head, whenever it comes, if it is."""
        raise NotImplementedError

    def admit_now(self, request: Request) -> Optional[Response]:
        """Why one that is admitted is refused as things are, if it is."""
        raise NotImplementedError

    def answer(self, request: Request, body: bytes, connection: "Connection") -> Given:
        raise NotImplementedError

    def note(self, segment: str, status: int) -> None:
        """Counts an answer."""

    def note_refused(self, why: str) -> None:
        """Counts a connection that is closed."""


class BadHead(Exception):
    """The head isn't one."""


@functools.lru_cache(maxsize=HEADS_KEPT)
def parse(text: str, who: Optional[str]) -> Request:
    """A request by its head. Raises BadHead. A client's heads are much alike, so that most were read before."""
    first, *lines = text.split("\r\n")
    words = first.split(" ")
    if len(words) != 3 or words[2] not in ("HTTP/1.1", "HTTP/1.0") or not words[1].startswith("/"):
        raise BadHead("the request's line isn't one")
    heads: Dict[str, str] = {}
    for line in lines:
        name, colon, value = line.partition(":")
        if not colon or not name or name != name.strip() or name.lower() in heads and name.lower() == "content-length":
            raise BadHead("a header isn't one")
        heads[name.lower()] = value.strip()
    if words[2] == "HTTP/1.0":
        heads.setdefault("connection", "close")
    length = heads.get("content-length", "0")
    if not (length.isascii() and length.isdigit() and len(length) < 16):
        raise BadHead("Content-Length is no number")
    given, _, query = words[1].partition("?")
    path = unquote_to_bytes(given).decode("latin-1")
    return Request(words[0], path, query, heads, int(length), path.split("/", 2)[1], who, heads.get("connection", "").lower() == "close")


class Connection(asyncio.Protocol):
    """A client's connection, which is answered one request after another."""

    def __init__(self, server: "Server") -> None:
        self.server, self.site = server, server.site
        self.buffer = bytearray()
        self.request: Optional[Request] = None
        # The last head that was admitted, and the request that it is: a client's heads are much alike. The bytes of that head and
        # its body, where they need no more than to be there; or 0.
        self.head: Tuple[bytes, Optional[Request]] = b"", None
        self.whole = 0
        self.is_busy = self.is_closing = self.is_full = self.is_paused = False
        self.held = 0
        self.who: Optional[str] = None
        self.task: "Optional[asyncio.Future[Response]]" = None
        self.later: Optional[Later] = None
        self.drained: "Optional[asyncio.Future[None]]" = None
        self.set_deadline(server.longest_idle)

    def set_deadline(self, seconds: float) -> None:
        self.deadline = time.monotonic() + seconds

    def connection_made(self, transport: asyncio.BaseTransport) -> None:
        assert isinstance(transport, asyncio.Transport)
        self.transport = transport
        self.who = name_in(transport.get_extra_info("peercert"))
        self.server.add(self)

    def connection_lost(self, fault: Optional[Exception]) -> None:
        self.is_closing = True
        self.server.drop(self)
        self.release()
        if self.task:
            self.task.cancel()
        if self.later:
            self.later.connection = None
        if self.drained and not self.drained.done():
            self.drained.set_exception(ConnectionResetError())

    def data_received(self, data: bytes) -> None:
        idle = self.server.idle
        if self in idle:
            del idle[self]
            head, request = self.head
            if len(data) == self.whole and data.startswith(head) and request:
                # A request like the last one, which came at once.
                self.request, self.is_busy = request, True
                self.begin(request, data[len(head):])
                return
            self.set_deadline(HEADS)
        self.buffer += data
        if not self.is_busy:
            self.advance()
        elif len(self.buffer) > HEAD and not self.is_paused:
            self.is_paused = True
            self.transport.pause_reading()

    def advance(self) -> None:
        """Answers what has come whole."""
        while not self.is_busy and not self.is_closing:
            if not self.request and not self.read_head():
                return
            request = self.request
            if not request or len(self.buffer) < request.length:
                return
            body = bytes(self.buffer[:request.length])
            del self.buffer[:request.length]
            self.is_busy = True
            self.begin(request, body)

    def read_head(self) -> bool:
        """Reads a request's head, if it is there. One that is refused is answered, and ends the connection unless there is no
        body that would have to be read."""
        head, request = self.head
        if not request or not self.buffer.startswith(head):
            head, request = self.read_other()
            if not request:
                return False
            if len(head) <= HEAD_KEPT:
                self.head = head, request
                is_plain = "transfer-encoding" not in request.heads and "expect" not in request.heads
                self.whole = len(head) + request.length if request.length and is_plain else 0
        del self.buffer[:len(head)]
        said = self.site.admit_now(request) or self.server.admit(request)
        if said:
            self.refuse_read(request, said)
            return False
        self.request, self.held = request, request.length
        self.server.bodies += request.length
        self.set_deadline(BODY)
        if "expect" in request.heads and request.heads["expect"].lower() == "100-continue":
            self.transport.write(b"HTTP/1.1 100 Continue\r\n\r\n")
        return True

    def read_other(self) -> Tuple[bytes, Optional[Request]]:
        """A head that isn't the last one's, once it is there, and its request, if it is admitted."""
        end = self.buffer.find(b"\r\n\r\n", 0, HEAD)
        if end < 0:
            if len(self.buffer) >= HEAD:
                self.refuse("head", refusal(431, f"a head has at most {HEAD} bytes"))
            return b"", None
        head = bytes(self.buffer[:end + 4])
        try:
            request = parse(head[:-4].decode("latin-1"), self.who)
        except BadHead as fault:
            self.refuse("head", refusal(400, str(fault)))
            return head, None
        said = self.site.admit(request)
        if said:
            del self.buffer[:len(head)]
            self.refuse_read(request, said)
            return head, None
        return head, request

    def refuse_read(self, request: Request, said: Response) -> None:
        """Refuses by a head, which was read."""
        self.request = request
        if request.length or "transfer-encoding" in request.heads:
            self.refuse(request.segment, said)
        else:
            self.is_busy = True
            self.respond(said)

    def begin(self, request: Request, body: bytes) -> None:
        try:
            given = self.site.answer(request, body, self)
        except Exception as fault:
            given = self.failed(fault)
        if isinstance(given, Later):
            self.later, given.connection = given, self
            self.deadline = time.monotonic() + given.seconds
        elif isinstance(given, Response):
            self.respond(given)
        else:
            self.deadline = float("inf")
            self.task = asyncio.ensure_future(given)
            self.task.add_done_callback(self.finish)

    def come(self, said: Response) -> None:
        """Answers what was to come."""
        self.later = None
        if not self.is_closing:
            self.respond(said)

    def expire(self) -> None:
        """Ends what takes too long."""
        if self.later:
            late, self.later.connection = self.later.late, None
            self.later = None
            self.respond(late)
            return
        self.site.note_refused("slow")
        self.is_closing = True
        self.server.drop(self)
        self.transport.abort()

    def finish(self, task: "asyncio.Future[Response]") -> None:
        self.task = None
        if task.cancelled() or self.is_closing:
            return
        fault = task.exception()
        self.respond(self.failed(fault) if fault else task.result())

    def failed(self, fault: BaseException) -> Response:
        self.site.note_refused("fault")
        self.server.report(fault)
        return refusal(500, "the replica failed at this request")

    def respond(self, said: Response) -> None:
        """Answers, and goes on with the next request."""
        request = self.request
        closes = said.closes or not request or request.closes
        self.write(request.segment if request else "", said, closes)
        if self.held:
            self.release()
        self.request, self.is_busy = None, False
        self.deadline = time.monotonic() + (TAKE if self.is_full else HEADS if self.buffer else self.server.longest_idle)
        if closes:
            self.close()
            return
        if self.is_paused:
            self.is_paused = False
            self.transport.resume_reading()
        if self.buffer:
            asyncio.get_running_loop().call_soon(self.advance)
        elif not self.is_closing:
            self.server.idle[self] = None

    def write(self, segment: str, said: Response, closes: bool) -> None:
        self.site.note(segment, said.status)
        if self.is_closing:
            return
        status, body, kind, heads, _ = said
        head = head_of(status, kind, len(body), heads, closes)
        self.transport.write(head if self.request and self.request.method == "HEAD" else head + body)

    def refuse(self, segment: str, said: Response) -> None:
        """Answers, and closes: what follows isn't read."""
        self.write(segment, said._replace(closes=True), True)
        self.close()

    def close(self) -> None:
        if not self.is_closing:
            self.is_closing = True
            self.transport.close()

    def release(self) -> None:
        self.server.bodies -= self.held
        self.held = 0

    # What is written faster than it is taken.

    def pause_writing(self) -> None:
        self.is_full = True
        self.set_deadline(TAKE)

    def resume_writing(self) -> None:
        self.is_full = False
        if self.drained and not self.drained.done():
            self.drained.set_result(None)

    async def send(self, piece: bytes) -> None:
        """Writes a part of an answer's body, and waits until it is taken. Raises OSError if the client is gone."""
        if self.is_closing:
            raise ConnectionResetError()
        self.transport.write(piece)
        if self.is_full:
            self.drained = asyncio.get_running_loop().create_future()
            await self.drained
            self.deadline = float("inf")


def name_in(certificate: Optional[Dict[str, object]]) -> Optional[str]:
    """The common name of a client's certificate, which was checked."""
    subject = (certificate or {}).get("subject", ())
    for part in subject if isinstance(subject, tuple) else ():
        for name, value in part:
            if name == "commonName":
                return str(value)
    return None


class Server:
    """Listens, and closes what is too much or too slow."""

    def __init__(self, site: Site, report: Callable[[BaseException], None], most: int, longest_idle: float) -> None:
        """For so many connections at most, each of which may be idle for so many seconds."""
        _, hard = resource.getrlimit(resource.RLIMIT_NOFILE)
        resource.setrlimit(resource.RLIMIT_NOFILE, (hard, hard))
        free = most if hard == resource.RLIM_INFINITY else max(8, hard - RESERVED)
        self.site, self.report, self.most, self.longest_idle = site, report, min(most, free), longest_idle
        self.connections: Set[Connection] = set()
        # Those that nothing has come from since their last answer, the one that is idle longest first.
        self.idle: Dict[Connection, None] = {}
        self.bodies = 0
        self.listening: Optional[socket.socket] = None
        self.tasks: "List[asyncio.Future[None]]" = []
        # Connections that haven't agreed on TLS yet, the oldest first.
        self.shaking: "Dict[asyncio.Future[None], None]" = {}

    async def start(self, host: str, port: int, context: Optional[ssl.SSLContext]) -> None:
        """Binds the port. Raises OSError."""
        family, *_ = socket.getaddrinfo(host or None, port, type=socket.SOCK_STREAM, flags=socket.AI_PASSIVE)[0]
        is_dual = family == socket.AF_INET6 and host == "::" and socket.has_dualstack_ipv6()
        self.listening = socket.create_server((host, port), family=family, backlog=128, dualstack_ipv6=is_dual)
        self.listening.setblocking(False)
        self.tasks = [asyncio.ensure_future(self.accept(self.listening, context)), asyncio.ensure_future(self.sweep())]

    async def accept(self, listening: socket.socket, context: Optional[ssl.SSLContext]) -> None:
        """Takes connections. Where too many haven't agreed on TLS, the oldest of these goes."""
        loop = asyncio.get_running_loop()
        while True:
            try:
                line, _ = await loop.sock_accept(listening)
            except OSError as fault:
                self.report(fault)
                await asyncio.sleep(0.1)
                continue
            if len(self.shaking) >= SHAKING:
                next(iter(self.shaking)).cancel()
                self.site.note_refused("too many")
                await asyncio.sleep(0)
            task = asyncio.ensure_future(self.shake(line, context))
            self.shaking[task] = None
            task.add_done_callback(lambda done: self.shaking.pop(done, None))

    async def shake(self, line: socket.socket, context: Optional[ssl.SSLContext]) -> None:
        """Begins to serve a connection, once it has agreed on TLS if that is wanted."""
        with contextlib.suppress(OSError):
            await asyncio.get_running_loop().connect_accepted_socket(
                lambda: Connection(self), line, ssl=context, ssl_handshake_timeout=HEADS if context else None)

    def add(self, connection: Connection) -> None:
        """Takes a connection; where there are too many, the one that is idle longest goes, or else this one."""
        self.connections.add(connection)
        self.idle[connection] = None
        if len(self.connections) > self.most:
            gone = next(iter(self.idle))
            self.site.note_refused("too many")
            self.drop(gone)
            gone.is_closing = True
            gone.transport.abort()

    def is_full(self) -> bool:
        """Whether so much waits to be taken by clients that no more whole stores are answered."""
        waiting = (each.transport.get_write_buffer_size() for each in self.connections if each.is_full)
        return sum(waiting) > UNSENT

    def drop(self, connection: Connection) -> None:
        self.connections.discard(connection)
        self.idle.pop(connection, None)

    def admit(self, request: Request) -> Optional[Response]:
        if "transfer-encoding" in request.heads:
            return refusal(411, "a body needs Content-Length")
        if self.bodies + request.length > BODIES:
            return refusal(429, "too much is being read", "Retry-After: 1\r\n")
        return None

    async def sweep(self) -> None:
        """Closes what takes too long."""
        while True:
            await asyncio.sleep(1.0)
            now = time.monotonic()
            for connection in [each for each in self.connections if each.deadline < now]:
                connection.expire()

    async def stop(self) -> None:
        await cancelled([*self.tasks, *self.shaking])
        if self.listening:
            self.listening.close()
        for connection in [*self.connections]:
            connection.close()
