"""gRPC over one HTTP/2 connection of an event loop: calls with one request, answered once, or many times."""
import asyncio
import collections
import functools
import ssl
import struct
import time
from typing import Callable, Deque, Dict, List, Optional, Tuple
from urllib.parse import unquote

from . import hpack

# gRPC's codes that a replica tells apart.
INVALID, DEADLINE, DENIED, EXHAUSTED, FAILED, PASSED, UNAVAILABLE, UNAUTHENTICATED = 3, 4, 7, 8, 9, 11, 14, 16
# Kinds of frames, their flags, settings, and the error by which a call is taken back.
DATA, HEADERS, RESET, SETTINGS, PING, GOAWAY, WINDOW, CONTINUATION = 0, 1, 3, 4, 6, 7, 8, 9
END, ACK, END_HEADERS, PADDED, PRIORITY = 1, 1, 4, 8, 32
TABLE_SIZE, PUSH, WINDOW_SIZE, FRAME_SIZE = 1, 2, 4, 5
CANCEL = 8
PREFACE = b"PRI * HTTP/2.0\r\n\r\nSM\r\n\r\n"
# Bytes: of a frame that is sent, of one that is taken at most, of a window at first, of ours, and the part of it that is given back at
# once; and of an answer.
SENT, TAKEN, FIRST, ROOM, PART, MOST = 1 << 14, 1 << 20, 65535, 1 << 24, 1 << 20, 1 << 28
# Seconds without a byte after which the other side is asked whether it is there, and until it is taken for lost. etcd ends a
# connection that asks more often than each five seconds.
QUIET, LOST = 6.0, 12.0
# Seconds for which messages of a stream that nobody waits for are held back, so that they are taken together.
HELD = 0.01
# A connection's calls have odd numbers up to this one.
LAST = (1 << 31) - 1024


class Fault(Exception):
    """A member refused, with gRPC's code, or didn't answer (`UNAVAILABLE`, `DEADLINE`)."""

    def __init__(self, code: int, words: str) -> None:
        super().__init__(words)
        self.code = code


def frame(kind: int, flags: int, number: int, body: bytes = b"") -> bytes:
    return struct.pack(">HBBBI", len(body) >> 8, len(body) & 255, kind, flags, number) + body


def settings(**values: int) -> bytes:
    return b"".join(struct.pack(">HI", globals()[name], value) for name, value in values.items())


@functools.lru_cache(maxsize=64)
def heads_of(path: str, authority: str, is_secure: bool, token: Optional[str]) -> bytes:
    """The headers of a call."""
    heads = [(":method", "POST"), (":scheme", "https" if is_secure else "http"), (":path", path), (":authority", authority),
             ("te", "trailers"), ("content-type", "application/grpc")]
    return hpack.written([*heads, ("token", token)] if token else heads)


class Call:
    """A call under way. What was answered waits until somebody takes it."""

    def __init__(self, connection: "Connection", number: int) -> None:
        self.connection, self.number = connection, number
        self.unsent, self.window = b"", connection.first
        self.part = bytearray()
        self.messages: Deque[bytes] = collections.deque()
        # By what is known whether somebody waits for a message; none where all are taken at once. Whether there is one, and whether
        # what has come is held back.
        self.waits_for: Optional[Callable[[bytes], bool]] = None
        self.is_urgent = self.is_held = False
        self.fault: Optional[Fault] = None
        self.is_over = False
        # Bytes by which the other side's window has to grow.
        self.owed = 0
        self.waiter: "Optional[asyncio.Future[None]]" = None

    def wake(self) -> None:
        if self.waiter and not self.waiter.done():
            self.waiter.set_result(None)

    def came(self, message: bytes) -> None:
        """Keeps a message until it is taken."""
        self.messages.append(message)
        if self.waits_for and not self.is_urgent:
            self.is_urgent = self.waits_for(message)
        if self.is_urgent or not self.is_held:
            self.wake()

    def hurry(self) -> None:
        """Somebody waits for what is held back, or comes next."""
        self.is_urgent = True
        if self.messages:
            self.wake()

    def end(self, fault: Optional[Fault] = None) -> None:
        self.is_over, self.fault = True, fault
        self.connection.calls.pop(self.number, None)
        self.wake()

    def expire(self) -> None:
        """Takes the call back, since its time is over."""
        if not self.is_over:
            self.connection.write(frame(RESET, 0, self.number, struct.pack(">I", CANCEL)))
            self.end(Fault(DEADLINE, "no answer in time"))

    def cancel(self) -> None:
        """Takes the call back, if it is under way."""
        self.expire()

    def take(self, piece: bytes) -> None:
        """Takes a piece of messages."""
        if not self.part and len(piece) >= 5 and int.from_bytes(piece[1:5], "big") == len(piece) - 5 and not piece[0]:
            self.came(piece[5:])
            return
        self.part += piece
        while len(self.part) >= 5:
            size = int.from_bytes(self.part[1:5], "big")
            if self.part[0] or size > MOST:
                raise ValueError("a message is compressed, or too long")
            if len(self.part) < 5 + size:
                return
            message = bytes(self.part[5:5 + size])
            del self.part[:5 + size]
            self.came(message)

    def grow(self, size: int) -> None:
        """Lets the other side send so much more, at a time when nothing waits to be taken."""
        self.owed += size
        if self.owed >= PART and not self.messages and not self.is_over:
            self.connection.write(frame(WINDOW, 0, self.number, struct.pack(">I", self.owed)))
            self.owed = 0

    async def next(self) -> Optional[bytes]:
        """The next message; none where the call has ended. Raises Fault."""
        while not self.messages and not self.is_over:
            self.waiter = self.connection.loop.create_future()
            await self.waiter
        if self.messages:
            message = self.messages.popleft()
            self.grow(0)
            return message
        if self.fault:
            raise self.fault
        return None

    async def wait(self, seconds: float) -> None:
        """Waits to be woken, or so long."""
        self.waiter = self.connection.loop.create_future()
        timer = self.connection.loop.call_later(seconds, self.wake)
        try:
            await self.waiter
        finally:
            timer.cancel()

    async def all(self, silence: float) -> Optional[List[bytes]]:
        """All messages that have come, as soon as there is one, or a little later where nobody waits for it; none of them after so
        many seconds of silence. Nothing where the call has ended. Raises Fault."""
        if not self.messages and not self.is_over:
            await self.wait(silence)
        if self.messages and self.waits_for and not self.is_urgent and not self.is_over:
            self.is_held = True
            await self.wait(HELD)
            self.is_held = False
        self.is_urgent = False
        if self.messages or not self.is_over:
            found = [*self.messages]
            self.messages.clear()
            self.grow(0)
            return found
        if self.fault:
            raise self.fault
        return None


class Connection(asyncio.Protocol):
    """A connection to a member. Where it ends, its calls end by a Fault."""

    def __init__(self, authority: str, is_secure: bool) -> None:
        self.authority, self.is_secure = authority, is_secure
        self.loop = asyncio.get_running_loop()
        self.calls: Dict[int, Call] = {}
        self.buffer = bytearray()
        self.number, self.is_usable = 1, True
        # The other side's window for all calls, and for one at first; the bytes by which its own has to grow.
        self.window, self.first, self.owed = FIRST, FIRST, 0
        # Headers that come in several frames: the flags of the first, and what is there.
        self.block: Tuple[int, bytearray] = 0, bytearray()
        self.heard = self.asked = time.monotonic()
        # What is written with the next frame, or by `look`.
        self.late = b""

    def connection_made(self, transport: asyncio.BaseTransport) -> None:
        assert isinstance(transport, asyncio.Transport)
        self.transport = transport
        mine = settings(TABLE_SIZE=0, PUSH=0, WINDOW_SIZE=ROOM, FRAME_SIZE=TAKEN)
        self.write(PREFACE + frame(SETTINGS, 0, 0, mine) + frame(WINDOW, 0, 0, struct.pack(">I", (1 << 31) - 1 - FIRST)))
        self.timer = self.loop.call_later(QUIET / 4, self.look)

    def look(self) -> None:
        """Asks a member that has been silent whether it is there, and gives it up where it doesn't answer."""
        now = time.monotonic()
        if self.calls and now - self.heard > LOST:
            self.lose("it is silent")
            return
        if self.calls and now - max(self.heard, self.asked) > QUIET:
            self.asked = now
            self.write(frame(PING, 0, 0, bytes(8)))
        if not self.calls:
            self.heard = now
        if self.late:
            self.write(b"")
        self.timer = self.loop.call_later(QUIET / 4, self.look)

    def write(self, text: bytes) -> None:
        if self.late:
            text, self.late = self.late + text, b""
        self.transport.write(text)

    def connection_lost(self, fault: Optional[Exception]) -> None:
        self.timer.cancel()
        self.fail(str(fault or "the connection ended"))

    def lose(self, words: str) -> None:
        self.transport.abort()
        self.timer.cancel()
        self.fail(words)

    def close(self) -> None:
        self.transport.close()
        self.timer.cancel()
        self.fail("the connection is closed")

    def fail(self, words: str, behind: int = 0) -> None:
        """Ends all calls with greater numbers."""
        self.is_usable = False
        for call in [call for number, call in self.calls.items() if number > behind]:
            call.end(Fault(UNAVAILABLE, words))

    # Asking.

    def call(self, path: str, message: bytes, token: Optional[str], ends: bool) -> Call:
        """Sends a call's request, which is all of it if `ends`."""
        call = self.calls[self.number] = Call(self, self.number)
        self.number += 2
        self.is_usable = self.is_usable and self.number < LAST
        text = b"\0" + len(message).to_bytes(4, "big") + message
        heads = frame(HEADERS, END_HEADERS, call.number, heads_of(path, self.authority, self.is_secure, token))
        if len(text) <= min(SENT, self.window, call.window):
            self.window -= len(text)
            call.window -= len(text)
            self.write(heads + frame(DATA, END if ends else 0, call.number, text))
        else:
            assert ends, "a stream's request is short"
            self.write(heads)
            call.unsent = text
            self.pump()
        return call

    def pump(self) -> None:
        """Sends what the windows allow of requests that wait."""
        for call in [*self.calls.values()]:
            while call.unsent and min(self.window, call.window) > 0:
                part = call.unsent[:min(SENT, self.window, call.window)]
                call.unsent = call.unsent[len(part):]
                self.window -= len(part)
                call.window -= len(part)
                self.write(frame(DATA, 0 if call.unsent else END, call.number, part))

    async def ask(self, path: str, message: bytes, token: Optional[str], wait: float, ends: bool = True) -> bytes:
        """The first answer to a request. Raises Fault."""
        call = self.call(path, message, token, ends)
        timer = self.loop.call_later(wait, call.expire)
        try:
            said = await call.next()
            while ends and not call.is_over:
                # Its end says whether it counts.
                await call.next()
            if call.fault:
                raise call.fault
            if said is None:
                raise Fault(UNAVAILABLE, "the call ended without an answer")
            return said
        finally:
            timer.cancel()
            call.cancel()

    # What comes.

    def data_received(self, data: bytes) -> None:
        self.heard = time.monotonic()
        self.buffer += data
        at, held = 0, self.buffer
        try:
            while len(held) - at >= 9:
                size = held[at] << 16 | held[at + 1] << 8 | held[at + 2]
                if size > TAKEN:
                    raise ValueError("a frame is too long")
                if len(held) - at - 9 < size:
                    break
                kind, flags = held[at + 3], held[at + 4]
                number = int.from_bytes(held[at + 5:at + 9], "big") & 0x7fffffff
                self.come(kind, flags, number, bytes(held[at + 9:at + 9 + size]))
                at += 9 + size
        except (ValueError, IndexError, struct.error) as fault:
            self.lose(f"it doesn't speak gRPC: {fault}")
            return
        del held[:at]

    def come(self, kind: int, flags: int, number: int, body: bytes) -> None:
        """Takes a frame. One of a kind that isn't known, or of a call that has ended, is passed over."""
        if kind == DATA:
            self.come_data(flags, number, body)
        elif kind in (HEADERS, CONTINUATION):
            self.come_headers(kind, flags, number, body)
        elif kind == SETTINGS and not flags & ACK:
            self.come_settings(body)
        elif kind == PING and not flags & ACK:
            # A member asks with each request, to measure the line: the answer goes with what is written next.
            self.late += frame(PING, ACK, 0, body)
        elif kind == WINDOW:
            size = int.from_bytes(body, "big") & 0x7fffffff
            if number == 0:
                self.window += size
            elif number in self.calls:
                self.calls[number].window += size
            self.pump()
        elif kind == RESET and number in self.calls:
            self.calls[number].end(Fault(UNAVAILABLE, f"the call was reset: {int.from_bytes(body, 'big')}"))
        elif kind == GOAWAY:
            self.fail(f"the member ends the connection: {body[8:].decode(errors='replace')}", int.from_bytes(body[:4], "big") & 0x7fffffff)

    def come_settings(self, body: bytes) -> None:
        for name, value in struct.iter_unpack(">HI", body):
            if name == WINDOW_SIZE:
                for call in self.calls.values():
                    call.window += value - self.first
                self.first = value
        self.write(frame(SETTINGS, ACK, 0))
        self.pump()

    def come_data(self, flags: int, number: int, body: bytes) -> None:
        self.owed += len(body)
        if self.owed >= PART:
            self.write(frame(WINDOW, 0, 0, struct.pack(">I", self.owed)))
            self.owed = 0
        call = self.calls.get(number)
        if call:
            # What comes while nothing waits to be taken may be followed by as much.
            call.grow(len(body))
            call.take(unpadded(flags, body))
            if flags & END:
                call.end(Fault(UNAVAILABLE, "the call ended without a status"))

    def come_headers(self, kind: int, flags: int, number: int, body: bytes) -> None:
        if kind == HEADERS:
            text = unpadded(flags, body)
            self.block = flags, bytearray(text[5:] if flags & PRIORITY else text)
        else:
            self.block[1].extend(body)
        if len(self.block[1]) > TAKEN:
            raise ValueError("headers are too long")
        if not flags & END_HEADERS:
            return
        call, heads = self.calls.get(number), hpack.read(bytes(self.block[1]))
        if call and (self.block[0] & END or heads.get(":status", "200") != "200"):
            status = heads.get("grpc-status", "")
            words = unquote(heads.get("grpc-message", ""))
            code = int(status) if status.isdigit() else UNAVAILABLE
            call.end(Fault(code, words or f"status {heads.get(':status')}") if code else None)


def unpadded(flags: int, body: bytes) -> bytes:
    return body[1:len(body) - body[0]] if flags & PADDED else body


async def opened(host: str, port: int, context: Optional[ssl.SSLContext], wait: float) -> Connection:
    """A connection to a member. Raises Fault."""
    if context:
        context.set_alpn_protocols(["h2"])
    loop = asyncio.get_running_loop()
    authority = f"[{host}]:{port}" if ":" in host else f"{host}:{port}"
    try:
        _, made = await asyncio.wait_for(loop.create_connection(lambda: Connection(authority, context is not None), host, port, ssl=context), wait)
        return made
    except asyncio.TimeoutError:
        raise Fault(UNAVAILABLE, "no connection in time") from None
    except OSError as fault:
        raise Fault(UNAVAILABLE, f"{type(fault).__name__}: {fault}") from None


__all__: List[str] = ["Call", "Connection", "Fault", "opened"]
