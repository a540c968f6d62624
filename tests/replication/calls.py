"""Tests gRPC's client against a member that answers by a script, byte by byte where that matters."""
from __future__ import annotations

import asyncio
import struct
from collections.abc import Awaitable, Callable
from typing import Any

from bohm_replica import grpc, hpack

# Words and their codes, from RFC 7541, appendix C.
WORDS = [("f1e3c2e5f23a6ba0ab90f4ff", "www.example.com"), ("a8eb10649cbf", "no-cache"), ("25a849e95ba97d7f", "custom-key"),
         ("25a849e95bb8e8b4bf", "custom-value"), ("6402", "302"), ("aec3771a4b", "private"),
         ("d07abe941054d444a8200595040b8166e082a62d1bff", "Mon, 21 Oct 2013 20:13:21 GMT"),
         ("94e7821dd7f2e6c7b335dfdfcd5b3960d5af27087f3672c1ab270fb5291f9587316065c003ed4ee5b1063d5007",
          "foo=ASDJKHQKBZXOQWEOPIUAXQWEOIU; max-age=3600; version=1")]
# A block of C.4.1, with names and values of which the table keeps nothing here, and a change of the table's size before it.
BLOCK = bytes.fromhex("20" "828684418cf1e3c2e5f23a6ba0ab90f4ff")
HEADS = {":method": "GET", ":scheme": "http", ":path": "/", ":authority": "www.example.com"}


def check_headers() -> None:
    for code, word in WORDS:
        assert hpack.characters(bytes.fromhex(code)) == word, word
    assert hpack.read(BLOCK) == HEADS, hpack.read(BLOCK)
    for value in (0, 9, 30, 31, 32, 127, 128, 1337, 100_000):
        assert hpack.read_number(hpack.number(value, 5, 64) + b"x", 0, 5)[0] == value, value
    assert hpack.number(1337, 5) == bytes([31, 154, 10])
    heads = [("a" * 200, "b" * 300), ("token", "x")]
    assert hpack.read(hpack.written(heads)) == dict(heads)
    for wrong in (b"\xff" + b"\xff" * 9, b"\x00\x05ab", b"\x80", b"\xbf", b"\x00\x81\x00\x00", b"\x00"):
        try:
            hpack.read(wrong)
            raise AssertionError(wrong)
        except (ValueError, IndexError):
            pass


def message(text: bytes) -> bytes:
    return b"\0" + struct.pack(">I", len(text)) + text


def status(code: int, words: str = "") -> bytes:
    return hpack.written([("grpc-status", str(code)), ("grpc-message", words)])


BEGUN = hpack.written([(":status", "200"), ("content-type", "application/grpc")])


class Member:
    """A member that keeps the frames that came, and sends what the script says."""

    def __init__(self, script: Callable[[Member], Awaitable[None]]) -> None:
        self.script = script
        self.fault: BaseException | None = None

    async def start(self) -> int:
        self.server = await asyncio.start_server(self.serve, "127.0.0.1", 0)
        return int(self.server.sockets[0].getsockname()[1])

    async def serve(self, reader: asyncio.StreamReader, writer: asyncio.StreamWriter) -> None:
        self.reader, self.writer = reader, writer
        try:
            assert await reader.readexactly(len(grpc.PREFACE)) == grpc.PREFACE
            await self.script(self)
        except BaseException as fault:
            self.fault = fault
        writer.close()

    async def frame(self, *kinds: int) -> tuple[int, int, int, bytes]:
        """The next frame of these kinds."""
        while True:
            head = await self.reader.readexactly(9)
            body = await self.reader.readexactly(int.from_bytes(head[:3], "big"))
            if head[3] in kinds:
                return head[3], head[4], int.from_bytes(head[5:], "big"), body

    async def request(self) -> tuple[int, dict[str, str], bytes]:
        """A call's number, headers, and request."""
        _, _, number, block = await self.frame(grpc.HEADERS)
        said, flags = b"", 0
        while not flags & grpc.END:
            _, flags, _, body = await self.frame(grpc.DATA)
            said += body
        return number, hpack.read(block), said

    def send(self, kind: int, flags: int, number: int, body: bytes = b"") -> None:
        self.writer.write(grpc.frame(kind, flags, number, body))

    def answer(self, number: int, text: bytes, code: int = 0, words: str = "") -> None:
        self.send(grpc.HEADERS, grpc.END_HEADERS, number, BEGUN)
        self.send(grpc.DATA, 0, number, message(text))
        self.send(grpc.HEADERS, grpc.END_HEADERS | grpc.END, number, status(code, words))


async def plain(member: Member) -> None:
    """Two calls that are answered in the other order; an answer in pieces of one byte, with padding, and a block in two frames."""
    first, heads, said = await member.request()
    assert (heads[":path"], heads["token"], said) == ("/a", "secret", message(b"one")), (heads, said)
    second, _, said = await member.request()
    assert said == message(b"two") and second == first + 2
    member.answer(second, b"2")
    member.send(grpc.HEADERS, grpc.END_HEADERS, first, BEGUN)
    text = message(b"answer")
    frames = b"".join(grpc.frame(grpc.DATA, grpc.PADDED, first, b"\x02" + text[at:at + 1] + b"xx") for at in range(len(text)))
    block = status(0)
    frames += grpc.frame(grpc.HEADERS, grpc.END, first, block[:5]) + grpc.frame(grpc.CONTINUATION, grpc.END_HEADERS, first, block[5:])
    for byte in frames:
        member.writer.write(bytes([byte]))
        await member.writer.drain()
    member.send(grpc.PING, 0, 0, b"12345678")
    await member.request()
    assert (await member.frame(grpc.PING))[3] == b"12345678"


async def narrow(member: Member) -> None:
    """A request that is longer than the windows comes as they grow; a refusal has its words."""
    _, _, number, _ = await member.frame(grpc.HEADERS)
    said = b""
    for size in (grpc.FIRST, 5, 100_000 - grpc.FIRST):
        while len(said) < min(size + len(said), 100_005) and size:
            _, flags, _, body = await member.frame(grpc.DATA)
            said, size = said + body, size - len(body)
        assert size == 0, size
        member.send(grpc.WINDOW, 0, 0, struct.pack(">I", 5 if len(said) == grpc.FIRST else 100_000))
        member.send(grpc.WINDOW, 0, number, struct.pack(">I", 5 if len(said) == grpc.FIRST else 100_000 - grpc.FIRST))
    assert flags & grpc.END and said == message(b"x" * 100_000), len(said)
    member.send(grpc.HEADERS, grpc.END_HEADERS | grpc.END, number, status(11, "mvcc%3A compacted"))


async def leaves(member: Member) -> None:
    """The member ends the connection: a call that it took is answered, and one that it didn't take is not."""
    first, _, _ = await member.request()
    await member.request()
    member.send(grpc.GOAWAY, 0, 0, struct.pack(">II", first, 0) + b"bye")
    member.answer(first, b"1")
    await member.frame(99)


async def babbles(member: Member) -> None:
    await member.request()
    member.writer.write(b"HTTP/1.1 400 Bad Request\r\n\r\n" * 10)
    await member.frame(99)


async def is_silent(member: Member) -> None:
    number, _, _ = await member.request()
    _, _, back, body = await member.frame(grpc.RESET)
    assert back == number and body == struct.pack(">I", grpc.CANCEL)
    await member.frame(99)


async def streams(member: Member) -> None:
    """A stream's messages come as they are taken, several in a frame."""
    _, _, number, _ = await member.frame(grpc.HEADERS)
    member.send(grpc.HEADERS, grpc.END_HEADERS, number, BEGUN)
    member.send(grpc.DATA, 0, number, message(b"1") + message(b"2") + message(b"")[:3])
    member.send(grpc.DATA, 0, number, message(b"")[3:])
    large = message(b"y" * (3 << 20))
    for at in range(0, len(large), 1 << 14):
        member.send(grpc.DATA, 0, number, large[at:at + (1 << 14)])
    grown = 0
    while grown < 2 << 20:
        _, _, of, body = await member.frame(grpc.WINDOW)
        grown += int.from_bytes(body, "big") if of == number else 0
    member.send(grpc.RESET, 0, number, struct.pack(">I", 2))
    await member.frame(99)


async def holds(member: Member) -> None:
    """A stream's messages, of which some are waited for."""
    _, _, number, _ = await member.frame(grpc.HEADERS)
    member.send(grpc.HEADERS, grpc.END_HEADERS, number, BEGUN)
    for text in (b"1", b"2", b"own 3"):
        member.send(grpc.DATA, 0, number, message(text))
        await member.writer.drain()
        await asyncio.sleep(0.01)
    await member.frame(grpc.PING)
    member.send(grpc.DATA, 0, number, message(b"4"))
    await member.frame(grpc.PING)
    member.send(grpc.DATA, 0, number, message(b"5"))
    await member.frame(grpc.PING)
    member.send(grpc.DATA, 0, number, message(b"6"))
    await member.frame(grpc.PING)
    member.send(grpc.HEADERS, grpc.END_HEADERS | grpc.END, number, status(0))
    await member.frame(99)


async def check_held() -> None:
    """What nobody waits for is taken with what somebody waits for, or once somebody does, or when its time is over, or the call."""
    member, held = Member(holds), grpc.HELD
    line = await grpc.opened("127.0.0.1", await member.start(), None, 5.0)

    def go_on() -> None:
        line.write(grpc.frame(grpc.PING, 0, 0, bytes(8)))

    grpc.HELD = 1000.0
    try:
        call = line.call("/w", b"", None, False)
        call.waits_for = lambda said: said.startswith(b"own")
        assert await call.all(5.0) == [b"1", b"2", b"own 3"]
        waiting = asyncio.ensure_future(call.all(5.0))
        go_on()
        while not call.is_held:
            await asyncio.sleep(0.001)
        call.hurry()
        assert await waiting == [b"4"]
        assert await call.all(0.001) == []
        # What is waited for before it comes isn't held back, and nothing is taken until then.
        waiting = asyncio.ensure_future(call.all(5.0))
        await asyncio.sleep(0)
        call.hurry()
        await asyncio.sleep(0.01)
        assert not waiting.done()
        go_on()
        assert await waiting == [b"5"]
        grpc.HELD = 0.001
        go_on()
        assert await call.all(5.0) == [b"6"]
        go_on()
        assert await call.all(5.0) is None
    finally:
        grpc.HELD = held
    line.close()
    member.server.close()


async def faulted(act: Awaitable[Any]) -> tuple[int, str]:
    try:
        await act
    except grpc.Fault as fault:
        return fault.code, str(fault)
    raise AssertionError("no fault")


async def check_calls() -> None:
    async def connected(script: Callable[[Member], Awaitable[None]]) -> tuple[Member, grpc.Connection]:
        member = Member(script)
        return member, await grpc.opened("127.0.0.1", await member.start(), None, 5.0)

    async def ended(member: Member, line: grpc.Connection) -> None:
        line.close()
        await asyncio.sleep(0.01)
        member.server.close()
        assert member.fault is None or isinstance(member.fault, asyncio.IncompleteReadError), repr(member.fault)

    member, line = await connected(plain)
    assert await asyncio.gather(line.ask("/a", b"one", "secret", 5.0), line.ask("/b", b"two", None, 5.0)) == [b"answer", b"2"]
    assert (await faulted(line.ask("/c", b"", None, 0.2)))[0] in (grpc.DEADLINE, grpc.UNAVAILABLE)
    await ended(member, line)
    member, line = await connected(narrow)
    assert await faulted(line.ask("/a", b"x" * 100_000, None, 5.0)) == (grpc.PASSED, "mvcc: compacted")
    await ended(member, line)
    member, line = await connected(leaves)
    first, second = asyncio.ensure_future(line.ask("/a", b"", None, 5.0)), asyncio.ensure_future(line.ask("/b", b"", None, 5.0))
    code, words = await faulted(second)
    assert code == grpc.UNAVAILABLE and "bye" in words and await first == b"1" and not line.is_usable
    await ended(member, line)
    member, line = await connected(babbles)
    code, words = await faulted(line.ask("/a", b"", None, 5.0))
    assert code == grpc.UNAVAILABLE and "doesn't speak gRPC" in words, words
    await ended(member, line)
    member, line = await connected(is_silent)
    assert (await faulted(line.ask("/a", b"", None, 0.1)))[0] == grpc.DEADLINE and not line.calls
    await ended(member, line)
    member, line = await connected(streams)
    call = line.call("/w", b"", None, False)
    assert [await call.next() for _ in range(4)] == [b"1", b"2", b"", b"y" * (3 << 20)]
    assert (await faulted(call.next()))[0] == grpc.UNAVAILABLE
    await ended(member, line)
    assert (await faulted(grpc.opened("127.0.0.1", 1, None, 5.0)))[0] == grpc.UNAVAILABLE
    await check_held()


def check_grpc() -> str:
    check_headers()
    asyncio.run(asyncio.wait_for(check_calls(), 60))
    return f"gRPC: headers of {len(WORDS) + 1} blocks, 7 members by scripts"
