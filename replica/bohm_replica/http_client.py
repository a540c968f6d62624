"""HTTP/1.1 as a client, on asyncio's streams."""
import asyncio
import ssl
from typing import AsyncIterator, Dict, Optional, Tuple

# The most bytes of an answer's head, and of a line that says a chunk's size.
HEAD = 1 << 16


async def opened(host: str, port: int, context: Optional[ssl.SSLContext] = None) -> "Line":
    return Line(*await asyncio.open_connection(host, port, ssl=context, limit=HEAD), host)


class Line:
    """A connection, for one request after another. It raises OSError, EOFError or ValueError where the other side fails."""

    def __init__(self, reader: asyncio.StreamReader, writer: asyncio.StreamWriter, host: str) -> None:
        self.reader, self.writer, self.host = reader, writer, host

    def send(self, method: str, path: str, heads: Dict[str, str], body: bytes) -> None:
        lines = [f"{method} {path} HTTP/1.1", f"Host: {self.host}", f"Content-Length: {len(body)}",
                 *(f"{name}: {value}" for name, value in heads.items())]
        self.writer.write("\r\n".join(lines).encode("latin-1") + b"\r\n\r\n" + body)

    async def head(self) -> Tuple[int, Dict[str, str]]:
        try:
            text = await self.reader.readuntil(b"\r\n\r\n")
        except asyncio.LimitOverrunError as error:
            raise ValueError(str(error)) from None
        first, *lines = text.decode("latin-1").split("\r\n")[:-2]
        pairs = (line.partition(":") for line in lines)
        return int(first.split(" ")[1]), {name.lower(): value.strip() for name, _, value in pairs}

    async def pieces(self, heads: Dict[str, str], most: int) -> AsyncIterator[bytes]:
        """The body of an answer, as it comes."""
        if heads.get("transfer-encoding", "").lower() == "chunked":
            while size := int((await self.reader.readuntil(b"\n")).split(b";")[0], 16):
                if size > most:
                    raise ValueError("the answer is too long")
                yield await self.reader.readexactly(size)
                await self.reader.readexactly(2)
            await self.reader.readuntil(b"\n")
            return
        left = int(heads.get("content-length", "0"))
        if left > most:
            raise ValueError("the answer is too long")
        while left:
            piece = await self.reader.readexactly(min(left, 1 << 20))
            left -= len(piece)
            yield piece

    async def ask(self, method: str, path: str, heads: Dict[str, str], body: bytes,
                  most: int) -> Tuple[int, Dict[str, str], bytes]:
        """The status, the heads and the body of an answer of at most so many bytes."""
        self.send(method, path, heads, body)
        status, said = await self.head()
        found = []
        async for piece in self.pieces(said, most):
            found.append(piece)
            most -= len(piece)
        return status, said, b"".join(found)

    async def lines(self, method: str, path: str, heads: Dict[str, str], body: bytes, most: int) -> AsyncIterator[bytes]:
        """The lines of an answer, as they come."""
        self.send(method, path, heads, body)
        _, said = await self.head()
        rest = bytearray()
        async for piece in self.pieces(said, most):
            rest += piece
            *whole, last = rest.split(b"\n")
            for line in whole:
                yield bytes(line)
            rest = bytearray(last)
        if rest:
            yield bytes(rest)

    def close(self) -> None:
        self.writer.close()


def context_of(authority: Optional[str], certificate: Optional[Tuple[str, str]]) -> ssl.SSLContext:
    """TLS towards a server whose certificate an authority signed, with one's own certificate and key if there are any."""
    made = ssl.create_default_context(cafile=authority)
    if certificate:
        made.load_cert_chain(*certificate)
    return made
