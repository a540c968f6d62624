"""The two ways to a member of etcd: gRPC, or the gateway's JSON over HTTP/1.1."""
import asyncio
import json
import ssl
from typing import Any, AsyncIterator, Callable, Dict, List, NamedTuple, Optional, Tuple

from . import grpc, http_client
from .grpc import DEADLINE, FAILED, UNAVAILABLE, Fault
from .messages import METHODS, Message, decoded, encoded, of_json, to_json
from .tasks import cancelled

# The most bytes of an answer.
MOST = grpc.MOST
# Seconds that a connection may take to be opened for a watch.
OPENING = 5.0
# Whether somebody waits for an answer of a watch, by its bytes.
WaitsFor = Callable[[bytes], bool]


class Tls(NamedTuple):
    """Files of PEM: of the authority, and, if etcd asks for one, of a certificate and its key."""

    authority: str
    certificate: Optional[str] = None
    key: Optional[str] = None

    def context(self) -> ssl.SSLContext:
        made = ssl.create_default_context(cafile=self.authority)
        if self.certificate:
            made.load_cert_chain(self.certificate, self.key)
        return made


class Grpc:
    """A member by gRPC, on one connection."""

    def __init__(self, member: str, tls: Optional[Tls]) -> None:
        self.host, self.port = address_of(member)
        self.context = tls.context() if tls else None
        self.connection: Optional[grpc.Connection] = None
        self.watching: Optional[grpc.Call] = None
        self.opening = asyncio.Lock()

    async def line(self, wait: float) -> grpc.Connection:
        """The connection, or a new one where it has ended, or takes no more calls."""
        found = self.connection
        if found and found.is_usable:
            return found
        async with self.opening:
            if not self.connection or not self.connection.is_usable:
                self.connection = await grpc.opened(self.host, self.port, self.context, wait)
            return self.connection

    async def call(self, name: str, message: Message, token: Optional[str], wait: float) -> Message:
        method = METHODS[name]
        line = await self.line(wait)
        said = await line.ask(method.path, encoded(method.request, message), token, wait, not method.is_stream)
        return read_answer(method.answer, said)

    async def watch(self, message: Message, token: Optional[str], silence: float,
                    waits_for: Optional[WaitsFor] = None) -> AsyncIterator[List[Message]]:
        """The answers of a watch, all that have come together; none of them after so many seconds of silence. Those that nobody
        waits for are held back some milliseconds. Raises Fault."""
        line = await self.line(OPENING)
        call = self.watching = line.call(METHODS["watch"].path, encoded("Watch", message), token, False)
        call.waits_for = waits_for
        try:
            while (said := await call.all(silence)) is not None:
                yield [read_answer("WatchAnswer", each) for each in said]
        finally:
            call.cancel()

    def hurry(self) -> None:
        """Somebody waits for what the watch holds back."""
        if self.watching:
            self.watching.hurry()

    async def close(self) -> None:
        if self.connection:
            self.connection.close()


def read_answer(kind: str, said: bytes) -> Message:
    try:
        return decoded(kind, said)
    except (ValueError, IndexError) as error:
        raise Fault(UNAVAILABLE, f"no answer of etcd: {error}") from None


class Gateway:
    """A member by the gateway's JSON."""

    def __init__(self, member: str, tls: Optional[Tls]) -> None:
        self.host, self.port = address_of(member)
        self.context = tls.context() if tls else None
        self.lines: list[http_client.Line] = []

    async def line(self) -> http_client.Line:
        return self.lines.pop() if self.lines else await http_client.opened(self.host, self.port, self.context)

    def heads(self, token: Optional[str]) -> Dict[str, str]:
        return {"Content-Type": "application/json", **({"Authorization": token} if token else {})}

    async def call(self, name: str, message: Message, token: Optional[str], wait: float) -> Message:
        try:
            return await asyncio.wait_for(self.asked(name, message, token), wait)
        except asyncio.TimeoutError:
            raise Fault(DEADLINE, "no answer in time") from None

    async def asked(self, name: str, message: Message, token: Optional[str]) -> Message:
        method = METHODS[name]
        try:
            line = await self.line()
            try:
                body = to_json(method.request, message)
                status, _, text = await line.ask("POST", method.gateway, self.heads(token), body, MOST)
            except BaseException:
                line.close()
                raise
            self.lines.append(line)
            if status != 200 and not text.startswith(b"{"):
                raise Fault(FAILED if status == 400 else UNAVAILABLE, text.decode(errors="replace").strip())
            said = json.loads(text.splitlines()[0] if method.is_stream else text)
            return of_json(method.answer, said["result"] if method.is_stream else said) if status == 200 else fail(said)
        except (OSError, EOFError, ValueError, KeyError, IndexError) as error:
            raise Fault(UNAVAILABLE, f"{type(error).__name__}: {error}") from None

    async def watch(self, message: Message, token: Optional[str], silence: float,
                    waits_for: Optional[WaitsFor] = None) -> AsyncIterator[List[Message]]:
        """As by gRPC, but that nothing is held back."""
        line = None
        waiting: "Optional[asyncio.Task[bytes]]" = None
        try:
            line = await http_client.opened(self.host, self.port, self.context)
            texts = line.lines("POST", METHODS["watch"].gateway, self.heads(token), to_json("Watch", message), MOST)
            while True:
                waiting = waiting or asyncio.ensure_future(following(texts))
                done, _ = await asyncio.wait({waiting}, timeout=silence)
                if not done:
                    yield []
                    continue
                text, waiting = waiting.result(), None
                if not text:
                    return
                said = json.loads(text)
                yield [of_json("WatchAnswer", said["result"]) if "result" in said else fail(said)]
        except (OSError, EOFError, ValueError, KeyError, IndexError) as error:
            raise Fault(UNAVAILABLE, f"{type(error).__name__}: {error}") from None
        finally:
            if waiting:
                await cancelled({waiting})
            if line:
                line.close()

    def hurry(self) -> None:
        """Nothing is held back."""

    async def close(self) -> None:
        for line in self.lines:
            line.close()
        self.lines = []


async def following(texts: AsyncIterator[bytes]) -> bytes:
    """The next text; an empty one behind the last."""
    try:
        return await texts.__anext__()
    except StopAsyncIteration:
        return b""


def fail(said: Any) -> Message:
    """Raises what the gateway says."""
    inner = said.get("error")
    if isinstance(inner, dict):
        raise Fault(int(inner.get("grpc_code", UNAVAILABLE)), str(inner.get("message")))
    raise Fault(int(said.get("code", UNAVAILABLE)), str(said.get("message", inner)))


def address_of(words: str) -> Tuple[str, int]:
    """HOST:PORT, or [HOST]:PORT."""
    host, _, port = words.rpartition(":")
    return host.strip("[]"), int(port)
