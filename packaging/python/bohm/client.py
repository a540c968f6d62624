"""A client of replicas: it sends entries with ids, again and to another replica until there is an answer."""
import http.client
import json
import random
import secrets
import ssl
import textwrap
import threading
import time
from typing import Any, Dict, Iterable, List, NamedTuple, Optional, Sequence, Tuple, Union
from urllib.parse import urlsplit

from .entries import ID, LONGEST, Refused, read, text_of
from .errors import FutureError, RefusedError, TrimmedError
from .ledger_state import Answer, Defined, answer_of
from .library import Text
from .replies import Reply

# Seconds: that one replica may take to answer, from one try to the next at least and at most, and for all tries.
ANSWER, LEAST, LONGEST_PAUSE, PATIENCE = 15.0, 0.02, 2.0, 60.0
# Statuses by which a replica says that another one, or a later try, may succeed.
LATER = (408, 429, 500, 502, 503, 504, 507)
# The most entries and bytes of one request.
MOST, LARGEST = 4096, 1 << 20


class UnavailableError(Exception):
    """No replica answered in time. An entry may have run, and sent again with its id it is answered, and runs once."""


class DeniedError(Exception):
    """The replica doesn't let this client do it."""


class Read(NamedTuple):
    """What was read, and the sequence number of the transaction behind which it was."""

    sequence: int
    value: Any


class Client:
    """Replicas of one log, by their addresses: `HOST:PORT`, or a URL.

        client = bohm.Client(["r1:7000", "r2:7000", "r3:7000"])
        client.define("transfer", text)
        reply = client.call("transfer", "alice", "bob", 30, id="r17")
        print(reply, client.get("bob"))

    Every entry is sent with an id, one that is drawn where none is given, and so runs once, however often it is sent. Any
    thread may call."""

    def __init__(self, addresses: Sequence[str], *, token: Optional[str] = None, authority: Optional[str] = None,
                 certificate: Optional[Tuple[str, str]] = None, patience: float = PATIENCE) -> None:
        """`authority` is a file of PEM by which certificates of replicas are checked, the system's authorities otherwise;
        `certificate` names the files of this client's own and of its key; `patience` is in seconds."""
        if not addresses:
            raise ValueError("a client needs an address")
        self._sites = [site_of(address) for address in addresses]
        self._heads = {"Content-Type": "text/plain; charset=utf-8", **({"Authorization": f"Bearer {token}"} if token else {})}
        self._patience = patience
        self._context: Optional[ssl.SSLContext] = None
        if any(scheme == "https" for scheme, _ in self._sites):
            self._context = ssl.create_default_context(cafile=authority)
            if certificate:
                self._context.load_cert_chain(*certificate)
        self._own = threading.local()
        # The replica that is asked first: the one that answered last.
        self._at = random.randrange(len(self._sites))

    # Entries.

    def call(self, name_: str, *arguments: Union[str, int], id: Optional[str] = None) -> Reply:
        """Calls a procedure, with its arguments in the order of its parameters, keys first. Raises RefusedError."""
        return reply_to(self._one("/call", " ".join(["call", name_, *map(str, arguments)]), id))

    def transaction(self, text: Text, id: Optional[str] = None) -> Reply:
        """Runs a transaction: the lines from `txn` to `end`. Raises RefusedError."""
        return reply_to(self._one("/transaction", text_of(text), id))

    def define(self, name: str, text: Text, id: Optional[str] = None) -> Defined:
        """From now on the name means the procedure of a text, which may be indented. Raises RefusedError."""
        lines = textwrap.dedent(text_of(text)).strip("\n")
        answer = accepted(self._one("/define", f"define {name}\n{lines}", id))
        assert isinstance(answer, Defined)
        return answer

    def batch(self, entries: Iterable[Text]) -> List[Answer]:
        """Sends entries, which are put together as long as they fit, and returns the answer to each: a Reply, a Defined, or a
        Refused."""
        answers: List[Answer] = []
        for group in grouped([with_id(text_of(entry), None) for entry in entries]):
            text = self._ask("POST", "/batch", "".join(group).encode("latin-1")).decode()
            answers += [answer_in(line) for line in text.splitlines()]
        return answers

    def answer_to(self, id: str) -> Optional[Answer]:
        """The answer to the entry with an id, as far as the replica that is asked has run it; or none."""
        status, text = self._asked("GET", f"/answer/{id}", b"")
        return answer_in(text.decode().strip()) if status == 200 else None

    def _one(self, path: str, text: str, id: Optional[str]) -> Answer:
        return answer_in(self._ask("POST", path, with_id(text_of(text), id).encode("latin-1")).decode().strip())

    # Reads.

    def read(self, key: str, *, at: Optional[int] = None, fresh: bool = True) -> Read:
        """A key's value and the sequence number that it is of: `fresh`, after all that was acknowledged before; else as the
        replica has it; or after the transaction with the number `at`. Raises TrimmedError, FutureError."""
        found = self._json(f"/value/{key}", at, fresh)
        return Read(found["sequence"], found["value"])

    def get(self, key: str, default: Optional[int] = None, *, at: Optional[int] = None, fresh: bool = True) -> Optional[int]:
        """A key's value, or `default` if it has none."""
        value = self.read(key, at=at, fresh=fresh).value
        return default if value is None else int(value)

    def store(self, *, at: Optional[int] = None, fresh: bool = True) -> Dict[str, int]:
        """Each key's value."""
        return dict(self._json("/store", at, fresh)["store"])

    def _json(self, path: str, at: Optional[int], fresh: bool) -> Dict[str, Any]:
        query = f"?at={at}" if at is not None else "?fresh=1" if fresh else ""
        status, text = self._asked("GET", path + query, b"", (503,) if at is not None else ())
        if status == 410:
            raise TrimmedError(text.decode().strip())
        if status == 503:
            raise FutureError(text.decode().strip())
        if status != 200:
            raise RefusedError(text.decode().strip())
        found: Dict[str, Any] = json.loads(text)
        return found

    # Asking.

    def _ask(self, method: str, path: str, body: bytes) -> bytes:
        return self._asked(method, path, body)[1]

    def _asked(self, method: str, path: str, body: bytes, final: Tuple[int, ...] = ()) -> Tuple[int, bytes]:
        """The first answer that isn't one to try again, from one replica after another."""
        end, pause = time.monotonic() + self._patience, LEAST
        at, said = self._at, ""
        while True:
            wait = 0.0
            try:
                status, text, wait = self._tried(at, method, path, body)
                if status not in LATER or status in final:
                    self._at = at
                    return checked(status, text)
                said = f"{status} {text.decode(errors='replace').strip()}"
            except (OSError, http.client.HTTPException) as fault:
                said = f"{type(fault).__name__}: {fault}"
            at = (at + 1) % len(self._sites)
            if time.monotonic() > end:
                raise UnavailableError(f"no replica answers: the last said {said}")
            time.sleep(max(min(wait, LONGEST_PAUSE) * (at == self._at), random.uniform(LEAST, pause)))
            pause = min(LONGEST_PAUSE, 2 * pause)

    def _tried(self, at: int, method: str, path: str, body: bytes) -> Tuple[int, bytes, float]:
        """A replica's status, its text, and the seconds after which it wants to be asked again."""
        line = self._line(at)
        try:
            line.request(method, path, body or None, self._heads)
            answer = line.getresponse()
            text = answer.read()
        except (OSError, http.client.HTTPException):
            line.close()
            raise
        later = answer.getheader("Retry-After", "0")
        return answer.status, text, float(later) if later.isdigit() else 0.0

    def _line(self, at: int) -> http.client.HTTPConnection:
        """This thread's connection to a replica."""
        lines: Dict[int, http.client.HTTPConnection] = self._own.__dict__.setdefault("lines", {})
        if at not in lines:
            scheme, address = self._sites[at]
            lines[at] = (http.client.HTTPSConnection(address, timeout=ANSWER, context=self._context) if scheme == "https"
                         else http.client.HTTPConnection(address, timeout=ANSWER))
        return lines[at]

    def close(self) -> None:
        """Closes this thread's connections."""
        for line in self._own.__dict__.pop("lines", {}).values():
            line.close()

    def __enter__(self) -> "Client":
        return self

    def __exit__(self, *what: object) -> None:
        self.close()


def site_of(address: str) -> Tuple[str, str]:
    """The scheme, and HOST:PORT."""
    found = urlsplit(address if "://" in address else f"http://{address}")
    if found.scheme not in ("http", "https") or not found.netloc:
        raise ValueError(f"{address!r} is neither HOST:PORT nor a URL")
    return found.scheme, found.netloc


def with_id(text: str, id: Optional[str]) -> str:
    """An entry with an id: its own, the given one, or one that is drawn."""
    if id is not None and not ID.fullmatch(id):
        raise ValueError(f"an id has 1 to 64 bytes from ! to ~, and not {id!r}")
    if len(text) > LONGEST + 128:
        raise RefusedError("refused: large")
    own, entry = read(text)
    if isinstance(entry, Refused):
        raise RefusedError(entry.line)
    if own is not None:
        return text
    word = "txn" if text.startswith("txn") else text[:text.index(" ")]
    return f"{word} #{id or drawn_id()}{text[len(word):]}"


def drawn_id() -> str:
    """An id that nobody else draws. Such ids rise with time: a ledger's file then has them side by side, which takes a tenth of the
    writing."""
    return f"{time.time_ns() // 1_000_000:012x}{secrets.token_hex(8)}"


def grouped(texts: Sequence[str]) -> Iterable[List[str]]:
    """Entries in groups that fit one request."""
    group: List[str] = []
    size = 0
    for text in texts:
        if group and (len(group) == MOST or size + len(text) > LARGEST):
            yield group
            group, size = [], 0
        group.append(text)
        size += len(text)
    if group:
        yield group


def checked(status: int, text: bytes) -> Tuple[int, bytes]:
    if status in (401, 403):
        raise DeniedError(text.decode(errors="replace").strip())
    return status, text


def answer_in(line: str) -> Answer:
    """The answer that a line is. Raises RefusedError if it is none."""
    if line.startswith("refused: "):
        return Refused(line)
    if line.startswith("defined ") or line[:1].isdigit():
        return answer_of(line)
    raise RefusedError(line)


def accepted(answer: Answer) -> Union[Reply, Defined]:
    if isinstance(answer, Refused):
        raise RefusedError(answer.line)
    return answer


def reply_to(answer: Answer) -> Reply:
    found = accepted(answer)
    assert isinstance(found, Reply)
    return found
