"""What a replica answers to clients."""
import asyncio
import json
import re
import time
from collections import Counter
from typing import TYPE_CHECKING, Callable, Dict, List, Optional, Sequence, Tuple, Union
from urllib.parse import parse_qs

from . import batches, checkpoints, status
from .access import NEEDED, User
from .bohm_of import bohm
from .etcd import Behind, Refused, Rewound, TooLarge, Unreachable
from .handing import Place
from .http_server import JSON, TEXT, Connection, Given, Later, Request, Response, Site, refusal
from .log import Log
from .sequencer import Busy

if TYPE_CHECKING:
    from .replica import Replica

entries = bohm.entries
# The most bytes of a body: of one entry, and of a batch.
ONE, MANY = entries.LONGEST + 128, 1 << 22
KINDS = {"call": "call ", "define": "define ", "transaction": "txn"}
# What has several entries: of a client, or of another replica.
LONG = ("batch", "put")
GETS = ("value", "store", "digest", "answer", "status", "metrics", "checkpoint", "healthz", "readyz")
SEQUENCE = re.compile("[0-9]{1,19}")
# A sentence for who asked for another path.
PATHS = ("/value/KEY, /store, /digest (?at=N, ?fresh=1), /answer/ID, /status, /metrics, /healthz, /readyz; "
         "POST /call, /transaction, /define, /batch")
# Seconds after which a client that was refused for too much may try again.
LATER = "Retry-After: 1\r\n"
LATE = refusal(503, "no answer yet: the entry may run later, so send it again with its id", LATER)
# A call as `entries.read` takes it, with its last newline or without, and a line with its newline.
CALL = re.compile(f"call (?:#[!-~]{{1,64}} )?{entries.NAME}(?: [!-~]+)*\n?".encode())
LINE = re.compile("[^\n]*\n")


class Bad(Exception):
    """A request that can't be answered, and the status that says so."""

    def __init__(self, status: int, words: str, heads: str = "") -> None:
        super().__init__(words)
        self.status, self.heads = status, heads


class Waiting(Later):
    """Entries of a request, which wait for their answers."""

    __slots__ = ("door", "segment", "user", "texts", "size", "begun")

    def __init__(self, door: "Door", segment: str, user: Optional[User], texts: Sequence[str]) -> None:
        super().__init__(door.wait, LATE)
        self.door, self.segment, self.user, self.begun = door, segment, user, time.monotonic()
        self.texts = texts
        self.size = (len(texts[0]) if len(texts) == 1 else sum(map(len, texts))) + len(texts)

    def placed(self, place: Place) -> None:
        """The client waits for answers."""

    def take(self, revision: int, answers: Sequence[str], now: float) -> None:
        if self.user:
            self.door.release(self.user, len(self.texts))
        self.door.replica.figures.waits.add(now - self.begun)
        self.give(answered(self.segment, revision, answers))

    def fail(self, fault: Exception) -> None:
        if self.user:
            self.door.release(self.user, len(self.texts))
        self.give(failure(fault))


class Handed(Waiting):
    """Texts that another replica hands over. It is told where they are put, and runs them itself. Where they aren't put there after
    all, its connection is closed."""

    __slots__ = ("told",)

    def __init__(self, door: "Door", segment: str, user: Optional[User], texts: Sequence[str]) -> None:
        super().__init__(door, segment, user, texts)
        self.told: Optional[Connection] = None

    def placed(self, place: Place) -> None:
        if self.connection:
            self.told = self.connection
            self.give(Response(200, place.text()))
        elif self.told:
            self.told.close()

    def take(self, revision: int, answers: Sequence[str], now: float) -> None:
        if self.user:
            self.door.release(self.user, len(self.texts))

    def fail(self, fault: Exception) -> None:
        if self.user:
            self.door.release(self.user, len(self.texts))
        if self.told:
            self.told.close()
        else:
            # They weren't put.
            self.give(refusal(429, str(fault), LATER))


class Door(Site):
    """The door of a replica."""

    def __init__(self, replica: "Replica") -> None:
        self.replica = replica
        self.wait: float = replica.options.get("wait")
        self.whole = asyncio.Semaphore(2)
        # Entries of users that wait for an answer.
        self.waiting: Counter[str] = Counter()

    def note(self, segment: str, status: int) -> None:
        name = segment if segment in NEEDED or segment in ("healthz", "readyz") else "other"
        self.replica.figures.requests[name, status] += 1

    def note_refused(self, why: str) -> None:
        self.replica.figures.refused[why] += 1

    # By the head.

    def admit(self, request: Request) -> Optional[Response]:
        segment = request.segment
        is_post = segment in KINDS or segment in LONG
        if not is_post and segment not in GETS:
            return refusal(404, PATHS)
        if request.method not in (("POST",) if is_post else ("GET", "HEAD")):
            return refusal(405, "POST is needed" if is_post else "GET is needed")
        if refused := self.replica.access.refuses(request):
            return refused
        if not is_post:
            return refusal(413, "a read has no body") if request.length else None
        if "content-length" not in request.heads:
            return refusal(411, "a body needs Content-Length", closes=True)
        if request.length > (MANY if segment in LONG else ONE):
            return refusal(413, f"at most {MANY if segment in LONG else ONE} bytes")
        return None

    def admit_now(self, request: Request) -> Optional[Response]:
        if request.method != "POST":
            return None
        user = self.user_of(request)
        return self.is_full(request) or (self.exceeds(user, 1) if user else None)

    def user_of(self, request: Request) -> Optional[User]:
        """Who sends a request, if there are users."""
        return None if self.replica.access.is_open else self.replica.access.user_of(request)

    def exceeds(self, user: User, count: int) -> Optional[Response]:
        """Why so many more entries of a user aren't taken, if they aren't: one alone can't fill the queue that all share."""
        most, waiting = user.most or self.replica.options.get("user-entries"), self.waiting[user.name]
        if waiting + count <= most:
            return None
        if count > most:
            return refusal(413, f"at most {most} entries of {user.name} at once")
        return refusal(429, f"{waiting} entries of {user.name} wait", LATER)

    def is_full(self, request: Request) -> Optional[Response]:
        """Why nothing more is taken, if nothing is."""
        sequencer = self.replica.sequencer
        if request.segment == "put" and not (self.replica.leads and self.replica.takes):
            return refusal(429, "this replica doesn't put for others now", LATER)
        if not sequencer or not self.replica.takes:
            return refusal(503, self.replica.trouble or "this replica doesn't reach etcd", LATER)
        return refusal(429, "too much waits for etcd", LATER) if sequencer.is_full() else None

    # What is answered.

    def answer(self, request: Request, body: bytes, connection: Connection) -> Given:
        try:
            if request.segment in KINDS or request.segment in LONG:
                return self.post(request, body)
            return self.get(request, connection)
        except Bad as bad:
            return refusal(bad.status, str(bad), bad.heads)

    def post(self, request: Request, body: bytes) -> Given:
        # Much may have come, or gone, while the body came.
        full = self.is_full(request)
        if full:
            return full
        assert self.replica.sequencer
        texts = self.handed(body) if request.segment == "put" else self.texts_of(request, body)
        if isinstance(texts, Response):
            return texts
        user = self.user_of(request)
        refused = self.exceeds(user, len(texts)) if user else None
        if refused:
            return refused
        waiting = (Handed if request.segment == "put" else Waiting)(self, request.segment, user, texts)
        try:
            self.replica.sequencer.submit(waiting)
        except Busy as busy:
            return refusal(429, str(busy), LATER)
        if user:
            self.waiting[user.name] += len(texts)
        return waiting

    def release(self, user: User, count: int) -> None:
        self.waiting[user.name] -= count
        if not self.waiting[user.name]:
            del self.waiting[user.name]

    def handed(self, body: bytes) -> Union[List[str], Response]:
        """The texts that another replica hands over, or why they aren't taken."""
        texts = batches.texts_of(body, self.replica.position().rules)
        return refusal(429, "these aren't texts by the rules that are in force here") if texts is None else texts

    def texts_of(self, request: Request, body: bytes) -> Union[List[str], Response]:
        """The entries of a body, or why it is refused."""
        text = body.decode("latin-1")
        if not text.endswith("\n"):
            text += "\n"
        if request.segment == "call" and CALL.fullmatch(body):
            return [text]
        if "\0" in text:
            raise Bad(400, "an entry has no NUL")
        if request.segment == "batch":
            # Where each line is a call, each is an entry.
            are_calls = text.startswith("call ") and text.count("\ncall ") == text.count("\n") - 1
            texts = LINE.findall(text) if are_calls else [*entries.split(text)]
            if not 0 < len(texts) <= batches.MOST:
                raise Bad(413, f"a batch has 1 to {batches.MOST} entries")
            if not are_calls and not all(each.startswith("call ") for each in texts) and not self.replica.access.may(request, "define"):
                raise Bad(403, "only calls, without the role define")
            return texts
        # What is never accepted takes no place in the log.
        if not text.startswith(KINDS[request.segment]):
            return refusal(400, str(entries.SHAPE))
        found = entries.read(text)
        if isinstance(found[1], entries.Refused):
            return refusal(400, str(found[1]))
        return [text]

    # Reads.

    def get(self, request: Request, connection: Connection) -> Given:
        segment, _, rest = request.path[1:].partition("/")
        if segment in ("healthz", "readyz"):
            return self.health(segment)
        if segment == "status":
            return Response(200, text_of(status.of(self.replica)), JSON)
        if segment == "metrics":
            return Response(200, status.metrics(self.replica).encode(), "text/plain; version=0.0.4; charset=utf-8")
        if segment == "checkpoint":
            return checkpoints.given(self.replica, connection, self.whole)
        log = self.replica.log
        if not log or self.replica.is_stopped:
            raise Bad(503, self.replica.trouble or "there is nothing here yet", LATER)
        if segment == "answer":
            return self.answer_to(log, rest)
        return self.read(request, segment, rest)

    def health(self, segment: str) -> Response:
        trouble = self.replica.trouble if segment == "healthz" else self.replica.unready()
        if segment == "healthz" and not self.replica.is_stopped:
            trouble = None
        return refusal(503, trouble) if trouble else Response(200, b"ok\n")

    async def answer_to(self, log: Log, request: str) -> Response:
        """The answer to the entry with an id, looked up where it waits for no checkpoint of this loop."""
        found = await self.replica.work(log.ledger.answer_to, request) if entries.ID.fullmatch(request) else None
        return refusal(404, "no entry that has run here has this id") if found is None else Response(200, f"{found}\n".encode())

    def read(self, request: Request, segment: str, rest: str) -> Given:
        at, fresh = read_query(request.query)
        if (segment == "value") != bool(rest) or segment == "value" and not entries.KEY.fullmatch(rest):
            raise Bad(400, "/value/KEY needs a key, and nothing else has one")
        looks: "Dict[str, Callable[[bohm.Store], bytes]]" = {
            "value": lambda store: text_of({"sequence": store.sequence, "key": rest, "value": store.get(rest)}),
            "store": text_of_store,
            "digest": lambda store: text_of({"sequence": store.sequence, "digest": store.digest().hex()})}
        look = looks[segment]
        if segment == "store" and self.replica.server.is_full():
            raise Bad(429, "too many stores are being read", LATER)
        return self.read_fresh(look) if fresh else self.looked(at, look)

    def looked(self, at: Optional[int], look: "Callable[[bohm.Store], bytes]") -> Response:
        assert self.replica.log
        try:
            return Response(200, look(self.replica.log.ledger.at(at)), JSON)
        except bohm.TrimmedError:
            if at is None:
                return self.looked(at, look)
            raise Bad(410, f"the store before transaction {self.replica.log.floor} is no longer here") from None
        except bohm.FutureError:
            raise Bad(503, f"transaction {at} isn't here yet", LATER) from None

    async def read_fresh(self, look: "Callable[[bohm.Store], bytes]") -> Response:
        """A read after all that was acknowledged before it came."""
        try:
            await self.replica.fresh()
            return self.looked(None, look)
        except (asyncio.TimeoutError, Unreachable):
            return refusal(503, "etcd doesn't tell its last entry, or it isn't here yet", LATER)
        except (Rewound, Behind, Refused) as fault:
            return refusal(503, str(fault), LATER)
        except Bad as bad:
            return refusal(bad.status, str(bad), bad.heads)


def failure(fault: Exception) -> Response:
    """What is said where there are no answers."""
    if isinstance(fault, TooLarge):
        return refusal(413, f"etcd takes no entry of this size: send less at once ({fault})")
    if isinstance(fault, Refused):
        return refusal(507 if "space" in str(fault) else 503, f"etcd refused the entry: {fault}", LATER)
    return refusal(503, str(fault), LATER)


def answered(segment: str, revision: int, answers: Sequence[str]) -> Response:
    """The answer to entries that have run."""
    heads = f"Bohm-Revision: {revision}\r\n"
    if segment == "batch":
        return Response(200, "\n".join([*answers, ""]).encode(), TEXT, heads)
    answer = answers[0]
    status = 200 if not answer.startswith("refused") else 409 if answer == str(entries.TAKEN) else 400
    return Response(status, f"{answer}\n".encode(), TEXT, heads)


def text_of(found: object) -> bytes:
    return json.dumps(found).encode() + b"\n"


def text_of_store(store: "bohm.Store") -> bytes:
    """A store as JSON, which is made from its lines: it may have a million, and nothing else goes on meanwhile."""
    lines = store.text()[:-1]
    cells = b'"' + lines.replace(b" ", b'": ').replace(b"\n", b', "') if lines else b""
    return b'{"sequence": %d, "store": {%s}}\n' % (store.sequence, cells)


def read_query(query: str) -> Tuple[Optional[int], bool]:
    """The sequence number of `at=N`, and whether `fresh=1` is there."""
    try:
        words = parse_qs(query, keep_blank_values=True, strict_parsing=bool(query), max_num_fields=4)
    except ValueError as fault:
        raise Bad(400, f"the query isn't one: {fault}") from None
    at, fresh = words.pop("at", []), words.pop("fresh", ["0"])
    if words or fresh not in (["0"], ["1"]) or len(at) + (fresh == ["1"]) > 1 or not all(map(SEQUENCE.fullmatch, at)):
        raise Bad(400, "at=N has a sequence number, fresh is 0 or 1, and only one of them is there")
    return (int(at[0]) if at else None), fresh == ["1"]
