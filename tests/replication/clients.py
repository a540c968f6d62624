"""Tests Python's client against replicas that answer by a script."""
from __future__ import annotations

import re
import threading
from collections.abc import Callable
from http.server import BaseHTTPRequestHandler, ThreadingHTTPServer
from typing import Any

# What a replica does with a request: a status and a text, or None to close the connection without an answer.
Answer = Callable[[str, str], "tuple[int, str] | None"]


class Fake:
    """A replica that answers each request by the next of its answers, and keeps what it was asked."""

    def __init__(self) -> None:
        self.answers: list[Answer] = []
        self.asked: list[tuple[str, str, str]] = []
        fake = self

        class Handler(BaseHTTPRequestHandler):
            protocol_version = "HTTP/1.1"

            def answer(self) -> None:
                body = self.rfile.read(int(self.headers.get("Content-Length", "0"))).decode()
                fake.asked.append((self.path, body, self.headers.get("Authorization", "")))
                said = fake.answers.pop(0)(self.path, body)
                if said is None:
                    self.close_connection = True
                    return
                self.send_response(said[0])
                self.send_header("Content-Length", str(len(said[1])))
                self.end_headers()
                self.wfile.write(said[1].encode())

            do_GET = do_POST = answer

            def log_message(self, *words: Any) -> None:
                """Nothing is printed."""

        self.server = ThreadingHTTPServer(("127.0.0.1", 0), Handler)
        self.server.daemon_threads = True
        self.address = f"127.0.0.1:{self.server.server_port}"
        threading.Thread(target=self.server.serve_forever, daemon=True).start()

    def will(self, *answers: Answer) -> None:
        self.answers, self.asked = list(answers), []


def says(status: int, text: str) -> Answer:
    return lambda path, body: (status, text)


def raises(bohm: Any, act: Callable[[], object], kind: type[Exception], words: str = "") -> None:
    try:
        act()
    except kind as fault:
        assert words in str(fault), fault
        return
    raise AssertionError(f"no {kind.__name__}")


def check_client(bohm: Any) -> str:
    one, other = Fake(), Fake()
    client = bohm.Client([one.address, other.address], token="secret", patience=3.0)
    client._at = 0
    # No answer, too much, away: the same text goes to one after another, and the one that answered is asked next.
    one.will(lambda *_: None, says(503, "no answer yet\n"))
    other.will(says(429, "later\n"), says(200, "7 commit 70\n"), says(200, "8 abort need 3\n"))
    reply = client.call("transfer", "alice", "bob", 30)
    assert (reply.timestamp, reply.shows, reply.committed) == (7, (70,), True), reply
    texts = {body for _, body, _ in one.asked + other.asked}
    assert len(texts) == 1 and re.fullmatch(r"call #[0-9a-f]{28} transfer alice bob 30\n", texts.pop())
    assert {token for *_, token in one.asked + other.asked} == {"Bearer secret"} and len(one.asked + other.asked) == 4
    assert not client.call("transfer", "alice", "bob", 31, id="r8").committed
    assert other.asked[-1][:2] == ("/call", "call #r8 transfer alice bob 31\n")
    other.will(says(409, "refused: id\n"), says(400, "refused: key\n"), says(403, "no\n"), says(401, "who\n"))
    raises(bohm, lambda: client.call("transfer", "a", "b", 1, id="r8"), bohm.RefusedError, "refused: id")
    raises(bohm, lambda: client.call("transfer", "A", "b", 1), bohm.RefusedError, "refused: key")
    raises(bohm, lambda: client.call("transfer", "a", "b", 1), bohm.DeniedError)
    raises(bohm, lambda: client.get("a"), bohm.DeniedError)
    check_others(bohm, client, other)
    one.will(*[says(503, "away\n")] * 99)
    other.will(*[says(503, "away\n")] * 99)
    raises(bohm, lambda: client.call("transfer", "a", "b", 1), bohm.UnavailableError, "503 away")
    for wrong in ([], ["ftp://x:1"], [""]):
        raises(bohm, lambda wrong=wrong: bohm.Client(wrong), ValueError)
    return "the client"


def check_others(bohm: Any, client: Any, replica: Fake) -> None:
    """Definitions, transactions, batches and reads."""
    replica.will(says(200, "defined f\n"), says(200, "9 commit\n"), lambda _, body: (200, "10 commit\nrefused: key\n11 commit 5\n"))
    assert client.define("f", "\n    procedure 2\n    reads\n    writes\n    end\n", id="d").name == "f"
    assert replica.asked[-1][:2] == ("/define", "define #d f\nprocedure 2\nreads\nwrites\nend\n")
    assert client.transaction("txn\nreads\nwrites\nend\n", id="t").timestamp == 9
    assert replica.asked[-1][:2] == ("/transaction", "txn #t\nreads\nwrites\nend\n")
    answers = client.batch(["call f", "call f A", "call #mine f"])
    assert [*map(str, answers)] == ["10 commit", "refused: key", "11 commit 5"]
    path, body, _ = replica.asked[-1]
    assert path == "/batch" and re.fullmatch(r"call #\w{28} f\ncall #\w{28} f A\ncall #mine f\n", body), body
    replica.will(says(200, '{"sequence": 5, "value": 8}'), says(200, '{"sequence": 4, "value": null}'), says(410, "gone\n"),
                 says(503, "not yet\n"), says(200, '{"sequence": 4, "store": {"a": 1}}'), says(200, "5 commit\n"), says(404, "none\n"))
    assert client.read("a") == (5, 8) and replica.asked[-1][0] == "/value/a?fresh=1"
    assert client.get("a", 3, fresh=False) == 3 and replica.asked[-1][0] == "/value/a"
    raises(bohm, lambda: client.get("a", at=1), bohm.TrimmedError)
    raises(bohm, lambda: client.get("a", at=99), bohm.FutureError)
    assert client.store() == {"a": 1} and str(client.answer_to("r8")) == "5 commit" and client.answer_to("r9") is None
    for bad in ("hello", "call", "call f\0"):
        raises(bohm, lambda bad=bad: client.batch([bad]), bohm.RefusedError, "refused: shape")
    raises(bohm, lambda: client.call("f", id="a b"), ValueError)
