"""Tests a replica's door without etcd: what it has is read, strangers are refused by their heads, and stay bounded."""
from __future__ import annotations

import contextlib
import hashlib
import http.client
import json
import re
import resource
import socket
import ssl
import subprocess
import time
from pathlib import Path
from types import ModuleType
from typing import Any

import stage
from load import openings
from stage import ReplicaChild
from trial import wait

TOKENS = {"reader": "read", "caller": "read,call", "maker": "read,call,define", "owner": "read,call,define,operate"}
# So many idle connections, where the door has so much room.
IDLE, ROOM = 2000, 300
# Clients that don't take a store, and the keys that each of its many transactions wrote.
READERS, WRITTEN = 60, 16
# Connections that a large door has room for, that send a head byte by byte, and that come beside as many as there is room for; the
# requests of others meanwhile, and the seconds that each may take and all of them.
CROWD, SLOW, BESIDE = 10_000, 500, 500
ASKED, LONGEST, TOGETHER = 60, 20.0, 120.0


def ask(port: int, method: str, path: str, body: bytes | None = None, heads: dict[str, str] | None = None,
        context: ssl.SSLContext | None = None) -> tuple[int, bytes]:
    line = (http.client.HTTPSConnection("localhost", port, timeout=30, context=context) if context
            else http.client.HTTPConnection("127.0.0.1", port, timeout=30))
    try:
        line.request(method, path, body, heads or {})
        said = line.getresponse()
        return said.status, said.read()
    finally:
        line.close()


def raw(port: int, text: bytes) -> bytes:
    """What is answered to these bytes, behind which nothing comes."""
    with socket.create_connection(("127.0.0.1", port), 30) as line:
        line.sendall(text)
        return line.recv(4096)


def check_reads(port: int) -> None:
    """It has two transactions, and no etcd."""
    assert json.loads(ask(port, "GET", "/value/a001")[1]) == {"sequence": 2, "key": "a001", "value": 1000}
    assert json.loads(ask(port, "GET", "/store?at=2")[1])["store"] == {f"a{number:03d}": 1000 for number in range(32)}
    assert ask(port, "GET", "/answer/open1") == (200, b"2 commit\n")
    assert ask(port, "GET", "/healthz")[0] == 200 and ask(port, "GET", "/readyz")[0] == 503
    begun = time.monotonic()
    assert ask(port, "GET", "/value/a001?fresh=1")[0] == 503 and time.monotonic() - begun < 10
    for path, status in [("/value/A", 400), ("/value/", 400), ("/store/a", 400), ("/store?at=x", 400), ("/store?at=1&fresh=1", 400),
                         ("/store?at=" + "1" * 5000, 400), ("/store?x=1", 400), ("/store?at=3", 503), ("/store?at=1", 410), ("/store?" + "a=1&" * 900, 400),
                         ("/answer/none", 404), ("/answer/" + "1" * 5000, 404), ("/", 404), ("/call", 405), ("/stores", 404)]:
        assert ask(port, "GET", path)[0] == status, (path[:50], ask(port, "GET", path))


def check_alerts(port: int) -> None:
    """What the alert rules look at is among the metrics, also before anything has happened."""
    rules = (Path(__file__).resolve().parents[2] / "packaging" / "replica" / "alerts.yml").read_text()
    named = {*re.findall(r'bohm_\w+(?:{kind="\w+"})?', rules)}
    given = {line.split(" ")[0] for line in ask(port, "GET", "/metrics")[1].decode().splitlines() if not line.startswith("#")}
    given |= {name.partition("{")[0] for name in given}
    assert len(named) > 6 and named <= given, named - given


def check_heads(port: int) -> None:
    """What is refused is refused before its body is there."""
    big = b"POST /call HTTP/1.1\r\nContent-Length: %s\r\n\r\n"
    for text, status in [(big % b"999999999999", b"413"), (big % b"1048705", b"413"), (big % (b"1" * 5000), b"400"), (big % b"-1", b"400"),
                         (b"POST /call HTTP/1.1\r\n\r\n", b"411"), (b"GET /store HTTP/1.1\r\nContent-Length: 5\r\n\r\n", b"413"),
                         (b"POST /batch HTTP/1.1\r\nTransfer-Encoding: chunked\r\n\r\n", b"411"),
                         (b"GET http://[ HTTP/1.1\r\n\r\n", b"400"), (b"\0\xff\r\n\r\n", b"400"), (b"X" * 9000, b"431"),
                         (b"POST /call HTTP/1.1\r\nContent-Length: 9\r\n\r\n", b"503"), (b"PUT /call HTTP/1.1\r\n\r\n", b"405")]:
        assert raw(port, text).startswith(b"HTTP/1.1 " + status), (text[:60], raw(port, text))


def check_crowd(replica: ReplicaChild) -> None:
    """Idle connections, and halves of requests, beside which it answers; the halves are closed after some seconds."""
    idle = [socket.create_connection(("127.0.0.1", replica.port), 30) for _ in range(IDLE)]
    halves = [socket.create_connection(("127.0.0.1", replica.port), 30) for _ in range(50)]
    for number, line in enumerate(halves):
        line.sendall(b"GET /status HTTP/1.1\r\nX: " + b"y" * 1000 if number % 2 else b"GET")
    found = replica.status() or {}
    assert found.get("name") == "r1", found
    begun = time.monotonic()
    for line in halves:
        line.settimeout(20)
        try:
            assert line.recv(100) == b""
        except ConnectionResetError:
            pass
        line.close()
    assert 5 < time.monotonic() - begun < 20, time.monotonic() - begun
    for line in idle:
        line.close()
    text = ask(replica.port, "GET", "/metrics")[1].decode()
    refused = dict(line.rsplit(" ", 1) for line in text.splitlines() if line.startswith("bohm_connections_refused_total{"))
    assert int(refused['bohm_connections_refused_total{why="too many"}']) >= IDLE - ROOM, refused
    assert int(refused['bohm_connections_refused_total{why="slow"}']) >= 50, refused
    assert "Traceback" not in replica.said.read_text(), replica.said.read_text()


def check_readers(replica: ReplicaChild) -> None:
    """Clients that ask for a store of some megabytes and don't take it: others are served, and only so much waits for them."""
    before = (replica.status() or {})["memory_bytes"]
    size = len(ask(replica.port, "GET", "/store")[1])
    assert size > 2 << 20, size
    lines = []
    for _ in range(READERS):
        line = socket.socket()
        line.setsockopt(socket.SOL_SOCKET, socket.SO_RCVBUF, 4096)
        line.connect(("127.0.0.1", replica.port))
        line.sendall(b"GET /store HTTP/1.1\r\n\r\n")
        lines.append(line)
    heads = []
    for line in lines:
        line.settimeout(TOGETHER)
        heads.append(line.recv(12))
        assert ask(replica.port, "GET", "/healthz")[0] == 200
    assert {*heads} == {b"HTTP/1.1 200", b"HTTP/1.1 429"}, {*heads}
    # What the system keeps of them isn't the replica's.
    held = (replica.status() or {})["memory_bytes"] - before
    assert held < 100 << 20 < size * READERS, (held, size)
    for line in lines:
        line.close()
    wait("stores are answered again", lambda: ask(replica.port, "GET", "/store")[0] == 200)


def has_room(count: int) -> bool:
    """Whether this process may have so many descriptors."""
    _, hard = resource.getrlimit(resource.RLIMIT_NOFILE)
    if hard != resource.RLIM_INFINITY and hard < count:
        return False
    resource.setrlimit(resource.RLIMIT_NOFILE, (hard, hard))
    return True


def check_large_crowd(replica: ReplicaChild) -> None:
    """As many connections as there is room for, idle ones and slow ones, and more that come: others are served meanwhile, on a new
    connection and on one that is kept, within bounded memory."""
    def connected() -> socket.socket:
        return socket.create_connection(("127.0.0.1", replica.port), 60)

    before = (replica.status() or {})["memory_bytes"]
    kept = http.client.HTTPConnection("127.0.0.1", replica.port, timeout=LONGEST)
    lines = [connected() for _ in range(CROWD - SLOW)]
    slow = [connected() for _ in range(SLOW)]
    begun = time.monotonic()
    for number in range(ASKED):
        for line in slow[number::10]:
            with contextlib.suppress(OSError):
                line.sendall(b"G")
        sent = time.monotonic()
        if number % 2:
            assert ask(replica.port, "GET", "/value/a001")[0] == 200
        else:
            kept.request("GET", "/value/a001")
            said = kept.getresponse()
            assert said.status == 200 and json.loads(said.read())["value"] == 1000
        assert time.monotonic() - sent < LONGEST, (number, time.monotonic() - sent)
        if number == ASKED // 2:
            lines += [connected() for _ in range(BESIDE)]
    assert time.monotonic() - begun < TOGETHER, time.monotonic() - begun
    status = replica.status() or {}
    assert status["memory_bytes"] - before < 40_000 * CROWD, (before, status["memory_bytes"])
    text = ask(replica.port, "GET", "/metrics")[1].decode()
    values = dict(line.rsplit(" ", 1) for line in text.splitlines() if not line.startswith("#"))
    assert CROWD - 2 * BESIDE <= int(values["bohm_connections"]) <= CROWD, values["bohm_connections"]
    assert int(values['bohm_connections_refused_total{why="too many"}']) >= BESIDE, text
    for line in [*lines, *slow]:
        line.close()
    assert "Traceback" not in replica.said.read_text(), replica.said.read_text()


def certificates(folder: Path) -> None:
    """An authority, the door's certificate, and a client's."""
    folder.mkdir()

    def openssl(*words: str) -> None:
        subprocess.run(["openssl", *words], cwd=folder, check=True, capture_output=True)

    (folder / "names").write_text("subjectAltName=DNS:localhost,IP:127.0.0.1\n")
    openssl("req", "-x509", "-newkey", "ec", "-pkeyopt", "ec_paramgen_curve:prime256v1", "-nodes", "-keyout", "ca.key", "-out", "ca.pem",
            "-subj", "/CN=ca", "-days", "30")
    for name in ("door", "reader", "nameless"):
        openssl("req", "-newkey", "ec", "-pkeyopt", "ec_paramgen_curve:prime256v1", "-nodes", "-keyout", f"{name}.key", "-out", f"{name}.csr",
                "-subj", "/O=none" if name == "nameless" else f"/CN={name}")
        openssl("x509", "-req", "-in", f"{name}.csr", "-CA", "ca.pem", "-CAkey", "ca.key", "-CAcreateserial", "-out", f"{name}.pem",
                "-days", "30", "-extfile", "names")


def users(folder: Path) -> Path:
    path = folder / "users"
    lines = [f"{name} {roles} {hashlib.sha256(name.encode()).hexdigest()}" for name, roles in TOKENS.items()]
    path.write_text("\n".join(["# tokens", *lines, "reader read certificate"]) + "\n")
    return path


def check_roles(replica: ReplicaChild, folder: Path) -> None:
    """Each user may do what its roles say, and no more; nobody anything."""
    plain = ssl.create_default_context(cafile=str(folder / "ca.pem"))
    one = b"call #x transfer a000 a001 1\n"
    wanted = {"reader": (200, 403, 403, 403, 403), "caller": (200, 503, 403, 403, 403), "maker": (200, 503, 503, 403, 429),
              "owner": (200, 503, 503, 200, 429), "nobody": (401, 401, 401, 401, 401)}
    for name, statuses in wanted.items():
        heads = {"Authorization": f"Bearer {name}"}
        found = (ask(replica.port, "GET", "/store", None, heads, plain)[0], ask(replica.port, "POST", "/call", one, heads, plain)[0],
                 ask(replica.port, "POST", "/transaction", b"txn\nreads\nwrites\nend\n", heads, plain)[0],
                 ask(replica.port, "GET", "/checkpoint", None, heads, plain)[0],
                 ask(replica.port, "POST", "/put", b"batch 1\n" + one, heads, plain)[0])
        assert found == statuses, (name, found)
    assert ask(replica.port, "GET", "/store", None, {}, plain)[0] == 401 and ask(replica.port, "GET", "/healthz", None, {}, plain)[0] == 200
    mine = ssl.create_default_context(cafile=str(folder / "ca.pem"))
    mine.load_cert_chain(folder / "reader.pem", folder / "reader.key")
    assert (ask(replica.port, "GET", "/store", None, {}, mine)[0], ask(replica.port, "POST", "/call", one, {}, mine)[0]) == (200, 403)
    assert not raw(replica.port, b"GET /store HTTP/1.1\r\n\r\n").startswith(b"HTTP"), "without TLS"
    # More connections than may be about to agree on TLS, and never do.
    silent = [socket.create_connection(("127.0.0.1", replica.port), 30) for _ in range(600)]
    for _ in range(5):
        assert ask(replica.port, "GET", "/healthz", None, {}, plain)[0] == 200
    for line in silent:
        line.close()
    assert "Traceback" not in replica.said.read_text(), replica.said.read_text()


def make_log(home: Path, library: str, entries: list[Any]) -> None:
    from bohm_replica.bohm_of import bohm
    from bohm_replica.log import Log
    mine = Log(str(home / "ledger"), 100, bohm.load(library))
    for each in entries:
        mine.apply([each])
    mine.ledger.close()


def many_keys(number: int) -> str:
    """A transaction that writes many keys of its own."""
    keys = sorted(f"s{number}x{key}" for key in range(WRITTEN))
    return f"txn\nreads\nwrites {' '.join(keys)}\n" + "".join(f"set {key} = 1000000\n" for key in keys) + "end\n"


def check_door(folder: Path, library: str, access: ModuleType, batches: Any, entry: Any) -> str:
    folder.mkdir()
    children = []
    certificates(folder / "tls")
    crowd = ["--connections", str(CROWD), "--idle", "600"]
    for number, more in enumerate([["--connections", str(ROOM)], crowd, ["--certificate", str(folder / "tls/door.pem"),
                                   "--key", str(folder / "tls/door.key"), "--client-authority", str(folder / "tls/ca.pem"),
                                   "--users", str(users(folder))]], 1):
        home = folder / f"r{number}"
        home.mkdir()
        large = [[many_keys(at * batches.MOST + one) for one in range(batches.MOST)] for at in range(3)] if number == 2 else []
        made = [entry(at + 2, "r1.x", at, batches.written(texts, 1)) for at, texts in enumerate([openings()[:3], *large], 1)]
        make_log(home, library, made)
        children.append(stage.replica_child(home, stage.free_ports(1)[0], Path(library), ["127.0.0.1:1"], ["--wait", "1", *more]))
    try:
        for child in children:
            child.start()
        wait("the open door", children[0].status)
        check_heads(children[0].port)
        check_reads(children[0].port)
        check_alerts(children[0].port)
        check_crowd(children[0])
        wait("the large door", children[1].status)
        check_readers(children[1])
        # The replica keeps some descriptors for etcd and files.
        if has_room(CROWD + 1200):
            check_large_crowd(children[1])
        else:
            print(f"left out, since a process may have {resource.getrlimit(resource.RLIMIT_NOFILE)[1]} descriptors: {CROWD:,} connections")
        wait("the closed door", lambda: stage.is_open(children[2].port))
        check_roles(children[2], folder / "tls")
        assert [child.end() for child in children] == [0] * 3, [child.said.read_text() for child in children]
    finally:
        for child in children:
            child.kill()
    return f"a door without etcd, {IDLE:,} idle connections, {CROWD:,} idle and slow ones, {len(TOKENS) + 1} users"
