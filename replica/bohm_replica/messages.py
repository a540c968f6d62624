"""etcd's messages that a replica uses, and the two ways in which they are written: protobuf, for gRPC, and the JSON of etcd's
gateway. A message is a dictionary; a field that is absent has its type's zero."""
import base64
import functools
import json
from typing import Any, Callable, Dict, List, NamedTuple, Tuple

Message = Dict[str, Any]


class Field(NamedTuple):
    """A field's number, and its kind: `bytes`, `text`, `int`, `bool`, or a message's name; and whether it may come again."""

    number: int
    kind: str
    many: bool = False


def fields(**kinds: Tuple[int, str]) -> Dict[str, Field]:
    """Fields by their names; a kind that ends with `*` is of one that may come again."""
    return {name: Field(number, kind.rstrip("*"), kind.endswith("*")) for name, (number, kind) in kinds.items()}


MESSAGES: Dict[str, Dict[str, Field]] = {
    "Header": fields(cluster_id=(1, "int"), member_id=(2, "int"), revision=(3, "int"), raft_term=(4, "int")),
    "KeyValue": fields(key=(1, "bytes"), create_revision=(2, "int"), mod_revision=(3, "int"), version=(4, "int"),
                       value=(5, "bytes"), lease=(6, "int")),
    "Range": fields(key=(1, "bytes"), range_end=(2, "bytes"), limit=(3, "int"), revision=(4, "int"), serializable=(7, "bool"),
                    keys_only=(8, "bool"), count_only=(9, "bool")),
    "RangeAnswer": fields(header=(1, "Header"), kvs=(2, "KeyValue*"), more=(3, "bool"), count=(4, "int")),
    "Put": fields(key=(1, "bytes"), value=(2, "bytes"), lease=(3, "int")),
    "Delete": fields(key=(1, "bytes"), range_end=(2, "bytes")),
    "DeleteAnswer": fields(header=(1, "Header"), deleted=(2, "int")),
    "Compare": fields(result=(1, "result"), target=(2, "target"), key=(3, "bytes"), version=(4, "int"), create_revision=(5, "int"),
                      mod_revision=(6, "int"), value=(7, "bytes"), lease=(8, "int")),
    "Operation": fields(request_range=(1, "Range"), request_put=(2, "Put"), request_delete_range=(3, "Delete")),
    "OperationAnswer": fields(response_range=(1, "RangeAnswer"), response_put=(2, "Plain"),
                              response_delete_range=(3, "DeleteAnswer")),
    "Txn": fields(compare=(1, "Compare*"), success=(2, "Operation*"), failure=(3, "Operation*")),
    "TxnAnswer": fields(header=(1, "Header"), succeeded=(2, "bool"), responses=(3, "OperationAnswer*")),
    "Compact": fields(revision=(1, "int"), physical=(2, "bool")),
    "Plain": fields(header=(1, "Header")),
    "Event": fields(type=(1, "event"), kv=(2, "KeyValue")),
    "WatchCreate": fields(key=(1, "bytes"), range_end=(2, "bytes"), start_revision=(3, "int"), progress_notify=(4, "bool")),
    "Watch": fields(create_request=(1, "WatchCreate")),
    "WatchAnswer": fields(header=(1, "Header"), watch_id=(2, "int"), created=(3, "bool"), canceled=(4, "bool"),
                          compact_revision=(5, "int"), cancel_reason=(6, "text"), events=(11, "Event*")),
    "Grant": fields(TTL=(1, "int"), ID=(2, "int")),
    "GrantAnswer": fields(header=(1, "Header"), ID=(2, "int"), TTL=(3, "int"), error=(4, "text")),
    "Lease": fields(ID=(1, "int")),
    "LeaseAnswer": fields(header=(1, "Header"), ID=(2, "int"), TTL=(3, "int")),
    "Login": fields(name=(1, "text"), password=(2, "text")),
    "LoginAnswer": fields(header=(1, "Header"), token=(2, "text")),
    "Nothing": {},
    "StatusAnswer": fields(header=(1, "Header"), version=(2, "text"), dbSize=(3, "int"), leader=(4, "int"),
                           dbSizeInUse=(9, "int")),
    "Alarm": fields(action=(1, "action"), memberID=(2, "int"), alarm=(3, "alarm")),
    "AlarmMember": fields(memberID=(1, "int"), alarm=(2, "alarm")),
    "AlarmAnswer": fields(header=(1, "Header"), alarms=(2, "AlarmMember*")),
}
# Enumerations whose names the gateway writes.
NAMED = {"event": ("PUT", "DELETE"), "alarm": ("NONE", "NOSPACE", "CORRUPT"), "action": ("GET", "ACTIVATE", "DEACTIVATE"),
         "result": ("EQUAL", "GREATER", "LESS", "NOT_EQUAL"), "target": ("VERSION", "CREATE", "MOD", "VALUE", "LEASE")}
# A result and targets of a comparison.
EQUAL, CREATE, LEASE = 0, 1, 4


class Method(NamedTuple):
    """A method of etcd: its path by gRPC and by the gateway, its request and its answer. One that is a stream by gRPC
    answers many times."""

    path: str
    gateway: str
    request: str
    answer: str
    is_stream: bool = False


METHODS = {
    "range": Method("/etcdserverpb.KV/Range", "/v3/kv/range", "Range", "RangeAnswer"),
    "put": Method("/etcdserverpb.KV/Put", "/v3/kv/put", "Put", "Plain"),
    "delete": Method("/etcdserverpb.KV/DeleteRange", "/v3/kv/deleterange", "Delete", "DeleteAnswer"),
    "txn": Method("/etcdserverpb.KV/Txn", "/v3/kv/txn", "Txn", "TxnAnswer"),
    "compact": Method("/etcdserverpb.KV/Compact", "/v3/kv/compaction", "Compact", "Plain"),
    "watch": Method("/etcdserverpb.Watch/Watch", "/v3/watch", "Watch", "WatchAnswer", True),
    "grant": Method("/etcdserverpb.Lease/LeaseGrant", "/v3/lease/grant", "Grant", "GrantAnswer"),
    "keep": Method("/etcdserverpb.Lease/LeaseKeepAlive", "/v3/lease/keepalive", "Lease", "LeaseAnswer", True),
    "login": Method("/etcdserverpb.Auth/Authenticate", "/v3/auth/authenticate", "Login", "LoginAnswer"),
    "status": Method("/etcdserverpb.Maintenance/Status", "/v3/maintenance/status", "Nothing", "StatusAnswer"),
    "defragment": Method("/etcdserverpb.Maintenance/Defragment", "/v3/maintenance/defragment", "Nothing", "Plain"),
    "alarm": Method("/etcdserverpb.Maintenance/Alarm", "/v3/maintenance/alarm", "Alarm", "AlarmAnswer"),
}


# Protobuf.

class Written(NamedTuple):
    """How a field is written: its tag, its kind, where `int` stands for all numbers, and whether it may come again."""

    tag: bytes
    kind: str
    many: bool


def varint(number: int) -> bytes:
    if 0 <= number < 128:
        return SMALL[number]
    number &= (1 << 64) - 1
    found = bytearray()
    while number > 127:
        found.append(number & 127 | 128)
        number >>= 7
    found.append(number)
    return bytes(found)


SMALL = [bytes([number]) for number in range(128)]
NUMBERS = ("int", "bool", *NAMED)
WRITTEN = {kind: {name: Written(varint(field.number << 3 | (0 if field.kind in NUMBERS else 2)),
                                "int" if field.kind in NUMBERS else field.kind, field.many) for name, field in has.items()}
           for kind, has in MESSAGES.items()}


def encoded(kind: str, message: Message) -> bytes:
    """A message as protobuf."""
    parts: List[bytes] = []
    known = WRITTEN[kind]
    for name, given in message.items():
        tag, of, many = known[name]
        for value in given if many else (given,):
            if of == "int":
                parts += (tag, varint(int(value)))
                continue
            body = value if of == "bytes" else value.encode() if of == "text" else encoded(of, value)
            parts += (tag, varint(len(body)), body)
    return b"".join(parts)


# A field's name, its kind and whether it may come again, by its tag.
READ = {kind: {field.number << 3 | (0 if field.kind in NUMBERS else 2): (name, field.kind, field.many) for name, field in has.items()}
        for kind, has in MESSAGES.items()}


def read_varint(text: bytes, at: int) -> Tuple[int, int]:
    """A number, and the offset behind it."""
    found = shift = 0
    while True:
        byte = text[at]
        at += 1
        found |= (byte & 127) << shift
        if byte < 128:
            return found, at
        shift += 7


def decoded(kind: str, text: bytes) -> Message:
    """The message that protobuf is. Raises ValueError or IndexError if it is none; unknown fields are passed over."""
    found: Message = {}
    known, at, end = READ[kind], 0, len(text)
    while at < end:
        tag, at = (text[at], at + 1) if text[at] < 128 else read_varint(text, at)
        wire = tag & 7
        value: Any
        if wire == 0:
            value, at = (text[at], at + 1) if text[at] < 128 else read_varint(text, at)
        elif wire == 2:
            size, at = (text[at], at + 1) if text[at] < 128 else read_varint(text, at)
            value, at = text[at:at + size], at + size
        elif wire in (1, 5):
            at += 8 if wire == 1 else 4
            continue
        else:
            raise ValueError(f"no such kind of field: {tag}")
        if tag not in known:
            continue
        name, of, many = known[tag]
        if of == "int":
            if value >> 63:
                value -= 1 << 64
        elif of == "bool":
            value = bool(value)
        elif of == "text":
            value = value.decode(errors="replace")
        elif of != "bytes" and wire:
            value = decoded(of, value)
        if many:
            found.setdefault(name, []).append(value)
        else:
            found[name] = value
    return found


# JSON.

def to_json(kind: str, message: Message) -> bytes:
    """A message as the gateway's JSON."""
    plain: Dict[str, Callable[[Any], Any]] = {"bytes": lambda value: base64.b64encode(value).decode(), "int": str, "bool": bool, "text": str}
    plain.update({name: int for name in NAMED})
    return json.dumps(walked(kind, message, plain)).encode()


def of_json(kind: str, said: Any) -> Message:
    """The message that the gateway's JSON is, from which fields of no interest are dropped."""
    plain: Dict[str, Callable[[Any], Any]] = {"bytes": base64.b64decode, "int": signed, "bool": bool, "text": str}
    plain.update({name: functools.partial(named, name) for name in NAMED})
    return walked(kind, said, plain)


def signed(value: Any) -> int:
    """Numbers without a sign, as a cluster's, are those that protobuf reads."""
    number = int(value)
    return number - (1 << 64) if number >= 1 << 63 else number


def named(kind: str, value: Any) -> int:
    return value if isinstance(value, int) else NAMED[kind].index(value)


def walked(kind: str, message: Any, of: Dict[str, Callable[[Any], Any]]) -> Message:
    """The message with each plain value replaced."""
    found: Message = {}
    for name, value in message.items():
        field = MESSAGES[kind].get(name)
        if not field:
            continue
        found[name] = [one_walked(field.kind, part, of) for part in value] if field.many else one_walked(field.kind, value, of)
    return found


def one_walked(kind: str, value: Any, of: Dict[str, Callable[[Any], Any]]) -> Any:
    return of[kind](value) if kind in of else walked(kind, value, of)
