"""The keys of a group in etcd, all under one prefix:

    log/NAME/NUMBER     an entry of the log; NAME is a sequencer's, NUMBER counts its entries from 1, in 16 digits
    last                is put together with each entry
    fence               entries up to a revision are deleted
    replica/NAME        a replica's address, and what it has
    digest/NAME         a replica's digests at the last fixed place
    duty                the replica that puts for all and bounds the log, as long as its lease lives
"""
import json
import re
from typing import Dict, NamedTuple, Optional, Tuple

# A replica's name; a sequencer's has a dot and twelve digits behind it.
NAME = re.compile("[A-Za-z0-9_-]{1,48}")
ENTRY = re.compile(rb"([A-Za-z0-9_.-]{1,64})/([0-9]{16})")


class Fence(NamedTuple):
    """Entries up to a revision of etcd are deleted; so many they were, from the log's beginning."""

    revision: int
    entries: int

    def text(self) -> bytes:
        return b"%d %d" % self


NO_FENCE = Fence(0, 0)


def end_of(prefix: bytes) -> bytes:
    """The first key behind all that begin with a prefix, whose last byte isn't 255."""
    return prefix[:-1] + bytes([prefix[-1] + 1])


class Keys:
    """The keys of the group with a prefix."""

    def __init__(self, prefix: str) -> None:
        self.prefix = prefix.encode()
        self.log = self.prefix + b"log/"
        self.last, self.fence, self.duty = (self.prefix + word for word in (b"last", b"fence", b"duty"))
        self.replicas, self.digests = self.prefix + b"replica/", self.prefix + b"digest/"

    def sequencer(self, name: str) -> bytes:
        """What the keys of a sequencer's entries begin with."""
        return self.log + name.encode() + b"/"

    def entry(self, name: str, number: int) -> bytes:
        return self.sequencer(name) + b"%016d" % number

    def read_entry(self, key: bytes) -> Optional[Tuple[str, int]]:
        """The sequencer and the number of a key; none if it isn't an entry's."""
        found = ENTRY.fullmatch(key, len(self.log)) if key.startswith(self.log) else None
        return (found[1].decode(), int(found[2])) if found else None

    def read_name(self, start: bytes, key: bytes) -> Optional[str]:
        """The replica's name in a key that begins with `replicas` or `digests`; none if there is none."""
        if not key.startswith(start):
            return None
        word = key[len(start):].decode("latin-1")
        return word if NAME.fullmatch(word) else None


def read_fence(value: Optional[bytes]) -> Fence:
    """A fence's value. Anything else, which is somebody else's, is no fence."""
    words = (value or b"").split(b" ")
    if len(words) == 2 and all(word.isdigit() and len(word) < 19 for word in words):
        return Fence(int(words[0]), int(words[1]))
    return NO_FENCE


class Member(NamedTuple):
    """What a replica tells of itself: its URL, the revision and the entries that its file holds for certain, the version of
    its rules, and its number of starts."""

    url: str
    revision: int
    entries: int
    rules: int

    def text(self) -> bytes:
        return json.dumps(self._asdict(), sort_keys=True).encode()


def read_member(value: bytes) -> Optional[Member]:
    """What a replica told; none if the value is somebody else's."""
    try:
        found = json.loads(value)
        member = Member(str(found["url"]), int(found["revision"]), int(found["entries"]), int(found["rules"]))
    except (ValueError, KeyError, TypeError, RecursionError):
        return None
    return member if re.fullmatch(r"https?://[!-~]{1,300}", member.url) else None


class Digest(NamedTuple):
    """After a number of entries: the chain of hashes of the log, that of the answers, and the store's digest."""

    place: int
    chain: str
    answers: str
    store: str

    def text(self) -> bytes:
        return f"{self.place} {self.chain} {self.answers} {self.store}".encode()


DIGEST = re.compile(rb"([0-9]{1,18}) ([0-9a-f]{64}) ([0-9a-f]{64}) ([0-9a-f]{64})")


def read_digest(value: bytes) -> Optional[Digest]:
    found = DIGEST.fullmatch(value)
    return Digest(int(found[1]), found[2].decode(), found[3].decode(), found[4].decode()) if found else None


Members = Dict[str, Member]
