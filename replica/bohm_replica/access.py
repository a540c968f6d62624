"""Who may do what at the door: tokens and client certificates, with roles."""
import hashlib
import re
import ssl
from typing import Dict, FrozenSet, NamedTuple, Optional

from .http_server import Request, Response, refusal

ROLES = ("read", "call", "define", "operate")
LINE = re.compile(r"([A-Za-z0-9_.-]{1,64})\s+([a-z,]+)\s+(certificate|[0-9a-f]{64})(?:\s+([1-9][0-9]{0,8}))?")
# Headers whose users are remembered.
KNOWN = 4096
# What each path needs; `/batch` needs what its entries need. Others need nothing.
NEEDED = {"value": "read", "store": "read", "digest": "read", "answer": "read", "status": "read", "metrics": "read", "call": "call",
          "batch": "call", "define": "define", "transaction": "define", "put": "define", "checkpoint": "operate"}


class BadUsers(Exception):
    """A line of the file of users isn't one."""


class User(NamedTuple):
    """A user; `most` entries may wait for an answer at once, if that is said."""

    name: str
    roles: FrozenSet[str]
    most: Optional[int]


class Access:
    """The users. Without any, everybody may do everything."""

    def __init__(self, text: Optional[str]) -> None:
        self.is_open = text is None
        self.tokens: Dict[str, User] = {}
        self.certificates: Dict[str, User] = {}
        # Users by the header that names them, since a hash takes longer than all else that is done with a head.
        self.known: Dict[str, User] = {}
        for number, line in enumerate((text or "").splitlines(), 1):
            if line.strip() and not line.startswith("#"):
                self.add(number, line)

    def add(self, number: int, line: str) -> None:
        found = LINE.fullmatch(line.strip())
        if not found or not {*found[2].split(",")} <= {*ROLES}:
            raise BadUsers(f"line {number} isn't NAME ROLE,.. and the token's SHA-256, or `certificate`, and a number or nothing")
        user = User(found[1], frozenset(found[2].split(",")), int(found[4]) if found[4] else None)
        if found[3] == "certificate":
            self.certificates[user.name] = user
        else:
            self.tokens[found[3]] = user

    def user_of(self, request: Request) -> Optional[User]:
        header = request.heads.get("authorization", "")
        if header in self.known:
            return self.known[header]
        scheme, _, token = header.partition(" ")
        if scheme.lower() == "bearer":
            user = self.tokens.get(hashlib.sha256(token.strip().encode()).hexdigest())
            if user and len(self.known) < KNOWN:
                self.known[header] = user
            return user
        return self.certificates.get(request.who) if request.who else None

    def refuses(self, request: Request) -> Optional[Response]:
        """Why a request is refused, if it is."""
        role = NEEDED.get(request.segment)
        if self.is_open or not role:
            return None
        user = self.user_of(request)
        if not user:
            return refusal(401, "a token or a client's certificate is needed", "WWW-Authenticate: Bearer\r\n", True)
        return None if role in user.roles else refusal(403, f"{user.name} hasn't the role {role}")

    def may(self, request: Request, role: str) -> bool:
        user = None if self.is_open else self.user_of(request)
        return self.is_open or user is not None and role in user.roles


def context_of(certificate: str, key: str, client_authority: Optional[str], needs_certificate: bool) -> ssl.SSLContext:
    """What the door's TLS needs."""
    made = ssl.SSLContext(ssl.PROTOCOL_TLS_SERVER)
    made.minimum_version = ssl.TLSVersion.TLSv1_2
    made.load_cert_chain(certificate, key)
    if client_authority:
        made.load_verify_locations(client_authority)
        made.verify_mode = ssl.CERT_REQUIRED if needs_certificate else ssl.CERT_OPTIONAL
    return made
