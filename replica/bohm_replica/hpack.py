"""Headers of HTTP/2 as bytes (RFC 7541), without a table that changes: a block means the same wherever it stands."""
import functools
from typing import Dict, List, Sequence, Tuple

# The static table from its first entry on: names, and their values where there is one.
STATIC = """:authority
:method GET
:method POST
:path /
:path /index.html
:scheme http
:scheme https
:status 200
:status 204
:status 206
:status 304
:status 400
:status 404
:status 500
accept-charset
accept-encoding gzip, deflate
accept-language
accept-ranges
accept
access-control-allow-origin
age
allow
authorization
cache-control
content-disposition
content-encoding
content-language
content-length
content-location
content-range
content-type
cookie
date
etag
expect
expires
from
host
if-match
if-modified-since
if-none-match
if-range
if-unmodified-since
last-modified
link
location
max-forwards
proxy-authenticate
proxy-authorization
range
referer
refresh
retry-after
server
set-cookie
strict-transport-security
transfer-encoding
user-agent
vary
via
www-authenticate"""
TABLE: List[Tuple[str, str]] = [(line.partition(" ")[0], line.partition(" ")[2]) for line in STATIC.split("\n")]
# The lengths of the codes of the characters from the space to `~`; codes of a length stand in the order of their characters.
LENGTHS = [
    6, 10, 10, 12, 13, 6, 8, 11, 10, 10, 8, 11, 8, 6, 6, 6, 5, 5, 5, 6, 6, 6, 6, 6, 6, 6, 7, 8, 15, 6, 12, 10,
    13, 6, 7, 7, 7, 7, 7, 7, 7, 7, 7, 7, 7, 7, 7, 7, 7, 7, 7, 7, 7, 7, 7, 7, 8, 7, 8, 13, 19, 13, 14, 6,
    15, 5, 6, 5, 6, 5, 6, 6, 6, 5, 7, 7, 6, 6, 6, 5, 6, 7, 6, 5, 5, 6, 7, 7, 7, 7, 7, 15, 11, 14, 13]
# Blocks whose meaning is kept.
KEPT = 256


def codes() -> Dict[Tuple[int, int], str]:
    """The characters by the lengths and the values of their codes. The character 0 has one of 13 bits."""
    found, code, before = {}, -1, 0
    for length, character in sorted([(13, 0), *((length, at) for at, length in enumerate(LENGTHS, 32))]):
        code = (code + 1) << (length - before)
        found[length, code] = chr(character)
        before = length
    return found


CODES = codes()


def characters(text: bytes) -> str:
    """The text that codes are. Raises ValueError for another character than `LENGTHS` has."""
    found, code, length = [], 0, 0
    for byte in text:
        for place in range(7, -1, -1):
            code, length = code << 1 | byte >> place & 1, length + 1
            character = CODES.get((length, code))
            if character is not None:
                found.append(character)
                code = length = 0
    # The last byte is filled with ones.
    if length > 7 or code != (1 << length) - 1:
        raise ValueError("a header isn't plain text")
    return "".join(found)


def read_number(text: bytes, at: int, bits: int) -> Tuple[int, int]:
    """A number whose first byte has so many bits of it, and the offset behind it. Raises IndexError or ValueError."""
    most = (1 << bits) - 1
    found = text[at] & most
    at += 1
    if found < most:
        return found, at
    for shift in range(0, 28, 7):
        byte = text[at]
        at += 1
        found += (byte & 127) << shift
        if byte < 128:
            return found, at
    raise ValueError("a number is too long")


def read_word(text: bytes, at: int) -> Tuple[str, int]:
    size, start = read_number(text, at, 7)
    word = text[start:start + size]
    if len(word) < size:
        raise ValueError("a block ends early")
    return characters(word) if text[at] & 128 else word.decode("latin-1"), start + size


@functools.lru_cache(maxsize=KEPT)
def read(block: bytes) -> Dict[str, str]:
    """The headers of a block. Raises ValueError or IndexError where it is none."""
    found: Dict[str, str] = {}
    at = 0
    while at < len(block):
        byte = block[at]
        if byte & 128:
            number, at = read_number(block, at, 7)
            if not number:
                raise ValueError("a header has no number")
            name, value = TABLE[number - 1]
        elif byte & 224 == 32:
            # The size of the table that changes, of which nothing is kept.
            _, at = read_number(block, at, 5)
            continue
        else:
            number, at = read_number(block, at, 6 if byte & 64 else 4)
            if number:
                name = TABLE[number - 1][0]
            else:
                name, at = read_word(block, at)
            value, at = read_word(block, at)
        found[name] = value
    return found


def number(value: int, bits: int, first: int = 0) -> bytes:
    """A number whose first byte has so many bits of it, beside those of `first`."""
    most = (1 << bits) - 1
    if value < most:
        return bytes([first | value])
    parts, value = [first | most], value - most
    while value > 127:
        parts.append(value & 127 | 128)
        value >>= 7
    return bytes([*parts, value])


def written(heads: Sequence[Tuple[str, str]]) -> bytes:
    """A block of headers, which asks nobody to keep them."""
    parts = []
    for name, value in heads:
        parts += [b"\0", number(len(name), 7), name.encode("latin-1"), number(len(value), 7), value.encode("latin-1")]
    return b"".join(parts)
