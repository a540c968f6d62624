"""A replica's options, from a configuration file and the command line."""
import argparse
import configparser
import ipaddress
import os
from typing import Any, Dict, List, NamedTuple, Optional, Sequence, Tuple

from .keys import NAME


class BadOptions(Exception):
    """The options don't fit together, or one isn't what it should be."""


class Option(NamedTuple):
    """A name, what it is, its kind, and what it is if it isn't given."""

    name: str
    about: str
    kind: type = str
    default: Any = None


TABLE = [
    Option("folder", "where the ledger is kept"),
    Option("name", "the replica's own, of letters, digits, `_` and `-`"),
    Option("members", "etcd's members, HOST:PORT,.."),
    Option("prefix", "what the keys of the group begin with", str, "bohm/"),
    Option("edition", "1 or 2, that of the group's procedures and transactions", int, 2),
    Option("etcd-authority", "a file of PEM; etcd is asked by TLS"),
    Option("etcd-certificate", "a file of PEM"),
    Option("etcd-key", "a file of PEM"),
    Option("etcd-user", "where etcd wants to know who asks"),
    Option("etcd-password-file", "its first line is that user's password"),
    Option("etcd-way", "`grpc`, or `gateway` for its JSON over HTTP/1.1", str, "grpc"),
    Option("listen", "HOST:PORT of the door", str, "127.0.0.1:7000"),
    Option("url", "where clients and the other replicas reach the door; else that of `listen`"),
    Option("certificate", "a file of PEM; the door is one of TLS"),
    Option("key", "a file of PEM"),
    Option("client-authority", "a file of PEM; clients may have certificates"),
    Option("users", "a file of users, their roles and tokens"),
    Option("open", "everybody may do everything, also from other machines", bool, False),
    Option("peer-token-file", "its first line is the token by which other replicas give checkpoints and take entries"),
    Option("peer-authority", "a file of PEM, by which other replicas' certificates are checked"),
    Option("user-entries", "entries of one user that wait for an answer at once at most, unless the file of users says how many", int, 8192),
    Option("linger", "milliseconds from one entry of the log to the next, at least", float, 4.0),
    Option("checkpoint-every", "transactions from checkpoint to checkpoint", int, 200_000),
    Option("keep-entries", "entries that stay in etcd for replicas that are late", int, 10_000),
    Option("connections", "at most, at the door", int, 4096),
    Option("idle", "seconds for which a connection at the door may be idle", float, 60.0),
    Option("wait", "seconds that a request waits for etcd", float, 10.0),
    Option("library", "libbohm.so.1; else the installed one"),
    Option("take-log", "where etcd no longer has what was read from it, set the files aside and take the log that it has", bool,
           False),
]


class Options(NamedTuple):
    """The options, by their names with `_`."""

    folder: str
    name: str
    members: List[str]
    listen: Tuple[str, int]
    url: str
    of: Dict[str, Any]

    def get(self, name: str) -> Any:
        return self.of[name]

    @property
    def login(self) -> Optional[Tuple[str, str]]:
        user = self.of["etcd-user"]
        return (user, first_line(self.of["etcd-password-file"])) if user else None


def first_line(path: str) -> str:
    with open(path, encoding="utf-8") as file:
        return file.readline().rstrip("\n")


def read(words: Sequence[str]) -> Options:
    """The options of a command line. Raises BadOptions."""
    parser = argparse.ArgumentParser(prog="corkbamboo-replica", description="a replica of a log in etcd",
                                     epilog="Options may also stand in the configuration file, as `name = value` below [replica].")
    parser.add_argument("configuration", nargs="?", help="a file")
    for option in TABLE:
        if option.kind is bool:
            parser.add_argument(f"--{option.name}", action="store_const", const="yes", help=option.about)
        else:
            parser.add_argument(f"--{option.name}", help=option.about)
    given = vars(parser.parse_args(words))
    texts = of_file(given["configuration"]) if given["configuration"] else {}
    for option in TABLE:
        word = given[option.name.replace("-", "_")]
        if word is not None:
            texts[option.name] = word
    return whole({option.name: value_of(option, texts.get(option.name)) for option in TABLE})


def of_file(path: str) -> Dict[str, str]:
    found = configparser.ConfigParser(interpolation=None)
    try:
        with open(path, encoding="utf-8") as file:
            found.read_file(file)
        texts = dict(found["replica"])
    except (OSError, configparser.Error, KeyError, UnicodeDecodeError) as fault:
        raise BadOptions(f"{path}: {fault}") from fault
    unknown = {*texts} - {option.name for option in TABLE}
    if unknown:
        raise BadOptions(f"{path}: there is no option {min(unknown)}")
    return texts


def value_of(option: Option, word: Optional[str]) -> Any:
    if word is None:
        return option.default
    try:
        if option.kind is bool:
            return {"yes": True, "no": False}[word]
        return option.kind(word)
    except (ValueError, KeyError) as fault:
        raise BadOptions(f"{option.name} can't be {word!r}") from fault


def whole(of: Dict[str, Any]) -> Options:
    """The options, if they fit together."""
    for name in ("folder", "members"):
        if not of[name]:
            raise BadOptions(f"{name} has to be given")
    name = of["name"] or os.path.basename(os.path.realpath(of["folder"]))
    if not NAME.fullmatch(name):
        raise BadOptions("name, or the folder's, has 1 to 48 letters, digits, `_` and `-`")
    if not of["prefix"].isascii() or not of["prefix"]:
        raise BadOptions("prefix has one character at least, and only ASCII")
    for one, other in (("certificate", "key"), ("key", "certificate"), ("etcd-certificate", "etcd-authority"),
                       ("etcd-user", "etcd-password-file"), ("client-authority", "certificate")):
        if of[one] and not of[other]:
            raise BadOptions(f"{one} needs {other}")
    if of["edition"] not in (1, 2):
        raise BadOptions("edition is 1 or 2")
    if of["etcd-way"] not in ("grpc", "gateway"):
        raise BadOptions("etcd-way is grpc or gateway")
    host, port = split_address(of["listen"])
    if not is_loopback(host) and not of["users"] and not of["open"]:
        raise BadOptions("a door that other machines reach needs users, or `open`, by which everybody may do everything")
    if host in ("0.0.0.0", "::", "") and not of["url"]:
        raise BadOptions("url says where others reach a door that listens on all addresses")
    scheme = "https" if of["certificate"] else "http"
    url = of["url"] or f"{scheme}://{of['listen']}"
    return Options(of["folder"], name, of["members"].split(","), (host, port), url.rstrip("/"), of)


def split_address(words: str) -> Tuple[str, int]:
    host, _, port = words.rpartition(":")
    if not (port.isascii() and port.isdigit() and int(port) < 65536):
        raise BadOptions(f"{words!r} isn't HOST:PORT")
    return host.strip("[]"), int(port)


def is_loopback(host: str) -> bool:
    try:
        return ipaddress.ip_address(host).is_loopback
    except ValueError:
        return host == "localhost"
