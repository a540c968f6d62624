"""What an operator of replicas does: `corkbamboo-operate COMMAND ..`."""
import argparse
import asyncio
import contextlib
import hashlib
import json
import secrets
import shutil
import sys
import tempfile
from pathlib import Path
from typing import Any, Awaitable, Callable, Dict, List, Optional, Sequence

from . import checkpoints, http_client
from .access import ROLES
from .batches import RULES
from .etcd import Compacted, Etcd, Refused, Taken, Unreachable
from .keys import Keys, Member, read_member
from .options import BadOptions, first_line, of_file
from .position import Position
from .ways import Tls, address_of

# Seconds that etcd may take, and a replica.
PATIENCE, ANSWER = 30.0, 10.0
# Options that may stand in the replica's configuration file, too.
SHARED = ("members", "prefix", "etcd-authority", "etcd-certificate", "etcd-key", "etcd-user", "etcd-password-file", "peer-authority",
          "peer-token-file", "certificate", "key")
Given = Dict[str, Any]


class Failed(Exception):
    """The command can't be done; nothing has changed."""


def etcd_of(given: Given, members: Optional[List[str]] = None) -> Etcd:
    if not given["members"]:
        raise Failed("--members, or a configuration file, has to be given")
    tls, user = given["etcd-authority"], given["etcd-user"]
    return Etcd(members or given["members"].split(","), Keys(given["prefix"] or "bohm/"),
                Tls(tls, given["etcd-certificate"], given["etcd-key"]) if tls else None,
                (user, first_line(given["etcd-password-file"])) if user else None)


async def group(etcd: Etcd) -> Dict[str, Member]:
    """What the replicas told of themselves, by their names."""
    found = {}
    for key, value in sorted((await etcd.held(etcd.keys.replicas, PATIENCE)).items()):
        name, member = etcd.keys.read_name(etcd.keys.replicas, key), read_member(value)
        if name and member:
            found[name] = member
    return found


async def status_of(given: Given, url: str) -> Dict[str, Any]:
    scheme, _, rest = url.partition("://")
    certificate = (given["certificate"], given["key"]) if given["certificate"] else None
    context = http_client.context_of(given["peer-authority"], certificate) if scheme == "https" else None
    line = await http_client.opened(*address_of(rest), context)
    try:
        heads = {"Authorization": f"Bearer {first_line(given['peer-token-file'])}"} if given["peer-token-file"] else {}
        code, _, text = await line.ask("GET", "/status", heads, b"", 1 << 20)
        if code != 200:
            raise Failed(f"it answers {code}: {text.decode(errors='replace').strip()}")
        found: Dict[str, Any] = json.loads(text)
        return found
    finally:
        line.close()


async def status(given: Given) -> None:
    row = "{:<12} {:<32} {:>10} {:>10} {:>7}  {}"
    print(row.format("replica", "url", "entries", "top", "behind", "state"))
    for name, member in (await group(etcd_of(given))).items():
        try:
            found = await asyncio.wait_for(status_of(given, member.url), ANSWER)
            state = found["trouble"] or ("ready" if found["ready"] else "catching up")
            whose = "" if found["name"] == name else f" (it is {found['name']})"
            print(row.format(name, member.url, found.get("entries", "-"), found.get("top", "-"), str(found.get("behind", "-")),
                             state + ", bounds the log" * bool(found["leads"]) + whose))
        except (OSError, EOFError, ValueError, KeyError, Failed, asyncio.TimeoutError) as fault:
            print(f"{name:<12} {member.url:<32} {type(fault).__name__}: {fault}")


async def backup(given: Given) -> None:
    """A replica's files in one file, once they are known to be whole."""
    file: Path = given["file"]
    token = first_line(given["peer-token-file"]) if given["peer-token-file"] else None
    certificate = (given["certificate"], given["key"]) if given["certificate"] else None
    with tempfile.TemporaryDirectory(prefix=".backup", dir=file.parent) as room:
        folder = Path(room) / "copy"
        await checkpoints.fetched(given["url"], token, given["peer-authority"], certificate, folder)
        new = file.with_name(file.name + ".new")
        with new.open("wb") as out:
            async for piece in checkpoints.pieces([folder / checkpoints.NAME, *checkpoints.archives(folder / checkpoints.NAME)]):
                out.write(piece)
        new.rename(file)
    print(f"{file}: {file.stat().st_size} bytes")


async def restore(given: Given) -> None:
    """The files of a backup in a folder, on which a replica can be started."""
    file, folder = given["file"], given["folder"]
    folder.mkdir(parents=True, exist_ok=True)
    if any(folder.iterdir()):
        raise Failed(f"{folder} isn't empty")
    incoming = folder / "incoming"
    incoming.mkdir()
    taker = checkpoints.Taker(incoming)
    try:
        with file.open("rb") as given_file:
            while piece := given_file.read(checkpoints.PIECE):
                taker.take(piece)
        taker.end()
    except checkpoints.BadCopy:
        shutil.rmtree(incoming)
        raise
    checkpoints.placed(incoming, folder)
    print(f"{folder}: restored")


async def free(given: Given) -> None:
    """Gives space back to etcd's members, and lets a full etcd take entries again."""
    etcd = etcd_of(given)
    members = await group(etcd)
    if not members:
        raise Failed("there is no replica")
    oldest = min(members, key=lambda name: members[name].revision)
    revision = members[oldest].revision
    if revision:
        with contextlib.suppress(Compacted):
            await etcd.ask("compact", {"revision": revision, "physical": True}, PATIENCE)
    print(f"compacted up to revision {revision}, which {oldest} has")
    for member in etcd.members:
        single = etcd_of(given, [member])
        await single.ask("defragment", {}, PATIENCE)
        await single.close()
        print(f"{member}: space given back")
    for alarm in (await etcd.ask("alarm", {"action": 0}, PATIENCE)).get("alarms", []):
        await etcd.ask("alarm", {"action": 2, **alarm}, PATIENCE)
        print("an alarm is ended")
    await etcd.close()


async def remove(given: Given) -> None:
    etcd = etcd_of(given)
    if given["name"] not in await group(etcd):
        raise Failed(f"there is no replica {given['name']}")
    for start in (etcd.keys.replicas, etcd.keys.digests):
        await etcd.ask("delete", {"key": start + given["name"].encode()}, PATIENCE)
    print(f"{given['name']} removed")


async def rules(given: Given) -> None:
    """Makes the log go over to a version of the rules that all replicas have."""
    etcd = etcd_of(given)
    old = [name for name, member in (await group(etcd)).items() if member.rules < given["version"]]
    if old or given["version"] > RULES:
        raise Failed(f"rules {given['version']} aren't known to {', '.join(old) or 'this program'}")
    revision = await etcd.put_entry(f"operate.{secrets.token_hex(6)}", 1, b"rules %d\n" % given["version"], Position)
    print(f"rules {given['version']} from revision {revision} on")


async def token(given: Given) -> None:
    """A new token, and the line for the file of users."""
    roles = given["roles"].split(",")
    if not {*roles} <= {*ROLES}:
        raise Failed(f"roles are {', '.join(ROLES)}")
    made = secrets.token_urlsafe(32)
    print(f"token  {made}\nline   {given['name']} {given['roles']} {hashlib.sha256(made.encode()).hexdigest()}")


def read_words(words: Sequence[str]) -> argparse.Namespace:
    parser = argparse.ArgumentParser(prog="corkbamboo-operate", description="operates replicas")
    parser.add_argument("--configuration", help="a replica's configuration file, for the options below")
    for name in SHARED:
        parser.add_argument(f"--{name}", help="as a replica's")
    commands = parser.add_subparsers(required=True, dest="command")

    def command(act: Callable[[Given], Awaitable[None]], about: str, *arguments: "tuple[str, type]") -> None:
        made = commands.add_parser(act.__name__, help=about)
        made.set_defaults(act=act)
        for name, kind in arguments:
            made.add_argument(name, type=kind)

    command(status, "a line for each replica")
    command(backup, "a running replica's files in one file", ("url", str), ("file", Path))
    command(restore, "a folder on which a replica can be started, from a backup", ("file", Path), ("folder", Path))
    command(free, "gives space back, and lets a full etcd take entries again")
    command(remove, "a replica that is gone for good no longer counts", ("name", str))
    command(rules, "the log goes over to another version of the rules", ("version", int))
    command(token, "a new token, and its line for the file of users", ("name", str), ("roles", str))
    return parser.parse_args(words)


def main() -> None:
    options = read_words(sys.argv[1:])
    try:
        texts = of_file(options.configuration) if options.configuration else {}
        given = vars(options)
        given.update({name: given.pop(name.replace("-", "_")) or texts.get(name) for name in SHARED})
        asyncio.run(options.act(given))
    except (Failed, BadOptions, checkpoints.BadCopy, OSError, EOFError, ValueError, Refused, Unreachable, Taken, asyncio.TimeoutError) as fault:
        sys.exit(f"operate: {type(fault).__name__ + ': ' if not isinstance(fault, Failed) else ''}{fault}")


if __name__ == "__main__":
    main()
