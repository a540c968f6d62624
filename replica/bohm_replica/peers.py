"""What a replica asks of the others."""
import asyncio
import contextlib
import json
import shutil
from pathlib import Path
from typing import Dict, Optional, Tuple

from . import checkpoints, http_client
from .bohm_of import bohm
from .etcd import Behind, Compacted, Etcd, Refused, Rewound, Unreachable
from .keys import Digest, read_digest, read_member
from .log import Damaged, Log
from .options import Options, first_line
from .ways import address_of

# Seconds that another replica may take to tell its name, and between two rounds through all of them.
ANSWER, ROUND = 2.0, 5.0
FAULTS = (OSError, EOFError, ValueError, KeyError, TypeError, IndexError, asyncio.TimeoutError)


def token_of(options: Options) -> Optional[str]:
    path = options.get("peer-token-file")
    return first_line(path) if path else None


def certificate_of(options: Options) -> Optional[Tuple[str, str]]:
    return (options.get("certificate"), options.get("key")) if options.get("certificate") else None


async def name_at(options: Options, value: Optional[bytes]) -> Optional[str]:
    """The name of the replica that answers where a registered one is said to be; none if it is this one's own place."""
    member = read_member(value) if value else None
    if not member or member.url == options.url:
        return None
    try:
        return str((await asyncio.wait_for(status_of(options, member.url), ANSWER))["name"])
    except FAULTS:
        return None


async def status_of(options: Options, url: str) -> Dict[str, object]:
    scheme, _, rest = url.partition("://")
    context = http_client.context_of(options.get("peer-authority"), certificate_of(options)) if scheme == "https" else None
    line = await http_client.opened(*address_of(rest), context)
    try:
        token = token_of(options)
        heads = {"Authorization": f"Bearer {token}"} if token else {}
        _, _, text = await line.ask("GET", "/status", heads, b"", 1 << 20)
        found: Dict[str, object] = json.loads(text)
        return found
    finally:
        line.close()


async def fetched(options: Options, etcd: Etcd, library: "bohm.Library") -> Optional[Path]:
    """A folder with the files of another replica that fit the log; none if no replica has such."""
    incoming = Path(options.folder) / "incoming"
    with contextlib.suppress(Unreachable, Refused):
        for name, url in (await urls(options, etcd)).items():
            try:
                await checkpoints.fetched(url, token_of(options), options.get("peer-authority"), certificate_of(options), incoming)
                await check(incoming, etcd, library)
                print(f"took the files of {name}", flush=True)
                return incoming
            except (*FAULTS, checkpoints.BadCopy, Damaged, Behind, Compacted, Rewound, bohm.LedgerError) as fault:
                print(f"the files of {name} aren't taken: {type(fault).__name__}: {fault}", flush=True)
    shutil.rmtree(incoming, ignore_errors=True)
    return None


async def urls(options: Options, etcd: Etcd) -> Dict[str, str]:
    """The URLs of the other replicas, those that have most first."""
    found = {}
    for key, value in (await etcd.held(etcd.keys.replicas)).items():
        name, member = etcd.keys.read_name(etcd.keys.replicas, key), read_member(value)
        if name and member and name != options.name:
            found[name] = member
    ordered = sorted(found.items(), key=lambda pair: -pair[1].entries)
    return {name: member.url for name, member in ordered}


async def check(incoming: Path, etcd: Etcd, library: "bohm.Library") -> None:
    """Holds files against the log: they are whole, their last entry is in etcd, and most replicas have their digests."""
    loop = asyncio.get_running_loop()
    log = await loop.run_in_executor(None, Log, str(incoming / checkpoints.NAME), 1 << 62, library)
    try:
        await etcd.confirm(log.position)
        told: Dict[int, Dict[Digest, int]] = {}
        for value in (await etcd.held(etcd.keys.digests)).values():
            digest = read_digest(value)
            if digest and digest.place in log.digests:
                votes = told.setdefault(digest.place, {})
                votes[digest] = votes.get(digest, 0) + 1
        for place, votes in told.items():
            if votes.get(log.digests[place], 0) < max(votes.values()):
                raise checkpoints.BadCopy(f"after entry {place} most replicas have other digests")
    finally:
        await loop.run_in_executor(None, log.release)
