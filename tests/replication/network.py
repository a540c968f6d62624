"""Linux namespaces: a network in which members of etcd can be partitioned, and folders that can be full.

All of it belongs to the namespaces of one run, which end with its processes, and none of it is visible outside.
"""
from __future__ import annotations

import os
import shutil
import subprocess
import sys
from dataclasses import dataclass
from pathlib import Path

INSIDE = "BOHM_REPLICAS_INSIDE"
SUBNET = "10.77.0."
BRIDGE = "bohm0"
# A link-layer address that no interface has: packets sent there are lost silently.
NOBODY = "02:00:00:00:00:ff"


def run(*command: str) -> None:
    subprocess.run(command, check=True, capture_output=True)


def unshare() -> list[str]:
    user = [] if os.geteuid() == 0 else ["--user", "--map-root-user"]
    return ["unshare", *user, "--net", "--mount", "--propagation", "private"]


def missing() -> str | None:
    """Why namespaces can't be made here; None if they can."""
    if inside():
        return None
    for command in ("unshare", "nsenter", "ip", "mount"):
        if not shutil.which(command):
            return f"there is no {command}"
    trial = "mount -t tmpfs none /mnt && ip link add name one type veth peer name two"
    made = subprocess.run([*unshare(), "sh", "-c", trial], capture_output=True, text=True)
    return made.stderr.strip() or "unshare is refused" if made.returncode else None


def enter() -> None:
    """Restarts the same program in its own namespaces, unless it is in them already."""
    if not inside():
        os.execvpe("unshare", [*unshare(), sys.executable, *sys.argv], os.environ | {INSIDE: "1"})


def inside() -> bool:
    return bool(os.environ.get(INSIDE))


@dataclass(frozen=True)
class Seat:
    """Where a member of etcd runs: its address, its two ports, and the words that precede its command."""
    host: str
    client: int
    peer: int
    words: list[str]


def make(count: int) -> list[Seat]:
    """Makes a namespace for each member, all on one bridge, to which this namespace is connected too."""
    Path("/run/netns").mkdir(parents=True, exist_ok=True)
    run("mount", "-t", "tmpfs", "none", "/run/netns")
    run("ip", "link", "set", "lo", "up")
    run("ip", "link", "add", BRIDGE, "type", "bridge")
    run("ip", "addr", "add", f"{SUBNET}254/24", "dev", BRIDGE)
    run("ip", "link", "set", BRIDGE, "up")
    for number in range(1, count + 1):
        name = f"m{number}"
        run("ip", "netns", "add", name)
        run("ip", "link", "add", name, "type", "veth", "peer", "name", "eth0", "netns", name)
        run("ip", "link", "set", name, "master", BRIDGE, "up")
        run("ip", "-n", name, "addr", "add", f"{SUBNET}{number}/24", "dev", "eth0")
        run("ip", "-n", name, "link", "set", "eth0", "up")
        run("ip", "-n", name, "link", "set", "lo", "up")
    return [Seat(f"{SUBNET}{number}", 2379, 2380, ["nsenter", f"--net=/run/netns/m{number}"])
            for number in range(1, count + 1)]


def part(one: int, other: int) -> None:
    """From here on, packets between two members are lost."""
    for here, there in ((one, other), (other, one)):
        run("ip", "-n", f"m{here}", "neigh", "replace", f"{SUBNET}{there}", "lladdr", NOBODY, "dev", "eth0",
            "nud", "permanent")


def join(one: int, other: int) -> None:
    for here, there in ((one, other), (other, one)):
        run("ip", "-n", f"m{here}", "neigh", "del", f"{SUBNET}{there}", "dev", "eth0")


def small_disk(folder: Path, size: str) -> None:
    """Gives a folder its own small disk."""
    folder.mkdir(parents=True)
    run("mount", "-t", "tmpfs", "-o", f"size={size}", "none", str(folder))


def drop_disk(folder: Path) -> None:
    if folder.is_mount():
        run("umount", "--lazy", str(folder))


def fill(folder: Path) -> None:
    """Fills a folder's disk to the last byte."""
    with (folder / "filler").open("wb", buffering=0) as file:
        for size in (2**20, 4096, 1):
            try:
                while True:
                    file.write(bytes(size))
            except OSError:
                continue


def empty(folder: Path) -> None:
    (folder / "filler").unlink(missing_ok=True)
