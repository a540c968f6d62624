"""Disks that fail beneath a ledger's folder: one that loses its power, one whose synchronisations fail, one that is full."""
import os
import shutil
import subprocess
import sys
import tempfile
from pathlib import Path

SOURCE = Path(__file__).resolve().parent / "faulty.c"


def built(folder):
    """The library that is preloaded, if there is a compiler."""
    if not shutil.which("cc"):
        print("left out, since there is no cc: power cuts, and synchronisations that fail")
        return None
    library = f"{folder}/faulty.so"
    subprocess.run(["cc", "-O2", "-Wall", "-Wextra", "-shared", "-fPIC", "-o", library, SOURCE, "-ldl"], check=True)
    return library


class Shadow:
    """What a disk has synchronised of a ledger's folder. What is there at the start is on the disk."""

    def __init__(self, folder):
        self.folder, self.place = folder, folder / "shadow"
        self.place.mkdir(exist_ok=True)
        files = list(folder.glob("ledger*"))
        (self.place / "names").write_text("".join(f"{each.stat().st_ino} {each.name}\n" for each in files))
        for each in files:
            shutil.copy(each, self.place / str(each.stat().st_ino))

    def cut(self, rng):
        """The disk loses its power: of what was written since, drawn sectors are there, or none."""
        names = dict(line.split(" ")[::-1] for line in (self.place / "names").read_text().splitlines())
        left = {name: torn(rng, self.folder / name, self.place / inode) for name, inode in names.items() if name.startswith("ledger")}
        shutil.rmtree(self.place)
        for each in self.folder.glob("ledger*"):
            each.unlink()
        for name, content in left.items():
            if not name.endswith("-shm"):
                (self.folder / name).write_bytes(content)


def torn(rng, now, synced):
    """A file's content behind a power cut: what was synchronised, and drawn sectors of what was written since. A file that
    was cut off is so as a whole, or not at all: then nothing written behind that is there."""
    old = synced.read_bytes() if synced.exists() else b""
    new = now.read_bytes() if now.exists() and str(now.stat().st_ino) == synced.name else old
    if len(new) < len(old):
        return rng.choice([old, new, b""])
    share = rng.choice([0, 0, 0.1, 0.5, 0.9, 1])
    length = rng.choice([len(old), len(new)])
    parts = []
    for at in range(0, length, 512):
        part = (new if rng.random() < share else old)[at:at + 512]
        parts.append(part.ljust(min(512, length - at), b"\0"))
    return b"".join(parts)


def fill(folder):
    """Fills the disk of a folder. Returns the file that takes the room."""
    ballast = folder / "ballast"
    try:
        with ballast.open("wb") as file:
            while True:
                file.write(bytes(4096))
                file.flush()
    except OSError:
        return ballast


def small(megabytes, arguments):
    """The folder of a small disk, in a process that this one starts with these arguments; nothing in the first one, once the
    other has ended, or where there are no mount namespaces."""
    if os.environ.get("LEDGER_SMALL"):
        return Path(os.environ["LEDGER_SMALL"])
    if subprocess.run(["unshare", "-m", "true"], capture_output=True).returncode:
        print("left out, since there are no mount namespaces: a full disk")
        return None
    with tempfile.TemporaryDirectory() as folder:
        script = f"mount -t tmpfs -o size={megabytes}m none {folder} && exec \"$@\""
        environment = {**os.environ, "LEDGER_SMALL": folder}
        if subprocess.run(["unshare", "-m", "sh", "-c", script, "sh", sys.executable, *arguments], env=environment).returncode:
            sys.exit(1)
    return None
