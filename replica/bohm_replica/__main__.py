"""Starts a replica: `corkbamboo-replica [CONFIGURATION] [--OPTION VALUE]..`."""
import asyncio
import signal
import sys
from typing import NoReturn

from .access import BadUsers
from .bohm_of import bohm
from .log import OtherEdition
from .options import BadOptions, read
from .replica import Ended, InUse, Replica

# The status of a replica that had better not be started again before somebody has looked.
NOT_AGAIN = 3


async def run(replica: Replica) -> None:
    ended = asyncio.Event()
    for number in (signal.SIGTERM, signal.SIGINT):
        asyncio.get_running_loop().add_signal_handler(number, ended.set)
    await replica.run(ended)


async def started(words: "list[str]") -> None:
    options = read(words)
    await run(Replica(options, bohm.load(options.get("library"))))


def fail(status: int, fault: Exception) -> NoReturn:
    name = "" if isinstance(fault, Ended) else f"{type(fault).__name__}: "
    print(f"ended: {name}{fault}", file=sys.stderr, flush=True)
    sys.exit(status)


def main() -> None:
    try:
        asyncio.run(started(sys.argv[1:]))
    except (BadOptions, BadUsers, OtherEdition) as fault:
        fail(2, fault)
    except Ended as fault:
        fail(NOT_AGAIN, fault)
    except (OSError, InUse, bohm.LedgerError, bohm.BohmError) as fault:
        fail(1, fault)


if __name__ == "__main__":
    main()
