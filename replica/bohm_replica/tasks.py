"""Tasks of an event loop that are ended together."""
import asyncio
from typing import Any, Collection

# Seconds from one try to end a task to the next.
AGAIN = 0.2


async def cancelled(tasks: "Collection[asyncio.Future[Any]]") -> None:
    """Ends tasks, and waits until they have ended. Before Python 3.12 `asyncio.wait_for` loses a cancellation that comes together
    with its result, so it is tried again."""
    waiting = {*tasks}
    while waiting:
        for task in waiting:
            task.cancel()
        ended, waiting = await asyncio.wait(waiting, timeout=AGAIN)
        for task in ended:
            # A fault that nobody looks at would be reported.
            if not task.cancelled():
                task.exception()
