"""One writer at a time: entries of threads that wait are stored in one commit."""
import contextlib
import threading
from collections import deque
from typing import Callable, Deque, Iterator, Optional, Sequence, Set

from .ledger_file import LedgerError
from .ledger_state import Answer

# The most entries of a commit of several threads.
MOST = 4096


class Ticket:
    """Entries that wait for a commit: then they have answers, or the exception that ended it."""

    def __init__(self, texts: Sequence[str]) -> None:
        self.texts = texts
        self.answers: Optional[Sequence[Answer]] = None
        self.fault: Optional[BaseException] = None


class Turns:
    """Threads take turns: the one whose turn it is stores the entries of all that wait, by `store`."""

    def __init__(self, store: Callable[[Sequence[str]], Sequence[Answer]]) -> None:
        self.store = store
        self.writing = threading.Lock()
        self.waiting: Deque[Ticket] = deque()
        self.inside: Set[int] = set()

    @contextlib.contextmanager
    def alone(self) -> Iterator[None]:
        """Makes this thread the only writer. A signal handler, a finalizer or a callback of the same thread is refused."""
        thread = threading.get_ident()
        if thread in self.inside:
            raise LedgerError("the ledger was called again by its own thread, in the middle of a call: nothing was done")
        self.inside.add(thread)
        try:
            with self.writing:
                yield
        finally:
            self.inside.discard(thread)

    def submit(self, texts: Sequence[str]) -> Sequence[Answer]:
        """Stores entries, and returns their answers."""
        ticket = Ticket(texts)
        self.waiting.append(ticket)
        try:
            with self.alone():
                while ticket.answers is None and ticket.fault is None:
                    self.serve()
        finally:
            with contextlib.suppress(ValueError):
                self.waiting.remove(ticket)
        if ticket.answers is None:
            raise LedgerError(f"the commit of its entries failed: {ticket.fault}") from ticket.fault
        return ticket.answers

    def serve(self) -> None:
        """Stores the entries of the first tickets that wait."""
        group = [self.waiting.popleft()]
        count = len(group[0].texts)
        while self.waiting and count + len(self.waiting[0].texts) <= MOST:
            group.append(self.waiting.popleft())
            count += len(group[-1].texts)
        texts = group[0].texts if len(group) == 1 else [text for ticket in group for text in ticket.texts]
        try:
            answers = self.store(texts)
        except BaseException as fault:
            for ticket in group:
                ticket.fault = fault
            raise
        at = 0
        for ticket in group:
            ticket.answers = answers if len(group) == 1 else answers[at:at + len(ticket.texts)]
            at += len(ticket.texts)
