"""The next message is read and written while the answer to the one before is waited for."""
from typing import Iterator, Optional, Tuple

from ..model.failures import Refused
from ..model.store import Stored, StoreError
from .export import Writer

#: The most bytes of a message besides which another one is held in memory.
SMALL = 1 << 16


class Ahead:
    """Messages in turn, and what is written of each. Both the message that is sent and the next one must be small, so
    that the memory is that of one message."""

    def __init__(self, write: Writer) -> None:
        self._write = write
        self._messages: Iterator[Stored] = iter(())
        self._sent: Optional[Stored] = None
        self._next: Optional[Stored] = None
        #: The key of the next message, and what was written of it.
        self._written: Optional[Tuple[str, bytes]] = None

    def over(self, messages: Iterator[Stored]) -> Iterator[Stored]:
        """These messages, in turn."""
        self._messages, self._next = messages, None
        while True:
            one = next(self._messages, None) if self._next is None else self._next
            self._sent, self._next = one, None
            if one is None:
                return
            yield one

    def look(self) -> None:
        """Reads the next message and writes it. If that fails, it fails again in its turn, where it is reported."""
        if self._sent is None or self._next is not None or len(self._sent.body) > SMALL:
            return
        try:
            self._next = next(self._messages, None)
            if self._next is not None and len(self._next.body) <= SMALL:
                self._written = self._next.key, self._write(self._next)
        except (Refused, StoreError, MemoryError):
            pass

    def write(self, one: Optional[Stored]) -> bytes:
        """What is written of a message."""
        written, self._written = self._written, None
        if one is not None and written is not None and written[0] == one.key:
            return written[1]
        return self._write(one)
