"""The interface of a store of messages, the changes that a host stores, and the messages that a reader gets."""
import abc
import os
import time
from typing import Iterator, List, NamedTuple, Optional, Sequence, Union

#: The states of a message; the reason of an incomplete message that a host left open.
OPEN, COMPLETE, INCOMPLETE, INVALID = "open", "complete", "incomplete", "invalid"
LEFT = "the host was stopped"
#: The first word of the reason of a message that isn't complete and from which a complete one was made.
FIXED = "fixed: "
#: How many messages a page lists.
LISTED = 100


class StoreError(Exception):
    """Something can't be stored, or a store can't be opened."""


class Begin(NamedTuple):
    """A message begins on a line."""

    key: str
    line: str
    peer: str
    encoding: str
    at: float


class Add(NamedTuple):
    """Bytes of a message as the host received them: one text, or the part of a text that belongs to it."""

    key: str
    place: int
    at: float
    body: bytes


class End(NamedTuple):
    """A message ends, with its state; the reason why it isn't complete, or what was fixed in it; and the digest and the
    size of all its bytes."""

    key: str
    line: str
    state: str
    reason: str
    digest: str
    size: int
    at: float


Change = Union[Begin, Add, End]
Unit = Sequence[Change]


class Stored(NamedTuple):
    """A stored message. Only a complete message has a number: numbers rise in the order in which messages became
    complete. The reason of a complete message is what was fixed in it."""

    number: Optional[int]
    key: str
    line: str
    peer: str
    encoding: str
    began: float
    ended: Optional[float]
    state: str
    reason: str
    again_of: Optional[str]
    body: bytes


class Head(NamedTuple):
    """A message without its bytes: how many they are."""

    number: Optional[int]
    line: str
    began: float
    ended: Optional[float]
    state: str
    reason: str
    key: str
    size: int


class LineCount(NamedTuple):
    """How many messages of a line are stored. An incomplete or invalid message from which a complete one was made
    doesn't count."""

    line: str
    complete: int
    again: int
    incomplete: int
    invalid: int
    open: int
    last: Optional[float]
    #: How many complete messages were fixed.
    fixed: int = 0


class Store(abc.ABC):
    """A store. `start` opens it for one host. `commit` returns when all changes are on the disk.

    A repeated message (of the same line, with the same bytes) is stored too, with the key of the first one.
    """

    #: How many changes of one line are committed together at most, so that other lines don't wait for long.
    part = 60
    #: Whether a host has the store as long as it runs, and not only as long as it is connected.
    held_to_the_end = True

    @abc.abstractmethod
    def start(self, host: str) -> List[Stored]:
        """Opens the store for this host and returns the messages that an earlier run left open, in the order in which
        they began and without their bytes. This host must end them. StoreError if another host has the store."""

    @abc.abstractmethod
    def body_of(self, key: str) -> bytes:
        """The bytes of an open message. Don't call it while changes are committed."""

    @abc.abstractmethod
    def commit(self, units: Sequence[Unit]) -> None:
        """Stores these changes: all are on the disk when it returns. After a StoreError none of them may be
        acknowledged, although some may be on the disk: as an incomplete message, or as the first of two that are
        marked."""

    @abc.abstractmethod
    def messages(self, after: int = 0, limit: Optional[int] = None) -> Iterator[Stored]:
        """Complete messages with a number above `after`, in order."""

    @abc.abstractmethod
    def others(self) -> Iterator[Stored]:
        """Incomplete and invalid messages, in the order in which they began. A message that a host left open is
        incomplete once that host doesn't run."""

    @abc.abstractmethod
    def counts(self) -> List[LineCount]:
        """How many messages of each line are stored."""

    @abc.abstractmethod
    def heads(self, after: int, most: int) -> List[Head]:
        """Complete messages with a number above `after`, in order, without their bytes."""

    @abc.abstractmethod
    def last_heads(self, line: str, most: int = LISTED) -> List[Head]:
        """The last complete messages of a line, among the last ones of all; the newest first."""

    @abc.abstractmethod
    def not_complete(self, line: Optional[str] = None, most: int = LISTED) -> List[Head]:
        """The last incomplete and invalid messages, of a line or of all; the newest first."""

    @abc.abstractmethod
    def message(self, key: str) -> Optional[Stored]:
        """A message that isn't open, by its key."""

    @abc.abstractmethod
    def count_after(self, number: int) -> int:
        """How many complete messages have a number above this one."""

    @abc.abstractmethod
    def number_at(self, at: float) -> int:
        """A number such that every message stored at this time or later has a greater one."""

    @abc.abstractmethod
    def number_before(self, number: int, count: int) -> int:
        """A number such that at most so many complete messages have a number above it and up to this one."""

    @abc.abstractmethod
    def is_held(self, host: str = "") -> bool:
        """Whether a host of this name, or any, has the store now."""

    @abc.abstractmethod
    def close(self) -> None:
        """Closes the store, so that another host can open it."""


def new_key() -> str:
    """A key that no other message has; keys sort by the time at which they were made."""
    return f"{time.time_ns():016x}{os.urandom(4).hex()}"
