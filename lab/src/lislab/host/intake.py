"""Finds the messages in the texts of a line, and returns the changes that store them. The proved reader decides where a
record ends, which record may come next, and which is the last of its message."""
import hashlib
import re
from typing import Callable, Dict, Iterable, Iterator, List, Optional, Tuple

from lislink.codes import Reason, Status
from lislink.letters import Letters
from lislink.records import MessageError, Reader
from lislink.rows import Row
from ..model.store import COMPLETE, INCOMPLETE, INVALID, Add, Begin, Change, End, new_key
from .unknown import Unknown

_WORDS = {
    Reason.BAD_RECORD: "malformed",
    Reason.NOT_HEADER: "no header before it",
    Reason.NO_PARENT: "no record above it that it belongs to",
    Reason.SECOND_HEADER: "a second header",
    Reason.TOO_LONG: "too long",
    Reason.OUT_OF_MEMORY: "out of memory",
}


#: A step of the work takes PIECE bytes of a text, if a record ends there. The first FIRST bytes of a message, or of a
#: text that isn't complete, are held in the line's own room.
PIECE, FIRST = 1024, 1 << 16
_NEXT_HEADER = re.compile(rb"\r[Hh][^0-9A-Za-z]")


class TooLong(Exception):
    """A message has more bytes than the line accepts."""


class Pool:
    """Room that all lines of a host share: for the bytes that each holds over its first ones."""

    def __init__(self, most: int) -> None:
        self._left = most

    def taken(self, has: int, size: int) -> Optional[int]:
        """Takes room for somebody who had `has` bytes of it and holds `size` bytes now. Returns how many bytes of it
        they have; None if there is no room."""
        wants = max(0, size - FIRST)
        if wants - has > self._left:
            return None
        self._left -= wants - has
        return wants


class TextRoom:
    """The room of a line for a text that isn't complete. All lines share what is over the first bytes of each."""

    def __init__(self, pool: Pool, note: Callable[[bool], None]) -> None:
        self._pool, self._note = pool, note
        #: How many bytes of the pool the line has; how many bytes came since its last text was complete.
        self.has = self.open = 0

    def look(self, held: int) -> None:
        """Takes room for a text of which so many bytes are held, if it needs any. Calls `note` with whether there is
        room."""
        if held > FIRST or self.has:
            has = self._pool.taken(self.has, held)
            self.has = self.has if has is None else has
            self._note(has is not None)

    def close(self) -> None:
        """Gives the room back, and calls `note` no more."""
        self._pool.taken(self.has, 0)
        del self._note


class Held:
    """Limits how many bytes of unfinished messages the lines of a host hold, to fix them if they end without being
    complete. A message may have `most` bytes; all of them share `all_lines` bytes over their first ones."""

    def __init__(self, most: int, all_lines: int = 0) -> None:
        self.most, self._pool = most, Pool(all_lines or most)
        #: A message up to this size needs no room of the pool.
        self.first = min(FIRST, most)

    def takes(self, one: "_Message") -> bool:
        """Takes room for a message. Returns whether it may be held at its present size."""
        has = self._pool.taken(one.held, len(one.body or b"")) if one.size <= self.most else None
        one.held = one.held if has is None else has
        return has is not None

    def drop(self, one: "_Message") -> None:
        """Drops the bytes of a message, and gives their room back."""
        one.held, one.body = self._pool.taken(one.held, 0) or 0, None


class _Message:
    """A message that goes on: its digest so far, the number of its records, and why it can't be read."""

    def __init__(self, begin: Begin, reader: Reader, body: Optional[bytearray], is_coded: bool) -> None:
        self.key, self.begin, self.reader, self.digest = begin.key, begin, reader, hashlib.sha256()
        #: How many bytes its reader had read before it.
        self.start = reader.read
        #: Whether the codes of its results are looked up.
        self.is_coded = is_coded
        #: All its bytes, unless they are too many to be fixed; how many bytes of the pool they have.
        self.body, self.held = body, 0
        self.places = self.size = self.records = 0
        #: Why it can't be read; and what its letters look like, from the first one that isn't ASCII.
        self.fault, self.letters = "", None  # type: str, Optional[Letters]
        #: Where its last record ended, in bytes of the message.
        self.ended = 0


class Intake:
    """Turns the texts of a line into changes for the store. It holds the bytes of a message until that ends, as far as
    `held` allows. If the message isn't complete then, `bodies` has how it began and its bytes, by its key."""

    def __init__(
        self,
        line: str,
        peer: str,
        encoding: str,
        most: int,
        clock: Callable[[], float],
        held: Optional[Held] = None,
        unknown: Optional[Unknown] = None,
    ) -> None:
        self.line, self.peer, self.encoding, self.most, self.clock = line, peer, encoding, most, clock
        #: The codes that the line's code mapping lacks.
        self.unknown = unknown or Unknown(line)
        #: Called with each record; and at the end of a message that can't be read or breaks off.
        self._note: Optional[Callable[[Row], None]] = None
        self._broken: Callable[[], None] = lambda: None
        self._held, self.bodies = held, {}  # type: Optional[Held], Dict[str, Tuple[Begin, bytes]]
        self._message: Optional[_Message] = None
        #: The reader of the last message, if that was complete and the reader has no bytes left.
        self._reader: Optional[Reader] = None
        #: The complete messages whose letters look like those of another encoding, by their keys, and that encoding.
        self.letters: Dict[str, str] = {}

    def listens(self, note: Callable[[Row], None], broken: Callable[[], None]) -> None:
        """Sets what is called with each record, and at the end of a message that can't be read or breaks off."""
        self._note, self._broken = note, broken

    def take(self, text: bytes) -> Iterator[List[Change]]:
        """Yields the changes that store a text, in steps of short work. Raises TooLong if a message passes the limit.
        A caller that can't store the changes, or doesn't take all of them, calls `drop`."""
        for piece in (text,) if len(text) <= PIECE and text.endswith(b"\r") else _pieces(text):
            at = 0
            while at < len(piece):
                changes: List[Change] = []
                if self._message is None:
                    self._begin(changes)
                at += self._take_some(piece[at:] if at else piece, changes)
                yield changes

    @property
    def goes_on(self) -> bool:
        """Whether a message has begun and not ended."""
        return self._message is not None

    def spoil(self, reason: str) -> None:
        """Makes the message that goes on invalid, for this reason. It is neither delivered nor fixed."""
        one = self._message
        if one is not None:
            one.fault, one.body = _after(one, reason) + (f"; {one.fault}" if one.fault else ""), None

    def drop(self, reason: str) -> List[Change]:
        """Returns the changes that end the message that goes on, because no more of it comes. The records that were
        acknowledged stay in the store, with the reason."""
        one = self._message
        if one is None:
            return []
        self._broken()
        changes: List[Change] = []
        self._end(INVALID if one.fault else INCOMPLETE, one.fault or _after(one, reason), changes)
        return changes

    def _begin(self, changes: List[Change]) -> None:
        begin = Begin(new_key(), self.line, self.peer, self.encoding, self.clock())
        reader, self._reader = self._reader or Reader(), None
        self._message = _Message(begin, reader, bytearray() if self._held else None, self.unknown.table is not None)
        changes.append(begin)

    def _take_some(self, text: bytes, changes: List[Change]) -> int:
        """Takes the bytes of a text that belong to the message. Returns how many these are; none if a header begins
        another message."""
        one = self._message
        assert one is not None
        if one.fault:
            return self._pass_over(one, text, 0, changes)
        try:
            for row in one.reader.feed(text):
                if one.is_coded:
                    self.unknown.look(one.key, row, self.encoding)
                if self._note is not None:
                    self._note(row)
                one.records += 1
                one.ended = one.reader.read - one.start
                if row.letter == "L":
                    end = one.ended - one.size
                    self._add(one, text[:end], changes)
                    self._end(COMPLETE, "", changes)
                    return end
        except MessageError as error:
            return self._reject(one, text, error, changes)
        self._add(one, text, changes)
        return len(text)

    def _reject(self, one: _Message, text: bytes, error: MessageError, changes: List[Change]) -> int:
        """A record can't be read, or isn't allowed at its place. A header begins another message; with any other record
        the message becomes invalid."""
        self._broken()
        start = one.ended - one.size  # where it begins in the text; below 0 in an earlier one
        if start >= 0 and one.records and is_header(text, start):
            self._add(one, text[:start], changes)
            self._end(INCOMPLETE, _after(one, "a header comes before its L record"), changes)
            return start
        one.fault = _fault(one, text, error)
        return self._pass_over(one, text, text.find(b"\r", max(start, 0)) + 1 or len(text), changes)

    def _pass_over(self, one: _Message, text: bytes, start: int, changes: List[Change]) -> int:
        """Adds the text up to the next header to a message that can't be read."""
        if not is_header(text, start):
            found = _NEXT_HEADER.search(text, start)
            start = found.start() + 1 if found else len(text)
        self._add(one, text[:start], changes)
        if start < len(text):
            self._end(INVALID, one.fault, changes)
        return start

    def _add(self, one: _Message, body: bytes, changes: List[Change]) -> None:
        if not body:
            return
        if one.size + len(body) > self.most:
            raise TooLong(f"the message has more than {self.most} bytes")
        changes.append(Add(one.key, one.places, self.clock(), body))
        one.places += 1
        one.size += len(body)
        one.digest.update(body)
        if one.letters is None and not body.isascii():
            one.letters = Letters(one.begin.encoding)
        if one.letters is not None:
            one.letters.take(body)
        if one.body is not None and self._held is not None:
            one.body += body
            if one.size > self._held.first and not self._held.takes(one):
                self._held.drop(one)

    def _end(self, state: str, reason: str, changes: List[Change]) -> None:
        one, self._message = self._message, None
        assert one is not None
        if state == COMPLETE and not one.reader.waiting:
            self._reader = one.reader
        else:
            one.reader.close()
        look = one.letters.look() if state == COMPLETE and one.letters is not None else ""
        if look:
            self.letters[one.key] = look
        if state != COMPLETE and one.body:
            self.bodies[one.key] = one.begin, bytes(one.body)
        if self._held is not None:
            self._held.drop(one)
        changes.append(End(one.key, self.line, state, reason, one.digest.hexdigest(), one.size, self.clock()))


def is_header(text: bytes, start: int = 0) -> bool:
    """Returns whether the record at this place may be a header: H, and a byte that may be a delimiter."""
    first, second = text[start : start + 1], text[start + 1 : start + 2]
    return first in (b"H", b"h") and bool(second) and not second.isalnum()


def _pieces(text: bytes) -> Iterator[bytes]:
    """Splits a text into pieces. Each but the last ends where a record ends."""
    start = 0
    while start < len(text):
        last = text.rfind(b"\r", start, start + PIECE) + 1
        end = last or text.find(b"\r", start + PIECE) + 1 or len(text)
        yield text[start:end]
        start = end


def _after(one: _Message, reason: str) -> str:
    """Returns the reason why a message stops, and where it stops."""
    return f"{reason}, after record {one.records}, at byte {one.size}"


def _fault(one: _Message, text: bytes, error: MessageError) -> str:
    """Returns why a record can't be read: its number in the message, the byte at which it begins, and the code."""
    words = f"record {error.number}, from byte {one.ended}: {_WORDS.get(error.reason, error.reason.name)}"
    if error.reason is Reason.NO_PARENT:
        return f"{words}: {chr(error.detail)}"
    if error.reason is not Reason.BAD_RECORD:
        return words
    words = f"{words}: {Status(error.detail).name}"
    if error.detail != Status.FORBIDDEN:
        return words
    place = one.ended + error.place
    byte = text[place - one.size : place - one.size + 1] if place >= one.size else b""
    return f"{words}, byte {place}" + (f" is 0x{byte[0]:02X}" if byte else "")
