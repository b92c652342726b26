"""Records of LIS02-A2: single records, a reader of streams and a writer. Each decision is made by the proved
library."""
import ctypes
import operator
import struct
import threading
from typing import Any, Callable, Iterable, Iterator, List, Optional, Sequence, Tuple, Union

from . import _library
from ._checks import as_bytes, as_number, as_pieces
from .codes import Reason, Status
from .link import LinkError, Owner, address
from .rows import Marks, Row, marks_of

_MOST = (1 << 64) - 1
#: The most bytes of a record, without its CR.
RECORD_BYTES = 65536
#: The most records of one call of the library, and a record as it gives it: where its text begins, its first part, how
#: many fields and parts it has, how long it is, its delimiters, its letter.
TOGETHER = 512
_ENTRY = struct.Struct("@QQQQQ4s4xB7x")
_LETTERS = [chr(letter) for letter in range(256)]


class MessageError(Exception):
    """A record that can't be read: its number in its message, from 1, the reason, and what the reason comes with."""

    def __init__(self, number: int, reason: int, detail: int, place: int) -> None:
        super().__init__(number, Reason(reason).name, detail, place)
        self.number, self.reason, self.detail, self.place = number, Reason(reason), detail, place

    def __reduce__(self) -> Tuple[Any, ...]:
        return type(self), (self.number, self.reason, self.detail, self.place)

    def __str__(self) -> str:
        words = f"record {self.number}: {self.reason.name}: {_library.words_of('reason', self.reason)}"
        if self.reason is not Reason.BAD_RECORD:
            return words
        where = f", byte {self.place} from 0" if self.detail == Status.FORBIDDEN else ""
        return f"{words}: {_library.words_of('status', self.detail)}{where}"


class Record:
    """A record without its CR: a header, or any other record under the delimiters of its message's header."""

    def __init__(self, text: bytes, header: "Optional[Record]" = None) -> None:
        self._text = as_bytes(text)
        self._given: Optional[_library.Delimiters] = header._delimiters if header else None
        self._delimiters: _library.Delimiters = _library.Delimiters()
        told = _library.RecordOut()
        if self._given is None:
            status = _library.calls()["header_read"](
                *self._whole(), ctypes.byref(self._delimiters), ctypes.byref(told)
            )
        else:
            self._delimiters = self._given
            status = _library.calls()["record_read"](ctypes.byref(self._given), *self._whole(), ctypes.byref(told))
        if status:
            raise LinkError(status, None, told.place)
        self.letter, self.fields = chr(told.letter), int(told.fields)

    @property
    def delimiters(self) -> bytes:
        """The delimiters that a header declares, or that the record was read under: field, repeat, component,
        escape."""
        return bytes(self._delimiters)

    def _whole(self) -> Tuple[int, int]:
        return address(self._text), len(self._text)

    def part(self, field: int, repeat: int = 0, component: int = 0) -> Optional[bytes]:
        """The bytes that a component means; None if there is no such component. The letter is field 1, and a
        header's delimiters are field 2; repeats and components are counted from 0."""
        where = [
            as_number(one, 0, _MOST, name)
            for one, name in ((field, "the field"), (repeat, "the repeat"), (component, "the component"))
        ]
        room, size = (ctypes.c_uint8 * max(len(self._text), 1))(), ctypes.c_size_t()
        words = (*self._whole(), *where, room, len(self._text), ctypes.byref(size))
        if self._given is None:
            status = _library.calls()["header_part"](*words)
        else:
            status = _library.calls()["record_part"](ctypes.byref(self._given), *words)
        if status == Status.ABSENT:
            return None
        if status:
            raise LinkError(status)
        return bytes(room[: size.value])


def records(texts: Union[bytes, Iterable[bytes]]) -> Iterator[Record]:
    """The records in a text or in several, each of which may end with its CR, under the delimiters of the last header
    before them."""
    header = None
    for text in as_pieces(texts):
        for line in (text[:-1] if text.endswith(b"\r") else text).split(b"\r"):
            is_header = line[:1] in (b"H", b"h")
            record = Record(line, None if is_header else header)
            header = record if is_header else header
            yield record


class _Room(threading.local):
    """The room into which the library writes records and parts: one for each thread, since it is read at once."""

    def __init__(self) -> None:
        self.entries = (ctypes.c_uint64 * (_ENTRY.size * TOGETHER // 8))()
        self.parts, self.count = (ctypes.c_uint32 * (6 * RECORD_BYTES))(), ctypes.c_size_t()
        #: What the library takes, and the bytes of the entries.
        self.words = (self.entries, TOGETHER, self.parts, RECORD_BYTES, ctypes.byref(self.count))
        self.bytes = memoryview(self.entries).cast("B")


_ROOM = _Room()


class Reader(Owner):
    """Reads the records of a stream that comes in pieces, each where its message may have it."""

    _kind = "reader"

    def __init__(self) -> None:
        super().__init__()
        #: How many bytes of the stream were read: after a record, up to its end; after one that can't be read, up to
        #: its beginning.
        self.read = 0
        #: How many bytes the library has read. Of the records that it has read and that aren't given yet: themselves,
        #: their piece, where in the piece it read from, and the place of that in the stream.
        self._taken = 0
        self._left: Iterator[Tuple[Any, ...]] = iter(())
        self._source: Tuple[bytes, int, int] = b"", 0, 0
        #: The bytes of a record that isn't ended, which the library holds too. Whether the stream is searched for a
        #: header, and then whether a record begins with its next byte.
        self._held, self._searches, self._begins = bytearray(), False, ctypes.c_bool()
        self._marks: Marks = marks_of(b"|\\^&")

    @property
    def waiting(self) -> int:
        """How many of the bytes that were given are still unread, since a loop was left early."""
        return super().waiting + (self._taken - self.read if operator.length_hint(self._left) else 0)

    def feed(self, data: bytes) -> Iterator[Row]:
        """The records that end in these bytes, in order. MessageError at the first that can't be read, and then at
        every call, even without bytes, until `resume`. Bytes that a loop leaves unread are read by the next call."""
        self._add(data)
        if self._searches:
            self._search()
        return self._rows()

    def resume(self) -> None:
        """After a MessageError: goes on at the next header, which may be the record that can't be read, in the bytes
        that are left and in those of the next calls. `feed(b"")` reads those that are left. The message that was open
        is dropped: it has no end."""
        self._begins.value = self._call("resume")
        self._piece, self._at = bytes(self._held) + self._piece[self._at :], 0
        self._taken -= len(self._held)
        self._held, self._searches, self._left = bytearray(), True, iter(())
        self._search()

    def _search(self) -> None:
        """Goes to the next header."""
        left = len(self._piece) - self._at
        come = _library.calls()["header_find"](address(self._piece) + self._at, left, ctypes.byref(self._begins))
        self._at, self._taken, self._searches = self._at + come, self._taken + come, come == left
        self.read = self._taken

    def _rows(self) -> Iterator[Row]:
        is_first = True  # a fault is given also if there are no bytes
        while True:
            piece, at, taken = self._source
            for offset, _, fields, parts, size, delimiters, letter in self._left:
                start = at + offset
                if letter == 72:
                    self._marks = marks_of(delimiters)
                self.read = taken + offset + size + 1
                yield Row(_LETTERS[letter], piece[start : start + size], self._marks, fields, parts)
            if not is_first and self._at >= len(self._piece):
                break
            is_first = False
            row = None if self._read_whole() else self._read_on_by_itself()
            if row is not None:
                self.read = self._taken
                yield row
        self.read = self._taken

    def _read_whole(self) -> bool:
        """Reads records that are whole in the piece by one call; whether there are any."""
        if self._held:
            return False
        room = _ROOM
        self._source = self._piece, self._at, self._taken
        read = self._read("records", *room.words)
        self._left = _ENTRY.iter_unpack(room.bytes[: _ENTRY.size * room.count.value].tobytes())
        self._taken += read
        return read > 0

    def _read_on_by_itself(self) -> Optional[Row]:
        """Reads bytes of a record that isn't whole in the piece, or can't be read; returns the record, if they end
        it."""
        out = _library.Found()
        return self._last_row(out) if self._is_ended(out) else None

    def _is_ended(self, out: _library.Found) -> bool:
        """Reads bytes up to a CR, or a CR; whether that ends a record."""
        at = self._at
        self._taken += self._read("read", ctypes.byref(out))
        if out.kind == 2:
            self.read = self._taken - len(self._held)
            raise MessageError(out.number, out.reason, out.detail, out.place)
        if out.kind == 0:
            self._held += self._piece[at : self._at]
        else:
            self._held.clear()
        return bool(out.kind)

    def _last_row(self, out: _library.Found) -> Row:
        """The record that was read alone, which the library then gives up."""
        table, size = _library.Table(), ctypes.c_size_t()
        self._call("parts", _ROOM.parts, RECORD_BYTES, ctypes.byref(table))
        text = (ctypes.c_uint8 * table.len)()
        self._call("text", text, table.len, ctypes.byref(size))
        letter, fields, self._marks = chr(out.letter), out.fields, marks_of(bytes(table.delimiters))
        self._call("read", 0, 0, ctypes.byref(out))
        return Row(letter, bytes(text), self._marks, fields, table.count)

    def letters(self, data: bytes) -> Iterator[str]:
        """As `feed`, without the fields: the letters of the records that end in these bytes."""
        return (row.letter for row in self.feed(data))

    def finish(self) -> None:
        """The end of the stream: MessageError if a message isn't closed, or a record isn't ended."""
        out = _library.Found()
        if self._call("finish", ctypes.byref(out)):
            raise MessageError(out.number, out.reason, out.detail, out.place)


#: A field: bytes, its components, or its repeats, each of which is bytes or its components.
Field = Union[bytes, Sequence[Union[bytes, Sequence[bytes]]]]


class Writer(Owner):
    """Writes records by their fields, as texts for the link. A field is bytes, a list of components, or a list of
    repeats, at least one of which is a list of components itself."""

    _kind = "writer"

    def start(self, delimiters: bytes = b"|\\^&") -> None:
        """Drops all that was written, and begins with these delimiters: field, repeat, component, escape."""
        given = as_bytes(delimiters)
        if len(given) > 4:
            raise ValueError("a message has four delimiters")
        self._check(self._call("start", ctypes.byref(_library.Delimiters(*given))))

    def record(self, letter: str, fields: Iterable[Field]) -> None:
        """Puts a record after the others; LinkError with the status and, as its place, the number of the field at
        fault."""
        if not isinstance(letter, str) or len(letter) != 1 or ord(letter) > 255:
            raise TypeError("a record's letter is one character")
        self._check(self._call("record", ord(letter)))
        for field in fields:
            if type(field) is bytes:
                status = self._call("field", address(field), len(field))
                if status:
                    raise LinkError(Status(status))
                continue
            *others, last = _repeats_of(field)
            for repeat in others:
                self._put(repeat, "repeat")
            self._put(last, "field")
        place = ctypes.c_size_t()
        self._check(self._call("put", ctypes.byref(place)), place)

    def _put(self, repeat: Sequence[bytes], ends: str) -> None:
        """Puts the components of a repeat; the last one ends the repeat or the field."""
        *others, last = [as_bytes(part) for part in repeat]
        for part in others:
            self._check(self._call("component", address(part), len(part)))
        self._check(self._call(ends, address(last), len(last)))

    def texts(self) -> List[bytes]:
        """The text of each record, with its CR."""
        room, size, texts = ctypes.create_string_buffer(RECORD_BYTES + 1), ctypes.c_size_t(), []
        for place in range(self._call("texts")):
            self._check(self._call("text", place, room, RECORD_BYTES + 1, ctypes.byref(size)))
            texts.append(ctypes.string_at(room, size.value))
        return texts

    @staticmethod
    def _check(status: int, place: Optional[ctypes.c_size_t] = None) -> None:
        if status:
            raise LinkError(Status(status), place=place.value or None if place is not None else None)


def _repeats_of(field: Any) -> List[Sequence[bytes]]:
    """The repeats of a field, each as its components; TypeError for what can't be a field, ValueError without a
    component."""
    parts = [field] if isinstance(field, (bytes, bytearray, memoryview)) else field
    if not isinstance(parts, (list, tuple)):
        raise TypeError(f"a field is bytes or a list of them, not {type(field).__name__}")
    if not any(isinstance(part, (list, tuple)) for part in parts):
        return [parts]
    return [part if isinstance(part, (list, tuple)) else [part] for part in parts]


def messages(
    pieces: Union[bytes, Iterable[bytes]], on_fault: Optional[Callable[[MessageError], None]] = None
) -> Iterator[List[Row]]:
    """The messages of a stream, or of the pieces of one, each as its records. What can't be read is a MessageError,
    also a message that the stream ends within. With `on_fault` it is given to that, the message is dropped, and reading
    goes on at the next header."""
    rows: List[Row] = []
    with Reader() as reader:
        for piece in as_pieces(pieces):
            while True:
                try:
                    for row in reader.feed(piece):
                        rows.append(row)
                        if row.letter == "L":
                            yield rows
                            rows = []
                    break
                except MessageError as error:
                    if on_fault is None:
                        raise
                    on_fault(error)
                    reader.resume()
                    piece, rows = b"", []
        try:
            reader.finish()
        except MessageError as error:
            if on_fault is None:
                raise
            on_fault(error)


def next_header(data: bytes, start: int) -> int:
    """Where in a text the header of the next message begins, after the record that begins at a place: the length of the
    text if there is none. So reading goes on after a message that broke off."""
    data = as_bytes(data)
    start, begins = as_number(start, 0, len(data), "the start"), ctypes.c_bool()
    return start + int(_library.calls()["header_find"](address(data) + start, len(data) - start, ctypes.byref(begins)))
