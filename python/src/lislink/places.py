"""A message as places in its text: where its records are, and the record that each is under. The proved library finds
them in one call; a record's fields are split here when they are asked for, as those of a `Row` are."""
import ctypes
import struct
import threading
from typing import Callable, Iterator, List, NamedTuple, Optional, Tuple

from . import _library
from ._checks import as_bytes, as_number
from .codes import Status
from .link import address
from .records import MessageError, next_header
from .rows import Marks, Row, marks_of

#: A record as the library gives it: where it begins, the index of the record that it is under, how long it is, its
#: letter.
_PLACE = struct.Struct("@QQIB3x")


class _Room(threading.local):
    """The room into which the library writes places: one for each thread, since it is read at once."""

    def __init__(self) -> None:
        self.make(512)

    def make(self, count: int) -> None:
        """Makes room for so many records."""
        self.count, self.places = count, (ctypes.c_uint64 * (_PLACE.size * count // 8))()


_ROOM = _Room()


class View:
    """A record in its message's text. Nothing is copied before it is asked for."""

    __slots__ = ("_of", "index")

    def __init__(self, of: "MessagePlaces", index: int) -> None:
        #: Its place in the message, from 0 for the header.
        self._of, self.index = of, index

    def __repr__(self) -> str:
        return f"View({self.index}, {self.text!r})"

    def __eq__(self, other: object) -> bool:
        return isinstance(other, View) and self._of is other._of and self.index == other.index

    def __hash__(self) -> int:
        return hash((id(self._of), self.index))

    @property
    def letter(self) -> str:
        """The letter of its kind in upper case."""
        return chr(self._of.places[self.index][3])

    @property
    def text(self) -> bytes:
        """The record as it came, without its CR."""
        start, _, size, _ = self._of.places[self.index]
        return self._of.data[start : start + size]

    @property
    def parent(self) -> "View":
        """The record that it is under; the header is under itself."""
        return View(self._of, self._of.places[self.index][1])

    @property
    def row(self) -> Row:
        """The record with its fields."""
        text, marks = self.text, self._of.marks
        return Row(self.letter, text, marks, (text[5:] if self.index == 0 else text).count(marks[0]), None)

    def part(self, field: int, repeat: int = 0, component: int = 0) -> Optional[bytes]:
        """The bytes that a component means; None if there is no such component. The letter is field 1, a header's
        delimiters are field 2; repeats and components are counted from 0."""
        return self.row.part(field, repeat, component)


class ResultView(NamedTuple):
    """A result with the order and the patient that it belongs to."""

    #: The patient.
    patient: View
    #: The order.
    order: View
    #: The result.
    result: View


class MessagePlaces:
    """The message that begins at a place of a text. Its records are views of the text, which it keeps."""

    def __init__(self, data: bytes, start: int = 0) -> None:
        """Reads the message. MessageError says which record can't come next, or that the text ends too early; its
        number is that in the message. ValueError if the text has no byte there."""
        #: The whole text, and where in it the message begins.
        self.data, self.start = as_bytes(data), as_number(start, 0, len(data), "the start")
        told, found = _library.MessageOut(), _library.Found()
        text, size = address(self.data) + self.start, len(self.data) - self.start
        call = _library.calls()["message_places"]
        status = call(text, size, _ROOM.places, _ROOM.count, ctypes.byref(told), ctypes.byref(found))
        if status == Status.TOO_SHORT:
            _ROOM.make(told.count)
            status = call(text, size, _ROOM.places, _ROOM.count, ctypes.byref(told), ctypes.byref(found))
        if status == Status.NO_RECORD:
            raise ValueError("the text has no byte there")
        if status:
            raise MessageError(found.number, found.reason, found.detail, found.place)
        made = memoryview(_ROOM.places).cast("B")[: _PLACE.size * told.count]
        #: Of each record: where it begins, the index of the record that it is under, how long it is, its letter.
        self.places: List[Tuple[int, int, int, int]] = [
            (self.start + at, parent, size, letter) for at, parent, size, letter in _PLACE.iter_unpack(made)
        ]
        #: The place after its last record, where the next message begins.
        self.end = self.start + told.len
        #: The delimiters as a row uses them.
        self.marks: Marks = marks_of(bytes(told.delimiters))

    def __len__(self) -> int:
        return len(self.places)

    def __getitem__(self, index: int) -> View:
        return View(self, range(len(self.places))[index])

    @property
    def rows(self) -> List[Row]:
        """Its records with their fields."""
        data, marks = self.data, self.marks
        texts = [(chr(letter), data[at : at + size]) for at, _, size, letter in self.places]
        return [Row(letter, text, marks, text.count(marks[0], 5 if letter == "H" else 0), None) for letter, text in texts]

    def _of(self, letter: int) -> List[View]:
        return [View(self, index) for index, place in enumerate(self.places) if place[3] == letter]

    @property
    def patients(self) -> List[View]:
        """Its patients."""
        return self._of(ord("P"))

    @property
    def orders(self) -> List[View]:
        """Its orders, each under its patient."""
        return self._of(ord("O"))

    @property
    def queries(self) -> List[View]:
        """Its queries."""
        return self._of(ord("Q"))

    @property
    def results(self) -> List[ResultView]:
        """Its results, each with the order and the patient that it belongs to."""
        views = ((one.parent, one) for one in self._of(ord("R")))
        return [ResultView(order.parent, order, result) for order, result in views]


def message_places(
    data: bytes, on_fault: Optional[Callable[[MessageError], None]] = None
) -> Iterator[MessagePlaces]:
    """The messages of a text, one after another. MessageError at the first that can't be read; with `on_fault` it is
    given to that, and reading goes on at the next header."""
    data, start = as_bytes(data), 0
    while start < len(data):
        try:
            found = MessagePlaces(data, start)
        except MessageError as error:
            if on_fault is None:
                raise
            on_fault(error)
            start = next_header(data, start)
        else:
            yield found
            start = found.end
