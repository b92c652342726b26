"""Some components of all records of a letter in a text, as lists: the quickest way to a few parts of many records. The
proved library reads each record; the loop over them is one call for a few hundred."""
import ctypes
from typing import List, Optional, Tuple, Union

from . import _library
from ._checks import as_bytes, as_number
from .link import address
from .records import RECORD_BYTES, Reader

#: A component: its field, or its field, repeat and component; these two are 0 if they are left out.
Wanted = Union[int, Tuple[int, ...]]
#: How many bytes a call writes at most, or more for a row of the longest record. What begins a component that isn't
#: there, and one with escapes: the four delimiters of its message follow.
_ROOM = 1 << 18
_ABSENT, _ESCAPED = b"\xff", b"\x7f"
_NUMBERS = (1 << 32) - 1


def _number(wanted: Wanted) -> Tuple[int, int, int]:
    field, *others = (wanted,) if isinstance(wanted, int) else tuple(wanted)
    if len(others) > 2:
        raise ValueError("a component has a field, a repeat and a component")
    repeat, component = (*others, 0, 0)[:2]
    return (
        as_number(field, 0, _NUMBERS, "the field"),
        as_number(repeat, 0, _NUMBERS, "the repeat"),
        as_number(component, 0, _NUMBERS, "the component"),
    )


def _meant(data: bytes, delimiters: bytes) -> bytes:
    """What the bytes of a component mean."""
    room, size = ctypes.create_string_buffer(max(len(data), 1)), ctypes.c_size_t()
    given = _library.Delimiters(*delimiters)
    status = _library.calls()["part_decode"](
        ctypes.byref(given), address(data), len(data), room, len(data), ctypes.byref(size)
    )
    if status:
        raise AssertionError(f"the library can't decode {data!r}: status {status}")
    return room.raw[: size.value]


def _value(cell: bytes) -> Optional[bytes]:
    """What a component means, as the library writes it."""
    if cell == _ABSENT:
        return None
    return _meant(cell[5:], cell[1:5]) if cell.startswith(_ESCAPED) else cell


class _Columns(Reader):
    """A reader of some components alone."""

    def columns(self, data: bytes, letter: int, wanted: Tuple[Wanted, ...]) -> List[List[Optional[bytes]]]:
        """The columns of a whole text."""
        numbers, width = [one for it in wanted for one in _number(it)], len(wanted)
        room = max(_ROOM, width * (RECORD_BYTES + 6))
        out, size, count = ctypes.create_string_buffer(room), ctypes.c_size_t(), ctypes.c_size_t()
        given = ((ctypes.c_uint32 * len(numbers))(*numbers), width)
        work = ((ctypes.c_uint32 * (6 * RECORD_BYTES))(), RECORD_BYTES)
        taken = (letter, *given, *work, out, room, ctypes.byref(size), ctypes.byref(count))
        found: List[List[Optional[bytes]]] = [[] for _ in wanted]
        self._add(data)
        while self._at < len(data):
            read = self._read("columns", *taken)
            self._put(ctypes.string_at(out, size.value), found)
            self._taken += read
            if read == 0:
                self._is_ended(_library.Found())
        self.finish()
        return found

    @staticmethod
    def _put(text: bytes, found: List[List[Optional[bytes]]]) -> None:
        """Puts rows to the columns, each part with a CR after it."""
        cells: List[Optional[bytes]] = [*text.split(b"\r")]
        cells.pop()
        if _ABSENT in text or _ESCAPED in text:
            cells = [_value(cell or b"") for cell in cells]
        for number, column in enumerate(found):
            column += cells[number :: len(found)]


def columns(data: bytes, letter: str, *wanted: Wanted) -> List[List[Optional[bytes]]]:
    """A list for each component that is wanted, with what it means in each record of a letter, in their order: None
    where a record hasn't it. `columns(text, "R", (3, 0, 3), 4)` gives the names and the values of all results of the
    messages in a text; a component is its field, or its field, repeat and component. MessageError if a record can't
    come next, or the text ends too early."""
    if not isinstance(letter, str) or len(letter) != 1 or ord(letter) > 255:
        raise TypeError("a record's letter is one character")
    with _Columns() as reader:
        return reader.columns(as_bytes(data), ord(letter.upper()), wanted)
