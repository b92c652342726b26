"""A record of a message as data: its parts become bytes when they are asked for. The proved library says where a
record is, what its letter and its delimiters are, and how many fields and parts it has; it also decodes escapes. The
record is split at its delimiters here: that must give the same numbers, and `tests/field` compares it with the
library's own parts."""
import ctypes
from typing import Any, Dict, Iterator, List, Optional, Tuple

from . import _library

#: Delimiters as a row uses them: the field's, the repeat's and the component's as bytes; the repeat's, the component's
#: and the escape as numbers, which `in` finds faster; all four.
Marks = Tuple[bytes, bytes, bytes, int, int, int, bytes]
_MARKS: Dict[bytes, Marks] = {}


def marks_of(delimiters: bytes) -> Marks:
    """The delimiters field, repeat, component, escape as a row uses them."""
    found = _MARKS.get(delimiters)
    if found is None:
        one, two, three, four = delimiters
        found = (bytes([one]), bytes([two]), bytes([three]), two, three, four, delimiters)
        _MARKS[delimiters] = found
    return found


class Row:
    """A record of a message: its letter, and its fields as lists of repeats, which are lists of components. It
    unpacks to these two."""

    __slots__ = ("letter", "text", "count", "_marks", "_parts", "_split")

    def __init__(self, letter: str, text: bytes, marks: Marks, count: int, parts: Optional[int]) -> None:
        #: The letter of its kind in upper case, and the record as it came, without its CR.
        self.letter, self.text = letter, text
        #: How many fields it has after its letter, or after a header's delimiters.
        self.count = count
        self._marks, self._parts = marks, parts
        self._split: Optional[List[bytes]] = None

    def __iter__(self) -> Iterator[Any]:
        return iter((self.letter, self.fields))

    def __eq__(self, other: object) -> bool:
        if not isinstance(other, (Row, tuple)):
            return NotImplemented
        return tuple(self) == tuple(other)

    __hash__ = None  # type: ignore[assignment]

    def __repr__(self) -> str:
        return f"Row({self.letter!r}, {self.text!r})"

    @property
    def first(self) -> int:
        """The standard's number of the first of `fields`."""
        return 3 if self.letter == "H" else 2

    @property
    def delimiters(self) -> bytes:
        """The delimiters that it was read under: field, repeat, component, escape."""
        return self._marks[6]

    def _cut(self) -> List[bytes]:
        """The fields, each at its number less one; in the first places is something for the letter and a header's
        delimiters."""
        if self.letter == "H":
            found = self.text[5:].split(self._marks[0])
            found.insert(0, b"")
            good = len(found) == self.count + 2
        else:
            found = self.text.split(self._marks[0])
            good = len(found) == self.count + 1
        if not good:
            raise AssertionError(f"{self!r} hasn't {self.count} fields")
        self._split = found
        return found

    def part(self, field: int, repeat: int = 0, component: int = 0) -> Optional[bytes]:
        """The bytes that a component means; None if there is no such component. The letter is field 1, a header's
        delimiters are field 2; repeats and components are counted from 0."""
        found = self._split or self._cut()
        if field < 3 and field < self.first or field > len(found):
            return None
        one = found[field - 1]
        _, between, inside, is_between, is_inside, escape, _ = self._marks
        if repeat or is_between in one:
            some = one.split(between)
            if not 0 <= repeat < len(some):
                return None
            one = some[repeat]
        if component or is_inside in one:
            some = one.split(inside)
            if not 0 <= component < len(some):
                return None
            one = some[component]
        return self._meant(one) if escape in one else one

    def written(self, number: int) -> bytes:
        """A field as it came; empty if there is no such field. The letter is field 1, a header's delimiters are
        field 2."""
        found = self._split or self._cut()
        return found[number - 1] if self.first <= number <= len(found) else b""

    def plain(self, number: int) -> Optional[bytes]:
        """A field as it came, if it is one text without an escape, and empty if there is no such field; None if it has
        repeats, components or escapes."""
        found = self._split or self._cut()
        if not 1 < number <= len(found):
            return b""
        one = found[number - 1]
        _, _, _, between, inside, escape, _ = self._marks
        return None if inside in one or between in one or escape in one else one

    def texts(self, encoding: str) -> List[Optional[str]]:
        """Its fields as texts without blanks around them, each at its number less one; None for one that has repeats,
        components or escapes."""
        _, _, _, between, inside, escape, _ = self._marks
        return [
            None if inside in one or between in one or escape in one else one.decode(encoding, "replace").strip()
            for one in self._split or self._cut()
        ]

    def meaning(self, data: bytes) -> bytes:
        """What the bytes of a component mean: its escapes are decoded."""
        return self._meant(data) if self._marks[5] in data else data

    def field(self, number: int) -> List[List[bytes]]:
        """A field as its repeats, which are lists of components; empty if there is no such field."""
        found = self._split or self._cut()
        return self._repeats(found[number - 1]) if self.first <= number <= len(found) else []

    def _repeats(self, one: bytes) -> List[List[bytes]]:
        _, between, inside, _, _, escape, _ = self._marks
        repeats = [some.split(inside) for some in one.split(between)]
        if escape in one:
            return [[self._meant(part) if escape in part else part for part in some] for some in repeats]
        return repeats

    @property
    def fields(self) -> List[List[List[bytes]]]:
        """All fields, each as its repeats, which are lists of components."""
        _, between, inside, is_between, is_inside, escape, _ = self._marks
        found, text = self._split or self._cut(), self.text
        if self.letter == "H":
            found, text = found[2:], text[5:]
        else:
            found = found[1:]
        if self._parts is not None and self._parts != self.count + text.count(inside) + text.count(between):
            raise AssertionError(f"{self!r} hasn't {self._parts} parts")
        if escape in text or is_between in text:
            return [
                self._repeats(one) if is_inside in one or is_between in one or escape in one else [[one]]
                for one in found
            ]
        if is_inside in text:
            return [[one.split(inside) if is_inside in one else [one]] for one in found]
        return [[[one]] for one in found]

    def _meant(self, data: bytes) -> bytes:
        """What the bytes of a component mean."""
        room, size = ctypes.create_string_buffer(len(data)), ctypes.c_size_t()
        given = _library.Delimiters(*self._marks[6])
        place = ctypes.cast(ctypes.c_char_p(data), ctypes.c_void_p)
        words = (place, len(data), room, len(data), ctypes.byref(size))
        status = _library.calls()["part_decode"](ctypes.byref(given), *words)
        if status:
            raise AssertionError(f"the library can't decode {data!r}: status {status}")
        return room.raw[: size.value]
