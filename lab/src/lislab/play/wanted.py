"""What a step of a script expects to arrive, and how what arrived differs from it."""
import re
from typing import Iterator, List, NamedTuple, Optional, Sequence, Tuple, Union

from lislink.message import NAMES as FIELDS
from .frames import ACK, EOT, NAK, checksum, made, quoted, read_frame, shown

#: A difference: what was wanted and what arrived, each as one word.
Difference = Tuple[str, str]
#: What any text fits.
ANY = b".."
#: The most samples that are named of orders that came.
SAMPLES = 20


class Exact(NamedTuple):
    """These bytes."""

    data: bytes


class Framed(NamedTuple):
    """A frame: its number, its text (`..` in it is any text), whether it ends in ETX, its checksum if it isn't the
    right one, and the fields that may differ."""

    number: int
    text: bytes
    is_last: bool
    total: bytes = b""
    but: Tuple[str, ...] = ()


class AnyUnit(NamedTuple):
    """Any unit; with a sample, a frame that has an order for it."""

    order: bytes = b""


class Frames(NamedTuple):
    """As many frames as come, and EOT; with a sample, one of them has an order for it."""

    order: bytes = b""


Unit = Union[Exact, Framed, AnyUnit, Frames]


def bytes_of(unit: Unit) -> Optional[bytes]:
    """The bytes of a unit to send; None if the unit can only be received."""
    if isinstance(unit, Exact):
        return unit.data
    if isinstance(unit, Framed) and ANY not in unit.text:
        return made(*unit[:4])
    return None


def as_word(unit: Unit) -> str:
    """The wanted unit, in one word."""
    if isinstance(unit, Exact):
        return shown(unit.data)
    if isinstance(unit, Framed):
        return shown(made(unit.number, unit.text, unit.is_last))
    name = ".." if isinstance(unit, AnyUnit) else "frames"
    return f"{name}@order={unit.order.decode('latin-1')}" if unit.order else name


class Marks:
    """The delimiters of the records that arrive: those of the last header."""

    def __init__(self) -> None:
        self.field, self.repeat, self.component = b"|", b"\\", b"^"

    def heed(self, record: bytes) -> None:
        """Takes the delimiters of a record, if it is a header."""
        if record[:1] in (b"H", b"h") and len(record) >= 5:
            self.field, self.repeat, self.component = record[1:2], record[2:3], record[3:4]


def records_of(text: bytes) -> List[bytes]:
    """The records of a text, without the CR after each."""
    found = text.split(b"\r")
    return found[:-1] if found[-1] == b"" else found


def samples_of(text: bytes, marks: Marks) -> Iterator[bytes]:
    """The samples of the orders in a text: field 3 of each."""
    for record in records_of(text):
        marks.heed(record)
        fields = record.split(marks.field)
        if record[:1] in (b"O", b"o"):
            yield fields[2] if len(fields) > 2 else b""


def is_for(order: bytes, samples: Sequence[bytes], marks: Marks) -> bool:
    """Whether one of these orders is for a sample: the whole field, or its first or second component."""
    return any(order in (one, *one.split(marks.component)[:2]) for one in samples)


def ordered(samples: Sequence[bytes]) -> str:
    """The samples of orders in one word: the first ones."""
    return "order=" + (",".join(map(quoted, samples[:SAMPLES])) or "-") + (",.." if len(samples) > SAMPLES else "")


def is_like(text: bytes, form: bytes) -> bool:
    """Whether a text is of a form, in which `..` is any text."""
    first, *others = form.split(ANY)
    if not others:
        return text == form
    *inner, last = others
    if not text.startswith(first) or not text.endswith(last) or len(text) < len(first) + len(last):
        return False
    at, end = len(first), len(text) - len(last)
    for part in inner:
        found = text.find(part, at, end)
        if found < 0:
            return False
        at = found + len(part)
    return True


def field_names(letter: str, number: int) -> List[str]:
    """The names by which a field of a record may be named where it may differ."""
    name = FIELDS.get(letter, {}).get(number, "")
    is_time = name == "timestamp" or name.endswith("_at")
    return [str(number), f"{letter}.{number}", name] + ["DATE"] * is_time


_KNOWN = {name for letter, names in FIELDS.items() for number in names for name in field_names(letter, number)}


def is_field(name: str) -> bool:
    """Whether fields may be named so: NUMBER, LETTER.NUMBER, a name of LIS02-A2, or DATE."""
    return name in _KNOWN or re.fullmatch(r"(?:[A-Z]\.)?[1-9]\d?", name) is not None


def _by_fields(wanted: bytes, got: bytes, but: Sequence[str], marks: Marks) -> Iterator[Difference]:
    """The fields of a record that differ, but for those that may. One that isn't there is empty."""
    marks.heed(got)
    own = marks.field
    if wanted[:1] in (b"H", b"h") and len(wanted) > 1:
        own = wanted[1:2]
    left, right = wanted.split(own), got.split(marks.field)
    letter = wanted[:1].decode("latin-1").upper()
    for at in range(max(len(left), len(right))):
        one, other = (some[at] if at < len(some) else b"" for some in (left, right))
        if not is_like(other, one) and not set(field_names(letter, at + 1)) & set(but):
            name = f"{letter}.{at + 1}"
            yield f"{name}={quoted(one)}", f"{name}={quoted(other)}"


def _frame_differences(wanted: Framed, got: bytes, marks: Marks) -> Iterator[Difference]:
    frame = read_frame(got)
    if frame is None:
        yield from _of_bad_frame(wanted, got)
        return
    if wanted.total and wanted.total.upper() != checksum(got[1:-4]):
        yield f"sum={wanted.total.decode()}", f"sum={checksum(got[1:-4]).decode()}"
    if frame.number != wanted.number:
        yield f"number={wanted.number}", f"number={frame.number}"
    if frame.is_last != wanted.is_last:
        yield ("ETX", "ETB") if wanted.is_last else ("ETB", "ETX")
    if not wanted.but:
        for record in records_of(frame.text):
            marks.heed(record)
        if not is_like(frame.text, wanted.text):
            yield as_word(wanted), shown(got)
        return
    left, right = records_of(wanted.text), records_of(frame.text)
    if len(left) != len(right):
        yield as_word(wanted), shown(got)
        return
    for one, other in zip(left, right):
        yield from _by_fields(one, other, wanted.but, marks)


def _of_bad_frame(wanted: Framed, got: bytes) -> Iterator[Difference]:
    """The difference of a frame that is not good: only `sum=`, if only its checksum is wrong."""
    right = read_frame(got[:-4] + checksum(got[1:-4]) + got[-2:]) if len(got) > 6 else None
    if right is None:
        yield as_word(wanted), shown(got)
    elif not wanted.total or wanted.total.upper() != got[-4:-2].upper():
        total = wanted.total or checksum(got[1:-4])
        yield f"sum={total.decode()}", f"sum={got[-4:-2].decode('latin-1')}"


def differences(wanted: Unit, got: bytes, marks: Marks) -> List[Difference]:
    """How a unit that arrived differs from the wanted one."""
    if isinstance(wanted, Framed):
        return list(_frame_differences(wanted, got, marks))
    if isinstance(wanted, Exact):
        return [] if wanted.data == got else [(shown(wanted.data), shown(got))]
    if isinstance(wanted, AnyUnit) and wanted.order:
        frame = read_frame(got)
        samples = list(samples_of(frame.text, marks)) if frame else []
        if not is_for(wanted.order, samples, marks):
            return [(ordered([wanted.order]), ordered(samples) if frame else shown(got))]
    return []


class Session:
    """The frames of a session that comes: which are new, what is answered, and whether an order was among them."""

    def __init__(self, wanted: Frames, marks: Marks, last: Optional[int]) -> None:
        #: The number of the last frame that was accepted in this session.
        self.last = last
        self.wanted, self._marks = wanted, marks
        self.is_over, self._has_order = False, not wanted.order
        #: The first samples of the orders that came.
        self._samples: List[bytes] = []

    def hear(self, unit: bytes) -> Tuple[bytes, List[Difference]]:
        """What is answered to a unit, and what is wrong with it."""
        frame = read_frame(unit)
        if unit == bytes([EOT]):
            self.is_over = True
            missing = (ordered([self.wanted.order]), ordered(self._samples))
            return b"", [] if self._has_order else [missing]
        if frame is None:
            return bytes([NAK]), [("frame", shown(unit))]
        if frame.number == self.last:
            return bytes([ACK]), []
        due = 1 if self.last is None else (self.last + 1) % 8
        if frame.number != due:
            return bytes([NAK]), [(f"number={due}", f"number={frame.number}")]
        self.last = frame.number
        samples = list(samples_of(frame.text, self._marks))
        self._has_order |= is_for(self.wanted.order, samples, self._marks)
        self._samples += samples[: SAMPLES + 1 - len(self._samples)]
        return bytes([ACK]), []
