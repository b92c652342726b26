"""Frames and units in plain Python: makes, reads, finds and prints them."""
import re
from typing import Iterator, NamedTuple, Optional

from ..diagnosis.log import CONTROL

#: The control bytes that a script names.
NAMES = {name: CONTROL[name] for name in ("STX", "ETX", "EOT", "ENQ", "ACK", "LF", "CR", "NAK", "ETB")}
STX, ETX, EOT, ENQ, ACK, LF, CR, NAK, ETB = NAMES.values()
WORDS = {number: name for name, number in NAMES.items()}
_SHAPE = re.compile(rb"\x02([0-7])([^\x01-\x06\x0a\x10-\x17]*)([\x03\x17])([0-9A-Fa-f]{2})\r\n", re.S)
#: A unit: STX and what follows up to LF, or up to STX, ENQ or EOT; or one byte.
UNITS = re.compile(rb"\x02[^\x02\x04\x05\x0a]*\x0a?|.", re.S)
#: The most bytes of a unit that are printed.
SHOWN = 300


class Frame(NamedTuple):
    """A good frame: its number, its text, and whether it ends in ETX."""

    number: int
    text: bytes
    is_last: bool


def checksum(data: bytes) -> bytes:
    """The checksum of the bytes from a frame's number to its ETX or ETB."""
    return b"%02X" % (sum(data) % 256)


def made(number: int, text: bytes, is_last: bool, total: bytes = b"") -> bytes:
    """The bytes of a frame, with the right checksum or with this one."""
    body = b"%d%s%c" % (number, text, ETX if is_last else ETB)
    return b"\x02%s%s\r\n" % (body, total or checksum(body))


def read_frame(unit: bytes) -> Optional[Frame]:
    """The frame that a unit is; None if it isn't a good one."""
    found = _SHAPE.fullmatch(unit)
    if not found or found[4].upper() != checksum(unit[1:-4]):
        return None
    return Frame(int(found[1]), found[2], found[3] == b"\x03")


def units_of(data: bytes) -> Iterator[bytes]:
    """The units of bytes: from STX to LF, or to what breaks the frame off; every other byte is one."""
    return (found[0] for found in UNITS.finditer(data))


def quoted(record: bytes) -> str:
    """Bytes in quotes, in which what isn't printable is hexadecimal."""
    text = "".join(chr(one) if 32 <= one < 127 and one != 34 else f"<{one:02X}>" for one in record[:SHOWN])
    return f'"{text}"' + (".." if len(record) > SHOWN else "")


def shown(unit: bytes) -> str:
    """A unit in one word: a control byte's name, a frame's records in quotes, or hexadecimal; - if there is none."""
    frame = read_frame(unit)
    if frame is not None:
        records = frame.text.split(b"\r")
        if frame.is_last and records[-1] == b"" and len(records) > 1:
            records.pop()
        return "+".join(quoted(one) for one in records) + ("" if frame.is_last else "+ETB")
    if len(unit) == 1 and unit[0] in WORDS:
        return WORDS[unit[0]]
    return (unit[:SHOWN].hex() + (".." if len(unit) > SHOWN else "")) or "-"
