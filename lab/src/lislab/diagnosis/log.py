"""What an importer reads: pieces of bytes with their side and time; and the error of a log that can't be read."""
import datetime
import re
from typing import List, NamedTuple, Optional

SECOND = 1_000_000_000
_DAY = 86400 * SECOND
_LAST = 253_402_300_800 * SECOND  # the year 10000


class LogError(Exception):
    """A log can't be read: why, and the number of the line if there is one."""

    def __init__(self, why: str, line: int = 0) -> None:
        super().__init__(f"line {line}: {why}" if line else why)
        self.line = line


#: The side of a piece that has no bytes: a new connection begins.
NEW = "\0new"


class Piece(NamedTuple):
    """Bytes that one side sent: the time in nanoseconds if it is known, a name for the side, the bytes. A piece with
    the side NEW and no bytes is a new connection."""

    time: Optional[int]
    side: str
    data: bytes


class Log(NamedTuple):
    """The pieces of a log in their order, its form, and remarks for the reader."""

    form: str
    pieces: List[Piece]
    remarks: List[str]


def left_out(lines: List[int], what: str = "without bytes") -> List[str]:
    """A remark on the lines of a log that were left out, if there are some."""
    if not lines:
        return []
    shown = ", ".join(map(str, lines[:20])) + (", .." if len(lines) > 20 else "")
    return [f"lines {what} were left out, {len(lines)} of them: {shown}"]


_MONTHS = {name: number for number, name in enumerate("jan feb mar apr may jun jul aug sep oct nov dec".split(), 1)}
_FRAME = re.compile(rb"\x02[0-7][\x20-\xff\t\r]*[\x03\x17][0-9A-Fa-f]{2}\r")


def likeness(pieces: List[Piece]) -> int:
    """How much pieces look like this link: 2 if a piece is ENQ alone or a side sends a frame, 1 if ENQ or STX is
    among the bytes, as it is in any binary data, and 0 otherwise."""
    if any(piece.data == b"\x05" for piece in pieces):
        return 2
    sides = {piece.side for piece in pieces}
    if any(_FRAME.search(b"".join(piece.data for piece in pieces if piece.side == side)) for side in sides):
        return 2
    return int(any(byte in piece.data for piece in pieces for byte in (5, 2)))


_CLOCK = r"(?P<h>\d{1,2}):(?P<m>\d\d):(?P<s>\d\d)(?:\s?(?P<ap>[AaPp][Mm]))?(?:[.,:](?P<f>\d{1,9}))?(?:\s?(?P<ap2>[AaPp][Mm]))?(?!:?\d)"
_DATES = [
    re.compile(pattern + _CLOCK)
    for pattern in (
        r"(?P<y>\d{4})[-/.](?P<mo>\d{1,2})[-/.](?P<d>\d{1,2})[T ,;]*",
        r"(?P<d>\d{1,2})[-/.](?P<mo>\d{1,2})[-/.](?P<y>\d{4})[T ,;]*",
        r"(?P<mon>[A-Za-z]{3}) {1,2}(?P<d>\d{1,2}),? (?P<y>\d{4}),? ",
        r"(?<![\d:.])",
    )
]
_DIGITS = re.compile(r"(?<!\d)(20\d\d)(\d\d)(\d\d)(\d\d)(\d\d)(\d\d)\.(\d{3})(?!\d)")
_EPOCH = re.compile(r"(?<![\d.:])(?P<s>\d{9,10})\.(?P<f>\d{1,9})(?![\d.:])")


def find_time(text: str) -> Optional[int]:
    """The first time in a text, in nanoseconds since 1970, or since midnight if it has no date."""
    found = _EPOCH.search(text)
    if found:
        return int(found["s"]) * SECOND + int(found["f"].ljust(9, "0"))
    found = _DIGITS.search(text)
    if found:
        return find_time("%s-%s-%s %s:%s:%s.%s" % found.groups())
    for pattern in _DATES:
        found = pattern.search(text)
        if found:
            return _of_clock(found)
    return None


def times_beside(numbers: List[int], path: str) -> List[Optional[int]]:
    """The times of these lines of a capture, by the file of its times."""
    with open(path, encoding="utf-8") as file:
        rows = file.read().splitlines()
    return [find_time(rows[number - 1]) if number <= len(rows) else None for number in numbers]


def _of_clock(found: "re.Match[str]") -> Optional[int]:
    parts = found.groupdict()
    hour, half = int(parts["h"]), (parts["ap"] or parts["ap2"] or "").lower()
    if half:
        hour = hour % 12 + (12 if half == "pm" else 0)
    if hour > 23 or int(parts["m"]) > 59 or int(parts["s"]) > 60:
        return None
    time = (hour * 3600 + int(parts["m"]) * 60 + int(parts["s"])) * SECOND + int((parts["f"] or "0").ljust(9, "0"))
    if parts.get("y") is None:
        return time
    month = _MONTHS.get(parts["mon"].lower(), 0) if parts.get("mon") else int(parts["mo"])
    day = int(parts["d"])
    if month > 12 >= day:
        month, day = day, month
    try:
        return (datetime.date(int(parts["y"]), month, day).toordinal() - 719163) * _DAY + time
    except ValueError:
        return None


def time_text(time: Optional[int]) -> str:
    """A time as it is written in the file next to a capture: with its date if it has one; empty if it isn't known."""
    if time is None:
        return ""
    days, rest = divmod(time, _DAY)
    clock = f"{rest // SECOND // 3600:02}:{rest // SECOND // 60 % 60:02}:{rest // SECOND % 60:02}.{rest % SECOND:09}"
    clock = clock[:-3] if clock.endswith("000") else clock
    return f"{datetime.date.fromordinal(days + 719163)}T{clock}" if days > 3 else clock


def in_order(pieces: List[Piece]) -> List[Piece]:
    """The same pieces; times without a date go on over midnight."""
    told: List[Piece] = []
    last, days = None, 0
    for piece in pieces:
        time = piece.time if piece.time is not None and piece.time < _LAST else None
        if time is not None and time < _DAY:
            if last is not None and last - time > _DAY // 2:
                days += 1
            last = time
            time += days * _DAY
        told.append(piece._replace(time=time))
    return told


def decode(data: bytes) -> str:
    """The text of a log: UTF-16 by its byte order mark or its zeros, else UTF-8, in which other bytes stay what they
    are."""
    if data[:2] in (b"\xff\xfe", b"\xfe\xff"):
        return _one_byte(data.decode("utf-16", "replace"))
    if len(data) > 3 and data[1:2] == b"\0" and data[3:4] == b"\0":
        return _one_byte(data.decode("utf-16-le", "replace"))
    return data[3 if data[:3] == b"\xef\xbb\xbf" else 0 :].decode("utf-8", "surrogateescape")


def _one_byte(text: str) -> str:
    """In UTF-16 the characters 128 to 255 are bytes of the line."""
    return "".join(chr(0xDC00 + ord(one)) if 128 <= ord(one) < 256 else one for one in text)


def encode(text: str) -> bytes:
    """Characters of a log as the bytes that they are in it."""
    return text.encode("utf-8", "surrogateescape")


CONTROL = {
    name: number
    for number, name in enumerate(
        """NUL SOH STX ETX EOT ENQ ACK BEL BS HT LF VT FF CR SO SI DLE DC1 DC2 DC3 DC4 NAK SYN ETB CAN EM SUB ESC FS
        GS RS US""".split()
    )
}
CONTROL.update({"TAB": 9, "NL": 10, "DEL": 127, "XON": 17, "XOFF": 19, "SP": 32, "SPACE": 32})


def ascii_fits(text: str, data: bytes) -> bool:
    """Whether a column of text shows these bytes: the printable ones as they are, anything for the others."""
    if len(text) == len(data) + 2 and text[:1] + text[-1:] in ("||", "><"):
        text = text[1:-1]
    if len(data) > 8 and len(text) == len(data) + 1 and text[8] == " ":
        text = text[:8] + text[9:]  # Wireshark has a blank in the middle
    if len(text) > len(data):
        return False
    return all(
        32 <= byte < 127 and shown == chr(byte) or not 32 < byte < 127 or shown == "."
        for shown, byte in zip(text, data)
    ) and (len(text) == len(data) or not text.strip() or data[len(text) :].strip(b" ") == b"")


#: What a row with bytes of a line has: the beginning of a record, pairs of digits, or the digits of a frame. A time
#: has pairs of digits too.
_BYTES = re.compile(
    r"(?<![A-Za-z])[HPORCQMSL]\|[\\\d]|(?<![0-9A-Za-z])(?:(?:[0-9A-Fa-f]{2}[ ,:]){3}|023[0-7](?:[0-9A-Fa-f]{2})+)"
)
_TIME = re.compile(r"(?<![\d:])\d{1,2}:\d\d:\d\d(?![\d:])")


def holds_bytes(text: str) -> bool:
    """Whether a text has what looks like bytes of a line. A row that has it and can't be read is an error."""
    return _BYTES.search(_TIME.sub("", text)) is not None


def hex_row(text: str, most: int = 64) -> Optional[bytes]:
    """The bytes of a row of a hex dump without its offset: pairs (or groups of them), and maybe the same bytes as
    text."""
    tokens = [(found.group(), found.end()) for found in re.finditer(r"\S+", text)]
    pairs: List[int] = []
    for word, _ in tokens:
        if not re.match(r"(?:0[xX])?(?:[0-9A-Fa-f]{2})+,?$", word):
            break
        pairs.append(len(bytes.fromhex(re.sub("^0[xX]|,$", "", word))))

    def front(count: int) -> bytes:
        return bytes.fromhex("".join(re.sub("^0[xX]|,$", "", word) for word, _ in tokens[:count]))

    # A column of text may look like digits: after a gap it is text, if it shows the bytes before it.
    for count in range(min(len(pairs), len(tokens) - 1), 0, -1):
        rest = text[tokens[count - 1][1] :]
        if re.match(r"\s{2}|\t", rest) and sum(pairs[:count]) <= most and _shows(rest, front(count)):
            return front(count)
    if pairs and len(pairs) == len(tokens):
        return front(len(pairs))
    for count in range(len(pairs), 0, -1):
        rest = text[tokens[count - 1][1] :]
        if rest[:1].isspace() and sum(pairs[:count]) <= most and _shows(rest, front(count)):
            return front(count)
    return None


def _shows(rest: str, data: bytes) -> bool:
    """Whether what follows the pairs shows these bytes. Blanks before the text may belong to the dump or to the
    text."""
    bare = rest.rstrip()
    return any(
        bare[:cut].isspace() and ascii_fits(bare[cut:], data)
        for cut in range(1, len(bare))
        if cut <= len(bare) - len(bare.lstrip()) and cut >= 1
    )
