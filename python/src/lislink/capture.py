"""Captures: what went over a link in both directions, as docs/lislink.md has them. Read and written in Python."""
import re
from typing import Iterable, List, NamedTuple, Optional, Tuple

#: How many bytes a line of a capture has room for.
LINE_BYTES = 2047
_LONGEST = 4096
_HEX = re.compile(rb"(?:[0-9A-Fa-f]{2})+$")


class CaptureError(Exception):
    """A line of a capture is malformed."""

    def __init__(self, number: int) -> None:
        super().__init__(f"K1 line {number}: the line is malformed")
        self.number = number


class Line(NamedTuple):
    """A line: `>` or `<` with bytes, `T`, `R`, `S` with how ENQ is answered, or nothing."""

    #: `>`, `<`, `T`, `R`, `S`, or empty.
    mark: str
    #: The bytes of `>` or `<`.
    data: bytes = b""
    #: How ENQ is answered from `S` on: ready, busy or contending.
    ready: str = ""


class Capture(NamedTuple):
    """The lines of a capture, and the time of each in nanoseconds, if it is known."""

    #: The version of the form, 1 or 2.
    version: int
    #: Each line, with its number in the file.
    lines: List[Tuple[int, Line]]
    #: The time of each line, or None.
    times: List[Optional[int]]


def read_capture(data: bytes) -> Capture:
    """Reads a capture of either version; CaptureError names the first malformed line."""
    rows = data.split(b"\n")
    if rows[-1] == b"":
        rows.pop()
    version, lines = 1, []
    for number, row in enumerate(rows, 1):
        if len(row) > _LONGEST:
            raise CaptureError(number)
        row = row[:-1] if row.endswith(b"\r") else row
        if number == 1 and row == b"capture 2":
            version = 2
            continue
        lines.append((number, _line(row, number, version)))
    return Capture(version, lines, [None] * len(lines))


def _line(row: bytes, number: int, version: int) -> Line:
    if row in (b"", b"T"):
        return Line(row.decode())
    if row[:2] in (b"> ", b"< ") and _HEX.match(row[2:]):
        return Line(row[:1].decode(), bytes.fromhex(row[2:].decode()))
    if version == 2 and row == b"R":
        return Line("R")
    if version == 2 and row in (b"S ready", b"S busy", b"S contending"):
        return Line("S", b"", row[2:].decode())
    raise CaptureError(number)


def looks_like_capture(data: bytes) -> bool:
    """Whether the first lines that aren't empty are those of a capture."""
    rows = [row.rstrip(b"\r") for row in data[:20000].split(b"\n")[:20]]
    rows = [row for row in rows if row]
    return bool(rows) and all(
        row in (b"capture 2", b"T", b"R", b"S ready", b"S busy", b"S contending")
        or row[:2] in (b"> ", b"< ")
        and re.match(rb"[0-9A-Fa-f]{2,}$", row[2:])
        for row in rows[:3]
    )


def write_lines(lines: Iterable[Line]) -> str:
    """The text of lines: a capture of version 2 only if a line needs it."""
    rows, version = [], 1
    for line in lines:
        if line.mark in "><" and line.mark:
            for start in range(0, len(line.data), LINE_BYTES):
                rows.append(f"{line.mark} {line.data[start:start + LINE_BYTES].hex()}")
        else:
            version = 2 if line.mark in ("R", "S") else version
            rows.append(f"S {line.ready}" if line.mark == "S" else line.mark)
    return "".join(row + "\n" for row in (["capture 2"] if version == 2 else []) + rows)
