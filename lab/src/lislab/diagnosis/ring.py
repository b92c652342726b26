"""The last bytes of a line in both directions, with their times: in memory, for who looks now, and gone with the
process."""
import struct
import time
from typing import Iterator, List, NamedTuple, Optional, Tuple

from lislink.capture import LINE_BYTES, Capture, Line

#: How many bytes are held of a line, with the head of each piece; the part of them that is dropped at once; and that
#: head: time, connection, mark, length.
MOST, SPARE = 256 << 10, 64
HEAD = struct.Struct(">QIcI")
ENQ = 5


class Piece(NamedTuple):
    """Bytes that came or went together, or an event (`T`, `R`): when, in nanoseconds, and on which connection."""

    at: int
    connection: int
    mark: str
    data: bytes


class Ring:
    """Pieces of a line, each with a number that rises by one. The oldest are dropped when there are too many bytes."""

    def __init__(self, most: int = MOST) -> None:
        self._most, self._held = most, bytearray()
        #: The number of the oldest piece that is held, and of the next one.
        self.first = self.next = 0

    def add(self, connection: int, mark: bytes, data: bytes = b"") -> None:
        """Adds a piece that comes or goes now; without bytes, an event."""
        held, data = self._held, data[-(self._most // 2) :]
        held += HEAD.pack(time.time_ns(), connection, mark, len(data)) + data
        self.next += 1
        if len(held) > self._most:
            self._drop()

    def _drop(self) -> None:
        """Drops the oldest pieces: some more than it must, so that it has nothing to do for a while."""
        drop, most = 0, self._most - self._most // SPARE
        while len(self._held) - drop > most:
            drop += HEAD.size + HEAD.unpack_from(self._held, drop)[3]
            self.first += 1
        del self._held[:drop]

    def after(self, number: int) -> Tuple[int, bytes]:
        """The pieces from this number on, as they are held, and the number of the first of them."""
        at, place = self.first, 0
        while at < min(number, self.next):
            place += HEAD.size + HEAD.unpack_from(self._held, place)[3]
            at += 1
        return at, bytes(self._held[place:])


def pieces_of(held: bytes) -> Iterator[Piece]:
    """The pieces in what a ring held."""
    place = 0
    while place + HEAD.size <= len(held):
        at, connection, mark, size = HEAD.unpack_from(held, place)
        place += HEAD.size
        yield Piece(at, connection, mark.decode(), held[place : place + size])
        place += size


def capture_of(pieces: List[Piece], is_cut: bool) -> Capture:
    """A capture of pieces: one connection after another, with a restart between them. If bytes before them were
    dropped, it begins at the first ENQ: what is before it belongs to a session whose beginning isn't there."""
    lines: List[Line] = []
    times: List[Optional[int]] = []
    for connection in dict.fromkeys(piece.connection for piece in pieces):
        if lines:
            lines.append(Line("R"))
            times.append(times[-1])
        for mark, data, at in _rows([piece for piece in pieces if piece.connection == connection], is_cut):
            is_cut = False
            lines.append(Line(mark, data))
            times.append(at)
    first = 2 if any(line.mark == "R" for line in lines) else 1
    return Capture(first, list(enumerate(lines, first)), times)


def _rows(pieces: List[Piece], is_cut: bool) -> Iterator[Tuple[str, bytes, int]]:
    """The lines of a capture for pieces of a connection: none is longer than a line may be."""
    for mark, data, at in ((piece.mark, piece.data, piece.at) for piece in pieces):
        if is_cut:
            place = data.find(ENQ) if mark == ">" else -1
            if place < 0:
                continue
            data, is_cut = data[place:], False
        for start in range(0, len(data), LINE_BYTES) or (0,):
            yield mark, data[start : start + LINE_BYTES], at
