"""`lislab replay`: a capture of a line that works both ways, compared with a station of the computer. The proved
station decides what each of the analyzer's bytes means, and what the computer must answer.

What `lislink replay` compares are the replies of a receiver: there a session of the computer's own looks like wrong
replies. Here it begins when the computer sends ENQ while the station has nothing to answer. Of its frames the number is
compared: which bytes it sends is the computer's own affair.
"""
import re
from typing import Iterator, List, NamedTuple, Optional, Sequence, Tuple, Union

from lislink.capture import Capture, Line
from lislink.codes import Phase, Role
from lislink.link import LinkError
from lislink.station import Answer, Station

_STX, _ENQ, _EOT = 0x02, 0x05, 0x04
#: The line at which a capture ends.
END = "end"


class Frame(NamedTuple):
    """A frame by its number."""

    number: int


#: What the computer sends: a control byte, or a frame by its number.
Unit = Union[int, Frame]


class Outgoing:
    """The computer's bytes as units. A frame may come in pieces."""

    def __init__(self) -> None:
        self._frame = b""

    @property
    def is_open(self) -> bool:
        """Whether a frame is open."""
        return bool(self._frame)

    def units(self, data: bytes) -> List[Unit]:
        """The units that further bytes end."""
        found: List[Unit] = []
        data, self._frame = self._frame + data, b""
        for unit in re.findall(rb"\x02[^\n]*\n?|.", data, re.S):
            if unit[0] != _STX:
                found.append(unit[0])
            elif unit.endswith(b"\n"):
                found.append(Frame((unit[1] - 48) % 8 if len(unit) > 2 else -1))
            else:
                self._frame = unit
        return found


class Told(NamedTuple):
    """What a capture shows: a text that is complete at a line, or a difference there."""

    line: Union[int, str]
    text: Optional[bytes] = None
    want: bytes = b""
    got: bytes = b""

    def __str__(self) -> str:
        if self.text is not None:
            return f"text {self.line} {len(self.text)}"
        return f"difference {self.line} {self.want.hex() or '-'} {self.got.hex() or '-'}"


class Replay:
    """A capture that is played to a station."""

    def __init__(self, capture: Capture, frame_limit: int) -> None:
        self._lines = capture.lines
        self._station = Station(Role.COMPUTER, frame_limit=frame_limit)
        self._sent, self._made = Outgoing(), Outgoing()
        #: What the station has sent since the last line of the computer, and the computer's bytes of an open frame.
        self._got, self._want = b"", b""
        self._units: List[Unit] = []
        #: How many texts were complete, how many differences there are, and how many sessions the computer had.
        self.texts = self.differences = self.sessions = 0

    def run(self) -> Iterator[Told]:
        """All that it shows, in order."""
        try:
            for place, (number, line) in enumerate(self._lines):
                for told in self._play(place, number, line):
                    self.texts += told.text is not None
                    self.differences += told.text is None
                    yield told
            if self._got:
                self.differences += 1
                yield Told(END, None, b"", self._got)
        finally:
            self._station.close()

    def _play(self, place: int, number: int, line: Line) -> Iterator[Told]:
        if line.mark == ">":
            for answer in self._station.hear(line.data):
                yield from self._answered(number, answer)
        elif line.mark == "<":
            yield from self._compared(place, number, line.data)
        elif line.mark == "T":
            yield from self._answered(number, self._station.timer())
        elif line.mark == "R":
            self._station.restart()
        elif line.mark == "S" and line.ready == "contending":
            self._begin(place)  # it asks at the same time as the analyzer
        elif line.mark == "S":
            self._station.set_ready(line.ready == "ready")

    def _answered(self, number: int, answer: Answer) -> Iterator[Told]:
        self._put(answer.send)
        if answer.text is not None:
            yield Told(number, answer.text)

    def _put(self, data: bytes) -> None:
        self._got += data
        self._units += self._made.units(data)

    def _compared(self, place: int, number: int, data: bytes) -> Iterator[Told]:
        """A line of the computer against what the station has sent."""
        wanted = self._sent.units(data)
        self._want += data
        if self._sent.is_open:
            return
        if wanted[:1] == [_ENQ] and not self._units:
            self._begin(place)
        elif not self._units and self._station.phase is not Phase.NEUTRAL and not self._station.is_open:
            self._put(self._station.timer().send)  # nothing else makes a sender speak
        if wanted != self._units:
            yield Told(number, None, self._want, self._got)
        self._got, self._want, self._units = b"", b"", []

    def _begin(self, place: int) -> None:
        """A session of the computer's own begins, if the station may start one: of as many frames as it has."""
        if self._station.phase is not Phase.NEUTRAL:
            self._put(self._station.timer().send)  # it asks again
            return
        try:
            self._put(self._station.start([b"."] * max(1, self._frames(place)), is_quiet=True))
            self.sessions += 1
        except LinkError:
            pass  # the line is the analyzer's: its ENQ is a difference

    def _frames(self, place: int) -> int:
        """How many frames the session has that begins here: a frame with the number of the one before is that one."""
        units, count, last = Outgoing(), 0, 0
        for _, line in self._lines[place:]:
            for unit in units.units(line.data) if line.mark == "<" else []:
                if unit == _EOT:
                    return count
                if isinstance(unit, Frame) and unit.number == (last + 1) % 8:
                    count, last = count + 1, unit.number
        return count


def replayed(capture: Capture, frame_limit: int) -> Tuple[Sequence[Told], str]:
    """What a capture shows, and the last line."""
    replay = Replay(capture, frame_limit)
    told = list(replay.run())
    return told, f"texts {replay.texts} sessions {replay.sessions} differences {replay.differences}"
