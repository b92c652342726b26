"""Runs a script: sends what one end sends, waits for what must arrive, and notes the differences."""
import itertools
import time
from typing import Callable, List, NamedTuple, Optional, Sequence, Tuple

from .frames import ACK, ENQ, EOT, LF, STX, read_frame, shown, units_of
from .kept import Keeping
from .script import RECEIVER, REPLY, Step
from .wanted import Difference, Exact, Frames, Marks, Session, Unit, as_word, bytes_of, differences
from .wire import UNIT, Closed, End, LineFailed

#: For how long is waited at the end for what shouldn't come, in seconds.
AFTER = 0.5
#: The most units that are kept of bytes that were not wanted, and of those that arrive for `frames`.
SURPLUS, FRAMES = 20, 10_000
_SECOND = 1_000_000_000


class Pace(NamedTuple):
    """How long things take: by the record or as fast as replies come; each timer so many times as long; how long the
    other end may take to begin a session."""

    is_fast: bool = True
    scale: float = 1.0
    within: float = 60.0


class Event(NamedTuple):
    """What happened: when (in nanoseconds), at which line, on which side, the bytes, words for an event, and what
    differed."""

    time: int
    line: int
    mark: str
    data: bytes
    words: str = ""
    differences: Tuple[Difference, ...] = ()


class Outcome(NamedTuple):
    """How a play went: its events, its steps, the lines that weren't played, and why it stopped, if it did."""

    events: List[Event]
    steps: int
    skipped: List[int]
    failed: str = ""

    @property
    def differences(self) -> List[Tuple[int, Difference]]:
        """The line of each difference (0 is the end), and the difference."""
        return [(event.line, one) for event in self.events for one in event.differences]


class Played(NamedTuple):
    """A play that was played: its name, what it shows, the mark of the end that played it, both addresses, and how it
    went."""

    name: str
    about: Sequence[str]
    mark: str
    own: str
    other: str
    begun: float
    seconds: float
    outcome: Outcome


def ranges(lines: Sequence[int]) -> str:
    """Lines in words, those that follow each other as `4 to 9`."""
    runs: List[List[int]] = []
    for line in lines:
        if runs and line == runs[-1][-1] + 1:
            runs[-1].append(line)
        else:
            runs.append([line])
    return ", ".join(f"{run[0]} to {run[-1]}" if len(run) > 1 else str(run[0]) for run in runs)


def _is_enquiry(unit: Unit) -> bool:
    return isinstance(unit, Exact) and unit.data == bytes([ENQ])


class Silent(Exception):
    """Nothing came before a timer ran out."""


class Player:
    """Plays the steps of one end on a line."""

    def __init__(
        self, steps: Sequence[Step], own: str, end: End, pace: Pace, keeping: Keeping, restart: Callable[[], bool]
    ) -> None:
        self._steps, self._own, self._other = steps, own, "<" if own == ">" else ">"
        self._end, self._pace, self._keeping, self._restart = end, pace, keeping, restart
        self._marks = Marks()
        self._is_open = self._awaits = False  # whether the own session is open, and a reply is awaited
        self._is_shut = True
        self._played: List[int] = []
        self._out = b""  # what was sent since something came
        # The numbers of the frame that came and isn't answered, and of the last one that was accepted.
        self._came: Optional[int] = None
        self._accepted: Optional[int] = None
        self.events: List[Event] = []

    def play(self) -> Outcome:
        """Runs the whole script, also after differences. After a missing reply it continues where a new session
        begins."""
        skipped: List[int] = []
        at, before = 0, None  # type: int, Optional[int]
        self._ensure_open()
        self._keeping.begin()
        while at < len(self._steps):
            step = self._steps[at]
            self._played.append(step.line)
            self._wait_as_recorded(step, before)
            before = step.time if step.time is not None else before
            try:
                self._step(step)
                at += 1
            except Silent:
                begin = self._next_begin(at + 1)
                skipped += [one.line for one in self._steps[at + 1 : begin]]
                self._recover(begin)
                at = begin
        self._note_surplus(0, AFTER * self._pace.scale)
        return Outcome(self.events, len(set(self._played)), sorted(set(skipped) - set(self._played)))

    def failed(self, why: str) -> Outcome:
        """How it went until it stopped."""
        left = sorted({step.line for step in self._steps} - set(self._played))
        return Outcome(self.events, len(set(self._played)), left, why)

    def _note(self, line: int, mark: str, data: bytes, words: str = "", found: Sequence[Difference] = ()) -> None:
        self.events.append(Event(time.time_ns(), line, mark, data, words, tuple(found)))

    def _wait_as_recorded(self, step: Step, before: Optional[int]) -> None:
        if not self._pace.is_fast and step.mark == self._own and None not in (before, step.time):
            assert before is not None and step.time is not None
            time.sleep(max(0.0, (step.time - before) / _SECOND * self._pace.scale))

    def _step(self, step: Step) -> None:
        if step.mark == self._own:
            self._send(step)
        elif step.mark == self._other:
            self._ensure_open()
            if isinstance(step.unit, Frames):
                self._hear_session(step, step.unit)
            else:
                self._hear(step)
        elif step.mark == "T":
            self._ensure_open()
            time.sleep(step.seconds * self._pace.scale * 1.05 + 0.05)
            self._note(step.line, "-", b"", f"{step.seconds:g} seconds go by")
        elif step.mark == "K":
            why, found = self._keeping.look()
            self._note(step.line, "-", b"", why, found)
        else:
            self._begin_anew(step)

    def _ensure_open(self) -> None:
        if self._is_shut:
            self._end.open()
            self._is_shut = False

    def _send(self, step: Step) -> None:
        self._ensure_open()
        self._note_surplus(step.line, 0.0)
        data = bytes_of(step.unit) or b""
        self._end.send(data)
        self._sent(data)
        self._note(step.line, self._own, data)

    def _sent(self, data: bytes) -> None:
        """Heeds the last ENQ, EOT or frame that was sent, also in pieces."""
        if data in (bytes([ACK]), bytes([EOT])) and self._came is not None:
            self._accepted, self._came = self._came, None
        self._out += data
        last = [unit for unit in units_of(self._out) if unit[0] in (ENQ, EOT, STX)][-1:]
        for unit in last:
            self._awaits = unit[0] != EOT
            if unit[0] == ENQ:
                self._keeping.enquiry()
            elif unit[0] == EOT:
                self._is_open = False
            else:
                self._keeping.sent(unit)

    def _note_surplus(self, line: int, seconds: float) -> None:
        """Reports bytes that arrived and were not wanted as a difference."""
        if self._is_shut:
            return
        came = self._end.drop(seconds)
        for unit in itertools.islice(units_of(came), SURPLUS):
            self._note(line, self._other, unit, "", [("-", shown(unit))])

    def _due(self, unit: Unit) -> float:
        """For how long a unit is waited for: a reply, the beginning of a session, or a frame."""
        if self._awaits:
            return REPLY * self._pace.scale
        if _is_enquiry(unit):
            return max(self._pace.within, RECEIVER * self._pace.scale)
        return RECEIVER * self._pace.scale

    def _hear(self, step: Step) -> None:
        seconds, size = self._due(step.unit), UNIT
        if isinstance(step.unit, Exact) and step.unit.data[0] == STX and step.unit.data[-1] != LF:
            size = len(step.unit.data)  # a frame that was broken off
        try:
            unit = self._unit(step, seconds, size)
            late = b"" if unit else self._late(seconds)
            word = f"late:{shown(late)}" if late else "-"
        except Closed:
            unit = late = b""
            word = "closed"
        if not unit:
            self._note(step.line, self._other, late, "", [(as_word(step.unit), word)])
            raise Silent
        self._heard(unit)
        self._note(step.line, self._other, unit, "", differences(step.unit, unit, self._marks))

    def _late(self, seconds: float) -> bytes:
        """A reply that comes after its timer, in as long again. At its timer the sender ends its session."""
        if not self._awaits:
            return b""
        self._end_session()
        return self._end.unit(time.monotonic() + seconds)

    def _end_session(self) -> None:
        self._end.send(bytes([EOT]))
        self._note(self._played[-1], self._own, bytes([EOT]))
        self._is_open = self._awaits = False

    def _unit(self, step: Step, seconds: float, size: int) -> bytes:
        """The next unit. An analyzer may connect again before it begins a session."""
        try:
            return self._end.unit(time.monotonic() + seconds, size)
        except Closed:
            if self._own == ">" or not _is_enquiry(step.unit):
                raise
            try:
                self._connect_again("the analyzer connects again")
            except LineFailed:  # it doesn't come again
                raise Closed from None
            return self._end.unit(time.monotonic() + seconds, size)

    def _heard(self, unit: bytes) -> None:
        self._out = b""
        if self._awaits and unit[:1] in (bytes([ACK]), bytes([EOT])):
            self._is_open = True
            self._keeping.acknowledged()
        self._awaits = False
        frame = read_frame(unit)
        if unit == bytes([ENQ]):
            self._accepted = None
        self._came = frame.number if frame is not None else None

    def _hear_session(self, step: Step, wanted: Frames) -> None:
        session = Session(wanted, self._marks, self._accepted)
        for count in itertools.count(1):
            if session.is_over:
                return
            try:
                unit, word = self._end.unit(time.monotonic() + RECEIVER * self._pace.scale), "-"
            except Closed:
                unit, word = b"", "closed"
            if count > FRAMES:
                unit, word = b"", f"over-{FRAMES}"
            if not unit:
                self._note(step.line, self._other, b"", "", [(as_word(wanted), word)])
                raise Silent
            reply, found = session.hear(unit)
            self._note(step.line, self._other, unit, "", found)
            if reply:
                self._end.send(reply)
                self._note(step.line, self._own, reply)

    def _next_begin(self, at: int) -> int:
        """The next step at which a session begins, or the line is restarted."""
        for place in range(at, len(self._steps)):
            step = self._steps[place]
            if step.mark in "CR" or (step.mark in "><" and _is_enquiry(step.unit)):
                return place
        return len(self._steps)

    def _recover(self, begin: int) -> None:
        """Ends a session in which nothing came, and lets nothing of it reach the next one."""
        if self._is_open and not self._end.is_over:
            self._end_session()
        self._is_open = self._awaits = False
        self._out = b""
        if begin < len(self._steps) and self._steps[begin].mark not in "CR" and self._own == ">":
            self._connect_again("a new connection, after a session that failed")

    def _connect_again(self, words: str, is_patient: bool = False) -> None:
        if self._end.is_serial:
            time.sleep(REPLY * self._pace.scale)
        self._end.close()
        self._end.open(is_patient)
        self._is_shut = False
        self._note(self._played[-1], "-", b"", words)

    def _begin_anew(self, step: Step) -> None:
        """C connects again. R restarts the other end by a command, if there is one; a computer that is played only
        forgets what came."""
        self._note_surplus(step.line, 0.0)
        self._is_open = self._awaits = False
        self._out = b""
        self._keeping.enquiry()
        if step.mark == "C":
            self._connect_again("closed and connected again")
        elif self._own == "<":
            self._note(step.line, "-", b"", "the computer begins anew")
        elif self._restart():
            self._connect_again("the other end was restarted", is_patient=True)
        elif self._end.is_serial:
            time.sleep(RECEIVER * self._pace.scale)
            self._end.close()
            self._note(step.line, "-", b"", "30 seconds go by, in place of a restart")
        else:
            self._connect_again("a new connection, in place of a restart")
