"""A session as a ladder: each unit and reply of a capture with what it means to the proved receiver, and why."""
import bisect
import itertools
from typing import Dict, Iterator, List, NamedTuple, Optional, Tuple, Union

from lislink.capture import Capture, Line
from lislink.codes import Kind, Note, Readiness
from lislink.letters import LATIN
from lislink.link import FRAME_TEXT, Receiver, Scanner, Signal, Step
from lislink.message import Fault, Found, read_all
from ..diagnosis.faults import Cause, Sum, cause_of_frame, checksum_of, words
from ..diagnosis.log import SECOND
from ..diagnosis.verdicts import BAD, REJECTED, Meaning, Verdict

ENQ, ACK, NAK, EOT, STX = 5, 6, 0x15, 4, 2


class Row(NamedTuple):
    """A row of a ladder. `side` is `>` for the analyzer, `<` for the computer, `-` for an event. `level` is `good`,
    `plain`, `warn` or `bad`, and `note` says in a sentence what the row means. `reply` is the proved receiver's
    reply to it, and `heard` what it meant to that receiver."""

    line: int
    time: Optional[int]
    side: str
    kind: str
    title: str
    note: str
    level: str
    raw: bytes = b""
    text: bytes = b""
    reply: bytes = b""
    checksum: Optional[Sum] = None
    cause: Optional[Cause] = None
    number: int = -1
    last: bool = True
    heard: Note = Note.QUIET
    meaning: Meaning = Meaning.NOTHING


_READY = {"ready": Meaning.READY, "busy": Meaning.IS_BUSY, "contending": Meaning.CONTENDING}


class Text(NamedTuple):
    """A text that the receiver delivers: at which line of the capture."""

    line: int
    data: bytes


class Look(NamedTuple):
    """Something that looks wrong: its name, how bad it is, what it is, what to do, and the first lines that have
    it."""

    name: str
    level: str
    words: str
    advice: str
    lines: List[int]


def _has_echo(capture: Capture) -> bool:
    """Whether frames of the analyzer come back from the computer's side, or ENQ again and again; a single ENQ in
    answer to ENQ is a computer's that wants to send."""
    sent = back = b""
    for _, line in capture.lines:
        if line.mark == ">":
            sent += line.data
        elif line.mark == "<":
            is_same = sent.startswith(line.data)
            back += line.data if is_same else b""
            sent = sent[len(line.data) :] if is_same else b""
    return STX in back or back.count(ENQ) > 2


class Ladder:
    """The rows of a capture, the texts and messages in it, and what looks wrong."""

    def __init__(self, capture: Capture, encoding: str = LATIN, frame_limit: int = FRAME_TEXT) -> None:
        self.rows: List[Row] = []
        self.texts: List[Text] = []
        self.differences: List[Tuple[int, bytes, bytes]] = []  # the line (0 for the end), sent, due
        self.notes: Dict[Note, int] = {}
        self.dropped: List[Tuple[int, int]] = []  # texts that were never ended: the line, how many bytes
        self.analyzer = b"".join(line.data for _, line in capture.lines if line.mark == ">")
        self.computer = b"".join(line.data for _, line in capture.lines if line.mark == "<")
        self.has_replies = any(line.mark == "<" for _, line in capture.lines)
        self._carry, self._due = b"", b""
        self._begun: Tuple[int, Optional[int], int] = (0, None, 0)  # where the open frame began: line, time, row
        self._last_text: Optional[bytes] = None
        self._heard: Optional[int] = None
        self._computer_sends = False
        # Whether an echo is on the line, what it may still send back, and the answer that is due after it.
        self._echoes, self._sent, self._echoed = _has_echo(capture), b"", b""
        self.frame_limit = frame_limit
        # The line that is taken now, and its time.
        self._at: Tuple[int, Optional[int]] = (0, None)
        self._begin()
        try:
            for (number, line), time in zip(capture.lines, capture.times):
                self._take(number, line, time)
            self._end(capture)
        finally:
            self.close()
        stream = b"".join(text.data for text in self.texts)
        self.stream = stream
        self._ends = list(itertools.accumulate(len(text.data) for text in self.texts))
        self.messages: List[Union[Found, Fault]] = list(read_all(stream, encoding))

    def line_of(self, place: int) -> int:
        """The line of the capture at which this byte of the records was delivered."""
        number = bisect.bisect_right(self._ends, min(place, len(self.stream) - 1))
        return self.texts[min(number, len(self.texts) - 1)].line if self.texts else 0

    def _begin(self) -> None:
        self._receiver, self._scanner = Receiver(frame_limit=self.frame_limit), Scanner(frame_limit=self.frame_limit)

    def close(self) -> None:
        """Gives the library's handles back."""
        self._receiver.close()
        self._scanner.close()

    def _take(self, number: int, line: Line, time: Optional[int]) -> None:
        self._at = number, time
        if line.mark == ">":
            self._silence(time)
            self._sent += line.data
            self._units(line.data)
        elif line.mark == "<":
            self._reply(line.data)
        elif line.mark == "T":
            self._note_dropped()
            step = self._receiver.timer()
            self._due += step.reply
            self.notes[step.note] = self.notes.get(step.note, 0) + 1
            self._event(Meaning.TIMED_OUT if step.note is Note.TIMED_OUT else Meaning.TIMER)
        elif line.mark == "R":
            self._note_dropped()
            self._receiver.restart()
            self._event(Meaning.RESTARTED)
        elif line.mark == "S":
            self._receiver.set_ready(Readiness[line.ready.upper()])
            self._event(_READY[line.ready])

    def _row(
        self, side: str, kind: str, title: str, meaning: Meaning, raw: bytes = b"", note: Optional[str] = None
    ) -> Row:
        """A row of the line that is taken now. Its note is the meaning's sentence, or this one."""
        said = meaning.says() if note is None else note
        return Row(*self._at, side, kind, title, said, meaning.level, raw, meaning=meaning)

    def _event(self, meaning: Meaning) -> None:
        self.rows.append(self._row("-", "event", meaning.says(), meaning, note=""))

    def _silence(self, time: Optional[int]) -> None:
        if time is None:
            return
        if self._heard is not None and time - self._heard > 30 * SECOND and self._receiver.is_open:
            title = f"{(time - self._heard) / SECOND:.1f} seconds of silence"
            self.rows.append(self._row("-", "silence", title, Meaning.SILENCE))
        self._heard = time

    def _insert_dropped(self, begun: Tuple[int, Optional[int], int], piece: bytes, meaning: Meaning) -> None:
        """A frame that no LF ends, at the row where it began."""
        line, since, place = begun
        self.rows.insert(place, self._row(">", "dropped", words(piece), meaning, piece)._replace(line=line, time=since))

    def _note_dropped(self) -> None:
        if self._receiver.held:
            self.dropped.append((self._at[0], self._receiver.held))

    def _units(self, data: bytes) -> None:
        """The units that a line completes: each signal of the scanner, with the receiver's step at the same byte."""
        start, was_open = 0, bool(self._carry)
        for place, signal in self._scanner.feed_placed(data):
            raw, self._carry = self._carry + data[start : place + 1], b""
            held = self._receiver.held
            step = next((step for _, step in self._receiver.hear_placed(data[start : place + 1])), None)
            start = place + 1
            cut = raw.rfind(2) if signal.kind in (Kind.FRAME, Kind.BAD_FRAME) else len(raw) - 1
            self._outside(raw[:cut], was_open)
            was_open = False
            if held and step is not None and step.note in (Note.OPENED, Note.ENDED, Note.NOT_READY):
                self.dropped.append((self._at[0], held))
            self._unit(signal, step, raw[cut:])
        rest = data[start:]
        if rest:
            for _ in self._receiver.hear_placed(rest):
                raise AssertionError("the receiver answers where the scanner tells no signal")
            self._carry += rest
        # What is no part of a frame that is still open is shown at its own line.
        cut = self._carry.rfind(2)
        self._outside(self._carry if cut < 0 else self._carry[:cut], was_open and cut != 0)
        self._carry = b"" if cut < 0 else self._carry[cut:]
        if self._carry and not (was_open and cut == 0):
            self._begun = (*self._at, len(self.rows))

    def _outside(self, data: bytes, was_open: bool = False) -> None:
        """Bytes before a unit: a frame that is dropped, since something else came before its LF, or bytes of no
        frame. A frame that was open before this line is shown where it began."""
        while data:
            cut = data.find(2, 1)
            piece, data = (data, b"") if cut < 0 else (data[:cut], data[cut:])
            if piece[0] == STX:
                begun = self._begun if was_open else (*self._at, len(self.rows))
                self._insert_dropped(begun, piece, Meaning.DROPPED)
                was_open = False
            elif self._computer_sends and set(piece) <= {ACK, NAK, EOT}:
                self.rows.append(self._row(">", "answer", words(piece), Meaning.ANSWERS, piece))
            else:
                self.rows.append(self._row(">", "outside", words(piece), Meaning.OUTSIDE, piece))

    def _unit(self, signal: Signal, step: Optional[Step], raw: bytes) -> None:
        note = step.note if step else Note.QUIET
        self.notes[note] = self.notes.get(note, 0) + 1
        if step and step.text is not None:
            self.texts.append(Text(self._at[0], step.text))
        row = self._signal(signal, note) if signal.kind in (Kind.ENQ, Kind.EOT) else self._frame(signal, step, raw)
        reply = step.reply if step else b""
        self._due += reply
        self.rows.append(row._replace(raw=raw, reply=reply, heard=note))

    def _frame(self, signal: Signal, step: Optional[Step], raw: bytes) -> Row:
        """The row of a frame, or of what should be one."""
        note = step.note if step else Note.QUIET
        meaning, why, cause = self._why(signal, step, raw[1:-1], note)
        if signal.kind is Kind.FRAME:
            end = "" if signal.last else " intermediate (ETB)"
            title = f"frame {signal.number}{end} {len(signal.text)} bytes '{words(signal.text)}'"
            row = self._row(">", "frame", title, meaning, note=why)._replace(number=signal.number)
            if note is Note.ACCEPTED:
                self._last_text = signal.text
        else:
            row = self._row(">", "bad", f"no frame: {words(raw)}", meaning, note=why)
        return row._replace(text=signal.text, checksum=checksum_of(raw[1:-1]), cause=cause, last=signal.last)

    def _why(
        self, signal: Signal, step: Optional[Step], body: bytes, note: Note
    ) -> Tuple[Meaning, str, Optional[Cause]]:
        due = (self._receiver.accepted + 1) % 8
        bad = signal.kind is Kind.BAD_FRAME
        cause = cause_of_frame(body, signal.fault, signal.place, self.frame_limit) if bad else None
        if cause is None and note in REJECTED:
            cause = Cause(REJECTED[note], REJECTED[note].live.format(due=due))
        if cause is not None:
            meaning = Meaning.NOT_OPEN_WRONG if bad and note is not Note.REFUSED else Meaning.REJECTED
            return meaning, meaning.says(why=cause.words), cause
        if note is Note.ACCEPTED:
            if step is not None and step.text is not None:
                return Meaning.DELIVERED, Meaning.DELIVERED.says(size=len(step.text)), None
            return Meaning.HELD, Meaning.HELD.says(size=self._receiver.held), None
        if note is Note.DUPLICATE:
            is_lost = self._last_text is not None and signal.text != self._last_text
            meaning = Meaning.LOST if is_lost else Meaning.DUPLICATE
            lost = Cause(Verdict.LOST, Verdict.LOST.key) if is_lost else None
            return meaning, meaning.says(number=signal.number, due=due), lost
        return Meaning.NOT_OPEN, Meaning.NOT_OPEN.says(), None

    def _signal(self, signal: Signal, note: Note) -> Row:
        if signal.kind is Kind.ENQ:
            meaning = Meaning.OPENED if note is Note.OPENED else Meaning.NOT_READY
            self._last_text = None
        else:
            meaning = Meaning.ENDED if note is Note.ENDED else Meaning.EOT_IGNORED
        return self._row(">", signal.kind.name, signal.kind.name, meaning)

    def _reply(self, data: bytes) -> None:
        wanted, self._due = self._due, b""
        if wanted != data:
            self.differences.append((self._at[0], data, wanted))
        kind, meaning = self._answer(data, wanted)
        if meaning is Meaning.AFTER_ECHO:
            wanted = b""
        note = meaning.says(wanted=words(wanted) or "nothing")
        self.rows.append(self._row("<", kind, words(data), meaning, data, note)._replace(reply=wanted))

    def _answer(self, data: bytes, wanted: bytes) -> Tuple[str, Meaning]:
        """What bytes of the computer mean where these are due."""
        if wanted == data:
            return "reply", Meaning.NOTHING
        if self._is_echo(data):
            self._echoed = wanted or self._echoed
            return "echo", Meaning.ECHO
        if data == self._echoed:
            self._echoed = b""
            return "reply", Meaning.AFTER_ECHO
        if STX in data or ENQ in data and wanted != b"\x05" or self._computer_sends and data == b"\x04":
            self._computer_sends = data != b"\x04"
            return "reply", Meaning.OWN_SESSION
        if len(data) < len(wanted) and wanted.endswith(data):
            return "reply", Meaning.UNANSWERED
        if data == b"\x15" and wanted == b"\x06":
            last = next((row for row in reversed(self.rows) if row.side == ">"), None)
            return "reply", Meaning.BUSY if last is not None and last.kind == "ENQ" else Meaning.REJECTS_GOOD
        if data == b"\x06" and wanted == b"\x15":
            return "reply", Meaning.TAKES_BAD
        return "reply", Meaning.INTERRUPT if data == b"\x04" and wanted == b"\x06" else Meaning.OTHER

    def _is_echo(self, data: bytes) -> bool:
        """Whether the computer sends what the analyzer has sent since the last answer, from its beginning on."""
        is_same = self._sent.startswith(data)
        self._sent = self._sent[len(data) :] if is_same else b""
        return is_same and self._echoes

    def _end(self, capture: Capture) -> None:
        self._at = capture.lines[-1][0] if capture.lines else 0, None
        if self._carry:
            self._insert_dropped(self._begun, self._carry, Meaning.CUT_OFF)
        self._note_dropped()
        self.is_open = self._receiver.is_open
        if self._due:
            self.differences.append((0, b"", self._due))
            if self.has_replies:
                note = Meaning.OTHER.says(wanted=words(self._due))
                row = self._row("-", "silence", "no answer", Meaning.OTHER, note=note)
                self.rows.append(row._replace(reply=self._due))

    def units(self) -> Iterator[Row]:
        """The rows of units that the analyzer sent."""
        return (row for row in self.rows if row.side == ">" and row.kind in ("ENQ", "EOT", "frame", "bad"))

    def counts(self) -> Dict[str, int]:
        """How many there are of what a summary names."""
        kinds = [row.kind for row in self.units()]
        found = [one for one in self.messages if isinstance(one, Found)]
        return {
            "ENQ": kinds.count("ENQ"),
            "frames": kinds.count("frame") + kinds.count("bad"),
            "accepted": self.notes.get(Note.ACCEPTED, 0),
            "duplicates": self.notes.get(Note.DUPLICATE, 0),
            "rejected": sum(self.notes.get(one, 0) for one in (Note.REFUSED, *REJECTED)),
            "texts": len(self.texts),
            "differences": len(self.differences),
            "messages": len(found),
            "results": sum(1 for one in found for _ in one.message.results()),
            "findings": sum(len(one.message.findings()) for one in found),
            "rejected messages": len(self.messages) - len(found),
        }
