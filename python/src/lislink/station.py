"""Both ways of one line (LIS01-A2, 6.2.7 and 6.5): a station is a sender and a receiver, and knows which of them a
byte is for. Each decision is made by the proved library."""
import ctypes
from typing import Iterable, Iterator, NamedTuple, Optional, Tuple

from . import _library
from ._checks import as_flag, as_number
from .codes import Note, Outcome, Phase, Role
from .link import FRAME_TEXT, LinkError, ReceivingEnd, SendingEnd, Step


class Answer(NamedTuple):
    """What a byte or the timer meant to a station. Store the text, then send the bytes. The station's timer starts
    again at each answer."""

    #: The bytes to send; there may be none.
    send: bytes
    #: The receiver's step; None if it was for the sender.
    step: Optional[Step]

    @property
    def text(self) -> Optional[bytes]:
        """The text that is complete, to be kept before anything is sent; None for most answers."""
        return None if self.step is None else self.step.text

    @property
    def note(self) -> Optional[Note]:
        """What it meant to the receiver; None if it was for the sender."""
        return None if self.step is None else self.step.note


class Station(SendingEnd, ReceivingEnd[Answer]):
    """One side of a line on which both sides send: it receives at any time, and sends a session when it is started.

    Give it each byte that comes (`hear`), and call `timer` when `seconds` have passed since its last answer; it says
    what to send. Let it hear the bytes that have come before you let the timer run out.

    Keep an answer's text first, then send its bytes. If you can't keep it, send nothing, call `close_line`, and
    start no session for over 15 seconds. Send no reply late, either: the other side waits for it for 15 seconds. A
    frame's text has at most `frame_limit` bytes, FRAME_TEXT or LONG_FRAME_TEXT, which needs a thread with a stack of a
    megabyte. With `careful` it hears carefully what is for its receiver, as `set_careful` says."""

    _kind = "station"

    def __init__(self, role: Role, *, frame_limit: int = FRAME_TEXT, careful: bool = False) -> None:
        if isinstance(role, bool):
            raise TypeError("a Role is needed, not bool")
        super().__init__()
        self._begin(Role(role), as_number(frame_limit, 0, (1 << 64) - 1, "the frame limit"))
        self._set_room(frame_limit)
        self.set_careful(careful)

    def _begin(self, role: Role, frame_limit: int) -> None:
        """Makes the station new; one that can't be is closed."""
        status = self._call("begin", role, frame_limit)
        if status:
            self.close()
            raise LinkError(status)

    def start(self, texts: Iterable[bytes], *, is_quiet: bool = False) -> bytes:
        """Asks for the line, to send these texts in one session; returns ENQ, to be sent.

        LinkError, and the station is as before: LINE_OPEN while the other side has the line; IN_SESSION while a session
        of its own goes on; OLD_LINE after one that timed out or was given up, until `connected` is called, or
        `is_quiet` says that you waited until no reply can be on its way; NO_TEXT, FULL, OUT_OF_MEMORY, TOO_LONG;
        FORBIDDEN with the text and the byte. The session is over when `phase` is NEUTRAL again; only `outcome` DONE
        says that all texts were acknowledged. Keep yours until then: the station has them no more, however the session
        ended."""
        self._call("clear")
        try:
            for index, text in enumerate(texts):
                self._put_text(text, index)
            return self._started(is_quiet)
        finally:
            self._call("clear")

    def _heard(self, left: int) -> Iterator[Tuple[int, Answer]]:
        out = _library.AnswerOut()
        while self._at < len(self._piece):
            self._read("hear", ctypes.byref(out))
            if out.step.note or not out.is_step:
                yield self._at - 1 - left, self._told(out)

    def timer(self) -> Answer:
        """The time of `seconds` is over: the receiver's while the other side has the line, else the sender's."""
        out = _library.AnswerOut()
        self._call("timer", ctypes.byref(out))
        return self._told(out)

    def give_up(self) -> None:
        """Gives up its own session; nothing is sent."""
        self._call("give_up")

    def close_line(self) -> None:
        """Drops the other side's session and what is held of it: that side is not heard until it asks for the line
        again."""
        self._call("close_line")

    def restart(self) -> None:
        """Gives up its own session and drops the other side's, as when the connection is lost."""
        self._call("restart")

    def set_ready(self, ready: bool) -> None:
        """Says whether the other side gets the line from now on: its ENQ is answered ACK, or NAK."""
        self._call("set_ready", as_flag(ready, "ready"))

    def ask_turn(self) -> None:
        """While the other side has the line: asks it to let this side send. The next frame that is accepted is
        answered EOT in place of ACK."""
        self._call("ask_turn")

    @property
    def seconds(self) -> Optional[int]:
        """After how many seconds `timer` is due; None if no timer runs, 0 if it is over at once."""
        seconds = ctypes.c_uint32()
        return seconds.value if self._call("timer_seconds", ctypes.byref(seconds)) else None

    @property
    def turn_seconds(self) -> Optional[int]:
        """How long to leave the line to the other side before a start, since it waits for its turn; None if it
        doesn't wait. This is over as soon as the other side has had a session."""
        return self._call("turn_seconds") or None

    @property
    def turn_asked(self) -> bool:
        """Whether the other side asked for its turn, by EOT in reply to a frame, and hasn't had it since."""
        return bool(self._call("turn_asked"))

    @property
    def awaits_reply(self) -> bool:
        """Whether the next byte is a reply to its own ENQ or frame."""
        return bool(self._call("awaits_reply"))

    def _told(self, out: _library.AnswerOut) -> Answer:
        send = bytes(out.send.bytes[: out.send.len])
        if not out.is_step:
            return Answer(send or self._long_frame(), None)
        step, text = out.step, self._text() if out.step.has_text else None
        return Answer(send, Step(send, text, Note(step.note), step.detail, step.place))
