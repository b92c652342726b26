"""The events of a line, for its observers: the line waits for none of them, and none can break it. And the observer
that logs a connection's rejected frames, sessions without an accepted frame, bytes without a session, noise."""
from typing import Callable, Dict, List, Mapping, NamedTuple, Optional, Protocol, Sequence, Type, Union

from lislink.codes import FrameFault, Note
from lislink.link import Step
from ..model.store import End
from .notices import CONNECTION, FRAME, NOISE, OTHER, REJECTED, REPLY, SESSION

#: After so many bytes without a session, or so many empty sessions, the host logs that.
BYTES, EMPTY = 1000, 5
#: What helps an analyzer whose sessions begin without the end of the one before.
ANEW = "careful=no of its line answers its first ENQ"


class Came(NamedTuple):
    """Bytes of the analyzer are heard from here on."""

    data: bytes


class Sent(NamedTuple):
    """Bytes of the host go out; if they are a reply, so many seconds after the bytes came that it answers, and whether
    these ended a text, which is kept."""

    data: bytes
    seconds: Optional[float] = None
    is_kept: bool = False


class Meant(NamedTuple):
    """What a byte meant, at this place of the bytes that are heard; whether it is ENQ."""

    place: int
    step: Step
    is_enq: bool = False


class TimerOver(NamedTuple):
    """The timer's time is over."""


class Noise(NamedTuple):
    """So many ENQ and STX came inside a session or a frame, where no analyzer sends them."""

    times: int


class NotKept(NamedTuple):
    """A text could not be stored."""

    error: Exception


class MessageEnded(NamedTuple):
    """A message ended, and its end is stored."""

    end: End


class Late(NamedTuple):
    """A reply was not sent, since it would have been late: the bytes came so many seconds ago. Whether they ended a
    text, which is kept."""

    seconds: float
    is_kept: bool


class Restarted(NamedTuple):
    """The receiver was restarted."""


class OwnAnswered(NamedTuple):
    """A session of the host's own was answered."""


class OwnFailed(NamedTuple):
    """A session of the host's own failed."""

    why: str


class ReplyAfterAll(NamedTuple):
    """A reply came after the host had given its session up."""

    byte: int


class Looked(NamedTuple):
    """Whether there was an order for a query."""

    is_any: bool


class Closed(NamedTuple):
    """The line is closed, and why."""

    why: str


Event = Union[
    Came,
    Sent,
    Meant,
    TimerOver,
    Noise,
    NotKept,
    MessageEnded,
    Late,
    Restarted,
    OwnAnswered,
    OwnFailed,
    ReplyAfterAll,
    Looked,
    Closed,
]
#: What an observer does at each kind of event. It isn't called for a kind that it lacks.
Sees = Mapping[Type[Event], Callable[..., object]]


class Observers:
    """The observers of a line. If one raises an exception, the host logs it and the line goes on."""

    def __init__(self, those: Sequence[Sees], say: Callable[[str, str], None]) -> None:
        self._say = say
        self._those: Dict[Type[Event], List[Callable[..., object]]] = {}
        for one in those:
            for kind, see in one.items():
                self._those.setdefault(kind, []).append(see)

    def tell(self, event: Event) -> None:
        """Tells those what happened who listen for such events."""
        for see in self._those.get(type(event), ()):
            try:
                see(event)
            except Exception as error:  # whatever it is, the line goes on
                what = f"{type(error).__name__}: {error}"
                self._say(f"an observer of the line failed at {type(event).__name__}: {what}", OTHER)


class Heard(Protocol):
    """What came over a connection so far, as its probe sees it."""

    #: How many bytes came before those that are heard now, and these; where in them the last answered byte was.
    before: int
    now: bytes
    at: int
    #: The bytes since the ENQ of the session that goes on, up to its first frame; how many frames of it were
    #: acknowledged, and how many of these were new.
    got: bytearray
    good: int
    taken: int


class Watch:
    """Logs what is wrong on a connection: the first rejection of each frame, bytes without a session, sessions without
    a frame that is accepted. The connection's probe tells it of bytes that took no frame, before it takes them itself."""

    def __init__(self, say: Callable[[str, str], None], heard: Heard) -> None:
        self._say, self._heard = say, heard
        #: How many sessions there were, and how many in a row had no byte; the first byte of all.
        self.sessions = self._empty = 0
        self._first, self._said = b"", False
        #: How many frames of the session were rejected, why the first one was, and how many were taken before the last
        #: one; less than 0 for none.
        self._rejected, self._why, self._rejected_at = 0, "", -1
        #: The place of the session's first byte after its ENQ; None without a session.
        self._start: Optional[int] = None
        #: Where in the connection the last ENQ was that was heard as noise; less than 0 for none.
        self._noise_at = -1

    def sees(self) -> Sees:
        """What it does when something happens on the connection."""
        return {
            Restarted: lambda _: self.session_over(),
            OwnAnswered: self._own_answered,
            Late: self._late,
            ReplyAfterAll: self._reply_after_all,
            Closed: self._closed,
        }

    def _own_answered(self, _: OwnAnswered) -> None:
        self.sessions += 1

    def _late(self, late: Late) -> None:
        byte = f"byte {self._heard.before + self._heard.at} of the connection"
        self._say(f"a reply is late and isn't sent: {byte} came {late.seconds:.1f} s ago", REPLY)

    def _reply_after_all(self, reply: ReplyAfterAll) -> None:
        byte = f"byte {self._heard.before} of the connection is 0x{reply.byte:02X}"
        self._say(f"a reply came after the host had given its session up: {byte}", REPLY)

    def _closed(self, closed: Closed) -> None:
        self.session_over()
        count = self._heard.before + len(self._heard.now)
        self._no_session(count)
        self._say(f"closed {closed.why}; bytes {count}, sessions {self.sessions}", CONNECTION)

    def _note_enq(self, note: Note, at: int) -> None:
        """Logs an ENQ that is noise: it came in a session, and had no reply. An analyzer that begins again without EOT
        sends the next ENQ at once; noise is followed by the rest of its frame, or by EOT."""
        before, self._noise_at = self._noise_at, at if note is Note.ENDED else -1
        if note is Note.ENDED:
            self._say(f"noise on the line: byte {at} of the connection, in a session, is ENQ; it has no reply", NOISE)
        elif 0 <= before == at - 1:
            self._say(f"ENQ came again, with nothing between: if the analyzer begins again without EOT, {ANEW}", NOISE)

    def outside(self, data: bytes) -> None:
        """Bytes came while no session is open."""
        if not self.sessions:
            self._first = self._first or data[:1]
            if self._heard.before >= BYTES:
                self._no_session(self._heard.before)

    def meant(self, meant: Meant) -> None:
        """What a byte meant that took no frame."""
        place, step, is_enq = meant
        note, at = step.note, self._heard.before + place
        if note is Note.OPENED:
            self.session_over(place)
            self.sessions += 1
            self._start = at + 1
        elif note is Note.ENDED:
            self.session_over(place)
        elif note is Note.TIMED_OUT:
            self.session_over()
        elif note in REJECTED:
            self._reject(f"ends at byte {at} of the connection: {code_of(step)}")
        if is_enq:
            self._note_enq(note, at)

    def _reject(self, why: str) -> None:
        """A frame was rejected. The analyzer resends it, and it may be rejected again: the host logs that only once."""
        taken = self._heard.taken
        self._rejected += 1
        self._why = self._why or why
        if self._rejected_at != taken:
            self._rejected_at = taken
            self._say(f"frame {taken + 1} of a session is rejected; it {why}", FRAME)

    def session_over(self, place: Optional[int] = None) -> None:
        """A session ended or was aborted, at this place of the bytes that are heard, or after them."""
        start, self._start, heard = self._start, None, self._heard
        if start is not None and heard.good:
            self._empty = 0
        elif start is not None:
            self._without_a_frame(start, heard.before + (len(heard.now) if place is None else place) - start)
        self._rejected, self._why, self._rejected_at = 0, "", -1

    def _without_a_frame(self, start: int, size: int) -> None:
        """No frame was accepted in a session of so many bytes between its ENQ and its end."""
        if self._rejected:
            why = f"{self._rejected} rejected; the first one {self._why}"
            self._say(f"no frame was accepted in a session, {why}", SESSION)
        elif size > 0:
            what = f"no frame was accepted in a session, {size} bytes came"
            self._say(f"{what}; byte {start} of the connection is 0x{self._heard.got[0]:02X}", SESSION)
        else:
            self._empty += 1
            if self._empty == EMPTY:
                self._say(f"{EMPTY} sessions in a row had no byte after their ENQ: are the replies heard?", SESSION)

    def _no_session(self, count: int) -> None:
        """Logs once that so many bytes came without a session."""
        if count and not self.sessions and not self._said:
            self._said = True
            what = f"{count} bytes came without an ENQ that begins a session"
            self._say(f"{what}; byte 0 is 0x{self._first[0]:02X}", SESSION)


def code_of(step: Step) -> str:
    """Why a frame was rejected, as a code."""
    if step.note is Note.REFUSED:
        fault = FrameFault(step.detail)
        return f"{fault.name}, byte {step.place} of its text" if fault is FrameFault.FORBIDDEN else fault.name
    return f"{step.note.name}, number {step.detail}" if step.note is Note.OUT_OF_TURN else step.note.name
