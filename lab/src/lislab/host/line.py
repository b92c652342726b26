"""One line of a host: it hears bytes, keeps texts, and replies. The proved receiver decides what each byte means and
what is answered; this module decides when an answer goes out: after its text is kept, and never late."""
import asyncio
import math
from collections import Counter
from dataclasses import dataclass, field
from typing import Callable, Protocol, Sequence

from lislink.codes import Note
from lislink.link import FRAME_TEXT, RECEIVER, Receiver, Step
from ..diagnosis.events import Came, Closed, Late, Meant, Noise, NotKept, Observers, Restarted, Sent, TimerOver
from ..diagnosis.notices import REJECTED, TAKEN
from ..model.options import Limits
from ..model.store import Change, StoreError
from .storing import Committer, Keeper
from .feeds import FeedsReceiver
from .intake import FIRST, Intake, Pool, TextRoom, TooLong
from .fix import LINE_FEEDS
from .fixer import Fixer
from .turns import Share, Turns
from .wires import Inbox, Wire, clock

#: An analyzer that sends EOT so many seconds after the last reply has probably heard no reply.
BROKEN = 10.0
ENQ, NEVER = 5, math.inf
#: What ends a session, and the reason of a message that it leaves without its L record.
_ENDS = {
    Note.OPENED: "a new session began before its L record",
    Note.NOT_READY: "a new session began before its L record",
    Note.ENDED: "the session ended before its L record",
    Note.TIMED_OUT: "the analyzer sent nothing more before its L record",
}
_NOISE = "there was noise on the line before its L record"
#: The steps after which ENQ and STX that were heard as noise are counted.
_AFTER_NOISE = frozenset((Note.ENDED, Note.TIMED_OUT, *REJECTED))
_COUNTED = {
    Note.OPENED: "sessions",
    Note.ACCEPTED: "frames",
    Note.DUPLICATE: "duplicates",
    Note.OUT_OF_TURN: "out_of_turn",
    Note.REFUSED: "rejected",
    Note.NO_ROOM: "rejected",
    Note.TEXT_TOO_LONG: "rejected",
    Note.TOO_MANY: "rejected",
    Note.OUT_OF_MEMORY: "rejected",
    Note.TIMED_OUT: "timeouts",
}


@dataclass(frozen=True)
class Parts:
    """What a line is made of: its own parts, then those that it shares with others."""

    wire: Wire
    intake: Intake
    observers: Observers
    say: Callable[[str, str], None]
    counts: "Counter[str]"
    fixer: Fixer
    committer: Committer
    turns: Turns
    limits: Limits = Limits()
    frame: int = FRAME_TEXT
    is_careful: bool = True
    #: The room for texts that aren't complete.
    room: Pool = field(default_factory=lambda: Pool(1 << 40))


class Ear(Protocol):
    """What hears a line: a receiver, or a station."""

    @property
    def is_open(self) -> bool:
        """Whether the analyzer has the line."""

    @property
    def held(self) -> int:
        """How many bytes are held of a text that isn't complete."""

    @property
    def noise(self) -> int:
        """How many ENQ and STX were heard as noise."""

    def close(self) -> None:
        """Releases its memory."""


class Closing:
    """Whether and why a line is to be closed."""

    def __init__(self) -> None:
        #: Whether the connection is gone; whether the line is to be closed between sessions, or at once; and why.
        self.is_lost = self.is_asked = self.is_cut = False
        self.why = ""

    def ask(self, why: str) -> None:
        """It is to be closed between sessions."""
        self.is_asked, self.why = True, self.why or why


class Line:
    """A line that is connected. It tells its observers what happens on it, and waits for none of them."""

    def __init__(self, parts: Parts) -> None:
        self._wire, self._limits, self._counts = parts.wire, parts.limits, parts.counts
        self._tell, self.inbox = parts.observers.tell, Inbox(parts.wire)
        self._share = Share(parts.turns, parts.intake.peer, self.inbox.pause)
        shared = parts.committer, parts.fixer, self._share, parts.observers, parts.counts, parts.say
        self.keeper = Keeper(parts.intake, *shared, self._took_fixed)
        self._ear: Ear = self._begin(parts)
        self._room = TextRoom(parts.room, self._has_room)
        #: When the timer is over; when the last frame was acknowledged, long ago if it was rejected.
        self._due, self._acknowledged = NEVER, -NEVER
        #: When bytes came last; whether there was a session; how many ENQ and STX were noise.
        self.last_byte, self.had_session, self._noise = clock(), False, 0
        self._closing = Closing()

    # ---- what differs on a line on which the host sends too

    def _begin(self, parts: Parts) -> Ear:
        """Makes what hears the line."""
        kind = FeedsReceiver if parts.fixer.names & LINE_FEEDS else Receiver
        self._receiver = kind(frame_limit=parts.frame, careful=parts.is_careful)
        return self._receiver

    def _is_busy(self) -> bool:
        """Returns whether a session goes on."""
        return self._ear.is_open

    def _begin_anew(self) -> None:
        """Drops what is held. The analyzer is heard again when it sends ENQ."""
        self._receiver.restart()

    def _set_timer(self, now: float) -> None:
        """Starts the timer."""
        self._due = now + RECEIVER * self._limits.scale

    def _end(self) -> None:
        """The line is closed."""

    def _has_room(self, is_there: bool) -> None:
        """There is room for more of a text, or there isn't: then its frames are rejected."""
        self._receiver.set_room(is_there)

    async def _timed(self, now: float) -> None:
        """The timer is over, which means nothing unless the analyzer has the line."""
        self._due = NEVER
        if self._receiver.is_open:
            self._tell(TimerOver())
            await self._step(self._receiver.timer(), now)
            self._room.look(self._ear.held)

    async def _heard(self, data: bytes, arrived: float) -> None:
        """Passes bytes to the receiver, and does what each of its steps asks for."""
        for place, step in self._receiver.hear_placed(data):
            await self._step(step, arrived, place, place >= 0 and data[place] == ENQ)
            if place + 1 < len(data):
                await self._share.take_turns()
            if self._closing.is_asked and self._is_through():
                return

    def _start_at(self) -> float:
        """Returns when a session of the host's own may start; NEVER if it has nothing to send."""
        return NEVER

    async def _start(self) -> None:
        """Starts a session of the host's own."""

    def _took_fixed(self, key: str, changes: Sequence[Change]) -> None:
        """A message was fixed, and these changes store it."""

    # ---- what is the same on each line

    def lost(self, why: str = "by the other end") -> None:
        """The connection is gone. What came before is still heard."""
        self._closing.is_lost, self._closing.why = True, self._closing.why or why
        self.inbox.wake()

    def stop(self, why: str) -> None:
        """Closes the line as soon as no session goes on."""
        self._closing.ask(why)
        self.inbox.wake()

    def cut(self, why: str) -> None:
        """Closes the line at once, also within a session: what came and isn't answered yet is too old."""
        self.inbox.clear()
        self._closing.is_cut = True
        self.stop(why)

    async def run(self) -> None:
        """Hears the line until it is closed."""
        closing, inbox = self._closing, self.inbox
        why = "the line was closed before its L record"
        try:
            while not closing.why or not self._is_over():
                now = clock()
                if inbox.pieces:
                    arrived, data = inbox.take()
                    self.last_byte = now
                    if arrived >= self._due:
                        await self._timed(now)
                    self._tell(Came(data))
                    self._room.open += len(data)
                    await self._heard(data, arrived)
                    if self._room.open > FIRST or self._room.has:
                        self._room.look(self._ear.held)
                    if inbox.pieces:
                        await self._share.take_turns()
                elif now >= self._due:
                    await self._timed(now)
                elif now >= (start := self._start_at()):
                    await self._start()
                elif now >= (idle := self.last_byte + self._limits.idle):
                    self._counts["idle"] += 1
                    closing.why = f"after {self._limits.idle:g} s of silence"
                    break
                else:
                    self._share.rests()
                    await inbox.wait(min(self._due, start, idle))
        except asyncio.CancelledError:
            why = "the host was stopped"
            closing.why = closing.why or "since the host stops"
            raise
        finally:
            self._close(f"the line was closed {closing.why}" if closing.is_cut else why)

    def _close(self, why: str) -> None:
        """Closes the line. Why the message that goes on isn't complete, if one does."""
        self._closing.is_lost = True
        self.keeper.end(why)
        self._room.close()
        self._end()
        self._ear.close()
        self._tell(Closed(self._closing.why or "after a fault"))
        self._wire.close()
        self.inbox.stop()

    def _is_over(self) -> bool:
        """Returns whether the line is to be closed now, or is lost and all that came is heard."""
        return self._is_through() or (self._closing.is_lost and not self.inbox.pieces)

    def _is_through(self) -> bool:
        """Returns whether the line is to be closed now. Bytes that came since, as ENQ, are not heard."""
        return self._closing.is_asked and (self._closing.is_cut or not self._is_busy())

    def _note_noise(self) -> None:
        """Counts ENQ and STX that came inside a session or a frame, where no analyzer sends them."""
        before, self._noise = self._noise, self._ear.noise
        if self._noise > before:
            self._counts["noise"] += self._noise - before
            self._tell(Noise(self._noise - before))

    async def _step(self, step: Step, arrived: float, place: int = 0, is_enq: bool = False) -> None:
        """Does what a step asks for: stores its text, then sends its reply."""
        self._tell(Meant(place, step, is_enq))
        reply, text, note, _, _ = step
        if note in _COUNTED:
            self._counts[_COUNTED[note]] += 1
        if note not in TAKEN:
            self._without_frame(note, arrived, is_enq)
        if text is not None and not await self._keep(text):
            return
        now = clock()
        if reply and not self._answer(reply, arrived, now, text is not None):
            return
        if note in TAKEN:
            self._acknowledged = now
        self._set_timer(now)

    def _without_frame(self, note: Note, arrived: float, is_enq: bool) -> None:
        """A session begins or ends, or a frame is rejected."""
        if note in _AFTER_NOISE:
            self._note_noise()
        if note in _ENDS:
            self.had_session = self.had_session or note is Note.OPENED
            is_over = arrived - self._acknowledged < BROKEN * self._limits.scale
            is_over = is_over and note is Note.ENDED and not is_enq
            self.keeper.drop(_NOISE if is_enq and note is Note.ENDED else _ENDS[note], is_over)
        elif note in REJECTED:
            self._acknowledged = -NEVER

    def _answer(self, reply: bytes, arrived: float, now: float, is_kept: bool) -> bool:
        """Sends a reply, unless it would be late. `is_kept` says whether it acknowledges a text that is stored."""
        if self._closing.is_cut:
            self._restart(self._closing.why)
            return False
        age = now - arrived
        if age > self._limits.reply * self._limits.scale:
            self._counts["late"] += 1
            self._tell(Late(age, is_kept))
            self._restart("the reply would have been late")
            return False
        self._tell(Sent(reply, age, is_kept))
        self._wire.write(reply)
        return True

    async def _keep(self, text: bytes) -> bool:
        """Stores a text. If that fails there is no reply, and the receiver begins anew."""
        self._counts["texts"] += 1
        self._room.open = 0
        try:
            await self.keeper.keep(text)
        except (StoreError, TooLong) as error:
            self._counts["not_stored"] += 1
            self._tell(NotKept(error))
            self.keeper.undo(f"a text could not be stored: {error}")
            self._restart("a text could not be stored")
            return False
        return True

    def _restart(self, reason: str) -> None:
        """The receiver begins anew, and the message that goes on is dropped for this reason."""
        self._begin_anew()
        self._set_timer(clock())
        self._counts["restarts"] += 1
        self._tell(Restarted())
        self.keeper.drop(reason)
        self._room.look(self._ear.held)
