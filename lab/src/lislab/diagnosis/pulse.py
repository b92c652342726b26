"""The state of every line of a running host: what it received last, and what is wrong since when. A probe observes one
connection; the pulse of a line has what its probes observed."""
import bisect
import re
import time
from collections import Counter, deque
from typing import Any, Callable, Deque, Dict, List, NamedTuple, Optional, Tuple

from lislink.codes import FrameFault, Note
from lislink.link import Step
from ..model.book import Failed
from ..model.said import many
from ..model.store import COMPLETE, FIXED, StoreError
from .events import (
    Came,
    Closed,
    Late,
    Looked,
    Meant,
    MessageEnded,
    Noise,
    NotKept,
    OwnAnswered,
    OwnFailed,
    Restarted,
    Sees,
    Sent,
    TimerOver,
    Watch,
)
from .faults import Cause, cause_of_frame
from .notices import ACCEPTED, TAKEN
from .protocols import has_bare_frames, is_hl7, parity_of, telnet_in
from .ring import Ring
from .verdicts import BAD, GOOD, REJECTED, Verdict, Ways, advice_on, is_way, plain_hint, way_of

#: For so many seconds nothing may follow an acknowledged ENQ, and stray bytes may be without an ENQ; after so many
#: seconds without a message a line is quiet. They are as many times as long as the timers of a test.
PATIENCE, QUIET = 10.0, 1800.0
#: So many rejected frames in a row are bad, and so many bytes that are noise before the next message; so many sessions
#: in a row that end without a frame; so many echoes.
IN_A_ROW, EMPTY, ECHOES = 3, 5, 3
#: So many queries in a row for which there is no order.
IN_VAIN = 5
#: So many reasons are counted one by one.
REASONS = 16
#: So much is remembered of what was bad.
PAST = 50
#: The most bytes that are looked at for another protocol, and of those that come together with a signal; how many bytes
#: a frame has besides its text, and some.
LOOKED_AT, TOGETHER, BESIDES = 4096, 256, 64
#: The upper ends of the buckets of reply times, in seconds.
BUCKETS = (0.005, 0.01, 0.025, 0.05, 0.1, 0.25, 0.5, 1.0, 2.5, 5.0, 10.0)
#: How a disk is full, in the words of SQLite, PostgreSQL and the system.
_FULL = re.compile("disk is full|no space left|file too large|quota exceeded", re.I)
_SIGNALS = bytes([4, 5, 6, 0x15])
#: The steps with which a session begins or ends.
_TIMED_OUT = Note.TIMED_OUT
_SESSIONS = (Note.OPENED, Note.ENDED, _TIMED_OUT)


class Trouble:
    """Something that goes wrong again and again: its verdict, since when, how often, and why it was the last time."""

    def __init__(self, verdict: Verdict) -> None:
        self.verdict, self.since, self.count = verdict, time.time(), 0
        self.last = ""
        #: Another protocol to which bytes fit that make no frame, if there is one.
        self.plain = ""
        #: Why frames are rejected, how often each, in words and by kinds.
        self.why: "Counter[str]" = Counter()
        self.kinds: "Counter[Verdict]" = Counter()
        #: By which other ways checksums are right, and by which all of them are.
        self.sums: "Counter[Verdict]" = Counter()
        self.ways: Ways = frozenset()

    def reject(self, cause: Cause) -> None:
        """A frame is rejected for this cause."""
        self.kinds[cause.kind] += 1
        if cause.kind is Verdict.SUM:
            self.ways = self.ways & cause.ways if self.sums else cause.ways
            self.sums[cause.verdict] += 1
        else:
            self.why[cause.words if len(self.why) < REASONS else "another reason"] += 1

    def reasons(self, has_good: bool) -> "Tuple[Counter[str], str]":
        """Why frames are rejected, and what to do, if other frames of the sender are right or not."""
        count, way = sum(self.sums.values()), way_of([self.ways])
        is_one, why = is_way(way, count, has_good), Counter(self.why)
        for one, times in self.sums.items():
            one = way if is_one and way is not None else one
            why[f"the checksum is wrong: {one.live}" if one is not Verdict.SUM else one.live] += times
        return why, advice_on(self.kinds.most_common(1)[0][0], has_good, way, count)


class Says(NamedTuple):
    """The report on a line: the verdict, since when it holds, its sentence, and what to do."""

    verdict: Verdict
    since: float
    text: str
    advice: str

    @property
    def state(self) -> str:
        """`good`, `quiet` or `bad`."""
        return self.verdict.level if self.verdict.level in (GOOD, BAD) else "quiet"


def clock(at: float) -> str:
    """A time of the clock on the wall; with its day, if that isn't today."""
    there, now = time.localtime(at), time.localtime()
    return time.strftime("%H:%M" if there[:3] == now[:3] else "%Y-%m-%d %H:%M", there)


def span(seconds: float) -> str:
    """How long something is ago."""
    for most, unit, name in ((120, 1, "s"), (7200, 60, "min"), (172_800, 3600, "h")):
        if seconds < most:
            return f"{max(0, int(seconds / unit))} {name}"
    return f"{int(seconds / 86400)} days"


def says(verdict: Verdict, since: float, count: int = 0, **values: Any) -> Says:
    """The report on a line with a verdict."""
    told = {f"{name}s": many(count, name) for name in ("frame", "byte", "message", "order")}
    told["times"] = "once" if count == 1 else f"{count} times"
    told.update({"since": clock(since), "plain": "", **values})
    return Says(verdict, since, verdict.live.format(**told), verdict.live_advice.format(**told))


def says_failed(found: Failed) -> Says:
    """The report on a line's failed orders, without the patient."""
    last = found.newest[0]
    return says(Verdict.FAILED_ORDERS, found.since, found.many, why=f"{last.number}: {last.reason}")


class Pulse:
    """The state of a line over all its connections. `scale` multiplies its timers."""

    def __init__(self, frame: int, scale: float) -> None:
        self.frame, self.scale, self.ring = frame, scale, Ring()
        self.begun, self.last = time.time(), None  # type: float, Optional[float]
        self.troubles: Dict[str, Trouble] = {}
        #: Trouble that is over: since when, until when, and its sentence.
        self.past: "Deque[Tuple[float, float, str]]" = deque(maxlen=PAST)
        self.probes: "List[Probe]" = []
        #: The report on failed orders, as long as there are some.
        self._failed: Optional[Says] = None
        #: How many connections there were; sessions in a row that had no byte between ENQ and EOT.
        self.connections = self.polls = 0
        #: When a frame was accepted last, by the clock that only goes on.
        self.good_at = 0.0
        #: Frames by why they were rejected; messages by their state; replies by their time, and the sum of these.
        self.rejected: "Counter[str]" = Counter()
        self.messages: "Counter[str]" = Counter()
        self.replies, self.reply_seconds = [0] * (len(BUCKETS) + 1), 0.0

    def wrong(self, kind: str, verdict: Verdict, why: str = "") -> Trouble:
        """Something went wrong once more."""
        one = self.troubles.setdefault(kind, Trouble(verdict))
        one.verdict, one.count, one.last = verdict, one.count + 1, why
        return one

    def right(self, *kinds: str) -> None:
        """Something went right: what was wrong before is over, and remembered if it was bad."""
        for kind in kinds:
            if kind in self.troubles:
                self.remember(self._bad(kind))
                del self.troubles[kind]

    def remember(self, found: Optional[Says]) -> None:
        """What was bad, if something was, is over."""
        if found is not None:
            self.past.append((found.since, time.time(), found.text))

    def _bad(self, kind: str) -> Optional[Says]:
        """The report on a kind of trouble, if it is bad by itself."""
        if kind == "hopeless":
            return None
        looks = {"frames": self._frames, "echo": self._echo, "queries": self._queries, "noise": self._noise}
        return looks[kind]() if kind in looks else self._of(kind)

    def take_failed(self, found: Optional[Failed]) -> None:
        """Which orders of the line have failed. If none has any more, that some had is remembered."""
        if found is None:
            self.remember(self._failed)
        self._failed = says_failed(found) if found else None

    def says(self, unusable: str = "", is_called: bool = False) -> Says:
        """The report on the line now. `unusable` is the reason if its device can't be opened or its address can't be
        reached. Failed orders are named until somebody acts on them, whatever else is wrong."""
        found, failed = self._says(unusable, is_called), self._failed
        if failed is None or found.state != BAD:
            return failed or found
        advice = "; ".join(one.advice for one in (found, failed) if one.advice)
        return found._replace(text=f"{found.text}; {failed.text}", advice=advice)

    def _says(self, unusable: str, is_called: bool) -> Says:
        """The same of all but orders that have failed."""
        if unusable:
            verdict = Verdict.NO_CONNECTION if is_called else Verdict.NO_DEVICE
            return says(verdict, self.begun, why=unusable)
        host = self._of("store") or self._of("late") or self._of("own")
        line = host or self._strange() or self._frames() or self._silent() or self._noise() or self._echo()
        return line or self._of("lost") or self._of("messages") or self._queries() or self._well()

    def _of(self, kind: str) -> Optional[Says]:
        """The report on a kind of trouble, if there is some."""
        one = self.troubles.get(kind)
        if one is None:
            return None
        return says(one.verdict, one.since, one.count, why=one.last, plain=one.plain, **_parity(one.last))

    def _frames(self) -> Optional[Says]:
        one = self.troubles.get("frames")
        if one is None or (one.count < IN_A_ROW and "hopeless" not in self.troubles):
            return None
        reasons, advice = one.reasons(self.good_at > 0)
        most = reasons.most_common(2)
        why = most[0][0] if len(most) == 1 else "; ".join(f"{count} times {why}" for why, count in most)
        return says(one.verdict, one.since, one.count, why=why)._replace(advice=advice)

    def _strange(self) -> Optional[Says]:
        """Bytes that came without a session, on a connection that has no other since."""
        for probe in self.probes:
            found = probe.strange()
            if found is not None:
                return found
        return self._of("strange")

    def _silent(self) -> Optional[Says]:
        """Sessions in which no frame came."""
        for probe in self.probes:
            found = probe.silent()
            if found is not None:
                return found
        return self._of("silent")

    def _echo(self) -> Optional[Says]:
        one = self.troubles.get("echo")
        return says(one.verdict, one.since, one.count) if one is not None and one.count >= ECHOES else None

    def _noise(self) -> Optional[Says]:
        one = self.troubles.get("noise")
        return says(one.verdict, one.since, one.count) if one is not None and one.count >= IN_A_ROW else None

    def _queries(self) -> Optional[Says]:
        one = self.troubles.get("queries")
        return says(one.verdict, one.since, one.count) if one is not None and one.count >= IN_VAIN else None

    def _well(self) -> Says:
        now = time.time()
        session = next((probe for probe in self.probes if probe.is_open), None)
        if session is not None:
            return says(Verdict.GOES_ON, session.opened, session.units)
        if self.last is None:
            who = "" if self.probes else ", and nobody is connected"
            return says(Verdict.NEVER, self.begun, ago=span(now - self.begun), who=who)
        if now - self.last < QUIET * self.scale:
            return says(Verdict.COMPLETE, self.last, ago=span(now - self.last))
        verdict = Verdict.ONLINE if self.probes else Verdict.AWAY
        return says(verdict, self.last, ago=span(now - self.last))


def _parity(word: str) -> Dict[str, str]:
    return {"parity": word, "letter": word[:1].upper()}


def protocol_of(data: bytes, otherwise: Verdict) -> "tuple[Verdict, str]":
    """What bytes are that make no frame, and which parity they carry."""
    if is_hl7(data):
        return Verdict.HL7, ""
    parity = parity_of(data)
    if parity:
        return Verdict.PARITY, parity
    return (Verdict.TELNET if telnet_in(data) > 1 else otherwise), ""


class Probe:
    """Sees what a connection hears and sends, and what that means."""

    def __init__(
        self, pulse: Pulse, is_careful: bool = False, say: Callable[[str, str], None] = lambda text, kind: None
    ) -> None:
        self._pulse, self._is_careful, self.watch = pulse, is_careful, Watch(say, self)
        pulse.connections += 1
        pulse.probes.append(self)
        #: The last bytes of the line, and the number of the connection.
        self._ring, self._number = pulse.ring, pulse.connections
        #: Whether a session is open, since when, how many frames it had, how many of them were acknowledged, and how
        #: many of these were new.
        self.is_open, self.opened, self.units, self.good, self.taken = False, 0.0, 0, 0, 0
        #: The bytes received since ENQ before a frame, or without a session, and since when; the bytes sent last.
        self.got, self._stray, self._since, self._sent = bytearray(), bytearray(), (0.0, 0.0), b""
        #: How many bytes came before those that are heard now, and these; where the last byte is that was answered.
        self.before, self.now, self.at = 0, b"", -1
        #: The bytes of the unit that is open from earlier pieces; the frame that was accepted last.
        self._carry, self._frame = bytearray(), b""

    def sees(self) -> Sees:
        """What it does when something happens on the connection."""
        pulse = self._pulse
        return {
            Came: self._hears,
            Meant: self._meant,
            Sent: self._sends,
            TimerOver: lambda _: self._ring.add(self._number, b"T"),
            NotKept: self._not_kept,
            Late: self._late,
            Noise: self._noise,
            MessageEnded: self._ended,
            Restarted: self._restarted,
            Looked: self._looked,
            OwnAnswered: lambda _: pulse.right("own"),
            OwnFailed: lambda own: pulse.wrong("own", Verdict.NO_REPLY, own.why),
            Closed: self._close,
        }

    # ---- what came, and what it meant

    def _hears(self, came: Came) -> None:
        """Bytes are heard from here on."""
        data, sent, before = came.data, self._sent, self.now
        self._ring.add(self._number, b">", data)
        if sent:
            self._sent = b""
            if data.startswith(sent):
                self._pulse.wrong("echo", Verdict.ECHO)
            elif self._pulse.troubles:
                self._pulse.right("echo")
        if self.at + 1 < len(before):
            self._carry += before[self.at + 1 :]
            del self._carry[: -(self._pulse.frame + BESIDES)]
        self.before, self.now, self.at = self.before + len(before), data, -1
        if not self.is_open:
            self.watch.outside(data)
            self._strays(data)
        elif not self.units:
            self.got += data[: LOOKED_AT - len(self.got)]

    def _strays(self, data: bytes) -> None:
        """Bytes came without a session. Answers to sessions of the host are none of them."""
        if data.translate(None, _SIGNALS):
            self._since = self._since if self._stray else (time.time(), time.monotonic())
            self._stray += data[: LOOKED_AT - len(self._stray)]

    def _meant(self, meant: Meant) -> None:
        """What a byte meant."""
        place, step, is_enq = meant
        note, raw = step.note, self.now[self.at + 1 : place + 1]
        if note not in TAKEN:
            self.watch.meant(meant)
        if self._carry:
            raw = bytes(self._carry) + raw
            if note is not _TIMED_OUT:
                self._carry.clear()
        if note is not _TIMED_OUT:
            self.at = place
        if note in TAKEN:
            self._accept(note is ACCEPTED, raw)
        elif note in _SESSIONS:
            self._session(note, is_enq)
        elif note is Note.REFUSED or note in REJECTED:
            self.units += 1
            self._pulse.right("silent", "strange")
            self._reject(step, raw)

    def _accept(self, is_new: bool, raw: bytes) -> None:
        """A frame is acknowledged: a new one, or one that came again by its number."""
        pulse = self._pulse
        if not self.good:
            self._first_frame()
        self.units += 1
        self.good += 1
        if pulse.troubles:
            pulse.right("silent", "strange", *(("frames", "hopeless") if is_new else ()))
        if is_new:
            self.taken, self._frame = self.taken + 1, raw
            pulse.polls, pulse.good_at = 0, time.monotonic()
        elif self._frame and raw[raw.rfind(2) :] != self._frame[self._frame.rfind(2) :]:
            pulse.wrong("lost", Verdict.LOST)

    def _first_frame(self) -> None:
        """A frame of a session is good: what was bad so far without one is over, also on other connections."""
        pulse = self._pulse
        if time.monotonic() - pulse.good_at < PATIENCE * pulse.scale:
            return  # nothing that is bad began before the last one and so long ago
        for probe in pulse.probes:
            if "silent" not in pulse.troubles:
                pulse.remember(probe.silent())
            if "strange" not in pulse.troubles:
                pulse.remember(probe.strange())

    def _reject(self, step: Step, raw: bytes) -> None:
        """A frame is rejected; the reason has the same name as in a ladder."""
        if step.note in REJECTED:
            verdict = REJECTED[step.note]
            cause = Cause(verdict, verdict.live.format(due=(self.taken + 1) % 8))
        else:
            # Where the line is heard carefully, a frame that another one began inside of goes on.
            begin = raw.find(2) if self._is_careful else raw.rfind(2)
            body = raw[begin + 1 : -1]
            cause = cause_of_frame(body, FrameFault(step.detail), step.place, self._pulse.frame)
            cause = cause._replace(words=cause.verdict.live)  # the other words have bytes of the frame
        self._pulse.rejected[cause.verdict.key] += 1
        self._pulse.wrong("frames", Verdict.NONE_ACCEPTED).reject(cause)

    def _session(self, note: Note, is_enq: bool) -> None:
        """A session begins, or is over; by ENQ or otherwise."""
        found = self.silent() or self.strange()
        self._over(note, is_enq)
        if found is not None and not {"silent", "strange"} & set(self._pulse.troubles):
            self._pulse.remember(found)
        if note is not Note.OPENED:
            self._strays(self.now[self.at + 1 : self.at + 1 + TOGETHER])
            return
        self._pulse.right("strange")
        self.is_open, self.opened, self.units, self.good, self.taken = True, time.time(), 0, 0, 0
        self._frame = b""
        self._since, self._stray = (self.opened, time.monotonic()), bytearray()
        self.got = bytearray(self.now[self.at + 1 : self.at + 1 + TOGETHER])

    def _over(self, note: Optional[Note] = None, is_enq: bool = False) -> None:
        """The session is over: updates the line's state if no frame of it was accepted."""
        if not self.is_open:
            return
        self.is_open, pulse = False, self._pulse
        if self.units:
            if not self.good:
                pulse.wrong("hopeless", Verdict.NONE_ACCEPTED)
            return
        verdict, parity = self._without_frame(is_enq)
        if note is Note.ENDED and verdict is Verdict.NO_FRAME:
            pulse.polls += 1
            if pulse.polls < EMPTY:
                return
        one = pulse.wrong("silent", verdict, parity)
        one.since, one.plain = min(one.since, self.opened), plain_hint(self.got)

    def _without_frame(self, is_again: bool = False) -> "tuple[Verdict, str]":
        """What is wrong with a session in which no frame came; whether ENQ came again in it."""
        got = bytes(self.got).translate(None, _SIGNALS)
        if got:
            return protocol_of(got, Verdict.NO_UNIT if 2 in got else Verdict.NO_STX)
        before = self._pulse.troubles.get("silent")
        is_heard = not is_again and (before is None or before.verdict is not Verdict.NOT_HEARD)
        return (Verdict.NO_FRAME if is_heard else Verdict.NOT_HEARD), ""

    def silent(self) -> Optional[Says]:
        """The report on an open session without a frame."""
        if not self.is_open or self.units or not self._is_long_ago():
            return None
        verdict, parity = self._without_frame()
        before = self._pulse.troubles.get("silent")
        since = before.since if before else self.opened
        return says(verdict, since, before.count if before else 1, plain=plain_hint(self.got), **_parity(parity))

    def strange(self) -> Optional[Says]:
        """The report on bytes without a session."""
        if not self._stray or not self._is_long_ago():
            return None
        verdict, parity = self._stranger()
        return says(verdict, self._since[0], len(self._stray), **_parity(parity))

    def _stranger(self) -> "tuple[Verdict, str]":
        data = bytes(self._stray)
        has_frames = 2 in data or has_bare_frames(data)
        return protocol_of(data, Verdict.NOT_OPEN if has_frames else Verdict.NO_PROTOCOL)

    def _is_long_ago(self) -> bool:
        """Whether it is so for long, and no connection of the line had a good frame since."""
        since = self._since[1]
        return since > self._pulse.good_at and time.monotonic() - since >= PATIENCE * self._pulse.scale

    # ---- what the host did

    def _sends(self, sent: Sent) -> None:
        """A reply went out, or something of the host's own."""
        self._sent, seconds, is_kept = sent
        self._ring.add(self._number, b"<", self._sent)
        if seconds is not None:
            pulse = self._pulse
            pulse.replies[bisect.bisect_left(BUCKETS, seconds)] += 1
            pulse.reply_seconds += seconds
            if is_kept and pulse.troubles:
                pulse.right("store", "late")

    def _late(self, late: Late) -> None:
        if late.is_kept:
            self._pulse.right("store")
        self._pulse.wrong("late", Verdict.LATE)

    def _restarted(self, _: Restarted) -> None:
        self._ring.add(self._number, b"R")
        self.is_open = False

    def _noise(self, noise: Noise) -> None:
        self._pulse.wrong("noise", Verdict.DISTURBED).count += noise.times - 1

    def _looked(self, looked: Looked) -> None:
        pulse = self._pulse
        if looked.is_any:
            pulse.right("queries")
        else:
            pulse.wrong("queries", Verdict.NO_ORDERS)

    def _not_kept(self, failed: NotKept) -> None:
        """A text could not be stored."""
        error, why = failed.error, str(failed.error)
        is_full = _FULL.search(why) is not None
        verdict = Verdict.DISK_FULL if is_full else Verdict.STORE_GONE
        self._pulse.wrong("store", verdict if isinstance(error, StoreError) else Verdict.TOO_BIG, why)

    def _ended(self, ended: MessageEnded) -> None:
        """A message ended. One of no bytes isn't counted, nor one of which another one was made."""
        pulse, end = self._pulse, ended.end
        is_fixed = end.reason.startswith(FIXED)
        if end.state == COMPLETE:
            pulse.messages[end.state] += 1
            pulse.last = end.at
            pulse.right("messages", "lost", "noise")
        elif end.size and not is_fixed:
            pulse.messages[end.state] += 1
            pulse.wrong("messages", Verdict.NOT_COMPLETE, f"{end.state}: {end.reason}")

    def _close(self, _: Closed) -> None:
        """The connection is over."""
        self._over()
        if self.strange() is not None:
            one = self._pulse.wrong("strange", *self._stranger())
            one.since, one.count = min(one.since, self._since[0]), one.count - 1 + len(self._stray)
        self._pulse.probes.remove(self)
