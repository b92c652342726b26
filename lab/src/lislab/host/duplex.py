"""A line on which the host sends too. It answers queries and sends worklists, each in a session of its own. The
proved station decides what each byte means and for whom it is; this module decides when a session starts. What the
analyzer sends comes first."""
import asyncio
from collections import deque
from typing import Deque, Dict, List, NamedTuple, Optional, Sequence, Set

from lislink.codes import Outcome, Phase, Role
from lislink.link import LinkError
from lislink.records import Reader, messages
from lislink.rows import Row
from lislink.station import Answer, Station
from ..diagnosis.events import Looked, OwnAnswered, OwnFailed, ReplyAfterAll, Sent, TimerOver
from ..diagnosis.notices import OTHER
from ..model.query import query_of
from ..model.store import Add, Change
from .feeds import FeedsStation
from .fix import LINE_FEEDS
from .line import ENQ, NEVER, Ear, Line, Parts
from .outbox import Batch, Outbox, Site
from .wires import clock

#: The host starts no session for QUIET seconds after a text that it can't store, and on a serial line after its own
#: session failed: replies that are on their way have come by then. A query has at most QUERY bytes.
QUIET, QUERY = 16.0, 1 << 16
#: How many samples of a message have their results noted.
MOST_SAMPLES = 1000
#: The host gives its session up after so many NAKs to its ENQ, or if the analyzer sent ENQ too and then nothing so
#: many times.
BUSY = 6
_REPLIES = (b"\x04", b"\x06", b"\x15")
#: The phases after which ENQ goes out again.
_WAITS = (Phase.BUSY, Phase.CONTENTION)
#: Why a session of the host's own failed.
_WHY = {Outcome.TIMED_OUT: "no reply came in time", Outcome.SIX_TRIES: "a frame was rejected six times"}


class Read(NamedTuple):
    """A message that has ended: its records, if it holds a query; and the samples of its results, each with all that
    may name one of its tests."""

    rows: List[Row]
    results: Dict[str, Set[str]]


class Asking:
    """Finds the queries and the results in the records of a line."""

    def __init__(self, encoding: str) -> None:
        self._encoding = encoding
        #: The messages that have ended.
        self._read: List[Read] = []
        #: The records of the message so far, unless it is too long for a query; its size; whether it has a query.
        self._held, self._size, self._asks = bytearray(), 0, False
        #: The samples of the last order record, and the results of the message.
        self._samples: List[str] = []
        self._results: Dict[str, Set[str]] = {}

    def note(self, row: Row) -> None:
        """Notes a record. A message that is too long for a query is none."""
        self._size, self._asks = self._size + len(row.text) + 1, self._asks or row.letter == "Q"
        self._held += row.text + b"\r" if self._size <= QUERY else b""
        if row.letter == "O":
            self._samples = [*self._parts(row, 3), *self._parts(row, 4)]
        elif row.letter == "R" and len(self._results) < MOST_SAMPLES:
            for sample in self._samples:
                self._results.setdefault(sample, set()).update(self._parts(row, 3))
        elif row.letter == "L":
            is_query = self._asks and self._size <= QUERY
            rows = [list(one) for one in messages([bytes(self._held)])][0] if is_query else []
            self._read.append(Read(rows, self._results))
            self._held, self._size, self._asks, self._results = bytearray(), 0, False, {}

    def read(self) -> List[Read]:
        """Returns the messages that have ended since the last call."""
        read, self._read = self._read, []
        return read

    def _parts(self, row: Row, field: int) -> List[str]:
        parts = (part.decode(self._encoding, "replace").strip() for repeat in row.field(field) for part in repeat)
        return [part for part in parts if part]

    def over(self) -> None:
        """Drops the message, because it breaks off or can't be read: it has neither queries nor results."""
        self._held, self._size, self._asks = bytearray(), 0, False
        self._samples, self._results = [], {}


class TwoWayLine(Line):
    """A line on which the host also sends what its outbox has for it."""

    def __init__(self, outbox: Outbox, site: Site, parts: Parts) -> None:
        super().__init__(parts)
        self._outbox, self._site, self._asking, self._say = outbox, site, Asking(site.encoding), parts.say
        #: The batches to send next, and the one that is being sent; whether the outbox may have more; when a session
        #: may start; how many NAKs its ENQ had in a row.
        self._ready: Deque[Batch] = deque()
        self._sending: Optional[Batch] = None
        self._has_work, self._free_at, self._busy = True, clock(), 0
        #: How often both ends sent ENQ in a row, and the station's phase before the last byte.
        self._contended, self._phase = 0, Phase.NEUTRAL
        #: The queries that are being looked up, one after another.
        self._answers: "set[asyncio.Task[None]]" = set()
        self._look_ups = asyncio.Lock()
        if not self._wire.is_tcp:  # a reply to the host that was here before may still be on its way
            self._quiet()
        #: When the host sent something of its own session last.
        self._asked = clock()
        #: Whether the host's last session had no reply and nothing came since; whether anything ever came.
        self._unanswered = self._has_heard = False
        outbox.wakes(self._woken)
        self.keeper.intake.listens(self._asking.note, self._asking.over)

    def _begin(self, parts: Parts) -> Ear:
        kind = FeedsStation if parts.fixer.names & LINE_FEEDS else Station
        self._station = kind(Role.COMPUTER, frame_limit=parts.frame, careful=parts.is_careful)
        return self._station

    def _is_busy(self) -> bool:
        return self._station.is_open or self._sending is not None

    def _begin_anew(self) -> None:
        self._station.close_line()
        self._quiet()

    def _set_timer(self, now: float) -> None:
        seconds, scale = self._station.seconds, self._limits.scale
        self._due = NEVER if seconds is None else now + seconds * scale
        if seconds is not None and not self._wire.is_tcp and self._waits():
            # On a serial line ENQ goes out again once no late reply to the last one can come.
            self._due = max(self._due, self._asked + QUIET * scale)

    def _waits(self) -> bool:
        """Returns whether ENQ goes out again when the timer is over."""
        return self._station.phase in _WAITS and not self._station.is_open

    def _has_room(self, is_there: bool) -> None:
        if not is_there and self._station.is_open:
            self._restart("there was no room for a long text")

    def _end(self) -> None:
        for task in self._answers:
            task.cancel()
        if self._sending is not None and self._has_heard and self._sending.placed:
            self._over_in_vain("the line was closed")
        elif self._sending is not None:
            self._outbox.unsent(self._site, self._sending)
            self._sending = None
        for batch in self._ready:
            self._outbox.unsent(self._site, batch)
        self._outbox.forget(self._site, self._woken)

    def _quiet(self) -> None:
        self._free_at = clock() + QUIET * self._limits.scale

    # ---- what comes

    async def _timed(self, now: float) -> None:
        self._tell(TimerOver())
        if self._site.is_anew and self._waits() and self._station.needs_new_line:
            self._put_off()
        else:
            await self._meant(self._station.timer(), 0, now)
            self._room.look(self._ear.held)

    def _put_off(self) -> None:
        """Puts the session off to the next connection, because a late reply to its ENQ could answer the next ENQ."""
        batch, self._sending = self._sending, None
        self._station.give_up()
        self._outbox.put_off[self._site.place] = self._busy, self._contended
        if batch is not None:
            self._outbox.unsent(self._site, batch)
        self.stop("for a new connection, on which the host asks again")
        self._set_timer(clock())

    async def _heard(self, data: bytes, arrived: float) -> None:
        self._note_late(data)
        for place, answer in self._station.hear_placed(data):
            await self._meant(answer, place, arrived, place >= 0 and data[place] == ENQ)
            if place + 1 < len(data):
                await self._share.take_turns()
            if self._is_through():
                return

    async def _meant(self, answer: Answer, place: int, arrived: float, is_enq: bool = False) -> None:
        before, self._phase = self._phase, self._station.phase
        if answer.step is not None:
            await self._step(answer.step, arrived, place, is_enq)
            self._contended = 0
        elif answer.send:
            self._asked = clock()
            self._send(answer.send)
        elif self._station.phase is Phase.BUSY:  # the analyzer doesn't give the line: the host asks again a few times
            self._busy += 1
            self._give_up_at(self._busy)
        elif self._phase is Phase.CONTENTION and before is not Phase.CONTENTION:
            # The analyzer asks for the line as well, and comes first. It may then send nothing a few times.
            self._contended += 1
            self._give_up_at(self._contended)
        self._set_timer(clock())
        if self._sending is not None and self._station.phase is Phase.NEUTRAL:
            self._session_over(self._sending)

    def _note_late(self, data: bytes) -> None:
        """Reports a reply that came after the session to which it belongs had ended without it."""
        was_unanswered, self._unanswered, self._has_heard = self._unanswered, False, True
        if was_unanswered and data[:1] in _REPLIES:
            self._counts["late_replies"] += 1
            self._tell(ReplyAfterAll(data[0]))

    def _give_up_at(self, times: int) -> None:
        """Gives the host's session up, if its ENQ was in vain too many times."""
        if times >= BUSY:
            self._station.give_up()

    async def _keep(self, text: bytes) -> bool:
        is_kept = await super()._keep(text)
        for read in self._asking.read():
            if is_kept:
                self._takes(read)
        return is_kept

    def _took_fixed(self, key: str, changes: Sequence[Change]) -> None:
        if self._closing.is_lost:
            return
        body = b"".join(one.body for one in changes if isinstance(one, Add) and one.key == key)
        asking = Asking(self._site.encoding)
        with Reader() as reader:
            for row in reader.feed(body[: QUERY + 1]):
                asking.note(row)
        for read in asking.read():
            self._takes(read)

    def _takes(self, read: Read) -> None:
        """Does what a message asks for, once it is stored."""
        for sample, tests in read.results.items():
            self._outbox.came(self._site, sample, tests)
        if read.rows:
            self._asks(read.rows)

    def _asks(self, rows: List[Row]) -> None:
        """Looks up the queries of a message that is stored."""
        self._counts["queries"] += 1
        task = asyncio.ensure_future(self._look_up(rows))
        self._answers.add(task)
        task.add_done_callback(self._looked_up)

    def _looked_up(self, done: "asyncio.Task[None]") -> None:
        self._answers.discard(done)
        if not done.cancelled() and done.exception() is not None:
            fault = done.exception()
            self._say(f"a query is dropped after an error: {type(fault).__name__}: {fault}", OTHER)

    async def _look_up(self, rows: List[Row]) -> None:
        """Looks up queries. The host sends what the outbox has for them as soon as the line is free."""
        queries = [query_of(row, self._site.encoding, self._site.asks) for row in rows if row.letter == "Q"]
        if any(one.cancels for one in queries):
            await self._take_back()
            return
        async with self._look_ups:
            answer = await self._outbox.answer(self._site, queries, b"".join(row.text + b"\r" for row in rows))
        # `lislab watch` so notices a LIS that hands over no orders.
        self._counts["found_nothing"] += not answer.is_any
        self._tell(Looked(answer.is_any))
        if answer.batch is not None:
            self._ready.append(answer.batch)
        self._has_work = True
        self.inbox.wake()

    async def _take_back(self) -> None:
        """The analyzer cancels its query. Answers that haven't begun are not sent."""
        for task in self._answers - {asyncio.current_task()}:
            task.cancel()
        back = [batch for batch in self._ready if batch.is_answer]
        self._ready = deque(batch for batch in self._ready if not batch.is_answer)
        waits = self._station.phase in _WAITS
        if self._sending is not None and self._sending.is_answer and waits:
            self._station.give_up()
            back.append(self._sending)
            self._sending = None
            self._set_timer(clock())
        await self._outbox.take_back(self._site, back)

    # ---- what goes out

    def _send(self, data: bytes) -> None:
        self._tell(Sent(data))
        self._wire.write(data)

    def _woken(self, asked: str, line: str) -> None:
        if asked == self._site.place or (self._site.unasked and not asked and line in ("", self._site.line)):
            self._has_work = True
            self.inbox.wake()

    def _start_at(self) -> float:
        if self._is_busy() or self._closing.is_asked or self._closing.is_lost or not (self._ready or self._has_work):
            return NEVER
        return self._free_at + (self._station.turn_seconds or 0) * self._limits.scale

    async def _start(self) -> None:
        batch = self._ready.popleft() if self._ready else await self._outbox.take(self._site)
        if batch is None:
            self._has_work = False
            return
        if self.inbox.pieces:  # what came while the store was asked is heard first
            self._ready.appendleft(batch)
            return
        try:
            out = self._station.start(batch.texts, is_quiet=True)  # `_free_at` is over
        except LinkError as error:
            self._outbox.failed(self._site, batch, str(error))
            return
        self._sending, self._phase = batch, self._station.phase
        self._busy, self._contended = self._outbox.put_off.pop(self._site.place, (0, 0))
        self._counts["own_sessions"] += 1
        self._asked = clock()
        self._send(out)
        self._set_timer(clock())

    def _session_over(self, batch: Batch) -> None:
        """A session of the host's own is over. If it failed, a reply may still be on its way. So a TCP line is closed,
        to be connected again; on a serial line no session starts until such a reply has come."""
        outcome = self._station.outcome
        if outcome is Outcome.DONE:
            self._tell(OwnAnswered())
            self._sending = None
            self._free_at = clock()
            self._counts["orders"] += len(batch.placed)
            self._outbox.sent(self._site, batch)
            return
        if BUSY in (self._busy, self._contended):
            both = "the analyzer asks for the line, too, and sends nothing"
            self._over_in_vain("the analyzer is busy" if self._busy >= BUSY else both)
            self._quiet()
            if self._site.is_anew:
                self.stop("since a session of the host's own failed")
            return
        self._over_in_vain(_WHY.get(outcome, f"the session ended as {outcome.name}"), outcome is Outcome.SIX_TRIES)
        self._unanswered = outcome is Outcome.TIMED_OUT
        self._quiet()
        if self._wire.is_tcp and outcome is not Outcome.SIX_TRIES:
            self.stop("since a session of the host's own failed")

    def _over_in_vain(self, why: str, is_rejected: bool = False) -> None:
        batch, self._sending = self._sending, None
        assert batch is not None
        self._counts["failed_sessions"] += 1
        self._tell(OwnFailed(why))
        self._outbox.failed(self._site, batch, why, is_rejected)
