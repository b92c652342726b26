"""`lislab serve`: a host for many analyzers. It stores each text before it acknowledges it."""
import asyncio
import functools
import gc
import os
import re
import signal
import sys
import time
from collections import Counter
from typing import Any, Dict, List, Mapping, Optional

from ..diagnosis.board import Board
from ..diagnosis.events import Observers
from ..diagnosis.notices import CONNECTION, Notices
from ..diagnosis.tape import Tape
from ..model.options import Listen, OptionError, Place
from ..model.said import say
from ..model.store import Store, StoreError
from . import fix, systemd
from .asked import Asked as Asked
from .asked import SaidOnce, warn
from .calls import Calls
from .storing import Committer
from .duplex import TwoWayLine
from .intake import Held, Intake, Pool
from .line import Line, Parts
from .fixers import Fixers, Left
from .outbox import Outbox, Site
from .plainlink import PlainLine
from .ports import LineRoom, Ports
from .serials import Serials
from .state import STATUS, Counts, StateFile
from .tasks import Tasks
from .turns import Turns
from .unknown import Unknown
from .wires import Asleep, Ticks, Wire

#: So many bytes of long messages are held until they end, to be fixed if they aren't complete; and so many of long
#: texts until they are complete.
HELD, TEXTS = 32 << 20, 16 << 20
#: How long the thread that commits waits for its turn while a line is busy: it needs one after each statement.
SWITCH = 0.0005
#: The interpreter looks for garbage once it has so many more objects than when it looked last. 200 lines have some
#: thousands more at times: at its own limit of 700 it looked all the time, which was a twentieth of the host's time.
GARBAGE = 10_000


class Host:
    """The lines of a host, and what they share."""

    def __init__(self, asked: Asked, store: Store, left: Left = Left([], [])) -> None:
        self.asked, self.limits, self.stopping = asked, asked.limits, False
        self.notices, self.said, self.counts = Notices(say), SaidOnce(), Counts()
        self.committer = Committer(store, functools.partial(self.notices.say, "store"))
        self.outbox: Optional[Outbox] = None
        self.ticks = Ticks(max(0.02, self.limits.reply * self.limits.scale / 40), self._look_at_clock)
        self.board = Board(self.limits.scale)
        #: The lines that are connected, with their tasks, and what was asked for of each.
        self.lines: "Dict[Line, asyncio.Task[None]]" = {}
        self._places: Dict[Line, Place] = {}
        #: How many connections were refused, captures begun, and lines that send orders connected.
        self.refused = self._captures = self._seats = 0
        #: What the table of each line lacks.
        self._unknown: Dict[str, Unknown] = {}
        #: What all lines share.
        self._turns, self._asleep = Turns(), Asleep()
        self._held, self._texts = Held(fix.MOST, HELD), Pool(TEXTS)
        #: What goes on besides the lines.
        self._others = Tasks(say)
        self._left, self._fixes = left, Fixers(self.committer, self.notices, self._unknown_of)
        self.room, self.ports = LineRoom(self), Ports(self)
        self.calls, self.serials = Calls(self, self._others), Serials(self, self._others)
        self._file = StateFile(asked.status, self.state)
        self._take_tables(asked)

    def _unknown_of(self, name: str) -> Unknown:
        """What the table of a line lacks."""
        return self._unknown.setdefault(name, Unknown(name))

    def add(self, wire: Wire, place: Place, peer: str) -> Line:
        """A line that is connected, heard from now on."""
        counts = self.counts.of(place.name)
        counts["connections"] += 1
        unknown = self._unknown_of(place.name)
        intake = Intake(place.name, peer, place.encoding, self.limits.message, time.time, self._held, unknown)
        notice = functools.partial(self._notice, place.name, peer)
        is_careful, tape = place.careful != "no", self._tape(place.name)
        those = [*([tape.sees()] if tape else []), *self.board.observers(place, is_careful, notice)]
        observers = Observers([*those, unknown.sees(counts, notice)], notice)
        given = wire, intake, observers, notice, counts, self._fixes.of(place), self.committer, self._turns
        more = self.limits, place.frame, is_careful, self._texts
        line = self._line(place, peer, Parts(*given, *more))
        notice("connected" if wire.is_tcp else "open", CONNECTION)
        task = asyncio.ensure_future(line.run())
        self.lines[line], self._places[line] = task, place
        if isinstance(place, Listen):
            self.room.add(line, peer, place.name)
        task.add_done_callback(lambda done: self._over(line, done))
        return line

    def _line(self, place: Place, peer: str, parts: Parts) -> Line:
        if place.link:
            return PlainLine(parts)
        if self.outbox is None or not place.orders:
            return Line(parts)
        self._seats += 1
        where = place.name, peer, place.encoding, place.orders == "download", place.none, str(self._seats)
        is_anew = bool(getattr(place, "waits", ""))
        site = Site(*where, place.asks, int(place.test.split("^")[0] or 4), is_anew)
        return TwoWayLine(self.outbox, site, parts)

    def _look_at_clock(self) -> None:
        """Connects all lines again after the machine was suspended, because no timer ran meanwhile."""
        seconds = self._asleep.note()
        if seconds:
            say(f"the machine was suspended for {seconds:.0f} s: every line connects again")
            for line in list(self.lines):
                line.cut("since the machine was suspended")

    def _notice(self, name: str, peer: str, text: str, kind: str) -> None:
        self.notices.say(name, text if peer == name else f"{peer}: {text}", kind)

    def _over(self, line: Line, done: "asyncio.Task[None]") -> None:
        name = self._places.pop(line).name
        self.room.remove(line)
        self.counts.note_last(line, name)
        del self.lines[line]
        if not done.cancelled() and done.exception() is not None:
            fault = done.exception()
            say(f"{name}: the connection is closed after an error: {type(fault).__name__}: {fault}")

    def _tape(self, name: str) -> Optional[Tape]:
        if self.asked.capture is None:
            return None
        self._captures += 1
        at = time.strftime("%Y%m%dT%H%M%S", time.gmtime(self.counts.begun))
        return Tape(f"{self.asked.capture}-{re.sub(r'[^A-Za-z0-9.-]', '_', name)}-{at}-{self._captures}.capture")

    async def start(self) -> None:
        """Opens the ports and the devices."""
        await self._start_outbox(self.asked)
        await self._fixes.end_left(self._left, self.asked.places)
        warn(self.asked.places)
        for place in self.asked.listens:
            await self.ports.listen(place)
        self.serials.open_all(self.asked.serials)
        for connect in self.asked.connects:
            self.calls.begin(connect)
        self._others.begin(self._look_now_and_then())
        await self._open_board()
        self.serials.say_started()
        systemd.notify("READY=1")
        self._others.begin(systemd.alive(systemd.watchdog_seconds()))

    async def _start_outbox(self, asked: Asked) -> None:
        """Starts what sends orders, if a line sends some for the first time."""
        if self.outbox is None and asked.outbox is not None:
            outbox = asked.outbox(functools.partial(self.notices.say, "orders"))
            outbox.shows(self.board.take_failed)
            outbox.codes(self._codes_of_orders)
            await outbox.start()
            self.outbox = outbox

    def _codes_of_orders(self, line: str) -> Mapping[str, str]:
        """A line's codes for those of the laboratory."""
        table = self.asked.tables.get(line)
        return {} if table is None else table.of_orders(line)

    async def _open_board(self) -> None:
        """Lets `lislab watch` look. A host that can't be looked at serves all the same."""
        try:
            if self.asked.watch is not None:
                await self.board.open(self.asked.watch, self.look)
        except OSError as error:
            say(f"lislab watch can't connect: {error}")

    def look(self) -> Dict[str, Any]:
        """How each line does."""
        return self.board.data(self.asked.places, self.said.texts, self.state())

    # ---- the file of lines

    def reads_again(self, wanted: asyncio.Event) -> None:
        """Reads the file of lines again, each time that it is wanted."""
        self._others.begin(self._read_each_time(wanted))

    async def _read_each_time(self, wanted: asyncio.Event) -> None:
        while True:
            await wanted.wait()
            wanted.clear()
            await self._read_again()

    async def _read_again(self) -> None:
        """Reads the file of lines. What changed or is gone is closed between sessions, and all else goes on. A file
        with a fault changes nothing."""
        assert self.asked.again is not None
        try:
            asked = await asyncio.get_running_loop().run_in_executor(None, self.asked.again)
            await self._start_outbox(asked)
        except (OptionError, StoreError, OSError) as error:
            for row in str(error).splitlines():
                say(row)
            say("the lines file has faults: all lines stay as they were")
            return
        if not self.stopping:
            await self._take(asked)

    async def _take(self, asked: Asked) -> None:
        """Takes the lines of a file that was read again."""
        before, now = ({*one.listens, *one.serials, *one.connects} for one in (self.asked, asked))
        self.asked = asked
        other = self._take_tables(asked)
        warn([one for one in asked.places if one not in before])
        self.calls.wake()
        new = self.ports.change()
        for line, place in self._places.items():
            if place not in now:
                line.stop("since its settings changed")
        for serial in asked.serials:
            if serial not in before:
                self.serials.begin(serial)
        for connect in asked.connects:
            if connect not in before:
                self.calls.begin(connect)
        for listen in new:
            try:
                await self.ports.listen(listen)
            except (OSError, ValueError) as error:
                say(f"{listen.name}: {error}")
        same = len(now & before)
        tables = f"; {len(other)} with another code mapping" if other else ""
        what = f"{len(before) - same} closed, {len(now) - same} opened, {same} as they were{tables}"
        say(f"the lines are read again: {what}")

    def _take_tables(self, asked: Asked) -> List[str]:
        """Takes the tables of codes: the lines that have another one now."""
        for name in asked.tables:
            self._unknown_of(name)
        return [name for name, one in self._unknown.items() if one.take(asked.tables.get(name))]

    async def stop(self) -> None:
        """Accepts no new line, lets open sessions finish for a while, and stores what was received."""
        self.stopping = True
        systemd.notify("STOPPING=1")
        self.ports.close()
        for line in list(self.lines):
            line.stop("since the host stops")
        if self.lines:
            await asyncio.wait(list(self.lines.values()), timeout=self.limits.grace)
        for task in self.lines.values():
            task.cancel()
        await asyncio.gather(*self.lines.values(), self._others.cancel(), return_exceptions=True)
        await self._fixes.stop()
        self.ticks.stop()
        await self.board.close()
        if self.outbox is not None:
            await self.outbox.stop()
        await self.committer.stop()
        self.notices.say_dropped(all_of_them=True)
        await self._file.write()
        self._file.close()

    def state(self) -> Dict[str, Any]:
        """What `lislab status` shows of a host that runs."""
        for line, place in self._places.items():
            self.counts.note_last(line, place.name)
        return {
            "at": time.time(),
            "begun": self.counts.begun,
            "host": self.asked.name,
            "process": os.getpid(),
            "stopped": self.stopping,
            "refused_connections": self.refused,
            "commits": self.committer.commits,
            "failed_commits": self.committer.failed,
            "lines": self.counts.data(Counter(place.name for place in self._places.values())),
            "would": {name: dict(one) for name, one in self._fixes.would.items() if one},
            "unknown_codes": {name: one.names() for name, one in self._unknown.items() if one.names()},
            "notices": {name: dict(one) for name, one in self.notices.counts.items()},
            "not_said": {name: dict(one) for name, one in self.notices.not_said.items()},
        }

    async def _look_now_and_then(self) -> None:
        """Writes the state, and logs how many events were suppressed."""
        while True:
            self.notices.say_dropped()
            await self._file.write()
            await asyncio.sleep(STATUS)


async def serve(asked: Asked, store: Store, left: Left = Left([], [])) -> None:
    """Serves until SIGTERM or SIGINT comes, and fixes what was left open first. At SIGHUP it reads its file of lines
    again, if it has one."""
    sys.setswitchinterval(SWITCH)
    stop, again = asyncio.Event(), asyncio.Event()
    loop = asyncio.get_running_loop()
    for name in (signal.SIGTERM, signal.SIGINT):
        loop.add_signal_handler(name, stop.set)
    if asked.again is not None:
        loop.add_signal_handler(signal.SIGHUP, again.set)
    host = Host(asked, store, left)
    try:
        await host.start()
        gc.collect()
        gc.freeze()  # what is there for good: no line waits until all of it was looked at for garbage
        gc.set_threshold(GARBAGE)
        host.reads_again(again)
        await stop.wait()
    finally:
        await host.stop()
