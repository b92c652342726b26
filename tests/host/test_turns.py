"""One line's work delays no other: texts that are long to read or to keep are taken in turns."""
import asyncio
import contextlib
import contextvars
import selectors
import sys
import threading
import time
import unittest.mock
from collections import Counter
from concurrent.futures import ThreadPoolExecutor

from lislink import frame_bytes
from lislab.host import fix, serve, turns as turn
from lislab.host.storing import Committer
from lislab.host.fixer import Fixer, Workers
from lislab.host.intake import Held, Intake
from lislab.host.line import Line, Parts
from lislink.link import LONG_FRAME_TEXT, Note, Step
from lislab.diagnosis.events import Came, Meant, Observers
from lislab.diagnosis.pulse import Probe, Pulse
from lislab.model.options import Limits
from lislab.model.stores import open_store
from tests.host.hosts import NEVER, Host, HostTest, see, wait_for
from tests.host.test_lines import ACK, ENQ, EOT, NAK, TEXTS, Client, frames

#: Texts that are many records or messages: the longest ones, or where each message is a step, a part of these.
HEAVY = {
    "CRs": b"\r" * (1 << 20),
    "tiny messages": b"H|\\^&\rL\r" * (1 << 10),
    "records": b"H|\\^&\r" + b"C|1\r" * ((1 << 18) - 2),
    "bad messages": b"H|\\^&\rR\r" * (1 << 10),
}
#: What each step of the work on a text takes by the clock of a test; the most steps of a line in a turn of the loop:
#: those after which it waits, and as many again; and the most commits that a short text waits for.
STEP = 0.0005
MOST_STEPS, MOST_COMMITS = 2 * round(turn.HEARS / STEP), 5


class Counting(selectors.DefaultSelector):
    """Counts the turns of a loop, each of which asks it once."""

    turns = 0

    def select(self, timeout=None):
        """What is ready."""
        self.turns += 1
        return super().select(timeout)


class Side:
    """A line of a host in this process, and its analyzer."""

    def __init__(self, name, fixer, committer, turns):
        self.loop, self.reply = asyncio.get_running_loop(), None
        wire = unittest.mock.Mock(is_tcp=True, write=lambda data: self.reply.set_result(data))
        intake = Intake(name, name, "latin-1", 16 << 20, time.time, Held(fix.MOST, serve.HELD))
        shared = Observers([], print), lambda *_: None, Counter(), fixer, committer, turns
        self.line = Line(Parts(wire, intake, *shared, Limits(scale=NEVER), LONG_FRAME_TEXT))
        self.task = asyncio.ensure_future(self.line.run())

    async def asks(self, unit):
        """What is answered to bytes."""
        self.reply = self.loop.create_future()
        self.loop.call_soon(self.line.inbox.add, unit, self.loop.time())
        return await self.reply

    async def ends(self):
        """Ends the session and the line."""
        self.loop.call_soon(self.line.inbox.add, EOT, self.loop.time())
        self.loop.call_soon(self.line.lost)
        await self.task


class Shared:
    """Two lines of a host: one keeps a long text, and the other one has sessions meanwhile. Their clock counts the
    steps of their work."""

    def __init__(self, store):
        self.store, self.selector, self.worked = open_store(store), Counting(), 0.0
        #: How many steps of the long text each turn of the loop had, and how many changes each unit of a commit.
        self.steps, self.units = Counter(), []
        #: How many commits there were, and how many while the other line waited for each of its replies.
        self.commits, self.waits = 0, []
        self.replies = []

    def keep(self, text):
        """Keeps a text."""
        loop, take_some, commit = asyncio.SelectorEventLoop(self.selector), Intake._take_some, self.store.commit

        def takes(intake, *words):
            self.worked += STEP
            self.steps[self.selector.turns] += intake.line == "long"
            return take_some(intake, *words)

        def commits(units):
            self.commits += 1
            self.units += [len(unit) for unit in units]
            commit(units)

        patched, switch = unittest.mock.patch.object, sys.getswitchinterval()
        sys.setswitchinterval(serve.SWITCH)
        try:
            with contextlib.closing(loop), patched(Intake, "_take_some", takes), patched(self.store, "commit", commits):
                loop.run_until_complete(self._keep(text))
        finally:
            sys.setswitchinterval(switch)
            self.store.close()

    async def _keep(self, text):
        self.store.start("test")
        committer, turns = Committer(self.store, print), turn.Turns(*[lambda: self.worked] * 2)
        fixer = Fixer((), Workers(lambda: ThreadPoolExecutor(1)), Counter())
        long, other = (Side(name, fixer, committer, turns) for name in ("long", "other"))
        *first, last = long_frames(text)
        self.replies += [await long.asks(unit) for unit in (ENQ, *first)]
        kept = asyncio.ensure_future(long.asks(last))
        while not kept.done():
            for unit in (EOT + ENQ, *frames(TEXTS)):
                before = self.commits
                self.replies.append(await other.asks(unit))
                self.waits.append(self.commits - before)
        self.replies.append(await kept)
        await asyncio.gather(long.ends(), other.ends(), fixer.stop())
        await committer.stop()


def long_frames(text):
    """The frames of a long text."""
    size = LONG_FRAME_TEXT
    starts = range(0, len(text), size)
    return [frame_bytes(number % 8, start == starts[-1], text[start : start + size], frame_limit=size)
            for number, start in enumerate(starts, 1)]


def shared(busy, times, long):
    """Lines of these peers have work all the time, and one works so many times now and then, some of them for so long:
    how much each peer did, how much they did before each of its times, and how many turns of the loop there were."""
    worked, done, over, waits, loops = [0.0], Counter(), [], [], [0]
    turns = turn.Turns(*[lambda: worked[0]] * 2)

    async def has_work(name):
        share = turn.Share(turns, name)
        while not over:
            worked[0] += 0.0007
            done[name] += 1
            await (share.wait() if share.is_over() else asyncio.sleep(0))

    async def calm():
        share = turn.Share(turns, "calm")
        for time_ in range(times):
            for _ in range(400):
                loops[0] += 1
                await asyncio.sleep(0)
            before = sum(done.values())
            worked[0] += long.get(time_, 0.0007)
            if share.is_over():
                await share.wait()
            waits.append(sum(done.values()) - before)
        over.append(True)

    async def all_of_them():
        await asyncio.gather(calm(), *map(has_work, busy))

    asyncio.run(all_of_them())
    return done, waits, loops[0]


class Turns(HostTest):
    """Texts that take long."""

    def test_sqlite(self):
        """Each text, with an SQLite file: between two turns of the loop a line has few steps of its work, and other
        lines are answered meanwhile."""
        for name, text in HEAVY.items():
            self.is_shared(name, self.path(f"{name}.db"), text)

    def test_spool(self):
        """The same with a spool, in smaller parts."""
        self.is_shared("tiny messages", "spool:" + self.path("tiny"), HEAVY["tiny messages"][: 1 << 9])

    def test_rest(self):
        """A task goes on within the call that ends what it waits for, in its own context; or at once if that has ended
        before. It may be cancelled."""
        whose, went = contextvars.ContextVar("whose", default="nobody's"), []

        async def waits(name, rest):
            whose.set(name)
            await rest
            went.append((name, whose.get()))

        async def run():
            early, late, never = (turn.Rest(loop=asyncio.get_running_loop()) for _ in range(3))
            early.end()
            tasks = [asyncio.ensure_future(waits(*one)) for one in (("early", early), ("late", late), ("never", never))]
            await asyncio.sleep(0)
            self.same("ended before", went, [("early", "early")])
            tasks[-1].cancel()
            asyncio.get_running_loop().call_soon(lambda: (never.end(), late.end(), late.end(), went.append("ended")))
            await asyncio.sleep(0.01)
            self.same("what goes on, and when", went[1:], [("late", "late"), "ended"])
            self.same("how they ended", [one.cancelled() for one in tasks], [False, False, True])

        asyncio.run(run())

    def test_rest_that_fails(self):
        """A task that is cancelled after what it waits for has failed goes on once."""
        went = []

        async def waits(rest):
            for one in (rest, asyncio.sleep(0.01)):
                try:
                    await one
                    went.append("over")
                except (asyncio.CancelledError, ValueError) as error:
                    went.append(type(error).__name__)

        async def run():
            rest = turn.Rest(loop=asyncio.get_running_loop())
            task = asyncio.ensure_future(waits(rest))
            await asyncio.sleep(0)
            rest.fail(ValueError())
            task.cancel()
            await asyncio.wait([task])

        asyncio.run(run())
        self.same("how it goes on", went, ["CancelledError", "over"])

    def test_parts(self):
        """A commit has one part of a long text at most, and all else that waits."""
        commits, going = [], threading.Event()
        store = unittest.mock.Mock(part=1)
        store.commit.side_effect = lambda units: (commits.append(units), going.wait(5))

        async def keep():
            committer = Committer(store, unittest.mock.Mock())
            first = committer.put(["first"])
            while not commits:
                await asyncio.sleep(0.01)
            done = [committer.put([f"part {number}"], True) for number in range(3)]
            done += [committer.put([f"text {number}"]) for number in range(3)]
            going.set()
            await asyncio.gather(first, *done)
            await committer.stop()

        asyncio.run(keep())
        rest = [["text 0"], ["text 1"], ["text 2"], ["part 0"]], [["part 1"]], [["part 2"]]
        self.same("commits", commits, [[["first"]], *rest])

    def test_who_works_now_and_then(self):
        """120 peers have work all the time, and share it; one that works now and then waits for none of them, and
        hardly if the interpreter collects garbage meanwhile; and they have a little of each turn of the loop."""
        done, waits, loops = shared([f"busy {number}" for number in range(120)], 20, {5: 0.05})
        self.true("after garbage it waits for few", waits.pop(5) <= 20, waits)
        self.same("it waits for", set(waits), {0})
        self.true("each as much", max(done.values()) - min(done.values()) <= 20, done)
        self.true("a little of each turn", 0 < sum(done.values()) <= 8 * loops, (done, loops))

    def test_many_connections_of_a_peer(self):
        """A peer has as much over many connections as another one over one; who works now and then waits for none."""
        done, waits, _ = shared(["many"] * 64 + [f"one {number}" for number in range(8)], 20, {})
        self.same("it waits for", set(waits), {0})
        self.true("each as much", max(done.values()) - min(done.values()) <= 20, done)

    def test_work_of_others(self):
        """A line isn't charged for the time in which other threads and processes work."""
        turns = turn.Turns()
        share = turn.Share(turns, "x")
        time.sleep(10 * turn.HEARS)
        share.rests()
        self.true("charged", turns.account("x").had < turn.HEARS, turns.account("x").had)

    def test_connections_of_a_line(self):
        """A session takes no more work on a line with many connections than on one with few."""
        step = lambda note: Step(b"", None, note, 0, 0)  # noqa: E731
        asked = []
        for count in (1, 300):
            one, looks = Pulse(240, 1.0), []
            probes = [Probe(one) for _ in range(count)]
            with unittest.mock.patch.object(Probe, "silent", lambda probe: looks.append(probe)):
                for _ in range(50):
                    for note in (Note.OPENED, Note.ACCEPTED, Note.ENDED):
                        see(probes[0], Came(b"x"))
                        see(probes[0], Meant(0, step(note)))
            asked.append(len(looks))
        self.true("looks at connections", asked[1] - asked[0] < 300, asked)

    def test_room_for_texts(self):
        """Long texts that aren't complete have some room together: for a frame that finds none there is NAK, also in
        the end; when others are gone, there is room again."""
        host = Host(self.path("room.db"), "--listen", "0,name=long,frame=63993", "--listen",
                    "0,name=asks,orders=query,frame=63993", scale=1.0)
        ports = {row.split()[2]: int(row.split()[1].rsplit(":", 1)[1]) for row in host.rows if row.startswith("listen")}
        part, most = b"y" * LONG_FRAME_TEXT, serve.TEXTS // (15 * LONG_FRAME_TEXT)
        units = [frame_bytes(number % 8, False, part, frame_limit=LONG_FRAME_TEXT) for number in range(1, 16)]
        lines = [Client(ports["long"]) for _ in range(most + 10)]
        replies = [b"".join(one.asks(unit) for unit in (ENQ, *units)) for one in lines]
        self.same("taken", replies[:most], [ACK * 16] * most)
        self.same("taken in part", [one[:1] + one[-1:] for one in replies[most + 3 :]], [ACK + NAK] * 7)
        self.says("said", host, "NO_ROOM")
        with Client(host.port) as short, Client(ports["asks"]) as asks:
            self.true("a short text", short.whole(TEXTS))
            self.true("a short one where the host asks", asks.whole(TEXTS))
            self.same("a long one where the host asks", [asks.asks(unit, seconds=1) for unit in (ENQ, *units[:3])][-1], b"")
        for one in lines[:most]:
            one.socket.close()

        def is_room():
            with Client(ports["long"]) as last:
                return b"".join(last.asks(unit) for unit in (ENQ, *units)) == ACK * 16

        self.true("room again", wait_for(is_room))
        host.kill()

    def is_shared(self, name, store, text):
        """Whether others have their turn while a text is kept."""
        one = Shared(store)
        one.keep(text)
        self.same(f"{name}: replies", set(one.replies), {ACK})
        self.true(f"{name}: steps in a turn", max(one.steps.values()) <= MOST_STEPS, one.steps.most_common(3))
        self.true(f"{name}: changes of a part", max(one.units) <= one.store.part, max(one.units))
        self.true(f"{name}: another line is answered", max(one.waits) <= MOST_COMMITS, (len(one.waits), max(one.waits)))
