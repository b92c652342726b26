"""What is late: replies to a session of the host's own, where ENQ goes out again; and all that is on the lines of a
machine that was suspended."""
import asyncio
import os
import select
import time
import unittest.mock
from collections import Counter

from lislab.diagnosis.ring import pieces_of
from lislab.host.wires import Asleep, clock
from lislab.host.line import Line, Parts
from lislab.host.turns import Turns
from lislab.model.books import open_book
from lislab.model.unix import ask
from lislink.order import Order
from tests.host.hosts import ENV, Found, Host, HostTest, lislab, wait_for
from tests.host.plain import ACK, ENQ, NAK, Gone, Plain, frame, samples_of
from tests.host.test_orders import SLOW, states

FRAME = frame(1, b"H|\\^&\r")
#: What is said of a line on which a late reply could be taken for another one.
SAID = "without waits=new-line, a late reply could be mistaken for the next ENQ's reply"


def ports_of(host):
    """The ports of a host's lines, by their names."""
    rows = [row.split() for row in host.rows if row.startswith("listening ")]
    return {name: int(where.rsplit(":", 1)[1]) for _, where, name in rows}


class Late(HostTest):
    """A session of the host's own that has to wait."""

    def started(self, *words, samples=("S7",)):
        """A host with orders."""
        store = self.path(f"{time.monotonic_ns()}.db")
        book = open_book(store)
        book.add(Order(sample, ("K",)) for sample in samples)
        book.close()
        host = Host(store, *words, listen=False, scale=SLOW)
        self.addCleanup(host.kill)
        return host

    def test_a_new_line(self):
        """With `waits=new-line` ENQ goes out again on a new connection alone, after NAK and after ENQ; that is no try,
        but an analyzer that is busy all the time gets its orders in vain."""
        host = self.started("--listen", "0,name=asks,orders=download,waits=new-line")
        self.true("nothing is said", SAID not in host.says(), host.says())
        for turn in range(5):
            one = Plain(ports_of(host)["asks"], SLOW)
            self.same(f"asks {turn}", one.byte(60), ENQ)
            one.put(NAK)
            with self.assertRaises(Gone):
                one.byte(200)
        self.says("said", host, "closed for a new connection, on which the host asks again")
        self.true("no try", "not sent" not in host.says(), host.says())
        one = Plain(ports_of(host)["asks"], SLOW)
        one.byte(60)
        one.put(NAK)
        self.says("six times", host, "not sent: S7 K: the analyzer is busy")
        one = Plain(ports_of(host)["asks"], SLOW)
        self.same("asks in the end", one.byte(400), ENQ)
        one.put(ENQ)
        time.sleep(1.0 * SLOW)
        one.send([b"H|\\^&\r", b"L|1|N\r"])
        with self.assertRaises(Gone):
            one.byte(200)
        one = Plain(ports_of(host)["asks"], SLOW)
        self.same("sent", samples_of(one.take(60)), ["S7"])
        self.same("the analyzer's own is kept", [one.body for one in Found(host.store).whole], [b"H|\\^&\rL|1|N\r"])

    def test_the_same_line(self):
        """Without the setting ENQ goes out again on the same connection, which is said at the start; a line that sends
        no order can't have it."""
        host = self.started("--listen", "0,name=asks,orders=download")
        self.says("said", host, f"note: asks: {SAID}")
        one = Plain(ports_of(host)["asks"], SLOW)
        self.same("asks", one.byte(60), ENQ)
        one.put(NAK)
        self.same("sent", samples_of(one.take(60)), ["S7"])
        done = lislab("serve", "--store", self.path("no.db"), "--listen", "0,waits=new-line")
        self.same("a line without orders", done.returncode, 2)
        self.has("why", done.stderr, "a line on which the host asks has orders = query or download")

    def test_a_serial_line(self):
        """On a serial line ENQ goes out again once no late reply to the last one can come."""
        master, device = self.terminal()
        host = self.started("--serial", f"{device}:9600,name=wire,orders=download")

        def byte():
            ready, _, _ = select.select([master], [], [], 120)
            return os.read(master, 1) if ready else b""

        self.same("asks", byte(), ENQ)
        os.write(master, NAK)
        self.same("asks again", byte(), ENQ)
        held = ask(host.store + ".watch", ask="ring", line="wire")[1]
        first, again = [piece.at for piece in pieces_of(held) if piece.data == ENQ]
        self.true("later than the standard wants", again - first > 14e9 * SLOW, again - first)
        self.true("nothing is said", SAID not in host.says(), host.says())
        os.write(master, ACK)
        self.same("a frame", byte(), b"\x02")
        self.same("waits", states(host.store), {"S7": "waiting"})


class Suspended(HostTest):
    """A machine that was suspended."""

    def test_lines_are_taken_anew(self):
        """Each line is closed, with the session that goes on, and heard anew."""
        master, device = self.terminal()
        clock = self.path("clock")
        words = ["--listen", "0,name=lab", "--serial", f"{device}:9600,name=wire"]
        host = Host(self.path("asleep.db"), *words, fault="asleep", env={**ENV, "LISLAB_ASLEEP": clock}, listen=False,
                    scale=1.0)
        one = Plain(ports_of(host)["lab"], 1.0)
        for unit in (ENQ, FRAME):
            one.put(unit)
            self.same("acknowledged", one.byte(60), ACK)
        os.write(master, ENQ)
        self.same("on the wire", os.read(master, 1), ACK)
        with open(clock + ".new", "w", encoding="ascii") as file:
            file.write("3600")
        os.rename(clock + ".new", clock)
        with self.assertRaises(Gone):
            one.byte(60)
        said = "the machine was suspended for 3600 s: every line connects again\n"
        self.true("said", wait_for(lambda: host.says().count(said) == 1), host.says())
        closed = "closed since the machine was suspended"
        self.true("both", wait_for(lambda: host.says().count(f": {closed}; bytes ") == 2), host.says())
        self.true("the device is opened again", wait_for(lambda: host.says().count(f"wire: {device}: open") == 2
                                                         or host.says().count("wire: open") == 2), host.says())
        one = Plain(ports_of(host)["lab"], 1.0)
        one.send([b"H|\\^&\r", b"L|1|N\r"])
        os.write(master, FRAME + ENQ)
        self.same("the session on the wire is over", os.read(master, 9), ACK)
        self.same("the host's status", host.stop(), 0)
        found = Found(host.store)
        self.same("whole", [each.body for each in found.whole], [b"H|\\^&\rL|1|N\r"])
        self.true("unfinished", [closed[7:] in each.reason for each in found.others] == [True], found.others)

    def test_a_reply_that_was_asleep(self):
        """A text is kept while the machine is suspended: its reply isn't sent, though no clock of the host ran."""
        sent, drift = [], [0.0]

        async def runs():
            wire = unittest.mock.Mock(is_tcp=True, write=sent.append)
            intake, committer, observers, fixer = (unittest.mock.Mock(names=frozenset(), bodies={}) for _ in range(4))
            given = wire, intake, observers, lambda *_: None, Counter(), fixer, committer, Turns()
            line = Line(Parts(*given))
            intake.drop.return_value = []

            def take(_):
                drift[0] += 100.0
                return iter(())

            intake.take = take
            task = asyncio.ensure_future(line.run())
            for unit in (ENQ, FRAME, ENQ):
                loop = asyncio.get_running_loop()
                loop.call_soon(line.inbox.add, unit, clock() + drift[0])
                await asyncio.sleep(0)
                while line.inbox.pieces or line.inbox.waiter.done():
                    await asyncio.sleep(0.01)
            line.lost()
            await task
            self.same("late", line._counts["late"], 1)

        with unittest.mock.patch("lislab.host.line.clock", lambda: clock() + drift[0]):
            asyncio.run(asyncio.wait_for(runs(), 60))
        self.same("replies", sent, [ACK, ACK])

    def test_clocks(self):
        """A drift of the clocks counts once it was noted, and a little of it doesn't."""
        drift = [5.0]
        one = Asleep(lambda: clock() + drift[0])
        found = []
        for more in (0.0, 0.9, 30.0, 0.0):
            drift[0] += more
            found.append(round(one.note(), 1))
        self.same("found", found, [0.0, 0.0, 30.9, 0.0])
        self.same("this machine's", Asleep().note(), 0.0)
        self.same("it counts while the machine sleeps", clock.args, (time.CLOCK_BOOTTIME,))
