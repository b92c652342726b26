"""Orders: their store, and a host that answers queries and sends worklists. The analyzer of these tests is
written from the standard, over no code of the repository."""
import asyncio
import json
import os
import select
import threading
import time
import unittest.mock
from collections import Counter

from lislab.host.duplex import TwoWayLine
from lislab.host.intake import Intake
from lislab.host.line import Parts
from lislab.host.outbox import Batch, Desk, Outbox, Site
from lislab.model.stores import open_store
from lislab.host.turns import Turns
from lislab.model.book import LOT, PERHAPS, Wanted
from lislab.model.books import open_book
from lislink.order import Order
from lislink.records import Reader
from tests.host import hosts
from tests.host.hosts import Host, HostTest, lislab, wait_for
from tests.host.plain import ACK, ENQ, NAK, Gone, Plain, query, samples_of
from tests.host.test_serial import Cable

GOOD = "sample,tests,line,patient,name,birth,sex,priority\nS7,GLU K,fire,P1,Doe^Jane,19700101,F,S\nS8;x,,,,,,,\n"


class Books:
    """What each store of orders does; a subclass has the store."""

    def new(self):
        """A new store's address."""
        raise NotImplementedError

    def test_states(self):
        """An order waits, is taken by one host, sent, tried in vain, cancelled, and waits again."""
        where = self.new()
        one = open_book(where, "one")
        self.addCleanup(one.close)
        numbers = [placed.number for placed in one.add([Order(f"S{at}", ("K",)) for at in range(1, 6)])]
        self.same("numbers", numbers, [1, 2, 3, 4, 5])
        self.same("none asked", one.take("fire x", "1", "fire", 9, []), [])
        self.same("asked", one.ask("fire x", "1", "fire", [Wanted(["S1"]), Wanted(["S3"])]), (2, 0, 0))
        self.same("taken", [placed.number for placed in one.take("fire x", "1", "fire", 9, [])], [1, 3])
        self.same("taken once", one.take("fire x", "1", "fire", 9, []), [])
        self.same("on its way", one.ask("fire x", "1", "fire", [Wanted(["S1"])]), (0, 1, 0))
        self.same("elsewhere", one.ask("fire y", "2", "fire", [Wanted(["S1"])]), (0, 0, 0))
        self.same("not while it is sent", one.cancel(1), False)
        one.sent("fire", [1])
        self.same("the last try", one.tried("fire", [3], "why", 1, 0), [3])
        self.same("a try", one.tried("fire", [2], "why", 2, 60), [])
        self.same("states", [placed.state for placed in one.listed()], [
            "sent", "waiting", "failed", "waiting", "waiting"])
        self.same("cancel", (one.cancel(4), one.cancel(1), one.cancel(99)), (True, False, False))
        self.same("again", (one.again(1), one.again(5)), (True, False))
        self.same("range", one.ask("fire x", "1", "fire", [Wanted((), "S4", "S5")]).found, 1)
        self.same("none is named", one.ask("fire x", "1", "fire", [Wanted()]).found, 0)
        self.same("later", [placed.number for placed in one.take("", "1", "fire", 9, [])], [1])

    def test_asked_again(self):
        """An order that was sent answers again until a result of each of its tests has come, or its time is over."""
        one, now = open_book(self.new(), "one"), [1000.0]
        self.addCleanup(one.close)
        one._clock = lambda: now[0]
        one.add([Order("S1", ("GLU", "K")), Order("S2", ("K",), priority="S", collected="20261128")])

        def asked(sample, line="fire", again=60.0):
            found = one.ask(f"{line} x", "1", line, [Wanted((sample,))], again).found
            numbers = [placed.number for placed in one.take(f"{line} x", "1", line, 9, [])]
            one.sent(line, numbers)
            return found, numbers

        self.same("first", asked("S1"), (1, [1]))
        self.same("again", asked("S1"), (1, [1]))
        self.same("elsewhere", asked("S1", "water"), (0, []))
        one.results("fire", "S1", {"GLU", "NA"})
        self.same("one result", (asked("S1"), next(one.listed()).came), ((1, [1]), ("GLU",)))
        one.results("fire", "S1", {"K"})
        self.same("done", (asked("S1"), next(one.listed()).state), ((0, []), "done"))
        self.same("counts", one.counts(), {"waiting": 1, "done": 1})
        self.same("by hand", (one.again(1), asked("S1")), (True, (1, [1])))
        now[0] += 61
        self.same("its time is over", asked("S1"), (0, []))
        one.ask("fire x", "1", "fire", [Wanted(("S1",))], 600.0)
        one.take_back("fire x", "1")
        self.same("taken back", next(one.listed()).state, "sent")
        for since, wanted in (("20261129", 0), ("20261128", 1)):
            everything = Wanted((), "", "", since, "", True)
            self.same(f"from {since}", one.ask("fire x", "1", "fire", [everything]).found, wanted)
        one.add([Order("S3", ("K",)), Order("S4", ("K",), priority="S")])
        self.same("urgent first", [placed.order.sample for placed in one.take("", "1", "fire", 9, [])], ["S4", "S3"])

    def test_rows_of_other_programs(self):
        """A row that can't be an order has failed, with the reason; the others are sent, and all are listed."""
        one = open_book(self.new(), "one")
        self.addCleanup(one.close)
        rows = ["GLU K", '"GLU"', "[]", "[1, 2]", '["K"]', '{"K": 1}']
        with one._store.changing():
            for number, tests in enumerate(rows, 1):
                words = (number, "S1", tests, "STAT" if number == 5 else "R")
                one._store.run("INSERT INTO orders (number, sample, tests, priority, added, changed)"
                               " VALUES (?, ?, ?, ?, 1, 1)", words)
        one.add([Order("S2", ("K",))])
        self.same("listed", [placed.state for placed in one.listed()], ["failed"] * 6 + ["waiting"])
        taken = one.take("", "1", "fire", 9, [])
        self.same("taken", [placed.number for placed in taken if placed.state == "waiting"], [7])
        why = [placed.reason for placed in taken if placed.number < 7]
        self.true("why", all("row can't be an order" in one for one in why), str(why))
        self.same("counts", one.counts(), {"waiting": 1, "failed": 6})

    def test_an_earlier_store(self):
        """The table of an earlier version is read as it is, and gets its columns when it is changed."""
        where = self.new()
        one = open_book(where, "one")
        one.add([Order("S1", ("K",))])
        with one._store.changing():
            for name in ("more", "came", "done", "sent_on"):
                one._store.run(f"ALTER TABLE orders DROP COLUMN {name}")
            one._store.set_version(1)
        one.close()
        one = open_book(where, reading=True)
        self.same("read", ([placed.state for placed in one.listed()], one.counts()), (["waiting"], {"waiting": 1}))
        one.close()
        one = open_book(where, "one")
        self.addCleanup(one.close)
        one.sent("fire", [1])
        one.results("fire", "S1", {"K"})
        self.same("changed", [placed.state for placed in one.listed(state="done")], ["done"])

    def test_failed(self):
        """Orders that have failed are listed by the line on which they did, the newest first, until somebody does
        something about them."""
        one, now = open_book(self.new(), "one"), [0.0]
        self.addCleanup(one.close)
        one._clock = lambda: now[0]
        one.add([Order(f"S{at}", ("K",), line="fire" if at < 4 else "") for at in range(1, 6)])
        self.same("none", (one.failed(9), one.failed_mark()), ({}, (0, 0.0)))
        for number, line in ((1, "fire"), (3, "fire"), (4, "water"), (2, "fire")):
            now[0] += 10
            one.tried(line, [number], f"why {number}", 1, 0)

        def failed(most):
            return {line: (found.many, found.since, [placed.number for placed in found.newest])
                    for line, found in one.failed(most).items()}

        self.same("the last ones", failed(2), {"fire": (3, 10.0, [2, 3]), "water": (1, 30.0, [4])})
        self.same("all", failed(9)["fire"], (3, 10.0, [2, 3, 1]))
        self.same("why", one.failed(1)["water"].newest[0].reason, "why 4")
        self.same("how many", one.failed_mark(), (4, 40.0))
        one.take_back("water", "1")
        self.same("a query is taken back", failed(1)["water"], (1, 30.0, [4]))
        self.same("again", (one.again(4), one.cancel(2)), (True, True))
        self.same("what is left", (failed(9), one.failed_mark()), ({"fire": (2, 10.0, [3, 1])}, (2, 20.0)))
        self.same("an order for any line waits for any", [placed.number for placed in one.take("", "1", "x", 9, [])],
                  [4, 5])

    def test_two_hosts(self):
        """Each order is taken by one of two hosts."""
        where = self.new()
        books = [open_book(where, name) for name in ("one", "two")]
        books[0].add(Order(f"S{at}", ("K",)) for at in range(40))
        taken = [[], []]

        def take(place):
            while True:
                found = books[place].take("", "1", "fire", 3, [])
                taken[place] += [placed.number for placed in found]
                if not found or len(taken[place]) > 40:
                    return

        work = [threading.Thread(target=take, args=(place,)) for place in (0, 1)]
        for one in work:
            one.start()
        for one in work:
            one.join()
        self.same("each once", sorted(taken[0] + taken[1]), list(range(1, 41)))
        for one in books:
            one.close()

    def test_given_back(self):
        """What a host held when it died waits again when it starts; that an analyzer may have got it stays noted."""
        where = self.new()
        one = open_book(where, "one")
        one.add([Order("S1", ("K",)), Order("S2", ("K",)), Order("S3", ("K",))])
        self.same("taken", len(one.take("", "1", "fire", 2, [])), 2)
        one.sent("fire", [2])
        one.close()
        one = open_book(where, "one")
        self.same("left", one.left, [1])
        self.same("taken again", [placed.number for placed in one.take("", "1", "fire", 9, [])], [1, 3])
        one.sent("fire", [1, 3])
        self.same("noted", [(placed.state, placed.reason) for placed in one.listed()],
                  [("sent", PERHAPS), ("sent", ""), ("sent", "")])
        one.close()
        one = open_book(where, "one")
        self.same("nothing left", one.left, [])
        one.close()

    def test_taken_over(self):
        """Another host takes what a host that is gone had in its hands, once that hasn't said for a while that it has
        it still; the first one, if it comes back, changes nothing of it."""
        where, now = self.new(), [1000.0]
        one, two = (open_book(where, name) for name in ("one", "two"))
        for book in (one, two):
            self.addCleanup(book.close)
            book._clock = lambda: now[0]
        one.add([Order("S1", ("K",))])
        self.same("taken", [placed.number for placed in one.take("", "1", "fire", 9, [])], [1])
        taken = lambda: [(placed.number, placed.left_by) for placed in two.take("", "1", "fire", 9, [])]  # noqa: E731
        for seconds in (29, 29):
            now[0] += seconds
            self.same("not yet", (two.due(), taken()), ([], []))
            one.still([1])
        now[0] += 31
        self.same("due", two.due(), [("", "")])
        self.same("taken over", taken(), [(1, "one")])
        self.same("not failed by the first one", one.tried("fire", [1], "why", 1, 0), [])
        self.same("noted", next(two.listed()).reason, PERHAPS)
        two.sent("fire", [1])
        self.same("sent", [(placed.state, placed.reason) for placed in one.listed()], [("sent", PERHAPS)])
        two.add([Order("S2", ("K",))])
        wanted = [Wanted(("S2",))]
        self.same("asked", two.ask("fire x", "7", "fire", wanted), (1, 0, 0))
        self.same("in hand", [placed.number for placed in two.take("fire x", "7", "fire", 9, [])], [2])
        self.same("not by another one", one.ask("fire y", "1", "fire", wanted), (0, 0, 0))
        now[0] += 31
        self.same("by another one in the end", one.ask("fire y", "1", "fire", wanted), (1, 0, 0))
        self.same("it has it", [(placed.number, placed.reason) for placed in one.take("fire y", "1", "fire", 9, [])],
                  [(2, PERHAPS)])

    def test_lots(self):
        """Many orders are stored in lots: each is there for others, who wait for no more than one."""
        where, seen = self.new(), []
        one, other = open_book(where, "one"), open_book(where, "two")
        self.addCleanup(one.close)
        self.addCleanup(other.close)

        def orders():
            for at in range(2 * LOT + 1):
                seen.extend([sum(other.counts().values())] if at % LOT == 0 else [])
                yield Order(f"S{at}", ("K",))

        self.same("stored", len(one.add(orders())), 2 * LOT + 1)
        self.same("when each lot began", seen, [0, LOT, 2 * LOT])

    def test_asked_again_on_a_new_connection(self):
        """What was asked for over a connection that is gone is sent over the next one: who asks again there is being
        answered, and gets no answer that there is nothing."""
        one = open_book(self.new(), "one")
        self.addCleanup(one.close)
        one.add([Order("S1", ("K",))])
        self.same("asked", one.ask("fire x", "1", "fire", [Wanted(("S1",))]), (1, 0, 0))
        one.leave("1")
        self.same("taken", len(one.take("fire x", "2", "fire", 9, [])), 1)
        self.same("asked again", one.ask("fire x", "2", "fire", [Wanted(("S1",))]), (0, 1, 0))
        self.same("elsewhere", one.ask("fire y", "3", "fire", [Wanted(("S1",))]), (0, 0, 0))
        one.add([Order("S2", ("K",))])
        both = [Wanted(("S1",)), Wanted(("S2",))]
        self.same("over a third one from there", one.ask("fire x", "3", "fire", both), (0, 0, 1))
        self.same("none is marked", one.take("fire x", "3", "fire", 9, []), [])
        self.same("not waited for", one.ask("fire x", "3", "fire", both, 0.0, False), (1, 0, 1))
        self.same("part of it", [placed.number for placed in one.take("fire x", "3", "fire", 9, [])], [2])


class SqliteBooks(Books, HostTest):
    """Orders in SQLite."""

    _count = 0

    def test_two_connections_of_one_process(self):
        """A host that opens its store for the orders too keeps what it commits after others have read the file."""
        where = self.new()
        store = open_store(where)
        store.start("one")
        self.addCleanup(store.close)
        book = open_book(where, "one")
        self.addCleanup(book.close)
        rows = "sqlite3.connect(sys.argv[1]).execute('SELECT count(*) FROM orders')"
        code = f"import sqlite3, sys; print({rows}.fetchone()[0])"

        def seen():
            words = [hosts.sys.executable, "-c", code, where]
            return int(hosts.subprocess.run(words, capture_output=True, text=True, check=True).stdout)

        for count in range(4):
            self.same(f"{count} orders", seen(), count)
            book.add([Order("S1", ("K",))])

    def new(self):
        type(self)._count += 1
        return self.path(f"{self._count}.db")


class SpoolBooks(Books, HostTest):
    """Orders of a spool."""

    _count = 0

    def new(self):
        type(self)._count += 1
        return f"spool:{self.path(str(self._count))}"

    def left(self, where, name, data):
        """A file of orders that another program leaves."""
        path = os.path.join(where[len("spool:") :], "orders", name)
        with open(path + ".new", "wb") as out:
            out.write(data)
        os.rename(path + ".new", path)

    def test_files(self):
        """What is in a file is taken once, also if the host dies before the file is gone; a file with a fault is put
        aside as a whole, with the reason."""
        where = self.new()
        one = open_book(where)
        self.addCleanup(one.close)
        self.left(where, "b.orders", b"sample,tests\nS2,K\nS3,K\n")
        self.left(where, "a.orders", b'{"sample": "S1", "tests": "K"}\n')
        self.left(where, "c.orders", b"sample,tests\nS4,K\nS5,\n")
        self.left(where, "d.orders", b"")
        self.left(where, ".hidden.orders", b"sample,tests\nS6,K\n")
        self.left(where, "x\udcff.orders", b"sample,tests\nS\xff,K\n")
        with unittest.mock.patch("os.unlink", side_effect=OSError(5, "the host dies")):
            self.same("a disk that fails", [told for told in one.take_in() if "dies" in told],
                      ["orders of a.orders: the host dies", "orders of b.orders: the host dies"])
        self.same("told", one.take_in(), ["orders of a.orders: 1", "orders of b.orders: 2"])
        self.same("taken once", [placed.order.sample for placed in one.listed()], ["S1", "S2", "S3"])
        folder = os.path.join(where[len("spool:") :], "orders")
        self.same("left", sorted(os.listdir(folder)), [
            ".hidden.orders", "c.rejected", "c.why", "d.rejected", "d.why", "x\udcff.rejected", "x\udcff.why"])
        with open(os.path.join(folder, "c.why"), encoding="utf-8") as file:
            self.same("why", file.read(), "line 3: it has no test\n")
        self.left(where, "a.orders", b'{"sample": "S1", "tests": "K"}\n')
        self.same("the same name again", one.take_in(), ["orders of a.orders: 1"])
        self.same("nothing", one.take_in(), [])
        self.same("mode", os.stat(os.path.join(folder, "..", "orders.db")).st_mode & 0o777, 0o600)


class Commands(HostTest):
    """`lislab order`."""

    def test_commands(self):
        """Orders are added, listed, cancelled and wait again; a file with a fault adds nothing unless some are
        asked."""
        store, file = self.path("commands.db"), self.path("orders.csv")
        with open(file, "w", encoding="utf-8") as out:
            out.write("sample,tests,line\nS7,GLU K,chemistry\nS8,NA,\n")
        done = lislab("order", "add", "--store", store, file)
        self.same("add", done.stdout, "order 1 S7 chemistry GLU,K\norder 2 S8 - NA\norders 2 rejected 0\n")
        wrong = "sample,tests\nS9,\nS10,K\n"
        done = lislab("order", "add", "--store", store, input=wrong)
        self.same("nothing", (done.stdout, done.returncode), ("orders 0 rejected 1\n", 1))
        self.same("why", done.stderr, "lislab: line 2: it has no test\n")
        done = lislab("order", "add", "--store", store, "--some", "--line", "x", input=wrong)
        self.same("some", done.stdout, "order 3 S10 x K\norders 1 rejected 1\n")
        self.same("cancel", lislab("order", "cancel", "--store", store, "2").stdout, "order 2 cancelled\n")
        self.same("not twice", lislab("order", "cancel", "--store", store, "2").returncode, 1)
        told = lislab("order", "list", "--store", store, "--state", "cancelled").stdout
        self.true("list", told.startswith("order 2 S8 - NA cancelled "), told)
        self.same("again", lislab("order", "again", "--store", store, "2").stdout, "order 2 waiting\n")
        told = lislab("order", "list", "--store", store, "--sample", "S7").stdout
        self.true("sample", told.startswith("order 1 S7 chemistry GLU,K waiting 2") and told.count("\n") == 1, told)
        self.same("mode", os.stat(store).st_mode & 0o777, 0o600)
        for where, status in (("spool:" + self.path("none"), 0), (self.path("none.db"), 3)):
            self.same(f"no store {where[:5]}", lislab("order", "list", "--store", where).returncode, status)


#: Each timer is so many times as long where a session must not fail: 15 seconds are 1.5, for a machine that is busy.
SLOW = 0.3


def states(store):
    """The states of the orders of a store, by sample."""
    book = open_book(store, reading=True)
    try:
        return {placed.order.sample: placed.state for placed in book.listed()}
    finally:
        book.close()


class Answers(HostTest):
    """A host that answers queries, over a real line."""

    def started(self, *words, orders=("S7", "S8"), line="orders=query", scale=SLOW, **how):
        """A host with orders, and its port."""
        store = self.path(f"{time.monotonic_ns()}.db")
        book = open_book(store)
        book.add(Order(sample, ("GLU", "K")) for sample in orders)
        book.close()
        host = Host(store, "--listen", f"127.0.0.1:0,name=asks,{line}", *words, listen=False, scale=scale, **how)
        port = next(int(row.split()[1].rsplit(":", 1)[1]) for row in host.rows if row.endswith(" asks\n"))
        self.addCleanup(host.kill)
        return host, port

    def test_query(self):
        """What waits for a sample is answered, and sent once it is acknowledged; for a sample without orders the
        answer says so."""
        host, port = self.started(scale=1.0)
        one = Plain(port, 1.0)
        one.send(query("S7"))
        rows = one.take()
        self.same("records", [row[:1] for row in rows], [b"H", b"P", b"O", b"L"])
        self.same("order", rows[2].split(b"|")[:5], [b"O", b"1", b"S7", b"", b"^^^GLU\\^^^K"])
        self.true("sent", wait_for(lambda: states(host.store) == {"S7": "sent", "S8": "waiting"}), states(host.store))
        self.true("status", "orders: 1 waiting, 1 sent" in lislab("status", "--store", host.store).stdout)
        one.send(query("S9"))
        self.same("no order", [row[:5] for row in one.take()], [b"H|\\^&", b"L|1|I"])
        one.send(query("S7", "S8", "S9"))
        self.same("several, and one again", samples_of(one.take()), ["S7", "S8"])
        one.close()

    def test_ways_to_say_nothing(self):
        """`none=Q-X` gives the query back, `none=silence` nothing."""
        _, port = self.started(line="orders=query,none=Q-X")
        one = Plain(port, SLOW)
        one.send(query("S9"))
        self.same("Q-X", one.take()[1][:30], b"Q|1|^S9||^^^ALL||||||||X\r")
        _, port = self.started(line="orders=query,none=silence")
        one = Plain(port, SLOW)
        one.send(query("S9"))
        with self.assertRaises(Gone):
            one.take(20)
        self.true("silence", True)

    def test_an_order_that_cannot_be_written(self):
        """A query whose only order can't be written in the line's encoding is answered that there is none."""
        host, port = self.started(orders=("S7", "S\u03a9"), line="orders=query,none=Q-X,encoding=utf-8")
        one = Plain(port, SLOW)
        one.send(query("S\u03a9"))
        self.same("utf-8", samples_of(one.take()), ["S\u03a9"])
        host, port = self.started(orders=("S7", "S8"), line="orders=query,none=Q-X,encoding=ascii")
        book = open_book(host.store)
        book.add([Order("S9", ("K",), name="M\u00fcller")])
        book.close()
        one = Plain(port, SLOW)
        one.send(query("S9"))
        self.same("ascii", one.take()[1][:30], b"Q|1|^S9||^^^ALL||||||||X\r")
        self.true("failed", wait_for(lambda: states(host.store)["S9"] == "failed"), states(host.store))
        self.says("said", host, "asks: order 3 of sample S9 has failed: 'ü' isn't in ascii")

    def test_worklists(self):
        """`orders=download` sends what waits for the line unasked, also what is added later."""
        host, port = self.started(line="orders=download", scale=1.0)
        one = Plain(port, 1.0)
        self.same("at once", sorted(samples_of(one.take())), ["S7", "S8"])
        done = lislab("order", "add", "--store", host.store, "--line", "asks", input="sample,tests\nS1,K\n")
        self.same("added", done.returncode, 0)
        self.same("later", samples_of(one.take(300)), ["S1"])
        self.true("sent", wait_for(lambda: set(states(host.store).values()) == {"sent"}), states(host.store))

    def test_command(self):
        """`--query-command` answers. If it fails, is late or writes no message, the host logs that and sends no
        order."""
        answer = "H|\\^&\nP|1\nO|1|S7||^^^X\nL|1\n"
        rows = {
            "answers": (f"import sys; sys.stdin.read(); print({answer!r}, end='')", [b"H", b"P", b"O", b"L"]),
            "fails": ("raise SystemExit(3)", [b"H", b"L"]),
            "no message": ("print('hello')", [b"H", b"L"]),
            "is late": ("import time; time.sleep(120)", [b"H", b"L"]),
        }
        for name, (code, wanted) in rows.items():
            file = self.path(f"{name[:2]}.py")
            with open(file, "w", encoding="utf-8") as out:
                out.write(code)
            host, port = self.started("--query-command", f"{hosts.sys.executable} {file}")
            one = Plain(port, SLOW)
            one.send(query("S7"))
            self.same(name, [row[:1] for row in one.take(400)], wanted)
            if name != "answers":
                self.says(f"{name} is said", host, "returned no orders")
        self.says("why", host, "it took over 5 s")

    def test_a_command_whose_child_hangs(self):
        """A script waits for a program that hangs: the query is answered, and nothing of the script goes on."""
        file, child = self.path("hangs.sh"), self.path("child")
        with open(file, "w", encoding="utf-8") as out:
            out.write(f"cat > {child}.asked; sleep 300 & echo $! > {child}; wait; echo\n")
        host, port = self.started("--query-command", f"sh {file}")
        one = Plain(port, SLOW)
        one.send(query("S7"))
        self.same("answered", [row[:1] for row in one.take(400)], [b"H", b"L"])
        self.says("said", host, "returned no orders: it took over 5 s")
        with open(child, encoding="ascii") as pid:
            gone = f"/proc/{int(pid.read())}"
        self.true("its child is gone", wait_for(lambda: not os.path.exists(gone), 30), gone)

    def test_commands_at_once(self):
        """Of the queries of many lines four programs run at once, and each query is answered."""
        file, folder = self.path("at_once.py"), self.path("at_once")
        os.mkdir(folder)
        with open(file, "w", encoding="utf-8") as out:
            out.write(
                f"import os, sys, time\nmine = os.path.join({folder!r}, str(os.getpid()))\nopen(mine, 'w').close()\n"
                f"time.sleep(1)\nopen({file + '.counts'!r}, 'a').write(str(len(os.listdir({folder!r}))) + ' ')\n"
                "os.unlink(mine)\nprint(sys.stdin.read())\n"
            )

        async def answers():
            site, asked = Site("asks", "x", "latin-1", False, "L-I", "1"), b"".join(query("S7"))
            outbox = Outbox(lambda: self.fail("a store is asked"), [hosts.sys.executable, file], 1, SLOW, print)
            return await asyncio.gather(*(outbox.answer(site, [], asked) for _ in range(8)))

        with unittest.mock.patch("lislab.host.outbox.COMMAND", 600.0):
            found = asyncio.run(answers())
        self.same("answers", [one.batch.texts for one in found], [query("S7")] * 8)
        with open(file + ".counts", encoding="ascii") as counts:
            self.true("four at once", max(map(int, counts.read().split())) <= 4)

    def test_one_command_of_a_connection(self):
        """Of the queries in one text one is asked of the command at once, and each is answered."""
        file, log = self.path("one.py"), self.path("one.log")
        with open(file, "w", encoding="utf-8") as out:
            out.write(f"import sys\nlog = open({log!r}, 'a', buffering=1)\nprint('begins', file=log)\n"
                      "print(sys.stdin.read(), end='')\nprint('ends', file=log)\n")
        _, port = self.started("--query-command", f"{hosts.sys.executable} {file}")
        one = Plain(port, SLOW)
        one.send([b"".join(b"".join(query(f"S{at}")) for at in range(6))])
        told = [row for _ in range(6) for row in one.take(400)]
        self.same("answers", sorted(row.split(b"|")[2] for row in told if row[:1] == b"Q"),
                  [b"^S%d" % at for at in range(6)])
        with open(log, encoding="ascii") as rows:
            self.same("one at once", rows.read().split(), ["begins", "ends"] * 6)

    def test_spool(self):
        """A host with a spool sends the orders that another program leaves in its folder; the status counts them."""
        store = "spool:" + self.path("left")
        host = Host(store, "--listen", "127.0.0.1:0,name=asks,orders=download", listen=False, scale=SLOW)
        self.addCleanup(host.kill)
        port = next(int(row.split()[1].rsplit(":", 1)[1]) for row in host.rows if row.endswith(" asks\n"))
        with open(self.path("left/orders/x.orders"), "wb") as out:
            out.write(b"sample,tests\nS7,K\n")
        one = Plain(port, SLOW)
        self.same("sent", samples_of(one.take(400)), ["S7"])
        self.says("said", host, "orders of x.orders: 1")
        told = lislab("status", "--store", store).stdout
        self.true("status", wait_for(lambda: "1 sent" in lislab("status", "--store", store).stdout), told)

    def test_contention(self):
        """Both ask for the line at once: the analyzer's session comes first, the host's after it."""
        _, port = self.started(line="orders=download")
        one = Plain(port, SLOW)
        self.same("the host asks", one.byte(30), ENQ)
        one.put(ENQ)  # the reply to the host's
        time.sleep(1.0 * SLOW)
        one.send(query("S7"))
        self.true("the host's session", samples_of(one.take()) in (["S7"], ["S7", "S8"], ["S8", "S7"]))

    def test_a_busy_analyzer(self):
        """NAK to the host's ENQ: it asks again after the standard's ten seconds, and what the analyzer sends is heard
        meanwhile."""
        host, port = self.started(line="orders=download")
        one = Plain(port, SLOW)
        self.same("asks", one.byte(30), ENQ)
        began = time.monotonic()
        one.put(NAK)
        one.send([b"H|\\^&\r", b"L|1\r"])
        self.same("sent in the end", samples_of(one.take()), ["S7", "S8"])
        self.true("after the wait", time.monotonic() - began > 5 * SLOW)
        self.true("sent", wait_for(lambda: set(states(host.store).values()) == {"sent"}), states(host.store))

    def test_a_line_that_is_pulled(self):
        """The line goes in mid-session: the order waits, and is sent on the next line."""
        host, port = self.started(orders=("S7",), line="orders=download")
        one = Plain(port, SLOW)
        self.same("asks", one.byte(30), ENQ)
        one.put(ACK)
        while one.byte(15) != b"\n":
            pass
        one.close()
        self.says("it waits", host, "not sent: S7")
        self.same("waiting", states(host.store), {"S7": "waiting"})
        one = Plain(port, SLOW)
        self.same("sent", samples_of(one.take(400)), ["S7"])

    def test_a_host_that_dies(self):
        """A host dies in a session of its own: the next one says which orders an analyzer may have got before."""
        host, port = self.started(orders=("S7", "S8", "S9"), line="orders=download")
        host.words = tuple(word.replace("127.0.0.1:0,", f"127.0.0.1:{port},") for word in host.words)
        one = Plain(port, SLOW)
        self.same("asks", one.byte(30), ENQ)
        one.put(ACK)
        self.same("a frame", one.byte(30), b"\x02")
        host.kill()
        one.close()
        host.start()
        self.says("said", host, "orders 1-3 were being sent when this host died: sent again, perhaps a second")
        one = Plain(port, SLOW)
        self.same("sent", samples_of(one.take(400)), ["S7", "S8", "S9"])
        self.true("marked", wait_for(lambda: set(states(host.store).values()) == {"sent"}), states(host.store))
        listed = lislab("order", "list", "--store", host.store).stdout.splitlines()
        self.true("listed", all(row.endswith(PERHAPS) for row in listed) and len(listed) == 3, listed)

    def test_asked_before_the_line_went(self):
        """The line goes after a query: its answer comes on the next line from there."""
        host, port = self.started()
        one = Plain(port, SLOW)
        one.send(query("S7"))
        self.same("asks", one.byte(30), ENQ)
        one.close()
        self.says("it waits", host, "not sent: S7")
        one = Plain(port, SLOW)
        self.same("answered", samples_of(one.take(400)), ["S7"])

    def test_a_query_that_is_taken_back(self):
        """A query with status A takes the last one back: it isn't answered any more, and its orders wait as before."""
        host, port = self.started()
        one = Plain(port, SLOW)
        one.send(query("S7"))
        self.same("asks", one.byte(30), ENQ)
        one.put(NAK)
        one.send([b"H|\\^&\r", b"Q|1|^S7||||||||||A\r", b"L|1|N\r"])
        with self.assertRaises(Gone):
            one.take(25)
        self.same("it waits", states(host.store), {"S7": "waiting", "S8": "waiting"})
        one.send(query("S7"))
        self.same("asked for anew", samples_of(one.take()), ["S7"])

    def test_last_try(self):
        """After `--tries` an order has failed, with its reason."""
        host, port = self.started("--tries", "1", orders=("S7",), line="orders=download")
        one = Plain(port, SLOW)
        self.same("asks", one.byte(30), ENQ)
        one.put(ACK)
        self.same("a frame", one.byte(30), b"\x02")
        one.close()
        self.true("failed", wait_for(lambda: states(host.store) == {"S7": "failed"}), states(host.store))
        self.says("said", host, "order 1 of sample S7 has failed: the line was closed")

    def test_a_whole_round(self):
        """`lislab send --query`: the orders are printed, and results sent for them."""
        host, port = self.started()
        file = self.path("values.csv")
        with open(file, "w", encoding="utf-8") as out:
            out.write("GLU,5.5,mmol/L\nK,4.1,mmol/L\n")
        to = ["--to", f"127.0.0.1:{port}", "--scale", str(SLOW)]
        done = lislab("send", *to, "--query", "S7", "--results", file)
        self.same("status", done.returncode, 0)
        self.true("orders", "O|1|S7||^^^GLU\\^^^K|" in done.stdout, done.stdout)
        rows = [json.loads(row) for row in lislab("export", "--store", host.store).stdout.splitlines()]
        self.same("messages", len(rows), 2)
        self.true("results", "5.5" in json.dumps(rows[1]), rows[1])
        old = lislab("send", *to, "--ask", "S99")
        self.true("the old name", old.returncode == 0 and "--ask is now --query" in old.stderr, old.stderr)


class Desks(HostTest):
    """What does the work of a store."""

    def test_marks_come_first(self):
        """A mark is done before look-ups that were put before it, and what fails fails alone."""
        desk, begun, goes_on, done = Desk(), threading.Event(), threading.Event(), []

        def first():
            begun.set()
            goes_on.wait(60)

        futures = [desk.put(first, False)]
        begun.wait(60)
        futures += [desk.put(lambda: done.append("look"), False), desk.put(lambda: done.append("mark"), True)]
        futures += [desk.put(lambda: 1 // 0, False), desk.put(lambda: done.append("mark"), True)]
        futures[3].cancel()
        futures.append(desk.put(lambda: 1 // 0, False))
        goes_on.set()
        self.same("fails", type(futures[-1].exception(60)), ZeroDivisionError)
        desk.shut()
        self.same("done", done, ["mark", "mark", "look"])


def line_of(outbox, sent, is_tcp=True):
    """A line with orders, over a wire that takes what is sent."""
    wire = unittest.mock.Mock(is_tcp=is_tcp, write=sent.append)
    intake, committer, observers, fixer = (unittest.mock.Mock(names=frozenset(), bodies={}) for _ in range(4))
    parts = Parts(wire, intake, observers, print, Counter(), fixer, committer, Turns())
    intake.drop.return_value = intake.take.return_value = []
    return TwoWayLine(outbox, Site("asks", "x", "latin-1", True, "L-I", "1"), parts)


class OnSerial(HostTest):
    """Orders on a serial line."""

    def test_a_new_host(self):
        """A host that is new on a serial line lets 16 seconds go by before it asks for the line: a reply to the host
        that was there before has come by then."""
        cable = Cable()
        self.addCleanup(cable.close)
        store = self.path("serial.db")
        book = open_book(store)
        book.add([Order("S7", ("K",))])
        book.close()
        scale, began = 0.3, time.monotonic()
        host = Host(store, "--serial", f"{cable.names[0]}:9600,name=wire,orders=download", listen=False, scale=scale)
        self.addCleanup(host.kill)
        ready, _, _ = select.select([cable.slaves[1]], [], [], 60)
        self.same("asks", os.read(cable.slaves[1], 1) if ready else b"", ENQ)
        self.true("not at once", time.monotonic() - began > 16 * scale)

        async def first(is_tcp):
            with unittest.mock.patch("lislab.host.duplex.clock", lambda: 100.0):
                return line_of(unittest.mock.Mock(), [], is_tcp)._start_at()

        self.same("its first session", [asyncio.run(first(is_tcp)) for is_tcp in (False, True)], [116.0, 100.0])


class Unheard(HostTest):
    """What comes while the store is asked for orders, or a long text is searched for queries."""

    def test_long_text(self):
        """A long text is read in pieces of 1 KiB, and the other lines may have their turn after each; queries are found in
        the records that are stored, each once."""
        text, done, queries = b"H|\\^&\rQ|1|^S1||ALL\rL|1|N\r" * 4000, [], []

        class Noted(Reader):
            def feed(self, data):
                done.append(data)
                return super().feed(data)

        async def runs():
            line = line_of(unittest.mock.Mock(), [])
            keeper, line._asks = line.keeper, queries.append
            keeper.intake = Intake("asks", "x", "latin-1", 1 << 24, time.time)
            keeper.intake.listens(line._asking.note, line._asking.over)
            keeper._committer = unittest.mock.Mock(part=60, put=unittest.mock.AsyncMock())
            keeper._fixer.order.over = unittest.mock.AsyncMock()
            line._share.is_over = line._share.is_behind = lambda: done.append("turn")
            with unittest.mock.patch("lislab.host.intake.Reader", Noted):
                self.same("kept", await line._keep(text), True)

        asyncio.run(runs())
        self.same("queries", (len(queries), {len(rows) for rows in queries}), (4000, {3}))
        self.true("a turn between", all("turn" in pair for pair in zip(done[1:], done[2:])))
        self.true("at most 1 KiB", max(map(len, done)) <= 1024)

    def test_heard_first(self):
        """ENQ comes while the store is asked for orders: it is answered, and the host's own session comes later."""
        sent, batch = [], Batch([b"H|\\^&\r"])
        outbox = unittest.mock.Mock()

        async def nothing(_):
            return None

        async def runs():
            line = line_of(outbox, sent)

            async def take(_):
                line.inbox.add(ENQ, asyncio.get_running_loop().time())
                outbox.take = nothing
                return batch

            outbox.take = take
            task = asyncio.ensure_future(line.run())
            while not sent:
                await asyncio.sleep(0.01)
            line.lost()
            await task

        asyncio.run(asyncio.wait_for(runs(), 60))
        self.same("the first reply", sent, [ACK])
        self.same("given back", [call.args[1] for call in outbox.unsent.call_args_list], [batch])
