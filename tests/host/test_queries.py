"""Queries as analyzers ask them: whose sample, answers as a whole and again, and what goes wrong on the way."""
import asyncio
import json
import os
import re
import socket
import sqlite3
import time

from lislab.host.outbox import Outbox, Site
from lislab.model.store import StoreError
from lislab.model.asks import Asks
from lislab.model.books import open_book
from lislink.order import Order
from lislab.model.query import query_of
from lislink.records import messages
from lislab.model.unix import ask
from tests.host import hosts
from tests.host.hosts import Host, HostTest, lislab, until, wait_for
from tests.host.plain import ACK, ENQ, EOT, NAK, Gone, Plain, is_good, samples_of
from tests.host.test_orders import SLOW, states

#: Makers' queries as their published interface manuals describe them, from memory and not compared with the manuals:
#: the settings of the line, Q-3, and what the answer's order has in O-3 and O-4.
MAKERS = {
    "Sysmex": ("query-sample = 3\necho = O.3\n", b"2001^05^           S123^B", b"2001^05^           S123^B", b""),
    "Roche": ("query-sample = 3\necho = O.4:4\n", b"^^                  S123^12^50001^1^^S1^SC", b"S123",
              b"12^50001^1^^S1^SC"),
    "Abbott": ("", b"^S123", b"S123", b""),
    "Beckman": ("query-sample = 2\n", b"^S123^1^2", b"S123", b""),
}


def asked(sample, more=b""):
    """The records of a query with this as its Q-3."""
    return [b"H|\\^&|||plain\r", b"Q|1|" + sample + b"||ALL||||||||" + more + b"\r", b"L|1|N\r"]


def results(*rows):
    """The records of results: of a sample, tests."""
    found = [b"H|\\^&\r", b"P|1\r"]
    for sample, *tests in rows:
        found.append(b"O|1|%s\r" % sample.encode())
        found += [b"R|1|^^^%s|5\r" % test.encode() for test in tests]
    return [*found, b"L|1|N\r"]


class Rejects(Plain):
    """An analyzer that rejects each frame that holds some bytes."""

    def takes_but(self, bad):
        """Takes sessions for as long as some come: the samples of those that ended well."""
        good, rows, number, data = [], [], 1, b""
        while True:
            try:
                data += self.byte(120)
            except Gone:
                return good
            if data == ENQ:
                rows, number, data = [], 1, b""
                self.put(ACK)
            elif data == EOT:
                good += samples_of(rows) if rows and rows[-1][:1] == b"L" else []
                rows, data = [], b""
            elif data.endswith(b"\n"):
                taken = is_good(data, number) and bad not in data
                rows, number = ([*rows, data[2:-5]], number + 1) if taken else (rows, number)
                self.put(ACK if taken else NAK)
                data = b""


class Queries(HostTest):
    """Queries over a real line."""

    def started(self, settings="", orders=("S123", "S7"), way="query", tests=("GLU", "K"), words=()):
        """A host with a line of these settings and with orders, and its port."""
        name = str(time.monotonic_ns())
        store, lines = self.path(f"{name}.db"), self.path(f"{name}.lines")
        book = open_book(store)
        book.add([one if isinstance(one, Order) else Order(one, tests) for one in orders])
        book.close()
        with open(lines, "w", encoding="utf-8") as out:
            out.write(f"[asks]\nlisten = 127.0.0.1:0\norders = {way}\n{settings}")
        host = Host(store, "--lines", lines, *words, listen=False, scale=SLOW)
        self.addCleanup(host.kill)
        return host, next(int(row.split()[1].rsplit(":", 1)[1]) for row in host.rows if row.endswith(" asks\n"))

    def test_makers(self):
        """The sample of a query is where its line's setting says, and what is next to it comes back where another one
        says; the order for the tube with the rack's position stays."""
        for name, (settings, sample, wanted, beside) in MAKERS.items():
            host, port = self.started(settings, ("05", "12", "S123"))
            one = Plain(port, SLOW)
            one.send(asked(sample))
            rows = [row.split(b"|") for row in one.take() if row.startswith(b"O|")]
            self.same(name, [row[2:4] for row in rows], [[wanted, beside]])
            self.true(f"{name}: no other", wait_for(lambda: states(host.store) == {
                "05": "waiting", "12": "waiting", "S123": "sent"}), str(states(host.store)))
            one.send(asked(sample))
            self.same(f"{name}: again", len(samples_of(one.take())), 1)
            one.send(asked(b"ALL"))
            self.same(f"{name}: ALL isn't allowed", [row[:5] for row in one.take()], [b"H|\\^&", b"L|1|I"])
            one.send(asked(b"^^NONE" if "3" in settings else b"^NONE"))
            self.same(f"{name}: none", one.take()[-1], b"L|1|I\r")
            one.send([b"H|\\^&\r", b"Q|1|" + sample + b"||||||||||A\r", b"L|1|N\r"])
            with self.assertRaises(Gone):
                one.take(15)
            self.same(f"{name}: taken back", states(host.store)["S123"], "sent")
            one.close()

    def test_plays(self):
        """The plays of `samples/makers/queries`, each against a host with its section of the file of lines."""
        folder = "samples/makers"
        with open(f"{folder}/makers.lines", encoding="ascii") as file:
            sections = re.split(r"(?m)^(?=\[)", file.read())[1:]
        names = sorted(name[:-5] for name in os.listdir(f"{folder}/queries"))
        self.same("plays", names, ["architect", "cobas", "dxi", "xn"])
        for name in names:
            section = next(one for one in sections if one.startswith(f"[{name}]"))
            keys = [row for row in section.splitlines() if re.match("query-|echo|test", row)]
            _, port = self.started("".join(f"{row}\n" for row in keys), ("05", "12", "S123"), tests=("WBC", "RBC"))
            words = ["--to", f"127.0.0.1:{port}", "--scale", str(SLOW), "--within", "120"]
            done = lislab("play", f"{folder}/queries/{name}.play", *words)
            self.true(name, done.returncode == 0 and "differences 0" in done.stdout, done.stdout + done.stderr)

    def test_an_unread_barcode(self):
        """A query without a sample gets none, also where ALL is allowed."""
        _, port = self.started("query-all = yes\n")
        one = Plain(port, SLOW)
        for text in (b"^", b"", b"^^"):
            one.send(asked(text))
            self.same(f"Q-3 {text.decode()}", [row[:5] for row in one.take()], [b"H|\\^&", b"L|1|I"])
        one.send(asked(b"ALL"))
        self.same("ALL", samples_of(one.take()), ["S123", "S7"])

    def test_nothing_found(self):
        """Five queries in a row without an order make a line bad, also one on which nothing is sent then; one with an
        order makes it good again."""
        for none in ("L-I", "silence"):
            state = self.path(f"{none}.state")
            host, port = self.started(f"none = {none}\n", words=("--status", state))

            def seen(state=state):
                """What is said of the line."""
                return ask(state + ".watch", ask="lines")[0]["lines"]["asks"]

            one = Plain(port, SLOW)
            for at in range(1, 6):
                wait_for(lambda at=at: (seen()["state"] == "quiet") == (at == 1))
                self.same(f"{none}: before query {at}", seen()["state"], "quiet" if at == 1 else "good")
                one.send(asked(b"^NONE"))
                if none == "L-I":
                    self.same(f"query {at}", one.take()[-1], b"L|1|I\r")
            self.true(f"{none}: it is bad", wait_for(lambda: seen()["verdict"] == "no-orders"), str(seen()))
            self.has(f"{none}: what is said", seen()["says"], "5 times in a row since ")

            def counts(host=host, state=state):
                """Queries, and those that found nothing, as `status` has them."""
                done = lislab("status", "--store", host.store, "--status", state, "--json")
                return [(row["queries"], row["found_nothing"]) for row in json.loads(done.stdout)["lines"]]

            self.true(f"{none}: counted", wait_for(lambda: counts() == [(5, 5)]), str(counts()))
            one.send(asked(b"^S7"))
            self.same(f"{none}: an order", samples_of(one.take()), ["S7"])
            self.true(f"{none}: it is good", wait_for(lambda: seen()["state"] == "good"), str(seen()))

    def test_an_answer_is_whole(self):
        """What one message asks for is one session, also of many orders: urgent ones first, and F at its end."""
        names = [f"S{at:03}" for at in range(120)]
        host, port = self.started("", [*names, Order("URGENT", ("K",), priority="S")])
        one = Plain(port, SLOW)
        queries = [b"Q|%d|^%s\r" % (at, name.encode()) for at, name in enumerate([*names, "URGENT", "S999"], 1)]
        one.send([b"H|\\^&\r", *queries, b"L|1|N\r"])
        rows = one.take()
        self.same("samples", samples_of(rows), ["URGENT", *names])
        self.same("its end", rows[-1], b"L|1|F\r")
        self.true("sent", wait_for(lambda: set(states(host.store).values()) == {"sent"}), host.says())

    def test_done(self):
        """An order answers again until a result of each of its tests has come; `order list` shows what is owed."""
        host, port = self.started()
        one = Plain(port, SLOW)
        one.send(asked(b"^S123"))
        self.same("first", samples_of(one.take()), ["S123"])
        one.send(results(("S123", "GLU"), ("S7", "K")))

        def owed():
            rows = lislab("order", "list", "--store", host.store, "--owed").stdout.splitlines()
            return [(row.split()[2], row.rpartition("no result of ")[2]) for row in rows]

        self.true("owed", wait_for(lambda: owed() == [("S123", "K")]), str(owed()))
        one.send(asked(b"^S123"))
        self.same("again", samples_of(one.take()), ["S123"])
        self.true("marked", wait_for(lambda: owed() == [("S123", "K")]), str(owed()))
        one.send(results(("S123", "K")))
        self.true("done", wait_for(lambda: states(host.store) == {"S123": "done", "S7": "waiting"}), host.says())
        one.send(asked(b"^S123"))
        self.same("no more", one.take()[-1], b"L|1|I\r")

    def test_codes(self):
        """An order has the laboratory's codes; the analyzer gets its own, by the line's table, and gives them back."""
        table = self.path("orders.codes")
        with open(table, "w", encoding="utf-8") as out:
            out.write("analyzer,laboratory,line\nGLU,2345-7,asks\n^^^K^*,2823-3,\nNA,leave out,\nGLU2,2345-7,other\n")
        host, port = self.started(f"codes = {table}\n", ("S123",), tests=("2345-7", "2823-3", "CL"))
        one = Plain(port, SLOW)
        one.send(asked(b"^S123"))
        rows = [row.split(b"|") for row in one.take() if row.startswith(b"O|")]
        self.same("its codes", [row[4] for row in rows], [b"^^^GLU\\^^^K\\^^^CL"])
        self.true("sent", wait_for(lambda: states(host.store) == {"S123": "sent"}), host.says())
        one.send(results(("S123", "GLU", "K", "CL")))
        self.true("done", wait_for(lambda: states(host.store) == {"S123": "done"}), host.says())

    def test_a_store_that_gives_no_answer(self):
        """A query that can't be looked up isn't answered that there is no order; asked again, it is."""
        host, port = self.started()
        one = Plain(port, SLOW)
        db = sqlite3.connect(host.store, timeout=300)
        db.execute("ALTER TABLE orders RENAME TO away")
        one.send(asked(b"^S123"))
        self.same("an error", [row[:5] for row in one.take(600)], [b"H|\\^&", b"L|1|Q"])
        db.execute("ALTER TABLE away RENAME TO orders")
        db.close()
        one.send(asked(b"^S123"))
        self.same("its order", samples_of(one.take()), ["S123"])

    def test_two_analyzers(self):
        """Two analyzers ask for one sample: each gets an answer. One from the same address may be the first one, whose
        connection is gone without a word: it gets no such answer before that session is over."""
        _, port = self.started()
        one, two = Plain(port, SLOW), Plain(port, SLOW)
        three = Plain(port, SLOW, line=socket.create_connection(("127.0.0.1", port), 10, ("127.0.0.9", 0)))
        one.send(asked(b"^S123"))
        self.same("the first one's answer begins", one.byte(30), ENQ)
        three.send(asked(b"^S123"))
        self.same("from elsewhere", [row[:5] for row in three.take()], [b"H|\\^&", b"L|1|I"])
        two.send(asked(b"^S123"))
        self.same("from there, once the first one's is over", samples_of(two.take(200)), ["S123"])

    def test_an_answer_waits(self):
        """The line goes before the answer: it comes over the next one, also that there is no order."""
        for sample in ("S123", "S9"):
            host, port = self.started()
            one = Plain(port, SLOW)
            one.send(asked(b"^" + sample.encode()))
            self.same(f"{sample}: asks", one.byte(30), ENQ)
            one.close()
            wait_for(lambda host=host: ": closed by the other end" in host.says())
            one = Plain(port, SLOW)
            rows = one.take(400)
            wanted = (["S123"], b"L|1|F") if sample == "S123" else ([], b"L|1|I")
            self.same(sample, (samples_of(rows), rows[-1][:5]), wanted)

    def test_a_monitor(self):
        """Somebody who connects and goes without a byte is no try of an order."""
        host, port = self.started("", ("S7",), "download", words=("--tries", "2"))
        for _ in range(5):
            with socket.create_connection(("127.0.0.1", port), 10) as line:
                line.settimeout(60)
                self.same("asks", line.recv(1), ENQ)
        one = Plain(port, SLOW)
        self.same("sent", samples_of(one.take(400)), ["S7"])

    def test_a_rejected_order(self):
        """An order that the analyzer rejects takes no other along."""
        host, port = self.started("", ("BAD", "S1", "S2", "S3", "S4"), "download", words=("--tries", "1"))
        one = Rejects(port, SLOW)
        wanted = {"BAD": "failed", **{f"S{at}": "sent" for at in range(1, 5)}}
        self.same("taken", sorted(one.takes_but(b"|BAD|")), ["S1", "S2", "S3", "S4"])
        self.true("states", wait_for(lambda: states(host.store) == wanted), str(states(host.store)))

    def test_a_command_of_a_line(self):
        """`query-command = COMMAND` answers on its line, and knows which it is; other lines use the store."""
        file, store, lines = self.path("asked.py"), self.path("command.db"), self.path("command.lines")
        with open(file, "w", encoding="utf-8") as out:
            out.write("import os\nprint('H|\\\\^&\\nP|1\\nO|1|' + os.environ['LISLAB_LINE'] + '||^^^K\\nL|1|F')\n")
        with open(lines, "w", encoding="utf-8") as out:
            out.write(f"[roche]\nlisten = 127.0.0.1:0\norders = query\nquery-command = {hosts.sys.executable} {file}\n"
                      "[other]\nlisten = 127.0.0.1:0\norders = download\n")
        book = open_book(store)
        book.add([Order("S1", ("K",))])
        book.close()
        host = Host(store, "--lines", lines, listen=False, scale=SLOW)
        self.addCleanup(host.kill)
        rows = [row.split() for row in host.rows if row.startswith("listening")]
        ports = {name: int(where.rsplit(":", 1)[1]) for _, where, name in rows}
        one = Plain(ports["roche"], SLOW)
        one.send(asked(b"^S1"))
        self.same("the command's", samples_of(one.take(400)), ["roche"])
        self.same("the store's", samples_of(Plain(ports["other"], SLOW).take(400)), ["S1"])
        with open(lines, "w", encoding="utf-8") as out:
            out.write("[roche]\nlisten = 127.0.0.1:0\norders = download\nquery-command = cat\n")
        done = lislab("serve", "--store", store, "--lines", lines)
        self.same("a line that downloads has none", (done.returncode, "query-command only answers" in done.stderr), (2, True))

    @staticmethod
    def played(store, play):
        """What a coroutine function finds that gets an outbox with the orders S1 to S3, and connections 1 to 4 from one
        address."""
        book = open_book(store)
        book.add([Order(f"S{at}", ("K",)) for at in (1, 2, 3)])
        book.close()

        async def run():
            outbox = Outbox(lambda: open_book(store, "one"), [], 9, SLOW, lambda text: None)
            await outbox.start()
            asks = Asks(sample=3, echo=(4, 4))
            try:
                sites = [Site("asks", "x", "latin-1", False, "L-I", str(at), asks) for at in range(5)]
                return await play(outbox, sites)
            finally:
                await outbox.stop()

        return asyncio.run(run())

    @staticmethod
    async def asks(outbox, site, *samples, status=b""):
        """The answer to a query for samples, each in a rack and at a position that have its number."""
        names = b"\\".join(b"^^%s^%s^r" % (one.encode(), one[1:].encode()) for one in samples)
        rows = next(messages([b"".join(asked(names, status))]))
        return await outbox.answer(site, [query_of(rows[1], "latin-1", site.asks)], b"")

    @staticmethod
    async def marked(outbox):
        """Returns once the store has what the outbox began to mark."""
        await until(lambda: not outbox._work.all - {outbox._looking})

    @staticmethod
    async def places(outbox, site):
        """What is sent on a connection next, and the sample and the place of each order in it."""
        batch = await outbox.take(site)
        rows = [text.split(b"|") for text in (batch.texts if batch else ()) if text[:1] == b"O"]
        return batch, {row[2].decode(): row[3].decode() for row in rows}

    def test_another_connection(self):
        """Of two connections from one place the one that has no orders of its own says nothing of the other's; nor does
        the other one while its order waits for the next try."""
        async def play(outbox, lines):
            first = await self.asks(outbox, lines[1], "S1")
            (other, _), (own, _) = await self.places(outbox, lines[2]), await self.places(outbox, lines[1])
            outbox.failed(lines[1], own, "no reply")
            return first, other, samples_of(own.texts), await outbox.take(lines[1])

        found = self.played(self.path("seats.db"), play)
        self.same("in the store, the other's, its own, between two tries", found, ((None, True), None, ["S1"], None))

    def test_beside_of_several(self):
        """Each of several analyzers of one address gets the rack and the position that it asked with: also after a
        try that failed, after a second question, and over a new connection."""
        def woken(asked, line):
            """The first connection looks by itself."""

        async def play(outbox, lines):
            outbox.wakes(woken)
            await self.asks(outbox, lines[1], "S1")
            await self.asks(outbox, lines[2], "S2")
            await self.asks(outbox, lines[1], "S3")
            (first, one), (_, two) = await self.places(outbox, lines[1]), await self.places(outbox, lines[2])
            outbox.unsent(lines[1], first)
            await self.marked(outbox)
            again, unsent = await self.places(outbox, lines[1])
            outbox.failed(lines[1], again, "no reply", True)
            await self.marked(outbox)
            half, lot = await self.places(outbox, lines[1])
            outbox.unsent(lines[1], half)
            outbox.forget(lines[1], woken)
            await self.marked(outbox)
            return one, two, unsent, lot, (await self.places(outbox, lines[3]))[1]

        both = {"S1": "1^r", "S3": "3^r"}
        found = self.played(self.path("beside.db"), play)
        self.same("as they asked, not sent, in lots, over a new connection", found,
                  (both, {"S2": "2^r"}, both, {"S1": "1^r"}, {"S1": "1^r"}))

    def test_left_in_the_end(self):
        """The store gives no answer when a connection is over: what was asked for over it is sent over the next one,
        once the store does."""
        def woken(asked, line):
            """The first connection looks by itself."""

        async def play(outbox, lines):
            outbox.wakes(woken)
            await self.asks(outbox, lines[1], "S1")
            leave, tries = outbox._book.leave, []

            def fails(seat):
                tries.append(seat)
                if len(tries) == 1:
                    raise StoreError("it is away")
                leave(seat)

            outbox._book.leave = fails
            outbox.forget(lines[1], woken)
            await until(lambda: len(tries) > 1)
            return (await self.places(outbox, lines[2]))[1]

        self.same("what is sent", self.played(self.path("left.db"), play), {"S1": "1^r"})

    def test_taken_back_by_one(self):
        """One of several analyzers of one address takes its query back: what the others asked for is sent."""
        async def play(outbox, lines):
            await self.asks(outbox, lines[1], "S1")
            await self.asks(outbox, lines[2], "S2")
            await outbox.take_back(lines[2], [])
            return (await self.places(outbox, lines[1]))[1], (await self.places(outbox, lines[2]))[1]

        self.same("what is sent", self.played(self.path("back.db"), play), ({"S1": "1^r"}, {}))

    def test_an_answer_of_another(self):
        """An answer that waits goes to who connects after the one that asked, not to who was there before."""
        async def play(outbox, lines):
            nothing = (await self.asks(outbox, lines[2], "S9")).batch
            outbox.unsent(lines[2], nothing)
            before, after = await outbox.take(lines[1]), await outbox.take(lines[3])
            return nothing.texts[-1], before, after == nothing, await outbox.take(lines[4])

        self.same("who gets it", self.played(self.path("another.db"), play), (b"L|1|I\r", None, True, None))

    def test_hl7(self):
        """`order add` names HL7 when it is given some, and what takes orders."""
        done = lislab("order", "add", "--store", self.path("hl7.db"), input="MSH|^~\\&|LIS|||\rPID|1\r")
        self.true("named", "this is HL7" in done.stderr and "CSV" in done.stderr, done.stderr)
        self.same("status", (done.returncode, os.path.exists(self.path("hl7.db"))), (1, False))

    def test_settings(self):
        """Settings of queries that can't be."""
        rows = {"query-sample = 0": "component of Q-3", "echo = O.5": "O.3 or O.4", "again = soon": "expected a time",
                "query-all = maybe": "yes or no", "ask =": "expected a command"}
        for row, wanted in rows.items():
            lines = self.path("wrong.lines")
            with open(lines, "w", encoding="utf-8") as out:
                out.write(f"[x]\nlisten = 127.0.0.1:0\norders = query\n{row}\n")
            done = lislab("serve", "--store", self.path("wrong.db"), "--lines", lines)
            self.true(row, wanted in done.stderr and f"{lines}:4:" in done.stderr, done.stderr)
        with open(lines, "w", encoding="utf-8") as out:
            out.write("[x]\nlisten = 127.0.0.1:0\nagain = 2h\n")
        done = lislab("serve", "--store", self.path("wrong.db"), "--lines", lines)
        self.true("no orders", "has orders = query or download" in done.stderr, done.stderr)
