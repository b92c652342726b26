"""Orders that have failed: what `lislab status`, `lislab watch` and its pages say of them, as long as nobody did
something about them."""
import re
import threading

from lislab.watch import status
from lislab.model.stores import open_store
from lislab.model.books import open_book
from lislink.order import Order
from lislab.watch.notify import Notifier
from lislab.model.unix import ask
from tests import kit
from tests.host.hosts import Host, HostTest, lislab, wait_for
from tests.host.plain import ACK, ENQ, NAK, Gone, Plain, samples_of
from tests.host.test_orders import SLOW, states
from tests.host.test_postgres import the_server
from tests.host.test_watch import WAIT, port_of
from tests.host.test_watch_page import HOSTILE, SCRIPT, TAGS, Site

#: Names of patients, of which no part may be shown but a letter that can't be written.
NAMES = ("M\u00fcller^Jane", "\u0418\u0432\u0430\u043d\u043e\u0432", "Doe^John")


class Hides:
    """What no one may be shown."""

    def hides(self, text):
        """No patient is named."""
        words = [word for name in NAMES for word in name.split("^") if word in text]
        self.same("patients' names", words, [])


class Named(Hides):
    """What is said of orders that have failed; a subclass has the store."""

    def new(self):
        """A new store's address."""
        raise NotImplementedError

    def seen(self):
        """What the host says of the line."""
        return ask(self.path("state") + ".watch", ask="lines")[0]["lines"]["asks"]

    def watched(self):
        """What `lislab watch --once` prints, and its status."""
        told = lislab("watch", "--store", self.store, "--status", self.path("state"), "--once")
        self.hides(told.stdout)
        return told.stdout, told.returncode

    def started(self):
        """A host whose orders fail: two can't be written, of the third the line is pulled."""
        self.store = self.new()
        book = open_book(self.store)
        book.add([Order(f"S{at}", ("K",), line="asks" if at == 2 else "", name=name)
                  for at, name in enumerate(NAMES, 1)])
        book.close()
        line = "127.0.0.1:0,name=asks,orders=download,encoding=ascii"
        host = Host(self.store, "--status", self.path("state"), "--tries", "1", "--listen", line, "--listen",
                    "127.0.0.1:0,name=other", listen=False, scale=SLOW)
        one = Plain(port_of(host, "asks"), SLOW)
        self.same("asks", one.byte(30), ENQ)
        one.put(ACK)
        one.byte(30)
        one.close()
        failed = {f"S{at}": "failed" for at in (1, 2, 3)}
        self.true("failed", wait_for(lambda: states(self.store) == failed), states(self.store))
        return host

    def test_named(self):
        """Status and watch name them, also without a host and after it starts anew, until they are sent or
        cancelled."""
        host = self.started()
        self.true("seen", wait_for(lambda: "3 orders failed" in self.seen()["says"], WAIT), str(self.seen()))
        told, code = self.watched()
        self.same("status of watch", code, 1)
        self.assertRegex(told, r"asks +bad +once a session of the host failed since \d\d:\d\d: the line was closed; "
                               r"3 orders failed since \d\d:\d\d, the last one is order [123]: ")
        self.assertRegex(told, r"other +quiet ")
        shown = lislab("status", "--store", self.store, "--status", self.path("state")).stdout
        self.has("the count", shown, "orders: 3 failed\n")
        rows = [re.sub(r" \d{4}-\d\d-\d\d \d\d:\d\d:\d\d ", " ", row) for row in shown.splitlines()]
        wanted = [f"  order {at} S{at} asks failed {why}, tried 1" for at, why in (
            (1, "'\u00fc' isn't in ascii"), (2, "'\u0418' isn't in ascii"), (3, "the line was closed"))]
        self.same("each with its reason", sorted(row for row in rows if row.startswith("  order ")), wanted)
        self.hides(shown)
        listed = lislab("order", "list", "--store", self.store, "--state", "failed").stdout
        self.assertRegex(listed, r"order 1 S1 - K failed [-0-9: ]+ on asks: '\u00fc' isn't in ascii, tried 1\n")
        self.assertRegex(listed, r"order 2 S2 asks K failed [-0-9: ]+ '\u0418' isn't in ascii, tried 1\n")
        host.kill()
        told, code = self.watched()
        self.same("without a host: status", code, 1)
        self.assertRegex(told, r"asks +bad +the host isn't running; 0 complete messages; 3 orders failed since ")
        host.start()
        self.true("named again", wait_for(lambda: self.seen()["verdict"] == "failed-orders", WAIT), str(self.seen()))
        self.same("state", self.seen()["state"], "bad")
        self.has("advice", self.seen()["advice"], "lislab order again")
        self.over(host)

    def over(self, host):
        """Two orders are cancelled, the third is sent again: the line is good, and what was wrong is remembered."""
        self.same("cancel", lislab("order", "cancel", "--store", self.store, "1", "2").returncode, 0)
        self.true("one is left", wait_for(lambda: self.seen()["says"].startswith("1 order failed"), WAIT))
        self.same("again", lislab("order", "again", "--store", self.store, "3").returncode, 0)
        self.true("none is left", wait_for(lambda: self.seen()["state"] != "bad", WAIT), str(self.seen()))
        past = [one[2] for one in self.seen()["past"]]
        self.true("remembered", any(one.startswith("1 order failed") for one in past), str(past))
        one = Plain(port_of(host, "asks"), SLOW)
        self.same("sent", samples_of(one.take(400)), ["S3"])
        self.true("it is sent", wait_for(lambda: states(self.store)["S3"] == "sent"), states(self.store))
        one.close()


class NamedOfSqlite(Named, HostTest):
    """Orders in SQLite."""

    def new(self):
        return self.path("named.db")


class NamedOfSpool(Named, HostTest):
    """Orders of a spool."""

    def new(self):
        return "spool:" + self.path("named.spool")


class NamedOfPostgres(Named, HostTest):
    """Orders in PostgreSQL."""

    def new(self):
        return the_server().address("failed")


class Ways(Hides, HostTest):
    """Each way in which an order fails, and how much is said of many."""

    def test_ways(self):
        """The line is pulled, the analyzer is busy, asks for the line each time, rejects a frame six times, or doesn't
        reply: each line says why."""
        store = self.path("ways.db")
        ways = {"pulled": "the line was closed", "busy": "the analyzer is busy",
                "asks": "the analyzer asks for the line, too, and sends nothing",
                "rejects": "a frame was rejected six times", "silent": "no reply came in time"}
        book = open_book(store)
        book.add([Order(f"S{name}", ("K",), line=name) for name in ways])
        book.close()
        words = [word for name in ways for word in ("--listen", f"127.0.0.1:0,name={name},orders=download")]
        host = Host(store, "--tries", "1", *words, listen=False, scale=SLOW)
        lines = {name: Plain(port_of(host, name), SLOW) for name in ways}
        work = [threading.Thread(target=self.plays, args=(name, one)) for name, one in lines.items()]
        for one in work:
            one.start()

        def says(name):
            return ask(store + ".watch", ask="lines")[0]["lines"][name]["says"]

        for number, (name, why) in enumerate(ways.items(), 1):
            wanted = f"the last one is order {number}: {why}"
            self.true(f"{name}: watch", wait_for(lambda: wanted in says(name), WAIT), says(name))
            self.has(f"{name}: status", lislab("status", "--store", store).stdout, f" {why}, tried 1\n")
        host.kill()
        for one in work:
            one.join()

    @staticmethod
    def plays(name, one):
        """An analyzer of this kind, until the line is closed."""
        replies = {"pulled": {ENQ: ACK}, "busy": {ENQ: NAK}, "rejects": {ENQ: ACK, b"\n": NAK}, "asks": {ENQ: ENQ},
                   "silent": {}}
        try:
            while True:
                byte = one.byte(600)
                if name == "pulled" and byte != ENQ:
                    break
                if byte in replies[name]:
                    one.put(replies[name][byte])
        except Gone:
            pass
        one.close()

    def test_many(self):
        """Of each line the last twenty are named, and the others counted."""
        store = self.path("many.db")
        book = open_book(store)
        book._clock = lambda: 1000.0
        book.add([Order(f"S{at}", ("K",), line="fire" if at > 25 else "water") for at in range(1, 28)])
        for at in range(1, 28):
            book._clock = lambda at=at: 1000.0 + at
            book.tried("fire" if at > 25 else "water", [at], "why", 1, 0)
        book.close()
        one = open_store(store)
        data = status.data_of(one, {}, [])
        one.close()
        numbers = {line: [each["number"] for each in found["newest"]] for line, found in data["failed_orders"].items()}
        self.same("numbers", numbers, {"fire": [27, 26], "water": list(range(25, 5, -1))})
        rows = status.text_of(data).splitlines()
        at = rows.index("orders: 27 failed")
        self.same("rows", len(rows[at:]), 1 + 2 + 20 + 1)
        self.same("the rest", rows[-1], "  and 5 more of water: lislab order list --state failed")

    def test_notify(self):
        """A line with orders that have failed turns bad by something else: the command is run for that, too."""
        one, said = Notifier([], lambda text: None), []
        one._add = lambda name, state, verdict, says: said.append(f"{state} {verdict}")
        for verdict in ("failed-orders", "failed-orders", "sum", "sum", "failed-orders", "echo", "complete"):
            state = "good" if verdict == "complete" else "bad"
            one.see({"running": True, "lines": {"a": {"state": state, "verdict": verdict, "says": ""}}})
        self.same("what is run", said, ["bad failed-orders", "bad sum", "bad echo", "good complete"])

    def test_pages(self):
        """The page of a line lists them, as text; metrics count orders by state, and need no store for what a host
        says."""
        store = self.path("pages.db")
        one = open_store(store)
        one.start("h")
        one.close()
        book = open_book(store)
        book.add([Order(name[:300], ("K", SCRIPT), line="fire", name=NAMES[0]) for name in HOSTILE])
        book.add([Order("S1", ("K",), line="water")])
        for at, name in enumerate(HOSTILE, 1):
            book.tried("fire", [at], name[:300], 1, 0)
        book.cancel(len(HOSTILE))
        book.close()
        site = Site(store)
        self.addCleanup(site.close)
        for path in ("/", "/line?name=fire"):
            code, _, text = site.get(path)
            found = kit.Page(text)
            self.same(f"{path}: status", code, 200)
            self.has(f"{path}: why", found.text, f"{len(HOSTILE) - 1} orders failed since ")
            self.same(f"{path}: tags", sorted(found.tags - TAGS), [])
            self.hides(found.text)
        self.has("the last ones", found.text, "Failed orders")
        self.same("each of them", sum(f"<td>{at}</td>" in text for at in range(1, len(HOSTILE))), len(HOSTILE) - 1)
        self.true("as text", found.text.count(SCRIPT) > len(HOSTILE), found.text[-500:])
        rows = site.get("/metrics")[2].splitlines()
        found = [row for row in rows if row.startswith("lislab_orders{")]
        self.same("metrics", found, ['lislab_orders{state="waiting"} 1', 'lislab_orders{state="sent"} 0',
                                     'lislab_orders{state="done"} 0',
                                     f'lislab_orders{{state="failed"}} {len(HOSTILE) - 1}',
                                     'lislab_orders{state="cancelled"} 1'])
        host = Host(self.path("up.db"), scale=1.0)
        gone = Site(self.path("gone.db"), host.store + ".watch", cursors=(self.path("no cursor"),))
        self.addCleanup(gone.close)
        code, _, text = gone.get("/metrics")
        self.same("without the store", (code, "lislab_up 1\n" in text, "lislab_orders{" in text), (200, True, False))

    def test_help(self):
        """What the states of orders mean is said where they are listed."""
        told = " ".join(lislab("order", "list", "--help").stdout.split())
        for words in ("waiting until it is sent", "sent when the analyzer has acknowledged", "failed, with the reason",
                      "cancelled and not sent"):
            self.has(words, told, words)

    def test_queries(self):
        """The status shows how many of a line's messages ask for orders."""
        store = self.path("queries.db")
        host = Host(store, "--listen", "127.0.0.1:0,name=asks,orders=query,none=silence", listen=False, scale=SLOW)
        one = Plain(port_of(host, "asks"), SLOW)
        for records in ([b"H|\\^&\r", b"Q|1|^S7||^^^ALL\r", b"L|1|N\r"], [b"H|\\^&\r", b"P|1\r", b"L|1|N\r"]):
            one.send(records)

        def counts():
            rows = [row.split() for row in lislab("status", "--store", store).stdout.splitlines()]
            heads = next(row for row in rows if row[:1] == ["line"])
            row = dict(zip(heads, next((row for row in rows if row[:1] == ["asks"]), [])))
            return row.get("complete"), row.get("queries")

        self.true("counts", wait_for(lambda: counts() == ("2", "1")), str(counts()))
        one.close()
