"""How deliveries do, as `lislab watch`, the pages, the metrics and `--notify` say it."""
import json
import os
import re
import signal
import sys
import time
import unittest.mock

from lislab.model.stores import open_store
from lislab.watch import client, metrics, notify, page, plot
from lislab.watch.deliveries import deliveries_of
from lislab.watch.tally import Tally
from lislab.watch.web import Pages
from tests.host.hosts import Host, HostTest, lislab, process, wait_for
from tests.host.test_quarantine import TAKER, keep, records
from tests.host.test_deliver import RACK
from tests.host.test_told import message


class Deliveries(HostTest):
    """Rows of deliveries."""

    def rows(self, store, cursor):
        """The rows of a delivery now."""
        one = open_store(store)
        try:
            return {name: (row["state"], row["verdict"], row["says"]) for name, row in
                    deliveries_of(one, [cursor]).items()}
        finally:
            one.close()

    @staticmethod
    def told(store, cursor):
        """Why nothing goes, as `lislab status` has it."""
        done = lislab("status", "--store", store, "--cursor", cursor, "--json")
        return json.loads(done.stdout)["undelivered"][0]["why"]

    def test_rows(self):
        """A delivery that isn't there, fails, goes on again, is stopped, has a quarantine."""
        store, cursor, bad = self.path("rows.db"), self.path("rows.cursor"), self.path("rows.bad")
        twice = message("P|1", "O|1|S", "R|1|^^^A|1", "R|2|^^^A|2")
        keys = keep(store, [records(["A"]), RACK, twice])
        name = "delivery rows.cursor"
        state, verdict, says = self.rows(store, cursor)[name]
        self.same("it isn't there", (state, verdict, says),
                  ("bad", "delivery-down", "the delivery isn't running; 3 messages not delivered"))
        with open(bad, "w", encoding="ascii") as file:
            file.write(keys[0])
        words = ["deliver", "--store", store, "--cursor", cursor, "--format", "oru", "--", sys.executable, "-c", TAKER,
                 self.path("rows.taken"), bad]
        one = process(["-m", "lislab", *words])
        self.true("it fails", wait_for(lambda: os.path.exists(cursor + ".state"), 30))
        state, verdict, says = self.rows(store, cursor)[name]
        self.same("so it is bad", (state, verdict), ("bad", "delivery-fails"))
        self.has("since when, why, how many", re.sub(r"\d\d:\d\d(:\d\d)?", "TIME", says),
                 "nothing goes since TIME: nothing is delivered as long as this holds: ")
        self.has("how many", says, "; 3 messages not delivered")
        self.has("status has the same reason", says, f": {self.told(store, cursor)}; 3 messages not delivered")
        os.unlink(bad)
        self.true("it goes on", wait_for(lambda: self.rows(store, cursor)[name][0] == "good", 60))
        self.same("status has no reason any more", self.told(store, cursor), "")
        self.true("what is to be looked at is counted", wait_for(
            lambda: "1 test twice in an order, with different values" in self.rows(store, cursor)[name][2], 60))
        rows = self.rows(store, cursor)
        self.same("what is in quarantine is a row", rows[f"{name}: quarantine"][:2], ("bad", "quarantined"))
        self.has("why", rows[f"{name}: quarantine"][2], "1 message in quarantine; message 2: order, record 3 of the message")
        one.send_signal(signal.SIGTERM)
        one.wait(30)
        self.same("stopped with nothing left to do", self.rows(store, cursor)[name][0], "quiet")
        done = lislab("watch", "--store", store, "--once", "--cursor", cursor)
        self.has("watch", done.stdout, f"{name}: quarantine  bad    1 message in quarantine")

    def test_another_store(self):
        """A cursor that is ahead of the store, or of another one, is bad: in deliver's own words, of all who show
        it."""
        ahead, other = (9_999_999_999_999_999, f"{7:016x}"), (1, "f" * 16)
        for kind, store, (number, key) in (
            ("SQLite, ahead", self.path("ahead.db"), ahead),
            ("SQLite, another", self.path("other.db"), other),
            ("spool, ahead", "spool:" + self.path("ahead.spool"), ahead),
        ):
            with self.subTest(kind):
                self.another_store(store, number, key)

    def another_store(self, store, number, key):
        """A cursor with this message, which the store hasn't."""
        keep(store, [records(["A"]), RACK])
        cursor, good = self.path("wrong.cursor"), self.path("good.cursor")
        with open(cursor, "w", encoding="ascii") as file:
            json.dump({"number": number, "key": key}, file)
        why = f"{cursor}: the store hasn't message {number} {key}: was it restored, or is it another store's cursor?"
        words = ["--store", store, "--cursor", cursor]
        done = lislab("deliver", *words, "--once", "--directory", self.path("wrong"))
        self.same("deliver", (done.returncode, done.stderr), (3, f"lislab: {why}\n"))
        self.same("its row", self.rows(store, cursor), {"delivery wrong.cursor": ("bad", "delivery-fails", why)})
        host = Host(store)
        done = lislab("watch", *words, "--once")
        self.same("watch", (done.returncode, done.stdout.split("\n")[-2]), (1, f"delivery wrong.cursor  bad    {why}"))
        for one, status in ((cursor, 1), (good, 0)):
            done = lislab("status", "--store", store, "--cursor", one)
            self.same(f"status of {one}", (done.returncode, why in done.stdout.split("\n")), (status, status == 1))
        self.same("as data", self.told(store, cursor), why)
        with open(good + ".state", "w", encoding="ascii") as file:
            json.dump({"since": 1.0, "why": "it fails", "counts": {}}, file)
        done = lislab("status", "--store", store, "--cursor", good)
        self.same("status of one that fails", (done.returncode, done.stdout.split("\n")[-2][-10:]), (1, "; it fails"))
        os.unlink(good + ".state")
        pages = Pages(client.Host(store, None, [cursor, good]), [cursor, good])
        found = pages.answer("/metrics", {}).text
        self.has("metrics", found, 'lislab_delivery_bad{delivery="delivery wrong.cursor"} 1\n')
        self.true("it isn't known how many wait", f'cursor="{cursor}"' not in found, found)
        self.has("of the other it is", found, f'lislab_undelivered_messages{{cursor="{good}"}} 2\n')
        self.has("the page", pages.answer("/", {}).text, page.safe(why))
        self.same("the host's status", host.stop(), 0)

    def test_shown(self):
        """Pages, metrics and notices have them."""
        bad = {"state": "bad", "verdict": "delivery-fails", "since": 1.0, "says": "<b> nothing goes", "advice": ""}
        data = {"running": True, "held": True, "why": "", "lines": {}, "deliveries": {"delivery lis": bad}, "begun": 1,
                "commits": 0, "failed_commits": 0, "refused_connections": 0}
        self.true("it is bad", client.is_bad(data))
        self.same("a row", client.rows_of(data), ["delivery lis  bad    <b> nothing goes"])
        self.has("a page", page.lines_page(data, Tally(""), {}), "<td><bdi>delivery lis</bdi></td>")
        self.has("its text is text", page.lines_page(data, Tally(""), {}), "&lt;b&gt; nothing goes")
        self.has("metrics", metrics.metrics_of(data, {}, {}), 'lislab_delivery_bad{delivery="delivery lis"} 1')
        said, path = [], self.path("notified")
        code = "import os, sys; open(sys.argv[1], 'a').write(os.environ['LISLAB_LINE'] + os.environ['LISLAB_STATE'])"
        one = notify.Notifier([sys.executable, "-c", code, path], said.append)
        for state in ("bad", "bad", "good"):
            one.see({**data, "deliveries": {"delivery lis": {**bad, "state": state}}})
            one.run_due()
        with open(path, encoding="ascii") as file:
            self.same("once bad, once good", (file.read(), said), ("delivery lisbaddelivery lisgood", []))

    def test_plot(self):
        """The hour under a bar of the page's plot is that bar's."""
        drawn = plot.svg("messages", [plot.Bar(3600.0 * at, at) for at in range(24)], "%H:%M")
        slots = re.findall(r'<title>(\d\d:\d\d): \d+</title><rect class="slot" x="([\d.]+)"', drawn)
        labels = re.findall(r'<text x="([\d.]+)" y="\d+">(\d\d:\d\d)<', drawn)
        self.same("bars", len(slots), 24)
        self.same("hours", [(when, x) for x, when in labels], slots[::4])

    def test_days(self):
        """A message is in the bar of its day, as the clock on the wall has it, and so is now in the last one."""
        self.addCleanup(time.tzset)
        for zone in ("America/New_York", "Europe/Berlin", "Asia/Kolkata", "Australia/Sydney"):
            with unittest.mock.patch.dict(os.environ, TZ=zone):
                time.tzset()
                moments = [f"2026-{one}" for one in ("10-24 23:50", "10-25 00:10", "11-01 12:00", "11-02 00:05", "11-02 17:12")]
                times = [time.mktime(time.strptime(one, "%Y-%m-%d %H:%M")) for one in moments]
                shown = plot.bars([(at // 900 * 900, 1) for at in times], plot.days(times[-1], 31))
                found = [time.strftime("%Y-%m-%d", time.localtime(one.at)) for one in shown for _ in range(one.many)]
                self.same(f"{zone}: days", found, [one[:10] for one in moments])
                self.same(f"{zone}: of the whole month", (len(shown), shown[-1].many), (31, 2))
