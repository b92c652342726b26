"""What `lislab watch` says of a host whose store is PostgreSQL, also when the server is gone; what its pages read."""
import time

from lislab.watch import plot, tally
from lislab.model.unix import ask
from tests.host.hosts import Host, HostTest, lislab, wait_for
from tests.host.test_lines import ACK, ENQ, TEXTS, Client, frames
from tests.host.test_postgres import the_server
from tests.host.test_watch import WAIT, H


class WatchPostgres(HostTest):
    """A host over a database."""

    def test_the_database_is_gone(self):
        """The server is killed: the line is bad, and says so; when it is back it is good. What is kept is seen."""
        server = the_server()
        store, state = server.address("watch"), self.path("state")
        host = Host(store, "--status", state, scale=1.0)

        def seen():
            return ask(state + ".watch", ask="lines")[0]["lines"]["fire"]

        with Client(host.port) as client:
            client.whole(TEXTS)
            client.whole([H, b"R|1\r", b"L|1\r"])
            client.whole(TEXTS)
            self.same("it is good", seen()["state"], "good")
            server.stop("immediate")
            client.asks(ENQ)
            client.send(frames(TEXTS)[0])
            wait_for(lambda: seen()["verdict"] == "store-gone", WAIT)
            self.same("the server is gone", (seen()["state"], seen()["verdict"]), ("bad", "store-gone"))
        told = lislab("watch", "--store", store, "--status", state, "--once")
        self.same("status", told.returncode, 1)
        self.has("why", told.stdout, "the store is gone (PostgreSQL: ")
        server.start()
        self.true("it is good again", wait_for(lambda: self.is_kept(host, seen), WAIT), str(seen()))
        one = tally.Tally(store)
        one.count()
        one.count()
        bars = plot.bars(one.counts("fire"), plot.hours(time.time(), 24))
        self.true("messages are counted", sum(bar.many for bar in bars) >= 3, str(bars))
        heads = tally.each(store, lambda it: it.last_heads("fire"))
        wait_for(lambda: tally.each(store, lambda it: it.not_complete("fire")), WAIT)  # after its fixes are tried
        trouble = tally.each(store, lambda it: it.not_complete("fire"))
        self.true("the last ones", len(heads) >= 3 and heads[0].number > heads[1].number, str(heads))
        self.has("what can't be read", trouble[-1].reason, "record 2")
        for head in (heads[0], trouble[-1]):
            self.same("a message", tally.each(store, lambda it: it.message(head.key)).key, head.key)
        self.same("left to deliver", tally.each(store, lambda it: tally.undelivered(it, self.path("none"))), len(heads))
        without = lislab("watch", "--store", store, "--once")
        self.has("a host without a file for its state", without.stdout, "it has no socket: name a file by --status")
        host.kill()
        self.has("no host", lislab("watch", "--store", store, "--once").stdout, "the host isn't running; ")

    @staticmethod
    def is_kept(host, seen):
        """Whether a session is kept, and the line good."""
        with Client(host.port) as client:
            frame = frames([b"".join(TEXTS)])[0]
            return client.asks(ENQ) == ACK and client.asks(frame) == ACK and seen()["state"] == "good"
