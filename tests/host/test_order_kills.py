"""Orders under fire: hosts are killed, lines pulled, replies late. The analyzer is written from the standard, over no
code of the repository."""
import random
import statistics
import threading
import time

from lislab.model.books import open_book
from lislink.order import Order
from tests.host import hosts
from tests.host.hosts import SCALE, Host, HostTest, wait_for
from tests.host.plain import Gone, Plain, query, samples_of
from tests.host.test_orders import SLOW, states


class Fire(HostTest):
    """Hosts are killed, lines pulled, replies late: no order is sent that the analyzer did not take, and none is
    lost."""

    def rounds(self, count, kill, late=0.0, noise=0.0, seed=7, scale=SCALE):
        """Sends so many orders to an analyzer while the host is killed and the line pulled by chance, and both ask at
        once in one session of three; the samples that were taken whole."""
        rng = random.Random(seed)
        store = self.path(f"{time.monotonic_ns()}.db")
        book = open_book(store)
        book.add(Order(f"S{at:05}", ("GLU", "K")) for at in range(count))
        book.close()
        host = Host(store, "--listen", "127.0.0.1:0,name=asks,orders=download", "--tries", "0", listen=False, scale=scale)
        port = next(int(row.split()[1].rsplit(":", 1)[1]) for row in host.rows if row.endswith(" asks\n"))
        host.words = tuple(word.replace("127.0.0.1:0,", f"127.0.0.1:{port},") for word in host.words)
        taken, kills, over, contended = [], 0, time.monotonic() + 240 + 8 * kill, 0
        # What is taken whole may wait still: a host that dies before it has marked its orders sends them again.
        goes_on = lambda: set(states(store).values()) != {"sent"}  # noqa: E731
        while goes_on() and time.monotonic() < over:
            one = None
            try:
                one = Plain(port, scale, rng.random(), late, noise, 0.01 if kill else 0.0, contends=1 / 3)
                while goes_on():
                    if kills < kill and rng.random() < 0.7:
                        kills += 1
                        threading.Timer(rng.random() * 0.3, host.process.kill).start()
                    taken += samples_of(one.take(60))
                    if len(set(taken)) == count:
                        wait_for(lambda: not goes_on(), 1)
            except (Gone, OSError):
                pass
            contended += one.contended if one else 0
            if host.process.poll() is not None:
                host.kill()
                host.start()
        self.true("both asked at once", contended)
        self.true("all taken", wait_for(lambda: set(states(store).values()) == {"sent"}), states(store))
        found = states(store)
        host.stop()
        return found, taken, kills

    def judge(self, found, taken, name):
        """What is sent was taken, and all is sent."""
        self.same(f"{name}: sent and not taken", sorted(set(found) - set(taken)), [])
        hosts.say(f"orders, {name}: {len(found)} sent, {len(taken) - len(set(taken))} taken twice")

    def test_kills(self):
        """The host is killed at random."""
        wanted = hosts.size("orders")
        found, taken, kills = self.rounds(20 * wanted, wanted)
        self.true("kills", kills > 0, kills)
        self.judge(found, taken, f"{kills} kills")

    def test_late_and_noisy(self):
        """Replies up to 40 seconds late, and damaged ones: none is sent wrongly."""
        found, taken, _ = self.rounds(12, 0, late=0.1, noise=0.1, scale=SLOW)
        self.judge(found, taken, "late and damaged replies")

    def test_fifty_lines(self):
        """Fifty analyzers ask at once: each gets its own answer; how soon is said."""
        store = self.path("fifty.db")
        book = open_book(store)
        book.add(Order(f"S{at}", ("K",)) for at in range(50))
        book.close()
        host = Host(store, "--listen", "127.0.0.1:0,name=asks,orders=query", listen=False, scale=1.0)
        port = next(int(row.split()[1].rsplit(":", 1)[1]) for row in host.rows if row.endswith(" asks\n"))
        waits, wrong = [], []

        def asks(at):
            one = Plain(port, 1.0)
            one.send(query(f"S{at}"))
            began = time.monotonic()
            first = one.byte(120)
            waits.append(time.monotonic() - began)
            one.left = first + one.left
            wrong.extend([] if samples_of(one.take()) == [f"S{at}"] else [at])

        work = [threading.Thread(target=asks, args=(at,)) for at in range(50)]
        for one in work:
            one.start()
        for one in work:
            one.join()
        self.same("each its own", (len(waits), wrong), (50, []))
        hosts.say(f"orders, 50 lines: first byte after {statistics.median(waits) * 1000:.0f} ms at the median")
