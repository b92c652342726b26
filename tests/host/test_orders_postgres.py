"""Orders in PostgreSQL, where two hosts share them."""
import collections
import random
import select
import socket
import threading
import time

from lislab.model.book import PERHAPS
from lislab.model.books import open_book
from lislink.order import Order
from tests.host import hosts
from tests.host.hosts import Host, HostTest, wait_for
from tests.host.plain import ACK, Gone, Plain, query
from tests.host.test_orders import SLOW, Books
from tests.host.test_postgres import the_server

#: So many orders are added for each kill: half of them for worklists, half for queries, each for so many samples.
EACH, ASKED = 20, 5


def orders_of(rows):
    """The orders of a message: the sample and the test of each."""
    cells = [row.split(b"|") for row in rows if row.startswith(b"O|")]
    return [(one[2].decode(), one[4].split(b"^")[3].decode()) for one in cells]


class Mortal(Plain):
    """An analyzer that notes each message of which it acknowledged the last record, and dies at a reply once it is to,
    before the reply or after it."""

    def __init__(self, of):
        line = socket.create_connection(("127.0.0.1", of.port), 10, (of.address, 0))
        super().__init__(of.port, SLOW, of.rng.random(), slow=0.01, line=line)
        self.of = of

    def reply(self, data):
        dies, before = self.of.dies, self.of.rng.random() < 0.5
        if not (dies and before):
            super().reply(data)
            if data == ACK and self.rows and self.rows[-1][:1] == b"L":
                self.of.whole.append(self.rows)
                self.rows = []
        if dies:
            self.of.dies, self.of.deaths = False, self.of.deaths + 1
            self.close()
            raise Gone("it died")


class Analyzer(threading.Thread):
    """An analyzer of a host until all is over. One with samples asks for them, several at once, until it has an
    answer, and takes what comes after that, too."""

    def __init__(self, port, over, seed, samples=None):
        super().__init__(daemon=True)
        self.port, self.over, self.rng, self.samples = port, over, random.Random(seed), samples
        self.address = f"127.0.1.{seed + 1}"
        self.dies, self.deaths = False, 0
        #: The messages that it acknowledged whole; the samples of each of its queries, and how often it asked for each.
        self.whole, self.asked, self.times = [], [], collections.Counter()

    def run(self):
        while not self.over.is_set():
            try:
                one = Mortal(self)
                while not self.over.is_set():
                    self.turn(one)
            except (Gone, OSError):
                time.sleep(0.02)

    def turn(self, one):
        """Takes a session, after a query if it asks."""
        if self.samples is None:
            one.take(60)
            return
        wanted = self.samples[:ASKED]
        if not wanted:  # a host that died before it could mark an answer as sent sends it again
            if one.left or select.select([one.line], [], [], 0.02)[0]:
                one.take(60)
            return
        if wanted not in self.asked:
            self.asked.append(wanted)
        self.times.update(wanted)
        one.send(query(*wanted))
        while self.samples[:ASKED] == wanted:
            one.take(60)
            if set(wanted) <= {sample for sample, _ in orders_of(self.whole[-1] if self.whole else [])}:
                del self.samples[:ASKED]

    def in_parts(self):
        """The answers that have a part of what a query asked for, or say that there is nothing."""
        return [rows for rows in self.whole if not self.is_whole(orders_of(rows))]

    def is_whole(self, orders):
        """Whether it is all orders of queries, each twice: of two tests."""
        found = {sample for sample, _ in orders}
        asked = [set(one) for one in self.asked if set(one) & found]
        return bool(orders) and found == set().union(*asked) and len(set(orders)) == 2 * len(found) == len(orders)


class PostgresBooks(Books, HostTest):
    """Orders in a database."""

    _count = 0

    @classmethod
    def setUpClass(cls):
        super().setUpClass()
        cls.server = the_server()

    def new(self):
        type(self)._count += 1
        return self.server.address(f"orders{self._count}")

    def test_two_hosts_are_killed(self):
        """Two hosts send the orders of one database, each to an analyzer that takes worklists and to one that asks;
        hosts and analyzers are killed: no order is sent that no analyzer acknowledged, none is lost, an answer is one
        session, and of each order that was taken twice it is said why."""
        store, kills = self.new(), hosts.size("orders_postgres")
        book, over, rng = open_book(store), threading.Event(), random.Random(kills)
        both = [self.host(store, f"h{number}") for number in range(2)]
        work = [Analyzer(ports["work"], over, 2 * at) for at, (_, ports) in enumerate(both)]
        work += [Analyzer(ports["asks"], over, 2 * at + 1, []) for at, (_, ports) in enumerate(both)]
        for one in work:
            one.start()
        for number in range(kills):
            self.add(book, number, work)
            time.sleep(0.1 + 0.3 * rng.random())
            work[rng.randrange(4)].dies = True
            host = both[number % 2][0]
            host.kill()
            host.start()
            if number % 50 == 49:
                hosts.say(f"{number + 1} of {kills} kills, {book.counts()}")
        done = wait_for(lambda: set(book.counts()) == {"sent"} and not any(one.samples for one in work), 600 + 4 * kills)
        over.set()
        for one in work:
            one.join()
        for host, _ in both:
            self.same("the host's status", host.stop(), 0)
        self.true("all are sent", done, book.counts())
        self.judge(list(book.listed()), work, f"{kills} kills of two hosts", [host for host, _ in both])
        book.close()

    @staticmethod
    def add(book, number, work):
        """Adds orders: for worklists, and for samples that are asked for, with two tests each."""
        book.add(Order(f"W{number:04}{at}", ("GLU",), line="work") for at in range(EACH // 2))
        samples = [f"Q{number:04}{at}" for at in range(EACH // 4)]
        book.add(Order(sample, (test,), line="asks") for sample in samples for test in ("GLU", "K"))
        work[2 + number % 2].samples += samples

    def judge(self, placed, work, name, both):
        """What is sent was acknowledged whole, each answer is one session, and what was taken twice is known for it."""
        taken = collections.Counter(order for one in work for rows in one.whole for order in orders_of(rows))
        times = sum((one.times for one in work), collections.Counter())
        found = {(one.order.sample, one.order.tests[0]): one for one in placed}
        self.same("sent and not acknowledged whole", sorted(set(found) - set(taken)), [])
        self.same("answers in parts", [rows for one in work[2:] for rows in one.in_parts()][:3], [])
        twice = [order for order, count in taken.items() if count > 1]
        why = {order: self.why(found[order], times) for order in twice}
        self.same("taken twice, and nobody says why", sorted(order for order in twice if not why[order]), [])
        left = {one.number for one in placed if one.reason == PERHAPS}
        said = "\n".join(row for host in both for errors in host.errors for row in errors.splitlines())
        self.true("it is said", not left or "perhaps a second time" in said, said[-500:])
        counts = ", ".join(f"{count} {word}" for word, count in sorted(collections.Counter(why.values()).items()))
        deaths, answers = sum(one.deaths for one in work), sum(len(one.whole) for one in work[2:])
        hosts.say(f"orders, postgresql: {name}, {deaths} deaths of analyzers, {len(placed)} orders, {len(taken)} taken "
                  f"whole, {answers} answers, {len(twice)} taken twice: {counts or 'none'}")

    @staticmethod
    def why(placed, times):
        """Why an order may have been taken twice: the host died, a session failed, or it was asked for twice."""
        if placed.reason == PERHAPS:
            return "the host died"
        return "a session failed" if placed.tries else "asked again" if times[placed.order.sample] > 1 else ""

    @staticmethod
    def host(store, name):
        """A host, and the ports of its lines."""
        lines = {"work": "orders=download", "asks": "orders=query"}
        words = [word for line, way in lines.items() for word in ("--listen", f"127.0.0.1:0,name={line},{way}")]
        host = Host(store, *words, "--host-name", name, "--tries", "0", listen=False, scale=SLOW)
        rows = [row.split() for row in host.rows if row.startswith("listening")]
        ports = {line: int(where.rsplit(":", 1)[1]) for _, where, line in rows}
        host.words = tuple(
            word.replace("127.0.0.1:0,", f"127.0.0.1:{ports[word.split(',')[1][5:]]},") if "name=" in word else word
            for word in host.words
        )
        return host, ports
