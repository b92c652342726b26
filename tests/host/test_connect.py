"""Lines that the host connects: analyzers that listen, go, and come back."""
import contextlib
import os
import signal
import socket
import time
import unittest.mock

from lislab.model import lines, options
from lislab.host import calls, serve, wires
from lislab.model.stores import open_store
from lislab.model.books import open_book
from lislink.order import Order
from tests import kit
from tests.host.hosts import NEVER, Found, Host, HostTest, lislab, trouble, wait_for
from tests.host.plain import ACK, ENQ, EOT, Gone, Plain, frame, samples_of
from tests.host.test_lines import TEXTS, Client
from tests.host.test_orders import states

#: Each timer of the standard is so many times as long, and so is the host's pause of a second.
SCALE = 0.6
#: What is wrong with words of a command, and with files of lines.
WORDS = (
    ("x", "x: expected HOST:PORT"),
    ("127.0.0.1:0", "expected a port from 1 to 65535"),
    ("1,allow=::/0", "options are name=, frame=, encoding=, orders=, none="),
)
FAULTS = (
    ("connect = x", ":2: x: expected HOST:PORT"),
    ("connect = 10.0.0.1:0", ":2: 10.0.0.1:0: expected a port from 1 to 65535"),
    ("connect = 10.0.0.1:1\nallow = 10.0.0.0/8", ":3: there is no setting allow: a line with connect has frame,"),
    ("connect = 1\nlisten = 2", ":1: a has listen and connect: it is at one listen, connect or serial"),
    ("connect = 1\n[b]\nconnect = 1", ":4: the port 127.0.0.1:1 is in row 2 too"),
)


class Listening:
    """An analyzer that listens, at a port that stays its own."""

    def __init__(self, test):
        self.socket, self.test, self.port = None, test, kit.free_port()
        self.open()
        test.addCleanup(self.close)

    def open(self):
        """Listens."""
        self.socket = socket.create_server(("127.0.0.1", self.port))

    def close(self):
        """Listens no more."""
        self.socket.close()

    def accept(self, seconds=120.0):
        """The analyzer on the next connection; Gone if there is none in this time."""
        self.socket.settimeout(seconds)
        try:
            line, _ = self.socket.accept()
        except socket.timeout:
            raise Gone("nobody connects") from None
        self.test.addCleanup(line.close)
        return Plain(0, SCALE, line=line)

    def word(self, *settings):
        """The value of `--connect`."""
        return ",".join([f"127.0.0.1:{self.port}", *settings])


def is_closed(one):
    """Whether the host closes an analyzer's line in time."""
    one.left = b""
    one.line.settimeout(120)
    return one.line.recv(1) == b""


class Connect(HostTest):
    """A host that connects."""

    def begun(self, *words):
        """A host with these words."""
        host = Host(self.path(f"{time.monotonic_ns()}.db"), *words, scale=SCALE, listen=False, each=None)
        self.addCleanup(lambda: host.process.poll() is None and host.kill())
        return host

    def written(self, **places):
        """A file of lines: the rows of each by its name."""
        with open(self.path("connect.lines"), "w", encoding="ascii") as file:
            file.writelines(f"[{name}]\n{rows}\n" for name, rows in places.items())
        return file.name

    def test_two_lines(self):
        """Sessions are kept, with the peer's address; neither --lines, --address-lines nor --allow is about them."""
        ones = [Listening(self), Listening(self)]
        words = [f"--connect={one.word(f'name={name}')}" for one, name in zip(ones, "ab")]
        host = self.begun("--max-lines", "1", "--address-lines", "1", "--listen", "0,name=in", *words)
        for number, one in enumerate(ones):
            one.accept().send([*TEXTS[:-1], b"C|1|I|%d\r" % number, TEXTS[-1]])
        self.true("they are kept", wait_for(lambda: len(Found(host.store).whole) == 2))
        port = next(int(row.split()[1].rsplit(":", 1)[1]) for row in host.rows if row.endswith(" in\n"))
        with Client(port) as one:
            self.true("one that connects has room", one.whole(TEXTS))
        self.true("its message is kept", wait_for(lambda: len(Found(host.store).whole) == 3))
        self.same("the host's status", host.stop(), 0)
        whole = Found(host.store).whole
        self.same("their lines", sorted(one.line for one in whole), ["a", "b", "in"])
        self.same("their peers", {one.peer for one in whole}, {"127.0.0.1"})
        self.same("what is said", trouble(host.errors[0]), [])

    def test_orders(self):
        """A line with `orders=download` sends what waits for it."""
        analyzer, store = Listening(self), self.path("orders.db")
        book = open_book(store)
        book.add([Order("S7", ("GLU", "K"))])
        book.close()
        host = Host(store, "--connect", analyzer.word("name=a", "orders=download"), scale=SCALE, listen=False)
        self.same("the orders", samples_of(analyzer.accept().take()), ["S7"])
        self.true("they are sent", wait_for(lambda: states(store) == {"S7": "sent"}), states(store))
        self.same("the host's status", host.stop(), 0)

    def test_gone_and_back(self):
        """The pause gets twice as long each time, begins anew after a session, and ends when the file is read again."""
        analyzer = Listening(self)
        file = self.written(a=f"connect = {analyzer.word()}")
        host = self.begun("--lines", file)
        times = []  # when the host was connected
        for _ in range(4):
            one = analyzer.accept()
            times.append(time.monotonic())
            one.close()
        pauses = [after - before for before, after in zip(times, times[1:])]
        self.true("pauses", all(n * SCALE * 0.9 < one for n, one in zip((1, 2, 4), pauses)), repr(pauses))
        one = analyzer.accept()
        one.send(TEXTS)
        one.put(ENQ)
        self.same("the next session", one.byte(300), ACK)
        one.put(frame(1, TEXTS[0]))
        self.same("a text", one.byte(300), ACK)
        begun = time.monotonic()
        one.close()
        pauses = []
        for turn in range(5):  # if the machine is busy, one pause or another gets longer
            one = analyzer.accept()
            pauses.append(time.monotonic() - begun)
            one.send([*TEXTS[:-1], b"C|1|I|back %d\r" % turn, TEXTS[-1]])
            begun = time.monotonic()
            one.close()
        self.true("connected anew after a second", SCALE * 0.9 < min(pauses) < 4 * SCALE, repr(pauses))
        self.true("all are kept", wait_for(lambda: len(Found(host.store).whole) == 6))
        self.same("the host's status", host.stop(), 0)
        found = [one.reason.split(",")[0] for one in Found(host.store).others]
        self.same("the session that broke off", found, ["the line was closed before its L record"])

    def test_pause_that_ends(self):
        """A pause that would take minutes ends when the file is read again."""
        analyzer = Listening(self)
        host = Host(self.path("pause.db"), "--lines", self.written(a=f"connect = {analyzer.word()}"), scale=10 * NEVER,
                    listen=False)
        analyzer.accept().close()
        found, over = None, time.monotonic() + 60
        while found is None and time.monotonic() < over:  # the host may hear of the end after it has read the file
            os.kill(host.process.pid, signal.SIGHUP)
            with contextlib.suppress(Gone):
                found = analyzer.accept(1)
        self.true("connected anew", found is not None)
        host.kill()

    def test_nothing_listens(self):
        """That is said once, and once more when it was connected since. A name that nobody has is said too."""
        analyzer = Listening(self)
        analyzer.close()
        host = self.begun("--connect", analyzer.word("name=a"), "--connect", "no..name:1,name=b")
        for turn in range(3):
            refused = wait_for(lambda: host.says().count("Connection refused") == turn + 1)
            self.true(f"refused {turn}", refused, host.says())
            time.sleep(1.5 * SCALE)
            if turn < 2:
                analyzer.open()
                one = analyzer.accept()
                analyzer.close()
                one.send(TEXTS)
                one.close()
        self.same("the host's status", host.stop(), 0)
        said = [row for row in trouble(host.errors[0]) if not row.startswith("lislab: b: no..name:1: ")]
        self.same("what is said", said, [f"lislab: a: 127.0.0.1:{analyzer.port}: Connection refused"] * 3)
        self.same("of the other line", host.errors[0].count("no..name"), 1)
        self.same("kept", len(Found(host.store).whole), 2)

    def test_stop(self):
        """A session that goes on ends in order, other lines are closed, and nobody is connected to any more."""
        busy, idle = Listening(self), Listening(self)
        gone = Listening(self)
        gone.close()
        host = self.begun(*(f"--connect={one.word()}" for one in (busy, idle, gone)))
        one, other = busy.accept(), idle.accept()
        one.put(ENQ)
        self.same("a session", one.byte(300), ACK)
        host.process.send_signal(signal.SIGTERM)
        self.true("a line without a session is closed", is_closed(other))
        with self.assertRaises(Gone):
            idle.accept(3 * SCALE)
        for number, text in enumerate(TEXTS, 1):
            one.put(frame(number, text))
            self.same(f"text {number}", one.byte(300), ACK)
        one.put(EOT)
        self.true("it is closed at its end", is_closed(one))
        self.same("the host's status", host.stop(), 0)
        self.same("kept", len(Found(host.store).whole), 1)

    def test_reload(self):
        """Lines that changed are closed between sessions and connected anew; one that stays isn't touched."""
        stays, changes, goes, comes = (Listening(self) for _ in range(4))
        rows = {name: f"connect = {one.word()}" for name, one in (("s", stays), ("c", changes), ("g", goes))}
        host = self.begun("--lines", self.written(**rows))
        same, old, leaves = stays.accept(), changes.accept(), goes.accept()
        old.put(ENQ)
        self.same("a session", old.byte(300), ACK)
        del rows["g"]
        self.written(**{**rows, "c": rows["c"] + "\nencoding = gbk", "n": f"connect = {comes.word()}"})
        os.kill(host.process.pid, signal.SIGHUP)
        self.true("a line that is gone is closed", is_closed(leaves))
        comes.accept().send(TEXTS)
        for number, text in enumerate(TEXTS, 1):
            old.put(frame(number, text))
            self.same(f"an open session goes on, text {number}", old.byte(300), ACK)
        old.put(EOT)
        self.true("it is closed at its end", is_closed(old))
        changes.accept().send(TEXTS)
        same.send(TEXTS)
        self.true("all are kept", wait_for(lambda: len(Found(host.store).whole) == 4))
        self.says("what it did", host, "2 closed, 2 opened, 1 as they were")
        self.same("the host's status", host.stop(), 0)
        found = sorted((one.line, one.encoding) for one in Found(host.store).whole)
        latin = options.LATIN
        self.same("lines", found, [("c", "gbk"), ("c", latin), ("n", latin), ("s", latin)])

    def test_words(self):
        """What a line may be, and what is said of other words."""
        for word, why in WORDS:
            with self.assertRaises(options.OptionError) as found:
                options.connect_of(word)
            self.has(word, str(found.exception), why)
        done = lislab("serve", "--store", self.path("words.db"), "--connect", WORDS[1][0])
        self.true("the command", done.returncode == 2 and WORDS[1][1] in done.stderr, done.stderr)
        for rows, why in FAULTS:
            found = lines.read_lines(self.written(a=rows), [])
            self.has(rows, "".join(found.faults), why)
            self.same(f"{rows}: faults", len(found.faults), 1)
        (place,) = lines.lines_of(self.written(a="connect = [2001:db8::7]:4001\norders = query"), []).places
        shown = f"a: connect=[2001:db8::7]:4001 frame=240 encoding={options.LATIN} orders=query none=L-I"
        self.same("a line as it is shown", lines.text_of(place), shown)

    def test_pauses(self):
        """Pauses end at sixty seconds, and a connection that had a session or lasted a second begins them anew."""
        place, pauses = options.connect_of("4000"), []
        line = unittest.mock.Mock
        lasted = {7: line(had_session=True), 9: line(had_session=False), 11: line(had_session=False)}

        async def run():
            asked = serve.Asked([], [], [], options.Limits(scale=0.125), None, None, connects=[place])
            host = serve.Host(asked, open_store(self.path("pauses.db")))

            async def connect(_):
                one = lasted.get(len(pauses))
                if one is not None:
                    host.lines[one] = serve.asyncio.ensure_future(serve.asyncio.sleep(0.15 * (one is lasted[11])))
                return one

            async def pause(seconds):
                pauses.append(seconds / 0.125)
                host.stopping = len(pauses) == 13

            with unittest.mock.patch.multiple(host.calls, _connect=connect, _pause=pause):
                await host.calls.serve(place)
            await host.stop()

        serve.asyncio.run(run())
        self.same("pauses", pauses, [1, 2, 4, 8, 16, 32, 60, 1, 2, 4, 8, 1, 2])

    def test_a_call_to_itself(self):
        """A connection whose two ends are the same port is not one. Another one has keep-alives."""
        for own, wanted in ((("127.0.0.1", 4000), (1, 0)), (("127.0.0.1", 4001), (0, 1))):
            transport = unittest.mock.create_autospec(serve.asyncio.Transport, instance=True)
            ends = {"peername": ("127.0.0.1", 4000), "sockname": own, "socket": unittest.mock.Mock()}
            transport.get_extra_info.side_effect = ends.get
            place = options.connect_of("4000")
            host = unittest.mock.Mock(stopping=False, asked=unittest.mock.Mock(connects=[place]))
            wires.TcpWire(calls.Call(host, place), host.ticks).connection_made(transport)
            self.same(f"from {own}", (transport.abort.call_count, host.add.call_count), wanted)
        kept = unittest.mock.call(socket.SOL_SOCKET, socket.SO_KEEPALIVE, 1)
        self.true("keep-alives", kept in ends["socket"].setsockopt.call_args_list)
