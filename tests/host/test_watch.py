"""What `lislab watch` says of lines: faults of a line are played, and each is named; the last bytes of a line; the
socket through which it looks."""
import contextlib
import os
import random
import re
import resource
import socket
import stat
import subprocess
import threading
import time
import unittest.mock
from collections import Counter
from typing import Callable, NamedTuple

from lislink.capture import Capture, Line, read_capture
from lislab.field.ladder import Ladder
from lislab.model.options import Listen
from lislab.model.stores import open_store
from lislink.link import Receiver
from lislab.diagnosis import ring
from lislab.diagnosis.board import Board
from lislab.watch.live import LiveLadder
from lislab.diagnosis.events import Came, Closed, Meant
from lislab.diagnosis.pulse import Probe, Pulse
from lislab.model.unix import WatchError, ask
from lislab.diagnosis.verdicts import Meaning
from tests import kit
from tests.host.hosts import Host, HostTest, lislab, process, say, see, wait_for
from tests.host.plain import frame
from tests.host.test_lines import ACK, ENQ, EOT, NAK, TEXTS, Client, frames, session

#: How long a test waits for what a host says, in seconds.
WAIT = 60
H = b"H|\\^&\r"


def even(data):
    """Bytes with 7 data bits and even parity, as a line with 8 data bits reads them."""
    return bytes(one | (bin(one).count("1") % 2) << 7 for one in data)


def odd(data):
    """The same with odd parity."""
    return bytes(one | (1 - bin(one).count("1") % 2) << 7 for one in data)


def body(data):
    """A frame of these bytes between STX and the checksum, which is right."""
    return b"\x02" + data + b"%02X\r\n" % (sum(data) % 256)


def rejected(client, unit, count=6):
    """A session of which each frame is rejected, until the analyzer gives up."""
    return client.asks(ENQ) == ACK and [client.asks(unit) for _ in range(count)] == [NAK] * count


def again(client):
    """ENQ, and again, as one that hears no reply."""
    for _ in range(3):
        client.asks(ENQ)


def echoes(client):
    """What comes back goes back."""
    for unit in (ENQ, *frames(TEXTS)):
        client.send(client.asks(unit))


def unanswered(client):
    """A frame that can't be kept, or too late to be answered."""
    client.asks(ENQ)
    client.send(frames(TEXTS)[0])


class Fault(NamedTuple):
    """A fault of a line: what the analyzer does, the verdict, a part of what is said, and the host's own fault."""

    play: Callable[[Client], object]
    verdict: str
    says: str
    fault: str = ""
    #: Whether the line is good again after a session that is as it should be.
    heals: bool = True


FAULTS = {
    "no reply is heard": Fault(again, "not-heard", "ENQ came again"),
    "all too long": Fault(lambda one: rejected(one, frame(1, b"C|1|" + b"x" * 300)), "none-accepted",
                          "all 6 frames rejected since .*: they are longer than the line takes"),
    "all without a checksum": Fault(lambda one: rejected(one, b"\x021H|\\^&\r\x03\r\n"), "none-accepted",
                                    "all 6 frames rejected since .*: they have no checksum"),
    "all without a number": Fault(lambda one: rejected(one, body(b"H|\\^&\r\x03")), "none-accepted",
                                  "all 6 frames rejected since .*: they have no frame number"),
    "all with a forbidden byte": Fault(lambda one: rejected(one, body(b"1H|\x01\r\x03")), "none-accepted",
                                       "all 6 frames rejected since .*: a forbidden byte is in their text"),
    "all checksums without ETX": Fault(lambda one: rejected(one, b"\x021" + H + b"\x03%02X\r\n" % (
        (0x31 + sum(H)) % 256)), "none-accepted",
        "all 6 frames rejected since .*: the checksum is wrong: it leaves out ETX or ETB"),
    "out of turn": Fault(lambda one: rejected(one, frame(2, H)), "none-accepted",
                         "all 6 frames rejected since .*: out of turn, 1 is due"),
    "an echo": Fault(echoes, "echo", "6 times what the host sent came back since"),
    "even parity": Fault(lambda one: one.asks(even(ENQ)) and one.send(even(b"".join(frames(TEXTS)))), "parity",
                         "carries an even parity bit"),
    "odd parity": Fault(lambda one: one.send(odd(session(TEXTS))), "parity", "carries an odd parity bit"),
    "silence after ENQ": Fault(lambda one: one.asks(ENQ), "no-frame", "ENQ acknowledged, no frame since"),
    "no LF": Fault(lambda one: one.asks(ENQ) and one.send(b"".join(frames(TEXTS)).replace(b"\n", b"")), "no-unit",
                   "no LF ended one"),
    "late": Fault(unanswered, "late", "once no reply was sent since .*: it would have been late", "stalled", False),
    "a full disk": Fault(unanswered, "disk-full", "once a text could not be stored since .*: the disk is full", "full",
                         False),
    "the database is gone": Fault(unanswered, "store-gone", r"the store is gone \(PostgreSQL: server closed", "gone",
                                  False),
    "another protocol": Fault(lambda one: one.send(b"\x0bMSH|^~\\&|A\r\x1c\r"), "hl7", "HL7 version 2"),
    "no ENQ": Fault(lambda one: one.send(b"".join(frames(TEXTS))), "not-open", "no ENQ before them"),
    "another speed": Fault(lambda one: one.send(b"\xf8\x00\xfe\x1c"), "no-protocol", "4 bytes since .*, no ENQ"),
    "Telnet": Fault(lambda one: one.asks(ENQ) and one.send(b"\x021H|\\^&\r\0\x03E5\r\0"), "telnet", "speaks Telnet"),
    "one number": Fault(lambda one: one.asks(ENQ) and [one.asks(frame(1, text)) for text in TEXTS], "lost",
                        "4 frames since .* with the number of the one before and another text"),
    "a record that can't be read": Fault(lambda one: one.whole([H, b"R|1\r", b"L|1\r"]), "not-complete",
                                         "the last one is invalid: record 2, from byte 6"),
}


def seen(host, name="fire"):
    """What the host says of a line."""
    return ask(host.store + ".watch", ask="lines")[0]["lines"].get(name, {})


def port_of(host, name):
    """The port of a line."""
    return next(int(row.split()[1].rsplit(":", 1)[1]) for row in host.rows if row.endswith(f" {name}\n"))


class Watch(HostTest):
    """`lislab watch`."""

    def test_faults(self):
        """Each fault of a line is named, without a capture; then the line is good again. All are played at once, with
        the timers of the standard."""
        hosts, names = {}, {name.replace(" ", "-"): one for name, one in FAULTS.items()}
        words = [word for name in names for word in ("--listen", f"127.0.0.1:0,name={name}")]
        for fault in sorted({one.fault for one in FAULTS.values()}):
            within = ["--reply-within", "0.5"] if fault == "stalled" else []
            hosts[fault] = Host(self.path(f"{fault or 'good'}.db"), *words, *within, fault=fault or None, scale=1.0,
                                listen=False)
        lines = {name: (hosts[one.fault], port_of(hosts[one.fault], name)) for name, one in names.items()}
        with contextlib.ExitStack() as stack:
            clients = {name: stack.enter_context(Client(port)) for name, (_, port) in lines.items()}
            begun = {}
            for name, one in names.items():
                begun[name] = time.monotonic()
                one.play(clients[name])
            self.say_how_soon({name: (lines[name][0], one.verdict, begun[name]) for name, one in names.items()})
            for name, one in names.items():
                host, port = lines[name]
                with self.subTest(name):
                    wait_for(lambda: seen(host, name)["verdict"] == one.verdict, WAIT)
                    found = seen(host, name)
                    self.same(f"{name}: it is named", (found["state"], found["verdict"]), ("bad", one.verdict))
                    self.assertRegex(found["says"], one.says)
                    if one.heals:
                        clients[name].send(EOT)
                        self.heals(host, name, port, one.says)
        self.same("nothing is wrong with the host", hosts[""].says().count("given up"), 0)

    @staticmethod
    def say_how_soon(faults):
        """Waits until all faults are named, and says how long the slowest took from its begin. A machine that is busy
        fails no test by that."""
        took, over = {}, time.monotonic() + WAIT
        while len(took) < len(faults) and time.monotonic() < over:
            time.sleep(0.05)
            for host in {host for host, _, _ in faults.values()}:
                found = ask(host.store + ".watch", ask="lines")[0]["lines"]
                for name in faults.keys() - took.keys():
                    if faults[name][0] is host and found.get(name, {}).get("verdict") == faults[name][1]:
                        took[name] = time.monotonic() - faults[name][2]
        for name in sorted(took, key=took.get)[-1:]:
            say(f"watch: {len(took)} of {len(faults)} faults are named, the last one ({name}) after {took[name]:.1f} s")

    def heals(self, host, name, port, wanted):
        """A line is good again after a session as it should be, and what was wrong is remembered."""
        with Client(port) as client:
            self.true(f"{name}: a session after it", client.whole(TEXTS))
            wait_for(lambda: seen(host, name)["state"] == "good", WAIT)
            self.same(f"{name}: the line is good again", seen(host, name)["state"], "good")
            past = seen(host, name)["past"]
            found = [one for one in past if re.search(wanted, one[2])]
            self.same(f"{name}: what was wrong is remembered, once", len(found), 1)
            self.true(f"{name}: and when", all(one[0] <= one[1] for one in past))

    def test_a_full_disk(self):
        """No file may grow past a size: the line is bad. There is room again: after a session it is good."""
        unlimited = (resource.RLIM_INFINITY, resource.RLIM_INFINITY)
        limited = (300, resource.RLIM_INFINITY)
        host = Host("spool:" + self.path("full.spool"), "--status", self.path("full"), scale=1.0,
                    preexec_fn=lambda: resource.setrlimit(resource.RLIMIT_FSIZE, limited))

        def state():
            return ask(self.path("full") + ".watch", ask="lines")[0]["lines"]["fire"]

        with Client(host.port) as client:
            client.asks(ENQ)
            client.send(frames([H + (b"C|1|I|" + b"x" * 100 + b"\r")])[0])
            client.heard(1)
            for number in (2, 3, 4):
                client.send(frame(number, b"C|1|I|" + b"x" * 200 + b"\r"))
            wait_for(lambda: state()["verdict"] == "disk-full", WAIT)
            self.same("it is full", (state()["state"], state()["verdict"]), ("bad", "disk-full"))
        resource.prlimit(host.process.pid, resource.RLIMIT_FSIZE, unlimited)

        def is_good():
            with Client(host.port) as after:
                return after.whole(TEXTS) and state()["state"] == "good"

        self.true("with room again", wait_for(is_good, WAIT), str(state()))

    def test_reasons(self):
        """Frames are counted by the reasons of a ladder, whatever comes and however it is cut."""
        good = frames([H, b"P|1\r", b"", b"C|1|I|" + b"x" * 200 + b"\r"])
        units = [ENQ, ENQ, EOT, b"\n", b"\x02", b"noise", *good, *good, *(one[:-3] + b"0\r\n" for one in good)]
        units += [one.replace(b"|", b"\x11") for one in good] + [one.replace(b"\r\n", b"\n") for one in good]
        units += [body(b"9H|\r\x03"), body(b"H|\r\x03"), body(b"1H|\x01\r\x03")]
        units += [frame(1, b"x" * 300), b"\x02\n", b"\x021H|\\^&\r\x03\r\n"]
        reasons = set()
        for seed in range(300):
            rng = random.Random(seed)
            stream = b"".join(rng.choice(units) for _ in range(40))
            pulse = Pulse(240, 1.0)
            probe, at = Probe(pulse), 0
            with Receiver() as receiver:
                while at < len(stream):
                    piece = stream[at : at + rng.randrange(1, 60)]
                    at += len(piece)
                    see(probe, Came(piece))
                    for place, step in receiver.hear_placed(piece):
                        see(probe, Meant(place, step))
                    self.assertTrue(pulse.says().text)
            see(probe, Closed("by the other end"))
            ladder = Ladder(Capture(1, [(1, Line(">", stream))], [None]))
            rows = [row for row in ladder.rows if row.meaning is Meaning.REJECTED]
            wanted = Counter(row.cause.verdict.key for row in rows)
            self.same(f"reasons of stream {seed}", pulse.rejected, wanted)
            reasons |= set(wanted)
        self.true("reasons that were seen", len(reasons) >= 9, str(sorted(reasons)))

    def test_no_reply_to_the_host(self):
        """A host whose own ENQ nobody answers, and one whose device isn't there."""
        store = self.path("own.db")
        one = open_store(store)
        one.start("h")
        one.close()
        lislab("order", "add", "--store", store, kit.file_of(self, "orders.csv", "sample,tests\nS1,GLU\n"))
        host = Host(store, "--listen", "127.0.0.1:0,name=two,orders=download",
                    "--serial", f"{self.path('no device')}:9600,name=cable", "--connect", "127.0.0.1:1,name=called")
        with Client(port_of(host, "two")) as client:
            self.same("the host asks for the line", client.heard(1), ENQ)
            wait_for(lambda: seen(host, "two")["verdict"] == "no-reply", WAIT)
            self.same("no reply", seen(host, "two")["verdict"], "no-reply")
        cable = seen(host, "cable")
        self.same("no device", (cable["state"], cable["verdict"]), ("bad", "no-device"))
        wait_for(lambda: seen(host, "called")["verdict"] == "no-connection", WAIT)
        called = seen(host, "called")
        self.same("no connection", (called["state"], called["verdict"]), ("bad", "no-connection"))
        self.has("no connection: why", called["says"], "the host can't connect: 127.0.0.1:1: Connection refused")
        self.has("no device: why", cable["says"], "No such file")

    def test_noise_is_not_bad(self):
        """A frame that is rejected and comes again, polls without a frame, and answers are no trouble."""
        host = Host(self.path("noise.db"), scale=1.0)
        with Client(host.port) as client:
            client.asks(ENQ)
            good = frames(TEXTS)
            self.same("noise", [client.asks(one) for one in (good[0].replace(b"&", b"%"), *good)], [NAK, *[ACK] * 5])
            client.send(EOT)
            for _ in range(4):
                client.asks(ENQ + EOT)
            client.send(ACK + NAK)
            self.true("it is good", wait_for(lambda: seen(host)["verdict"] == "complete", WAIT), str(seen(host)))
            self.same("its rejected frames are counted", seen(host)["causes"], {"sum": 1})
            client.asks(ENQ + EOT)
            self.true("five polls are too many", wait_for(lambda: seen(host)["verdict"] == "no-frame", WAIT))

    def test_begun(self):
        """A line to which nothing came says so since the host's start, not since somebody looked first."""
        with unittest.mock.patch("time.time", lambda: 1000.0):
            board = Board(1.0)
        place = Listen("127.0.0.1", 0, "quiet")
        with unittest.mock.patch("time.time", lambda: 1090.0):
            found = board.data([place], {}, {"lines": {}, "unknown_codes": {}})["lines"]["quiet"]
        self.same("since when", (found["since"], found["says"]), (
            1000.0, "no message since the host started, 90 s ago, and nobody is connected"))

    def test_rows(self):
        """A row for each line; the status says whether one is bad; without a host the store has what is known."""
        host = Host(self.path("rows.db"), "--listen", "127.0.0.1:0,name=a\x1b[2J", scale=1.0)
        with Client(host.port) as client:
            client.whole(TEXTS)
        wait_for(lambda: not seen(host)["connected"], WAIT)
        told = lislab("watch", "--store", host.store, "--once")
        self.same("status", (told.returncode, told.stderr), (0, ""))
        rows = told.stdout.splitlines()
        self.same("rows", len(rows), 2)
        self.assertRegex(rows[0], r"^a\\x1b\[2J  quiet  no message since the host started, \d+ s ago, and nobody is")
        self.assertRegex(rows[1], r"^fire      good   last message \d+ s ago$")
        with Client(host.port) as client:
            rejected(client, frame(2, H))
            told = lislab("watch", "--store", host.store, "--once")
        self.same("a bad line: status", told.returncode, 1)
        self.assertRegex(told.stdout, r"fire +bad    all 6 frames rejected since \d\d:\d\d: out of turn, 1 is due\n")
        host.kill()
        told = lislab("watch", "--store", host.store, "--once")
        self.same("no host: status", told.returncode, 1)
        self.has("no host", told.stdout, "the host isn't running\n")
        kept = "fire  bad    the host isn't running; 1 complete message, the last one"
        self.has("no host: what is kept", told.stdout, kept)
        host.start()
        self.true("a host after one that was killed", wait_for(lambda: seen(host).get("state") == "quiet", WAIT))
        none = lislab("watch", "--store", self.path("no.db"), "--once")
        self.same("no store", (none.returncode, "no such store" in none.stderr), (3, True))

    def test_last_bytes(self):
        """The last bytes of a line are a capture: what a tape has, in its form; and its ladder."""
        host = Host(self.path("last.db"), "--capture", self.path("tape"), scale=1.0)
        for texts in (TEXTS, [H, b"L|1\r"]):
            with Client(host.port) as client:
                client.whole(texts)
        wait_for(lambda: not seen(host)["connected"], WAIT)
        path = self.path("saved.capture")
        saved = lislab("watch", "--store", host.store, "--line", "fire", "--save", path)
        self.same("saved", (saved.returncode, saved.stdout), (0, ""))
        for name in (path, path + ".times"):
            self.same(f"{name[-6:]}: its mode", stat.S_IMODE(os.stat(name).st_mode), 0o600)
        capture = read_capture(kit.bytes_of(path))
        host.stop()
        tapes = sorted(os.path.join(self.folder.name, one) for one in os.listdir(self.folder.name)
                       if one.startswith("tape") and one.endswith(".capture"))
        taped = []
        for tape in tapes:
            taped += [("R", b"")] if taped else []
            taped += [(one.mark, one.data) for _, one in read_capture(kit.bytes_of(tape)).lines]
        self.same("as two tapes have it", [(one.mark, one.data) for _, one in capture.lines], taped)
        times = kit.bytes_of(path + ".times").splitlines()
        self.same("a time for each line", len(times), capture.lines[-1][0])
        ladder = lislab("ladder", path)
        self.same("its ladder", (ladder.returncode, "texts 7, differences 0, messages 2" in ladder.stdout), (0, True))

    def test_a_ladder_as_it_goes(self):
        """Rows as they are complete are the rows of a ladder of all; a long look holds no more."""
        good = frames(TEXTS)
        stream = ENQ + good[0] + good[1].replace(b"P", b"Q") + b"xx" + good[1] + b"\x02half" + EOT + ENQ + good[0]
        pieces = [ring.Piece(at, 1, ">", stream[at : at + 3]) for at in range(0, len(stream), 3)]
        half = stream.index(b"half") // 3 + 1
        pieces.insert(half, ring.Piece(half, 1, "<", NAK))  # a reply within a frame that no LF ends
        whole = Ladder(ring.capture_of(pieces, False)).rows
        for step in (1, 7, 1000):
            live = LiveLadder(240)
            rows = [row for at in range(0, len(pieces), step) for row in live.grow(pieces[at : at + step])]
            live.close()
            self.same(f"{step} pieces at once", [row.title for row in rows], [row.title for row in whole[: len(rows)]])
            self.true(f"{step} pieces at once: all but what is open", len(rows) >= len(whole) - 1, str(len(rows)))
        live = LiveLadder(240)
        for at in range(200):
            list(live.grow([ring.Piece(at, 1, ">", session(TEXTS))]))
        self.true("what is held of a long look", len(live.rows) <= 100 and not live.texts, str(len(live.rows)))
        live.close()

    def test_a_line_as_it_goes(self):
        """`watch --line` prints rows as they come, and goes on with the host that is started after one that was killed;
        `watch` that isn't a terminal prints a row when its line changes."""
        host, rows, states = Host(self.path("goes.db"), scale=1.0), [], []
        for words, found in ((["--line", "fire"], rows), ([], states)):
            words = ["-m", "lislab", "watch", "--store", host.store, "--every", "0.1", *words]
            one = process(words, stdout=subprocess.PIPE, stderr=subprocess.STDOUT)
            threading.Thread(target=lambda one=one, found=found: found.extend(one.stdout), daemon=True).start()

        def has(found, text, count=1):
            return wait_for(lambda: sum(text in row for row in list(found)) >= count, WAIT)

        for number in (1, 2):
            with Client(host.port) as client:
                client.whole(TEXTS)
            self.true(f"session {number}: its rows", has(rows, "the session is ended", 2 * number - 1), str(rows))
            self.true(f"session {number}: the line's state", has(states, "last message", number), str(states))
            with Client(host.port) as client:
                client.asks(ENQ + EOT)
            more = has(rows, "the session is ended", 2 * number)
            self.true(f"session {number}: and what comes next", more, str(rows))
            self.same(f"session {number}: no row twice", sum("ENQ" in row for row in rows), 2 * number)
            host.kill()
            self.true(f"session {number}: no host", has(states, "the host isn't running", number), str(states))
            if number == 1:
                host.start()
        self.true("that is said in the ladder", has(rows, "-- "), str(rows))

    def test_ring(self):
        """A ring has the last bytes in its room, whole pieces, each with its number."""
        one = ring.Ring(1000)
        for number in range(500):
            one.add(1, b">", b"%03d" % number)
        first, held = one.after(0)
        pieces = list(ring.pieces_of(held))
        self.true("its room", len(held) <= 1000 < len(held) + 20 + 1000 // ring.SPARE, str(len(held)))
        self.same("the last pieces", [int(piece.data) for piece in pieces], list(range(first, 500)))
        self.same("the pieces from one on", one.after(498)[0], 498)
        self.same("none is new", one.after(500), (500, b""))
        one.add(1, b"<", bytes(5000))
        self.same("a piece that is too long", len(list(ring.pieces_of(one.after(0)[1]))[-1].data), 500)
        cut = [ring.Piece(1, 1, ">", b"rest\x04"), ring.Piece(2, 1, "<", ACK), ring.Piece(3, 1, ">", b"x" + ENQ + b"y")]
        lines = [(line.mark, line.data) for _, line in ring.capture_of(cut, True).lines]
        self.same("one whose beginning is gone", lines, [(">", ENQ + b"y")])
        self.same("one that is whole", len(ring.capture_of(cut, False).lines), 3)

    def test_socket(self):
        """The socket is its owner's alone; no question hurts the host, and who takes no answer doesn't hold it up."""
        host = Host(self.path("socket.db"), scale=1.0)
        path = host.store + ".watch"
        self.same("its mode", stat.S_IMODE(os.stat(path).st_mode), 0o600)
        for question in (b"", b"\n", b"[]\n", b"{}\n", b'{"ask":"ring","line":"no"}\n', b"\xff\n", b"x" * 100000,
                         b'{"ask":"ring","line":"fire","after":[]}\n', b'{"ask": "lines"'):
            with socket.socket(socket.AF_UNIX) as one, contextlib.suppress(OSError):
                one.connect(path)
                one.sendall(question)
        with self.assertRaisesRegex(WatchError, "there is no line no, but fire$"):
            ask(path, ask="ring", line="no")
        idle = []
        for _ in range(40):
            idle.append(socket.socket(socket.AF_UNIX))
            idle[-1].connect(path)
        with Client(host.port) as client:
            self.true("a session meanwhile", client.whole(TEXTS))
        for one in idle:
            one.close()
        self.true("it answers after them", wait_for(lambda: self.answers(path), WAIT))
        self.true("nothing is closed after an error", "after an error" not in host.says(), host.says())
        self.same("the host's status", host.stop(), 0)
        self.true("it is gone with the host", not os.path.exists(path))

    @staticmethod
    def answers(path):
        """Whether the host answers."""
        with contextlib.suppress(WatchError):
            return bool(ask(path, ask="lines")[0]["lines"])
        return False

    def test_no_socket(self):
        """A host that can have no socket serves all the same, and says why."""
        folder = self.path("x" * 120)
        os.mkdir(folder)
        host = Host(os.path.join(folder, "lab.db"), scale=1.0)
        self.says("it is said", host, "lislab watch can't connect: ")
        with Client(host.port) as client:
            self.true("it serves", client.whole(TEXTS))
        told = lislab("watch", "--store", host.store, "--once")
        self.same("status", told.returncode, 1)
        self.has("what is said", told.stdout, "the host runs, and doesn't answer: ")
