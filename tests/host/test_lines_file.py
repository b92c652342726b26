"""One file for all lines: what it may say, each fault with its row, and what changes when it is read again."""
import asyncio
import contextlib
import json
import os
import select
import signal
import socket
import unittest.mock

from lislink import frame_bytes
from lislab.model import lines, options
from lislab.host import ports, wires
from lislink.link import LONG_FRAME_TEXT
from tests.host import hosts
from tests.host.hosts import (
    ENV,
    Found,
    Host,
    HostTest,
    acknowledged,
    lislab,
    process,
    sending,
    trouble,
    wait_for,
)
from tests.host.test_lines import ACK, ENQ, EOT, NAK, TEXTS, Chained, Client, frames

#: What is said after the file was read again, and after one that has a fault.
TAKEN, LEFT = "the lines are read again: ", "the lines file has faults"
#: Timers that don't run out on a busy machine.
SLOW = 1.0
GOOD = """\
# Lines of a laboratory.
[chemistry]
listen = 10.0.5.2:4001
allow = 10.0.5.0/24, 10.0.6.7
    10.0.7.0/24
orders = query

; a blank row and a comment end no section
[haematology 2]
listen = [2001:db8::7]:4001
allow = 2001:db8::/32
encoding = gbk
frame = 63993
[coagulation]
serial = /dev/ttyUSB0:9600
mode = 7E1
flow = xonxoff
sample = O.4.3
test = 5
zone = Europe/Berlin
letters = mark
twice = deliver
"""
SHOWN = """\
chemistry: listen=10.0.5.2:4001 frame=240 encoding=iso8859-1 allow=10.0.5.0/24,10.0.6.7/32,10.0.7.0/24 orders=query \
none=L-I
haematology 2: listen=[2001:db8::7]:4001 frame=63993 encoding=gbk allow=2001:db8::/32
coagulation: serial=/dev/ttyUSB0:9600 mode=7E1 flow=xonxoff frame=240 encoding=iso8859-1 sample=O.4.3 test=5 \
zone=Europe/Berlin letters=mark twice=deliver
lines 3 faults 0
"""
#: Files with faults: the row of each, and what is said of it.
FAULTS = (
    ("", [(1, "there is no line: [NAME], and below it listen or connect = HOST:PORT, or serial = DEVICE:SPEED")]),
    ("\n# no line\n", [(1, "there is no line")]),
    ("listen = 1\n[a]\nlisten = 2\n", [(1, "expected a line's name first, for example [chemistry]")]),
    ("[a]\nlisten = 1\n[b]\nlisten = 2\n[a]\nlisten = 3\n", [(5, "the name a is in row 1 too")]),
    ("[a]\nlisten = 1\n\nlisten = 2\n", [(4, "listen is there twice")]),
    ("[a]\nlisten = 1\nx = 2\n", [(3, "no setting x: a line with listen has allow, frame, encoding, orders, none")]),
    ("[a]\nserial = /dev/x:9600\nallow = 10.0.0.0/8\n", [(3, "a line with serial has mode, flow, frame, encoding,")]),
    ("[a]\nframe = 240\n", [(1, "a has no place: it is at one listen, connect or serial")]),
    ("[a]\nlisten = 1\nserial = /dev/x:1\n", [(1, "a has listen and serial: it is at one listen, connect or serial")]),
    ("[a]\nlisten = x\n", [(2, "x: expected HOST:PORT")]),
    ("[a]\nlisten =\n", [(2, "expected HOST:PORT")]),
    ("[a]\nserial = /dev/x\n", [(2, "expected DEVICE:SPEED, for example /dev/ttyUSB0:9600")]),
    ("[a]\nlisten = 1\nframe = 241\n", [(3, "at most 240 or 63993 bytes of text, not 241")]),
    ("[a]\nlisten = 1\nencoding = latin-77\n", [(3, "no encoding latin-77: name one, for example latin-1,")]),
    ("[a]\nlisten = 1\norders = yes\n", [(3, "orders is query or download, not yes")]),
    ("[a]\nlisten = 1\nnone = x\n", [(3, "none is L-I, Q-X, silence, not x")]),
    ("[a]\nlisten = 1\nallow = 10.0.0.0/99\n", [(3, "expected a network, for example 10.0.5.0/24")]),
    ("[a]\nserial = /dev/x:9600\nmode = 9\n", [(3, "data bits, parity and stop bits, for example 8N1")]),
    ("[a]\nserial = /dev/x:9600\nflow = x\n", [(3, "flow control is none, rtscts or xonxoff")]),
    ("[a]\nlisten = 1\nsample = R.3\n", [(3, "R.3: the sample is O.3, O.4, a component such as O.4.3, or none")]),
    ("[a]\nlisten = 1\ntest = 0\n", [(3, "0: the test is a component of R-3, for example 4, or several")]),
    ("[a]\nlisten = 1\nzone = Berlin\n", [(3, "there is no time zone Berlin: name one, for example Europe/Berlin")]),
    ("[a]\nlisten = 1\nletters = x\n", [(3, "expected quarantine or mark, not x")]),
    ("[a]\nlisten = 1\ntwice = x\n", [(3, "expected quarantine or deliver, not x")]),
    ("[a]\nlisten = 1\n  frame = 240\n", [(2, "has one word; a row that begins with a space belongs to")]),
    ("[a]\nlisten = 1\nframe\n", [(3, "a row is KEY = VALUE, [NAME], or a comment after #")]),
    ("[a]\nlisten = 10.0.0.1:4001\n", [(2, "10.0.0.1:4001 isn't loopback: name the networks that may connect")]),
    ("[a]\nlisten = 1\n[b]\nlisten = 127.0.0.1:1\n", [(4, "the port 127.0.0.1:1 is in row 2 too")]),
    ("[a]\nserial = /dev/x:1\n[b]\nserial = /dev/x:2\n", [(4, "the device /dev/x is in row 2 too")]),
    ("[ ]\nlisten = 1\n", [(1, "expected the name of a line")]),
    (
        "[a]\nlisten = 1\nname\nframe = 0\n[b]\nframe = 1\nlisten = y\n[c]\n",
        [(3, "a row is"), (6, "240"), (7, "y: expected HOST:PORT"), (8, "c has no place")],
    ),
)


def sections(**places):
    """A file of lines: the rows of each line by its name."""
    return "".join(f"[{name}]\n{rows}\n" for name, rows in places.items())


class LinesFile(HostTest):
    """Files of lines."""

    def written(self, name, text):
        """A file of this test."""
        with open(self.path(name), "wb") as file:
            file.write(text if isinstance(text, bytes) else text.encode())
        return self.path(name)

    def begun(self, name, text, *words):
        """A host whose lines are in a file, and the file."""
        file = self.written(f"{name}.lines", text)
        return Host(self.path(f"{name}.db"), "--lines", file, *words, scale=SLOW, listen=False), file

    def reload(self, host, file, text, said=TAKEN):
        """Has a host read the file again, in which this is now."""
        before = host.says().count(said)
        self.written(os.path.basename(file), text)
        os.kill(host.process.pid, signal.SIGHUP)
        self.true(f"it says {said}", wait_for(lambda: host.says().count(said) > before), host.says()[-500:])

    def port(self, host, name):
        """The port of a line, as the host announced it at its start."""
        return next(int(row.split()[1].rsplit(":", 1)[1]) for row in host.rows if row.endswith(f" {name}\n"))

    def states(self, host):
        """What a host that was stopped has counted of each line."""
        with open(host.store + ".status", encoding="utf-8") as file:
            return json.load(file)["lines"]

    def test_command(self):
        """`lislab lines` prints each line and its settings, or each fault with its row. It needs no library."""
        env = {**ENV, "LISLINK_LIBRARY": self.path("none.so")}
        file, usual = self.path("command.lines"), "frame=240 encoding=iso8859-1\n"
        fault = f"{file}:4: a frame has at most 240 or 63993 bytes of text, not 1\n"
        networks = ["--allow", "10.0.0.0/8"]
        for text, words, status, shown in (
            (GOOD, [], 0, SHOWN),
            ("\ufeff[a]\r\nlisten = 4001\r\n", [], 0, f"a: listen=127.0.0.1:4001 {usual}lines 1 faults 0\n"),
            ("[a]\nlisten = 0.0.0.0:1\n", networks, 0, f"a: listen=0.0.0.0:1 {usual}lines 1 faults 0\n"),
            (
                "[a]\nlisten = 1\n[b]\nframe = 1\nlisten = 2\n",
                [],
                1,
                f"a: listen=127.0.0.1:1 {usual}{fault}lines 1 faults 1\n",
            ),
        ):
            self.written("command.lines", text)
            one = process(["-m", "lislab", "lines", file, *words], stdout=-1, stderr=-1, env=env)
            said = (*one.communicate(), one.returncode)
            self.same(f"{text!r}", said, (shown, "", status))

    def test_faults(self):
        """Each kind of fault, with its row and what is right."""
        for text, wanted in FAULTS:
            file = self.written("faults.lines", text)
            found = lines.read_lines(file, []).faults
            rows = [one.startswith(f"{file}:{row}: ") and why in one for one, (row, why) in zip(found, wanted)]
            self.same(f"{text!r}: {found}", rows, [True] * len(wanted))
            self.same(f"{text!r}: so many faults", len(found), len(wanted))
        file = self.written("faults.lines", b"[a]\nlisten = 1\n# \xff\n")
        wanted = [f"{file}:3: a lines file is written in UTF-8"]
        self.same("bytes of another encoding", lines.read_lines(file, []).faults, wanted)

    def test_start(self):
        """A host doesn't start with a fault, with a name that is there twice, or with two files."""
        good = self.written("good.lines", "[a]\nlisten = 0\n")
        bad = self.written("bad.lines", "[a]\nlisten = 0\nframe = 1\n")
        for words, status, why in (
            (["--lines", bad], 2, f"{bad}:3: a frame has at most 240"),
            (["--lines", good, "--listen", "0,name=a"], 2, "a is the name of a line that an option names too"),
            (["--lines", good, "--lines", bad], 2, "only one lines file is read"),
            (["--lines", self.path("none.lines")], 3, "No such file"),
            (["--lines", "5"], 2, "name a line by --listen, --connect or --serial, or a lines file by --lines"),
        ):
            done = lislab("serve", "--store", self.path("start.db"), *words)
            self.true(f"{words}", done.returncode == status and why in done.stderr, done.stderr)

    def test_allow(self):
        """The networks of a line are those of --allow and its own; other lines have none of them."""
        for given, wanted in (("10.0.5.0/24", True), ("10.0.6.0/24 10.0.5.7/32", True), ("10.0.6.0/24", False)):
            transport = unittest.mock.create_autospec(asyncio.Transport, instance=True)
            transport.get_extra_info.side_effect = {"peername": ("10.0.5.7", 1), "socket": unittest.mock.Mock()}.get
            host = unittest.mock.Mock(stopping=False, refused=0)
            host.asked.networks = options.networks_of(["192.0.2.0/24"])
            text = f"[a]\nlisten = 10.0.5.2:4001\nallow = {given}\n"
            (place,) = lines.lines_of(self.written("allow.lines", text), []).places
            wires.TcpWire(ports.Port(host, place), host.ticks).connection_made(transport)
            self.same(f"{given}: 10.0.5.7 is let in", host.add.call_count == 1, wanted)

    def test_reloads(self):
        """Read again and again while analyzers send: no acknowledged message is lost, no session is cut, and no
        connection of the line that stays is closed."""
        stays, turns = "listen = 127.0.0.1:0", hosts.size("reloads")
        staying, changing = 3 * turns // 20, turns // 10
        host, file = self.begun("load", sections(stays=stays, changes=stays))
        log = self.path("load.log")
        words = ["--made", "1000000", "--rate", "8", "--tries", "0", "--log", log]
        senders = [
            sending(self.port(host, name), *words, "--analyzers", str(count), "--name", name, scale=SLOW)
            for name, count in (("stays", staying), ("changes", changing))
        ]

        def done(name):
            """How many messages of this line are acknowledged."""
            return sum(one[0].startswith(name) for one in acknowledged(log))

        self.true("they send", wait_for(lambda: done("stays") and done("changes")))
        for turn in range(turns):
            before, encoding = done("changes"), ("gbk", "latin-1")[turn % 2]
            self.reload(host, file, sections(stays=stays, changes=f"{stays}\nencoding = {encoding}"))
            if turn % 2:
                self.true(f"the other line goes on, {turn}", wait_for(lambda: done("changes") > before))
        before = done("stays")
        self.true("the line that stays goes on", wait_for(lambda: done("stays") > before))
        self.same("messages of sessions that were cut", Found(host.store).others, [])
        for one in senders:
            one.kill()
            one.wait()
        self.same("the host's status", host.stop(), 0)
        self.same("acknowledged messages that are lost", Found(host.store).lost(log), [])
        states = self.states(host)
        self.same("connections of the line that stays", states["stays"]["connections"], staying)
        self.true("those of the other one were closed", states["changes"]["connections"] > 2 * changing,
                  repr(states["changes"]))
        kept = len(acknowledged(log))
        hosts.say(f"lines: {turns} reloads under {staying + changing} analyzers, {kept} messages acknowledged")

    def test_two_hundred_lines(self):
        """Two hundred lines of one file: each has its port, and all but the one that changes go on."""
        names = [f"line{number}" for number in range(200)]
        places = dict.fromkeys(names, "listen = 127.0.0.1:0")
        host, file = self.begun("many", sections(**places))
        told = lislab("lines", file, timeout=300).stdout.splitlines()[-1]
        self.same("lislab lines", told, "lines 200 faults 0")
        self.same("ports", len({self.port(host, name) for name in names}), 200)
        open_ones = [Client(self.port(host, name)) for name in names[::20]]
        self.reload(host, file, sections(**{**places, "line7": "listen = 127.0.0.1:0\nframe = 63993"}))
        for one in open_ones:
            self.true("a session after the file was read again", one.whole(TEXTS))
            one.socket.close()
        self.same("the host's status", host.stop(), 0)
        self.same("messages", len(Found(host.store).whole), len(open_ones))

    def test_changes(self):
        """A session that goes on ends as it began; then the new settings are in force. Lines come and go."""
        rows = "listen = 127.0.0.1:0"
        host, file = self.begun("changes", sections(long=rows, goes=rows, stays=rows), "--listen", "0,name=named")
        ports = {name: self.port(host, name) for name in ("long", "goes", "stays", "named")}
        texts = [TEXTS[0], b"C|1|I|" + b"x" * 500 + b"\r", TEXTS[-1]]
        long = [frame_bytes(place, True, text, frame_limit=LONG_FRAME_TEXT) for place, text in enumerate(texts, 1)]
        with contextlib.ExitStack() as stack:
            open_, goes, idle, named = (stack.enter_context(Client(port)) for port in ports.values())
            self.same("they are heard", [one.asks(ENQ) for one in (open_, named)], [ACK] * 2)
            taken = stack.enter_context(socket.create_server(("127.0.0.1", 0)))
            new = sections(
                long=f"{rows}\nframe = 63993\norders = query",
                stays=rows,
                blocked=f"listen = {taken.getsockname()[1]}",
                comes=f"listen = {ports['goes']}",
            )
            self.reload(host, file, new.replace("63993", "63994"), LEFT)
            self.says("the fault is said", host, f"lislab: {file}:3: a frame has at most 240 or 63993 bytes")
            self.same("nothing is closed", [one.asks(ENQ + EOT) for one in (goes, idle)], [ACK] * 2)
            self.reload(host, file, new)
            self.says("what it did", host, "2 closed, 3 opened, 2 as they were")
            self.says("a port that is taken is said", host, "blocked: ")
            self.true("a line that is gone is closed", goes.is_closed())
            self.same("the others go on", [idle.asks(ENQ), named.asks(frames(TEXTS)[0])], [ACK] * 2)
            self.same("an open session goes on as it was", [open_.asks(one) for one in long[:2]], [ACK, NAK])
            open_.send(EOT)
            self.true("and is closed at its end", open_.is_closed())
            after = stack.enter_context(Client(ports["long"]))
            self.same("the new setting", [after.asks(one) for one in (ENQ, *long)], [ACK] * 4)
            after.send(EOT)
            self.true("a new line", stack.enter_context(Client(ports["goes"])).whole(TEXTS))
        order = self.written("order.csv", "sample,tests\nS7,GLU\n")
        self.same("an order", lislab("order", "add", "--store", host.store, order).returncode, 0)
        asked = lislab("send", "--to", f"127.0.0.1:{ports['long']}", "--scale", str(SLOW), "--query", "S7")
        self.has("a line that sends orders now", asked.stdout, "O|1|S7||^^^GLU")
        self.same("the host's status", host.stop(), 0)
        self.true("the new line's name", "comes" in [one.line for one in Found(host.store).whole])

    def test_enq_behind_eot(self):
        """A line whose analyzer sends ENQ right after EOT has its new settings after a reload all the same."""
        host, file = self.begun("behind", sections(a="listen = 0"))
        with Client(self.port(host, "a")) as client:
            self.same("a session", client.asks(ENQ), ACK)
            analyzer = Chained(client)
            analyzer.start()
            self.reload(host, file, sections(a="listen = 0\nencoding = gbk"))
            self.same("its connection is closed", analyzer.ends(), "between sessions")
        self.same("the host's status", host.stop(), 0)
        found = Found(host.store)
        self.same("sessions that were cut", [one.reason for one in found.others], [])

    def test_serial(self):
        """A serial line that changed is closed between sessions, and its device opened again."""
        master, device = self.terminal()
        rows = f"serial = {device}:9600"
        host, file = self.begun("serial", sections(old=rows))

        def asks(data):
            os.write(master, data)
            ready, _, _ = select.select([master], [], [], 10)
            return os.read(master, 1) if ready else b""

        for unit in (ENQ, *frames(TEXTS)[:2]):
            self.same(f"{unit!r}", asks(unit), ACK)
        self.reload(host, file, sections(new=rows))
        for unit in frames(TEXTS)[2:]:
            self.same(f"the open session goes on: {unit!r}", asks(unit), ACK)
        os.write(master, EOT)

        def is_new():
            """Whether the line has its new name."""
            return all(asks(unit) == ACK for unit in (ENQ, *frames(TEXTS))) and os.write(master, EOT)

        self.true("the device is open again", wait_for(lambda: self.is_open(host, "new")))
        self.true("a session", is_new())
        self.true("it is kept", wait_for(lambda: len(Found(host.store).whole) == 2))
        self.same("the host's status", host.stop(), 0)
        self.same("the lines of its messages", [one.line for one in Found(host.store).whole], ["old", "new"])
        said = [f"lislab: {TAKEN}1 closed, 1 opened, 0 as they were"]
        self.same("what is said", trouble(host.errors[-1]), said)
        for name, what in (("old", "open"), ("old", "closed since its settings changed; "), ("new", "open")):
            self.has("what the line does", host.errors[-1], f"lislab: {name}: {device}: {what}")

    def is_open(self, host, name):
        """Whether a line of a host that runs is connected, as its state says."""
        return self.states(host).get(name, {}).get("connected") == 1
