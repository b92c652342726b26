"""Telnet on a line: a small terminal server, written from RFC 854, 856 and 858 over no code of this repository."""
import random
import socket

from lislab.model import lines, options
from lislab.host.telnet import Telnet
from lislab.model.books import open_book
from lislink.order import Order
from tests.host.hosts import Found, Host, HostTest, wait_for
from tests.host.plain import ACK, ENQ, EOT, Plain, frame, samples_of
from tests.host.test_orders import states

IAC, DONT, DO, WONT, WILL, SB, SE, NOP = (bytes([one]) for one in (255, 254, 253, 252, 251, 250, 240, 241))
BINARY, ECHO, GO_AHEAD, KIND = b"\0", b"\x01", b"\x03", b"\x18"
#: What a terminal server asks for when a connection begins, and what a host must answer.
ASKED = b"".join([IAC + DO + ECHO, IAC + WILL + ECHO, IAC + NOP, IAC + DO + GO_AHEAD, IAC + WILL + GO_AHEAD,
                  IAC + DO + KIND, IAC + SB + KIND + b"\x01\r\0\x05" + IAC + IAC + IAC + SE, IAC + DO + GO_AHEAD])
ANSWERED = [WONT + ECHO, DONT + ECHO, WILL + GO_AHEAD, DO + GO_AHEAD, WONT + KIND]
#: A message whose records are in one text, with CR in it and FF, which a line must fix.
TEXT = b"H|\\^&\rP|1\rO|1|S7\rR|1|^^^GLU|5.4\rC|1|I|\xff\rL|1|N\r"
KEPT = TEXT.replace(b"\xff", b"&XFF&")


def encoded(data, binary=False):
    """Bytes of the line as a terminal server sends them."""
    out = b""
    for place, byte in enumerate(data):
        out += bytes([byte])
        if byte == 255:
            out += IAC
        elif byte == 13 and not binary and data[place + 1 : place + 2] != b"\n":
            out += b"\0"
    return out


class Terminal:
    """A terminal server's end of a connection, as a socket of the line after it: it encodes what goes to the host,
    and decodes what comes. `answers` are the host's to its requests."""

    def __init__(self, connection):
        self.connection, self.answers, self.left, self.binary = connection, [], b"", False
        self.raw, self.ours = b"", False

    def ask(self, data):
        """Sends requests as they are."""
        self.connection.sendall(data)

    def sendall(self, data):
        """Sends bytes of the line."""
        self.connection.sendall(encoded(data, self.ours))

    def settimeout(self, seconds):
        """How long `recv` waits."""
        self.connection.settimeout(seconds)

    def setsockopt(self, *words):
        """As a socket."""
        self.connection.setsockopt(*words)

    def recv(self, size):
        """Bytes of the line; nothing at its end."""
        while True:
            found = self.decoded()
            if found:
                return found
            more = self.connection.recv(size)
            if not more:
                return b""
            self.raw += more

    def decoded(self):
        """The bytes of the line in what came."""
        out = b""
        while self.raw:
            if self.raw[:1] == IAC:
                if self.raw[1:2] == IAC:
                    out += IAC
                    self.raw = self.raw[2:]
                    continue
                if len(self.raw) < 3:
                    break
                self.answers.append(self.raw[1:3])
                self.binary = self.binary or self.raw[1:3] == WILL + BINARY
                self.raw = self.raw[3:]
            elif self.raw[:1] == b"\r" and not self.binary:
                if len(self.raw) < 2:
                    break
                assert self.raw[1:2] in b"\0\n", "CR is followed by NUL or LF"
                out += self.raw[:2].rstrip(b"\0")
                self.raw = self.raw[2:]
            else:
                out += self.raw[:1]
                self.raw = self.raw[1:]
        return out

    def close(self):
        """Closes the connection."""
        self.connection.close()


class Terminals(HostTest):
    """A host on ports of a terminal server."""

    def served(self, terminal):
        """Plays an analyzer at a terminal server: in plain Telnet, in binary, and in plain Telnet again."""
        terminal.ask(ASKED)
        one = Plain(0, 1.0, line=terminal)
        one.send([TEXT])
        self.same("what is answered", terminal.answers, ANSWERED)
        terminal.ask(IAC + WILL + BINARY + IAC + DO + BINARY + IAC + WILL + BINARY)
        terminal.ours = True
        one.send([TEXT])
        self.same("binary is taken, once", terminal.answers, [*ANSWERED, DO + BINARY, WILL + BINARY])
        terminal.ask(IAC + WONT + BINARY + IAC + DONT + BINARY)
        terminal.ours = False
        one.send([TEXT])
        self.same("and given up", terminal.answers[-2:], [DONT + BINARY, WONT + BINARY])

    def test_connect(self):
        """A host that calls a terminal server, and one that is called by it."""
        server = socket.create_server(("127.0.0.1", 0))
        self.addCleanup(server.close)
        server.settimeout(60)
        called = f"127.0.0.1:{server.getsockname()[1]},name=calls,telnet=yes,fix=bytes"
        words = ["--connect", called, "--listen", "0,name=called,telnet=yes,fix=bytes"]
        host = Host(self.path("telnet.db"), *words, scale=1.0, listen=False)
        port = next(int(row.split()[1].rsplit(":", 1)[1]) for row in host.rows if row.endswith(" called\n"))
        for connection in (server.accept()[0], socket.create_connection(("127.0.0.1", port))):
            self.addCleanup(connection.close)
            self.served(Terminal(connection))
        self.true("all are kept", wait_for(lambda: len(Found(host.store).whole) == 6, 60))
        self.same("the host's status", host.stop(), 0)
        found = Found(host.store)
        self.same("delivered", {one.body for one in found.whole}, {KEPT})
        self.same("what came, without Telnet's bytes", {one.body for one in found.others}, {TEXT})

    def test_orders(self):
        """What the host sends itself is Telnet too."""
        server, store = socket.create_server(("127.0.0.1", 0)), self.path("orders.db")
        self.addCleanup(server.close)
        server.settimeout(60)
        book = open_book(store)
        book.add([Order("S7", ("GLU", "K"))])
        book.close()
        where = f"127.0.0.1:{server.getsockname()[1]},name=a,orders=download,telnet=yes"
        host = Host(store, "--connect", where, scale=1.0, listen=False)
        terminal = Terminal(server.accept()[0])
        self.addCleanup(terminal.close)
        terminal.ask(ASKED)
        self.same("the orders", samples_of(Plain(0, 1.0, line=terminal).take(60)), ["S7"])
        self.true("they are sent", wait_for(lambda: states(store) == {"S7": "sent"}, 60), states(store))
        self.same("the host's status", host.stop(), 0)

    def test_without(self):
        """A line that doesn't say telnet=yes keeps Telnet's bytes; one that does takes out no more than these."""
        host = Host(self.path("without.db"), "--listen", "0,name=t,telnet=yes", scale=1.0)
        port = next(int(row.split()[1].rsplit(":", 1)[1]) for row in host.rows if row.endswith(" t\n"))
        text = TEXT.replace(b"\xff", b"x")
        for where in (host.port, port):
            for data in (encoded(frame(1, text)), frame(1, text)):
                one = Plain(where, 1.0)
                one.put(ENQ)
                self.same(f"{where}: ENQ", one.byte(60), ACK)
                one.put(data)
                self.same(f"{where}: {data[:20]!r}", one.byte(60), ACK)
                one.put(EOT)
                one.close()
        self.true("all are kept", wait_for(lambda: len(Found(host.store).whole) == 3, 60))
        self.same("the host's status", host.stop(), 0)
        found = Found(host.store)
        whole, others = (sorted((one.line, one.body) for one in some) for some in (found.whole, found.others))
        self.same("delivered", whole, [("fire", text), ("t", text), ("t", text)])
        self.same("unreadable", others, [("fire", text.replace(b"\r", b"\r\0"))])

    def test_cuts(self):
        """Random bytes with Telnet's between them, cut anywhere, are what they were; what is written reads back."""
        rng = random.Random(3)
        between = [IAC + NOP, IAC + SB + KIND + b"\r\0x" + IAC + IAC + b"y" + IAC + SE, IAC + DONT + ECHO]
        for turn in range(300):
            binary, data, sent = rng.random() < 0.5, b"", IAC + WILL + BINARY
            sent = sent if binary else b""
            for _ in range(rng.randrange(1, 9)):
                piece = bytes(rng.choices(b"\r\n\0\xffAB\x02\x03", k=rng.randrange(1, 6))) + b"C"
                data, sent = data + piece, sent + encoded(piece, binary) + rng.choice([*between, b""])
            one, found, at = Telnet(), b"", 0
            while at < len(sent):
                size = rng.randrange(1, 6)
                found, at = found + one.heard(sent[at : at + size])[0], at + size
            self.same(f"{turn}: {sent!r}", found, data)
            self.same(f"{turn}: written", Telnet().heard(Telnet().written(data))[0], data)
            both = Telnet()
            both.heard(IAC + DO + BINARY)
            self.same(f"{turn}: written in binary", both.written(data), data.replace(IAC, IAC + IAC))

    def test_words(self):
        """The setting in the words of a line, and in a file of lines."""
        given = [options.listen_of(f"0{word}").telnet for word in ("", ",telnet=yes", ",telnet=no")]
        self.same("of a port", given, ["", "yes", ""])
        with open(self.path("telnet.lines"), "w", encoding="ascii") as file:
            file.write("[a]\nconnect = 1\ntelnet = yes\n[b]\nserial = /dev/x:9600\ntelnet = yes\n")
            file.write("[c]\nlisten = 2\ntelnet = on\n")
        found = lines.read_lines(file.name, [])
        shown = ["a: connect=127.0.0.1:1 frame=240 encoding=iso8859-1 telnet=yes"]
        self.same("as it is shown", [lines.text_of(one) for one in found.places], shown)
        rows = [row.split(":", 1)[1][:30] for row in found.faults]
        self.same("faults", rows, ["6: there is no setting telnet:", "9: telnet is yes or no, not on"])
