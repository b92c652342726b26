"""What a host says of lines with trouble: where, and which byte or code; never what a record says, and not too
often."""
import json
import os
import re
import select
import time

from lislink import FrameFault
from lislab.diagnosis.events import Came, Meant
from lislab.diagnosis.notices import CONNECTION, FRAME, LETTERS, Notices
from lislab.diagnosis.pulse import Probe, Pulse
from lislink.letters import NOT_LATIN, UTF_8, Letters, looks_like
from lislink.link import Note, Step
from lislab.model.books import open_book
from lislink.order import Order
from tests.host.hosts import Found, Host, HostTest, lislab, see, trouble, wait_for
from tests.host.test_lines import ACK, ENQ, EOT, NAK, Client, frames, session

#: A patient's name, which no line may have.
NAME = b"SECRET"
#: Sessions that are acknowledged: their texts, and the reason that is said and kept.
ODD = (
    ([b"H|\\^&\r", b"P|1||" + NAME + b"\r", b"R|1|" + NAME + b"\r"],
     "invalid: record 3, from byte 18: no record above it that it belongs to: R"
     "; fix=last-l,orders would deliver it"),
    ([b"H|\\^&\r", b"P1" + NAME + b"\r"], "invalid: record 2, from byte 6: malformed: BAD_LETTER"),
    ([b"H|\\^&\r", b"P|1||" + NAME + b"\r"],
     "incomplete: the session ended before its L record, after record 2, at byte 18"
     "; fix=last-l would deliver it"),
    ([b"H|^^^\r"], "invalid: record 1, from byte 0: malformed: BAD_DELIMITERS"),
)


class Said(HostTest):
    """Notices on standard error."""

    def test_a_host(self):
        """Messages that aren't whole, sessions without a frame, bytes without a session: each is said by a line."""
        host = Host(self.path("notices.db"), scale=1.0)
        wanted = [f" is {why}\n" for _, why in ODD]
        for texts, _ in ODD:
            with Client(host.port) as client:
                self.true(f"{texts!r} is acknowledged", client.whole(texts))
        with Client(host.port) as client:
            bad = frames([b"P|1||" + NAME + b"\r"])[0].replace(b"S", b"T")
            self.same("bad sums", [client.asks(unit) for unit in (ENQ, bad, bad, bad)], [ACK, NAK, NAK, NAK])
            client.send(EOT)
        wanted.append(f"frame 1 of a session is rejected; it ends at byte {len(bad)} of the connection: SUM\n")
        wanted.append(f"no frame was accepted in a session, 3 rejected; the first one ends at byte {len(bad)} of the "
                      "connection: SUM\n")
        with Client(host.port) as client:
            client.asks(ENQ)
            client.send(b"H|\\^&|" + NAME + b"\r")
            client.send(EOT)
        wanted.append("no frame was accepted in a session, 13 bytes came; byte 1 of the connection is 0x48\n")
        with Client(host.port) as client:
            self.same("empty sessions", [client.asks(ENQ + EOT) for _ in range(9)], [ACK] * 9)
        wanted.append("5 sessions in a row had no byte after their ENQ: are the replies heard?\n")
        with Client(host.port) as client:
            client.send(b"H|\\^&|" + NAME + b"\r")
        wanted.append("13 bytes came without an ENQ that begins a session; byte 0 is 0x48\n")
        with Client(host.port) as client:
            client.whole([b"H|\\^&\rL|1\r"])
        with Client(host.port) as client:
            client.asks(session([b"H|\\^&\r", *[b"C|1|I|" + b"x" * 190 + b"\r"] * 6, b"L|1\r"]), 9)
        tried = sum(why.endswith(" would deliver it") for _, why in ODD)
        self.true("tried", wait_for(lambda: host.says().count(" would deliver it") == tried), host.says())
        self.same("the host's status", host.stop(), 0)
        self.are_said(host.errors[-1], wanted)
        found = Found(host.store)
        reasons = [f"{one.state}: {one.reason}" for one in found.others]
        self.same("the reasons are kept", reasons, [why for _, why in ODD])
        self.same("what can be read is whole", [len(one.body) for one in found.whole], [10, 1192])

    def are_said(self, said, wanted):
        """Whether these are the lines, besides those about connections."""
        rows = [row + "\n" for row in trouble(said)]
        left_out = [row for row in rows if row.endswith(" events of kind connection were suppressed\n")]
        self.same("connections that are suppressed, in one line", len(left_out), 1)
        rows = [row for row in rows if row not in left_out]
        for row in wanted:
            self.same(f"one line: {row!r}", len([one for one in rows if one.endswith(row)]), 1)
        self.same("no other lines", len(rows), len(wanted))
        self.true("each names its line", all(row.startswith("lislab: fire: 127.0.0.1: ") for row in rows), str(rows))
        self.true("no patient's data", NAME.decode() not in said)

    def test_a_bad_line(self):
        """A line that is bad all the time has some lines at once, and then one now and then; the others have theirs."""
        now, said = [0.0], []
        notices = Notices(said.append, lambda: now[0])
        for _ in range(3600):
            notices.say("bad", "x")
            now[0] += 1
        self.true("some of an hour's", 50 <= len(said) <= 150, str(len(said)))
        self.same("how many were suppressed", said[-1], "bad: x (29 earlier ones were suppressed)")
        notices.say("good", "y")
        self.same("another line's", said[-1], "good: y")
        notices.say("bad", "z", FRAME)
        self.same("another kind", said[-1], "bad: z")
        for _ in range(40):
            notices.say("bad", "z", FRAME)
        self.same("those of another kind at once", said.count("bad: z"), 10)
        notices.say_dropped()
        self.same("nothing more for now", said[-1], "bad: z")
        now[0] += 30
        notices.say_dropped()
        row = "bad: 31 events of kind frame were suppressed"
        self.same("it is said how many were not, with no other one", said[-1], row)
        notices.say_dropped(True)
        self.same("once", said.count(row), 1)
        self.same("counts", (notices.counts["bad"], notices.not_said["bad"][FRAME]), ({"other": 3600, FRAME: 41}, 31))

    def test_letters(self):
        """A complete message whose letters look like those of another encoding is said, once, wherever it is cut."""
        host = Host(self.path("letters.db"), "--listen", "0,name=named,encoding=utf-8", scale=1.0)
        named = next(int(row.split()[1].rsplit(":", 1)[1]) for row in host.rows if row.endswith(" named\n"))
        names = [("Zoë", "latin-1"), ("Zoë", "utf-8"), ("“Zoë”", "cp1252"), ("Zoe", "ascii")]
        for port in (host.port, named):
            with Client(port) as client:
                for text, name in names:
                    texts = [b"H|\\^&\r", b"P|1||4711||" + text.encode(name) + b"\r", b"L|1\r"]
                    self.true(f"{text} in {name} is acknowledged", client.whole(texts))
        self.same("the host's status", host.stop(), 0)
        said = [row.split(": its letters are ")[1] for row in trouble(host.errors[-1]) if "letters" in row]
        at_last = "and the line's encoding is iso8859-1"
        self.same("what is said", said, [f"{look}, {at_last}" for look in (UTF_8, NOT_LATIN)])
        data = json.loads(lislab("status", "--store", host.store, "--json").stdout)
        self.same("counted", data["notices"]["fire"][LETTERS], 2)
        for text in ("“Zo”, 病人^\r".encode(name) for name in ("utf-8", "gbk")):
            for first in range(len(text) + 1):
                for second in range(first, len(text) + 1):
                    letters = Letters()
                    for piece in (text[:first], text[first:second], text[second:]):
                        letters.take(piece)
                    self.same(f"cut at {first} and {second}", letters.look(), looks_like(text))

    def test_bad_sessions(self):
        """A thousand bad sessions make no thousand lines."""
        host = Host(self.path("flood.db"), scale=1.0)
        with Client(host.port) as client:
            for _ in range(100):
                client.whole([b"H|\\^&\r", b"R|1\r"])
        time.sleep(0.1)
        self.same("the host's status", host.stop(), 0)
        self.same("all are kept", len(Found(host.store).others), 100)
        rows = host.errors[-1].count("\n")
        self.true("some lines", 5 <= rows <= 20, str(rows))

    def test_frames(self):
        """The first rejection of each frame of a session is said, with the byte at which it ends."""
        said = []
        watch = Probe(Pulse(240, 1.0), say=lambda text, kind: said.append((kind, text)))
        bad, turn = (Step(NAK, None, note, 5, 0) for note in (Note.REFUSED, Note.OUT_OF_TURN))
        good, again = (Step(ACK, None, note, 0, 0) for note in (Note.ACCEPTED, Note.DUPLICATE))
        opened, ended = Step(ACK, None, Note.OPENED, 0, 0), Step(b"", None, Note.ENDED, 0, 0)
        for step in (opened, bad, bad, good, again, turn, bad, good, ended, opened, good, bad, ended):
            see(watch, Came(bytes(10)))
            see(watch, Meant(9, step))
        self.same("bad sums have this code", FrameFault(5), FrameFault.SUM)
        wanted = [
            (1, 19, "SUM"),
            (2, 59, "OUT_OF_TURN, number 5"),
            (2, 119, "SUM"),
        ]
        said_so = [
            (FRAME, f"frame {number} of a session is rejected; it ends at byte {byte} of the connection: {code}")
            for number, byte, code in wanted
        ]
        self.same("what is said", said, said_so)

    def test_lines_that_come_and_go(self):
        """A line that came or went is said with the reason and the bytes, and counted by the status."""
        host = Host(self.path("went.db"), "--idle", "6", "--listen", "0,name=other", scale=1.0)
        other = next(int(row.split()[1].rsplit(":", 1)[1]) for row in host.rows if row.endswith(" other\n"))
        with Client(host.port) as client:
            client.whole([b"H|\\^&\r", b"L|1\r"])
        wanted = ["closed by the other end; bytes 26, sessions 1"]
        self.true("it went", wait_for(lambda: wanted[0] in host.says(), 60), host.says())
        with Client(host.port) as client:
            client.asks(ENQ + EOT)
            self.true("a silent one is closed", client.is_closed(60))
        wanted.append("closed after 6 s of silence; bytes 2, sessions 1")
        with Client(other) as client:
            for _ in range(30):
                with Client(other):
                    pass
            client.asks(ENQ + EOT)
            came = lambda: json.loads(lislab("status", "--store", host.store, "--json").stdout)["lines"]  # noqa: E731
            self.true("all came", wait_for(lambda: {"other": 31}.items() <= {
                one["line"]: one["came"] for one in came()}.items()), came())
            self.same("the host's status", host.stop(), 0)
        rows = host.errors[-1].splitlines()
        wanted = [f"lislab: fire: 127.0.0.1: {one}" for text in wanted for one in ("connected", text)]
        self.same("what is said", [row for row in rows if row.startswith("lislab: fire:")], wanted)
        shown = lislab("status", "--store", host.store)
        data = json.loads(lislab("status", "--store", host.store, "--json").stdout)
        self.same("connections", {one["line"]: one["came"] for one in data["lines"]}, {"fire": 2, "other": 31})
        self.same("notices", data["notices"]["other"], {CONNECTION: 62})
        left_out = re.findall(r"other: (\d+) events of kind connection were suppressed", "\n".join(rows))
        left_out += re.findall(r"\((\d+) earlier ones were suppressed\)", "\n".join(rows))
        self.same("all are said or counted", sum(map(int, left_out)), data["not_said"]["other"][CONNECTION])
        self.true("not all are said", data["not_said"]["other"][CONNECTION] >= 40)
        self.has("for a reader", shown.stdout, "other: suppressed events: ")

    def test_late_reply(self):
        """A reply that comes after the host gave its own session up is said, and counted by the status."""
        master, device = self.terminal()
        store = self.path("late.db")
        book = open_book(store)
        book.add([Order("S7", ("GLU",))])
        book.close()
        host = Host(store, "--serial", f"{device}:9600,name=late,orders=download", listen=False)

        def byte():
            """What the host sends next."""
            ready, _, _ = select.select([master], [], [], 60)
            return os.read(master, 1) if ready else b""

        self.same("a session that isn't answered", [byte(), byte()], [ENQ, EOT])
        os.write(master, b"x" + ACK)
        self.same("the next one", byte(), ENQ)
        self.true("another byte is no reply", "after the host had given" not in host.says(), host.says())
        self.same("it isn't answered either", byte(), EOT)
        os.write(master, ACK)
        said = "a reply came after the host had given its session up: byte 2 of the connection is 0x06\n"
        said = f"lislab: late: {device}: {said}"
        self.true("it is said", wait_for(lambda: said in host.says(), 60), host.says())
        self.same("the host's status", host.stop(), 0)
        data = json.loads(lislab("status", "--store", store, "--json").stdout)
        self.same("it is counted", [one["late"] for one in data["lines"]], [1])
