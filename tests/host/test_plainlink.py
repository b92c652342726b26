"""A link that isn't LIS01: records between STX and ETX, with no number and no checksum."""
import random
import re

from lislab.model import lines, options
from lislab.host.plainlink import MOST, PlainReceiver
from lislink.link import Note
from tests.host.hosts import Found, Host, HostTest, lislab, trouble, wait_for
from tests.host.test_lines import ACK, ENQ, EOT, NAK, TEXTS, Client

STX, ETX = b"\x02", b"\x03"
GOOD = b"".join(TEXTS)
#: Sessions by their units: ENQ or none, a block for each record, one for all of them, two messages in one session.
SESSIONS = (
    [ENQ, *(STX + text + ETX for text in TEXTS)],
    [STX + text + ETX + b"\r\n" for text in TEXTS],
    [ENQ, STX + GOOD + ETX],
    [STX + GOOD + ETX],
    [ENQ, STX + GOOD + ETX, *(STX + text + ETX for text in TEXTS)],
)


class PlainLink(HostTest):
    """A host with such a line."""

    def begun(self, store, *words, **how):
        """A host with such a line, and its port."""
        host = Host(store, "--listen", "0,name=plain,link=plain" + "".join(words), scale=1.0, **how)
        return host, next(int(row.split()[1].rsplit(":", 1)[1]) for row in host.rows if row.endswith(" plain\n"))

    def test_sessions(self):
        """Each session is acknowledged, unit by unit, and its messages are kept; a line that isn't plain takes none."""
        host, port = self.begun(self.path("sessions.db"))
        for units in SESSIONS:
            with Client(port) as client:
                replies = [client.asks(unit, seconds=60) for unit in units]
                self.same(f"{units[:2]}: acknowledged", replies, [ACK] * len(units))
                client.send(EOT)
        self.true("all are kept", wait_for(lambda: len(Found(host.store).whole) == 6, 60))
        with Client(host.port) as client:
            self.same("a line with the proved receiver", client.asks(STX + GOOD + ETX, seconds=0.3), b"")
        self.same("the host's status", host.stop(), 0)
        why = "no number and no checksum, so damage isn't noticed; and a receiver that isn't proved"
        self.same("it is said at the start", trouble(host.errors[-1])[:1], [f"lislab: plain: link=plain has {why}"])
        counts = re.findall(r"plain: 127.0.0.1: closed by the other end; bytes \d+, sessions (\d+)", host.errors[-1])
        self.same("each is a session", counts, ["1"] * 5)
        found = Found(host.store)
        self.same("delivered", [one.body for one in found.whole], [GOOD] * 6)
        self.same("repeats are marked", (found.unmarked(), found.again()), ([], 5))

    def test_keeping(self):
        """Killed after each acknowledgement, the host has kept what it acknowledged; what it can't keep it doesn't
        acknowledge."""
        units = SESSIONS[0]
        for place in range(1, len(units)):
            host, port = self.begun(self.path(f"keeping{place}.db"))
            with Client(port) as client:
                replies = [client.asks(unit, seconds=60) for unit in units[: place + 1]]
                host.kill()
            self.same(f"{place} blocks: acknowledged", replies, [ACK] * (place + 1))
            found = Found(host.store)
            kept = b"".join(one.body for one in [*found.whole, *found.others])
            self.same(f"{place} blocks: kept", kept, b"".join(TEXTS[:place]))
        host, port = self.begun(self.path("full.db"), fault="full")
        with Client(port) as client:
            self.same("a store that is full", [client.asks(unit, seconds=0.5) for unit in units[:2]], [ACK, b""])
        host.kill()

    def test_repeats(self):
        """A block that comes twice in a row within a message may be a repeat: it is kept, and not delivered; nor is it
        fixed."""
        host, port = self.begun(self.path("repeats.db"), ",fix=unframe,last-l")
        units = [ENQ, *(STX + b"%d" % number + text + ETX for number, text in enumerate(TEXTS, 1))]
        for again in (False, True):
            with Client(port) as client:
                sent = units[:5] + units[4:] if again else units
                replies = [client.asks(unit, seconds=60) for unit in sent]
                self.same(f"again {again}: acknowledged", replies, [ACK] * len(sent))
                client.send(EOT)
        self.true("both are kept", wait_for(lambda: len(Found(host.store).others) == 2, 60))
        self.same("the host's status", host.stop(), 0)
        found = Found(host.store)
        self.same("one is delivered", [one.body for one in found.whole], [GOOD])
        parts = [unit[1:-1] for unit in units[1:]]
        self.same("what came twice is kept", found.others[1].body, b"".join(parts[:4] + parts[3:]))
        reason = "a block came twice in a row, and may be a repeat, after record 0, at byte "
        self.has("the reason", found.others[1].reason, reason)
        self.true("no setting would help", "fix" not in found.others[1].reason, found.others[1].reason)

    def test_receiver(self):
        """However bytes are cut, they mean the same; what breaks a block off drops it."""
        rng = random.Random(5)
        for turn in range(200):
            sent = [rng.choice((ENQ, EOT, STX, ETX, b"A", b"BC\r", STX + b"D" + ETX)) for _ in range(12)]
            data = b"".join(sent)
            whole = list(PlainReceiver().hear_placed(data))
            one, found, at = PlainReceiver(), [], 0
            while at < len(data):
                size = rng.randrange(1, 5)
                found += [(at + place, step) for place, step in one.hear_placed(data[at : at + size])]
                at += size
            self.same(f"{turn}: {data!r}", found, whole)
            texts = [step.text for _, step in whole if step.text is not None]
            wanted = [part.rpartition(STX)[2] for part in data.replace(ENQ, EOT).split(ETX)[:-1]
                      if part.rfind(STX) > part.rfind(EOT)]
            self.same(f"{turn}: texts of {data!r}", texts, wanted)
        long = list(PlainReceiver().hear_placed(ENQ + STX + b"x" * (MOST + 1) + ETX))
        self.same("a block too long", [(step.reply, step.note) for _, step in long][1:], [(NAK, Note.TEXT_TOO_LONG)])
        one = PlainReceiver()
        list(one.hear_placed(ENQ + STX + b"A"))
        self.same("silence", (one.timer().note, one.is_open), (Note.TIMED_OUT, False))
        self.same("after it", list(one.hear_placed(b"B" + ETX)), [])

    def test_words(self):
        """The setting in the words of a line, and in a file of lines; such a line sends no orders."""
        given = [options.serial_of(f"/dev/x:9600{word}").link for word in ("", ",link=plain", ",link=lis01")]
        self.same("of a device", given, ["", "plain", ""])
        done = lislab("serve", "--store", self.path("words.db"), "--listen", "0,link=plain,orders=query")
        self.same("its status", done.returncode, 2)
        self.has("no orders", done.stderr, "a line with link=plain sends no orders")
        with open(self.path("plain.lines"), "w", encoding="ascii") as file:
            file.write("[a]\nlisten = 1\nlink = plain\n[b]\nlisten = 2\nlink = x\n")
            file.write("[c]\nlisten = 3\nlink = plain\norders = query\n")
        found = lines.read_lines(file.name, [])
        shown = "a: listen=127.0.0.1:1 frame=240 encoding=iso8859-1 link=plain"
        self.same("as it is shown", lines.text_of(found.places[0]), shown)
        rows = [row.split(":", 1)[1][:40] for row in found.faults]
        self.same("faults", rows, ["6: a link is lis01 or plain, not x", "8: a line with link=plain sends no order"])
