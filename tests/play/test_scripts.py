"""Scripts: what their lines say; each that is wrong, cut, empty or too long names its line, and never ends in a
traceback."""
import os
import random
import tracemalloc

from lislab.play import script
from lislab.play.frames import made, read_frame, units_of
from lislab.play.script import ScriptError, read_script, steps_of
from lislab.play.wanted import AnyUnit, Exact, Framed, Frames, Marks, Session, differences, is_like
from tests import ROOT, kit
from tests.field.lab import lislab
from tests.play.hosts import scripts

ENQ, ACK = Exact(b"\x05"), Exact(b"\x06")
#: A unit in a script, and what it is. The frames have number 1, since no ENQ is before them.
UNITS = [
    ("ENQ", ENQ),
    ("02 31 410d", Exact(b"\x021A\r")),
    ("STX '1A''B' CR ETX '00' CR LF", Exact(b"\x021A'B\r\x0300\r\n")),
    ('"P|1"', Framed(1, b"P|1\r", True)),
    ('"P|1|""x"""', Framed(1, b'P|1|"x"\r', True)),
    ('"P|1" "O|1"  # words', Framed(1, b"P|1\rO|1\r", True)),
    ('"P|1" ETB', Framed(1, b"P|1", False)),
    ('"P|1" "" ETB', Framed(1, b"P|1\r", False)),
    ('"P|#1" @number 7 @sum 0x', Framed(7, b"P|#1\r", True, b"0x")),
    ('"O|1|.." @same-but DATE 9 O.7 requested_at',
     Framed(1, b"O|1|..\r", True, b"", ("DATE", "9", "O.7", "requested_at"))),
    ("..", AnyUnit()),
    (".. @order S-1", AnyUnit(b"S-1")),
    ("frames @order S1", Frames(b"S1")),
]
#: Lines that are no step.
WRONG = [
    ">", "<", "x", ">ENQ", "> ENG", "> 0", "> 02 3", '> "P|1', "> 'P", '> "P|1"ETB', '> "P|1" ETX', '> "P|1" 02',
    "> 02 \"P|1\"", '> "P|1" @number 8', '> "P|1" @number', '> "P|1" @number 1 2', '> "P|1" @sum 123',
    '> "P|1" @nonsense 1', '> "P|1" @same-but NONSENSE', '> "P|1" @same-but 0', '> "P|1" @sum 00 @sum 00', "> .. ENQ",
    "> .. @sum 00", "> frames 1", "> again", "T x", "T 1 2", "T -1", "T 99999", "C now", "R 1", "K K", "end end", "K 1",
    "\x00", "> \x00", '> "\x05"', "> '\x1b'", "play 1", "\u00e9", "> @order S1", "> ENQ ETBX", "> ''",
]
#: What comes, and how it differs from a frame with the record 'O|1|S1||^^^GLU|R|20260101'.
CAME = [
    (made(1, b"O|1|S1||^^^GLU|R|20260101\r", True), [], []),
    (made(1, b"O|1|S1||^^^GLU|R|20270101|||\r", True), ['"O|1|S1||^^^GLU|R|20260101"'], []),
    (made(2, b"O|1|S1||^^^GLU|R|20260101\r", True), ["number=1"], ["number=1"]),
    (made(1, b"O|1|S2||^^^GLU|R|20260101\r", True), ['"O|1|S1||^^^GLU|R|20260101"'], ['O.3="S1"']),
    (made(1, b"O|1|S1||^^^GLU|R|20260101\r", False), ["ETX"], ["ETX"]),
    (made(1, b"O|1|S1||^^^GLU|R|20260101\r", True, b"00"), ["sum=0D"], ["sum=0D"]),
    (b"\x06", ['"O|1|S1||^^^GLU|R|20260101"'], ['"O|1|S1||^^^GLU|R|20260101"']),
]


def whole(*rows):
    """A script of these lines."""
    return "\n".join(["play 1", *rows, "end", ""]).encode()


class Scripts(kit.Test):
    def test_units(self):
        for text, unit in UNITS:
            for mark in "><":
                found = read_script(whole(f"{mark} {text}")).steps[0]
                self.same(f"{mark} {text}", (found.line, found.mark, found.unit), (2, mark, unit))

    def test_steps(self):
        found = read_script(b"play 1 as computer\r\n# about\r\n\r\nT\r\nT 1.5 # words\r\nC\r\nR\r\nK\r\nend\r\n")
        self.same("marks", [(one.line, one.mark, one.seconds) for one in found.steps],
                  [(4, "T", 15.0), (5, "T", 1.5), (6, "C", 0.0), (7, "R", 0.0), (8, "K", 0.0)])
        self.same("a byte order mark", read_script(b"\xef\xbb\xbf" + whole("> ENQ")).steps[0].unit, ENQ)
        self.same("its end and words", (found.is_computer, found.about), (True, ["about"]))
        self.same("T of the analyzer", read_script(whole("T")).steps[0].seconds, 30.0)

    def test_numbers(self):
        """1 after ENQ, the same after NAK, else the next; in a session `..` is a frame; `again` keeps its number."""
        rows = ["> ENQ", "< ACK", '> "A"', "< NAK", '> "B"', "< ACK", "> again", "< ACK", '> "C"', "< ACK", "> ..",
                "< ACK", '> "D" @number 6', "< ACK", '> "E"', "< ACK", '> "F"', "< ACK", '> "G"', "> EOT", "> ENQ",
                "< ACK", '> "H"']
        found = [one.unit.number for one in read_script(whole(*rows)).steps if isinstance(one.unit, Framed)]
        self.same("numbers", found, [1, 1, 1, 2, 6, 7, 0, 1, 1])

    def test_sides(self):
        """Who sends must know the bytes; what comes in pieces is cut into units."""
        one = read_script(whole("> ENQ", "< ACK", '< "H|.."'))
        self.same("the other end may send anything", [step.line for step in steps_of(one, ">")], [2, 3, 4])
        self.raises("this end may not", ScriptError, lambda: steps_of(one, "<"))
        pieces = read_script(b"> 05\n< 06\n> 0231410d03\n> 38380d0a05\n> 04\n")
        found = [(step.line, step.unit.data) for step in steps_of(pieces, "<") if step.mark == ">"]
        self.same("units", found, [(1, b"\x05"), (3, b"\x021A\r\x0388\r\n"), (4, b"\x05"), (5, b"\x04")])
        self.same("pieces that are sent", len(steps_of(pieces, ">")), 5)

    def test_wrong(self):
        for row in WRONG:
            for rows in ([row], ["> ENQ", row, "< ACK"]):
                try:
                    read_script(whole(*rows))
                    self.check(False, f"{row!r} is read")
                except ScriptError as error:
                    self.same(f"the line of {row!r}", error.line, rows.index(row) + 2)

    def test_first_and_last(self):
        for data, line in ((b"", 1), (b"\n \n", 1), (b"play\nend\n", 1), (b"play 2\n", 1), (b"nonsense\n", 1),
                           (b"capture 2\n", 1),
                           (b"play 1\n> ENQ\n", 2), (b"play 1\nend\n", 2), (b"play 1\n> ENQ\nend\n< ACK\n", 4),
                           (b"play 1 as host\n", 1), (b"> 05\n< 0\n", 2), (b"> 05\nK\n", 2)):
            try:
                read_script(data)
                self.check(False, f"{data!r} is read")
            except ScriptError as error:
                self.same(f"the line of {data!r}", error.line, line)

    def test_cut(self):
        """A readable script that is cut anywhere before its last line is wrong."""
        for path in scripts("*"):
            data = kit.bytes_of(path)
            wrong = [size for size in range(data.rindex(b"end")) if not self.is_wrong(data[:size])]
            self.same(f"{os.path.basename(path)} cut", wrong, [])

    def is_wrong(self, data):
        """Whether a script is wrong, at one of its lines."""
        try:
            script_read = read_script(data)
            steps_of(script_read, "<" if script_read.is_computer else ">")
            return False
        except ScriptError as error:
            good = 1 <= error.line <= data.count(b"\n") + 1 and f"line {error.line}: " in str(error)
            self.need(good, lambda: str(error))
            return True

    def test_any_byte(self):
        """10,000 scripts with a byte wrong anywhere, or cut, or with a line twice: read, or an error with its line."""
        rng, good, wrong = random.Random(65), 0, 0
        known = [kit.bytes_of(path) for path in scripts("*")] + [
            kit.bytes_of(os.path.join(ROOT, "samples", name)) for name in ("session.capture", "version-2.capture")]
        for _ in range(10000):
            data = bytearray(rng.choice(known))
            for _ in range(rng.choice((1, 1, 1, 4))):
                place = rng.randrange(len(data))
                change = rng.randrange(5)
                if change == 0:
                    data[place] = rng.randrange(256)
                elif change == 1:
                    data[place] = rng.choice(b"\"'<>@#.\n\r\0 TRCK")
                elif change == 2:
                    del data[place : place + rng.choice((1, 20))]
                elif change == 3:
                    data[place:place] = bytes([rng.randrange(256)])
                else:
                    del data[place:]
                data = data or bytearray(b"\n")
            is_wrong = self.is_wrong(bytes(data))
            wrong, good = wrong + is_wrong, good + (not is_wrong)
        self.check(wrong > 4000 and good > 1000, f"10,000 scripts: {wrong} wrong, {good} read")

    def test_command(self):
        """The command ends with 2 and the line, and sends nothing."""
        path = os.path.join(kit.folder_of(self), "wrong.play")
        rng = random.Random(66)
        for number in range(60):
            data = kit.bytes_of(rng.choice(scripts("results")))
            place = data.index(b"\n> ") + 1
            data = data[:place] + bytes([rng.choice(b"\0?x\xff=")]) + data[place + 1 :] if number % 2 else data[:-4]
            with open(path, "wb") as file:
                file.write(data)
            ran = lislab("play", path, "--to", "127.0.0.1:9")
            line = data.count(b"\n", 0, place) + 1 if number % 2 else data.count(b"\n")
            self.same(f"script {number}", (ran.status, f": line {line}: " in ran.error, "Traceback" in ran.error),
                      (2, True, False))

    def test_long(self):
        """Of 100 MB no more is read than is said, and the error names the line."""
        path = os.path.join(kit.folder_of(self), "long.play")
        for name, first, rest, line in (("lines", b"play 1\n", b"# words\n", None), ("a line", b"play 1\n", b"x", 2),
                                        ("nothing", b"", b"\0", 1), ("a capture", b"> 05\n", b"< 06\n", None)):
            with open(path, "wb") as file:
                file.write(first)
                for _ in range(100):
                    file.write(rest * ((1 << 20) // len(rest)))
            tracemalloc.start()
            ran = lislab("play", path, "--to", "127.0.0.1:9")
            most = tracemalloc.get_traced_memory()[1]
            tracemalloc.stop()
            self.check(ran.status == 2 and "line " in ran.error, f"100 MB of {name}", ran.error[-300:])
            if line is not None:
                self.has(f"100 MB of {name}: its line", ran.error, f"line {line}: ")
            self.check(most < 3 * script.BYTES, f"100 MB of {name}: {most} bytes")
        many = b"play 1\n" + b"T\n" * (script.LINES + 5)
        self.check(self.is_wrong(many) and self.is_wrong(b"T\n" * (script.LINES + 5)), "more lines than a script has")
        self.check(self.is_wrong(b"play 1\n> " + b"00" * script.LINE + b"\nend\n"), "a longer line than a script has")


class Wanted(kit.Test):
    def test_differences(self):
        record = b"O|1|S1||^^^GLU|R|20260101\r"
        for number, (unit, exact, lenient) in enumerate(CAME):
            for but, wanted in (((), exact), (("DATE",), lenient)):
                found = differences(Framed(1, record, True, b"", but), unit, Marks())
                self.same(f"{number} {but}", [one for one, _ in found], wanted)

    def test_session(self):
        """`frames` answers as a receiver does: a repeat is acknowledged, what is bad or out of turn is rejected."""
        one = Session(Frames(b"S2"), Marks(), None)
        heard = [made(1, b"O|1|S1\r", True), made(1, b"O|1|S1\r", True), made(3, b"L|1\r", True),
                 made(2, b"L|1\r", True, b"00"), b"\x06", made(2, b"L|1\r", False)]
        found = [one.hear(unit) for unit in heard]
        self.same("replies", [reply for reply, _ in found], [b"\6", b"\6", b"\x15", b"\x15", b"\x15", b"\6"])
        self.same("what differs", [len(some) for _, some in found], [0, 0, 1, 1, 1, 0])
        self.same("an order that is missing", one.hear(b"\4"), (b"", [('order="S2"', 'order="S1"')]))
        self.same("no order", Session(Frames(b"S 2"), Marks(), None).hear(b"\4")[1], [('order="S 2"', "order=-")])
        many = Session(Frames(b"S"), Marks(), None)
        many.hear(made(1, b"".join(b"O|1|S%d\r" % at for at in range(30)), True))
        wanted = "order=" + ",".join(f'"S{at}"' for at in range(20)) + ",.."
        self.same("many orders", many.hear(b"\4")[1], [('order="S"', wanted)])
        self.check(one.is_over, "EOT belongs to it")
        other = Session(Frames(b"S2"), Marks(), 7)
        self.same("it goes on after number 7", other.hear(made(0, b"O|1|S2\r", True)), (b"\6", []))
        self.same("an order that is there", other.hear(b"\4"), (b"", []))

    def test_orders(self):
        marks = Marks()
        for record, has in ((b"O|1|S1||\r", True), (b"O|1|^S1\r", True), (b"O|1|S10\r", False), (b"R|1|S1\r", False),
                            (b"H!~@$!!\rO!1!S1@7\r", True)):
            found = differences(AnyUnit(b"S1"), made(1, record, True), marks)
            self.same(f"an order for S1 in {record!r}", not found, has)
            came = "order=-" if record[:1] == b"R" else 'order="S10"'
            self.same(f"what differs in {record!r}", found, [] if has else [('order="S1"', came)])
        two, marks = made(1, b"O|1|S2^x\rO|2|S3\r", True), Marks()
        self.same("two orders", differences(AnyUnit(b"S1"), two, marks), [('order="S1"', 'order="S2^x","S3"')])
        self.same("no frame", differences(AnyUnit(b"S1"), b"\6", marks), [('order="S1"', "ACK")])

    def test_any_text(self):
        for text, form, holds in ((b"abc", b"a..", True), (b"abc", b"..", True), (b"abc", b"..c", True),
                                  (b"abc", b"a..c", True), (b"abcbc", b"a..bc", True), (b"abc", b"a..d..c", False),
                                  (b"ab", b"ab..ab", False), (b"a", b"a..a", False), (b"abc", b"abc", True),
                                  (b"abc", b"ab", False)):
            self.same(f"{text!r} as {form!r}", is_like(text, form), holds)

    def test_frames(self):
        """Frames as the standard has them: a known one, each byte of it changed, and cuts into units."""
        known = bytes.fromhex("0231487c5c5e260d0345350d0a")
        self.same("a frame is made", made(1, b"H|\\^&\r", True), known)
        self.same("and read", read_frame(known), (1, b"H|\\^&\r", True))
        for place in range(len(known)):
            other = known[:place] + bytes([known[place] ^ 1]) + known[place + 1 :]
            self.same(f"byte {place} changed", read_frame(other), None)
        self.same("units", list(units_of(b"\x05" + known + b"\x021A\x05\x02")),
                  [b"\x05", known, b"\x021A", b"\x05", b"\x02"])
