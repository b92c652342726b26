"""Ladders: they agree with the proved program on every capture, and docs/troubleshoot.md says what is so."""
import glob
import os
import random
import re

from lislink import LONG_FRAME_TEXT, Note, Receiver, frame_bytes
from lislink.capture import read_capture
from lislab.diagnosis.faults import code_of
from lislab.field.ladder import Ladder
from lislab.field.looks import looks_of
from lislab.field.page import page_of
from lislink.message import Fault, Found
from tests import ROOT, kit
from tests.field.lab import FieldTest, lislab

DIALECTS = os.path.join(ROOT, "samples", "dialects")


def agrees(test, name, data):
    """A capture's ladder has the texts and differences of `replay`, and the messages and rejections of `check`."""
    ladder = Ladder(read_capture(data))
    replay = test.lislink("replay", data=data)
    texts = re.findall(r"^text (\d+) (\d+)$", replay.text, re.M)
    test.same(f"{name}: texts", [(str(text.line), str(len(text.data))) for text in ladder.texts], texts)
    found = re.findall(r"^difference (\w+) (\S+) (\S+)$", replay.text, re.M)
    mine = [
        (str(line) if line else "end", wanted.hex() or "-", got.hex() or "-")
        for line, wanted, got in ladder.differences
    ]
    test.same(f"{name}: differences", mine, found)
    records = test.lislink("texts", data=data).output
    test.same(f"{name}: records", ladder.stream, records)
    check = test.lislink("check", data=records)
    whole = [one for one in ladder.messages if isinstance(one, Found)]
    fault = next((one for one in ladder.messages if isinstance(one, Fault)), None)
    refused = re.search(r"^refused (\d+) (\d+) (.*)$", check.text, re.M)
    before = ladder.messages.index(fault) if fault else len(whole)
    test.same(
        f"{name}: the first refusal",
        (before + 1, fault.error.number, code_of(fault.error)) if fault else None,
        (int(refused[1]), int(refused[2]), refused[3]) if refused else None,
    )
    findings = [
        (one.number, one.letter, one.position) for message in whole[:before] for one in message.message.findings()
    ]
    told = re.findall(r"^finding (\d+) (\w) (\d+)$", check.text, re.M)
    test.same(f"{name}: findings", findings, [(int(one), letter, int(place)) for one, letter, place in told])
    signals = test.lislink("show", data=ladder.analyzer)
    test.same(f"{name}: units", len(list(ladder.units())), len(signals.lines))
    page = page_of(ladder, name)
    test.check(
        not re.search(r"(?:src|href)=\"?(?:https?:|//)|@import|url\(", page), f"{name}: the page asks for nothing"
    )


def spans(text):
    """The code spans of a cell, each with the command that it belongs to."""
    command = ""
    for span in re.findall(r"`([^`]+)`", text):
        if span in ("show", "replay", "check", "texts"):
            command = span
        else:
            yield command, span


def of_link_row(test, sample, path, seen, words):
    data = kit.bytes_of(path)
    link = b"".join(line.data for _, line in read_capture(data).lines if line.mark == ">")
    ran = {
        "replay": test.lislink("replay", data=data),
        "show": test.lislink("show", data=link),
        "check": test.lislink("check", data=test.lislink("texts", data=data).output),
    }
    for command, span in spans(seen):
        test.check(
            any(line == span or re.match(re.escape(span) + r"( |$)", line) for line in ran[command].lines),
            f"{sample}: {command} prints {span}",
            ran[command].text,
        )
    show = ran["show"].lines
    if "no frame" in seen:
        test.check(not any(line.startswith(("frame", "bad")) for line in show), f"{sample}: no frame", str(show))
    if "for every frame" in seen:
        test.check(not any(line.startswith("frame") for line in show), f"{sample}: every frame is bad", str(show))
    if "`show`: nothing" in seen:
        test.same(f"{sample}: nothing is shown", show, [])
    if "no line but `ENQ`" in seen:
        test.same(f"{sample}: ENQ alone", set(show), {"ENQ"})
    if "status 0" in seen:
        test.same(f"{sample}: status", ran["replay"].status, 0)
    if "once" in seen:
        test.same(f"{sample}: once", sum(line.startswith("bad") for line in show), 1)
    test.has(f"{sample}: what lislab says", lislab("ladder", path).text, words)


def of_record_row(test, sample, path, seen, words, helps):
    data = kit.bytes_of(path)
    check = test.lislink("check", data=data)
    for _, span in spans(seen):
        test.check(span in check.lines, f"{sample}: check prints {span}", check.text)
    test.has(f"{sample}: what lislab says", lislab("normalize", "--explain", path).text, words)
    command = re.search(r"`(--[\w-]+)`", helps)
    if command:
        ran = lislab("normalize", command[1], path)
        test.same(f"{sample}: {command[1]}", ran.status, 0)
        test.check("lislab: line " in ran.error, f"{sample}: each change is told", ran.error)
        after = test.lislink("check", data=ran.output)
        test.check("refused" not in after.text, f"{sample}: the program reads what is made", after.text)
        if "--all" not in helps and "--orders" not in command[1]:
            test.same(f"{sample}: --all does it too", lislab("normalize", "--all", path).status, 0)


def capture_of(*pieces):
    """A capture: bytes are the analyzer's, digits the computer's."""
    return "".join(f"< {one}\n" if isinstance(one, str) else f"> {one.hex()}\n" for one in pieces).encode()


def session(*numbers, reply="06"):
    """The lines of a session whose frames have these numbers, each answered so."""
    told = [b"\x05", "06"]
    for number in numbers:
        told += [frame_bytes(number, True, b"H|\\^&\r" if number == numbers[0] else b"L|1|N\r"), reply]
    return [*told, b"\x04"]


def answered(units, chance):
    """The capture of units, of which the computer answers most as a receiver does."""
    told = []
    with Receiver() as receiver:
        for unit in units:
            told.append(unit)
            reply = b"".join(step.reply for step in receiver.hear(unit))
            if reply and chance.random() < 0.95:
                told.append(reply.hex())
    return capture_of(*told)


class Sessions(FieldTest):
    def test_none_accepted(self):
        """A session with frames of which none was accepted looks wrong, also next to a good one."""
        good = session(1, 2)
        shown = lislab("ladder", "-", data=capture_of(*good, *good))
        self.same("two good sessions", (shown.status, "Nothing looks wrong." in shown.text), (0, True))
        empty = lislab("ladder", "-", data=capture_of(*good, b"\x05", "06", b"\x04"))
        self.same("a session without frames", (empty.status, "Nothing looks wrong." in empty.text), (0, True))
        for name, bad in (("after a good one", good + session(3, 3, 3, reply="15")),
                          ("before a good one", session(3, 3, reply="15") + good)):
            shown = lislab("ladder", "-", data=capture_of(*bad))
            self.same(f"every frame of a session {name} is out of turn", shown.status, 1)
            self.has(f"why: {name}", shown.text, "in 1 of 2 sessions no frame was accepted")
            self.has(f"why: {name}", shown.text, "frames: out of turn, 1 is due)")
        shown = lislab("ladder", "-", data=capture_of(*session(3, 3, reply="15")))
        why = "no frame of the session was accepted (2 frames: out of turn, 1 is due)"
        self.has("one session alone", shown.text, why)
        text = frame_bytes(1, True, b"H|\\^&\r").replace(b"\x03", b"\x03f", 1)
        shown = lislab("ladder", "-", data=capture_of(*good, b"\x05", "06", text, "15", b"\x04"))
        self.has("no frame of a session is whole", shown.text, "in 1 of 2 sessions no frame was accepted (1 frame: ")

    def test_out_of_turn(self):
        """A frame that is rejected as out of turn is reported, even if others of its session were accepted."""
        text = frame_bytes(3, True, b"C|1\r")
        shown = lislab("ladder", "-", data=capture_of(*session(1)[:4], text, "15", *session(1, 2)[4:]))
        self.same("a frame out of turn", shown.status, 1)
        self.has("a frame out of turn, told", shown.text, "1 of 3 frames rejected: out of turn, 2 is due (line 5)")

    def shown(self, *pieces, options=()):
        """What looks wrong in a capture, and the status."""
        ran = lislab("ladder", "-", *options, data=capture_of(*pieces))
        return ran.status, ran.text[ran.text.index("summary: ") :]

    def test_letters(self):
        """Letters of one byte before a delimiter aren't text of two bytes a character; GBK, Big5 and Shift JIS are."""
        names = {
            "cp1251": ("Иван^Анна", "ОЛЬГА^ИЛЬЯ", "Ли^О"), "latin-1": ("André^Zoë", "Müller^É"),
            "cp1250": ("Aleš^Tomáš",),
            "utf-8": ("病人^Иван",), "gb2312": ("病人^张三",),
        }
        for code, texts in names.items():
            for text in texts:
                record = f"P|1||4711||{text}|".encode(code)
                shown = self.shown(b"\x05", "06", frame_bytes(1, True, record + b"\r"), "06")[1]
                self.check("two bytes" not in shown, f"{text} in {code} is no text of two bytes", shown)
        for code, text in (("big5", "許功蓋"), ("shift_jis", "表示能"), ("gbk", "張乗")):
            record = b"P|1||4711||" + text.encode(code) + b"|"
            told = any(byte in text.encode(code) for byte in b"|\\^~")
            shown = self.shown(b"\x05", "06", frame_bytes(1, True, record + b"\r"), "06")[1]
            self.same(f"{text} in {code} is split: {told}", "two bytes a character" in shown, told)
        text = "Илья^Ольга".encode("cp1251") + b"^\xff|"
        shown = self.shown(b"\x05", "06", frame_bytes(1, True, b"H|\\^&|||" + text + b"\r"), "06")[1]
        self.has("the letter FF", shown, " is no text (in code page 1251 it is a letter")
        self.check("GBK" not in shown, "the letter FF isn't called GBK", shown)

    def test_echo(self):
        """A loopback is no download of orders; a computer's own session is no echo."""
        sent = [piece for piece in session(1, 2) if isinstance(piece, bytes)]
        status, shown = self.shown(*(one for piece in sent for one in (piece, piece.hex())))
        self.has("a loopback", shown, "4 times the bytes of the analyzer come back as they were sent: a loopback")
        self.check(status == 1 and "order download" not in shown, "a loopback is no download of orders", shown)
        both = []
        for piece in session(1, 2):
            both += [piece, piece.hex()] if isinstance(piece, bytes) else [piece]
        status, shown = self.shown(*both)
        self.has("an echo with answers", shown, "a loopback or an echo")
        self.check("otherwise than a receiver" not in shown, "an answer after its echo is right", shown)
        own = [b"\x05", "05", b"\x04", "05", b"\x06", frame_bytes(1, True, b"H|\\^&\r").hex(), b"\x06", "04"]
        status, shown = self.shown(*session(1, 2), *own)
        self.check("echo" not in shown and "order download" in shown, "a download of orders is no echo", shown)

    def test_telnet(self):
        """CR NUL in place of CR is Telnet's, and not the sender's fault."""
        for name, end in (("CR LF stays", b"\r\n"), ("CR NUL LF", b"\r\0\n")):
            pieces = [one if isinstance(one, str) else one.replace(b"\r", b"\r\0").replace(b"\r\0\n", end)
                      for one in session(1, 2)]
            status, shown = self.shown(*pieces)
            self.same(f"{name}: status", status, 1)
            self.has(name, shown, "a terminal server speaks Telnet on this line")
            self.check("the sender" not in shown, f"{name}: the sender isn't blamed", shown)
        asked, answered = b"\xff\xfb\x01\xff\xfd\x03", "fffe01fffb03"
        status, shown = self.shown(asked, answered, *session(1, 2))
        self.has("requests", shown, "4 times a request of Telnet (IAC with WILL, WONT, DO or DONT) is on the line")
        self.has("what helps", shown, "or the line of the host to `telnet=yes`")
        self.check("bytes outside" not in shown.split("What looks wrong")[1], "its bytes are named once", shown)
        letters = frame_bytes(1, True, b"H|\\^&|||" + "яы ям ять".encode("cp1251") + b"\r")
        shown = self.shown(b"\x05", "06", letters, "06")[1]
        self.check("Telnet" not in shown, "letters of code page 1251 are no request", shown)
        text = frame_bytes(1, True, b"H|\\^&\r\0P|1\rL|1\r")
        self.check("Telnet" not in self.shown(b"\x05", "06", text, "06", b"\x04")[1], "one NUL after CR isn't Telnet's")

    def test_damaged_digits(self):
        """Noise in the digits of a checksum isn't the sender's fault; a sender that never writes them is."""
        good = session(1, 2)
        front, rest = good[4][:-4], good[4][-3:]
        for name, damaged in (("no digit", front + b"}" + rest), ("a digit lost", front + rest),
                              ("a wrong digit", front + b"F" + rest)):
            status, shown = self.shown(*good[:4], damaged, "15", *good[4:])
            self.same(f"{name}: status", status, 0)
            self.has(f"{name}: it came again", shown, "each came again and was accepted: noise on the line")
            shown = self.shown(*good[:4], damaged, "15")[1]
            self.has(f"{name}: it didn't come again", shown, "other frames of the sender are right: bytes were damaged")
            self.check("the sender is wrong" not in shown, f"{name}: the sender isn't blamed", shown)
        none = frame_bytes(1, True, b"H|\\^&\r")[:-4] + b"\r\n"
        shown = self.shown(b"\x05", "06", none, "15", none, "15")[1]
        self.has("no digits at all", shown, "another dialect of the link")

    def test_long(self):
        """`--long` takes long frames, in ladders and tables, as the program's --long does."""
        text = b"H|\\^&\rP|1\rO|1|S7\rR|1|^^^GLU|5.4\rC|1|I|" + b"x" * 300 + b"\rL|1|N\r"
        data = capture_of(b"\x05", "06", frame_bytes(1, True, text, frame_limit=LONG_FRAME_TEXT), "06", b"\x04")
        short, long = lislab("ladder", "-", data=data), lislab("ladder", "--long", "-", data=data)
        why = f"frame too long: {len(text)} bytes of text, 240 are allowed (`--long` takes it)"
        self.has("a long frame", short.text, why)
        self.same("a long frame by --long", (long.status, "Nothing looks wrong." in long.text), (0, True))
        program = self.lislink("replay", "--long", data=data).text
        self.has("as the program takes it", program, f"text 3 {len(text)}")
        path = self.path("long.capture", data)
        rows = [lislab("table", *options, "--fields", "sample,test,value", path).lines for options in ([], ["--long"])]
        self.same("a table of long frames", rows, [["sample,test,value"], ["sample,test,value", "S7,GLU,5.4"]])

    def test_marked_rows(self):
        """Where a row is marked X something looks wrong, over random captures and those of the samples."""
        chance = random.Random(23)
        units = [b"\x05", b"\x04", b"\x021H|\\^&\r\x03E5\r\n", b"\x022L|1|N\r\x0305\r\n", b"\x023L|1|N\r\x0306\r\n"]
        trials = [answered(chance.choices(units, k=chance.randrange(1, 12)), chance) for _ in range(600)]
        trials += [kit.bytes_of(path) for path in glob.glob(os.path.join(DIALECTS, "*.capture"))]
        marked, untold = 0, []
        for data in trials:
            ladder = Ladder(read_capture(data))
            is_marked = any(row.level == "bad" for row in ladder.rows)
            marked += is_marked
            if is_marked and not any(look.level in ("bad", "warn") for look in looks_of(ladder)):
                untold.append(data)
        self.same("where a row is marked something looks wrong", untold[:3], [])
        self.check(300 < marked < len(trials), "captures with marked rows, and without", str(marked))

    def test_captures(self):
        paths = sorted(
            glob.glob(os.path.join(ROOT, "samples", "*.capture")) + glob.glob(os.path.join(DIALECTS, "*.capture"))
        )
        self.check(len(paths) > 35, "there are captures", str(len(paths)))
        for path in paths:
            agrees(self, os.path.basename(path), kit.bytes_of(path))

    def test_random(self):
        """Random captures of units, noise, replies and events: in each the ladder agrees with the program."""
        chance = random.Random(11)
        units = [
            b"\x05",
            b"\x04",
            b"\x021H|\\^&\r\x03E5\r\n",
            b"\x022L|1|N\r\x0305\r\n",
            b"\x021a\x17C9\r\n",
            b"\x022b\x0397\r\n",
            b"\x021H|\\^&\r\x0300\r\n",
            b"\x02",
            b"\n",
            b"noise",
            b"\x06",
            b"\x023P|1\r\x03C3\r\n",
            b"\x02\x05",
            b"1H|\\^&\r",
        ]
        for trial in range(40):
            rows = ["capture 2"]
            for _ in range(chance.randrange(3, 25)):
                kind = chance.randrange(12)
                if kind < 8:
                    rows.append("> " + b"".join(chance.choices(units, k=chance.randrange(1, 4))).hex())
                else:
                    rows.append(
                        chance.choice(["< 06", "< 15", "< 0606", "T", "R", "S busy", "S ready", "S contending", ""])
                    )
            agrees(self, f"random {trial}", "".join(row + "\n" for row in rows).encode())

    def test_versions(self):
        """Malformed lines are reported as the program reports them."""
        for data in (
            b"> 05\nhello\n",
            b"> 5\n",
            b">05\n",
            b"R\n",
            b"capture 2\ncapture 2\n",
            b"S busy\n",
            b"> 05 \n",
            b"x" * 5000,
            b"\r\n> 05\r\n< 06\r",
            b"> 05\n\r",
        ):
            wanted = re.search(r"K1 line (\d+)", self.lislink("replay", data=data).error)
            try:
                read_capture(data)
                found = None
            except Exception as error:
                found = re.search(r"line (\d+)", str(error))
            self.same(f"a malformed line in {data[:20]!r}", found[1] if found else None, wanted[1] if wanted else None)

    def test_dialects(self):
        """Each row of docs/troubleshoot.md, and what `lislink` prints by dialects.table."""
        rows = re.findall(r"(?m)^\| `([\w-]+\.\w+)` \| (.*) \| (.*) \|$", kit.read("docs/troubleshoot.md"))
        printed = dict(re.findall(r"(?m)^([\w-]+\.\w+) \| (.*)$", kit.read("tests/field/dialects.table")))
        named = {row[0] for row in rows}
        self.same("each row has its output", sorted(named), sorted(printed))
        self.same("each sample has a row", sorted(named), sorted(os.listdir(DIALECTS)))
        links, records = [sum(name.endswith(end) for name in named) for end in (".capture", ".records")]
        self.check(links >= 25 and records >= 20, "25 dialects of the link and 20 of records", f"{links}, {records}")
        for sample, words, helps in rows:
            seen, words = printed[sample], words.replace("`", "")
            path = os.path.join(DIALECTS, sample)
            if sample.endswith(".capture"):
                of_link_row(self, sample, path, seen, words)
            else:
                of_record_row(self, sample, path, seen, words, helps)

    def test_words(self):
        """The rows of a ladder in words."""
        text = lislab("ladder", os.path.join(ROOT, "samples", "version-2.capture")).text
        for words in (
            "the computer is busy: ENQ is answered NAK",
            "duplicate of 1: acknowledged, not taken again",
            "rejected: checksum wrong: FC found, FD wanted",
            "accepted, text of 17 bytes delivered",
            "the receiver would answer <ACK>: the computer rejects a good frame",
            "the receiver is restarted",
            "the receiver's 30 seconds are over",
            "the computer wants to send",
            "summary: ENQ 4, frames 6",
        ):
            self.has("the words of a ladder", text, words)
        out_of_turn = b"> 05\n> 0233410337370d0a\n> 04\n"
        self.has(
            "a frame out of turn",
            lislab("ladder", "-", data=out_of_turn).text,
            "rejected: out of turn, 1 is due (checksum 77) -> <NAK>",
        )
        self.has("no replies at all", lislab("ladder", "-", data=out_of_turn).text, "no bytes of the computer")
        swapped = lislab("ladder", "--swap", os.path.join(ROOT, "samples", "session.capture")).text
        self.has("the sides are swapped", swapped, "the sides are swapped")
        self.has("a right checksum", text, "(checksum EC) -> <ACK>")
        wrong = lislab("ladder", "--wrong", os.path.join(ROOT, "samples", "session.capture")).lines
        self.same("only what looks wrong", sum("\u251c" in line or "\u2524" in line for line in wrong), 1)
        late = self.path("late.capture", b"> 05\n< 06\n> 0231410337350d0a\n< 06\n> 04\n")
        self.path("late.capture.times", b"09:00:00.000\n09:00:20.000\n09:01:00.000\n09:01:00.100\n09:01:00.200\n")
        shown = lislab("ladder", late).text
        self.has("a late answer", shown, "1 answer came over 15 seconds late")
        self.has("a silence", shown, "60.0 seconds of silence")
        self.has("a gap", shown, "20.0 s later")
        ladder = Ladder(read_capture(kit.bytes_of(os.path.join(ROOT, "samples", "two-sessions.capture"))))
        self.same("notes are counted", ladder.notes[Note.ACCEPTED], 5)
        self.same("a text at its line", [text.line for text in ladder.texts], [9, 11, 17])
