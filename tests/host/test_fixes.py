"""Makers' deviations that a line fixes: a message that can't be read without a setting and is delivered with it, what
came kept as it came. Each sample of samples/fixes is an analyzer's session, named by the fix that it needs."""
import asyncio
import csv
import glob
import io
import json
import os
import random
import threading
import time
from collections import Counter
from concurrent.futures import ThreadPoolExecutor
from concurrent.futures.process import BrokenProcessPool
from typing import NamedTuple
from unittest import mock

import lislink
from lislink import Receiver, frame_bytes, read_all
from lislink.capture import read_capture
from lislab.model import lines, options
from lislab.host import fix
from lislab.host.feeds import LineFeeds
from lislab.host.intake import Held, Intake
from lislab.host.fixer import Fixer, Workers
from lislab.model.store import COMPLETE, Add, Begin, End
from lislink.link import FRAME_TEXT, LONG_FRAME_TEXT
from tests.host.hosts import ROOT, Found, Host, HostTest, lislab, wait_for
from tests.host.plain import frame
from tests.host.test_intake import random_stream, random_texts
from tests.host.test_lines import ACK, ENQ, EOT, NAK, Client, frames

SAMPLES = os.path.join(ROOT, "samples", "fixes")
GOOD = (b"H|\\^&|||Analyzer\r", b"P|1||4711\r", b"O|1|S7||^^^GLU\r", b"R|1|^^^GLU|5.4|mmol/L\r", b"L|1|N\r")


class Case(NamedTuple):
    """A deviation: the settings without which it can't be read, the message that is delivered, and a part of its mark;
    whether it is acknowledged without them."""

    fix: str
    mark: str
    message: bytes = b"".join(GOOD)
    is_taken: bool = True
    without: str = ""


def changed(place, record):
    """The good message with another record."""
    return b"".join([*GOOD[:place], record, *GOOD[place + 1 :]])


CASES = {
    "bom": Case("bom", "record 1, from byte 0: the byte order mark was left out"),
    "nul": Case("nul", "record 2, from byte 17: NUL was left out, 2 times"),
    "ctrl-z": Case("ctrl-z", "record 4, from byte 42: Ctrl-Z was left out"),
    "cr-words": Case("cr-words", "record 1, from byte 0: <CR> became a CR"),
    "unframe": Case("unframe", "records 1 to 5, from byte 0: link bytes around the record were left out"),
    "crlf": Case("crlf", "records 1 to 5, from byte 0: CR LF became CR", is_taken=False),
    "lf": Case("lf", "records 1 to 5, from byte 0: LF became CR", is_taken=False),
    "blank": Case("blank", "record 2, from byte 17: blanks before the letter were left out"),
    "header-3": Case("header-3", "record 1, from byte 0: the header's fourth delimiter '&' was put in"),
    "header-5": Case("header-5", "record 1, from byte 0: the header's fifth delimiter byte '~' was left out"),
    "bytes": Case(
        "bytes",
        "record 5, from byte 64: bytes that no record holds were escaped: <GS>, <FF>, 2 times",
        b"".join(GOOD[:4]) + "C|1|I|гемолиз: дол".encode("cp1251") + b"&XFF& &X1D& 3|G\r" + GOOD[4],
    ),
    "behind-l": Case("header-3,behind-l", "record 6, from byte 69: a record after L was left out", without="header-3"),
    "last-cr": Case("last-cr", "record 5, from byte 64: the last record got its CR"),
    "last-l": Case("last-l", "record 5, from byte 64: L was put at the end"),
    "orders": Case(
        "orders",
        "record 3, from byte 27: a record O was put above",
        changed(2, b"O|1\r"),
    ),
}


class Long(NamedTuple):
    """A message with a record that is too long: what came, what is left of it, if it is delivered, and its mark, or why
    it isn't."""

    came: list
    left: list
    mark: str
    why: str


#: Records that are too long: a result, and a comment and a maker's record on it.
R2, C2, M2 = (one + b"x" * 70000 + b"\r" for one in (b"R|2|^^^GRAPH|", b"C|1|I|", b"M|1|"))
_RECORDS = (*GOOD[:4], b"C|1|I|a\r", b"M|1|b\r", b"S|1|c\r", b"R|2|^^^NA|139\r", GOOD[4])


def long_case(letter, place, records=_RECORDS):
    """The case in which the record at this place is too long."""
    came = list(records)
    came[place] = came[place][:-1] + b"x" * 70000 + b"\r"
    gone = {"R": range(place, place + 4), **dict.fromkeys("CMS", (place,))}.get(letter, ())
    left = [one for at, one in enumerate(came) if at not in gone] if gone else []
    starts = [sum(map(len, came[:at])) for at in range(len(came))]
    whys = {place: "it is too long to be read"}
    marks = [
        f"record {at + 1}, from byte {starts[at]}: a record was left out "
        f"({chr(came[at][0])}, {len(came[at]) - 1} bytes): {whys.get(at, 'it is on a record that was left out')}"
        for at in gone
    ]
    return Long(came, left, "; ".join(marks), f"record {place + 1}, from byte {starts[place]}: too long")


LONG = {
    "P2": long_case("P", 4, (*GOOD[:4], b"P|2||4712\r", *GOOD[2:])),
    "O2": long_case("O", 4, (*GOOD[:4], b"O|2|S8\r", *GOOD[3:])),
    **{letter: long_case(letter, place) for place, letter in enumerate("HPORCMS")},
    "L": long_case("L", 8),
    "Q": long_case("Q", 1, (GOOD[0], b"Q|1|^S7||ALL\r", GOOD[4])),
}


def bangs(*records):
    """The same records with another field delimiter."""
    return [one.replace(b"|", b"!") for one in records]


def random_records(rng):
    """The records of a message, some of which are too long."""
    records = [GOOD[0]]
    for patient in range(rng.randrange(1, 3)):
        records.append(b"P|%d||%d\r" % (patient + 1, rng.randrange(9)))
        for order in range(rng.randrange(3)):
            records.append(b"O|%d|S%d\r" % (order + 1, rng.randrange(9)))
            for result in range(rng.randrange(4)):
                records.append(b"R|%d|^^^A|%d\r" % (result + 1, rng.randrange(9)))
                records += [b"%s|1|%d\r" % (rng.choice((b"C", b"M", b"S")), at) for at in range(rng.randrange(3))]
    records.append(GOOD[4])
    likely = [at for at, one in enumerate(records) if one[:1] in b"RCMS"]
    others = [rng.randrange(len(records))] if rng.random() < 0.2 else []
    for at in {*others, *rng.choices(likely or [0], k=rng.randrange(3))}:
        records[at] = records[at][:-1] + b"x" * 65536 + b"\r"
    return records


def results_of(records):
    """Each result with the patient and the order above it, and the comments and makers' records on it that aren't too
    long."""
    above, found = {}, []
    for one in records:
        letter = one[:1]
        above[letter] = one
        if letter == b"R":
            found.append((above[b"P"], above[b"O"], one, []))
        elif letter in (b"P", b"O"):
            found.append(("", "", b"", []))
        elif letter in b"CMS" and found and len(one) <= 65537:
            found[-1][3].append(one)
    return [one for one in found if one[2]]


def units(name):
    """What the analyzer of a sample sends, unit by unit."""
    with open(os.path.join(SAMPLES, f"{name}.capture"), "rb") as file:
        return [line.data for _, line in read_capture(file.read()).lines if line.mark == ">"]


def text_of(unit):
    """The text of a frame."""
    return unit[2:-5]


def ports_of(host):
    """The ports of a host by the names of its lines."""
    rows = [row.split(" ", 2) for row in host.rows if row.startswith("listening")]
    return {name.strip(): int(where.rsplit(":", 1)[1]) for _, where, name in rows}


def play(port, sent, seconds=60):
    """The replies to units."""
    with Client(port) as client:
        replies = [client.asks(unit, seconds=seconds) for unit in sent[:-1]]
        client.send(sent[-1])
    return replies


class Fixes(HostTest):
    """A host whose lines fix, and others that don't."""

    def test_each(self):
        """Each fix: without it the message isn't delivered, with it it is; what came is kept as it came."""
        self.same("each name has a sample", sorted(CASES), sorted(options.NAMES))
        self.are_samples()
        words = []
        for name, case in CASES.items():
            words += ["--listen", f"0,name={name} bare" + (f",fix={case.without}" if case.without else "")]
            words += ["--listen", f"0,name={name},fix={case.fix}"]
        host = Host(self.path("each.db"), *words, scale=1.0, listen=False)
        ports = ports_of(host)
        for name, case in CASES.items():
            sent = units(name)
            self.same(f"{name}: acknowledged", play(ports[name], sent), [ACK] * (len(sent) - 1))
            replies = play(ports[f"{name} bare"], sent)
            self.same(f"{name}: without the setting", set(replies), {ACK} if case.is_taken else {ACK, NAK})
        tried = sum(case.is_taken for case in CASES.values())
        named = lambda: sum("would deliver it" in one.reason for one in Found(host.store).others)  # noqa: E731
        self.true("all settings are named", wait_for(lambda: named() == tried), f"{named()} of {tried}")
        self.same("the host's status", host.stop(), 0)
        found = Found(host.store)
        for name, case in CASES.items():
            self.is_fixed(name, case, found)
        self.are_shown(host.store, found)

    def is_fixed(self, name, case, found):
        """Whether the message is delivered with the setting, and not without it; what came is there as it came."""
        came = b"".join(text_of(unit) for unit in units(name)[1:-1])
        whole = [one for one in found.whole if one.line in (name, f"{name} bare")]
        self.same(f"{name}: delivered", [(one.line, one.body) for one in whole], [(name, case.message)])
        for one in whole:
            self.has(f"{name}: it is marked", one.reason, case.mark)
        kept = {one.line: one for one in found.others if one.line.split(" ")[0] == name}
        self.same(f"{name}: what came", kept[name].body, came)
        self.has(f"{name}: what was made of it", kept[name].reason, f"fixed: delivered as {whole[0].key}; ")
        if case.is_taken:
            self.same(f"{name}: what came without the setting", kept[f"{name} bare"].body, came)
            named = f"; fix={case.fix} would deliver it"
            self.has(f"{name}: the setting is named", kept[f"{name} bare"].reason, named)

    def are_shown(self, store, found):
        """Whether the status counts them, and an export marks them."""
        data = json.loads(lislab("status", "--store", store, "--json").stdout)
        wanted = "complete", "fixed", "incomplete", "invalid"
        rows = {row["line"]: [row[one] for one in wanted] for row in data["lines"]}
        for name, case in CASES.items():
            self.same(f"{name}: {wanted}", rows[name], [1, 1, 0, 0])
            *counts, first, second = rows[f"{name} bare"]
            self.same(f"{name} bare: complete, fixed, others", [*counts, first + second], [0, 0, int(case.is_taken)])
            if case.is_taken:
                self.same(f"{name}: what would", data["would"][f"{name} bare"], {f"fix={case.fix}": 1})
        shown = lislab("status", "--store", store).stdout
        self.has("for a reader", shown, "\nbytes bare: fix=bytes would deliver 1 message\n")
        exported = [json.loads(row) for row in lislab("export", "--store", store).stdout.splitlines()]
        self.same("marks of an export", [one["fixed"] for one in exported], [one.reason for one in found.whole])
        table = list(csv.reader(io.StringIO(lislab("export", "--store", store, "--format", "csv").stdout)))
        place = table[0].index("fixed")
        self.same("marks of a table", [row[place] for row in table[1:]], [one.reason for one in found.whole])

    def are_samples(self):
        """The samples are those of the table, and each frame of them is right."""
        names = [os.path.basename(path)[: -len(".capture")] for path in glob.glob(os.path.join(SAMPLES, "*.capture"))]
        self.same("samples", sorted(names), sorted(CASES))
        for name in names:
            for number, unit in enumerate(units(name)[1:-1], 1):
                total = b"%02X" % (sum(unit[1:-4]) % 256)
                self.same(f"{name}: frame {number}", (unit[1], unit[-4:]), (48 + number % 8, total + b"\r\n"))

    def test_long_records(self):
        """A record of over 65,536 bytes is left out without a setting if nothing but comments belongs to it: the others
        are delivered, it is named with its place, and what came is kept. Else nothing is delivered."""
        words = [word for name in LONG for word in ("--listen", f"0,name={name},frame=63993")]
        words += ["--listen", "0,name=named,frame=63993,fix=long"]
        host = Host(self.path("long.db"), *words, scale=1.0, listen=False)
        ports = ports_of(host)
        for name, case in {**LONG, "named": LONG["R"]}.items():
            replies = play(ports[name], long_units(case.came))
            self.same(f"{name}: acknowledged", set(replies), {ACK})

        def states():
            """What `lislab watch` says of the lines: their states."""
            return dict(row.split()[:2] for row in lislab("watch", "--store", host.store, "--once").stdout.splitlines())

        wanted = {"named": "good", **{name: "good" if case.left else "bad" for name, case in LONG.items()}}
        self.true("what watch says", wait_for(lambda: states() == wanted), states())
        self.same("the host's status", host.stop(), 0)
        found = Found(host.store)
        for name, case in {**LONG, "named": LONG["R"]}.items():
            self.is_left_out(name, case, found)
        shown = lislab("status", "--store", host.store).stdout
        self.true("no setting is named", "fix=" not in shown + host.errors[-1], shown)
        self.has("it is said", host.errors[-1], "is fixed: delivered as ")

    def is_left_out(self, name, case, found):
        """Whether a message is delivered without its long record, if one may be left out."""
        whole = [one for one in found.whole if one.line == name]
        wanted = [b"".join(case.left)] if case.left else []
        self.same(f"{name}: delivered", [one.body for one in whole], wanted)
        kept = [one for one in found.others if one.line == name]
        self.same(f"{name}: what came", [one.body for one in kept], [b"".join(case.came)])
        for one in whole:
            self.same(f"{name}: it is marked", one.reason.partition(": ")[2], case.mark)
            self.has(f"{name}: what was made of it", kept[0].reason, f"fixed: delivered as {one.key}; {case.why}")
        if not case.left:
            self.same(f"{name}: why it isn't delivered", kept[0].reason, case.why)

    def test_long_parts(self):
        """What else may be left out with a record that is too long, and what may not."""
        many = [b"C|1|I|\xffa\r", b"C|2|I|b\r"] * 60
        for name, came, left, mark in (
            ("two", [*GOOD[:4], R2, C2, M2, R2, *GOOD[4:]], GOOD, "record 8, from byte"),
            ("another field delimiter", [b"H!\\^&\r", *bangs(*GOOD[1:4], R2, GOOD[4])],
             [b"H!\\^&\r", *bangs(*GOOD[1:])], "record 5, from byte 53"),
            ("small letters", [*GOOD[:4], R2.lower(), C2.lower(), *GOOD[4:]], GOOD, "record 5, from byte 64"),
            ("escapes", [*GOOD[:4], R2[:-1] + b"&X41&" * 20000 + b"\r", *GOOD[4:]], GOOD, "record 5, from byte 64"),
            ("the only result", [*GOOD[:3], R2, C2, *GOOD[4:]], [*GOOD[:3], *GOOD[4:]], "record 4, from byte 42"),
            ("lines of a text", [*GOOD[:4], M2.replace(b"x", b"\n", 9), *GOOD[4:]], GOOD, "record 5, from byte 64"),
            ("other changes", [*GOOD[:4], *many, M2, *GOOD[4:]],
             [*GOOD[:4], *(one.replace(b"\xff", b"&XFF&") for one in many), *GOOD[4:]], "record 125, from byte"),
        ):
            found = fix.fixed(b"".join(came), frozenset(("bytes",)))
            self.same(f"{name}: what is left", found and found.messages, [b"".join(left)])
            self.true(f"{name}: it is named", found and any(mark in one for one in found.told), repr(found)[-900:])
        for name, came, setting in (
            ("results that end in LF", [*GOOD[:3], b"R|1|^^^A|5\nR|2|^^^B|" + b"6" * 70000 + b"\r", GOOD[4]], ["lf"]),
            ("comments that end in LF", [*GOOD[:4], C2[:-1] + b"\nC|2|I|b\r", GOOD[4]], ["lf"]),
            ("a patient within a comment", [*GOOD[:4], C2[:-1] + b"\nP|2||4712\r", b"O|1|S8\r", *GOOD[3:]], ["lf"]),
            ("a patient after a word for CR", [*GOOD[:4], C2[:-1] + b"<CR>P|2||4712\r", b"O|1|S8\r", *GOOD[3:]],
             ["cr-words"]),
            ("a patient after a lost CR", [*GOOD[:4], C2[:-1] + b"P|2||4712\r", b"O|1|S8\r", *GOOD[3:]], []),
            ("a result after a lost CR", [*GOOD[:4], C2[:-1] + b"R|2|^^^NA|139\r", GOOD[4]], []),
            ("no record", [*GOOD[:4], b"Caesar" + b"x" * 70000 + b"\r", GOOD[4]], []),
            ("another one that can't be read", [*GOOD[:4], R2, b"Z|1\r", GOOD[4]], []),
            ("no L", [*GOOD[:4], R2], ["last-l"]),
        ):
            self.same(f"{name}: not left out", fix.fixed(b"".join(came), frozenset()), None)
            self.same(f"{name}: the setting", fix.lacking(b"".join(came), frozenset(), True), setting)

    def test_limits(self):
        """A message with very many records isn't fixed."""
        body = b"".join([*GOOD[:4], R2, GOOD[4]])
        many = b"".join([*GOOD[:4], R2, *[b"C|\r"] * fix.MOST_RECORDS, GOOD[4]])
        begin, end = Begin("k", "a", "p", "latin-1", 0.0), End("k", "a", "invalid", "too long", "", 1, 0.0)

        async def changes_of(data):
            return len(await fixer_of(()).changes(fix.Ended(begin, data, end, True)))

        self.same("one that is fixed", asyncio.run(changes_of(body)), 4)
        self.same("many records", asyncio.run(changes_of(many)), 1)

    def test_long_random(self):
        """Of random messages with long records each result that is delivered has the patient and the order that it had,
        and none is missing but those that are too long."""
        rng, delivered = random.Random(23), 0
        for turn in range(300):
            records = random_records(rng)
            found = fix.fixed(b"".join(records), frozenset())
            if any(len(one) > 65537 and one[:1] in b"HPOQL" for one in records):
                self.same(f"{turn}: a long record that others belong to", found, None)
                continue
            wanted = [each for each in results_of(records) if len(each[2]) <= 65537]
            out = results_of(found.messages[0].splitlines(True)) if found else None
            self.need(out == wanted, lambda: f"{turn}: {[one[:30] for one in records]}")
            delivered += any(len(one) > 65537 for one in records)
        self.true("some have long records", delivered > 50, str(delivered))

    def test_long_query(self):
        """A query with a comment that is too long is answered."""
        host = Host(self.path("asks.db"), "--listen", "0,name=q,orders=query,frame=63993", scale=1.0, listen=False)
        with Client(ports_of(host)["q"]) as client:
            *units, end = long_units([GOOD[0], b"Q|1|^S7||ALL\r", C2, GOOD[4]])
            self.same("a query", {client.asks(unit, seconds=60) for unit in units}, {ACK})
            client.send(end)
            self.same("the host answers", client.heard(1, 60), ENQ)
        self.same("the host's status", host.stop(), 0)

    def test_not_fixed(self):
        """What would change a result isn't fixed; a session that breaks off, or a frame that stays rejected, isn't the
        end of a message."""
        value = [*GOOD[:3], b"R|1|^^^GLU|5\x004|mmol/L\r", GOOD[4]]
        words = ["--listen", "0,name=nul,fix=nul", "--listen", "0,name=last-l,fix=last-l"]
        host = Host(self.path("not.db"), *words, "--listen", "0,name=bare", scale=1.0, listen=False)
        ports, sent = ports_of(host), frames(GOOD[:4])
        play(ports["nul"], [ENQ, *frames(value), EOT])
        play(ports["bare"], [ENQ, *frames(value), EOT])
        with Client(ports["last-l"]) as client:
            self.same("a line that is closed", [client.asks(unit) for unit in (ENQ, *sent)], [ACK] * 5)
        with Client(ports["last-l"]) as client:
            bad = sent[3].replace(b"5.4", b"5.5")
            self.same("a bad frame", [client.asks(unit) for unit in (ENQ, *sent[:3], bad)], [ACK] * 4 + [NAK])
            client.send(EOT)
            self.same("a new session", [client.asks(unit) for unit in (ENQ, *sent, ENQ)], [ACK] * 5 + [b""])
        self.true("all are kept", wait_for(lambda: len(Found(host.store).others) == 5, 60))
        self.same("the host's status", host.stop(), 0)
        found = Found(host.store)
        self.same("none is delivered", found.whole, [])
        self.same("none is said to be", [one.reason for one in found.others if "fix" in one.reason], [])

    def test_repeats(self):
        """A message that comes again is fixed again, and marked, whenever a host is killed in between."""
        for store in (self.path("again.db"), "spool:" + self.path("again.spool")):
            fixes_again(self, store)
        case = LONG["R"]
        fixes_again(self, self.path("long again.db"), ",frame=63993", long_units(case.came), b"".join(case.left))

    def test_left(self):
        """A host that is killed as soon as a session has ended: the next one makes of it what its line fixes, also of a
        message that has no L; a record that isn't whole gets no end."""
        words = ["--listen", "0,name=last-l,fix=last-l,last-cr", "--listen", "0,name=bare"]
        host = Host(self.path("left.db"), *words, scale=1.0, listen=False)
        for turn in range(4):
            records = changed(0, b"H|\\^&|||%d\r" % turn)[:-len(GOOD[4])]
            play(ports_of(host)["last-l"], [ENQ, frame(1, records), EOT])
            host.kill()
            host.start()
            self.true(f"delivered {turn}", wait_for(lambda: len(Found(host.store).whole) == turn + 1), turn)
            self.has("marked", Found(host.store).whole[-1].reason, "L was put at the end")
        play(ports_of(host)["bare"], [ENQ, frame(1, records), EOT])
        play(ports_of(host)["last-l"], [ENQ, frame(1, b"".join(GOOD[:3]) + b"R|1|^^^GLU|5."), b""])
        host.kill()
        host.start()
        self.same("the host's status", host.stop(), 0)
        found = Found(host.store)
        self.same("whole", len(found.whole), 4)
        self.same("left", sorted(one.line for one in found.others if "fixed" not in one.reason), ["bare", "last-l"])
        self.true("said", "messages were open when the host stopped" in "".join(host.errors), host.errors)

    def test_order(self):
        """A correction comes after the message that it corrects, which needs an end: whatever another line's messages
        need, its number is greater."""
        words = ["--listen", "0,name=last-l,fix=last-l", "--listen", "0,name=busy,fix=bytes,last-l"]
        host = Host(self.path("order.db"), *words, scale=1.0, listen=False)
        ports, heavy = ports_of(host), heavy_units(150_000)
        for turn in range(3):
            first, second = (changed(0, b"H|\\^&|||%d %s\r" % (turn, one)) for one in (b"first", b"second"))
            for _ in range(3):
                play(ports["busy"], heavy)
            play(ports["last-l"], [ENQ, frame(1, first[:-len(GOOD[4])]), EOT])
            replies = play(ports["last-l"], [ENQ, frame(1, second), EOT])
            self.same(f"acknowledged {turn}", replies, [ACK, ACK])
        self.same("the host's status", host.stop(), 0)
        bodies = [one.body.split(b"\r")[0][-8:].split()[-1] for one in Found(host.store).whole if one.line == "last-l"]
        self.same("in order", bodies, [b"first", b"second"] * 3)

    def test_tries_delay_nobody(self):
        """Which setting would deliver the messages of a line is tried: meanwhile another line's messages are fixed and
        acknowledged, and a stop doesn't wait for it."""
        asyncio.run(self.fixed_while_tried())
        words = ["--listen", "0,name=bytes,fix=bytes", "--listen", "0,name=tried"]
        host = Host(self.path("tries.db"), *words, scale=1.0, listen=False)
        ports, heavy = ports_of(host), heavy_units(250_000)
        for _ in range(5):
            play(ports["tried"], heavy)
        sent = units("bytes")
        for turn in range(3):
            self.same(f"acknowledged {turn}", play(ports["bytes"], sent), [ACK] * (len(sent) - 1))
        whole = lambda: [one.line for one in Found(host.store).whole]  # noqa: E731
        self.true("delivered", wait_for(lambda: whole() == ["bytes"] * 3), whole())
        self.same("the host's status", host.stop(), 0)
        found = [one for one in Found(host.store).others if one.line == "tried"]
        self.same("those that were tried are kept", [one.state for one in found], ["invalid"] * 5)

    async def fixed_while_tried(self):
        """A message is fixed while another one is tried, which ends after it."""
        is_fixed, workers = threading.Event(), Workers(lambda: ThreadPoolExecutor(1))
        with mock.patch.object(fix, "lacking", lambda *given: is_fixed.wait(60)):
            tried = asyncio.ensure_future(workers.lacking(b"L|1\r", frozenset(), True))
            await asyncio.sleep(0)
            work = asyncio.ensure_future(workers.fixed(b"L|1\r", frozenset()))
            done, _ = await asyncio.wait([work], timeout=30)
            self.same("fixed while another one is tried", len(done), 1)
            is_fixed.set()
            await asyncio.wait([work, tried])
        workers.stop()

    def test_a_stop_starts_nothing(self):
        """A process that ends because the host stops isn't started again."""
        made = []

        def pool():
            made.append(mock.Mock(**{"submit.side_effect": ends}))
            return made[-1]

        def ends(*_):
            workers.stop()
            raise BrokenProcessPool

        workers = Workers(pool)
        with self.assertRaises(asyncio.CancelledError):
            asyncio.run(workers.fixed(b"L|1\r", frozenset()))
        self.same("processes", len(made), 1)

    def test_query(self):
        """A query that is fixed is answered."""
        words = ["--listen", "0,name=q,orders=query,fix=header-3,crlf"]
        host = Host(self.path("query.db"), *words, scale=1.0, listen=False)
        with Client(ports_of(host)["q"]) as client:
            texts = [b"H|\\^\r\n", b"Q|1|^S7||ALL\r\n", b"L|1|N\r\n"]
            self.same("a query", [client.asks(unit) for unit in (ENQ, *map(frame, (1, 2, 3), texts))], [ACK] * 4)
            client.send(EOT)
            self.same("the host answers", client.heard(1, 60), ENQ)
        self.same("the host's status", host.stop(), 0)

    def test_line_feeds(self):
        """Texts with LF, cut anywhere: those that come are those that were sent, byte by byte, and no damaged one."""
        rng = random.Random(11)
        for turn in range(400):
            texts = [random_text(rng) for _ in range(rng.randrange(1, 9))]
            sent = [ENQ, *(frame(number, text) for number, text in enumerate(texts, 1)), EOT]
            self.same(f"{turn}: {texts}", heard(rng, b"".join(sent)), texts)
            damaged = rng.randrange(1, len(texts) + 1)
            byte = rng.randrange(len(sent[damaged]))
            one = bytearray(sent[damaged])
            one[byte] ^= 1 << rng.randrange(8)
            found = heard(rng, b"".join([*sent[:damaged], bytes(one), *sent[damaged + 1 :]]))
            self.true(f"{turn}: a damaged frame {bytes(one)}", found in (texts[: damaged - 1], texts), repr(found))

    def test_streams(self):
        """Of random texts every byte is kept as it came, whatever is fixed, and what is made of them can be read."""
        rng, made = random.Random(17), 0
        for turn in range(300):
            stream = random_stream(rng).replace(b"|5", rng.choice((b"|5", b"|\x1d", b"|5\0")))
            names = rng.sample(options.NAMES, rng.randrange(len(options.NAMES)))
            came, whole, fixed = asyncio.run(kept(random_texts(rng, stream), names))
            self.same(f"{turn}: {names}: what came", came, stream)
            found = [[type(one) for one in read_all(body)] for body in [*whole, *fixed]]
            self.same(f"{turn}: {names}: what can be read", found, [[lislink.Found]] * len(found))
            made += len(fixed)
        self.true("some are fixed", made > 50, str(made))

    def test_words(self):
        """The names of a line's fixes, in its words and in a file of lines."""
        place = options.listen_of("0,fix=last-l,escape,name=a")
        self.same("names in their order", (place.fix, place.name), (("bytes", "last-l"), "a"))
        self.same("with a sign between them", options.serial_of("/dev/x:9600,fix=crlf+lf").fix, ("crlf", "lf"))
        self.same("what is always done", options.listen_of("0,fix=long,nul").fix, ("nul",))
        with open(self.path("fixes.lines"), "w", encoding="ascii") as file:
            file.write("[a]\nlisten = 1\nfix = last-l, bytes\n  nul\n[b]\nlisten = 2\nfix = lfs\n")
        found = lines.read_lines(file.name, [])
        shown = "a: listen=127.0.0.1:1 frame=240 encoding=iso8859-1 fix=nul,bytes,last-l"
        self.same("as it is shown", [lines.text_of(one) for one in found.places], [shown])
        self.same("a fault", found.faults, [f"{file.name}:7: fix is one or more of {', '.join(options.NAMES)}, not lfs"])


def heavy_units(size):
    """A session whose message can't be read, and needs long to be tried."""
    body = b"".join(GOOD[:4]) + b"C|1|I|\xff\r" * (size // 10) + b"Z|1\r" + GOOD[4]
    return [ENQ, *(frame(at + 1, body[at * 200 : at * 200 + 200]) for at in range(0, (len(body) + 199) // 200)), EOT]


def fixes_again(test, store, setting=",fix=escape", sent=None, wanted=None):
    """Sends a message that is fixed three times, and kills the host each time before EOT."""
    host, name = Host(store, "--listen", f"0,name=bytes{setting}", scale=1.0, listen=False), store[:5]
    for turn in range(3):
        with Client(ports_of(host)["bytes"]) as client:
            replies = [client.asks(unit, seconds=60) for unit in (sent or units("bytes"))[:-1]]
            host.kill()  # what is acknowledged is delivered, at the latest by the next host
        test.same(f"{name}: acknowledged {turn}", set(replies), {ACK})
        host.start()
        test.true(f"{name}: delivered {turn}", wait_for(lambda: len(Found(store).whole) == turn + 1), turn)
    test.same("the host's status", host.stop(), 0)
    found = Found(store)
    test.same(f"{name}: delivered", {one.body for one in found.whole}, {wanted or CASES["bytes"].message})
    test.same(f"{name}: unmarked repeats", found.unmarked(), [])
    test.same(f"{name}: counted", [(one.fixed, one.invalid) for one in found.counts], [(3, 0)])
    test.same(f"{name}: kept as they came", len({one.body for one in found.others}), 1)


def fixer_of(names):
    """What fixes so, in a thread."""
    return Fixer(names, Workers(lambda: ThreadPoolExecutor(1)), Counter())


async def kept(texts, names):
    """What is kept of texts: all bytes as they came, the messages that are whole as they came, and those that are
    fixed."""
    intake, fixer = Intake("line", "peer", "latin-1", 1 << 20, lambda: 0.0, Held(1 << 20)), fixer_of(names)
    changes = []
    for some in [*(some for text in texts for some in intake.take(text)), intake.drop("the end")]:
        changes += await fixer.of_all(some, intake.bodies, True, None)
    bodies, whole = {}, {}
    for change in changes:
        if isinstance(change, Add):
            bodies[change.key] = bodies.get(change.key, b"") + change.body
        elif isinstance(change, End) and change.state == COMPLETE:
            whole[change.key] = change.reason
    came = b"".join(body for key, body in bodies.items() if not whole.get(key))
    return came, *([bodies[key] for key in whole if bool(whole[key]) is is_made] for is_made in (False, True))


def random_text(rng):
    """A text with LFs or none."""
    parts = b"\n", b"\r\n", b"\r", b"H|1", b"8F\r\n", b"A", b"\x0b", b"L|1|N"
    return b"".join(rng.choices(parts, k=rng.randrange(1, 9)))


def heard(rng, data):
    """The texts that a receiver delivers of bytes that are cut anywhere; it hears as many as came."""
    texts, count, at, feeds = [], 0, 0, LineFeeds(FRAME_TEXT)
    with Receiver() as receiver:
        while at < len(data):
            size = rng.randrange(1, rng.choice((3, 30, 300)))
            for one in feeds.take(data[at : at + size]):
                count += len(one.data)
                found = [feeds.restored(one, step) for step in receiver.hear(one.data)]
                texts += [step.text for step in found if step.text is not None]
            at += size
    assert count == len(data), (count, len(data))
    return texts


def long_units(records):
    """The units of a session whose records are long, each in one text."""
    sent, number = [ENQ], 0
    for record in records:
        starts = range(0, len(record), LONG_FRAME_TEXT)
        for start in starts:
            number += 1
            part = record[start : start + LONG_FRAME_TEXT]
            sent.append(frame_bytes(number % 8, start == starts[-1], part, frame_limit=LONG_FRAME_TEXT))
    return [*sent, EOT]
