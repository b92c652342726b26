"""The program that lislink is measured against answers as it does: the peer (bench/peer), by the benchmark's inputs,
whole, in pieces and damaged, by the samples, by small inputs of which each bit is turned in its turn, and by the rows
of commands."""
import glob
import os
import random
import re
import tempfile

import inputs
import programs
import suite
from tests import ROOT, kit
from tests.cli import test_cuts

#: How often each input is damaged, and at how many places.
DAMAGED, PLACES = 6, 12
#: The commands of each kind of sample.
COMMANDS = {"link": ["show", "show --long"], "records": ["check", "results"],
            "capture": ["replay", "replay --long", "texts", "texts --long", "upgrade"]}
#: Two frames of a text, and the inputs each of whose bits is turned.
FRAMES = inputs.frame(1, b"H|\r", inputs.ETB), inputs.frame(2, b"L|1\r", inputs.ETX)
SMALL = {"show": b"\x05%s%s\x04" % FRAMES,
         "replay": b"> 05\n< 06\n> %s\n> %s\n< 06\n> %s\n< 06\n> 04\n" % (
             FRAMES[0][:4].hex().encode(), FRAMES[0][4:].hex().encode(), FRAMES[1].hex().upper().encode()),
         "upgrade": b"T\n> 05\n< 06\n> %s\n< 1506\n" % FRAMES[0].hex().upper().encode(),
         "check": b"H|\\^&|\rP|1\rO|1|a\rR|1|^b|2\rC|1\rL|1|N\r",
         "results": b"H|\\^&|\rP|1\rO|1|a&F&\rR|1|^b|2|&X0d&|||N|F|\rL|1|N\r"}
#: What is at a limit, or one more.
LIMITS = [("check", b"H|\\^&\rL\r1|\r"), ("upgrade", b"> 0\n"), ("upgrade", b"T\n> 050\n"), ("replay", b"> 05\n> 0\n"),
          *(("results", b"H|\\^&\rP|%s\rL|1\r" % bytes(65534 + more).replace(b"\0", b"x")) for more in (0, 1)),
          *(("upgrade", b"T\n> %s%s\n" % (b"aB" * 2047, end)) for end in (b"", b"\r", b"\r\r", b"aB")),
          *(("texts --long", b"> 05\n> %s\n> 02\n" % (b"41" * count)) for count in (2047, 2048))]
LINES = (b"", b"T", b"R", b"S busy", b"S ready", b"S contending", b"> 05", b"> 04", b"< 06", b"< 15", b"> 02", b"> 0a",
         b"> 0502", b"< 0606", b"> 02310303340d0a", b"> 0231033334")
MARKS = (b"\x02", b"\x03", b"\x04", b"\x05", b"\n", b"\r", b"\x17", b"\x00", b"\x07", b"\x7f", b"\xff", b"|", b"&",
         b"\x021", b"\r\n", b"C\r", b"R|01\r", b"&X0d&", b"L|1|N\r")


def damaged_capture(rng, data):
    """A capture of version 2 some of whose lines are others, cut, or elsewhere. Almost all of them are lines."""
    lines = [line for line in data.split(b"\n") if line != b"capture 2"][:400]
    for _ in range(PLACES):
        place = rng.randrange(len(lines) - 1)
        line, what = lines[place], rng.randrange(6)
        cut = 2 * rng.randrange(1, len(line) // 2) if len(line) > 5 else 2
        if what == 0:
            lines.insert(place, rng.choice(LINES))
        elif what == 1 and cut > 2:
            lines[place:place + 1] = [line[:cut], line[:2] + line[cut:]]
        elif what == 2 and cut > 2:
            lines[place] = line[:cut] + rng.choice((b"0", b"7", b"F", b"a")) + line[cut + 1:]
        elif what == 3:
            lines[place] = line + b"\r"
        elif what == 4:
            del lines[place]
        else:
            lines.insert(place, line.upper() if line[:1] in b"<>" else line)
    return b"\n".join([b"capture 2", *lines, *([b"> 0g"] if rng.random() < 0.3 else [])])


def damaged(rng, data):
    """Bytes some of which are others, gone, or twice there."""
    data = bytearray(data[:40000])
    for _ in range(PLACES):
        place, what = rng.randrange(len(data)), rng.randrange(4)
        if what == 0:
            data[place:place] = rng.choice(MARKS)
        elif what == 1:
            data[place] = rng.randrange(256)
        elif what == 2:
            del data[place:place + rng.randrange(1, 9)]
        else:
            data[place:place] = data[place:place + rng.randrange(1, 90)]
    return bytes(data)


def answers():
    """What is asked: a name, a command, the bytes, and how long the pieces are, if it isn't asked whole."""
    rng = random.Random(5)
    for made in inputs.inputs(1):
        data = made.head + made.block
        for command in made.commands:
            yield made.name, command, data, None
            yield f"{made.name}, so often", command, made.head + made.block * (400000 // len(made.block)), None
            for name, split, length in test_cuts.splits(data):
                yield f"{made.name}, {name}", command, split[:50000], length
            change = damaged_capture if command.split()[0] in ("replay", "texts", "upgrade") else damaged
            for number in range(DAMAGED):
                yield f"{made.name}, damaged {number}", command, change(rng, data), None
    for number, (command, data) in enumerate(LIMITS):
        yield f"limit {number}", command, data, None
    for command, data in SMALL.items():
        for place in range(8 * len(data)):
            turned = bytearray(data)
            turned[place // 8] ^= 1 << place % 8
            yield f"bit {place}", command, bytes(turned), None
    for path in sorted(glob.glob(os.path.join(ROOT, "samples/**/*.*"), recursive=True)):
        for command in COMMANDS.get(path.rpartition(".")[2], []):
            with open(path, "rb") as file:
                yield os.path.relpath(path, ROOT), command, file.read(), None


def has_rustc():
    """Whether the compiler knows what the peer is written in."""
    version = re.match(r"rustc 1\.(\d+)\.", programs.printed_by("rustc", "--version"))
    return version is not None and int(version[1]) >= 88


class Peers(kit.Test):
    def test_peer(self):
        """The peer, compiled as the benchmark compiles it."""
        asked = list(answers())
        rows = suite.files("commands")
        cases = sum(1 for path in rows for _ in suite.cases(path))
        self.needs("rustc", has_rustc(), len(asked) + cases, "the answers of the peer")
        lislink = kit.built("lislink")
        with tempfile.TemporaryDirectory(prefix="lis-test-") as work:
            peer = programs.peer(work)
            for what, command, data, length in asked:
                found = test_cuts.whole(peer, command, data) if length is None else \
                    test_cuts.in_pieces(peer, command, data, length)
                self.check(found == test_cuts.whole(lislink, command, data), f"the peer's {command}, {what}")
            for path in rows:
                for asked_rows, found in suite.commanded(peer, path):
                    wrong = suite.first_wrong(path, asked_rows, found)
                    self.check(not wrong, *(wrong or [""]))
