"""The binding: what it rejects, threads, pieces, long input. tests/ffi has each call at values known from outside."""
import glob
import os
import random
import shutil
import subprocess
import sys
import threading
import time

import lislink
from lislink import (
    Note, Reader, Receiver, Record, Row, Scanner, Sender, Writer, WrongThread, frame_bytes, messages, records
)
from tests import ROOT, kit
from tests.field.lab import FieldTest

FIRST = bytes.fromhex("0231487c5c5e260d0345350d0a")
PYTHON = os.path.join(ROOT, "python")


def printed(words, **more):
    """A run of a command from the root of the file system, without the library and the package of this checkout."""
    how = {"cwd": "/", "env": kit.without_library(**more), "capture_output": True, "text": True, "check": False}
    return subprocess.run(words, **how)


def random_message(rng):
    """A header with delimiters by chance, and records of fields by chance, many of them of delimiters and escapes."""
    delimiters = bytes(rng.sample(b"|\\^&~!$*", 4))
    bits = [bytes([one]) for one in delimiters] + [b"a", b"", b"F", b"X0D", b"XZ"]
    bits += [delimiters[3:] + word + delimiters[3:] for word in (b"F", b"S", b"R", b"E", b"H", b"N", b"X41", b"Q")]
    rows = [
        b"H" + delimiters + (delimiters[:1] + b"".join(rng.choices(bits, k=rng.randrange(9)))) * rng.randrange(2)
    ]
    for letter in [b"P", b"O", b"R", b"r", b"C", b"M"]:
        rows.append(letter + delimiters[:1] + b"".join(rng.choices(bits, k=rng.randrange(16))))
    return rows + [b"L"]


def of_record(record, row):
    """The parts of a record by the library, one by one, as the lists that a row makes of them."""

    def some(call):
        found = []
        while call(len(found)) is not None:
            found.append(call(len(found)))
        return found

    numbers = range(row.first, row.first + record.fields)
    return [some(lambda repeat: some(lambda part: record.part(number, repeat, part)) or None) for number in numbers]


def differing(rng, messages_):
    """How many rows differ from the library's own parts."""
    count = 0
    for _ in range(messages_):
        texts = random_message(rng)
        with Reader() as reader:
            rows = list(reader.feed(b"\r".join(texts) + b"\r"))
        for row, record in zip(rows, records(texts)):
            wanted = of_record(record, row)
            parts = [
                [[row.part(n, r, c) for c in range(len(one))] for r, one in enumerate(field)]
                for n, field in enumerate(wanted, row.first)
            ]
            absent = [row.part(n, len(field)) for n, field in enumerate(wanted, row.first)]
            absent += [row.part(n, 0, len(field[0])) for n, field in enumerate(wanted, row.first)]
            good = row.fields == parts == wanted and not any(one is not None for one in absent)
            good = good and [row.field(n) for n in range(row.first, row.first + row.count)] == wanted
            count += not (good and row.count == record.fields and row.field(row.count + row.first) == [])
        count += len(rows) != len(texts)
    return count


class Binding(FieldTest):
    def test_docstrings(self):
        """Each public name says what it is."""
        for name in lislink.__all__:
            one = getattr(lislink, name)
            if callable(one):
                self.check(bool(one.__doc__), f"{name} has a docstring")
                for part, value in vars(one).items() if isinstance(one, type) else ():
                    if (
                        not part.startswith("_")
                        and (callable(value) or isinstance(value, property))
                        and value.__class__.__name__ != "member"
                    ):
                        self.check(bool(value.__doc__), f"{name}.{part} has a docstring")

    def test_types(self):
        """Wrong types and numbers are rejected, and change nothing."""
        with Scanner() as scanner, Receiver() as receiver, Sender() as sender, Reader() as reader, Writer() as writer:
            for name, call in (
                ("hear(5)", lambda: receiver.hear(5)),
                ("hear of text", lambda: receiver.hear("ENQ")),
                ("hear of None", lambda: receiver.hear(None)),
                ("hear of a list", lambda: receiver.hear([5])),
                ("feed(5)", lambda: scanner.feed(5)),
                ("feed of text", lambda: reader.feed("H")),
                ("add_text(5)", lambda: sender.add_text(5)),
                ("reply of bytes", lambda: sender.reply(b"\x06")),
                ("reply(True)", lambda: sender.reply(True)),
                ("reply(6.0)", lambda: sender.reply(6.0)),
                ("set_room(1)", lambda: receiver.set_room(1)),
                ("set_ready(True)", lambda: receiver.set_ready(True)),
                ("reserve of text", lambda: receiver.reserve("1")),
                ("frame_bytes of text", lambda: frame_bytes(1, True, "a")),
                ("frame_bytes, last of 1", lambda: frame_bytes(1, 1, b"a")),
                ("Record of text", lambda: Record("H|\\^&")),
                ("records of text", lambda: list(records(["H|\\^&"]))),
                ("record of a number", lambda: writer.record(72, [])),
                ("a field of text", lambda: writer.record("H", ["a"])),
            ):
                self.raises(name, TypeError, call)
            for name, call in (
                ("reply(300)", lambda: sender.reply(300)),
                ("reply(-1)", lambda: sender.reply(-1)),
                ("reserve(-1)", lambda: receiver.reserve(-1)),
                ("reserve(2 ** 64)", lambda: receiver.reserve(1 << 64)),
                ("set_ready(7)", lambda: receiver.set_ready(7)),
                ("frame 300", lambda: frame_bytes(300, True, b"")),
                ("part(-1)", lambda: Record(b"H|\\^&|x").part(-1)),
                ("five delimiters", lambda: writer.start(b"|\\^&~")),
            ):
                self.raises(name, ValueError, call)
            self.same(
                "nothing was heard", (receiver.is_open, receiver.waiting, list(receiver.hear(b""))), (False, 0, [])
            )

    def test_closed_handles(self):
        with Receiver() as receiver, Sender() as sender:
            pass
        self.raises("a closed receiver", ValueError, lambda: receiver.hear(b"\x05"))
        self.raises("a closed sender", ValueError, sender.timer)

    def test_threads(self):
        """A handle that is used from another thread raises, and lives on in its own."""
        for kind, call in (
            (Receiver, lambda one: list(one.hear(b"\x05"))),
            (Scanner, lambda one: list(one.feed(b"\x05"))),
            (Sender, lambda one: one.add_text(b"a")),
            (Reader, lambda one: list(one.feed(b"H"))),
            (Writer, lambda one: one.texts()),
            (Receiver, lambda one: one.close()),
        ):
            told = []

            def other(handle):
                try:
                    call(handle)
                    told.append(None)
                except Exception as error:
                    told.append(type(error))

            with kind() as handle:
                thread = threading.Thread(target=other, args=(handle,))
                thread.start()
                thread.join()
                self.same(f"{kind.__name__} in another thread", told, [WrongThread])
                call(handle)

    def test_pieces(self):
        """Nothing of a piece is lost when a loop is left."""
        with Receiver() as receiver:
            for step in receiver.hear(b"\x05" + FIRST + b"\x04"):
                break
            self.same("receiver: what is left waits", receiver.waiting, len(FIRST) + 1)
            self.same(
                "receiver: it is heard next",
                [one.note for one in receiver.hear(b"\x05")],
                [Note.ACCEPTED, Note.ENDED, Note.OPENED],
            )
            receiver.hear(FIRST)
            self.same("receiver: a piece without a loop", [one.note for one in receiver.hear(b"")], [Note.ACCEPTED])
        with Scanner() as scanner:
            self.same("scanner: a place", [place for place, _ in scanner.feed_placed(b"x\x05" + FIRST)], [1, 14])
            next(scanner.feed(b"\x05\x04\x05"))
            self.same(
                "scanner: places of what was left", [place for place, _ in scanner.feed_placed(b"\x04")], [-2, -1, 0]
            )
        whole = b"H|\\^&|||A\rP|1||" + b"x" * 300 + b"\rL|1|N\r"
        for size in (1, 2, 7, 100, 330):
            with Reader() as reader:
                texts = [row.text for at in range(0, len(whole), size) for row in reader.feed(whole[at : at + size])]
                self.same(f"reader: texts in pieces of {size}", texts, whole.split(b"\r")[:-1])
                self.same(f"reader: how far, in pieces of {size}", reader.read, len(whole))
        with Reader() as reader:
            next(reader.feed(b"H|\\^&\rP|1\rO|1\r"))
            self.same("reader: what is left is read", [row.letter for row in reader.feed(b"L|1\r")], ["P", "O", "L"])

    def test_long_input(self):
        """Long input takes linear time: each of these takes a second, and would take minutes if it didn't."""
        begun = time.process_time()
        with Scanner() as scanner:
            self.same("a long piece", sum(1 for _ in scanner.feed(b"\x05\x04" * 50000 + b"x" * 3000000)), 100000)
        with Reader() as reader:
            long = b"H|\\^&\rC|" + b"x" * 60000 + b"\rL|1|N\r"
            rows = [row for at in range(len(long)) for row in reader.feed(long[at : at + 1])]
            self.same("a long record byte by byte", b"".join(row.text + b"\r" for row in rows), long)
        for marks in (b"^", b"\\", b"|", b"^\\", b"|^"):
            with Reader() as reader:
                row = list(reader.feed(b"H|\\^&\rC|" + marks * (60000 // len(marks)) + b"\rL\r"))[1]
                self.same(f"many {marks!r}", sum(len(one) for field in row.fields for one in field), 60001)
        bad = b"H|\\^&\rR|1\rL|1|N\r"
        found = list(lislink.read_all((bad + b"H|\\^&\rL|1|N\r") * 5000))
        faults = sum(isinstance(one, lislink.Fault) for one in found)
        self.same("messages that can't be read and others", (len(found), faults), (10000, 5000))
        whole = list(messages([b"H|\\^&\r" + b"P|1\r" * 200000 + b"L|1|N\r"]))
        self.same("a long message", len(whole[0]), 200002)
        seconds = time.process_time() - begun
        self.check(seconds < 15, "long input takes linear time", f"{seconds:.1f} s")

    def test_parts(self):
        """A row's parts are the library's own; a row that is split another way is noticed."""
        self.same("rows: 2,000 random messages", differing(random.Random(5), 2000), 0)
        right = Row._repeats
        try:
            Row._repeats = lambda self, one: [one.split(self._marks[1])]
            self.check(differing(random.Random(5), 20) > 0, "rows: another way of splitting is noticed")
        finally:
            Row._repeats = right

    def test_lost(self):
        lost = printed(
            [sys.executable, "-c", "import lislink; lislink.Scanner()"],
            PYTHONPATH=os.path.join(PYTHON, "src"),
            LISLINK_LIBRARY="/nowhere.so",
        )
        self.has("a library that isn't there", lost.stderr, "`make` builds")

    def test_mypy(self):
        """The type hints, where mypy is."""
        self.needs("mypy", shutil.which("mypy") is not None, 4, "the type hints")
        how = {"capture_output": True, "text": True, "check": False, "env": {**os.environ, "MYPYPATH": f"{PYTHON}/src"}}
        for folder in (PYTHON, os.path.join(ROOT, "lab")):
            done = subprocess.run(["mypy", "--no-incremental"], cwd=folder, **how)
            self.check(done.returncode == 0, f"mypy in {folder}", done.stdout[-2000:])
        examples = sorted(glob.glob(os.path.join(ROOT, "examples/python/*.py")))
        done = subprocess.run(["mypy", "--strict", *examples], **how)
        self.check(done.returncode == 0, "mypy over the examples", done.stdout[-2000:])
        caller = "import lislink\nwith lislink.Receiver() as receiver:\n    receiver.nonsense()\n"
        done = subprocess.run(["mypy", "--strict", "-c", caller], **how)
        self.check("has no attribute" in done.stdout, "mypy, over a caller of what isn't there", done.stdout[-2000:])
