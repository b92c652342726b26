"""Programs over the library: those of examples/c and of this folder in C, with the sanitizers of addresses and of
undefined behavior; one without a C library; two in C++; those of examples/python over the package."""
import os
import re
import shutil
import socket
import subprocess
import sys

from tests import ROOT, kit
from tests.ffi.c import BARE, C11, IN_PYTHON, RESULTS, SANITIZERS, compilers, python_over, shared, source
from tests.ffi.test_samples import ACK, CPP, ENQ, always_full, ask, frame
from tests.install.test_build import dist_of

VALUES = "".join(" ".join(line.split(" ")[:2]) + " \n" for line in RESULTS.splitlines())
#: The same with the patient and the specimen of the sample, by hand.
WHOSE = "".join(f"{whose} {line.strip()}\n" for whose, line in zip([*["4711 S7"] * 3, "4712 S8"], VALUES.splitlines()))
#: Each program: its files, those of this folder with their path, and the pattern of what it prints.
PROGRAMS = {"values": (["values.c", "names.c", "pieces.c", "heap.c"], re.escape(VALUES)),
            "patients": (["patients.c", "names.c", "pieces.c", "heap.c"], re.escape(WHOSE)),
            "resume": (["../../tests/ffi/resume.c", "pieces.c", "heap.c"], r"\d+ compared\n"),
            "null": (["../../tests/ffi/null.c", "heap.c"], r"\d+ compared\n"),
            "long": (["../../tests/ffi/long.c"], r"\d+ compared\n"),
            "within": (["../../tests/ffi/within.c", "lent.c"], r"\d+ compared\n"),
            "station": (["../../tests/ffi/station.c"], r"\d+ compared\n"),
            "careful": (["../../tests/ffi/careful.c", "heap.c"], r"\d+ compared\n"),
            "parts": (["../../tests/ffi/parts.c", "heap.c"], r"\d+ compared\n"),
            "stack": (["../../tests/ffi/stack.c", "heap.c"], "lis_long_frame_write: under 64 KiB\n"
                      "the usual limit: under 16 KiB\nthe long limit: under 1000 KiB\n"),
            "room": (["../../tests/ffi/room.c"],
                     r"499 texts, 0 calls of the heap for the last 497\n100 texts, 0 calls of the heap\n"
                     r"with room: 499 texts, 0 calls of the heap\n1004 records, 0 calls of the heap\n"
                     r"a station: 499 texts, 0 calls of the heap\n"),
            "last": (["../../tests/ffi/last.c", "heap.c"], r"\d+ compared\n"),
            "serial": (["../../tests/ffi/serial.c", "serial.c"], r"in out\n"),
            "line": (["../../tests/ffi/line.c", "connection.c", "heap.c"], r"\d+ compared\n"),
            "pieces": (["../../tests/ffi/pieces.c", "pieces.c", "heap.c"], r"\d+ records are equal\n"),
            "pair": (["pair.c", "analyzer.c", "host.c", "heap.c"], r"5 texts went over\n"),
            "signals": (["../../tests/ffi/signals.c", "analyzer.c", "host.c", "heap.c"], r"a timeout, a busy host, a closed line\n"),
            "message": (["message.c"], r"\d+ calls refused in turn\n"),
            "records": (["records.c"], r"\d+ calls refused in turn\n"),
            "refused": (["refused.c"], r"\d+ calls refused in turn\n")}

#: What room.cpp prints: 1,048,577 bytes more than C takes, which are those of a text and its end in a string.
ROOM = (r"a receiver: 499 texts, 0 calls\na station: 499 texts, 0 calls\nreserved: 3145729 bytes\n"
        r"the most: 6270977 bytes\n")


def session(texts):
    """The link bytes of a session: a frame for each text of at most 240 bytes (LIS01-A2, 6.3)."""
    link = b"\x05"
    for place, text in enumerate(texts, 1):
        inside = b"%d" % (place % 8) + text + b"\x03"
        link += b"\x02" + inside + b"%02X\r\n" % (sum(inside) % 256)
    return link + b"\x04"


class Programs(kit.Test):
    @classmethod
    def setUpClass(cls):
        cls.archive, cls.panel = kit.built("archive"), os.path.join(ROOT, "samples/panel.records")

    def test_c(self):
        work = kit.folder_of(self)
        if not compilers(self):
            return
        with open(self.panel, "rb") as records, open(f"{work}/link", "wb") as link:
            link.write(session(records.read().splitlines(keepends=True)))
        for name, (files, said) in PROGRAMS.items():
            paths = [source(file) for file in files]
            if self.runs([*C11, *SANITIZERS, *paths, self.archive, "-o", f"{work}/{name}"]):
                with open(self.panel if name in ("values", "patients") else f"{work}/link") as given:
                    self.runs([f"{work}/{name}"], re.compile(said), stdin=given)

    def test_broken_off(self):
        """A session that broke off, and its message again: each sample that reads names the first and goes on."""
        work, whose, values = kit.folder_of(self), WHOSE.splitlines(keepends=True), VALUES.splitlines(keepends=True)
        library = shared(self, self.archive, work)
        with open(self.panel, "rb") as file:
            panel = file.read()
        with open(f"{work}/broken", "wb") as file:
            file.write(panel[:panel.index(b"R|3")] + panel)
        samples = {"values": values[:2] + values, "patients": whose}
        for name, wanted in samples.items():
            paths = [source(file) for file in PROGRAMS[name][0]]
            self.runs([*C11, *SANITIZERS, *paths, self.archive, "-o", f"{work}/{name}"])
            self.names_one([f"{work}/{name}"], f"{work}/broken", "".join(wanted), 1)
        for name, wanted in (("quick_results", RESULTS), ("read_places", WHOSE), ("read_results", None)):
            words = [sys.executable, f"{IN_PYTHON}/{name}.py"]
            self.names_one(words, f"{work}/broken", wanted, 0, **python_over(library))

    def names_one(self, words, path, wanted, status, **how):
        """Whether a sample prints this, and one line on standard error of a record that can't be read."""
        with open(path) as given:
            ran = subprocess.run(words, stdin=given, capture_output=True, text=True, timeout=300, **how)
        self.same(f"{words[-1]}: its status", ran.returncode, status)
        if wanted is not None:
            self.same(f"{words[-1]}: what it prints", ran.stdout, wanted)
        self.check(re.fullmatch(r"record \d+: .*\n", ran.stderr), f"{words[-1]}: what it names", ran.stderr)

    def test_cpp(self):
        if not shutil.which("g++"):
            self.skipTest("g++: 10 checks: results.cpp and room.cpp")
        work = kit.folder_of(self)
        with open(self.panel, "rb") as file:
            panel = file.read()
        with open(f"{work}/broken", "wb") as file:
            file.write(panel[:panel.index(b"R|3")] + panel)
        pieces, names, heap = (f"{work}/{name}.o" for name in ("pieces", "names", "heap"))
        for name in (pieces, names, heap):
            self.runs([*C11, "-c", source(f"{os.path.basename(name)[:-2]}.c"), "-o", name])
        ours = [pieces, names, heap, self.archive]
        if self.runs([*CPP, f"{ROOT}/examples/cpp/results.cpp", *ours, "-o", f"{work}/results"]):
            with open(self.panel) as given:
                self.runs([f"{work}/results"], RESULTS, stdin=given)
            self.names_one([f"{work}/results"], f"{work}/broken", "".join(RESULTS.splitlines(True)[:2]) + RESULTS, 0)
        if self.runs([*CPP, f"{ROOT}/tests/ffi/room.cpp", names, self.archive, "-o", f"{work}/room"]):
            self.runs([f"{work}/room"], re.compile(ROOM))

    def test_no_reply(self):
        """quick_receive.cpp reports a text that it can't store."""
        if not shutil.which("g++"):
            self.skipTest("g++: 3 checks: what quick_receive.cpp reports")
        program = f"{kit.folder_of(self)}/quick_receive"
        library = os.path.join(kit.built("build"), "liblislink.a")
        if not self.runs([*CPP, f"{ROOT}/examples/cpp/quick_receive.cpp", library, "-o", program]):
            return
        pipes = {"stdout": subprocess.PIPE, "stderr": subprocess.PIPE}
        with subprocess.Popen([program, "0", always_full(f"{program}-full")], text=True, **pipes) as ran:
            with socket.create_connection(("127.0.0.1", int(ran.stdout.readline().split()[1]))) as line:
                self.check(ask(line, ENQ, ACK) and ask(line, frame(1, b"H|\\^&\r"), b""), "no reply is sent")
            self.same("what it reports", ran.communicate(timeout=300)[1],
                      "no reply was sent: the analyzer sends this session again\n")

    def test_bare(self):
        """The assembler and no C library; without one of the three copies it doesn't link."""
        work = kit.folder_of(self)
        code = os.path.join(dist_of(kit.built("build")), "x86_64-linux/lis_c.s")
        if self.runs([*BARE, source("bare.c"), code, "-o", f"{work}/bare"]):
            self.runs([f"{work}/bare"], "")
        with open(f"{work}/less.c", "w", encoding="utf-8") as file:
            file.write(kit.read(source("bare.c")).replace("memmove", "another"))
        ran = subprocess.run([*BARE, f"{work}/less.c", code, "-o", f"{work}/less"], capture_output=True, text=True)
        self.has("a copy is missing", ran.stderr, "undefined reference to `memmove'")

    def test_python(self):
        work = kit.folder_of(self)
        library = shared(self, self.archive, work)
        if library:
            with open(self.panel) as records:
                self.runs([sys.executable, os.path.join(IN_PYTHON, "quick_results.py")], RESULTS, stdin=records,
                          **python_over(library))
