"""Builds shim.c with the C compiler and runs programs under it: with growths of memory that fail, and with reads and
writes that fail or move few bytes."""
import mmap
import os
import shutil
import struct
import subprocess
import tempfile
from collections import namedtuple

HERE = os.path.dirname(os.path.abspath(__file__))
# The numbers of the table that the shim shares with the test; shim.c says what each is.
NAMES = ("armed refuse least growths refused read_most fail_read reads read_bytes write_most short_write fail_write "
         "writes written_bytes fail_error lines fail_told later_calls").split()
# No run of a test takes longer: it has at most a few megabytes to read, and is through in well under a second.
SECONDS = 60

Ran = namedtuple("Ran", "status output error table")
Told = namedtuple("Told", "answer growths refused")


class Shim:
    """The built shim, in a folder of its own that is removed with the process."""

    def __init__(self):
        self.folder = tempfile.TemporaryDirectory(prefix="lis-shim-")
        self.library = self.path("shim.so")
        compiler = shutil.which("cc") or shutil.which("gcc")
        if not compiler:
            raise AssertionError("no C compiler here: install the package gcc")
        subprocess.run([compiler, "-O2", "-Wall", "-Wextra", "-shared", "-fPIC", "-o", self.library,
                        os.path.join(HERE, "shim.c"), "-ldl"], check=True)
        with open(self.path("table"), "wb") as made:
            made.write(bytes(8 * len(NAMES)))
        self.file = open(self.path("table"), "r+b")
        self.table = mmap.mmap(self.file.fileno(), 8 * len(NAMES))

    def path(self, name):
        return os.path.join(self.folder.name, name)

    def set(self, numbers):
        """Puts numbers into the table, and zero for the others."""
        self.table[:] = struct.pack(f"{len(NAMES)}q", *(numbers.get(name, 0) for name in NAMES))

    def counted(self):
        return dict(zip(NAMES, struct.unpack(f"{len(NAMES)}q", self.table[:])))

    def environment(self, **more):
        return {**os.environ, "LD_PRELOAD": self.library, "SHIM": self.path("table"), **more}

    def run(self, words, data, **numbers):
        """Runs a program over a file of these bytes, with these numbers in the table."""
        with open(self.path("input"), "wb") as made:
            made.write(data)
        self.set(numbers)
        with open(self.path("input"), "rb") as source:
            ran = subprocess.run(words, stdin=source, stdout=subprocess.PIPE, stderr=subprocess.PIPE,
                                 env=self.environment(), timeout=SECONDS)
        return Ran(ran.returncode, ran.stdout, ran.stderr, self.counted())

    def ask(self, program, asked):
        """Asks a program lines, each as (growth that fails, least bytes of a growth that counts, line), and gives
        what the program answered to each. A growth that fails outside of a call would end the program: then answers
        are missing."""
        with open(self.path("report"), "wb"):
            pass
        self.set({"lines": 1})
        text = "".join(f"{refuse} {least} {line}\n" for refuse, least, line in asked)
        ran = subprocess.run([program], input=text.encode(), stdout=subprocess.PIPE, timeout=SECONDS,
                             env=self.environment(SHIM_REPORT=self.path("report")))
        answers = ran.stdout.decode(errors="replace").split("\n")[:-1]
        with open(self.path("report")) as report:
            counts = [tuple(map(int, row.split())) for row in report]
        if ran.returncode or not len(answers) == len(counts) == len(asked):
            raise RuntimeError(f"{program}: status {ran.returncode}, {len(answers)} answers to {len(asked)} calls")
        return [Told(answer, *count) for answer, count in zip(answers, counts)]
