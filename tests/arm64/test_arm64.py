"""The program and the library for ARM64: the first conformance rows of commands, the samples and the tests in C."""
import os
import re
import subprocess

import suite
from tests import ROOT, kit
from tests.arm64 import machine
from tests.cli.test_conformance import compare, compare_commands
from tests.cli.test_words import LONG, MANY
from tests.ffi.c import BARE, source
from tests.ffi.test_programs import PROGRAMS, session
from tests.install.test_build import dist_of

#: The cases of each file of rows in `make test`; all are tried by `make arm64`, which sets this name.
MOST = None if os.environ.get("ARM64") == "all" else 60
#: These measure the stack of this machine's compiler, or open a terminal.
LEFT_OUT = ("stack", "serial")


class Arm64(kit.Test):
    def setUp(self):
        self.folder = kit.folder_of(self)

    def has(self, checks, what):
        """The rest of a test needs qemu and the compiler; the program for ARM64."""
        self.needs(machine.QEMU, machine.is_here(), checks, f"ARM64: {what}")
        return machine.build(self.folder)

    def test_rows(self):
        """As many cases of each file, by all commands that they have."""
        count = sum(1 for path in suite.files("commands") for _, case in zip(range(MOST or 10**9), suite.cases(path)))
        program = self.has(count, "rows of commands")
        if MOST is None:
            compare_commands(self, program)
            return
        for path in suite.files("commands"):
            compare(self, path, suite.commanded(program, path, MOST))

    def test_program(self):
        """It is for ARM64; its words: none, many, long ones."""
        program = self.has(5, "the program and its words")
        ran = subprocess.run(["readelf", "-h", f"{self.folder}/lislink"], capture_output=True, text=True)
        self.check("AArch64" in ran.stdout, "the program is for ARM64", ran.stdout)
        for words in ([], [""], MANY, LONG):
            words = [word.encode("latin-1") for word in words]
            ran = subprocess.run([program, *words], stdin=subprocess.DEVNULL, capture_output=True)
            self.same(f"{len(words)} words", (ran.returncode, ran.stderr), (2, b"usage: lislink COMMAND\n"))

    def test_each_room(self):
        self.has(3, "the words of the program")
        files = [os.path.join(ROOT, it) for it in ("tests/cli/words.c", "src/c/program/system.c")]
        words = machine.compiled(self, self.folder, "words", files)
        for more, said in (([], "1 words\n"), (["a", "", "long" * 50], "4 words\n")):
            self.runs([*words, *more], said)

    def test_bare(self):
        """The assembler and no C library."""
        self.has(2, "a program without a C library")
        code = os.path.join(dist_of(kit.built("build")), "aarch64-linux/lis_c.s")
        if self.runs([machine.GCC, *BARE[1:], source("bare.c"), code, "-o", f"{self.folder}/bare"]):
            self.runs([machine.QEMU, f"{self.folder}/bare"], "")

    def test_c(self):
        """The samples in C, and the programs that compare the library's calls."""
        programs = {name: it for name, it in PROGRAMS.items() if name not in LEFT_OUT}
        self.has(2 * len(programs) + 2, "programs in C")
        panel = os.path.join(ROOT, "samples/panel.records")
        with open(panel, "rb") as records, open(f"{self.folder}/link", "wb") as link:
            link.write(session(records.read().splitlines(keepends=True)))
        for name, (files, said) in programs.items():
            words = machine.compiled(self, self.folder, name, files)
            with open(panel if name in ("values", "patients") else f"{self.folder}/link") as given:
                self.runs(words, re.compile(said), stdin=given)
        # The shared library, by its symbols' version.
        words = [machine.GCC, f"-I{ROOT}/include", source("values.c"), f"-L{self.folder}", "-llislink", "-o"]
        self.runs([*words, f"{self.folder}/shared"])
        with open(panel) as given:
            qemu = [machine.QEMU, "-L", machine.LIBC, "-E", f"LD_LIBRARY_PATH={self.folder}"]
            self.runs([*qemu, f"{self.folder}/shared"], re.compile(PROGRAMS["values"][1]), stdin=given)
