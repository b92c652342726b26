"""The words that the program is started with (src/c/program/system.c): none, many, long ones; each room for one."""
import os
import subprocess

from tests import ROOT, kit
from tests.ffi.c import C11, SANITIZERS

SYSTEM = os.path.join(ROOT, "src/c/program/system.c")
#: More words than a page of memory has bytes; a word of 99,999 bytes.
MANY, LONG = ["word"] * 20000, ["x\x01 " * 33333]


def built(test, source):
    """The small program over a file in C, with the sanitizers."""
    program = os.path.join(kit.folder_of(test), "words")
    wanted = [os.path.join(ROOT, "tests/cli/words.c"), source]
    return program if test.runs([*C11, *SANITIZERS, *wanted, "-o", program]) else None


class Words(kit.Test):
    def test_each_room(self):
        program = built(self, SYSTEM)
        for words in ([], [""], ["a", "", "long" * 50], ["\xff\xfe"], MANY, LONG):
            words = [word.encode("latin-1") for word in words]
            ran = subprocess.run([program, *words], capture_output=True, check=False)
            self.check(ran.stdout == b"%d words\n" % (len(words) + 1), f"{len(words)} words: {ran.stdout}{ran.stderr}")

    def test_wrong_code_is_noticed(self):
        """One that leaves away a byte, and one that takes a word that isn't there."""
        for old, new in (("if (size == out_len)", "if (size + 1 >= out_len)"), ("i >= count || ", "")):
            path = kit.file_of(self, "system.c", kit.read(SYSTEM).replace(old, new))
            ran = subprocess.run([built(self, path), "word"], capture_output=True, check=False)
            self.check(ran.returncode != 0, f"{new} passes")

    def test_program(self):
        """The program with no word at all, not even its name, with many, and with a long one: its line for usage."""
        program = kit.built("lislink")
        for words in ([], ["lislink"], ["lislink", *MANY], ["lislink", "show", *LONG], ["lislink", *LONG]):
            words = [word.encode("latin-1") for word in words]
            ran = subprocess.run(words, executable=program, stdin=subprocess.DEVNULL, capture_output=True, check=False)
            self.same(f"{len(words)} words", (ran.returncode, ran.stdout, ran.stderr),
                      (2, b"", b"usage: lislink COMMAND\n"))
