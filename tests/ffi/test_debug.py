"""The debug build: what is wrong with a block is named, and a program that keeps its duties is as over the library."""
import os
import subprocess
import sys

from tests import ROOT, kit
from tests.ffi.c import C11, SANITIZERS, python_over

#: What is done wrong, and the line that says so.
MISUSES = [
    ("lis_sender_clear(&sender);", "lis_sender_clear: no lis_X_init was called for the block of a sender"),
    ("lis_sender_init(at); lis_reader s = {at}; lis_reader_read(&s, NULL, 0, &found);",
     "lis_reader_read: the block is that of a sender"),
    ("lis_sender_init(at); lis_sender_end(sender); lis_sender_end(sender);",
     "lis_sender_end: the block was ended, that of a sender"),
    ("lis_sender_init(at); lis_sender_end(sender); lis_sender_restart(&sender);",
     "lis_sender_restart: the block was ended, that of a sender"),
    ("lis_sender_init(at); memcpy(other, at, sizeof other); sender.at = other; lis_sender_restart(&sender);",
     "lis_sender_restart: the block was moved, that of a sender"),
    ("sender.at = NULL; lis_sender_restart(&sender);", "lis_sender_restart: there is no block"),
    ("lis_sender_restart(NULL);", "lis_sender_restart: there is no block"),
    ("lis_sender_init(at + 8);", "lis_sender_init: the block is not at a multiple of 16"),
    ("lis_sender_init(at); lis_sender_end(sender); lis_reader_init(at);", "")]
PROGRAM = """#include "lislink.h"
#include <stdalign.h>
#include <string.h>
int main(void) {
    static alignas(LIS_BLOCK_ALIGN) uint8_t at[LIS_SENDER_BLOCK], other[LIS_SENDER_BLOCK];
    lis_sender sender = {at};
    lis_found found;
    (void)other, (void)found, (void)sender;
    %s
    return 0;
}
"""
KINDS = ("scanner", "sender", "receiver", "station", "reader", "writer")
#: Programs of this folder that keep their duties.
GOOD = ("station", "within", "null", "line", "parts")
RECEIVES = "import lislink; r = lislink.Receiver(); print([step.note.name for step in r.hear(b'\\5\\4')]); r.close()"


class Debug(kit.Test):
    def setUp(self):
        self.work = kit.folder_of(self)
        words = [sys.executable, f"{ROOT}/tools/debug", self.work, kit.built("archive")]
        self.assertTrue(self.runs(words))
        self.library = f"{self.work}/liblislink_debug.a"

    def test_misuses(self):
        for number, (words, said) in enumerate(MISUSES):
            path = f"{self.work}/misuse{number}"
            with open(f"{path}.c", "w") as file:
                file.write(PROGRAM % words)
            if self.runs([*C11, f"{path}.c", self.library, "-o", path]):
                ran = subprocess.run([path], capture_output=True, text=True)
                self.same(words, (ran.returncode, ran.stderr), (-6, f"lislink debug: {said}\n") if said else (0, ""))

    def test_blocks(self):
        """A block of the constants has room for the mark."""
        lines = "".join(f"    if (lis_{it}_size() > LIS_{it.upper()}_BLOCK) return 1;\n" for it in KINDS)
        with open(f"{self.work}/blocks.c", "w") as file:
            file.write(f'#include "lislink.h"\nint main(void) {{\n{lines}    return 0;\n}}\n')
        if self.runs([*C11, f"{self.work}/blocks.c", self.library, "-o", f"{self.work}/blocks"]):
            self.runs([f"{self.work}/blocks"])

    def test_good(self):
        """The same tests pass over it, and so does the package."""
        for name in GOOD:
            path = f"{self.work}/{name}"
            if self.runs([*C11, *SANITIZERS, f"{ROOT}/tests/ffi/{name}.c", self.library, "-o", path]):
                self.runs([path])
        shared = os.path.join(self.work, "liblislink_debug.so")
        ran = self.runs([sys.executable, "-c", RECEIVES], **python_over(shared))
        self.same("the package over the debug build", ran and ran.stdout, "['OPENED', 'ENDED']\n")
