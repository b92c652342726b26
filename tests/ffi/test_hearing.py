"""What careful hearing costs: at most 2 % more instructions than the profile's, at a receiver and at a station, in short
frames and in full ones. callgrind counts those of the call and of all that it calls, which are the same at every run."""
import re
import shutil
import subprocess

from tests import ROOT, kit
from tests.ffi.c import WARNINGS

MOST = 1.02
SESSIONS = 400


class Hearing(kit.Test):
    def test_careful(self):
        self.needs("valgrind", shutil.which("valgrind"), 13, "what careful hearing costs")
        program = f"{kit.folder_of(self)}/hearing"
        self.runs(["gcc", "-std=c11", "-O2", *WARNINGS, f"{ROOT}/tests/ffi/hearing.c",
                   f"{kit.built('build')}/liblislink.a", "-o", program])
        for kind in "receiver", "station":
            for size in 20, 240:
                plain, careful = (self.counted([program, kind, flag, str(size)]) for flag in "01")
                self.check(0 < careful <= plain * MOST, f"{kind}, frames of {size} bytes",
                           f"{careful} instructions heard carefully, {plain} as the profile has it")

    def counted(self, words):
        """The instructions of the calls that hear; the program has to receive the text of each session."""
        asked = ["valgrind", "--tool=callgrind", "--callgrind-out-file=/dev/null", f"--toggle-collect=lis_{words[1]}_hear"]
        done = subprocess.run([*asked, *words], capture_output=True, text=True)
        self.check(done.stdout == f"{SESSIONS}\n", " ".join(words[1:]), f"{done.stdout}{done.stderr[-500:]}")
        found = re.search(r"Collected : (\d+)", done.stderr)
        return int(found[1]) if found else 0
