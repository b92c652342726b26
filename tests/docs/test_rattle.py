"""docs/rattle.md, from nothing to a message received: its steps are run by the kit, but for the proof, and its program is
tried with a frame that is damaged and a text that can't be kept."""
import os
import re
import shutil
import subprocess

from tests import ROOT, kit
from tests.ffi.test_samples import ACK, ENQ, frame

NAK = b"\x15"
#: What the page's steps use of this repository.
USED = ("crates", "crates.txt", "HANDLES", "examples/rattle", "samples")
#: What the steps print: the replies to ENQ and two frames, and the message.
PRINTED = re.compile(rb"\x06\x06\x06\s.*\nH\|\\\^&\nL\|1\|N\n", re.S)


def copy(folder):
    """This repository, as the page calls it, without what the kit keeps in it."""
    left_out = shutil.ignore_patterns("out", "must-fail", "mutants", "harmless")
    for name in USED:
        to = os.path.join(folder, "betzurne", name)
        if os.path.isdir(os.path.join(ROOT, name)):
            shutil.copytree(os.path.join(ROOT, name), to, ignore=left_out)
        else:
            shutil.copy(os.path.join(ROOT, name), to)


def run(folder, words, **how):
    """What a command prints, and its status. A busy machine may take long."""
    ran = subprocess.run(words, cwd=folder, stdout=subprocess.PIPE, stderr=subprocess.STDOUT, timeout=3600, **how)
    return ran.stdout, ran.returncode


class Rattle(kit.Test):
    def test_page(self):
        self.needs("rt", shutil.which("rt"), 4, "the steps of docs/rattle.md")
        folder = kit.folder_of(self)
        copy(folder)
        steps = re.search(r"```sh\n(.*?)```", kit.read("docs/rattle.md"), re.S)[1]
        self.check(steps.count("\nrt check ") == 1, "the steps end with a proof")
        printed, status = run(folder, ["bash", "-e", "-c", steps[:steps.index("\nrt check ")]])
        self.check(status == 0 and PRINTED.search(printed), "the steps of docs/rattle.md", repr(printed[-1000:]))
        good = frame(1, b"H|\\^&\r")
        with open(os.path.join(folder, "session"), "wb") as file:
            file.write(ENQ + good.replace(b"H", b"h") + good + ENQ)
        with open(os.path.join(folder, "session"), "rb") as file:
            crate = os.path.join(folder, "mine/crates/receive")
            printed, status = run(crate, ["rt", "try", "--", "/dev/full"], stdin=file)
        wanted = ACK + NAK + ACK
        self.check(status == 0 and printed.startswith(wanted + b"\n"), "a text that can't be kept gets no reply",
                   f"{printed[-1000:]!r}, wanted {wanted!r}: ENQ, a damaged frame, none for the text, ENQ")
        half = os.path.join(folder, "half")
        with open(half, "wb") as file:
            file.write(b"H|\\^&\rR|1|^^^GLU|1")
        with open(os.path.join(folder, "session"), "rb") as file:
            run(crate, ["rt", "try", "--", half], stdin=file)
        with open(half, "rb") as file:
            self.same("half a text at its start", file.read(), b"H|\\^&\rH|\\^&\r")
