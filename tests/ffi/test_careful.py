"""One damaged byte of a frame, at each place and to each byte, in C++ and Python, at a receiver and at a station: as
the profile has it, 40 of 10,200 are acknowledged and not taken; heard carefully, none is. (careful.c is the same in
C.)"""
import subprocess

from tests import ROOT, kit
from tests.ffi.c import SANITIZERS, WARNINGS

kit.library()
from lislink import Note, Receiver, Role, Station, frame_bytes  # noqa: E402

TEXT = b"R|1|^^^GLU|5.4|mmol/L||N||F||||E\r"


def steps_of(end, data):
    """The receiver's steps."""
    return [getattr(one, "step", one) for one in end.hear_all(data)]


def is_lost(end, data):
    """Whether ACK is a reply, and the text isn't the frame's."""
    end.restart()
    end.hear_all(b"\x05")
    steps = steps_of(end, data)
    return b"\x06" in [step.reply for step in steps] and TEXT not in [step.text for step in steps]


def lost(end):
    """How many changes of one byte are acknowledged and not taken."""
    frame = frame_bytes(1, True, TEXT)
    changed = (frame[:at] + bytes([byte]) + frame[at + 1:] for at in range(len(frame)) for byte in range(256)
               if byte != frame[at])
    return sum(is_lost(end, data) for data in changed)


class Careful(kit.Test):
    def test_cpp(self):
        work = kit.folder_of(self)
        words = ["g++", "-std=c++17", *WARNINGS, "-O1", *SANITIZERS, f"{ROOT}/tests/ffi/careful.cpp"]
        if self.runs([*words, f"{kit.built('build')}/liblislink.a", "-o", f"{work}/careful"]):
            self.same("C++", subprocess.run([f"{work}/careful"], capture_output=True, text=True).stdout,
                      "40 0 1\n40 0 1\n")

    def test_python(self):
        for kind, make in (("receiver", Receiver), ("station", lambda **how: Station(Role.COMPUTER, **how))):
            with make() as pinned, make(careful=True) as careful:
                self.same(f"{kind}: as the profile has it", (lost(pinned), pinned.noise), (40, 0))
                self.same(f"{kind}: carefully", lost(careful), 0)
                self.check(careful.noise > 40, f"{kind}: its noise is {careful.noise}")
                noise = careful.noise
                careful.set_careful(False)
                self.same(f"{kind}: no more", (is_lost(careful, b"\x021H\x05"), careful.noise), (True, noise))
                notes = [step.note for step in steps_of(pinned, b"\x05\x05")]
                self.same(f"{kind}: its notes", notes, 2 * [Note.OPENED])
