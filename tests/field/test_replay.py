"""`lislab replay`: captures in which both sides send. On those of one side it prints what `lislink replay` prints."""
import glob
import os
import subprocess

from tests import ROOT, kit
from tests.field.lab import lislab

SAMPLES = os.path.join(ROOT, "samples")


def frame(number, text, end=b"\x03"):
    """A frame (LIS01-A2, 6.3), in hexadecimal."""
    body = b"%d" % (number % 8) + text + end
    return (b"\x02" + body + b"%02X\r\n" % (sum(body) % 256)).hex()


H, L = frame(1, b"H|\\^&\r"), frame(2, b"L|1\r")
#: A session of the computer's, and what is wrong in it: its lines, and the differences by line.
COMPUTER = {
    "all of it": (["< 05", "> 06", f"< {H}", "> 06", f"< {L}", "> 06", "< 04"], 1, []),
    "a frame that comes again": (["< 05", "> 06", f"< {H}", "> 15", f"< {H}", "> 06", f"< {L}", "> 06", "< 04"], 1, []),
    "one in pieces": (["< 05", "> 06", f"< {H[:8]}", f"< {H[8:]}", "> 06", f"< {L}", "> 06", "< 04"], 1, []),
    "EOT for ACK": (["< 05", "> 06", f"< {H}", "> 04", f"< {H}", "> 06", f"< {L}", "> 06", "< 04"], 1, []),
    "busy, and asked again": (["< 05", "> 15", "< 05", "> 06", f"< {H}", "> 06", "< 04"], 1, []),
    "contention: the analyzer first": (
        ["< 05", "> 05", "> 05", "< 06", f"> {H}", "< 06", "> 04", "< 05", "> 06", f"< {H}", "> 06", "< 04"], 1, []),
    "contention as a capture has it": (
        ["capture 2", "S contending", "> 05", "< 05", "> 05", "< 06", f"> {H}", "< 06", "> 04"], 1, []),
    "after a session of the analyzer's": (
        ["> 05", "< 06", f"> {H}", "< 06", "> 04", "< 05", "> 06", f"< {H}", "> 06", "< 04"], 1, []),
    "a frame that should come again": (["< 05", "> 06", f"< {H}", "> 15", f"< {L}", "> 06", "< 04"], 1, [5, 7]),
    "no reply to the analyzer's ENQ": (["> 05", "< 05"], 0, [2]),
    "it asks in the analyzer's session": (["> 05", "< 06", f"> {H}", "< 06", "< 05"], 0, [5]),
    "a good frame is rejected": (["> 05", "< 06", f"> {H}", "< 15"], 0, [4]),
}


class Replay(kit.Test):
    """Captures of both ways."""

    def test_one_way(self):
        """What `lislink replay` prints of a capture of one side is printed here too."""
        kit.library()
        for path in sorted(glob.glob(os.path.join(SAMPLES, "**", "*.capture"), recursive=True)):
            data = kit.bytes_of(path)
            if b"< 05" in data and b"S contending" not in data:
                continue
            done = subprocess.run([kit.built("lislink"), "replay"], input=data, capture_output=True, check=False)
            wanted = done.stdout.decode().splitlines()
            if done.returncode == 3:
                continue  # it is malformed
            rows = lislab("replay", path).text.splitlines()
            self.same(f"{os.path.basename(path)}: lines", rows[:-1], wanted[:-1])
            self.same(f"{os.path.basename(path)}: texts", rows[-1].split()[:2], wanted[-1].split()[:2])

    def test_both_ways(self):
        """Sessions of the computer's: the sessions, and the lines with a difference."""
        kit.library()
        for name, (lines, sessions, wanted) in COMPUTER.items():
            ran = lislab("replay", kit.file_of(self, "one.capture", "".join(line + "\n" for line in lines)))
            rows = ran.text.splitlines()
            self.same(f"{name}: differences", [int(row.split()[1]) for row in rows if row.startswith("diff")], wanted)
            self.same(f"{name}: sessions", int(rows[-1].split()[3]), sessions)
            self.same(f"{name}: status", ran.status, 1 if wanted else 0)

    def test_an_order_download(self):
        """The sample of a computer that sends orders has no difference, and is one session of its own."""
        kit.library()
        ran = lislab("replay", os.path.join(SAMPLES, "dialects", "computers-session.capture"))
        self.same("last line", ran.text.splitlines()[-1], "texts 5 sessions 1 differences 0")
