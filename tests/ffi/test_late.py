"""Replies that come late (late.c): no session is done before the host has each of its texts. The same on old
connections, and with a host that sends late replies, has sessions that are, so the test can see them."""
import os
import re
import subprocess

from tests import ROOT, kit
from tests.ffi.c import C11, IN_C, SANITIZERS, source

TALLY = re.compile(r"sessions (\d+) done (\d+) false (\d+) late (\d+) slow (\d+)\n")
IN_TIME = "(step.reply != 0 && is_late(work))"


def build(test, archive, host, program):
    """The test over a host."""
    files = [os.path.join(ROOT, "tests/ffi/late.c"), host,
             *map(source, ("analyzer.c", "serial.c", "heap.c"))]
    flags = [it.replace("_POSIX_C_SOURCE=200809L", "_XOPEN_SOURCE=700") for it in (*C11, *SANITIZERS)]
    return test.runs([*flags, "-pthread", f"-I{ROOT}/examples/c", *files, archive, "-o", program])


def tally(test, program, mode, sessions, slower=1):
    """How many sessions were done too early, and how often the machine was too slow for the line's promise; the sessions
    are as many as asked for, and some of them fail."""
    ran = subprocess.run([program, mode, str(sessions), str(slower)], capture_output=True, text=True, timeout=1200)
    found = TALLY.fullmatch(ran.stdout)
    test.need(ran.returncode == 0 and found, lambda: f"late {mode}: {ran.returncode} {ran.stdout}{ran.stderr}")
    all_of_them, done, wrong, failed, slow = (int(it) for it in found.groups())
    test.need(all_of_them >= sessions and done > sessions / 10 and failed > sessions / 20,
              lambda: f"late {mode}: too few sessions, or too few of a kind: {ran.stdout}")
    return wrong, slow


def is_safe(test, program, mode, sessions):
    """Whether no session is done too early. These lines promise that a reply comes within a time; a machine that has
    too much to do breaks that promise, and the program counts how often. If that may be the reason of all that were
    done too early, timers six times as long are tried, which show a fault of the code too; if it may be the reason
    there too, nothing is known, and the test is skipped."""
    for slower in (1, 6):
        wrong, slow = tally(test, program, mode, sessions, slower)
        if wrong == 0 or wrong > slow:
            return wrong == 0
    print(f"skipped: late replies by {mode}, since this machine has too much to do", flush=True)
    return True


class Late(kit.Test):
    def test_replies(self):
        archive, work = kit.built("archive"), kit.folder_of(self)
        host = kit.read("examples/c/host.c")
        self.check(host.count(IN_TIME) == 1, f"host.c has no {IN_TIME}")
        with open(f"{work}/late_host.c", "w") as file:
            file.write(host.replace(IN_TIME, "(false && is_late(work))"))
        if build(self, archive, os.path.join(IN_C, "host.c"), f"{work}/late"):
            for mode, sessions in (("connect", 1000), ("serial", 1000), ("host", 320)):
                self.check(is_safe(self, f"{work}/late", mode, sessions),
                           f"late {mode}: sessions are done before the host has their texts")
            self.check(tally(self, f"{work}/late", "old", 320)[0],
                       "late old: no session is done too early on an old connection")
        if build(self, archive, f"{work}/late_host.c", f"{work}/late_host"):
            self.check(tally(self, f"{work}/late_host", "host", 320)[0], "late host: late replies do no harm")
