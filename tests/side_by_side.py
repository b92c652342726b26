"""Files of tests side by side, each in a process of its own."""
import os
import re
import shutil
import subprocess
import sys
import tempfile
import time
from typing import NamedTuple

from tests import BYTECODE, ROOT, kit

#: The last line but one of a file's run.
TOLD = re.compile(r"^(\S+: (\d+) passed, (\d+) failed in \d+ s)\n\w+: .*\n\Z", re.M)


class Times:
    """How long each file took last, in a file of what was built: its name, seconds of the clock and of a processor."""

    def __init__(self):
        self._path, self._rows = os.path.join(kit.place("build"), "times"), {}
        if os.path.exists(self._path):
            with open(self._path, encoding="ascii") as file:
                self._rows = {name: (float(clock), float(own)) for name, clock, own in map(str.split, file)}

    def of(self, name):
        """The seconds of the clock; None if they aren't known."""
        return self._rows.get(name, (None,))[0]

    def put(self, name, clock, own):
        """Takes note of a run."""
        self._rows[name] = (clock, own)

    def write(self):
        """Writes the file, if something was built."""
        if os.path.isdir(os.path.dirname(self._path)):
            rows = sorted(self._rows.items(), key=lambda it: -it[1][0])
            with open(self._path, "w", encoding="ascii") as file:
                file.writelines(f"{name} {clock:.1f} {own:.1f}\n" for name, (clock, own) in rows)


class Running(NamedTuple):
    """A file that runs, what it prints, and since when."""

    name: str
    process: subprocess.Popen
    printed: object
    begun: float

    def ended(self, status):
        """Prints what it printed; how many checks passed and failed."""
        self.printed.seek(0)
        text = self.printed.read()
        self.printed.close()
        told = TOLD.search(text)
        if not told:
            print(f"{text}FAILED: {self.name} ended with {status} before it said how many passed")
            return f"{self.name}: 0 passed, 1 failed", 0, 1
        print(text[:told.start()], end="")
        return told[1], int(told[2]), int(told[3])


def begin(name):
    """Runs a file."""
    printed = tempfile.TemporaryFile("w+", encoding="utf-8", errors="replace")
    words = [sys.executable, os.path.join(ROOT, "tests", "run"), name]
    return Running(name, subprocess.Popen(words, stdout=printed, stderr=subprocess.STDOUT), printed, time.monotonic())


def left(names, running, times, jobs):
    """How many files are left, and how long they took last."""
    if not names and not running:
        return ""
    now = time.monotonic()
    known = [times.of(it) for it in names] + [(times.of(it.name) or 0) - now + it.begun for it in running]
    seconds = max(sum(it for it in known if it and it > 0) / jobs, max(it or 0 for it in known))
    told = f", about {seconds:.0f} s" if None not in known and seconds > 0 else ""
    return f"; {len(names) + len(running)} left{told}"


def run(files):
    """Runs the files; how many checks passed and failed."""
    jobs = int(os.environ.get("JOBS") or 3 * len(os.sched_getaffinity(0)) / 2)
    times, running, passed, failed = Times(), {}, 0, 0
    names = sorted((f"{folder}/{name}" for folder, name in files), key=lambda it: -(times.of(it) or 1e9))
    while names or running:
        while names and len(running) < jobs:
            one = begin(names.pop(0))
            running[one.process.pid] = one
        pid, status, used = os.wait4(-1, 0)
        if pid not in running:
            continue
        one = running.pop(pid)
        one.process.returncode = os.waitstatus_to_exitcode(status)
        line, more, bad = one.ended(one.process.returncode)
        passed, failed = passed + more, failed + bad
        times.put(one.name, time.monotonic() - one.begun, used.ru_utime + used.ru_stime)
        print(line + left(names, running.values(), times, jobs), flush=True)
    times.write()
    shutil.rmtree(BYTECODE + tempfile.gettempdir(), ignore_errors=True)  # of programs that are gone
    return passed, failed
