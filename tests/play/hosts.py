"""What the tests of plays share: the plain host as a process, and runs of `lislab play`."""
import glob
import os
import subprocess
import sys
import threading
import time

from tests import ROOT, kit
from tests.field.lab import lislab

#: Each timer of the standard is so many times as long: a reply of the plain host, which keeps nothing on a disk, has
#: three seconds, and one of `lislab serve` the standard's fifteen, since a busy disk may take some of them to keep a
#: text. Where a play waits for a timer, or a fault is to be late, it is shorter.
SCALE, PATIENT, SHORT = 0.2, 1.0, 0.05
PLAYS = os.path.join(ROOT, "samples", "plays")
#: The plays of queries in which the host sends without being asked.
UNASKED = ("worklist", "contention-won", "contention-lost")
PLAIN = os.path.join(ROOT, "tests", "play", "plain_host.py")


def scripts(folder):
    """The plays of a folder."""
    return sorted(glob.glob(os.path.join(PLAYS, folder, "*.play")))


def short(test):
    """A folder with the plays of results but the one that is silent for 30 seconds."""
    folder = kit.folder_of(test)
    for path in scripts("results"):
        if "silent" not in path:
            os.symlink(path, os.path.join(folder, os.path.basename(path)))
    return folder


class Plain:
    """The plain host as a process, with these words."""

    def __init__(self, test, *words, scale=SCALE):
        self.kept = os.path.join(kit.folder_of(test), "kept")
        self.words, self.port, self.scale = words, kit.free_port(), scale
        with open(self.kept, "wb"):
            pass
        test.addCleanup(self.kill)
        self.start()

    def start(self):
        """Starts it, on the same port as before."""
        words = [sys.executable, PLAIN, self.kept, str(self.scale), *self.words, f"port={self.port}"]
        self.process = subprocess.Popen(words, stdout=subprocess.PIPE, text=True)
        self.port = int(self.process.stdout.readline())

    def kill(self):
        """Kills it, as a machine dies that loses its power."""
        self.process.kill()
        self.process.wait()
        self.process.stdout.close()

    def play(self, script, *words):
        """Plays a script against it."""
        to = ["--to", f"127.0.0.1:{self.port}", "--kept", f"cat {self.kept}"]
        return play(script, *to, *words, scale=self.scale)


def play(script, *words, scale=SCALE):
    """Plays a script with short timers, in this process."""
    return lislab("play", script, "--scale", str(scale), "--within", "5", *words)


class Restarts:
    """Restarts a host when a command asks for it, which waits until it is done."""

    def __init__(self, test, host):
        self._host, self._asked = host, os.path.join(kit.folder_of(test), "asked")
        loop = f"touch {self._asked}; while [ -e {self._asked} ]; do sleep 0.01; done"
        self.command = f"sh -c '{loop}'"
        self._is_over, self.count = threading.Event(), 0
        self._work = threading.Thread(target=self._run)
        self._work.start()
        test.addCleanup(self.end)

    def _run(self):
        while not self._is_over.is_set():
            if os.path.exists(self._asked):
                self._host.kill()
                self._host.start()
                self.count += 1
                os.remove(self._asked)
            time.sleep(0.01)

    def end(self):
        """Restarts nothing any more."""
        self._is_over.set()
        self._work.join()
