"""What the tests of the host share: hosts as processes of their own, analyzers, and what a store has against what was
acknowledged."""
import asyncio
import contextlib
import hashlib
import json
import os
import pty
import re
import signal
import subprocess
import sys
import tempfile
import termios
import threading
import time
import tty
from typing import NamedTuple

from lislab.model.stores import open_store
from tests import ROOT, kit
from tests.host import SOURCE

#: Each timer of the standard is so many times as long: 15 seconds are 0.3.
SCALE = 0.02
#: The scale of a test in which no timer may run out, however busy the machine is: 15 seconds are 5 minutes.
NEVER = 20
ENV = {**os.environ, "PYTHONPATH": SOURCE}
SENDER = os.path.join(ROOT, "tests", "host", "sender.py")
FAULTY = os.path.join(ROOT, "tests", "host", "faulty.py")


class Part(NamedTuple):
    """A part of a long run: its test, and its size in the gate and in a long run."""

    test: str
    gate: int
    soak: int


#: Kills of a host on each store, seconds of a store that fails, messages of each of 200 analyzers, messages, kills
#: under orders, reloads of a file of lines, messages over MLLP, kills of a delivery, sessions over a noisy wire, random
#: streams.
PARTS = {
    "kills": Part("test_kills.Kills.test_sqlite", 20, 1000),
    "spool": Part("test_kills.Kills.test_spool", 5, 250),
    "postgres": Part("test_postgres.Postgres.test_kills", 10, 200),
    "failing": Part("test_kills.Kills.test_failing_store", 6, 600),
    "analyzers": Part("test_load.Load.test_200_analyzers", 8, 300),
    "messages": Part("test_load.Load.test_memory", 3000, 1000000),
    "orders": Part("test_order_kills.Fire.test_kills", 10, 1000),
    "orders_postgres": Part("test_orders_postgres.PostgresBooks.test_two_hosts_are_killed", 4, 1000),
    "reloads": Part("test_lines_file.LinesFile.test_reloads", 20, 100),
    "mllp": Part("test_mllp.Receivers.test_kills", 200, 1000),
    "deliveries": Part("test_deliver.Killed", 10, 100),
    "noise": Part("test_noise.Noise.test_one_byte", 300, 10000),
    "streams": Part("test_intake.Streams.test_random_streams", 2000, 20000),
}
_SIZES = {name: part.gate for name, part in PARTS.items()}


def size(part):
    """The size of a part of this run."""
    return _SIZES[part]


def take_sizes(words):
    """Takes the sizes of a long run, each `PART=SIZE` or `PART`: the tests to run; None if a word is none of these."""
    wanted = []
    for word in words or list(PARTS):
        name, _, number = word.partition("=")
        if name not in PARTS or (number and not number.isdigit()):
            return None
        _SIZES[name] = int(number) if number else PARTS[name].soak
        wanted.append(PARTS[name].test)
    return wanted


def say(text):
    """A line about how a run goes."""
    print(f"host: {text}", flush=True)


#: The processes of the test that runs.
_PROCESSES = []


class HostTest(kit.Test):
    """Tests with a folder of their class. Their processes end with them, however they end."""

    @classmethod
    def setUpClass(cls):
        cls.folder = tempfile.TemporaryDirectory(prefix="lis-host-")
        cls.addClassCleanup(cls.folder.cleanup)

    def path(self, name):
        """A file of this class."""
        return os.path.join(self.folder.name, name)

    def terminal(self):
        """A pseudo terminal that is raw: its end, and the name of the device."""
        ends = pty.openpty()
        for one in ends:
            self.addCleanup(os.close, one)
        tty.setraw(ends[1], termios.TCSANOW)
        return ends[0], os.ttyname(ends[1])

    def true(self, name, holds, why=""):
        """Whether something holds."""
        return self.check(bool(holds), name, why)

    def says(self, name, host, text, times=1):
        """Whether a host says a text so many times. It may say so only after its store or its line shows it."""
        return self.true(name, wait_for(lambda: host.says().count(text) >= times), host.says()[-1500:])

    def tearDown(self):
        for one in _PROCESSES:
            if one.poll() is None:
                one.kill()
                one.wait()
        _PROCESSES.clear()


def process(words, **how):
    """A process of this test. One whose files may not grow writes no bytecode, because other tests would load a part."""
    env = {**ENV, "PYTHONDONTWRITEBYTECODE": "1"} if "preexec_fn" in how else ENV
    one = subprocess.Popen([sys.executable, *words], **{"text": True, "env": env, **how})
    _PROCESSES.append(one)
    return one


#: How often a host is started whose port another test's connection has.
PORT_TRIES = 120


class Host:
    """`lislab serve` as a process; with a fault, a wrong one. What it says goes to a file, or, where its files may not
    grow, through a pipe."""

    def __init__(self, store, *words, fault=None, scale=SCALE, listen=True, errors=None, each=250, piped=False, **how):
        self.store, self.words, self.fault, self.scale = store, words, fault, scale
        self.port, self.listen, self.how = 0, listen, how
        self.errors_to = subprocess.PIPE if piped else errors
        self.errors = []
        if each is not None:  # all analyzers of a test have one address
            self.words = ("--address-lines", str(each), *words)
        self.start()

    def start(self):
        """Starts it, on the same port as before: if a connection of another test has that now, once it is free."""
        for _ in range(PORT_TRIES):
            if self._is_started():
                return
            if "address already in use" not in self.errors[-1]:
                break
            time.sleep(0.5)
        raise RuntimeError(f"the host didn't start: {self.errors[-1]}")

    def _is_started(self):
        program = [FAULTY, self.fault] if self.fault else ["-m", "lislab"]
        words = [*program, "serve", "--store", self.store, "--scale", str(self.scale)]
        if self.listen:
            words += ["--listen", f"127.0.0.1:{self.port},name=fire"]
        self.said = tempfile.TemporaryFile("w+", encoding="utf-8")
        errors = self.said if self.errors_to is None else self.errors_to
        self.process = process([*words, *self.words], stdout=subprocess.PIPE, stderr=errors, **self.how)
        self.hears = threading.Thread(target=self._hear, args=(self.process.stderr, self.said), daemon=True)
        self.hears.start()
        self.rows = []
        for row in self.process.stdout:
            self.rows.append(row)
            if row.startswith("listening") and row.endswith(" fire\n"):
                self.port = int(row.split()[1].rsplit(":", 1)[1])
            if row == "ready\n":
                return True
        self.process.wait()
        self._close()
        return False

    @staticmethod
    def _hear(errors, said):
        """Takes what it says through a pipe."""
        with contextlib.suppress(ValueError):  # closed with the host, whose programs may still have its pipe
            for row in errors or ():
                said.write(row)
                said.flush()

    def kill(self):
        """Kills it, as a machine dies that loses its power."""
        self.process.send_signal(signal.SIGKILL)
        self.process.wait()
        self._close()

    def stop(self):
        """Stops it in order; its exit status."""
        self.process.send_signal(signal.SIGTERM)
        try:
            status = self.process.wait(30)
        except subprocess.TimeoutExpired:
            self.process.kill()
            status = self.process.wait()
        self._close()
        return status

    def _close(self):
        self.hears.join(10)
        self.said.seek(0)
        self.errors.append(self.said.read())
        self.process.stdout.close()
        if self.process.stderr and not self.hears.is_alive():
            self.process.stderr.close()
        self.said.close()

    def says(self):
        """What it has said on standard error so far."""
        return os.pread(self.said.fileno(), 1 << 20, 0).decode("utf-8", "replace")

    def memory(self):
        """Its resident memory, in KiB."""
        with open(f"/proc/{self.process.pid}/status", encoding="ascii") as file:
            return next(int(row.split()[1]) for row in file if row.startswith("VmRSS"))


def see(observer, event):
    """What an observer does at an event."""
    observer.sees()[type(event)](event)


def trouble(said):
    """What a host said, without the lines that came and went."""
    return [row for row in said.splitlines() if not re.search(r": (connected|open|closed .*)$", row)]


def lislab(*words, **how):
    """Runs a command of lislab to its end."""
    how = {"timeout": 600, **how}
    return subprocess.run(
        [sys.executable, "-m", "lislab", *words], capture_output=True, text=True, env=ENV, check=False, **how
    )


def sending(port, *words, scale=SCALE):
    """`lislab send` as a process that goes on, perhaps on a bad line."""
    to = ["--to", f"127.0.0.1:{port}", "--scale", str(scale), "--quiet"]
    words = [SENDER, *to, *words]
    return process(words, stdout=subprocess.DEVNULL, stderr=subprocess.PIPE)


def acknowledged(log):
    """What analyzers hold as done: the name, the number and the digest of each message."""
    if not os.path.exists(log):
        return []
    with open(log, encoding="utf-8") as file:
        return [tuple(json.loads(row)) for row in file if row.endswith("\n")]


class Found:
    """What a store has."""

    def __init__(self, store):
        one = open_store(store)
        try:
            self.whole = list(one.messages())
            self.others = list(one.others())
            self.counts = one.counts()
        finally:
            one.close()
        self.digests = {}
        for message in self.whole:
            digest = hashlib.sha256(message.body).hexdigest()
            self.digests.setdefault(digest, []).append(message)

    def lost(self, log):
        """Acknowledged messages that aren't there."""
        return [one for one in acknowledged(log) if one[2] not in self.digests]

    def unmarked(self):
        """Repeats that aren't marked, or not with the first one."""
        return [
            again.key for same in self.digests.values() for again in same[1:] if again.again_of != same[0].key
        ] + [same[0].key for same in self.digests.values() if same[0].again_of is not None]

    def again(self):
        """How many are marked."""
        return sum(one.again_of is not None for one in self.whole)


def wait_for(holds, seconds=60.0):
    """Whether something holds within this time."""
    over = time.monotonic() + seconds
    while time.monotonic() < over:
        if holds():
            return True
        time.sleep(0.02)
    return bool(holds())


async def until(holds):
    """Returns once something holds in a loop of events, or after a minute."""
    over = time.monotonic() + 60
    while not holds() and time.monotonic() < over:
        await asyncio.sleep(0.01)
