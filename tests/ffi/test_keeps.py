"""What the samples that receive keep, in C, C++, Rust and Python: each is killed after each text; its disk gets full
within a text and has room again; its file has half a text at its end when it starts, or is another program's; it is
stopped for so long that its reply would be late; it is the host in the plays of results, and of queries if it answers
them; and an analyzer on a noisy wire sends it sessions."""
import asyncio
import functools
import os
import resource
import shutil
import signal
import subprocess
import sys
import threading
import time
from typing import Callable, NamedTuple

from tests import ROOT, kit
from tests.ffi.bridge import Bridge
from tests.ffi.c import C11, IN_C, IN_PYTHON, SANITIZERS, python_over
from tests.host.noisy import Analyzer, message
from tests.play.hosts import scripts
from tests.ffi.test_samples import (ACK, CPP, ENQ, EOT, PATIENCE, TEXTS, InC, InPython, always_full, ask, frame, kept,
                                    told)

HALF = b"R|1|^^^GLU|1"
#: What the first programs print of a session of TEXTS.
PRINTED = b" S7 GLU " + b"5" * 200 + b"\n"
PAGE = 4096
#: The plays for a sample: those of results but the one that is silent for 30 seconds, and those of queries whose answer
#: is an order for the sample that was asked for.
RESULTS = [play for play in scripts("results") if "silent" not in play]
QUERIES = [play for play in scripts("queries") if play.endswith(("query-answered.play", "query-any-form.play"))]
#: How many sessions go over the noisy wire (`make noise` sets more), and for how many seconds their analyzer waits for a
#: reply.
NOISY, NOISY_PATIENCE = int(os.environ.get("NOISY_SESSIONS", "40")), 1.5


class Sample(NamedTuple):
    """A sample: its name, how it is started with a file for its texts, and what it does."""

    name: str
    start: Callable
    #: Whether it goes on after a text that can't be kept, or ends; whether it says nothing late; what a session prints.
    goes_on: bool = True
    is_timed: bool = True
    said: bytes = b""


def takes_session(line):
    """Whether each text of a session is acknowledged."""
    good = ask(line, ENQ, ACK)
    for number, text in enumerate(TEXTS, 1):
        good = good and ask(line, frame(number, text), ACK)
    line.sendall(EOT)
    return good


def is_killed(sample, path, cut):
    """Killed after the acknowledgement of so many texts, it has kept these."""
    it = sample.start(path)
    good = ask(it.line, ENQ, ACK)
    for number, text in enumerate(TEXTS[:cut], 1):
        good = good and ask(it.line, frame(number, text), ACK)
    it.process.send_signal(signal.SIGKILL)
    it.end()
    return good and kept(path) == b"".join(TEXTS[:cut])


def is_whole(sample, path):
    """A session that is given up after a text, and sent again whole, to its end; and what is printed. The first ENQ
    ends the session that was open, and gets no reply."""
    it = sample.start(path)
    good = ask(it.line, ENQ, ACK) and ask(it.line, frame(1, TEXTS[0]), ACK)
    good = good and ask(it.line, ENQ, b"") and takes_session(it.line) and it.end() == 0
    return good and kept(path) == TEXTS[0] + b"".join(TEXTS) and it.process.stdout.read() == sample.said


def keeps_no_half(sample, path, start, give_room, before=b""):
    """There is room for the first text and a part of the second. That one gets no reply, and no part of it stays; once
    there is room, a session is kept whole."""
    it = start(path)
    good = ask(it.line, ENQ, ACK) and ask(it.line, frame(1, TEXTS[0]), ACK)
    good = good and ask(it.line, frame(2, TEXTS[1]), b"")
    if sample.goes_on:  # what came together with that text is dropped with it, so ENQ is sent again if need be
        good = good and any(ask(it.line, ENQ, ACK, 10.0) for _ in range(4)) and kept(path) == before + TEXTS[0]
        it.line.sendall(EOT)
        give_room(it)
    else:
        good = good and told(it.line, 1) == b"" and it.end() is not None and kept(path) == before + TEXTS[0]
        give_room(it)
        it = sample.start(path)
    good = good and takes_session(it.line) and it.end() == 0
    return good and kept(path) == before + TEXTS[0] + b"".join(TEXTS)


def of_short_write(sample, path):
    """Its file may not grow past the middle of the second text."""
    most = (len(TEXTS[0]) + 2, resource.RLIM_INFINITY)
    limits = functools.partial(resource.setrlimit, resource.RLIMIT_FSIZE, most)
    start = functools.partial(sample.start, restore_signals=False, preexec_fn=limits)
    return keeps_no_half(sample, path, start, lambda it: resource.prlimit(
        it.process.pid, resource.RLIMIT_FSIZE, (resource.RLIM_INFINITY,) * 2) if sample.goes_on else None)


def of_full_disk(sample, folder):
    """Its file system has one page: what it has at the start leaves room up to the middle of the second text."""
    mount = ["mount", "-t", "tmpfs", "-o", f"size={PAGE}", "tmpfs", folder]
    more = ["mount", "-o", f"remount,size={16 * PAGE}", folder]
    subprocess.run(mount, check=True)
    try:
        path, before = f"{folder}/kept", b"H|\\^&".ljust(PAGE - len(TEXTS[0]) - 3) + b"\r"
        with open(path, "wb") as file:
            file.write(before)
        return keeps_no_half(sample, path, sample.start, lambda _: subprocess.run(more, check=True), before)
    finally:
        subprocess.run(["umount", "--lazy", folder], check=True)


def of_half_a_text(sample, path):
    """What follows the last CR when it starts is cut off; and a text without a CR gets one."""
    with open(path, "wb") as file:
        file.write(TEXTS[0] + HALF)
    it = sample.start(path)
    good = ask(it.line, ENQ, ACK) and ask(it.line, frame(1, b"H|\\^&"), ACK)
    good = good and ask(it.line, ENQ, b"") and takes_session(it.line)
    return good and it.end() == 0 and kept(path) == TEXTS[0] + b"H|\\^&\r" + b"".join(TEXTS)


def leaves(sample, path, words):
    """It doesn't start with this file, and leaves it as it is."""
    before = kept(path)
    ran = subprocess.run([*words, path], stdin=subprocess.DEVNULL, capture_output=True, timeout=PATIENCE,
                         **sample.start.keywords)
    return ran.returncode not in (0, -signal.SIGSEGV) and kept(path) == before


def of_other_files(sample, path):
    """A file whose last line ends in a line feed, one with more than a text at its end, and one that another program
    writes."""
    words, good = sample.start.args[1], True
    for other in (b"lines of some other\r\nprogram\n", b"x" * (1 << 20) + b"yz"):
        with open(path, "wb") as file:
            file.write(other)
        good = good and leaves(sample, path, words)
    os.remove(path)
    it = sample.start(path)
    good = good and ask(it.line, ENQ, ACK) and ask(it.line, frame(1, TEXTS[0]), ACK) and leaves(sample, path, words)
    it.end()
    return good


def keeps_nothing(sample, path):
    """A text that can't be kept at all isn't acknowledged, also when it comes again."""
    it = sample.start(always_full(path))
    good = ask(it.line, ENQ, ACK) and ask(it.line, frame(1, TEXTS[0]), b"")
    if sample.goes_on:
        good = good and ask(it.line, frame(1, TEXTS[0]), b"") and any(ask(it.line, ENQ, ACK, 10.0) for _ in range(4))
    it.end()
    return good


def paused(sample, path):
    """It is stopped before a frame comes; and since when."""
    it = sample.start(path)
    good = ask(it.line, ENQ, ACK) and ask(it.line, frame(1, TEXTS[0]), ACK)
    it.process.send_signal(signal.SIGSTOP)
    it.line.sendall(frame(2, TEXTS[1]))
    return sample, it, good, time.monotonic()


def is_silent_late(sample, it, good, since):
    """It goes on when its reply could come after the sender's timer: it sends none. It hears the next session, which
    begins once it has seen the line empty; or it has given the line up."""
    time.sleep(max(0.0, since + 12 - time.monotonic()))
    it.process.send_signal(signal.SIGCONT)
    good = good and told(it.line, 1, 3.0) == b""
    if "answer_query" in sample.name:
        good = good and it.process.wait(PATIENCE) is not None
    else:
        good = good and ask(it.line, ENQ, ACK)
    it.end()
    return good


class Played:
    """Plays against a sample, as a process that goes on."""

    def __init__(self, sample, path, plays):
        with open(path, "wb"):
            pass
        self.bridge = Bridge(lambda: sample.start(path))
        folder = f"{path}-plays"
        os.mkdir(folder)
        for play in plays:
            os.symlink(play, f"{folder}/{os.path.basename(play)}")
        words = ["play", folder, "--to", f"127.0.0.1:{self.bridge.port}", "--kept", f"cat {path}"]
        self.process = subprocess.Popen([sys.executable, "-m", "lislab", *words], stdout=subprocess.PIPE,
                                        stderr=subprocess.STDOUT, text=True, **python_over(kit.library()))

    def end(self):
        """Its status, its last line but for the number of steps, and all that it prints."""
        text = self.process.communicate()[0]
        self.bridge.close()
        return self.process.returncode, text.rpartition("\nplays ")[2].partition(" steps")[0], text


class Noisy:
    """Sessions over a noisy wire to a sample, in a thread that goes on."""

    def __init__(self, sample, path):
        self.path = path
        with open(path, "wb"):
            pass
        self.bridge = Bridge(lambda: sample.start(path))
        self.analyzer = Analyzer(self.bridge.port, sample.name, NOISY_PATIENCE)
        self.thread = threading.Thread(target=lambda: asyncio.run(self.send()))
        self.thread.start()

    async def send(self):
        """Sends the sessions."""
        for number in range(NOISY):
            await self.analyzer.send(message(self.analyzer.rng, str(number)))
        if self.analyzer.line is not None:
            self.analyzer.line[1].close()

    def end(self):
        """How the sessions ended, and the texts of those that were acknowledged and aren't in the file."""
        self.thread.join()
        self.bridge.close()
        stored = kept(self.path)
        return self.analyzer.ends, [text for text in self.analyzer.done if text not in stored]


def can_mount():
    """Whether this process may mount a file system."""
    return os.geteuid() == 0 and subprocess.run(["unshare", "--mount", "true"], capture_output=True).returncode == 0


class Keeps(kit.Test):
    def setUp(self):
        self.build, self.work = kit.built("build"), kit.folder_of(self)
        self.archive = os.path.join(self.build, "liblislink.a")
        self.over_shared = {"env": {**os.environ, "LD_LIBRARY_PATH": self.build}}

    def tried(self, samples):
        """All of it with each of these samples."""
        plays = [(it, Played(it, f"{self.work}/{it.name}-played", RESULTS), "16 failed 0") for it in samples]
        plays += [(it, Played(it, f"{self.work}/{it.name}-asked", QUERIES), "2 failed 0") for it in samples
                  if "answer_query" in it.name]
        noisy = [(it, Noisy(it, f"{self.work}/{it.name}-noisy")) for it in samples]
        late = [paused(it, f"{self.work}/{it.name}-late") for it in samples if it.is_timed]
        for sample in samples:
            path = f"{self.work}/{sample.name}-kept"
            for cut in range(len(TEXTS) + 1):
                self.check(is_killed(sample, f"{path}-{cut}", cut), f"{sample.name}, killed after {cut} texts")
            self.check(is_whole(sample, f"{path}-whole"), f"{sample.name}, a whole session")
            self.check(keeps_nothing(sample, f"{path}-full"), f"{sample.name}: what can't be kept is acknowledged")
            self.check(of_short_write(sample, f"{path}-short"), f"{sample.name}: a write that is cut short")
            self.check(of_half_a_text(sample, f"{path}-half"), f"{sample.name}: half a text at its start")
            self.check(of_other_files(sample, f"{path}-other"), f"{sample.name}: a file that isn't its own")
        for sample, *others in late:
            self.check(is_silent_late(sample, *others), f"{sample.name}, stopped for 12 seconds, sends a late reply")
        for sample, played, wanted in plays:
            status, last, text = played.end()
            self.check((status, last) == (0, wanted), f"{sample.name}: plays {wanted}", text)
        for sample, wire in noisy:
            ends, lost = wire.end()
            self.check(not lost, f"{sample.name}: sessions over a noisy wire are done and not kept", repr(lost[:1]))
            self.check(ends.total() == NOISY and ends["done"] and ends["broken off"],
                       f"{sample.name}: sessions over a noisy wire: {dict(ends)}")
        self.needs("mount", can_mount(), len(samples), "samples whose disk gets full")
        os.mkdir(f"{self.work}/full")
        for sample in samples:
            self.check(of_full_disk(sample, f"{self.work}/full"), f"{sample.name}: a disk that gets full within a text")

    def test_c(self):
        first, asked = (f"{self.work}/{name}" for name in ("quick_receive", "answer_query"))
        for program in (first, asked):
            path = os.path.join(IN_C, f"{os.path.basename(program)}.c")
            self.assertTrue(self.runs([*C11, *SANITIZERS, path, self.archive, "-o", program]))
        self.tried([Sample("quick_receive.c", functools.partial(start, InPython, [first, "0"]), said=PRINTED),
                    Sample("answer_query.c", functools.partial(start, InC, [asked]), goes_on=False)])

    def test_cpp(self):
        if not shutil.which("g++"):
            self.skipTest("g++: some checks: the samples in C++")
        names = ("quick_receive", "later", "answer_query")
        for name in names:
            words = [*CPP, f"{ROOT}/examples/cpp/{name}.cpp", self.archive, "-o", f"{self.work}/{name}"]
            self.assertTrue(self.runs(words))
        self.tried([Sample(f"{name}.cpp", functools.partial(start, InPython, [f"{self.work}/{name}", "0"]),
                           goes_on=name != "answer_query", said=PRINTED if name == "quick_receive" else b"")
                    for name in names])

    def test_rust(self):
        if not shutil.which("cargo"):
            self.skipTest("cargo: some checks: the samples in Rust")
        env = {**os.environ, "CARGO_TARGET_DIR": f"{self.work}/rust", "LISLINK_LIB_DIR": self.build,
               "CARGO_NET_OFFLINE": "true", "RUSTFLAGS": "-D warnings"}
        self.assertTrue(self.runs(["cargo", "build", "--quiet", "--offline", "--locked", "--examples"], env=env,
                                  cwd=f"{ROOT}/bindings/rust"))
        begin = functools.partial(functools.partial, start, InPython)
        self.tried([Sample(f"{name}.rs", begin([f"{self.work}/rust/debug/examples/{name}", "0"], **self.over_shared),
                           goes_on=name == "receive", said=PRINTED if name == "receive" else b"")
                    for name in ("receive", "later", "answer_query")])

    def test_python(self):
        how = python_over(os.path.join(self.build, "liblislink.so.1"))
        self.tried([Sample(f"{name}.py", functools.partial(
            start, InPython, [sys.executable, f"{IN_PYTHON}/{name}.py", "0"], **how), goes_on=False,
            is_timed=name != "quick_receive", said=PRINTED if name == "quick_receive" else b"")
            for name in ("quick_receive", "async_receive", "answer_query")])


def start(kind, words, path, **how):
    """A sample of this kind with a file for its texts."""
    return kind([*words, path], **how)
