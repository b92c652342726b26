"""The samples that run the receiver's timer, on a line on which bytes trickle in that mean nothing: the timer is over
all the same. Their clock runs ten times as fast (fast_clock.c). host.c is tried so in test_samples.py."""
import os
import shutil
import sys
import threading
import time

from tests import ROOT, kit
from tests.ffi.c import IN_C, IN_PYTHON, WARNINGS, python_over
from tests.ffi.test_samples import ACK, ENQ, InC, InPython, ask

RUST = os.path.join(ROOT, "bindings/rust")
#: Seconds of noise, with the fast clock more than the receiver's timer; and the pause between two bytes of it, which is
#: less than a sample's shortest wait.
NOISE, PAUSE = 4.0, 0.0003


def is_closed(start):
    """After the noise ENQ opens the line. On a line that is still open it would get no reply, as it is heard
    carefully."""
    sample = start()
    try:
        good = ask(sample.line, ENQ, ACK, 10.0)
        over = time.monotonic() + NOISE
        while time.monotonic() < over:
            sample.line.sendall(b"x")
            time.sleep(PAUSE)
        return good and ask(sample.line, ENQ, ACK, 5.0)
    except OSError:
        return False
    finally:
        sample.process.kill()
        sample.end()


class Noise(kit.Test):
    def setUp(self):
        self.build, self.work = kit.built("build"), kit.folder_of(self)
        clock = f"{self.work}/fast_clock.so"
        words = ["gcc", "-std=gnu11", *WARNINGS, "-O1", "-shared", "-fPIC", f"{ROOT}/tests/ffi/fast_clock.c"]
        self.assertTrue(self.runs([*words, "-o", clock]))
        self.fast = {"LD_PRELOAD": clock, "LD_LIBRARY_PATH": self.build}

    def tried(self, **samples):
        """All at once. A machine that is busy may make a reply late, so each has three tries."""
        closed = {}

        def tries(name, start):
            closed[name] = any(is_closed(start) for _ in range(3))

        threads = [threading.Thread(target=tries, args=it) for it in samples.items()]
        for one in threads:
            one.start()
        for one in threads:
            one.join()
        for name in samples:
            self.check(closed.get(name), f"{name}: noise puts its timer off")

    def start(self, kind, words, name, env=None):
        """A call that starts a sample with a file for its texts."""
        return lambda: kind([*words, f"{self.work}/{name}-kept"], env={**(env or os.environ), **self.fast})

    def compiled(self, words, path):
        """A sample as a program."""
        program = f"{self.work}/{os.path.basename(path).replace('.', '_')}"
        archive = os.path.join(self.build, "liblislink.a")
        self.assertTrue(self.runs([*words, *WARNINGS, "-O1", path, archive, "-o", program]))
        return program

    def test_c_and_python(self):
        in_c = self.compiled(["gcc", "-std=c11", "-D_POSIX_C_SOURCE=200809L"], f"{IN_C}/answer_query.c")
        how = python_over(os.path.join(self.build, "liblislink.so.1"))["env"]
        in_python = [sys.executable, f"{IN_PYTHON}/answer_query.py", "0"]
        self.tried(c=self.start(InC, [in_c], "c"), python=self.start(InPython, in_python, "python", how))

    def test_cpp(self):
        if not shutil.which("g++"):
            self.skipTest("g++: 2 checks: the samples in C++ that run a timer")
        names = ("quick_receive", "answer_query")
        self.tried(**{f"{name}_cpp": self.start(InPython, [
            self.compiled(["g++", "-std=c++17"], f"{ROOT}/examples/cpp/{name}.cpp"), "0"], name) for name in names})

    def test_rust(self):
        if not shutil.which("cargo"):
            self.skipTest("cargo: 1 checks: the sample in Rust that runs a timer")
        env = {**os.environ, "CARGO_TARGET_DIR": f"{self.work}/rust", "LISLINK_LIB_DIR": self.build,
               "CARGO_NET_OFFLINE": "true", "RUSTFLAGS": "-D warnings"}
        words = ["cargo", "build", "--quiet", "--offline", "--locked", "--example", "answer_query"]
        self.assertTrue(self.runs(words, cwd=RUST, env=env))
        program = f"{self.work}/rust/debug/examples/answer_query"
        self.tried(rust=self.start(InPython, [program, "0"], "rust"))
