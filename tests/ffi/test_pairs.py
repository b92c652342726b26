"""The samples that send a file and those that receive, in C++ and Rust, over TCP: each sender to each receiver; to a host
that takes nothing, one that is busy, and one that closes the line; and a record that can't be sent."""
import os
import shutil
import socket
import subprocess
import threading
import time

from tests import ROOT, kit
from tests.ffi.test_samples import ACK, CPP, ENQ, EOT, PATIENCE, InPython, ask, frame, kept, told

NAK = b"\x15"
PANEL = os.path.join(ROOT, "samples/panel.records")
#: How long a sender takes that asks a busy computer three times: at least, and at most.
LEAST, MOST = 29, 300


class Host:
    """A host of the test's, with the line of a sample that sends a file to it."""

    def __init__(self, program, file, env):
        with socket.create_server(("127.0.0.1", 0)) as server:
            server.settimeout(PATIENCE)
            words = [program, f"127.0.0.1:{server.getsockname()[1]}", file]
            self.process = subprocess.Popen(words, stdout=subprocess.PIPE, stderr=subprocess.PIPE, env=env)
            self.line, self.begun = server.accept()[0], time.monotonic()

    def end(self, seconds=PATIENCE):
        """The status that it ends with, and what it says."""
        try:
            said = b"".join(self.process.communicate(timeout=seconds))
        except subprocess.TimeoutExpired:
            self.process.kill()
            return None, b"".join(self.process.communicate())
        finally:
            self.line.close()
        return self.process.returncode, said


class Busy(threading.Thread):
    """A host that answers NAK to each ENQ: the sample asks three times, 10 seconds apart, waits once more and gives up."""

    def __init__(self, host):
        super().__init__()
        self.host, self.is_good, self.said = host, False, ""
        self.start()

    def run(self):
        asked = 0
        while asked < 4 and told(self.host.line, 1) == ENQ:
            asked += 1
            self.host.line.sendall(NAK)
        status, said = self.host.end()
        took = time.monotonic() - self.host.begun
        self.said = f"asked {asked} times in {took:.0f} s, status {status}: {said!r}"
        self.is_good = asked == 3 and status == 1 and LEAST < took < MOST


class Pairs(kit.Test):
    def setUp(self):
        self.build, self.work = kit.built("build"), kit.folder_of(self)
        self.env = {**os.environ, "LD_LIBRARY_PATH": self.build}
        self.senders, self.receivers = {}, {}

    def in_cpp(self):
        """Compiles the samples in C++."""
        for name, programs in (("quick_send", self.senders), ("quick_receive", self.receivers)):
            to = f"{self.work}/{name}"
            if self.runs([*CPP, f"{ROOT}/examples/cpp/{name}.cpp", f"{self.build}/liblislink.a", "-o", to]):
                programs[f"{name}.cpp"] = to

    def in_rust(self):
        """Builds all samples in Rust, as cargo does."""
        env = {**os.environ, "CARGO_TARGET_DIR": f"{self.work}/rust", "LISLINK_LIB_DIR": self.build,
               "CARGO_NET_OFFLINE": "true", "RUSTFLAGS": "-D warnings"}
        if self.runs(["cargo", "build", "--quiet", "--offline", "--locked", "--examples"], env=env,
                     cwd=f"{ROOT}/bindings/rust"):
            self.senders["send.rs"] = f"{self.work}/rust/debug/examples/send"
            self.receivers["receive.rs"] = f"{self.work}/rust/debug/examples/receive"

    def host(self, program, file=PANEL):
        return Host(program, file, self.env)

    def test_pairs(self):
        if shutil.which("g++"):
            self.in_cpp()
        else:
            print("skipped: g++: some checks: quick_send.cpp and quick_receive.cpp")
        if shutil.which("cargo"):
            self.in_rust()
        else:
            print("skipped: cargo: some checks: send.rs and receive.rs")
        busy = {name: Busy(self.host(program)) for name, program in self.senders.items()}
        for sender in self.senders:
            for receiver in self.receivers:
                self.of_pair(sender, receiver)
            self.of_failures(sender, self.senders[sender])
        for name, one in busy.items():
            one.join()
            self.check(one.is_good, f"{name}: a host that stays busy", one.said)

    def of_pair(self, sender, receiver):
        """A file that is sent is what is kept."""
        path = f"{self.work}/{sender}-{receiver}"
        words = [self.receivers[receiver], "0", path]
        with subprocess.Popen(words, stdout=subprocess.PIPE, stderr=subprocess.DEVNULL, env=self.env) as receives:
            port = int(receives.stdout.readline().split()[1])
            ran = subprocess.run([self.senders[sender], f"127.0.0.1:{port}", PANEL], capture_output=True, text=True,
                                 timeout=PATIENCE, env=self.env)
            receives.wait(10)
        with open(PANEL, "rb") as file:
            sent = file.read()
        count = sent.count(b"\r")
        good = ran.returncode == 0 and ran.stdout == f"all texts are acknowledged, frames: {count}\n"
        self.check(good and kept(path) == sent, f"{sender} to {receiver}", ran.stdout + ran.stderr)

    def of_failures(self, name, program):
        """A frame that is rejected six times; a line that is closed while the host is busy; a record with LF."""
        with open(PANEL, "rb") as file:
            first = frame(1, file.read().split(b"\r")[0] + b"\r")
        host = self.host(program)
        good = told(host.line, 1) == ENQ and ask(host.line, ACK, first)
        for _ in range(5):
            good = good and ask(host.line, NAK, first)
        good = good and ask(host.line, NAK, EOT)
        status, said = host.end()
        self.check(good and status == 1 and b"six times" in said, f"{name}: a host that takes nothing", repr(said))
        host = self.host(program)
        good = told(host.line, 1) == ENQ and host.line.sendall(NAK) is None
        host.line.close()
        self.check(good and host.end()[0] == 1, f"{name}: a busy host that closes the line")
        path = f"{self.work}/wrong.records"
        with open(path, "wb") as file:
            file.write(b"H|\\^&\rP|1\n\r")
        with socket.create_server(("127.0.0.1", 0)) as server:
            words = [program, f"127.0.0.1:{server.getsockname()[1]}", path]
            ran = subprocess.run(words, capture_output=True, timeout=PATIENCE, env=self.env)
        said = ran.stdout + ran.stderr
        self.check(ran.returncode == 1 and b"no text may hold" in said, f"{name}: a record that can't be sent", repr(said))

