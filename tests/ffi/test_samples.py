"""The samples host.c and quick_send.c: a text that can't be kept, a timer, a host that takes nothing or is busy. What
the samples keep is tried in test_keeps.py, which takes the words of a session from here."""
import os
import socket
import stat
import subprocess
import sys
import threading
import time

from tests import ROOT, kit
from tests.ffi.c import C11, SANITIZERS, python_over, shared, source

RECEIVE = os.path.join(ROOT, "examples/python/quick_receive.py")
PROGRAMS = {"quick_send": ["examples/c/quick_send.c"], "host": ["tests/ffi/host.c", "examples/c/host.c"]}
CPP = ["g++", "-std=c++17", "-Wall", "-Wextra", "-Werror", "-pedantic", f"-I{ROOT}/include", "-g", "-O1",
       "-fsanitize=address,undefined", "-fno-sanitize-recover=all"]
TEXTS = [b"H|\\^&|||Analyzer\r", b"P|1\r", b"O|1|S7\r", b"R|1|^^^GLU|" + b"5" * 200 + b"\r", b"L|1|N\r"]
ACK, ENQ, EOT = b"\x06", b"\x05", b"\x04"


def frame(number, text):
    inside = b"%d" % (number % 8) + text + b"\x03"
    return b"\x02" + inside + b"%02X\r\n" % (sum(inside) % 256)


#: How long what a sample does may take on a busy machine, in seconds.
PATIENCE = 120.0


def told(line, count, seconds=PATIENCE):
    """So many bytes of a line, or those that come in time."""
    line.settimeout(seconds)
    data = b""
    try:
        while len(data) < count:
            more = line.recv(count - len(data))
            if not more:
                break
            data += more
    except (TimeoutError, ConnectionError):
        pass
    return data


def ask(line, data, wanted, seconds=PATIENCE):
    """Whether the line answers data so; with nothing wanted, it is silent for a while."""
    line.sendall(data)
    return told(line, max(len(wanted), 1), seconds if wanted else 0.3) == wanted


class InC:
    """A sample in C: the line is its standard input."""

    def __init__(self, words, **how):
        self.line, other = socket.socketpair()
        self.process = subprocess.Popen(words, stdin=other, stdout=subprocess.PIPE, stderr=subprocess.DEVNULL, **how)
        other.close()

    def end(self):
        self.line.close()
        return self.process.wait(PATIENCE)


class InPython(InC):
    """quick_receive.py, or another sample that receives on a TCP port."""

    def __init__(self, words, **how):
        self.process = subprocess.Popen(words, stdout=subprocess.PIPE, stderr=subprocess.DEVNULL, **how)
        self.port = int(self.process.stdout.readline().split()[1])
        self.line = socket.create_connection(("127.0.0.1", self.port))


def kept(path):
    with open(path, "rb") as file:
        return file.read()


def always_full(path):
    """A device that is always full: one at this path if the test may make it. A sample locks its file, and a sample of
    another run of the tests may have /dev/full."""
    try:
        os.mknod(path, stat.S_IFCHR | 0o600, os.makedev(1, 7))
    except PermissionError:
        return "/dev/full"
    return path


def of_host(test, work):
    """A text that can't be kept gets no reply, also when it comes again; noise leaves the timer running."""
    host = InC([f"{work}/host"])
    bad, good = frame(1, b"X"), frame(1, b"good\r")
    silent = ask(host.line, ENQ, ACK) and ask(host.line, bad, b"") and ask(host.line, bad, b"")
    test.check(silent, "host.c: what can't be kept is acknowledged")
    test.check(ask(host.line, ENQ, ACK) and ask(host.line, good, ACK), "host.c, behind a text that can't be kept")
    over = time.monotonic() + 3
    while time.monotonic() < over:
        host.line.sendall(b"x")
        time.sleep(0.02)
    closed = ask(host.line, frame(2, b"late\r"), b"") and ask(host.line, ENQ, ACK)
    test.check(closed, "host.c: noise puts its timer off")
    test.check(host.end() == 0 and host.process.stdout.read() == b"good\r", "host.c: what it keeps")


def of_sender(test, work, how):
    """quick_send.c to quick_receive.py, and to a host that is silent, or takes nothing."""
    path, text = f"{work}/sent", b"H|\\^&|||" + b"x" * 500 + b"\r"
    receiver = InPython([sys.executable, RECEIVE, "0", path], **how)
    with receiver.line:
        ran = subprocess.run([f"{work}/quick_send", text.decode()], stdin=receiver.line, timeout=PATIENCE)
    receiver.process.wait(PATIENCE)
    test.check(ran.returncode == 0 and kept(path) == text, "quick_send.c to quick_receive.py")
    sender = InC([f"{work}/quick_send", "text"])
    good = told(sender.line, 1) == ENQ and ask(sender.line, ACK, frame(1, b"text"))
    for _ in range(5):
        good = good and ask(sender.line, b"\x15", frame(1, b"text"))
    good = good and ask(sender.line, b"\x15", EOT)
    test.check(good and sender.process.wait(PATIENCE) == 1, "quick_send.c to a host that takes nothing")
    sender.line.close()
    sender = InC([f"{work}/quick_send", "text"])
    good = told(sender.line, 1) == ENQ and sender.line.sendall(b"\x15") is None
    sender.line.close()
    test.check(good and sender.process.wait(PATIENCE) == 1, "quick_send.c to a host that is busy and closes the line")


def busy(sample):
    """A host, in a thread, that is busy at each ENQ of a sample; and the ENQs that it heard."""
    heard = []

    def reply():
        while told(sample.line, 1) == ENQ:
            heard.append(ENQ)
            sample.line.sendall(b"\x15")

    host = threading.Thread(target=reply)
    host.start()
    return sample, host, heard


def gives_up(sample, host, heard):
    """After three ENQs."""
    status = sample.process.wait(PATIENCE)
    sample.line.shutdown(socket.SHUT_RDWR)
    host.join()
    return (status, len(heard)) == (1, 3)


class Samples(kit.Test):
    def test_samples(self):
        archive, work = kit.built("archive"), kit.folder_of(self)
        library = shared(self, archive, work)
        built = [self.runs([*C11, *SANITIZERS, *(os.path.join(ROOT, it) for it in files), source("heap.c"), archive,
                            "-o", f"{work}/{name}"]) for name, files in PROGRAMS.items()]
        if not library or not all(built):
            return
        asks = busy(InC([f"{work}/quick_send", "text"]))
        of_host(self, work)
        of_sender(self, work, python_over(library))
        self.check(gives_up(*asks), "quick_send.c to a host that is busy: three ENQs")
