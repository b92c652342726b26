"""What is measured of a program: the time of a run, its memory, its instructions and its heap.

Times vary with what else the machine does. Instructions don't: callgrind counts them. Those of a byte are the
difference of two runs, of which one reads more, so that the start of the process is not among them.
"""
import fcntl
import os
import re
import shutil
import statistics
import subprocess
import tempfile
import termios
import time
from collections import namedtuple

Spread = namedtuple("Spread", "low middle high")

# The C library picks its copying by the processor. Without these it picks the same on each one, so that the counts are
# of every machine.
PLAIN = "glibc.cpu.hwcaps=-AVX2,-AVX,-AVX512F,-AVX512VL,-ERMS,-FSRM,-AVX_Fast_Unaligned_Load,-AVX2_Usable,-AVX_Usable"


def spread(values):
    """The median, and the quarters below and above it."""
    if len(values) < 2:
        return Spread(values[0], values[0], values[0])
    return Spread(*statistics.quantiles(values, n=4, method="inclusive"))


def started(words, path):
    """A process that reads the file and prints to /dev/null."""
    files = [(os.POSIX_SPAWN_OPEN, 0, path, os.O_RDONLY, 0), (os.POSIX_SPAWN_OPEN, 1, os.devnull, os.O_WRONLY, 0),
             (os.POSIX_SPAWN_OPEN, 2, os.devnull, os.O_WRONLY, 0)]
    return os.posix_spawn(words[0], words, os.environ, file_actions=files)


def timed(words, path):
    """Seconds from the start of a process to its end."""
    start = time.perf_counter()
    os.waitpid(started(words, path), 0)
    return time.perf_counter() - start


def processor_time(words, path):
    """Seconds that the processor spent on a process, in the program and in the system for it. What else the machine
    does changes it less than the time from start to end."""
    used = os.wait4(started(words, path), 0)[2]
    return used.ru_utime + used.ru_stime


def memory(words, made, size):
    """KiB of the program when it had read the whole stream and waited for more: resident at most, and its own."""
    process = subprocess.Popen(words, stdin=subprocess.PIPE, stdout=subprocess.DEVNULL, bufsize=0)
    data, written = made.head + made.block, 0
    while written < size:
        process.stdin.write(data)
        written += len(data)
        data = made.block
    unread = bytearray(4)
    while True:
        fcntl.ioctl(process.stdin, termios.FIONREAD, unread)
        with open(f"/proc/{process.pid}/status", encoding="ascii") as status:
            fields = dict(line.split(":", 1) for line in status)
        if not any(unread) and fields["State"].split()[0] == "S":
            break
        time.sleep(0.01)
    process.stdin.close()
    process.wait()
    return [int(fields[name].split()[0]) for name in ("VmHWM", "RssAnon")]


def has_valgrind():
    return shutil.which("valgrind") is not None


def under_valgrind(options, words, data):
    """What valgrind prints on standard error over a run that reads these bytes. Status 1 is that of findings."""
    with tempfile.TemporaryFile() as given:
        given.write(data)
        given.seek(0)
        run = subprocess.run(["valgrind", *options, *words], stdin=given, stdout=subprocess.DEVNULL, text=True,
                             stderr=subprocess.PIPE, env={**os.environ, "GLIBC_TUNABLES": PLAIN})
    if run.returncode > 1:
        raise SystemExit(f"{' '.join(words)} ends with {run.returncode}:\n{run.stderr}")
    return run.stderr


def instructions(words, data):
    """The instructions of a run that reads these bytes."""
    printed = under_valgrind(["--tool=callgrind", "--callgrind-out-file=/dev/null"], words, data)
    found = re.search(r"Collected : (\d+)", printed)
    if found is None:
        raise SystemExit(f"callgrind counts nothing of {' '.join(words)}:\n{printed}")
    return int(found[1])


def instructions_a_byte(words, made):
    """The instructions for each byte of a block."""
    once, twice = (instructions(words, made.head + made.block * count) for count in (1, 2))
    return (twice - once) / len(made.block)


def heap(words, data):
    """The most bytes that a run asks the C library for and has at one time."""
    with tempfile.NamedTemporaryFile("r") as found:
        under_valgrind(["--tool=massif", "--peak-inaccuracy=0", f"--massif-out-file={found.name}"], words, data)
        return max(int(line[11:]) for line in found if line.startswith("mem_heap_B="))
