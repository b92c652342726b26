"""How long good lines wait for their replies while others attack the host, and how much memory hostile lines take up.
It measures and judges nothing: what a machine does besides is in each figure (`tests/host/more fair`)."""
import errno
import itertools
import json
import os
import selectors
import socket
import statistics
import subprocess
import sys
import tempfile
import time

from lislink import LONG_FRAME_TEXT, frame_bytes
from tests.host import hosts
from tests.host.hosts import Host, say

ENQ, ACK, EOT = b"\x05", b"\x06", b"\x04"
#: So many good lines, each with an address of its own, and a session each so many seconds; so many hostile connections
#: of an address; seconds of each measurement.
GOOD, EVERY, EACH, SECONDS = 190, 1.5, 8, 6.0
#: How many addresses attack.
PEERS = (1, 15)
TEXTS = [b"H|\\^&\r", b"P|1\r", b"O|1|S7||^^^GLU\r", b"R|1|^^^GLU|5.4|mmol/L\rL|1|N\r"]
UNITS = [ENQ, *(frame_bytes(number, True, text) for number, text in enumerate(TEXTS, 1))]
TINY = ENQ + frame_bytes(1, True, b"H|\\^&\rL|1|N\r") + EOT
#: A frame that has no end, after ENQ.
ENDLESS = b"x" * (1 << 16)


def connected(port, address):
    """A connection from an address of this machine, as soon as it is there."""
    one = socket.socket()
    one.setsockopt(socket.IPPROTO_TCP, socket.TCP_NODELAY, 1)
    one.bind((address, 0))
    one.connect(("127.0.0.1", port))
    one.setblocking(False)
    return one


# ---- good lines

class Good:
    """A line that sends a session now and then, and notes how long each reply took."""

    def __init__(self, port, place):
        self.one, self.at, self.sent = connected(port, f"127.1.{place // 250}.{place % 250 + 1}"), 0, 0.0
        self.next = 0.0

    def begin(self, now):
        """Begins a session."""
        self.at, self.next = 0, now + EVERY
        self.send(now)

    def send(self, now):
        """Sends the next unit."""
        self.sent = now
        self.one.send(UNITS[self.at])

    def hear(self, now, waits):
        """A reply came."""
        got = self.one.recv(16)
        if got != ACK:
            raise SystemExit(f"a good line was not acknowledged: {got}")
        waits.append(now - self.sent)
        self.at += 1
        if self.at < len(UNITS):
            self.send(time.perf_counter())
        else:
            self.one.send(EOT)
            self.at = 0


def be_good(port, seconds):
    """The good lines for some time: prints how long they waited for each reply, and who still waits."""
    lines, ready, waits = [Good(port, place) for place in range(GOOD)], selectors.DefaultSelector(), []
    for one in lines:
        ready.register(one.one, selectors.EVENT_READ, one)
    sys.stdin.readline()  # the attack has begun
    for place, one in enumerate(lines):
        one.next = time.perf_counter() + EVERY * place / GOOD
    over = time.perf_counter() + seconds
    while time.perf_counter() < over + 2:
        for key, _ in ready.select(0.002):
            key.data.hear(time.perf_counter(), waits)
        now = time.perf_counter()
        for one in lines:
            if one.next <= now < over and one.at == 0:
                one.begin(now)
    waits += [time.perf_counter() - one.sent for one in lines if one.at]
    print(json.dumps(waits))


# ---- hostile ones

def flood(port, addresses):
    """Connects and closes at once."""
    for address in itertools.cycle(addresses):
        one = socket.socket()
        one.bind((address, 0))
        one.setblocking(False)
        one.connect_ex(("127.0.0.1", port))
        time.sleep(0)
        one.close()


def fill(port, addresses, start, more, pause):
    """Connections that send as much as is taken, in turn."""
    lines = {}
    for turn in itertools.count():
        for place in [(address, number) for address in addresses for number in range(EACH)]:
            try:
                if place not in lines:
                    lines[place] = connected(port, place[0])
                    lines[place].send(start)
                lines[place].send(more)
                lines[place].recv(65536)
            except BlockingIOError:
                continue
            except OSError as error:
                if place in lines:
                    lines.pop(place).close()
                if error.errno not in (errno.ECONNRESET, errno.EPIPE, errno.ECONNREFUSED):
                    time.sleep(0.01)
        time.sleep(pause if turn else 0)


ATTACKS = {
    "connections": flood,
    "frames without an end": lambda port, addresses: fill(port, addresses, ENQ + b"\x021", ENDLESS, 0.0),
    "sessions in small pieces": lambda port, addresses: fill(port, addresses, b"", TINY * 3, 0.0004),
}


def part_of(*words):
    """A process of this file, with less of the processor than the host."""
    return subprocess.Popen([sys.executable, "-m", "tests.host.fair", *map(str, words)], cwd=hosts.ROOT, env=ENV,
                            stdin=subprocess.PIPE, stdout=subprocess.PIPE, text=True)


ENV = {**os.environ, "PYTHONPATH": os.pathsep.join([hosts.ENV["PYTHONPATH"], hosts.ROOT])}


def waited(host, name, peers):
    """How long the good lines wait while so many addresses attack."""
    addresses = [f"127.2.0.{place + 1}" for place in range(peers)]
    shares = [some for some in (addresses[at::3] for at in range(3)) if some]
    good = part_of("good", host.port, SECONDS)
    time.sleep(2.0)
    attackers = [part_of("attack", host.port, name, *some) for some in shares]
    time.sleep(2.0 if attackers else 0)
    try:
        return json.loads(good.communicate("go\n")[0])
    finally:
        for one in attackers:
            one.kill()
            one.wait()


def told(name, waits):
    """A line about replies, in milliseconds."""
    waits = sorted(one * 1000 for one in waits)
    most = waits[min(len(waits) - 1, int(0.99 * len(waits)))]
    over = [sum(one > limit for one in waits) for limit in (100, 250)]
    say(f"{name}: {len(waits)} replies after {statistics.median(waits):.1f} ms (median), {most:.0f} (99 %), "
        f"{waits[-1]:.0f} (longest); {over[0]} over 100, {over[1]} over 250; load {os.getloadavg()[0]:.1f}")


def under_attack(folder, names):
    """Replies to good lines without an attack and under each."""
    host = Host(os.path.join(folder, "fair.db"), "--max-lines", "512", each=None, scale=1.0)
    told("no attack", waited(host, "", 0))
    for name in names:
        for peers in PEERS:
            told(f"{name}, {peers} of {EACH} connections", waited(host, name, peers))
            time.sleep(2)
    say(f"the host's memory: {host.memory() // 1024} MB; its status: {host.stop()}")


def memory(folder, lines=256):
    """The host's memory under hostile lines: each has an open message that can't be read, and an open text."""
    host = Host(os.path.join(folder, "memory.db"), "--listen", "0,name=long,frame=63993", each=None, scale=1.0)
    port = next(int(row.split()[1].rsplit(":", 1)[1]) for row in host.rows if row.endswith(" long\n"))
    before, most, wrong = host.memory(), 0, 0
    all_of_them = [connected(port, f"127.3.{place // EACH}.1") for place in range(lines)]
    texts = [b"H|\\^&\rR|1\r", *[(b"C|1|" + b"x" * 1000 + b"\r") * 62] * 29]  # the most of a text, without its end
    for place, one in enumerate(all_of_them):
        one.settimeout(60)
        one.sendall(ENQ)
        one.recv(1)
        frames = [(True, text) for text in texts] + [(False, b"y" * LONG_FRAME_TEXT)] * 15
        for number, (last, text) in enumerate(frames, 1):
            one.sendall(frame_bytes(number % 8, last, text, frame_limit=LONG_FRAME_TEXT))
            if one.recv(1) != ACK:
                wrong += 1
                break
        most = max(most, host.memory())
    say(f"memory: {before // 1024} MB without lines, {most // 1024} MB with {place + 1} hostile ones, of which {wrong} "
        "were rejected")
    for one in all_of_them:
        one.close()
    time.sleep(1)
    say(f"memory: {host.memory() // 1024} MB when they are gone; the host's status: {host.stop()}")


def run(words):
    """Measures all of it, or these: the names of attacks, and `memory`."""
    names = [name for name in [*ATTACKS, "memory"] if not words or name in words]
    with tempfile.TemporaryDirectory(prefix="lis-fair-") as folder:
        attacks = [name for name in names if name in ATTACKS]
        if attacks:
            under_attack(folder, attacks)
        if "memory" in names:
            memory(folder)
    return 0


if __name__ == "__main__":
    kind, port, *others = sys.argv[1:]
    if kind == "good":
        be_good(int(port), float(others[0]))
    else:
        os.nice(5)
        ATTACKS[others[0]](int(port), others[1:])
