"""Serial lines, on pseudo terminals: by termios, and by pyserial where it is installed."""
import asyncio
import contextlib
import fcntl
import importlib.util
import os
import pty
import select
import struct
import subprocess
import termios
import threading
import time
import tty
import unittest.mock

from lislab.model import options
from lislab.host import asked as asking
from lislab.host import serials, serve
from lislab.host import tty as serial
from lislab.model.stores import open_store
from tests.host.hosts import ENV, SCALE, SENDER, Found, Host, HostTest, acknowledged, process, until

#: Where Debian's packages for Python are.
DEBIAN = "/usr/lib/python3/dist-packages"


class Cable:
    """Two pseudo terminals, and what pumps bytes between them."""

    def __init__(self):
        pairs = [pty.openpty() for _ in range(2)]
        self.masters = [master for master, _ in pairs]
        self.slaves = [slave for _, slave in pairs]
        self.names = [os.ttyname(slave) for slave in self.slaves]
        for slave in self.slaves:
            tty.setraw(slave, termios.TCSANOW)
        self.going = True
        self.thread = threading.Thread(target=self._pump, daemon=True)
        self.thread.start()

    def _pump(self):
        while self.going:
            ready, _, _ = select.select(self.masters, [], [], 0.1)
            for master in ready:
                other = self.masters[1 - self.masters.index(master)]
                os.write(other, os.read(master, 4096))

    def close(self):
        """Takes the cable away."""
        self.going = False
        self.thread.join()
        for one in [*self.masters, *self.slaves]:
            os.close(one)


def shown(words, env):
    """How a device is set that is opened with these words; the last line of what is said if it can't be opened."""
    master, slave = pty.openpty()
    try:
        words = ["-c", SHOW, f"{os.ttyname(slave)}:{words}"]
        one = process(words, stdout=subprocess.PIPE, stderr=subprocess.STDOUT, env=env)
        return one.communicate()[0].strip().splitlines()[-1]
    finally:
        os.close(master)
        os.close(slave)


def folder_of_pyserial():
    """Where pyserial is: this Python's, or Debian's, which any version of Python can use; None if it isn't there."""
    found = importlib.util.find_spec("serial")
    if found is not None:
        return os.path.dirname(os.path.dirname(found.origin))
    return DEBIAN if os.path.exists(os.path.join(DEBIAN, "serial", "__init__.py")) else None


#: Opens a serial line as its words say, and prints how it is set: flags, characters, the speed of each direction as
#: the kernel has it, and whether pyserial was loaded.
SHOW = """
import fcntl, struct, sys, termios
from lislab.host import tty
from lislab.model import options
one = tty.open_serial(options.serial_of(sys.argv[1]))
flags = termios.tcgetattr(one)
speeds = struct.unpack("=36x2I", fcntl.ioctl(one, 0x802C542A, bytes(44)))
print(flags[0], flags[1], flags[2] & ~0o10017, flags[3], flags[6], speeds, "serial" in sys.modules)
"""


IOCTL = fcntl.ioctl


def waiting(parts):
    """A line that does nothing."""

    async def run():
        await asyncio.sleep(10)

    return unittest.mock.Mock(run=run, keeper=unittest.mock.Mock(last=None), stop=lambda _: parts.wire.close())


class Serial(HostTest):
    """A host and an analyzer on a serial line."""

    @classmethod
    def setUpClass(cls):
        super().setUpClass()
        bare = os.path.join(cls.folder.name, "bare")
        os.mkdir(bare)
        with open(os.path.join(bare, "serial.py"), "w", encoding="ascii") as file:
            file.write("raise ImportError('there is no pyserial, as the test has it')\n")
        cls.bare = {**ENV, "PYTHONPATH": bare + ":" + ENV["PYTHONPATH"]}
        folder = folder_of_pyserial()
        cls.with_pyserial = folder and {**ENV, "PYTHONPATH": ENV["PYTHONPATH"] + ":" + folder}

    def test_termios(self):
        """A serial line with noise, and the host killed in mid-session."""
        self.is_served("termios", self.bare)

    def test_pyserial(self):
        """The same by pyserial, and a device is set as without it."""
        if not self.with_pyserial:
            self.skipTest("pyserial (Debian: python3-serial) is not installed")
        self.is_served("pyserial", self.with_pyserial)
        for words in ("9600", "9600,mode=7E1", "115200,mode=8O2", "19200,flow=rtscts", "4800,flow=xonxoff"):
            bare, loaded = shown(words, self.bare), shown(words, self.with_pyserial)
            self.same(f"{words}: pyserial is used, or not", (bare[-5:], loaded[-4:]), ("False", "True"))
            self.same(f"{words}: set as by termios", loaded[:-4], bare[:-5])
        self.has("a speed that termios hasn't", shown("28800", self.with_pyserial), "(28800, 28800)")
        self.has("without pyserial it is an error", shown("28800", self.bare), "without pyserial there is no speed")

    def test_a_device_that_is_gone_at_once(self):
        """A device that opens and is at its end is looked for each second, and no more often."""
        times = []

        def end_of_a_pipe(_):
            into, out = os.pipe()
            os.close(out)
            times.append(time.monotonic())
            return into

        async def serve_it():
            device = options.serial_of("/dev/ttyUSB0:9600")
            asked = serve.Asked([], [device], [], options.Limits(), None, None)
            host = serve.Host(asked, open_store(self.path("gone.db")))
            task = asyncio.ensure_future(host.serials.serve(device))
            await until(lambda: len(times) > 1)
            task.cancel()
            await host.stop()

        with unittest.mock.patch.object(serials, "open_serial", end_of_a_pipe):
            with unittest.mock.patch.object(serve, "say"):
                asyncio.run(serve_it())
        self.true("it is opened again a second later", times[1] - times[0] > 0.9, times)

    def test_a_device_that_is_no_terminal(self):
        """It is said once, and the host isn't ready; of one that isn't there it is said, and the host is ready."""
        for device, said, ready in (
            ("/dev/null", "/dev/null isn't a terminal", []),
            (self.folder.name, f"{self.folder.name} isn't a terminal", []),
            (self.path("none"), "No such file", ["ready"]),
        ):
            found, announced = self.after_a_start(f"{device}:9600,name=A")
            self.same(f"{device}: said once", [said in one for one in found], [True])
            self.same(f"{device}: ready", announced, ready)
        found, announced = self.after_a_start(f"{self.folder.name}:9600,name=A", os.ttyname(pty.openpty()[1]))
        self.same("one that takes its place: said once, and then ready", (len(found), announced), (1, ["ready"]))

    def test_a_host_that_stops_is_not_ready(self):
        """A device can't be used, and the host stops while a session goes on, which it waits for."""

        async def serve_it():
            asked = serve.Asked([], [options.serial_of("/dev/null:9600,name=A")], [], options.Limits(), None, None)
            host = serve.Host(asked, open_store(self.path("stops.db")))
            await host.start()
            host.lines[unittest.mock.Mock()] = asyncio.ensure_future(asyncio.sleep(0.5))
            await host.stop()
            return [one.done() for one in host.serials.served.values()]

        with unittest.mock.patch.multiple(serials, REOPEN=0.02, announce=unittest.mock.DEFAULT) as named:
            with unittest.mock.patch.object(asking, "say"):
                over = asyncio.run(serve_it())
        self.same("nobody waits for the device any more", over, [True])
        self.same("announced", [call.args[0] for call in named["announce"].call_args_list], [])

    def test_a_speed_that_is_not_taken(self):
        """A driver that takes another speed than the one it is asked for."""
        name = os.ttyname(pty.openpty()[1])
        os.close(serial.open_serial(options.serial_of(f"{name}:9600")))
        for numbers in (True, False):
            ioctl = fcntl.ioctl if numbers else self.no_numbers
            with unittest.mock.patch.object(fcntl, "ioctl", ioctl):
                os.close(serial.open_serial(options.serial_of(f"{name}:9600")))
                with unittest.mock.patch.object(termios, "tcsetattr"):
                    found, announced = self.after_a_start(f"{name}:19200,name=A")
            self.same(f"speeds as numbers: {numbers}", found, [f"A: {name} can't have a speed of 19200"])
            self.same("ready", announced, [])

    def no_numbers(self, descriptor, request, *words):
        """A kernel that gives no speed as a number."""
        if request == 0x802C542A:
            raise OSError("there is no such call")
        return IOCTL(descriptor, request, *words)

    def after_a_start(self, words, then=None):
        """What a host with this serial line says within three tries, and what it announces."""
        asked = serve.Asked([], [options.serial_of(words)], [], options.Limits(), None, None)

        async def serve_it():
            host = serve.Host(asked, open_store(self.path("devices.db")))
            await host.start()
            await until(lambda: opened.call_count > 2)
            if then is not None:
                opened.side_effect = lambda _: serial.open_serial(options.serial_of(then + ":9600"))
                await until(lambda: named["announce"].called)
            await host.stop()

        with contextlib.ExitStack() as stack:
            named = {"say": unittest.mock.Mock(), "announce": unittest.mock.Mock()}
            opened = unittest.mock.Mock(side_effect=serial.open_serial)
            for module, name, one in (
                (serials, "REOPEN", 0.05), (serials, "announce", named["announce"]), (serials, "open_serial", opened),
                (asking, "say", named["say"]), (serve, "say", named["say"]),
                (serve, "Line", unittest.mock.Mock(side_effect=waiting)),
            ):
                stack.enter_context(unittest.mock.patch.object(module, name, one))
            asyncio.run(serve_it())
        found = ([str(call.args[0]) for call in named[name].call_args_list] for name in ("say", "announce"))
        return [[row for row in rows if not row.endswith(": open")] for rows in found]

    def test_a_reply_that_is_held_up(self):
        """A reply that flow control holds up until it is late, or until the next one, is dropped."""

        async def dropped(held, writes):
            into, out = os.pipe()
            waiting = unittest.mock.Mock(return_value=struct.pack("i", held))
            with unittest.mock.patch.object(serial.fcntl, "ioctl", waiting), unittest.mock.patch.object(
                serial.termios, "tcflush"
            ) as flush:
                wire = serial.SerialWire(out, time.monotonic, 0.1)
                for _ in range(writes):
                    wire.write(b"\x06")
                before = flush.call_count
                await asyncio.sleep(0.3)
                wire.close()
                os.close(into)
                return before, flush.call_count

        for held, writes, wanted in ((0, 2, (0, 0)), (1, 1, (0, 1)), (1, 2, (1, 2))):
            found = asyncio.run(dropped(held, writes))
            self.same(f"{held} bytes are held up, {writes} replies: dropped before and after", found, wanted)

    def is_served(self, name, env):
        """Sends sixty messages over a cable."""
        cable = Cable()
        store, log = self.path(f"{name}.db"), self.path(f"{name}.log")
        host = Host(store, "--serial", f"{cable.names[0]}:9600,name=serial", listen=False, env=env)
        words = ["--serial", f"{cable.names[1]}:9600", "--scale", str(SCALE), "--noise", "0.001", "--tries", "0"]
        words = [SENDER, *words, "--made", "60", "--log", log, "--quiet"]
        one = process(words, stdout=subprocess.DEVNULL, stderr=subprocess.DEVNULL, env=env)
        for _ in range(3):
            time.sleep(0.7)
            host.kill()
            host.start()
        self.same("the analyzer's status", one.wait(600), 0)
        self.same("the host's status", host.stop(), 0)
        cable.close()
        found = Found(store)
        self.same("all are acknowledged", len(acknowledged(log)), 60)
        self.same("acknowledged and lost", found.lost(log), [])
        self.same("repeats without a mark", found.unmarked(), [])
        self.same("the line's name", {one.line for one in found.whole}, {"serial"})
