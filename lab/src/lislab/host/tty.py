"""A serial line: its device opened by pyserial or termios, and read through the loop."""
import asyncio
import fcntl
import importlib
import os
import stat
import struct
import termios
from typing import Callable, Optional, Tuple

from ..model.options import OptionError, Serial
from .wires import Hears, Wire

#: What asks Linux for the speeds of a terminal as numbers, and where they are in its answer; how far a speed may be
#: from the one that is asked for, since a clock is divided by whole numbers.
_TCGETS2, _SPEEDS, _NEAR = 0x802C542A, struct.Struct("=36x2I"), 0.03
_SIZES = {"5": termios.CS5, "6": termios.CS6, "7": termios.CS7, "8": termios.CS8}


class Unusable(OptionError):
    """A device is there, and can't be the serial line that is asked for."""


def open_serial(serial: Serial) -> int:
    """Opens a device: raw, only for this program, and without bytes that arrived before. If pyserial is installed it
    opens the device, which may then have any speed that its driver takes. Unusable if it isn't a terminal, or can't
    have the speed; OSError if it can't be opened."""
    try:
        descriptor, speed = _by_pyserial(serial), None
        if descriptor is None:
            descriptor, speed = _by_termios(serial)
        try:
            _set_up(descriptor, serial, speed)
            _check_speed(descriptor, serial)
        except BaseException:
            os.close(descriptor)
            raise
        return descriptor
    except (OSError, termios.error) as error:
        if _is_no_terminal(serial.device):
            raise Unusable(f"{serial.device} isn't a terminal") from None
        raise OSError(str(error) if serial.device in str(error) else f"{serial.device}: {error}") from None


def _is_no_terminal(device: str) -> bool:
    """Whether a device that failed is there, and isn't a terminal."""
    try:
        if not stat.S_ISCHR(os.stat(device).st_mode):
            return True
        descriptor = os.open(device, os.O_RDWR | os.O_NOCTTY | os.O_NONBLOCK | os.O_CLOEXEC)
    except OSError:
        return False
    try:
        return not os.isatty(descriptor)
    finally:
        os.close(descriptor)


def _check_speed(descriptor: int, serial: Serial) -> None:
    """Raises Unusable if the driver set another speed than asked, because it reports no error then."""
    try:
        into, out = _SPEEDS.unpack(fcntl.ioctl(descriptor, _TCGETS2, bytes(_SPEEDS.size)))
    except OSError:  # a kernel that has no such call, or another number for it
        known = getattr(termios, f"B{serial.speed}", None)
        good = known is None or termios.tcgetattr(descriptor)[4:6] == [known, known]
    else:
        good = max(abs(into - serial.speed), abs(out - serial.speed)) <= serial.speed * _NEAR
    if not good:
        raise Unusable(f"{serial.device} can't have a speed of {serial.speed}")


def _by_pyserial(serial: Serial) -> Optional[int]:
    """The open device at its speed; None without pyserial."""
    try:
        opened = importlib.import_module("serial").Serial
    except (ImportError, AttributeError):
        return None
    try:
        port = opened(serial.device, serial.speed, timeout=0, exclusive=True)
    except ValueError as error:
        raise Unusable(f"{serial.device}: {error}") from None
    descriptor = os.dup(port.fileno())
    port.close()
    os.set_blocking(descriptor, False)
    return descriptor


def _by_termios(serial: Serial) -> Tuple[int, int]:
    """The open device, and its speed as termios has it."""
    speed = getattr(termios, f"B{serial.speed}", None)
    if speed is None:
        raise Unusable(f"{serial.device}: without pyserial there is no speed of {serial.speed}")
    return os.open(serial.device, os.O_RDWR | os.O_NOCTTY | os.O_NONBLOCK | os.O_CLOEXEC), speed


def _set_up(descriptor: int, serial: Serial, speed: Optional[int]) -> None:
    """Sets all but the speed, and that too if it is named."""
    fcntl.ioctl(descriptor, termios.TIOCEXCL)
    control = termios.CREAD | termios.CLOCAL | _SIZES[serial.mode[0]]
    if serial.mode[1] != "N":
        control |= termios.PARENB | (termios.PARODD if serial.mode[1] == "O" else 0)
    control |= termios.CSTOPB if serial.mode[2] == "2" else 0
    control |= termios.CRTSCTS if serial.flow == "rtscts" else 0
    taken = termios.IXON | termios.IXOFF if serial.flow == "xonxoff" else 0
    taken |= termios.INPCK if serial.mode[1] != "N" else 0
    *_, into, out, letters = termios.tcgetattr(descriptor)
    letters[termios.VMIN], letters[termios.VTIME] = 1, 0
    speeds = [into, out] if speed is None else [speed, speed]
    termios.tcsetattr(descriptor, termios.TCSANOW, [taken, 0, control, 0, *speeds, letters])
    termios.tcflush(descriptor, termios.TCIOFLUSH)


class SerialWire(Wire):
    """The descriptor of a serial line. A reply is late after so many seconds."""

    def __init__(self, descriptor: int, arrived: Callable[[], float], late: float) -> None:
        self._descriptor, self._arrived, self._late = descriptor, arrived, late
        self._loop = asyncio.get_running_loop()
        self._alarm: Optional[asyncio.TimerHandle] = None
        self.line: Optional[Hears] = None

    def begin(self, line: Hears) -> None:
        """Reads for this line from here on."""
        self.line = line
        self.resume()

    def _readable(self) -> None:
        assert self.line is not None
        try:
            data = os.read(self._descriptor, 65536)
        except BlockingIOError:
            return
        except OSError:
            data = b""
        if data:
            self.line.inbox.add(data, self._arrived())
        else:
            self.pause()
            self.line.lost("since its device is gone")

    def write(self, data: bytes) -> None:
        self._take_back()
        try:
            os.write(self._descriptor, data)
        except OSError:
            return  # a reply that the line doesn't take is lost: its sender runs into its timer
        self._alarm = self._loop.call_later(self._late, self._take_back)

    def _take_back(self) -> None:
        """Drops a reply that flow control still holds up: later it could be mistaken for the reply to a later frame."""
        if self._alarm is not None:
            self._alarm.cancel()
            self._alarm = None
            if _is_held_up(self._descriptor):
                termios.tcflush(self._descriptor, termios.TCOFLUSH)

    def pause(self) -> None:
        self._loop.remove_reader(self._descriptor)

    def resume(self) -> None:
        self._loop.add_reader(self._descriptor, self._readable)

    def close(self) -> None:
        self._take_back()  # closing waits for what is held up
        if self._descriptor >= 0:
            self._loop.remove_reader(self._descriptor)
            os.close(self._descriptor)
            self._descriptor = -1


def _is_held_up(descriptor: int) -> bool:
    """Whether bytes that were written have not left yet."""
    try:
        return bool(struct.unpack("i", fcntl.ioctl(descriptor, termios.TIOCOUTQ, bytes(4)))[0])
    except OSError:
        return False
