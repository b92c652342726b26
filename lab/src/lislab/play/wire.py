"""The end of a line that a script plays: a connection that it makes or waits for, or a serial line."""
import os
import select
import socket
import time
from typing import Callable, NamedTuple, Optional, Sequence, Union

from ..host.tty import open_serial
from ..model.options import Network, Serial, is_allowed
from .frames import LF, STX, UNITS

#: The most bytes of a unit: those of a frame with a text of 63,993 bytes, and more.
UNIT = 1 << 17
#: For how many seconds a host is waited for at first, which may just start.
STARTS = 5.0


class LineFailed(Exception):
    """The line failed: it isn't there, or accepts no bytes."""


class Closed(Exception):
    """The other end closed the line, and nothing of it is left."""


class To(NamedTuple):
    """A host and port to connect to."""

    host: str
    port: int


class On(NamedTuple):
    """An address and port to wait at, and who may connect besides this machine."""

    host: str
    port: int
    networks: Sequence[Network] = ()


Place = Union[To, On, Serial]


class End:
    """A line as it is now. It keeps bytes that arrived and were not read."""

    def __init__(self, place: Place, within: float, announce: Callable[[str], None]) -> None:
        self._place, self._within = place, within
        self._server: Optional[socket.socket] = None
        self._line: Union[socket.socket, int, None] = None
        self._came, self._is_closed = bytearray(), False
        self._patience = min(STARTS, within)
        #: The addresses of both ends.
        self.own = self.other = ""
        if isinstance(place, On):
            family = socket.AF_INET6 if ":" in place.host else socket.AF_INET
            self._server = socket.create_server((place.host, place.port), family=family, backlog=8)
            host, port = self._server.getsockname()[:2]
            announce(f"listening {host}:{port}")

    @property
    def is_serial(self) -> bool:
        """Whether it is a serial line."""
        return isinstance(self._place, Serial)

    @property
    def is_over(self) -> bool:
        """Whether the other end closed the line, and nothing of it is left."""
        return not self.waiting() and self._is_closed

    def open(self, is_patient: bool = False) -> None:
        """Connects, waits for a connection, or opens the device; LineFailed if there is none within the time. One
        that is restarted is waited for as long as one that is to begin."""
        self._came.clear()
        if isinstance(self._place, Serial):
            self.own, self.other = self._place.device, ""
            if self._line is None:
                self._line = open_serial(self._place)
            self._is_closed = False
            return
        line = self._accepted() if self._server is not None else self._connected(is_patient)
        line.setsockopt(socket.IPPROTO_TCP, socket.TCP_NODELAY, 1)
        self.own, self.other = ("{}:{}".format(*name[:2]) for name in (line.getsockname(), line.getpeername()))
        self._line, self._is_closed = line, False

    def _connected(self, is_patient: bool) -> socket.socket:
        assert isinstance(self._place, To)
        until = time.monotonic() + (self._within if is_patient else self._patience)
        self._patience = 0.0
        while True:
            left = until - time.monotonic()
            try:
                return socket.create_connection(self._place, max(left, 0.1))
            except OSError as error:
                if left < 0.1 or not isinstance(error, ConnectionError):
                    where = f"{self._place.host}:{self._place.port}"
                    raise LineFailed(f"can't connect to {where}: {error.strerror or error}") from None
                time.sleep(0.05)

    def _accepted(self) -> socket.socket:
        assert self._server is not None and isinstance(self._place, On)
        until = time.monotonic() + self._within
        while True:
            ready, _, _ = select.select([self._server], [], [], max(0.0, until - time.monotonic()))
            if not ready:
                raise LineFailed(f"nobody connected within {self._within:g} seconds")
            line, peer = self._server.accept()
            if is_allowed(peer[0], self._place.networks):
                return line
            line.close()

    def close(self) -> None:
        """Closes the connection; a serial line stays open, and its unread bytes are dropped."""
        self._take(0.0)
        self._came.clear()
        if isinstance(self._line, socket.socket):
            self._line.close()
            self._line, self._is_closed = None, True

    def end(self) -> None:
        """Closes all."""
        self.close()
        if isinstance(self._line, int):
            os.close(self._line)
            self._line = None
        if self._server is not None:
            self._server.close()

    def send(self, data: bytes) -> None:
        """Sends bytes; LineFailed if they can't be sent."""
        try:
            if isinstance(self._line, socket.socket):
                self._line.settimeout(self._within)
                self._line.sendall(data)
            elif self._line is not None:
                self._write(self._line, data)
            else:
                raise LineFailed("the line is closed")
        except OSError as error:
            raise LineFailed(f"the line is gone: {error}") from None

    def _write(self, descriptor: int, data: bytes) -> None:
        until = time.monotonic() + self._within
        while data:
            _, ready, _ = select.select([], [descriptor], [], max(0.0, until - time.monotonic()))
            if not ready:
                raise LineFailed("the serial line accepts no bytes: check its flow control")
            data = data[os.write(descriptor, data) :]

    def _take(self, seconds: float) -> bool:
        """Waits for bytes for so long; whether some came."""
        if self._line is None or self._is_closed:
            return False
        ready, _, _ = select.select([self._line], [], [], max(0.0, seconds))
        if not ready:
            return False
        try:
            if isinstance(self._line, socket.socket):
                data = self._line.recv(1 << 16)
            else:
                data = os.read(self._line, 1 << 16)
        except BlockingIOError:
            return False
        except OSError:
            data = b""
        self._came += data
        self._is_closed = not data
        return bool(data)

    def waiting(self) -> bytes:
        """The bytes that arrived and were not read."""
        while len(self._came) < UNIT and self._take(0.0):
            pass
        return bytes(self._came)

    def drop(self, seconds: float) -> bytes:
        """Drops the unread bytes, and those that arrive in this time."""
        until = time.monotonic() + seconds
        while self._take(until - time.monotonic()) and len(self._came) < UNIT:
            pass
        came = bytes(self._came)
        self._came.clear()
        return came

    def unit(self, due: float, most: int = UNIT) -> bytes:
        """The next unit, of at most so many bytes; what there is of it at this time, or nothing. Closed if the other
        end closed the line before it began."""
        while True:
            size = self._size(most)
            left = due - time.monotonic()
            if size or left <= 0 or self._is_closed:
                if not size and self._is_closed and not self._came:
                    raise Closed
                size = size or min(len(self._came), most)
                unit = bytes(self._came[:size])
                del self._came[:size]
                return unit
            self._take(left)

    def _size(self, most: int) -> int:
        """The size of the first unit, if it is whole."""
        found = UNITS.match(self._came)
        if found is None:
            return 0
        is_whole = self._came[0] != STX or found[0][-1] == LF or found.end() < len(self._came)
        return min(found.end(), most) if is_whole or found.end() >= most else 0
