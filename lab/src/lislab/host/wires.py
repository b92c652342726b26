"""The wires of a host's lines, and the bytes that came over them and aren't heard yet. Each piece has the earliest time
at which it can have come: a reply to it must not be late, also if the host was busy or the machine was suspended."""
import asyncio
import functools
import math
import os
import socket
import time
from collections import deque
from typing import Callable, Deque, Optional, Protocol, Tuple, Union

from ..model.options import Connect, Listen, plain_address
from .telnet import Telnet
from .turns import Rest

#: How many bytes may wait to be heard before the line is read no further. How many bytes of a connection the host hears
#: before another line may have its turn.
WAITING, PIECE = 1 << 16, 4096
#: The clock of the lines. It goes on while the machine is suspended, if the system has such a clock; that of asyncio's
#: loops doesn't. The machine was suspended if the two drifted apart by more than so many seconds.
clock = functools.partial(time.clock_gettime, getattr(time, "CLOCK_BOOTTIME", time.CLOCK_MONOTONIC))
LEAST = 1.0


class Wire:
    """What a line needs of its transport."""

    is_tcp = False

    def write(self, data: bytes) -> None:
        """Sends bytes at once, or never."""
        raise NotImplementedError

    def close(self) -> None:
        """Closes the line."""

    def pause(self) -> None:
        """Reads no further for now."""

    def resume(self) -> None:
        """Reads on."""


class Inbox:
    """The pieces of bytes that came, in order, each with the earliest time at which it can have come. The line waits
    for the next piece, for a call of `wake`, or until something is due."""

    def __init__(self, wire: Wire) -> None:
        self._wire, self._loop = wire, asyncio.get_running_loop()
        self.pieces: Deque[Tuple[float, bytes]] = deque()
        self._size = 0
        #: Since when it is read no further.
        self.paused_at: Optional[float] = None
        #: What was read up to `_old_until`, after a pause, can have come since `_old`.
        self._old_until = self._old = clock()
        #: What wakes the line, and when.
        self._timer, self._rings = None, math.inf  # type: Optional[asyncio.TimerHandle], float
        #: What the line waits for, or waited for last.
        self.waiter = Rest(loop=self._loop)

    def add(self, data: bytes, arrived: float) -> None:
        """Adds bytes that came at this time or later, and lets the line go on. A callback of the loop calls it."""
        if self.paused_at is not None:
            arrived = min(arrived, self.paused_at)
        elif arrived <= self._old_until:
            arrived = min(arrived, self._old)
        self.pieces.append((arrived, data))
        self._size += len(data)
        if self._size > WAITING:
            self._pause(arrived)
        self.waiter.end()

    def take(self) -> Tuple[float, bytes]:
        """Returns the next piece, and the earliest time at which it can have come."""
        arrived, data = self.pieces.popleft()
        if len(data) > PIECE:
            self.pieces.appendleft((arrived, data[PIECE:]))
            data = data[:PIECE]
        self._size -= len(data)
        return arrived, data

    def clear(self) -> None:
        """Drops the pieces."""
        self.pieces.clear()
        self._size = 0

    def _pause(self, since: float) -> None:
        """Reads no further for now: what is read next can have come from this time on."""
        if self.paused_at is None:
            self.paused_at = since
            self._wire.pause()

    def pause(self) -> None:
        """Reads no further if some pieces wait already."""
        if self.pieces:
            self._pause(self.pieces[-1][0])

    def wait(self, due: float) -> Rest:
        """Reads on, and returns what ends when a piece comes, at a call of `wake`, or at this time. An earlier timer
        that is set already stays: as a rule each byte puts off what is due."""
        if self.paused_at is not None:
            self._old, self._old_until, self.paused_at = self.paused_at, clock(), None
            self._wire.resume()
        if due < self._rings:
            self.stop()
            self._rings, self._timer = due, self._loop.call_later(due - clock(), self._ring)
        self.waiter = Rest(loop=self._loop)
        return self.waiter

    def wake(self) -> None:
        """Wakes the line soon, if it waits."""
        self._loop.call_soon(self.waiter.end)

    def _ring(self) -> None:
        self._timer, self._rings = None, math.inf
        self.wake()

    def stop(self) -> None:
        """Cancels the timer."""
        if self._timer is not None:
            self._timer.cancel()
            self._timer, self._rings = None, math.inf


class Ticks:
    """The earliest time at which bytes can have come. A host that was stopped, or was busy, reads late what came long
    before. What a turn of the loop reads was not there in the turn before it, and that turn began after the last tick
    but one. So `before`, the time of that tick, is early enough, however long the host was stopped."""

    def __init__(self, period: float, look: Callable[[], None] = lambda: None) -> None:
        self._loop, self._period, self._look = asyncio.get_running_loop(), period, look
        self._last = self.before = clock()
        self._handle = self._loop.call_later(period, self._tick)

    def _tick(self) -> None:
        self.before, self._last = self._last, clock()
        self._handle = self._loop.call_later(self._period, self._tick)
        self._look()

    def stop(self) -> None:
        """Ends the ticks."""
        self._handle.cancel()


class Asleep:
    """How long the machine was suspended since that was noted last."""

    def __init__(self, awake: Callable[[], float] = clock) -> None:
        self._awake = awake
        self._noted = awake() - time.monotonic()

    def note(self) -> float:
        """Returns for how many seconds it was suspended, 0 if it wasn't, and counts from 0 again."""
        found = self._awake() - time.monotonic() - self._noted
        if found <= LEAST:
            return 0.0
        self._noted += found
        return found


class Hears(Protocol):
    """The line that a wire belongs to."""

    inbox: Inbox

    def lost(self, why: str) -> None:
        """The connection is gone."""


class End(Protocol):
    """Where connections come from: a port, or a call."""

    @property
    def place(self) -> Union[Listen, Connect]:
        """The settings of the line for connections from now on."""

    def begin(self, wire: "TcpWire", peer: str) -> Optional[Hears]:
        """Begins the line of an address that connected; None if it may not connect now."""


class TcpWire(asyncio.BufferedProtocol, Wire):
    """A TCP connection. All connections read into one buffer, which is emptied at once, so that reading doesn't
    fragment memory."""

    is_tcp, _buffer = True, bytearray(1 << 16)

    def __init__(self, end: End, ticks: Ticks) -> None:
        self._end, self._ticks = end, ticks
        self._transport: Optional[asyncio.Transport] = None
        self._line: Optional[Hears] = None
        self._why = ""
        self._telnet: Optional[Telnet] = None

    def connection_made(self, transport: asyncio.BaseTransport) -> None:
        """Begins a line, unless the address may not connect."""
        assert isinstance(transport, asyncio.Transport)
        name = transport.get_extra_info("peername")
        # It may be gone already. If nobody listens at the port that the host calls, the system may choose that port,
        # and the call reach itself.
        if name is None or name == transport.get_extra_info("sockname"):
            transport.abort()
            return
        one: socket.socket = transport.get_extra_info("socket")
        one.setsockopt(socket.IPPROTO_TCP, socket.TCP_NODELAY, 1)
        one.setsockopt(socket.SOL_SOCKET, socket.SO_KEEPALIVE, 1)
        for option, seconds in (("TCP_KEEPIDLE", 60), ("TCP_KEEPINTVL", 10), ("TCP_KEEPCNT", 6)):
            if hasattr(socket, option):
                one.setsockopt(socket.IPPROTO_TCP, getattr(socket, option), seconds)
        transport.set_write_buffer_limits(high=1024)
        self._transport = transport
        self._telnet = Telnet() if self._end.place.telnet else None
        self._line = self._end.begin(self, plain_address(name[0]))
        if self._line is None:
            transport.abort()

    def get_buffer(self, sizehint: int) -> bytearray:
        """Returns the buffer into which asyncio reads bytes."""
        return self._buffer

    def buffer_updated(self, nbytes: int) -> None:
        """Passes bytes that came to the line, without the commands of Telnet."""
        if self._line is None:
            return
        data = bytes(self._buffer[:nbytes])
        if self._telnet is not None:
            data, answer = self._telnet.heard(data)
            if self._transport is not None:
                self._transport.write(answer)
        if data:
            self._line.inbox.add(data, self._ticks.before)

    def eof_received(self) -> bool:
        """Lets asyncio close the connection, because the peer sends no more."""
        return False

    def connection_lost(self, exc: Optional[Exception]) -> None:
        """Ends the line, because either end closed the connection."""
        if self._line is not None:
            self._line.lost(self._why or ("by the other end" if exc is None else f"by a fault ({why(exc)})"))

    def pause_writing(self) -> None:
        """Closes the connection, because a peer that doesn't read its replies is no analyzer."""
        self._why = "since its replies aren't read"
        if self._transport is not None:
            self._transport.abort()

    def write(self, data: bytes) -> None:
        if self._telnet is not None:
            data = self._telnet.written(data)
        if self._transport is not None:
            self._transport.write(data)

    def close(self) -> None:
        self._line = None
        if self._transport is not None:
            self._transport.close()

    def pause(self) -> None:
        if self._transport is not None and not self._transport.is_closing():
            self._transport.pause_reading()

    def resume(self) -> None:
        if self._transport is not None and not self._transport.is_closing():
            self._transport.resume_reading()


def why(error: Exception) -> str:
    """Returns what is wrong, in the system's words if there are any."""
    number = getattr(error, "errno", None) or 0
    return os.strerror(number) if number > 0 else str(error)
