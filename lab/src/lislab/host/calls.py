"""The lines that a host connects by itself."""
import asyncio
import contextlib
import time
from typing import Dict, Optional, Tuple

from ..model.options import Connect
from .asked import Hub
from .line import Line
from .tasks import Tasks
from .wires import TcpWire, why

#: Seconds until the host connects to an address again, at first and at most; seconds that it waits for a connection.
FIRST, MOST, ANSWER = 1.0, 60.0, 10.0


def asks_for(host: Hub, place: Connect) -> bool:
    """Whether a line to this address is asked for."""
    return not host.stopping and place in host.asked.connects


class Call:
    """An address that the host connects to by itself: no limit and no network is about it."""

    def __init__(self, host: Hub, place: Connect) -> None:
        self._host, self.place = host, place
        self.line: Optional[Line] = None

    def begin(self, wire: TcpWire, peer: str) -> Optional[Line]:
        """Begins its line, if that is still asked for."""
        if asks_for(self._host, self.place):
            self.line = self._host.add(wire, self.place, peer)
        return self.line


class Calls:
    """The addresses that are connected to, each by a task."""

    def __init__(self, host: Hub, tasks: Tasks) -> None:
        self._host, self._tasks = host, tasks
        #: What serves each address.
        self._served: "Dict[Tuple[str, int], asyncio.Task[None]]" = {}
        #: Set for a moment when the file of lines was read again.
        self._changed = asyncio.Event()

    def begin(self, place: Connect) -> None:
        """Connects to an address as long as it is asked for, after the line that had it before."""
        before = self._served.get(place[:2])
        self._served[place[:2]] = self._tasks.begin(self.serve(place, before))

    def wake(self) -> None:
        """The file of lines was read again: whoever waits goes on."""
        self._changed.set()
        self._changed.clear()

    async def serve(self, place: Connect, before: "Optional[asyncio.Task[None]]" = None) -> None:
        """Connects to an address as long as it is asked for, after the task that served it before."""
        if before is not None:
            await asyncio.wait([before])
        host, pause, scale = self._host, FIRST, self._host.limits.scale
        while asks_for(host, place):
            line = await self._connect(place)
            begun = time.monotonic()
            if line in host.lines:
                await asyncio.wait([host.lines[line]])
            if line is not None and (line.had_session or time.monotonic() >= begun + FIRST * scale):
                pause = FIRST
            await self._pause((pause if asks_for(host, place) else FIRST) * scale)
            pause = min(2 * pause, MOST)
        host.said.forget(place.name)

    async def _connect(self, place: Connect) -> Optional[Line]:
        """The line to an address, connected. If it can't be reached, the host logs that once."""
        host = self._host
        call = Call(host, place)
        loop, seconds, reason = asyncio.get_running_loop(), ANSWER * host.limits.scale, ""
        try:
            made = loop.create_connection(lambda: TcpWire(call, host.ticks), place.host, place.port)
            await asyncio.wait_for(made, seconds)
        except (OSError, ValueError, asyncio.TimeoutError) as error:
            reason = why(error) or "no answer"
        if call.line is None and reason:
            host.said.say(place.name, f"{place.host}:{place.port}: {reason}")
        elif call.line is not None:
            host.said.forget(place.name)
        return call.line

    async def _pause(self, seconds: float) -> None:
        """Waits so long, or until the file of lines was read again."""
        with contextlib.suppress(asyncio.TimeoutError):
            await asyncio.wait_for(self._changed.wait(), seconds)
