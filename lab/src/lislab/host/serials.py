"""The serial lines of a host: opens each device as long as a line needs it, and knows whether all are open."""
import asyncio
import time
from typing import Dict, Optional, Sequence, Set

from ..model.options import OptionError, Serial
from ..model.said import announce
from .asked import Hub
from .tasks import Tasks
from .tty import SerialWire, Unusable, open_serial

#: How often a device that is gone is looked for, in seconds.
REOPEN = 1.0


class Serials:
    """The devices that are served, each by a task."""

    def __init__(self, host: Hub, tasks: Tasks) -> None:
        self._host, self._tasks = host, tasks
        #: What serves each device.
        self.served: "Dict[str, asyncio.Task[None]]" = {}
        #: The lines whose devices can't be set as asked, and whether the host has announced that it is ready.
        self._unusable: Set[Serial] = set()
        self._ready: Optional[bool] = None

    def begin(self, serial: Serial, wire: Optional[SerialWire] = None) -> None:
        """Serves a device as long as it is asked for, after the line that had it before."""
        before = self.served.get(serial.device)
        self.served[serial.device] = self._tasks.begin(self.serve(serial, wire, before))

    def open_all(self, serials: Sequence[Serial]) -> None:
        """Opens the devices of a host that starts, as far as they are there."""
        for serial in serials:
            self.begin(serial, self._open(serial))

    def say_started(self) -> None:
        """The host has started: it is ready as soon as no device is unusable."""
        self._ready = False
        self._say_ready()

    def _say_ready(self) -> None:
        """Says once that all lines can be heard. It waits for no device that isn't there."""
        if self._ready is False and not self._unusable and not self._host.stopping:
            self._ready = True
            announce("ready")

    def _open(self, serial: Serial) -> Optional[SerialWire]:
        """The wire of a serial line. If its device can't be opened, the host logs that once."""
        host = self._host
        try:
            late = host.limits.reply * host.limits.scale
            wire = SerialWire(open_serial(serial), lambda: host.ticks.before, late)
        except (OSError, OptionError) as error:
            if isinstance(error, Unusable):
                self._unusable.add(serial)
            host.said.say(serial.name, str(error))
            return None
        self._is_had(serial)
        return wire

    def _is_had(self, serial: Serial) -> None:
        """A device can be had, or isn't asked for any more."""
        self._host.said.forget(serial.name)
        self._unusable.discard(serial)
        self._say_ready()

    async def serve(
        self, serial: Serial, wire: Optional[SerialWire] = None, before: "Optional[asyncio.Task[None]]" = None
    ) -> None:
        """Serves a device as long as it is asked for, after the task that served it before."""
        if before is not None:
            await asyncio.wait([before])
        host = self._host
        while not host.stopping and serial in host.asked.serials:
            wire = wire or self._open(serial)
            if wire is None:
                await asyncio.sleep(REOPEN)
                continue
            opened = time.monotonic()
            line = host.add(wire, serial, serial.device)
            wire.begin(line)
            await asyncio.wait([host.lines[line]])
            wire = None
            if time.monotonic() < opened + REOPEN:  # a device that opens and is gone at once
                await asyncio.sleep(REOPEN)
        self._is_had(serial)
