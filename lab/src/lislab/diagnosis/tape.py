"""Records the traffic of a line: a capture of version 2, and a file with the times of its lines."""
import os
import time
from typing import List

from lislink.capture import LINE_BYTES
from ..model.files import Appended
from .events import Came, Closed, Restarted, Sees, Sent, TimerOver
from .log import time_text

#: The most bytes of one capture; what comes after them isn't written.
MOST = 100 << 20


class Tape:
    """A capture that is being written. If the disk is full, the line goes on without it."""

    def __init__(self, path: str) -> None:
        self.path, self._left = path, MOST
        self._files: List[Appended] = []
        try:
            for name in (path, path + ".times"):
                self._files.append(Appended(name, os.O_TRUNC))
        except OSError:
            self.close()
        self._line("capture 2", "")

    def sees(self) -> Sees:
        """What it does when something goes over the line."""
        return {
            Came: lambda came: self.bytes(">", came.data),
            Sent: lambda sent: self.bytes("<", sent.data),
            TimerOver: lambda _: self.event("T"),
            Restarted: lambda _: self.event("R"),
            Closed: lambda _: self.close(),
        }

    def bytes(self, mark: str, data: bytes) -> None:
        """Bytes of the analyzer (`>`) or of the computer (`<`)."""
        for start in range(0, len(data), LINE_BYTES):
            self.event(f"{mark} {data[start:start + LINE_BYTES].hex()}")

    def event(self, row: str) -> None:
        """A line of the capture."""
        self._line(row, time_text(time.time_ns()))

    def _line(self, row: str, at: str) -> None:
        self._left -= len(row) + len(at) + 2
        if not self._files or self._left < 0:
            return
        try:
            for file, text in zip(self._files, (row, at)):
                file.add(text.encode() + b"\n")
        except OSError:
            self.close()

    def close(self) -> None:
        """Closes the files."""
        files, self._files = self._files, []
        for file in files:
            try:
                file.close()
            except OSError:
                pass
