"""The counts of a host, and its state as a file for `lislab status`."""
import asyncio
import functools
import json
import time
from collections import Counter
from concurrent.futures import ThreadPoolExecutor
from typing import Any, Callable, Dict, Optional

from ..model.files import write_whole
from ..model.said import say
from .line import Line

#: How often the state is written, in seconds.
STATUS = 2.0


class Counts:
    """What was counted of each line since the host began, and when its last message was kept."""

    def __init__(self) -> None:
        self.begun = time.time()
        self._of: Dict[str, "Counter[str]"] = {}
        self._last: Dict[str, float] = {}

    def of(self, name: str) -> "Counter[str]":
        """The counts of a line."""
        return self._of.setdefault(name, Counter())

    def note_last(self, line: Line, name: str) -> None:
        """Notes when a line kept its last message."""
        if line.keeper.last is not None:
            self._last[name] = max(line.keeper.last, self._last.get(name, 0.0))

    def data(self, open_now: "Counter[str]") -> Dict[str, Any]:
        """All of them, with how many connections each line has now."""
        names = sorted(self._of.items())
        return {name: {"connected": open_now[name], "last": self._last.get(name), **counts} for name, counts in names}


class StateFile:
    """A file with the state of a host, if one is asked for. Its own thread writes it: a slow disk delays no line."""

    def __init__(self, path: Optional[str], look: Callable[[], Dict[str, Any]]) -> None:
        self._path, self._look, self._why = path, look, ""
        self._writer = ThreadPoolExecutor(1, "state")

    async def write(self) -> None:
        """Writes the state, and logs once if it can't."""
        if self._path is None:
            return
        work = functools.partial(write_state, self._path, self._look())
        why = await asyncio.get_running_loop().run_in_executor(self._writer, work)
        if why and not self._why:
            say(f"the status file can't be written: {why}")
        self._why = why

    def close(self) -> None:
        """Ends the thread."""
        self._writer.shutdown()


def write_state(path: str, state: Dict[str, Any]) -> str:
    """Writes the state so that a reader finds it whole; why, if it can't be written."""
    try:
        write_whole(path, json.dumps(state).encode() + b"\n")
        return ""
    except OSError as error:
        return str(error)
