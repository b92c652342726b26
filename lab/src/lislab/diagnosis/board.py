"""The board of a running host: the pulse of each line as data, and pieces of a line's ring, for `lislab watch`."""
import json
import time
from typing import Any, Callable, Dict, Iterable, List, Mapping, Optional

from ..model.book import Failed
from ..model.options import Connect, Place, no_line
from ..model.said import many
from ..model.unix import Door
from .events import Sees
from .pulse import Probe, Pulse, Says


class Board:
    """The pulses of a host's lines, by the lines' names. `scale` multiplies the timers, as in the host."""

    def __init__(self, scale: float) -> None:
        self._scale, self._begun = scale, time.time()
        self._pulses: Dict[str, Pulse] = {}
        self._failed: Dict[str, Failed] = {}
        self._door: Optional[Door] = None

    def observers(self, place: Place, is_careful: bool, say: Callable[[str, str], None]) -> List[Sees]:
        """What sees a connection of a line, and logs what is wrong on it."""
        pulse = self._pulse(place)
        pulse.frame = place.frame
        probe = Probe(pulse, is_careful, say)
        return [probe.watch.sees(), probe.sees()]

    def _pulse(self, place: Place) -> Pulse:
        if place.name not in self._pulses:
            one = self._pulses[place.name] = Pulse(place.frame, self._scale)
            one.begun = self._begun  # also if nobody looked so far
            one.take_failed(self._failed.get(place.name))
        return self._pulses[place.name]

    def take_failed(self, failed: Dict[str, Failed]) -> None:
        """Which orders have failed, by their lines."""
        self._failed = failed
        for name, one in self._pulses.items():
            one.take_failed(failed.get(name))

    def data(self, places: Iterable[Place], unusable: Mapping[str, str], state: Dict[str, Any]) -> Dict[str, Any]:
        """How the lines do that are asked for or connected, with the host's state."""
        asked = {place.name: self._pulse(place) for place in places}
        called = {place.name for place in places if isinstance(place, Connect)}
        self._pulses = {name: one for name, one in self._pulses.items() if name in asked or one.probes}
        lines = {}
        for name, one in sorted(self._pulses.items()):
            found = one.says(unusable.get(name, ""), name in called)
            unknown = sum(state["unknown_codes"].get(name, {}).values())
            if unknown:
                more = f"{many(unknown, 'result')} with a code that its code mapping lacks"
                found = found._replace(text=f"{found.text}; {more}")
            lines[name] = self._line(found, one, state["lines"].get(name, {}))
        return {**state, "scale": self._scale, "lines": lines}

    @staticmethod
    def _line(found: Says, one: Pulse, counts: Dict[str, Any]) -> Dict[str, Any]:
        return {
            **counts,
            "state": found.state,
            "verdict": found.verdict.key,
            "since": found.since,
            "says": found.text,
            "advice": found.advice,
            "connected": len(one.probes),
            "last": one.last,
            "ended": dict(one.messages),
            "causes": dict(one.rejected),
            "replies": one.replies,
            "reply_seconds": round(one.reply_seconds, 6),
            "frame": one.frame,
            "past": list(one.past),
        }

    async def open(self, path: str, look: Callable[[], Dict[str, Any]]) -> None:
        """Opens a socket for those who may look: at all lines, or at the pieces of one. OSError if there can be no
        socket."""

        def answer(asked: Dict[str, Any]) -> bytes:
            if asked.get("ask") == "lines":
                return json.dumps(look()).encode() + b"\n"
            name = str(asked.get("line"))
            if name not in self._pulses:
                look()  # a line that nobody connected to, and nobody asked for, is known then
            one = self._pulses.get(name)
            if asked.get("ask") != "ring" or one is None:
                return json.dumps({"error": no_line(name, self._pulses)}).encode() + b"\n"
            first, held = one.ring.after(int(asked.get("after", 0)))
            head = {"first": first, "next": one.ring.next, "frame": one.frame, "size": len(held), "at": time.time()}
            return json.dumps(head).encode() + b"\n" + held

        door = Door(path, answer)
        await door.open()
        self._door = door

    async def close(self) -> None:
        """Closes the socket: nobody looks any more."""
        if self._door is not None:
            await self._door.close()
