"""The settings of a host, and what its parts need from it."""
import asyncio
from typing import Callable, Dict, Iterable, List, Mapping, NamedTuple, Optional, Protocol, Sequence

from ..diagnosis.notices import Notices
from ..model.codes import Codes
from ..model.options import Connect, Limits, Listen, Network, Place, Serial
from ..model.said import say
from .line import Line
from .outbox import Outbox
from .wires import Ticks, Wire


class Asked(NamedTuple):
    """What a host is to do."""

    listens: Sequence[Listen]
    serials: Sequence[Serial]
    networks: Sequence[Network]
    limits: Limits
    capture: Optional[str]
    status: Optional[str]
    name: str = ""
    #: What makes the orders that are sent, if any line sends some.
    outbox: Optional[Callable[[Callable[[str], None]], Outbox]] = None
    connects: Sequence[Connect] = ()
    #: What reads the file of lines again, if there is one: the same with its lines. OptionError if it has faults.
    again: Optional[Callable[[], "Asked"]] = None
    #: The socket through which `lislab watch` looks.
    watch: Optional[str] = None
    #: The tables of codes, by the names of lines.
    tables: Mapping[str, Codes] = {}

    @property
    def places(self) -> List[Place]:
        """All lines."""
        return [*self.listens, *self.serials, *self.connects]


class SaidOnce:
    """The last logged reason for each device, address and file, so that the host logs a reason only once."""

    def __init__(self) -> None:
        self.texts: Dict[str, str] = {}

    def say(self, name: str, why: str) -> None:
        """Logs why something can't be used, unless this was the last reason logged for it."""
        if self.texts.get(name) != why:
            self.texts[name] = why
            say(f"{name}: {why}")

    def forget(self, name: str) -> None:
        """It can be had."""
        self.texts.pop(name, None)


class Room(Protocol):
    """Who has room for lines."""

    def has_room(self, name: str, peer: str) -> bool:
        """Whether an address may have another line of this name."""


class Hub(Protocol):
    """What ports, calls and serial lines need of their host."""

    asked: Asked
    limits: Limits
    notices: Notices
    ticks: Ticks
    said: SaidOnce
    #: The lines that are connected, with their tasks.
    lines: "Dict[Line, asyncio.Task[None]]"
    #: Whether it takes no new line; how many connections were refused.
    stopping: bool
    refused: int

    @property
    def room(self) -> Room:
        """Who has room for lines."""

    def add(self, wire: Wire, place: Place, peer: str) -> Line:
        """A line that is connected, heard from now on."""


def warn(places: Iterable[Place]) -> None:
    """Warns of lines whose link isn't the proved one, or on which a late reply could be mistaken for another."""
    for place in places:
        if place.link:
            what = "no number and no checksum, so damage isn't noticed; and a receiver that isn't proved"
            say(f"{place.name}: link={place.link} has {what}")
        if place.orders and not isinstance(place, Serial) and not place.waits:
            say(f"note: {place.name}: without waits=new-line, a late reply could be mistaken for the next ENQ's reply")
