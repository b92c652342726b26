"""The ports that a host listens on, and how many lines those who connect may have."""
import asyncio
import functools
import os
import socket
from typing import Dict, List, Optional, Tuple

from ..diagnosis.notices import CONNECTION
from ..model.options import Listen, is_allowed
from ..model.said import announce
from .asked import Hub
from .line import Line
from .wires import TcpWire

#: The host accepts ACCEPTS connections before other lines have their turn. BACKLOG connections may wait for that.
ACCEPTS, BACKLOG = 4, 100


class Port:
    """A port on which the host listens, and the line of those who connect from now on."""

    server: asyncio.AbstractServer

    def __init__(self, host: Hub, place: Listen) -> None:
        self._host, self.place, self._is_closed = host, place, False

    def is_of(self, place: Listen) -> bool:
        """Returns whether a line uses this port. If the system chose the port's number, the line's name decides."""
        return self.place[:2] == place[:2] and (place.port > 0 or self.place.name == place.name)

    def begin(self, wire: TcpWire, peer: str) -> Optional[Line]:
        """Begins the line of an address that connected. Refused connections are counted."""
        host, place = self._host, self.place
        networks, is_over = [*host.asked.networks, *place.allow], host.stopping or self._is_closed
        is_known = is_allowed(peer, networks)
        if not is_known:
            host.notices.say(place.name, f"{peer}: a connection is refused: the address isn't allowed", CONNECTION)
        if is_over or not is_known or not host.room.has_room(place.name, peer):
            host.refused += 1
            return None
        return host.add(wire, place, peer)

    def close(self) -> None:
        """Stops listening. Connections that are open stay open."""
        self._is_closed = True
        self.server.close()


class LineRoom:
    """Limits the lines of those who connect, per address and altogether. If there are too many, the host closes the
    line that has been silent for the longest, among those that never had a session."""

    def __init__(self, host: Hub) -> None:
        self._host = host
        #: The address and the name of each.
        self._lines: Dict[Line, Tuple[str, str]] = {}

    def add(self, line: Line, peer: str, name: str) -> None:
        """Adds a line of this name, which is connected."""
        self._lines[line] = peer, name

    def remove(self, line: Line) -> None:
        """Removes a line that is closed, or is closed before it is heard again."""
        self._lines.pop(line, None)

    def has_room(self, name: str, peer: str) -> bool:
        """Returns whether an address may have another line of this name. Closes a line to make room, if it has to."""
        among, limits = [line for line, (other, _) in self._lines.items() if other == peer], self._host.limits
        if len(among) < limits.address:
            if len(self._lines) < limits.lines:
                return True
            among = list(self._lines)
        idle = [line for line in among if not line.had_session]
        if not idle:
            text = f"{peer}: a connection is refused, there are {len(among)} with a session"
            self._host.notices.say(name, text, CONNECTION)
            return False
        one = min(idle, key=lambda line: line.last_byte)
        its, its_name = self._lines.pop(one)
        text = f"{its}: a connection without a session gives way to one of {peer}"
        self._host.notices.say(its_name, text, CONNECTION)
        one.stop("for another connection")
        return True


class Ports:
    """The ports that are open."""

    def __init__(self, host: Hub) -> None:
        self._host = host
        self._open: List[Port] = []

    async def listen(self, place: Listen) -> None:
        """Opens a port. Raises OSError or ValueError if that fails."""
        host, port = self._host, Port(self._host, place)
        port.server = await asyncio.get_running_loop().create_server(
            functools.partial(TcpWire, port, host.ticks), place.host, place.port, backlog=ACCEPTS, reuse_address=True
        )
        self._open.append(port)
        for one in port.server.sockets or ():
            with socket.socket(fileno=os.dup(one.fileno())) as same:
                same.listen(BACKLOG)
            announce(f"listening {one.getsockname()[0]}:{one.getsockname()[1]} {place.name}")

    def change(self) -> List[Listen]:
        """Closes the ports that no line uses now, and gives the others their lines. Returns the lines without port."""
        listens = self._host.asked.listens
        new = list(listens)
        for port in list(self._open):
            found = next((place for place in listens if port.is_of(place)), None)
            if found is None:
                port.close()
                self._open.remove(port)
            else:
                port.place = found
                new = [place for place in new if not port.is_of(place)]
        return new

    def close(self) -> None:
        """Stops listening on all ports."""
        for port in self._open:
            port.close()
