"""Messages over MLLP: each is sent, and then its acknowledgement is waited for. What isn't acknowledged as accepted is
a failure: AE, AR, an answer that can't be read, silence."""
import contextlib
import socket
import ssl
import time
from typing import Callable, Optional, Set

from ..model.failures import Refused, Unreachable
from ..model.store import Stored
from ..model.unix import shown
from .ahead import Ahead
from .deliver import Target
from .oru import acknowledgement, messages_of

#: The bytes around a message; the most bytes of an answer; seconds for a connection.
_START, _END, _MOST, _CONNECT = b"\x0b", b"\x1c", 1 << 20, 20.0
_ACCEPTED, _REJECTED = ("AA", "CA"), ("AE", "AR", "CE", "CR")


class _Closed(Exception):
    """The receiver closed the connection, or never heard what was sent over it."""


class Mllp:
    """A receiver. The connection stays open from one message to the next."""

    def __init__(self, host: str, port: int, seconds: float, context: Optional[ssl.SSLContext] = None) -> None:
        self._host, self._port, self._seconds, self._context = host, port, seconds, context
        self._line: Optional[socket.socket] = None
        self._left = b""
        #: To which other message the last answer was.
        self._other = ""

    def deliver(self, data: bytes, key: str, meanwhile: Callable[[], None] = lambda: None) -> None:
        """Sends a message, does what there is to do meanwhile, and waits until the message is accepted; `Refused` if it
        isn't. If the connection is an earlier message's, the receiver may have closed it, or it died silently, as
        firewalls let it: the message is sent once more, over a new one."""
        fresh = self._line is None
        try:
            self._try(data, key, meanwhile)
        except _Closed as error:
            if fresh:
                raise Refused(f"{self._host}:{self._port}: {error}") from None
            try:
                self._try(data, key, lambda: None)
            except _Closed as again:
                raise Refused(f"{self._host}:{self._port}: {again}") from None

    def _try(self, data: bytes, key: str, meanwhile: Callable[[], None]) -> None:
        line = self._line or self._connected()
        until = time.monotonic() + self._seconds
        try:
            line.settimeout(self._seconds)
            line.sendall(_START + data + _END + b"\r")
            sent = time.monotonic()
            meanwhile()
            self._answered(line, key, until + time.monotonic() - sent)
        except socket.timeout:
            self.close()
            other = f": its last answer is to another message, {self._other}" if self._other else ""
            raise _Closed(f"no answer within {self._seconds:g} seconds{other}") from None
        except OSError as error:
            self.close()
            raise _Closed(f"the connection is lost: {error.strerror or error}") from None
        except _Closed:
            self.close()
            raise

    def _connected(self) -> socket.socket:
        try:
            line = socket.create_connection((self._host, self._port), _CONNECT)
            line.setsockopt(socket.IPPROTO_TCP, socket.TCP_NODELAY, 1)
            line.setsockopt(socket.SOL_SOCKET, socket.SO_KEEPALIVE, 1)
            if self._context is not None:
                line = self._context.wrap_socket(line, server_hostname=self._host)
        except (OSError, ValueError) as error:
            raise Unreachable(f"{self._host}:{self._port}: {getattr(error, 'strerror', None) or error}") from None
        self._line, self._left = line, b""
        return line

    def _answered(self, line: socket.socket, key: str, until: float) -> None:
        """Waits for the answer to the message with this key. One to another message is late, and not looked at."""
        self._other = ""
        while time.monotonic() < until:
            told = acknowledgement(self._block(line, until))
            if told is None:
                self.close()
                raise Refused(f"{self._host}:{self._port}: an answer that can't be read")
            code, control, error = told
            if control and key.startswith(control) and control != key:
                self.close()
                raise Refused(f"{self._host}:{self._port}: an answer with {len(control)} of the {len(key)} of MSH-10")
            if control != key:
                self._other = shown(control[:20]) or "without an id"
                continue
            if code in _ACCEPTED:
                return
            words = code if code in _REJECTED else "an answer without AA, AE or AR"
            raise Refused(f"{self._host}:{self._port}: {words}" + (f", error {error}" if error else ""))
        raise socket.timeout

    def _block(self, line: socket.socket, until: float) -> bytes:
        """The next block that comes, without the bytes around it."""
        while _END not in self._left:
            left = until - time.monotonic()
            if left <= 0:
                raise socket.timeout
            line.settimeout(left)
            data = line.recv(1 << 16)
            if not data:
                raise _Closed("the connection was closed without an answer")
            self._left += data
            if len(self._left) > _MOST:
                self.close()
                raise Refused(f"{self._host}:{self._port}: an answer that is too long")
        block, _, self._left = self._left.partition(_END)
        return block[block.rfind(_START) + 1 :]

    def close(self) -> None:
        """Closes the connection."""
        line, self._line, self._left = self._line, None, b""
        if line is not None:
            with contextlib.suppress(OSError):
                line.close()


def to_mllp(receiver: Mllp, ahead: Ahead) -> Target:
    """Sends each message to a receiver, that of each patient by itself. Of one that failed in part, what was accepted
    isn't sent again as long as this process runs."""
    accepted: Set[bytes] = set()

    def deliver(one: Stored) -> bool:
        found = messages_of(ahead.write(one))
        for data in found:
            if data not in accepted:
                receiver.deliver(data, data.split(b"|", 10)[9].decode(), ahead.look)
                accepted.add(data)
        accepted.clear()
        return bool(found)

    return deliver
