"""A link that isn't LIS01: blocks of records between STX and ETX, without number and checksum, with or without ENQ. The
setting `link=plain` chooses it. This receiver is tested, not proved, and it can't detect damage."""
from typing import Any, Iterator, Tuple

from lislink.codes import Note
from lislink.link import Step
from .line import Ear, Line, Parts

_STX, _ETX, _EOT, _ENQ = 2, 3, 4, 5
_ACK, _NAK = b"\x06", b"\x15"
#: The most bytes of a block.
MOST = 1 << 20


class PlainReceiver:
    """Receives blocks. It acknowledges ENQ and each block, and EOT ends a session."""

    def __init__(self) -> None:
        self.is_open, self._block, self._is_within, self._most = False, bytearray(), False, MOST
        #: It counts no noise.
        self.noise = 0

    @property
    def held(self) -> int:
        """How many bytes are held of a block that isn't complete."""
        return len(self._block)

    def set_room(self, room: bool) -> None:
        """Sets whether there is room for more of a block. Without room, a block is too long and is rejected."""
        self._most = MOST if room else 0

    def hear_placed(self, data: bytes) -> Iterator[Tuple[int, Step]]:
        """Yields the steps that bytes cause, each with the place of its byte."""
        for place, byte in enumerate(data):
            for step in self._byte(byte):
                yield place, step

    def _byte(self, byte: int) -> Iterator[Step]:
        if byte == _ENQ or (byte == _STX and not self.is_open):
            self.is_open = True
            yield Step(_ACK if byte == _ENQ else b"", None, Note.OPENED, 0, 0)
        elif byte == _EOT and self.is_open:
            self.is_open = False
            yield Step(b"", None, Note.ENDED, 0, 0)
        elif byte == _ETX and self._is_within:
            is_long, text = len(self._block) > self._most, bytes(self._block)
            note = Note.TEXT_TOO_LONG if is_long else Note.ACCEPTED
            yield Step(_NAK if is_long else _ACK, None if is_long else text, note, 0, 0)
        elif byte not in (_STX, _ETX, _EOT) and self._is_within:
            self._block += bytes([byte]) if len(self._block) <= self._most else b""
            return
        self._is_within = byte == _STX
        self._block.clear()

    def timer(self) -> Step:
        """Ends the session, because no block came for 30 seconds."""
        self.restart()
        return Step(b"", None, Note.TIMED_OUT, 0, 0)

    def restart(self) -> None:
        """Ends the session, and drops what is held of a block."""
        self.is_open = self._is_within = False
        self._block.clear()

    def close(self) -> None:
        """Releases nothing, because it has only memory of Python."""


class PlainLine(Line):
    """A line with such a link. If the same block comes twice in a row within a message, nothing tells whether it is a
    repeat. The host stores such a message as invalid, and doesn't deliver it."""

    def __init__(self, parts: Parts) -> None:
        super().__init__(parts)
        self._last = b""

    def _begin(self, parts: Parts) -> Ear:
        receiver = PlainReceiver()
        self._receiver: Any = receiver
        return receiver

    async def _keep(self, text: bytes) -> bool:
        intake = self.keeper.intake
        if text and text == self._last and intake.goes_on:
            intake.spoil("a block came twice in a row, and may be a repeat")
        self._last = text
        return await super()._keep(text)
