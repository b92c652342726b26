"""LF in the texts of frames, which LIS01-A2 forbids (6.3) since LF ends a frame: of a line that fixes it the receiver
hears each such frame with another byte in its place.

Where such a frame ends is decided here, by code that is tested and not proved: at LF after ETX or ETB, two bytes and
CR. Whether it is taken is decided by the proved receiver: the digits of its checksum are changed by as much as its
bytes, so the receiver accepts the frame exactly if the original is right. The host stores the original."""
import re
from typing import Iterator, NamedTuple, Optional, Tuple

from lislink.codes import Note, Role
from lislink.link import Receiver, Step
from lislink.station import Answer, Station

_STX, _LF, _VT = b"\x02", b"\n", b"\x0b"
#: What ends a frame, and what breaks one off.
_END, _BREAKS = re.compile(rb"[\x03\x17][^\n]{2}\r\n"), re.compile(rb"[\x02\x04\x05]")
_ENDS = re.compile(rb"[\x04\x05]")
#: The bytes of a frame besides its text, and what drops a text.
_AROUND = 7
_DROPS = (Note.OPENED, Note.NOT_READY, Note.ENDED, Note.TIMED_OUT)


class Heard(NamedTuple):
    """Bytes for the receiver, as many as came; the place of the first one among those that came last, less than 0 for
    earlier ones; and the text of the frame that they are, as it came."""

    data: bytes
    start: int = 0
    text: Optional[bytes] = None


class LineFeeds:
    """A line whose frames may hold LF. A frame is heard when all of it has come. STX breaks a frame off, unless it is
    heard carefully: then the frame has it in it, and is rejected."""

    def __init__(self, limit: int, is_careful: bool = False) -> None:
        self._most, self._breaks = limit + _AROUND, _ENDS if is_careful else _BREAKS
        #: The frame that goes on, and the texts so far of one text.
        self._frame, self._texts = bytearray(), bytearray()

    def take(self, data: bytes) -> Iterator[Heard]:
        """What the receiver hears of these bytes."""
        at = 0
        while at < len(data):
            if not self._frame:
                start = data.find(_STX, at)
                start = len(data) if start < 0 else start
                if start > at:
                    yield Heard(data[at:start], at)
                self._frame += data[start : start + 1]
                at = start + 1
            else:
                found = self._breaks.search(data, at)
                end = data.find(_LF, at) + 1 or len(data)
                end = min(end, found.start()) if found else end
                self._frame += data[at:end]
                at = end
                if _END.fullmatch(self._frame[-5:]):
                    yield self._over(_without_lf(bytes(self._frame)), at, bytes(self._frame[2:-5]))
                elif found and end == found.start() or len(self._frame) > self._most:
                    # It is broken off, or too long. Its sender has given it up, or will: there is no reply to it.
                    yield self._over(bytes(len(self._frame)), at)

    def _over(self, data: bytes, at: int, text: Optional[bytes] = None) -> Heard:
        self._frame.clear()
        return Heard(data, at - len(data), text)

    def restored(self, heard: Heard, step: Step) -> Step:
        """What a byte meant, with the text as it came."""
        if step.note is Note.ACCEPTED:
            self._texts += heard.text or b""
        if step.text is None:
            if step.note in _DROPS:
                self._texts.clear()
            return step
        text = bytes(self._texts)
        self._texts.clear()
        if len(text) != len(step.text):
            raise AssertionError("a text isn't as long as its frames")
        return step._replace(text=text)


def _without_lf(frame: bytes) -> bytes:
    """A frame with VT for each LF before its end, its checksum changed by as much."""
    body, end, digits = frame[:-5], frame[-5:-4], frame[-4:-2]
    count = body.count(_LF)
    if count and re.fullmatch(rb"[0-9A-Fa-f]{2}", digits):
        digits = b"%02X" % ((int(digits, 16) + count) % 256)
    return body.replace(_LF, _VT) + end + digits + frame[-2:]


class FeedsReceiver(Receiver):
    """A receiver of frames that may hold LF."""

    def __init__(self, *, frame_limit: int, careful: bool) -> None:
        super().__init__(frame_limit=frame_limit, careful=careful)
        self._feeds = LineFeeds(frame_limit, careful)

    def hear_placed(self, data: bytes) -> Iterator[Tuple[int, Step]]:
        """What these bytes mean, each step with its place in them."""
        for heard in self._feeds.take(data):
            for place, step in super().hear_placed(heard.data):
                yield place + heard.start, self._feeds.restored(heard, step)


class FeedsStation(Station):
    """A station that hears frames that may hold LF."""

    def __init__(self, role: Role, *, frame_limit: int, careful: bool) -> None:
        super().__init__(role, frame_limit=frame_limit, careful=careful)
        self._feeds = LineFeeds(frame_limit, careful)

    def hear_placed(self, data: bytes) -> Iterator[Tuple[int, Answer]]:
        """What these bytes mean, each answer with its place in them."""
        for heard in self._feeds.take(data):
            for place, answer in super().hear_placed(heard.data):
                step = answer.step and self._feeds.restored(heard, answer.step)
                yield place + heard.start, answer._replace(step=step)
