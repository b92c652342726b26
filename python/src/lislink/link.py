"""The link of LIS01-A2: scanner, sender and receiver. Each decision is made by the proved library.

Scanners, senders and receivers are context managers. Each belongs to the thread that made it, or to which it was given
by `hand_over`: a call from another thread raises WrongThread. A call that the library rejects raises LinkError with its
status.
"""
import ctypes
import threading
from typing import Any, Generic, Iterator, List, NamedTuple, NoReturn, Optional, Tuple, TypeVar

from . import _library
from ._checks import as_bytes, as_flag, as_number
from .codes import FrameFault, Kind, Note, Outcome, Phase, Readiness, Status

#: The standard's timers, in seconds.
REPLY, BUSY, CONTENTION, RECEIVER = 15, 10, 1, 30
#: The most bytes of a frame's text: with the usual limit, and with the long one.
FRAME_TEXT, LONG_FRAME_TEXT = 240, 63993
# The kind of a signal whose text doesn't fit into its struct; it is a FRAME here.
_LONG_FRAME = 5


class LinkError(Exception):
    """A call was rejected: its status and, if it has them, the text and the byte at fault, from 0."""

    def __init__(self, status: int, index: Optional[int] = None, place: Optional[int] = None) -> None:
        super().__init__(Status(status).name, *(one for one in (index, place) if one is not None))
        self.status, self.index, self.place = Status(status), index, place

    def __reduce__(self) -> "Tuple[Any, ...]":
        return type(self), (self.status, self.index, self.place)

    def __str__(self) -> str:
        told = {"index": self.index, "place": self.place if self.status is Status.FORBIDDEN else None}
        where = ", ".join(f"{name} {it}" for name, it in told.items() if it is not None)
        return f"{self.status.name}: {_library.words_of('status', self.status)}{f' ({where})' if where else ''}"


class WrongThread(RuntimeError):
    """A handle was used from another thread than the one that has it."""


class Signal(NamedTuple):
    """A signal of the line. Attributes that do not apply to its kind are 0, False or empty."""

    #: What it is.
    kind: Kind
    #: The number of a frame.
    number: int
    #: Whether a frame is the last of its message.
    last: bool
    #: What is wrong with a bad frame.
    fault: FrameFault
    #: Of FrameFault.FORBIDDEN: the byte's place in the text, from 0.
    place: int
    #: The text of a frame.
    text: bytes


class Step(NamedTuple):
    """What a byte or the timer meant to a receiver, and what is to be done: keep the text, then send the reply."""

    #: The byte to send; empty for none.
    reply: bytes
    #: The text that is complete; None for most steps.
    text: Optional[bytes]
    #: What it meant.
    note: Note
    #: The number of a frame, or the FrameFault of one that is bad; else 0.
    detail: int
    #: Of FrameFault.FORBIDDEN: the byte's place in the frame's text, from 0.
    place: int


#: Up to so many bytes are read without letting other threads go on.
_SHORT = 1 << 14
#: The reply of each byte, and the notes by their numbers: looked up for each step.
_REPLIES = (b"", *(bytes([byte]) for byte in range(1, 256)))
_NOTES = {note.value: note for note in Note}


def address(data: bytes) -> int:
    """The address of bytes. Keep them as long as it is used."""
    return ctypes.cast(ctypes.c_char_p(data), ctypes.c_void_p).value or 0


def frame_bytes(number: int, last: bool, text: bytes, *, frame_limit: int = FRAME_TEXT) -> bytes:
    """The bytes of a frame, STX to LF. Its text has at most `frame_limit` bytes, FRAME_TEXT or LONG_FRAME_TEXT."""
    number, last, text = as_number(number, 0, 255, "the frame's number"), as_flag(last, "last"), as_bytes(text)
    if frame_limit == LONG_FRAME_TEXT:
        return _long_frame_bytes(number, last, text)
    if frame_limit != FRAME_TEXT:
        raise LinkError(Status.BAD_NUMBER)
    out, place = _library.Bytes(), ctypes.c_size_t()
    status = _library.calls()["frame_write"](
        number, last, address(text), len(text), ctypes.byref(out), ctypes.byref(place)
    )
    if status:
        raise LinkError(status, None, place.value)
    return bytes(out.bytes[: out.len])


def _long_frame_bytes(number: int, last: bool, text: bytes) -> bytes:
    out, size, place = ctypes.create_string_buffer(len(text) + 7), ctypes.c_size_t(), ctypes.c_size_t()
    status = _library.calls()["long_frame_write"](
        number, last, address(text), len(text), out, len(out), ctypes.byref(size), ctypes.byref(place)
    )
    if status:
        raise LinkError(status, None, place.value)
    return out.raw[: size.value]


class _Copied(threading.local):
    """The room into which the library copies short texts: one for each thread, since it is read at once."""

    def __init__(self) -> None:
        self.room = ctypes.create_string_buffer(1 << 10)


_COPIED = _Copied()
Itself = TypeVar("Itself", bound="Owner")
# Held while a thread takes an object that was given away.
_TAKING = threading.Lock()


class Owner:
    """The owner of a block of memory, which is released by `close`, at the end of `with`, or with the object. It can't
    be copied or pickled: the block has one owner."""

    _kind = ""

    def __init__(self) -> None:
        self._calls, self._long_calls = _library.calls_of(self._kind)
        calls = self._calls
        size, align = calls["size"](), calls["align"]()
        self._thread: Optional[int] = threading.get_ident()
        self._block = ctypes.create_string_buffer(size + align)
        start = ctypes.addressof(self._block)
        self._handle: Optional[_library.Handle] = _library.Handle(start + -start % align)
        self._pointer = ctypes.byref(self._handle)
        calls["init"](self._handle.at)
        # The bytes of a piece that a loop left unread: they are read before those of the next piece.
        self._piece, self._at = b"", 0

    def _owned(self) -> None:
        """The object is open, and this thread has it from now on."""
        if self._handle is None:
            raise ValueError(f"the {self._kind} is closed")
        if self._thread != threading.get_ident():
            self._take()

    def _take(self) -> None:
        """This thread takes the object, if it was given away."""
        with _TAKING:
            if self._thread is not None:
                raise WrongThread(f"this {self._kind} belongs to another thread")
            self._thread = threading.get_ident()

    def hand_over(self) -> None:
        """Gives the object to another thread: the first one that calls it has it from then on."""
        self._owned()
        self._thread = None

    def __reduce_ex__(self, _: object) -> NoReturn:
        raise TypeError(f"a {self._kind} can't be copied")

    def _call(self, name: str, *words: Any) -> Any:
        if self._handle is None or self._thread != threading.get_ident():
            self._owned()
        return self._calls[name](self._pointer, *words)

    def _read(self, name: str, *words: Any) -> int:
        """Has a call of the library read bytes that are left; returns how many it read."""
        if self._handle is None or self._thread != threading.get_ident():
            self._owned()
        piece, at = self._piece, self._at
        size = len(piece) - at
        call = self._calls[name] if size <= _SHORT else self._long_calls[name]
        count: int = call(self._pointer, address(piece) + at if at else piece, size, *words)
        self._at = at + count
        return count

    def _set_limit(self, limit: int) -> None:
        """Sets how long a frame's text may be. An object that can't have that limit is closed."""
        if limit == FRAME_TEXT:
            return
        try:
            status = self._call("set_limit", as_number(limit, 0, (1 << 64) - 1, "the frame limit"))
            if status:
                raise LinkError(status)
        except BaseException:
            self.close()
            raise

    def _text(self) -> bytes:
        """The text that is there to be copied, after the call that completed it."""
        size: int = self._calls["text_len"](self._pointer)
        room = _COPIED.room if size <= len(_COPIED.room) else ctypes.create_string_buffer(size)
        status: int = self._calls["text"](self._pointer, room, size)
        if status:
            raise LinkError(status)
        return memoryview(room)[:size].tobytes()

    def _add(self, data: bytes) -> int:
        """Puts a piece after what is left; returns how many bytes were left before it."""
        data = data if type(data) is bytes else as_bytes(data)
        left = len(self._piece) - self._at
        if self._handle is None or self._thread != threading.get_ident():
            self._owned()
        self._piece, self._at = (self._piece[self._at :] + data if left else data), 0
        return left

    @property
    def waiting(self) -> int:
        """How many of the bytes that were given are still unread, since a loop was left early."""
        return len(self._piece) - self._at

    def close(self) -> None:
        """Releases the block. No call can be made of an object that is closed."""
        if getattr(self, "_handle", None) is not None:
            self._owned()
        self._end()

    def _end(self) -> None:
        handle, self._handle = getattr(self, "_handle", None), None
        if handle is not None:
            self._calls["end"](handle)

    def __enter__(self: Itself) -> Itself:
        return self

    def __exit__(self, *_: object) -> None:
        self.close()

    def __del__(self) -> None:
        self._end()  # nobody else has the object now, whatever thread collects it


class SendingEnd(Owner):
    """What a sender and a station share: a session of their own."""

    #: What a frame is written into that is too long for a struct; None if there are no such frames.
    _room: "Optional[ctypes.Array[ctypes.c_char]]" = None
    # Whether no session was started on its connection yet: that of a new object is taken for new.
    _is_new = True

    def connected(self) -> None:
        """Call it when a new connection was made; on a serial line, when you have waited longer than the other side
        takes to answer, and dropped what came. What goes on is restarted."""
        self._call("restart")
        self._is_new = True

    @property
    def needs_new_line(self) -> bool:
        """Whether a late reply could meet the next ENQ, that of a start or the one after a wait. A start raises
        LinkError OLD_LINE then, until `connected` is called. Over a line that answers late, connect a station again
        before ENQ goes out again after a wait, too."""
        return not self._is_new and self.outcome not in (Outcome.DONE, Outcome.SIX_TRIES)

    def _set_room(self, frame_limit: int) -> None:
        if frame_limit == LONG_FRAME_TEXT:
            self._room = ctypes.create_string_buffer(LONG_FRAME_TEXT + 7)

    def _put_text(self, text: bytes, index: Optional[int] = None) -> None:
        """Adds a copy of a text to the next session."""
        text = as_bytes(text)
        status = self._call("add_text", address(text), len(text))
        if status == Status.FORBIDDEN:
            place = ctypes.c_size_t()
            _library.calls()["text_check"](address(text), len(text), ctypes.byref(place))
            raise LinkError(status, index, place.value)
        if status:
            raise LinkError(status)

    def _started(self, is_quiet: bool) -> bytes:
        """Starts a session with the texts that were added; returns ENQ, to be sent."""
        if not as_flag(is_quiet, "is_quiet") and self.phase is Phase.NEUTRAL and self.needs_new_line:
            raise LinkError(Status.OLD_LINE)
        out, fault = _library.Bytes(), _library.Place()
        status = self._call("start", ctypes.byref(out), ctypes.byref(fault))
        if status:
            raise LinkError(status, fault.index, fault.place)
        self._is_new = False
        return bytes(out.bytes[: out.len])

    def _long_frame(self) -> bytes:
        """The frame that the last reply asked for, if it is too long for a struct."""
        size = ctypes.c_size_t()
        if self._room is None or self._call("frame", self._room, len(self._room), ctypes.byref(size)):
            return b""
        return self._room.raw[: size.value]

    @property
    def phase(self) -> Phase:
        """What the session waits for; NEUTRAL if none goes on."""
        return Phase(self._call("phase"))

    @property
    def outcome(self) -> Outcome:
        """How the last session ended."""
        return Outcome(self._call("outcome"))

    @property
    def acknowledged(self) -> int:
        """How many frames of the session are acknowledged."""
        return int(self._call("acknowledged"))


Meaning = TypeVar("Meaning")


class ReceivingEnd(Owner, Generic[Meaning]):
    """What a receiver and a station share: the other side's sessions."""

    def hear(self, data: bytes) -> Iterator[Meaning]:
        """What further bytes mean, of those that mean something, in order. Bytes that a loop leaves unheard are heard
        by the next call."""
        return (one for _, one in self.hear_placed(data))

    def hear_all(self, data: bytes) -> List[Meaning]:
        """As `hear`, at once, also without a loop. Use it where nothing has to be kept between two steps."""
        return list(self.hear(data))

    def hear_placed(self, data: bytes) -> Iterator[Tuple[int, Meaning]]:
        """As `hear`, each step with the place in `data` of the byte that it is about; below 0 for bytes of an
        earlier piece."""
        left = self._add(data)
        return self._heard(left)

    def _heard(self, left: int) -> Iterator[Tuple[int, Meaning]]:
        raise NotImplementedError

    def reserve(self, count: int) -> None:
        """Makes room for so many more bytes of text, and as much for the text after it: so once no text is longer, none
        takes memory of the library."""
        status = self._call("reserve", as_number(count, 0, (1 << 64) - 1, "the count"))
        if status:
            raise LinkError(status)

    def set_careful(self, careful: bool) -> None:
        """Says whether it hears carefully from now on: then one damaged byte of a frame acknowledges nothing.

        An ENQ on an open line, also one that was a byte of a frame, ends the session with no reply: Note.ENDED. An
        analyzer that starts again without EOT is answered at its next ENQ. An STX inside an unfinished frame begins
        none, and that frame is answered NAK."""
        self._call("set_careful", as_flag(careful, "careful"))

    @property
    def noise(self) -> int:
        """How many of these ENQ and STX it has heard carefully."""
        return int(self._call("noise"))

    @property
    def is_open(self) -> bool:
        """Whether the other side has the line, and the receiver's timer runs."""
        return bool(self._call("is_open"))

    @property
    def accepted(self) -> int:
        """How many frames were accepted since the other side got the line."""
        return int(self._call("accepted"))

    @property
    def held(self) -> int:
        """How many bytes are held of a text that isn't complete."""
        return int(self._call("held"))


class Scanner(Owner):
    """Reads link bytes in pieces. A frame's text has at most `frame_limit` bytes, FRAME_TEXT or LONG_FRAME_TEXT."""

    _kind = "scanner"

    def __init__(self, *, frame_limit: int = FRAME_TEXT) -> None:
        super().__init__()
        self._set_limit(frame_limit)

    def feed(self, data: bytes) -> Iterator[Signal]:
        """The signals that these bytes complete, in order. Bytes that a loop leaves unread are read by the next
        call."""
        return (signal for _, signal in self.feed_placed(data))

    def feed_placed(self, data: bytes) -> Iterator[Tuple[int, Signal]]:
        """As `feed`, each signal with the place in `data` of the byte that completes it; below 0 for bytes of an
        earlier piece."""
        left = self._add(data)
        return self._signals(left)

    def _signals(self, left: int) -> Iterator[Tuple[int, Signal]]:
        out = _library.SignalOut()
        while self._at < len(self._piece):
            self._read("feed", ctypes.byref(out))
            if out.kind:
                is_long = out.kind == _LONG_FRAME
                yield self._at - 1 - left, Signal(
                    Kind.FRAME if is_long else Kind(out.kind),
                    out.number,
                    out.last,
                    FrameFault(out.fault),
                    out.place,
                    self._text() if is_long else bytes(out.text[: out.len]),
                )


class Sender(SendingEnd):
    """The sending end. `start`, `reply` and `timer` return the bytes to send. It is for one connection, or for several
    if `connected` says so.

    A frame's text has at most `frame_limit` bytes, FRAME_TEXT or LONG_FRAME_TEXT, which needs a thread with a stack of
    a megabyte."""

    _kind = "sender"

    def __init__(self, *, frame_limit: int = FRAME_TEXT) -> None:
        super().__init__()
        self._set_limit(frame_limit)
        self._set_room(frame_limit)

    def add_text(self, text: bytes) -> None:
        """Adds a copy of a text to the next session.

        LinkError, and the sender is as before: TOO_LONG, FULL, OUT_OF_MEMORY; FORBIDDEN with the byte."""
        self._put_text(text)

    def clear(self) -> None:
        """Drops the texts of the next session."""
        self._call("clear")

    def start(self, *, is_quiet: bool = False) -> bytes:
        """Starts a session with the texts that were added; returns ENQ, to be sent.

        LinkError, and the texts stay: IN_SESSION, NO_TEXT; OLD_LINE after a session that timed out or was restarted,
        since a late reply may come, until `connected` is called, or `is_quiet` says that you waited until none can be
        on its way."""
        return self._started(is_quiet)

    def reply(self, byte: int) -> bytes:
        """A reply byte came: what is to be sent."""
        return self._sent("reply", as_number(byte, 0, 255, "the reply")) or self._long_frame()

    def timer(self) -> bytes:
        """The time of `seconds` is over: what is to be sent."""
        return self._sent("timer")

    def restart(self) -> None:
        """Gives up the session that goes on."""
        self._call("restart")

    def _sent(self, name: str, *words: int) -> bytes:
        out = _library.Bytes()
        self._call(name, *words, ctypes.byref(out))
        return bytes(out.bytes[: out.len])

    @property
    def seconds(self) -> Optional[int]:
        """After how many seconds `timer` is due, if no reply comes; None if no session goes on."""
        seconds = ctypes.c_uint32()
        return seconds.value if self._call("timer_seconds", ctypes.byref(seconds)) else None


class Receiver(ReceivingEnd[Step]):
    """The receiving end. Keep a step's text first, then send its reply. If you can't keep it, call `restart` and
    send nothing.

    A frame's text has at most `frame_limit` bytes, FRAME_TEXT or LONG_FRAME_TEXT. With `careful` it hears carefully, as
    `set_careful` says."""

    _kind = "receiver"

    def set_text_limit(self, count: int) -> None:
        """Sets how many bytes a text may have, at most 1,048,576 as it is at first. A frame with which its text would
        have more is answered NAK and not taken: Note.TOO_LONG. LinkError TOO_LONG for more."""
        status = self._call("set_text_limit", as_number(count, 0, (1 << 64) - 1, "the count"))
        if status:
            raise LinkError(status)

    def __init__(self, *, frame_limit: int = FRAME_TEXT, careful: bool = False) -> None:
        super().__init__()
        self._set_limit(frame_limit)
        self.set_careful(careful)

    def _heard(self, left: int) -> Iterator[Tuple[int, Step]]:
        out = _library.StepOut()
        told = ctypes.byref(out)
        while self._at < len(self._piece):
            self._read("hear", told)
            if out.note:
                yield self._at - 1 - left, self._told(out)

    def timer(self) -> Step:
        """The receiver's timer ran out: 30 seconds (RECEIVER) after the last step."""
        out = _library.StepOut()
        self._call("timer", ctypes.byref(out))
        return self._told(out)

    def restart(self) -> None:
        """Ends what is open: the line is closed, and what is held is dropped. Nothing is sent."""
        self._call("restart")

    def set_room(self, room: bool) -> None:
        """Says whether there is room for another frame from now on; without it a new frame is answered NAK."""
        self._call("set_room", as_flag(room, "room"))

    def set_ready(self, readiness: Readiness) -> None:
        """Says how ENQ is answered from now on."""
        if isinstance(readiness, bool):
            raise TypeError("a Readiness is needed, not bool")
        self._call("set_ready", Readiness(readiness))

    def _told(self, out: _library.StepOut) -> Step:
        text = self._text() if out.has_text else None
        return Step(_REPLIES[out.reply], text, _NOTES[out.note], out.detail, out.place)
