"""Scripts: a capture as it is, or the readable form of docs/validate.md, read into steps. A script that is wrong names
its line."""
import bisect
import itertools
import re
from typing import Dict, Iterator, List, NamedTuple, Optional, Sequence, Tuple

from lislink.capture import CaptureError, read_capture
from .frames import ACK, ENQ, EOT, NAK, NAMES, STX, read_frame, units_of
from .wanted import ANY, AnyUnit, Exact, Framed, Frames, Unit, bytes_of, is_field

#: The most bytes and lines of a script, and the most bytes of a line.
BYTES, LINES, LINE = 16 << 20, 100_000, 200_000
#: The seconds that `T` waits: for a receiver's timer, and for a sender's.
RECEIVER, REPLY = 30.0, 15.0
_TOKEN = re.compile(
    rb"""[ \t]*(?:(?P<end>$|\#.*)|"(?P<record>(?:[^"]|"")*)"(?=[ \t]|$)|'(?P<piece>(?:[^']|'')*)'(?=[ \t]|$)"""
    rb"""|(?P<word>[^\s"'#]+)(?=[ \t]|$))""",
    re.S,
)
_HEX = re.compile(rb"(?:[0-9A-Fa-f]{2})+")
_TEXT = re.compile(rb"[\t\x20-\x7e\x80-\xff]*")
_FIRST = re.compile(rb"play 1( as computer)?[ \t]*")
_NOTHING = re.compile(rb"[ \t]*(?:#.*)?", re.S)


class ScriptError(Exception):
    """A script is wrong: its line, and why."""

    def __init__(self, line: int, why: str) -> None:
        super().__init__(f"line {line}: {why}")
        self.line = line


class Step(NamedTuple):
    """A step: its line, its mark, what is sent or wanted, for how long is waited, and when it was on the record."""

    line: int
    mark: str
    unit: Unit = Exact(b"")
    seconds: float = 0.0
    time: Optional[int] = None


class Script(NamedTuple):
    """The steps of a script, whether it is written for the computer's end, and the words that it begins with."""

    steps: List[Step]
    is_computer: bool
    about: List[str]


class _Numbers:
    """The numbers of the frames of one side: 1 after ENQ, the same again after NAK, and else the next."""

    def __init__(self) -> None:
        self.next = self.last = 1
        self.unit: Optional[Unit] = None
        self._asks = self._has_line = False

    def sent(self, unit: Unit) -> None:
        """A unit of this side. In its session any unit is a frame."""
        data = unit.data if isinstance(unit, Exact) else b""
        self._asks = data == bytes([ENQ])
        if data in (bytes([ENQ]), bytes([EOT])):
            self.next, self.unit, self._has_line = 1, None, False
        elif isinstance(unit, Framed):
            self.last, self.next, self.unit = unit.number, (unit.number + 1) % 8, unit
        elif data[:1] == bytes([STX]) or self._has_line and isinstance(unit, AnyUnit):
            self.last, self.next, self.unit = self.next, (self.next + 1) % 8, unit

    def replied(self, unit: Unit) -> None:
        """A unit of the other side."""
        data = unit.data if isinstance(unit, Exact) else b""
        if data == bytes([NAK]) and self.unit is not None:
            self.next = self.last
        self._has_line |= self._asks and data == bytes([ACK])
        self._asks = False


def _rows(data: bytes) -> Iterator[Tuple[int, bytes]]:
    """The lines of a script, without LF and a CR before it."""
    at, number = 0, 0
    while at < len(data):
        end = data.find(b"\n", at)
        end, number = (len(data) if end < 0 else end), number + 1
        if number > LINES:
            raise ScriptError(number, f"a script has at most {LINES:,} lines")
        if end - at > LINE:
            raise ScriptError(number, f"a line has at most {LINE:,} bytes")
        yield number, data[at : end - 1 if data[end - 1 : end] == b"\r" and end > at else end]
        at = end + 1


def read_script(data: bytes) -> Script:
    """Reads a script; ScriptError names the first line that is wrong."""
    if len(data) > BYTES:
        raise ScriptError(data.count(b"\n", 0, BYTES) + 1, f"a script has at most {BYTES:,} bytes")
    if data.startswith(b"\xef\xbb\xbfplay"):
        data = data[3:]  # the mark that editors of Windows put first
    first = data[:LINE].split(b"\n")[0].rstrip(b"\r")
    if not data.strip():
        raise ScriptError(1, "the script is empty")
    if not data.startswith(b"play"):
        return _of_capture(data)
    found = _FIRST.fullmatch(first)
    if not found:
        raise ScriptError(1, "the first line is 'play 1', or 'play 1 as computer'")
    return _Reader(bool(found[1])).read(data)


def _of_capture(data: bytes) -> Script:
    if data.count(b"\n") > LINES:
        raise ScriptError(LINES + 1, f"a script has at most {LINES:,} lines")
    try:
        capture = read_capture(data)
    except CaptureError as error:
        why = "the first line is 'play 1', or a line of a capture" if error.number == 1 else "no line of a capture"
        raise ScriptError(error.number, why) from None
    steps = []
    for (number, line), time in zip(capture.lines, capture.times):
        if line.mark in ("", "S"):
            continue
        seconds = RECEIVER if line.mark == "T" else 0.0
        steps.append(Step(number, line.mark, Exact(line.data), seconds, time))
    if not steps:
        raise ScriptError(max(1, data.count(b"\n")), "the capture has no step")
    return Script(steps, False, [])


class _Reader:
    """Reads the readable form."""

    def __init__(self, is_computer: bool) -> None:
        self._is_computer = is_computer
        self._sides: Dict[str, _Numbers] = {">": _Numbers(), "<": _Numbers()}
        self._number = 0

    def read(self, data: bytes) -> Script:
        """The script."""
        steps: List[Step] = []
        about: List[str] = []
        is_over = False
        for self._number, row in _rows(data):
            if self._number == 1:
                continue
            if _NOTHING.fullmatch(row):
                if not steps and row.strip():
                    about.append(row.strip()[1:].strip().decode("utf-8", "replace"))
            elif is_over:
                raise self._wrong("after 'end' there is no further step")
            elif row.split(b"#")[0].strip() == b"end":
                is_over = True
            else:
                steps.append(self._step(row))
        if not is_over:
            raise self._wrong("the script is cut: its last line is 'end'")
        if not steps:
            raise self._wrong("the script has no step")
        return Script(steps, self._is_computer, about)

    def _wrong(self, why: str) -> ScriptError:
        return ScriptError(self._number, why)

    def _step(self, row: bytes) -> Step:
        mark = row[:1].decode("latin-1")
        if mark not in "><TRCK" or row[1:2] not in (b"", b" ", b"\t"):
            raise self._wrong("a step begins with >, <, T, R, C or K, and a blank")
        tokens = list(self._tokens(row[1:]))
        if mark in "><":
            unit = self._unit(mark, tokens)
            self._sides[mark].sent(unit)
            self._sides["<" if mark == ">" else ">"].replied(unit)
            return Step(self._number, mark, unit)
        seconds = REPLY if self._is_computer else RECEIVER
        if mark == "T" and tokens:
            kind, word = tokens.pop(0)
            if kind != "word" or not re.fullmatch(rb"\d{1,4}(?:\.\d{1,3})?", word):
                raise self._wrong("T waits for a number of seconds, as T 15")
            seconds = float(word)
        if tokens:
            raise self._wrong(f"nothing follows {mark} but words after #")
        return Step(self._number, mark, Exact(b""), seconds if mark == "T" else 0.0)

    def _tokens(self, row: bytes) -> Iterator[Tuple[str, bytes]]:
        at = 0
        while True:
            found = _TOKEN.match(row, at)
            if not found:
                raise self._wrong("a quote is open, or no blank is between two words")
            kind = str(found.lastgroup)
            if kind == "end":
                return
            text = found[kind]
            if kind != "word":
                text = text.replace(b'""', b'"') if kind == "record" else text.replace(b"''", b"'")
                if not _TEXT.fullmatch(text):
                    raise self._wrong("a control byte is in a text: write it outside quotes, by its name or its digits")
            yield kind, text
            at = found.end()

    def _unit(self, mark: str, tokens: List[Tuple[str, bytes]]) -> Unit:
        if not tokens:
            raise self._wrong(f"after {mark} comes what is sent")
        kind, word = tokens[0]
        if kind == "record":
            return self._frame(mark, tokens)
        if (kind, word) == ("word", b"again"):
            last = self._sides[mark].unit
            if len(tokens) > 1:
                raise self._wrong("nothing follows 'again' but words after #")
            if last is None:
                raise self._wrong("there is no frame in this session that could come again")
            return last
        if kind == "word" and word in (ANY, b"frames"):
            given = self._options(tokens[1:], ("@order",))
            order = given.get("@order", [b""])[0]
            return AnyUnit(order) if word == ANY else Frames(order)
        data = b"".join(self._piece(*one) for one in tokens)
        if not data:
            raise self._wrong("no byte is sent")
        return Exact(data)

    def _piece(self, kind: str, word: bytes) -> bytes:
        if kind == "piece":
            return word
        if kind == "record":
            raise self._wrong("records in double quotes make a frame by themselves: for bytes take single quotes")
        name = word.decode("latin-1")
        if name in NAMES:
            return bytes([NAMES[name]])
        if _HEX.fullmatch(word):
            return bytes.fromhex(name)
        raise self._wrong(f"{name[:40]!a} is no control byte, no hexadecimal digits and no text in quotes")

    def _frame(self, mark: str, tokens: List[Tuple[str, bytes]]) -> Framed:
        records = []
        while tokens and tokens[0][0] == "record":
            records.append(tokens.pop(0)[1])
        is_last = not (tokens and tokens[0] == ("word", b"ETB"))
        given = self._options(tokens if is_last else tokens[1:], ("@number", "@sum", "@same-but"))
        number, total = self._sides[mark].next, given.get("@sum", [b""])[0]
        if "@number" in given:
            number = self._digit(given["@number"][0])
        if total and not re.fullmatch(rb"[\x21-\x7e]{2}", total):
            raise self._wrong("@sum has two characters, as @sum 00")
        but = tuple(one.decode("latin-1") for one in given.get("@same-but", []))
        for name in but:
            if not is_field(name):
                raise self._wrong(f"{name[:40]!a} is no field: a number, LETTER.NUMBER, a name of LIS02-A2, or DATE")
        text = b"\r".join(records) + (b"\r" if is_last else b"")
        return Framed(number, text, is_last, total, but)

    def _digit(self, word: bytes) -> int:
        if not re.fullmatch(rb"[0-7]", word):
            raise self._wrong("a frame's number is a digit from 0 to 7")
        return int(word)

    def _options(self, tokens: Sequence[Tuple[str, bytes]], known: Sequence[str]) -> Dict[str, List[bytes]]:
        given: Dict[str, List[bytes]] = {}
        name = ""
        for kind, word in tokens:
            if kind == "word" and word[:1] == b"@":
                name = word.decode("latin-1")
                if name not in known or name in given:
                    raise self._wrong(f"{name[:40]!a} isn't one of {', '.join(known)}, each once")
                given[name] = []
            elif not name or kind != "word" or (given[name] and name != "@same-but"):
                raise self._wrong(f"{word[:40].decode('latin-1')!a} follows what it can't follow")
            else:
                given[name].append(word)
        for name, words in given.items():
            if not words:
                raise self._wrong(f"{name} lacks its word")
        return given


def steps_of(script: Script, own: str, but: Sequence[str] = ()) -> List[Step]:
    """The steps as one end plays them: what it sends must be known, and what comes in pieces is cut into units. Fields
    of these names may differ in every frame that comes."""
    steps: List[Step] = []
    run: List[Step] = []
    for step in script.steps:
        if step.mark in "><" and step.mark != own and isinstance(step.unit, Exact):
            run.append(step)
            continue
        steps += _cut(run, but)
        run = []
        if step.mark == own and bytes_of(step.unit) is None:
            raise ScriptError(step.line, f"this end sends {own}: its bytes must be known, and '..' isn't")
        steps.append(step._replace(unit=_lenient(step.unit, but)) if step.mark != own else step)
    return steps + _cut(run, but)


def _cut(run: List[Step], but: Sequence[str]) -> List[Step]:
    """The units of bytes that came in pieces, each with the line where it begins."""
    pieces = [bytes_of(step.unit) or b"" for step in run]
    starts = list(itertools.accumulate(map(len, pieces), initial=0))
    at, found = 0, []
    for unit in units_of(b"".join(pieces)):
        step = run[bisect.bisect_right(starts, at) - 1]
        found.append(step._replace(unit=_lenient(Exact(unit), but)))
        at += len(unit)
    return found


def _lenient(unit: Unit, but: Sequence[str]) -> Unit:
    """The same unit, in which these fields may differ too."""
    if not but:
        return unit
    if isinstance(unit, Framed):
        return unit._replace(but=(*unit.but, *but))
    frame = read_frame(unit.data) if isinstance(unit, Exact) else None
    return unit if frame is None else Framed(frame.number, frame.text, frame.is_last, b"", tuple(but))
