"""Control bytes that a log of text writes by their numbers: `[02]`, `%02`, `=02`, `<2>`. Which of these a log has is
seen at its frames: such a number for STX, then the frame's number and the letter of a record."""
import re
from typing import Callable, NamedTuple, Optional

from ..diagnosis.log import LogError

#: What a frame begins with after its STX: its number, and a record's letter.
_FRAME = r"(?=[0-7][A-Za-z])"
#: The link's bytes, TAB, LF and CR: those that a log of text writes by numbers when it shows letters as they are.
_LINK = frozenset((2, 3, 4, 5, 6, 9, 10, 13, 0x15, 0x17))
#: Those that are never within a frame.
_NEVER_WITHIN = re.compile("<0x(?:0[456A]|15)>")


class Notation(NamedTuple):
    """How numbers are written: STX before a frame, a byte, and which bytes are meant in a whole log."""

    begins: "re.Pattern[str]"
    byte: "re.Pattern[str]"
    meant: Callable[[str], Callable[[str], Optional[int]]]


def _coded(mark: str, others: str) -> Notation:
    """Percent or quoted-printable codes. A log that writes its delimiters or the mark so writes all bytes so."""

    def meant(text: str) -> Callable[[str], Optional[int]]:
        is_whole = re.search(rf"{mark}(?:{others})", text, re.I) is not None
        return lambda digits: int(digits, 16) if is_whole or int(digits, 16) in _LINK else None

    return Notation(re.compile(mark + "02" + _FRAME), re.compile(mark + "([0-9A-Fa-f]{2})"), meant)


def _without_zeros(text: str) -> Callable[[str], Optional[int]]:
    """Numbers in `<>` are decimal or hexadecimal: as all of a log can be read."""
    found = set(_ANGLES.byte.findall(text))
    for base in (10, 16):
        if all(one.isdigit() or base == 16 for one in found) and {int(one, base) for one in found} <= _LINK:
            return lambda digits: int(digits, base)
    numbers = ", ".join(f"<{one}>" for one in sorted(found))
    raise LogError(f"which bytes these are isn't clear: {numbers}")


_ANGLES = Notation(re.compile("<2>" + _FRAME), re.compile("<([0-9A-Fa-f]|[12][0-9A-Fa-f])>"), _without_zeros)
_CODES = (_coded("%", "25|7C|5E|5C"), _coded("=", "3D|7C|5E|5C"), _ANGLES)
_CARET = re.compile(r"\^B[0-7][HPORCQMSL][^\w\s].*")


def numbered(text: str) -> str:
    """A log of text with each such byte as `<0x02>`; a LogError where it isn't clear which bytes are meant."""
    brackets = _brackets_of(text)
    if brackets is not None:
        return brackets.sub(r"<0x\1>", text)
    for one in _CODES:
        if one.begins.search(text):
            return _in_words(text, one)
    caret = _CARET.search(text)
    if caret is not None and not re.search(r"\^B\((?:002|02)\)", text):
        raise LogError(
            f"control bytes are written as ^B here, and {caret[0][:40]!r} may hold components too: log the line in hex",
            _line_at(text, caret.start()),
        )
    return text


def _brackets_of(text: str) -> "Optional[re.Pattern[str]]":
    """What finds control bytes in brackets that may also be a counter's (`[02]1H|`, `(02)`), if a log has such ones."""
    found = re.search(r"([\[{(])(?:0x|\$)?02[\])}]" + _FRAME, text, re.I)
    if found is None:
        return None
    end = {"[": "]", "{": "}", "(": ")"}[found[1]]
    return re.compile(re.escape(found[1]) + r"(?:0x|\$)?([0-9A-Fa-f]{2})" + re.escape(end), re.I)


def _in_words(text: str, notation: Notation) -> str:
    """The same log with `<0x02>` for such a number. A byte that ends a frame must not be within one."""
    meant = notation.meant(text)

    def word(found: "re.Match[str]") -> str:
        number = meant(found[1])
        return found[0] if number is None else chr(number) if 32 <= number < 127 else f"<0x{number:02X}>"

    rows = []
    for line, row in enumerate(text.split("\n"), 1):
        read = notation.byte.sub(word, row)
        for frame in re.findall(r"<0x02>(.*?)(?:<0x(?:03|17)>|$)", read):
            if _NEVER_WITHIN.search(frame):
                raise LogError(f"a number within a frame is no byte of it: {row[:60]!r}", line)
        rows.append(read)
    return "\n".join(rows)


def _line_at(text: str, place: int) -> int:
    return text.count("\n", 0, place) + 1
