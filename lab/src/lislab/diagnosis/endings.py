"""Words for CR and LF at the end of records: `<CR>`, `[0D]`, `\\r`, `^M` and others, as programs print a record."""
import re
from typing import NamedTuple, Optional, Tuple

from lislink.message import Found, Message, read_all

_RECORD = rb"(?=[ \t]*[HPORCQMSLhporcqmsl]%s)"
_LINE_END = rb"(?=[ \t]*(?:[\r\n]|\Z))"


class Word(NamedTuple):
    """How a word for CR and the one for LF are written, parts of them in lower case, and whether the same bytes may
    be part of a value (the repeat delimiter and r, or the component delimiter and M)."""

    parts: Tuple[bytes, ...]
    cr: bytes
    lf: bytes
    is_doubtful: bool = False
    flags: "re.RegexFlag" = re.I

    def ends(self) -> bytes:
        """The words of one end: for CR, for CR and LF, or for LF."""
        return rb"(?:%s(?:%s)?|%s)" % (self.cr, self.lf, self.lf)


WORDS = (
    Word((b"cr", b"lf"), rb"[<\[{(]CR[>\]})]", rb"[<\[{(]LF[>\]})]"),
    Word((b"0d", b"0a"), rb"(?:[<\[{(](?:0x|\$)?0D[>\]})]|[=%]0D)", rb"(?:[<\[{(](?:0x|\$)?0A[>\]})]|[=%]0A)"),
    Word((b"&#",), rb"&#(?:13|x0?D);", rb"&#(?:10|x0?A);"),
    Word(("\u240d".encode(), "\u240a".encode()), "\u240d".encode(), "\u240a".encode()),
    Word((b"\\r", b"\\n"), rb"\\r", rb"\\n", True, re.RegexFlag(0)),  # `\R` is an escape of HL7
    Word((b"\\x0", b"\\u000", b"\\01"), rb"\\(?:x0D|u000D|015)", rb"\\(?:x0A|u000A|012)", True),
    Word((b"^m", b"^j"), rb"\^M", rb"\^J", True, re.RegexFlag(0)),
)


class Ending(NamedTuple):
    """How records end in a word: the word as it is shown, where it ends a record, and whether each place is sure."""

    shown: str
    places: "re.Pattern[bytes]"
    is_sure: bool

    def with_cr(self, data: bytes) -> bytes:
        """The same bytes with a CR in place of each word and of the line end after it."""
        return re.sub(self.places.pattern + rb"[ \t]*(?:\r\n|\r|\n)?", b"\r", data, flags=self.places.flags)


def ending_of(data: bytes) -> Optional[Ending]:
    """The word that ends the records of these bytes; None if none does. At the end of a line a word counts if each
    header ends in it, since a value may be such a word; before a record's letter on the same line it counts if there
    is no doubt."""
    small = data.lower()
    words = [word for word in WORDS if any(part in small for part in word.parts)]
    if not words:
        return None
    headers = re.findall(rb"(?:\A|[\r\n])[ \t]*([Hh][!-/:-@\[-`{-~]{2}[^\r\n]*)", data)
    mark = re.escape(headers[0][1:2]) if headers else rb"\|"
    record, has_lines = _RECORD % mark, re.search(rb"[\r\n][ \t]*[PORCQMSLporcqmsl]" + mark, data)
    for word in words:
        is_at_end = word.is_doubtful and has_lines is not None
        places = _places(word.ends(), record, is_at_end, word.flags)
        ends = [places.search(one) for one in headers]
        if headers and all(ends):
            # As the headers end, so do the others: a value may be another of these words.
            same = b"|".join(re.escape(one) for one in sorted({end.group() for end in ends if end}, key=len)[::-1])
            found = _ending(data, _places(rb"(?:%s)" % same, record, is_at_end, word.flags), True)
            if found and word.cr == rb"\^M" and not is_at_end and not _are_messages(found.with_cr(data)):
                return found._replace(is_sure=False)
            return found
        if not word.is_doubtful and re.search(word.ends() + record, data, word.flags):
            return _ending(data, re.compile(word.ends() + record, word.flags), True)
    return None


def _places(found: bytes, record: bytes, is_at_end: bool, flags: "re.RegexFlag") -> "re.Pattern[bytes]":
    """Where a word is at the end of a line, or also before a record on the same line."""
    return re.compile(found + (_LINE_END if is_at_end else rb"(?:%s|%s)" % (_LINE_END, record)), flags)


def _ending(data: bytes, places: "re.Pattern[bytes]", is_sure: bool) -> Optional[Ending]:
    found = places.search(data)
    return Ending(found.group().decode("utf-8", "replace"), places, is_sure) if found else None


def _are_messages(data: bytes) -> bool:
    """Whether these are complete messages in which no value can begin with M and a record's letter: each record has the
    number that is due in its place and doesn't end in an empty component, each result has its value, each comment
    its source, and no record has a letter whose number is due nowhere."""
    found = list(read_all(data))
    messages = [one.message for one in found if isinstance(one, Found)]
    return bool(found) and len(messages) == len(found) and all(map(_is_due, messages))


def _is_due(message: Message) -> bool:
    rows = [entry.row for entry in message.entries]
    return not message.findings() and not any(
        row.letter in "MS"
        or row.text[-1:] == row.delimiters[2:3]
        or row.letter == "R"
        and not row.written(4)
        or row.letter == "C"
        and row.written(3) not in (b"I", b"L", b"P")
        for row in rows
    )


def ending_at(record: bytes) -> Optional[Ending]:
    """The same for one record, which may have no header: the word at its end, if there is no doubt of it."""
    for word in WORDS:
        at_end = re.compile(word.ends() + rb"[ \t]*\Z", word.flags)
        if not word.is_doubtful and at_end.search(record):
            return _ending(record.rstrip(b" \t"), at_end, True)
    return ending_of(record)
