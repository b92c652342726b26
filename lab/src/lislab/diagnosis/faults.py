"""Faults in words: why a frame or a record is rejected, the likely cause, and the command that helps. The proved
library decides what is rejected; this explains it."""
import functools
import operator
from typing import List, NamedTuple, Optional

from lislink.codes import FrameFault, Reason, Status
from lislink.link import FRAME_TEXT, LONG_FRAME_TEXT, LinkError, frame_bytes
from lislink.records import MessageError
from .endings import ending_at
from .log import CONTROL
from .verdicts import Verdict, Ways

_NAMES = {number: name for name, number in reversed(list(CONTROL.items()))}
_NAMES.update({9: "TAB", 127: "DEL", 17: "XON", 19: "XOFF"})


def words(data: bytes, most: int = 0) -> str:
    """Bytes as text, control bytes in words; cut after so many bytes, if that isn't 0."""
    shown = data[:most] if most else data
    text = "".join(
        chr(one) if 32 <= one < 127 else f"<{_NAMES[one]}>" if one in _NAMES else f"<{one:02X}>" for one in shown
    )
    return text + ("…" if len(shown) < len(data) else "")


class Cause(NamedTuple):
    """The likely cause of a fault, and its words for a person."""

    verdict: Verdict
    words: str
    #: The other ways to sum that give its checksum.
    ways: Ways = frozenset()

    @property
    def kind(self) -> Verdict:
        """Its verdict; of any checksum that is wrong, that it is."""
        return Verdict.SUM if self.ways else self.verdict


class Sum(NamedTuple):
    """The checksum that a frame should have, and the one that it has."""

    wanted: str
    found: str


def checksum_of(body: bytes) -> Optional[Sum]:
    """The checksums of the bytes between STX and LF, if these have the shape of a frame."""
    if len(body) < 5 or body[-1] != 13 or body[-4] not in (3, 23):
        return None
    found = body[-3:-1].decode("latin-1")
    try:
        whole = frame_bytes(body[0] - 48, body[-4] == 3, body[1:-4])
        return Sum(whole[-4:-2].decode(), found)
    except (LinkError, ValueError):
        return Sum(f"{sum(body[:-3]) % 256:02X}", found)


def cause_of_frame(body: bytes, fault: FrameFault, place: int, limit: int = FRAME_TEXT) -> Cause:
    """Why the bytes between STX and LF are no frame, whose text may have so many bytes, as far as one can see."""
    if fault is FrameFault.TOO_LONG:
        length = len(body) - 5
        hint = " (`--long` takes it)" if limit < length <= LONG_FRAME_TEXT else ""
        return Cause(Verdict.LONG, f"frame too long: {length} bytes of text, {limit} are allowed{hint}")
    if fault is FrameFault.SHAPE:
        return _shape(body)
    if fault is FrameFault.NUMBER:
        if body[:1] in (b"8", b"9"):
            return Cause(Verdict.NUMBER_OVER_7, f"frame number {body[:1].decode()}: after 7 comes 0")
        return Cause(
            Verdict.NUMBER, f"no frame number: the frame begins with '{words(body[:1])}', not with a digit 0 to 7"
        )
    if fault is FrameFault.FORBIDDEN:
        byte = body[1 + place] if 1 + place < len(body) else 0
        name = words(bytes([byte]))
        if byte in (17, 19):
            return Cause(
                Verdict.FLOW_CONTROL, f"{name} in the text at byte {place}: software flow control is on, turn it off"
            )
        return Cause(Verdict.FORBIDDEN, f"forbidden byte {name} in the text at byte {place}")
    return _sum(body)


def _shape(body: bytes) -> Cause:
    end = max(body.rfind(3), body.rfind(23))
    if end < 0:
        if len(body) < 5:
            return Cause(Verdict.SHORT, f"{len(body)} bytes between STX and LF are no frame")
        return Cause(
            Verdict.LF_IN_TEXT,
            "LF inside the text: a record ends in CR LF or LF within the frame, and LF ends the frame",
        )
    name, tail = words(body[end : end + 1]), body[end + 1 :]
    if tail[-1:] != b"\r":
        return Cause(Verdict.NO_CR, f"no CR before LF: '{words(tail)}' follows {name}")
    digits = tail[:-1]
    if not digits:
        return Cause(Verdict.NO_SUM, f"no checksum between {name} and CR")
    if len(digits) != 2:
        return Cause(Verdict.SUM_DIGITS, f"{len(digits)} characters of checksum ('{words(digits)}'), two are due")
    return Cause(Verdict.SHAPE, "no frame: fewer than five bytes, or ETX or ETB not where it belongs")


def _sum(body: bytes) -> Cause:
    told = checksum_of(body)
    if told is None:
        return Cause(Verdict.SUM, "checksum wrong")
    text = f"checksum wrong: {words(told.found.encode('latin-1'))} found, {told.wanted} wanted"
    ways = {
        Verdict.SUM_WITHOUT_END: sum(body[:-4]),
        Verdict.SUM_WITH_STX: sum(body[:-3]) + 2,
        Verdict.SUM_WITH_STX_WITHOUT_END: sum(body[:-4]) + 2,
        Verdict.SUM_WITHOUT_NUMBER: sum(body[1:-3]),
        Verdict.SUM_OF_TEXT: sum(body[1:-4]),
        Verdict.SUM_XOR: functools.reduce(operator.xor, body[:-3], 0),
        Verdict.SUM_XOR_TEXT: functools.reduce(operator.xor, body[1:-3], 0),
        Verdict.SUM_COMPLEMENT: -sum(body[:-3]),
        Verdict.SUM_WITH_CR: sum(body[:-3]) + 13,
    }
    found = [verdict for verdict, value in ways.items() if f"{value % 256:02X}" == told.found.upper()]
    if found:
        return Cause(found[0], text, frozenset(found))
    if not all(chr(one) in "0123456789abcdefABCDEF" for one in body[-3:-1]):
        return Cause(Verdict.SUM_NO_DIGITS, f"{text}: no hexadecimal digits")
    if any(one > 127 for one in body[1:-4]):
        return Cause(Verdict.SUM, text + " (bytes over 127 are in the text: were they changed on the way?)")
    return Cause(Verdict.SUM, text)


_CODES = {
    Reason.NOT_HEADER: "G2",
    Reason.NO_PARENT: "G3",
    Reason.SECOND_HEADER: "G4",
    Reason.UNFINISHED: "G5",
    Reason.TOO_LONG: "G6",
    Reason.OUT_OF_MEMORY: "K4",
}
_STATUS_CODES = {
    Status.NO_RECORD: "C1",
    Status.BAD_LETTER: "C2",
    Status.BAD_DELIMITERS: "C3",
    Status.FORBIDDEN: "C4",
}


def code_of(error: MessageError) -> str:
    """The code that `lislink check` prints for a record that can't be read."""
    if error.reason is Reason.BAD_RECORD:
        return "G1 " + _STATUS_CODES.get(Status(error.detail), "C4")
    return _CODES.get(error.reason, "G1")


class RecordCause(NamedTuple):
    """Why a record is rejected: in words, and the options of `lislab normalize` that fix it."""

    name: str
    words: str
    options: List[str]


_HL7 = RecordCause("hl7", "this is HL7 version 2, another language", [])


def cause_of_record(error: MessageError, record: bytes, is_rest: bool = False) -> RecordCause:
    """Why the library rejects a record; `is_rest` if no CR follows it."""
    reason = error.reason
    if reason is Reason.BAD_RECORD:
        return _bad_record(Status(error.detail), error, record)
    if reason is Reason.NOT_HEADER:
        if record[:3] in (b"MSH", b"FHS", b"BHS"):
            return _HL7
        if record[:1] in b"PORCQMSL" and record[:1]:
            return RecordCause(
                "no-header",
                f"a record {record[:1].decode()} outside a message: the header is missing, or a " "record is after L",
                ["--behind-l"],
            )
        return _bad_record(Status.BAD_LETTER, error, record)
    if reason is Reason.NO_PARENT:
        above = "patient (P)" if error.detail == ord("O") else "order (O)"
        return RecordCause("no-parent", f"a record {chr(error.detail)} without {above} above it", ["--orders"])
    if reason is Reason.SECOND_HEADER:
        return RecordCause(
            "no-l",
            "a header inside a message: L is missing before it, or the session was begun again",
            ["--last-l"],
        )
    if reason is Reason.UNFINISHED:
        return _unfinished(record, is_rest)
    if reason is Reason.TOO_LONG:
        if b"\n" in record:
            return RecordCause("long", "over 65,536 bytes without a CR: records end in LF", ["--lf"])
        return _too_long(record, "over 65,536 bytes without a CR")
    return RecordCause("memory", "out of memory", [])


def _too_long(record: bytes, text: str) -> RecordCause:
    """Of a record to which others belong, none may be left out."""
    return RecordCause("long", text, ["--long"] if record[:1].upper() in (b"R", b"C", b"M", b"S") else [])


def _unfinished(record: bytes, is_rest: bool) -> RecordCause:
    bare = record.rstrip(b"\n")
    if in_words := _in_words(record):
        return in_words
    if b"\n" in bare or is_rest and record.endswith(b"\n"):
        return RecordCause("lf", "records end in LF alone: no CR ends them", ["--lf"])
    if record and not record.strip(b"\x1a\0\n"):
        return RecordCause("ctrl-z", "bytes after the last CR", ["--ctrl-z", "--nul"])
    if is_rest and record:
        options = ["--last-cr"] if record[:1] in b"Ll" else ["--last-cr", "--last-l"]
        return RecordCause("last-cr", "the last record lacks its CR", options)
    return RecordCause("no-l", "the input ends before the message does: L is missing", ["--last-l"])


def _in_words(record: bytes) -> Optional[RecordCause]:
    """The cause, if these bytes, which no CR ends, have a word for CR at the end of a record."""
    ending = ending_at(record)
    if ending is None:
        return None
    text = f"the word {ending.shown} is in place of a CR"
    if ending.is_sure:
        return RecordCause("cr-in-words", text, ["--cr-words"])
    return RecordCause("cr-in-words", text + ", on one line where it may be part of a value too", [])


def _bad_delimiters(record: bytes) -> RecordCause:
    if record[:9] in (b"H|^~\\&|||", b"MSH|^~\\&|") or record[:6] == b"H|^~\\&":
        return RecordCause(
            "hl7-delimiters", "a header with five bytes of delimiters, as HL7 has them: H|^~\\&", ["--header-5"]
        )
    if record[1:2] == record[4:5]:
        return RecordCause("header-3", "a header with three delimiters, the escape is missing", ["--header-3"])
    if len(record) > 6 and record[6:7] == record[1:2]:
        return RecordCause("header-5", "a header with five bytes of delimiters", ["--header-5"])
    return RecordCause("delimiters", "a header whose four delimiters aren't distinct punctuation", [])


def _bad_record(status: Status, error: MessageError, record: bytes) -> RecordCause:
    first = words(record[:1])
    if status is Status.NO_RECORD:
        return RecordCause("empty", "an empty record: CR after CR, or a blank line", ["--blank"])
    if status is Status.BAD_DELIMITERS:
        return _in_words(record) or _bad_delimiters(record)
    if status is Status.FORBIDDEN:
        byte = record[error.place : error.place + 1]
        options = {b"\0": ["--nul"], b"\x1a": ["--ctrl-z"], b"\n": ["--lf"]}.get(byte, ["--bytes"])
        text = f"the byte {words(byte)} at place {error.place} is no text"
        if byte == b"\xff":
            text += " (in code page 1251 it is a letter, in Latin-1 another)"
        return RecordCause("byte", text, options)
    if status is Status.TOO_LONG:
        return _too_long(record, "a record of over 65,536 bytes")
    if in_words := _in_words(record):
        return in_words
    if record[:2] in (b"\xff\xfe", b"\xfe\xff"):
        return RecordCause("utf-16", "the file is UTF-16: two bytes a character", ["--bom"])
    if record[:1] == b"\n":
        return RecordCause("crlf", "records end in CR LF: this one begins with LF", ["--crlf"])
    if record[:3] == b"\xef\xbb\xbf":
        return RecordCause("bom", "a byte order mark is at the beginning", ["--bom"])
    if record[:1] in (b"\0", b"\x1a"):
        return RecordCause(
            "ctrl-z", f"{first} at the beginning of a record", ["--nul" if record[:1] == b"\0" else "--ctrl-z"]
        )
    if record[:1] in (b"\x02", b"\x05", b"\x03", b"\x04", b"\x0b"):
        return RecordCause("framed", f"{first}: link bytes are among the records", ["--unframe"])
    if record[:1].isdigit() and record[1:2].isalpha():
        return RecordCause("numbered", "a frame's number is before the letter", ["--unframe"])
    if record[:3] in (b"MSH", b"FHS", b"BHS"):
        return _HL7
    if record[:1] in (b" ", b"\t"):
        return RecordCause("blank-first", "a blank is before the letter", ["--blank"])
    if record[:1] and record[:1] in b"HPORCQMSLhporcqmsl":
        return RecordCause("letter", f"no field delimiter after the letter {first}", [])
    return RecordCause(
        "letter", f"'{first}' is no letter of a record: one of the manufacturer's own, or a CR inside a text", []
    )
