"""Logs with a line for each piece: a direction, and the bytes as hex, decimal, binary or Python's b'..', or as text
with control bytes in words such as <STX>. Analyzers' and drivers' traces, Docklight, terminal programs."""
import ast
import csv
import html
import json
import re
from typing import Callable, Dict, Iterator, List, NamedTuple, Optional, Tuple

from ..diagnosis.log import CONTROL, Log, LogError, Piece, encode, find_time, hex_row, holds_bytes, left_out
from .notations import numbered

_NAMES = "|".join(sorted(CONTROL, key=len, reverse=True))
#: A control byte in words: <STX>, [STX], {STX}, (STX), <0x02>, <02>, \x02, or a control picture.
_WORD = re.compile(
    r"[<\[{(](?P<name>" + _NAMES + r")[>\]})]|[<\[{](?:0x|\$)?(?P<hex>[0-9A-Fa-f]{2})[>\]}]|"
    r"\\(?:x|u00)(?P<x>[0-9A-Fa-f]{2})|(?P<picture>[\u2400-\u2421])",
    re.I,
)
_SURE = re.compile(
    r"[<\[{(](?:ENQ|STX|ETX|ETB|EOT|ACK|NAK)[>\]})]|<(?:0x)?0[2-6]>|\\(?:x|u00)0[2-6]|[\u2401-\u2406]", re.I
)
_OUT = r"TX|TXD|SEND(?:ING|ALL|TO)?|SENT|WRITE|WRITTEN|WRITING|WROTE|XMIT|GESENDET|ENVIADO|ENVOY[EÉ]|OUT(?:PUT|GOING)?|TRANSMIT(?:TED)?"
_IN = r"RX|RXD|RECV(?:D|FROM)?|RECEIVED?|RECEIVING|RCVD?|READ|READING|EMPFANGEN|RECIBIDO|RE[CÇ]U|IN(?:PUT|COMING)?"
_NAME = r"[\w.:@/\-]*[\w.@/]"
#: Directions, the surest first. A named arrow says who sends.
_MARKS: List[Tuple["re.Pattern[str]", Callable[["re.Match[str]"], str]]] = [
    (
        re.compile(r"(?P<a>%s)\s*(?:-{1,3}>|={1,3}>|→|»|⇒)\s*(?P<b>%s)(?=\s*(?:[:|\-=,\])]|\s|$))" % (_NAME, _NAME)),
        lambda found: found["a"],
    ),
    (
        re.compile(r"(?P<a>%s)\s*(?:<-{1,3}|<={1,3}|←|«|⇐)\s*(?P<b>%s)(?=\s*(?:[:|\-=,\])]|\s|$))" % (_NAME, _NAME)),
        lambda found: found["b"],
    ),
    (re.compile(r"(?P<a>[\w.\-]+[.:]\d+)\s+>\s+(?P<b>[\w.\-]+[.:]\d+)(?=\s*:|\s|$)"), lambda found: found["a"]),
    (re.compile(r"\[?\b(?P<a>%s)\b\]?" % _OUT, re.I), lambda found: "out"),
    (re.compile(r"\[?\b(?P<a>%s)\b\]?" % _IN, re.I), lambda found: "in"),
    (re.compile(r"(?P<a>>{2,3}|<{2,3}(?!\w))"), lambda found: found["a"][0] * 2),
    (re.compile(r"(?P<a>-{1,3}>|={1,2}>|→|⇒)"), lambda found: "->"),
    (re.compile(r"(?P<a><-{1,3}|<={1,2}|←|⇐)"), lambda found: "<-"),
    (re.compile(r"\b(?P<a>[A-Za-z]\w*)>(?P<b>[A-Za-z]\w*)(?=\s|:)"), lambda found: found["a"]),
    (
        re.compile(
            r"\b(?P<a>analy[sz]er|instrument|device|host|lis|lims|his|pc|computer|client|server|com\d+|middleware|"
            r"dte|dce|a|b|s|r)\s*(?=[:>|\])])",
            re.I,
        ),
        lambda found: found["a"].lower(),
    ),
    (re.compile(r"\b(?P<a>com\d+|(?<=/dev/)tty\w+)\b", re.I), lambda found: found["a"].lower()),
    (re.compile(r"^(?P<a>[<>])(?=\s)"), lambda found: found["a"]),
]
#: What a line must have for these of the directions.
_ARROWS = {0: ("->", "=>", "→", "»", "⇒"), 1: ("<-", "<=", "←", "«", "⇐"), 2: (" > ",)}
_CLOCK_FIRST = re.compile(r"^(?:\d{1,4}[-/.]\d{1,2}[-/.]\d{1,4}[T ])?\d{1,2}:\d\d:\d\d(?:[.,]\d+)?[\s,;|]+")
_SEPARATOR = re.compile(
    r"\s*(?:\(?\d+\s*(?:bytes?|chars?|B)\)?|len(?:gth)?\s*[=:]?\s*\d+)?\s*(?:(?:[:\-=|>,;\]]|<(?=\s))\s?)*\s*", re.I
)


class Grammar(NamedTuple):
    """How the bytes of a line are written: its name, and the bytes of the rest of a line."""

    name: str
    read: Callable[[str], Optional[bytes]]


def _python(text: str) -> Optional[bytes]:
    found = re.match(r"""\(?(?:bytearray\()?(b(?:'(?:[^'\\]|\\.)*'|"(?:[^"\\]|\\.)*"))\)?\W*$""", text.strip())
    if not found:
        return None
    try:
        return bytes(ast.literal_eval(found[1]))
    except (ValueError, SyntaxError):
        return None


def _escaped(text: str) -> Optional[bytes]:
    """Text in quotes with the escapes of C."""
    found = re.match(r"""(['"])((?:[^\\]|\\.)*)\1\s*$""", text.strip())
    if not found or not re.search(r"\\(?:x[0-9A-Fa-f]{2}|r|n|[0-7]{3}|u00[01][0-9a-f])", found[2]):
        return None
    try:
        return bytes(
            ast.literal_eval("b'" + re.sub(r"\\u00([0-9a-fA-F]{2})", r"\\x\1", found[2]).replace("'", "\\'") + "'")
        )
    except (ValueError, SyntaxError):
        return None


def _hex(text: str) -> Optional[bytes]:
    bare = text.strip().strip("\"'[](){}")
    bare = re.sub(
        r"^(?:[0-9A-Fa-f]{4}|[0-9A-Fa-f]{8}):?\s+(?=[0-9A-Fa-f]{2}(?:\s|$))", "", bare
    )  # an offset before pairs
    bare = re.sub(r"(?<=[0-9A-Fa-f]{2})[:\-,;](?=\s*(?:0[xX])?[0-9A-Fa-f]{2})", " ", bare).rstrip(" ,;:")
    bare = re.sub(r"\b([0-9A-Fa-f]{2})h\b", r"\1", bare)
    if re.match(r"(?:[0-9A-Fa-f]{2})+$", bare):
        return bytes.fromhex(bare)
    return hex_row(bare, 4096) if re.match(r"(?:0[xX])?[0-9A-Fa-f]{2}(?:\s|$)", bare) else None


def _numbers(text: str, form: str, base: int) -> Optional[bytes]:
    words = text.split()
    if words and all(re.fullmatch(form, one) and int(one, base) < 256 for one in words):
        return bytes(int(one, base) for one in words)
    return None


def words(text: str) -> bytes:
    """Text with control bytes in words."""
    told, at = b"", 0
    for found in _WORD.finditer(text):
        told += encode(text[at : found.start()])
        at = found.end()
        if found["name"]:
            told += bytes([CONTROL[found["name"].upper()]])
        elif found["hex"] or found["x"]:
            told += bytes.fromhex(found["hex"] or found["x"])
        else:
            picture = ord(found["picture"]) - 0x2400
            told += bytes([127 if picture == 0x21 else picture])
    return told + encode(text[at:])


#: How escapes with a backslash are written: with a doubled backslash for one, as in C, Java and JSON; with a backslash
#: as it is; or only for the control bytes, by their numbers.
_DOUBLED, _ALONE, _NUMBERS = "doubled", "alone", "numbers"
_ESCAPE = re.compile(r"\\(?:[xX](?P<x>[0-9A-Fa-f]{2})|u00(?P<u>[0-9A-Fa-f]{2})|(?P<letter>[rntabfve0\\\"'/]))")
_LETTERS = {"r": 13, "n": 10, "t": 9, "a": 7, "b": 8, "f": 12, "v": 11, "e": 27, "0": 0}


def escaped_words(text: str, way: str) -> bytes:
    """Text with the escapes of C, Java or JSON, and control bytes in words."""

    def meant(found: "re.Match[str]") -> str:
        if found["letter"] is None:
            return f"<0x{found['x'] or found['u']}>"
        if found["letter"] in _LETTERS:
            return f"<0x{_LETTERS[found['letter']]:02X}>"
        return found["letter"] if way == _DOUBLED else found[0]

    return words(_ESCAPE.sub(meant, text)) if way != _NUMBERS else words(text)


def _way_of(text: str) -> str:
    """How a log writes its escapes: so that most of its frames have the right checksum."""
    rows = re.findall(r"(?:\\(?:[xX]|u00)02|[<\[{(](?:STX|0x02|02)[>\]})]|\u2402).*", text)
    if not rows or not re.search(r"\\[rn\\]", text):
        return _NUMBERS
    # If two are as good, what the log shows decides: a backslash alone, as in H|\^&, and a \r where a frame has its
    # CR.
    is_alone = re.search(r"(?<!\\)(?:\\\\)*\\[^\\rntabfve0xXu\"'/]", text)
    ways = [_ALONE, _DOUBLED, _NUMBERS] if is_alone else [_DOUBLED, _ALONE, _NUMBERS]
    if not re.search(r"\\r(?:\\|[<\[{(]|\u2403|[\"']?\s*$)", text, re.M):
        ways.reverse()
    return max(ways, key=lambda way: sum(_good_frames(escaped_words(row, way)) for row in rows))


def _good_frames(data: bytes) -> int:
    """How many frames with the right checksum are in these bytes."""
    frames = re.findall(rb"\x02([0-7][^\x02]*?[\x03\x17])([0-9A-Fa-f]{2})(?=\r|\Z|[^0-9A-Fa-f])", data, re.S)
    return sum(sum(body) % 256 == int(digits, 16) for body, digits in frames)


def _worded(text: str) -> Optional[bytes]:
    bare = _unquoted(text)
    return words(bare) if bare.strip() else None


def _unquoted(text: str) -> str:
    bare = text.rstrip("\r\n")
    return bare.strip()[1:-1] if re.match(r"""(["'])(.*)\1\s*$""", bare) else bare


_READERS: Dict[str, Callable[[str], Optional[bytes]]] = {
    "python": _python,
    "escaped": _escaped,
    "binary": lambda text: _numbers(text, "[01]{8}", 2),
    "decimal": lambda text: _numbers(text, "[0-9]{3}", 10),
    "hex": _hex,
    "words": _worded,
}


def _kind(text: str) -> str:
    """Which grammar a log is written in: by what its lines hold."""
    if len(re.findall(r"""\bb['"](?:\\x|[^'"\\]|\\.)*['"]""", text)) > 1 and re.search(r"b['\"]\\x0[2-6]", text):
        return "python"
    if re.search(r"""["']\\(?:x0[2-6]|u000[2-6]|00[2-6])""", text):
        return "escaped"
    if _SURE.search(text):
        return "words"
    if re.search(r"(?:^|\s)00000101(?:\s|$)", text, re.M):
        return "binary"
    if re.search(r"(?:^|\s)005\s*$", text, re.M) and not re.search(r"[\s:]0[256]\s*$", text, re.M):
        return "decimal"
    return "hex"


def traces(text: str) -> Log:
    """A log with a line for each piece."""
    if re.match(r"\s*<(?:!doctype|html)", text, re.I):
        text = _of_html(text)
    text = numbered(text)
    grammar = _grammar_of(text)
    lines = text.splitlines()
    marked = [_split(line, grammar) if line.strip() else None for line in lines]
    if sum(one is not None for one in marked) == 0:
        return _unmarked(lines, grammar)
    full = [(number, line) for number, line in enumerate(lines, 1) if line.strip()]
    sure = [one for one in full if _SURE.search(one[1])]
    if any(marked[number - 1] is None for number, _ in sure):
        named = _named(sure, grammar, [one for one in full if not _SURE.search(one[1])])
        if named is not None:
            return named
    return _marked(full, marked, grammar)


def _grammar_of(text: str) -> Grammar:
    """The grammar of a log, with the way of its escapes."""
    kind = _kind(text)
    way = _way_of(text) if kind == "words" else _NUMBERS
    if way == _NUMBERS:
        return Grammar(kind, _READERS[kind])
    return Grammar(kind, lambda rest: escaped_words(_unquoted(rest), way) or None)


def _marked(full: List[Tuple[int, str]], marked: List[Optional[Tuple[str, str, bytes]]], grammar: Grammar) -> Log:
    """A log whose lines have directions, as they were found; a line without one may go on the one before."""
    pieces: List[Piece] = []
    left: List[int] = []
    like_bytes: List[int] = []
    for number, line in full:
        found = marked[number - 1]
        if found is not None:
            pieces.append(Piece(find_time(found[0]), found[1], found[2]))
        elif _goes_on(line, grammar, pieces):
            more = grammar.read(line.strip() if grammar.name != "words" else line) or b""
            pieces[-1] = pieces[-1]._replace(data=pieces[-1].data + more)
        elif _SURE.search(line) or grammar.name == "python" and re.search(r"\bb['\"]", line):
            raise LogError(f"bytes without a direction: {line[:60]!r}", number)
        elif _has_bytes(line):
            raise LogError(f"bytes that can't be read: {line[:60]!r}", number)
        else:
            (like_bytes if holds_bytes(line) else left).append(number)
    remarks = left_out(left) + left_out(like_bytes, "without a direction that look like bytes")
    if grammar.name == "words":
        _no_text_around(pieces)
        pieces = _with_line_ends(pieces, remarks)
    return Log("trace", pieces, remarks)


def _has_bytes(line: str) -> bool:
    """Whether a line has, after its direction, what looks like bytes of a line."""
    found = (one for _, _, places in _marks_in(line) for one in places)
    return any(_is_head(line[: one.start()]) and holds_bytes(line[one.end() :]) for one in found)


def _marks_in(line: str) -> "Iterator[Tuple[int, Callable[[re.Match[str]], str], Iterator[re.Match[str]]]]":
    """The kinds of directions that a line may have, the surest first: the rank, the side, and the places."""
    for rank, (pattern, side) in enumerate(_MARKS):
        if rank not in _ARROWS or any(one in line for one in _ARROWS[rank]):
            yield rank, side, pattern.finditer(line)


def _of_html(text: str) -> str:
    """The text of a page: Docklight and others write one. Words such as <STX> are no tags."""
    text = re.sub(r"<br\s*/?>|</(?:p|div|tr|pre|li)>", "\n", text, flags=re.I)
    text = re.sub(r"</t[dh]>", "\t", text, flags=re.I)
    return html.unescape(re.sub(r"<(?!(?:%s)>)[/!]?\w[^>]*>" % _NAMES, "", text)).replace("\xa0", " ")


def _no_text_around(pieces: List[Piece]) -> None:
    """Where each ENQ and each reply has text around it, that text belongs to the log and not to the line."""
    for side in {piece.side for piece in pieces}:
        short = [
            piece.data
            for piece in pieces
            if piece.side == side and 2 not in piece.data and re.search(rb"[\x05\x06\x15]", piece.data)
        ]
        if short and not any(re.match(rb"[\x04-\x06\x15]+$", data) for data in short):
            raise LogError(f"each reply has text around it: what belongs to the line isn't clear ({short[0][:40]!r})")


def _with_line_ends(pieces: List[Piece], remarks: List[str]) -> List[Piece]:
    """A log that shows no LF at all leaves out what follows each checksum: CR LF is put there, and a remark says
    so."""
    frame = re.compile(rb"\x02[^\x02]*[\x03\x17][0-9A-Fa-f]{2}\r?$", re.S)
    if any(b"\n" in piece.data for piece in pieces) or not any(frame.search(piece.data) for piece in pieces):
        return pieces
    remarks.append("the log shows no <LF>: CR LF is supposed after each checksum")
    return [
        piece._replace(data=piece.data.rstrip(b"\r") + b"\r\n") if frame.search(piece.data) else piece
        for piece in pieces
    ]


_DIRECTIONS = ("dir", "direction", "side", "from", "source", "src", "type", "event", "op")
_DATA = ("data", "bytes", "payload", "hex", "raw", "message", "msg")


def json_lines(text: str) -> Log:
    """A log of JSON objects, one a line: who sends and the bytes, as hex or as text with escapes."""
    lines = text.splitlines()
    found: List[Tuple[Optional[int], str, int]] = []
    rows, left = [""] * len(lines), []
    for number, line in enumerate(lines, 1):
        if not line.strip():
            continue
        try:
            row = {str(key).lower(): value for key, value in json.loads(line).items()}
        except (json.JSONDecodeError, AttributeError):
            raise LogError("no JSON object", number) from None
        side = next((str(row[key]) for key in _DIRECTIONS if row.get(key)), None)
        data = next((row[key] for key in _DATA if row.get(key)), None)
        if data is not None and not isinstance(data, str):
            raise LogError(f"bytes that can't be read: {line[:60]!r}", number)
        if side is None and data is not None and (holds_bytes(data) or _SURE.search(data) or _hex(data)):
            raise LogError(f"bytes without a direction: {line[:60]!r}", number)
        if side is None or data is None:
            left.append(number)
            continue
        found.append((find_time(line), side, number - 1))
        rows[number - 1] = data.replace("\n", "<LF>")
    rows = numbered("\n".join(rows)).split("\n")
    way = _way_of("\n".join(rows))
    pieces = [Piece(time, side, _hex(rows[at]) or escaped_words(rows[at], way)) for time, side, at in found]
    return Log("json-lines", pieces, left_out(left))


def csv_table(text: str) -> Log:
    """A table with a line of names: a column of bytes, and one of two names for the sides (a logic analyzer's
    export)."""
    rows = list(csv.reader(text.splitlines(), delimiter=next(one for one in "\t;," if one in text.splitlines()[0])))
    names = [name.strip().lower() for name in rows.pop(0)]
    short = [(number, row) for number, row in enumerate(rows, 2) if row and len(row) < len(names)]
    data = next((names.index(one) for one in ("data", "bytes", "payload", "hex", "value") if one in names), None)
    whole = [(number, row) for number, row in enumerate(rows, 2) if len(row) >= len(names)]
    rows = [row for _, row in whole]
    if data is None or not rows:
        raise LogError("the table has no column of bytes")
    for number, row in short:
        if holds_bytes(" ".join(row) + " ") or data < len(row) and row[data].strip():
            raise LogError(f"an incomplete row: {', '.join(row)[:60]!r}", number)
    sides = [
        place
        for place, name in enumerate(names)
        if place != data
        and len({row[place] for row in rows}) == 2
        and name in ("name", "dir", "direction", "side", "source", "port", "channel", "type", "from", "operation")
    ]
    clock = next((place for place, name in enumerate(names) if name.startswith(("time", "start", "date"))), None)
    pieces = []
    for number, row in whole:
        read = _hex(row[data])
        if read is None and row[data].strip():
            raise LogError(f"no bytes in the column {names[data]}: {row[data][:40]!r}", number)
        if read:
            stamp = row[clock] if clock is not None else ""
            seconds = re.match(r"\d+\.\d+$", stamp)
            time = int(float(stamp) * 1_000_000) * 1000 if seconds else find_time(stamp)
            pieces.append(Piece(time, row[sides[0]] if sides else "", read))
    return Log("csv-table", pieces, left_out([number for number, _ in short]))


def with_control_bytes(data: bytes) -> Optional[Log]:
    """A log of text in which the bytes of the line are as they came, control bytes too: an entry begins at each line
    with a time, or at its start, and a direction, and holds all up to the next one. None if the bytes are no such
    log."""
    entries: List[Tuple[int, int, str, Optional[int]]] = []  # where the line and its bytes begin, the side, the time
    at = 0
    for row in data.split(b"\n"):
        head = re.split(rb"[\x00-\x08\x0e-\x1f]", row[:160])[0].decode("latin-1")
        found = next((one for one in ((pattern.search(head), side) for pattern, side in _MARKS) if one[0]), None)
        if found and found[0] and (find_time(head[: found[0].start()]) is not None or found[0].start() <= 1):
            rest = re.match(r"\]?(?:\s*[:\-=|])*\s?", head[found[0].end() :])
            start = at + found[0].end() + (rest.end() if rest else 0)
            entries.append((at, start, found[1](found[0]), find_time(head[: found[0].start()])))
        at += len(row) + 1
    if len({side for _, _, side, _ in entries}) != 2:
        return None
    before = data[: entries[0][0]]
    if re.search(rb"[\x02-\x06\x15\x17]", before):
        raise LogError("bytes of a line are before the first line with a direction", 1)
    bodies = [data[start:end] for (_, start, _, _), end in zip(entries, [one[0] for one in entries[1:]] + [len(data)])]
    ends = [found[1] for found in (re.match(rb"[\x04-\x06\x15](\r?\n)\Z", body) for body in bodies) if found]
    end_of_line = max(set(ends), key=ends.count) if ends else b"\n"
    pieces = []
    for (_, _, side, time), body in zip(entries, bodies):
        bare = body[: -len(end_of_line)] if body.endswith(end_of_line) else body
        # Where a frame's own CR LF ends the line, the log has no other.
        pieces.append(Piece(time, side, body if re.search(rb"[\x03\x17][0-9A-Fa-f]{2}\r?\Z", bare) else bare))
    return Log("trace", pieces, left_out([at for at, row in enumerate(before.split(b"\n"), 1) if row.strip()]))


def _goes_on(line: str, grammar: Grammar, pieces: List[Piece]) -> bool:
    """Whether a line without a direction is more of the bytes before it: it holds nothing but bytes."""
    if not pieces or find_time(line) is not None:
        return False
    if grammar.name == "words":
        if pieces[-1].data.rfind(2) > pieces[-1].data.rfind(10) and not _SURE.match(line.strip()):
            return True  # the frame before isn't ended
        return bool(_WORD.match(line.strip())) and not re.match(
            r"[<\[](?:ENQ|ACK|NAK|EOT|STX)[>\]]", line.strip(), re.I
        )
    return bool(re.match(r"\s+\S|[0-9A-Fa-f]{2}[\s,]", line)) and grammar.read(line.strip()) is not None


def _split(line: str, grammar: Grammar) -> Optional[Tuple[str, str, bytes]]:
    """What is before the direction of a line, the direction, and the bytes after it; None if it has no direction. It
    is the first one whose rest is all bytes."""
    limit = len(line)
    if grammar.name == "words":
        sure = _SURE.search(line)
        if sure:
            limit = sure.start()
    for rank, side, places in _marks_in(line):
        for found in places:
            if found.start() >= limit or not _is_head(line[: found.start()]):
                continue
            if rank in _ARROWS and find_time(side(found)) is not None:
                continue  # a time before an arrow is no name
            rest = line[found.end() :]
            separator = _SEPARATOR.match(rest)
            body = rest[separator.end() :] if separator else rest
            if grammar.name == "words":
                body = rest[len(rest) - len(rest.lstrip()) :]
                body = re.sub(r"^(?:\(?\d+\s*(?:bytes?|chars?)\)?)?[:\-=|,\]]*(?:\s*[:\-|])?\s?", "", body, flags=re.I)
            body = _CLOCK_FIRST.sub("", body)
            data = grammar.read(body) or grammar.read(re.sub(r"^\s*[\[(]\d+[\])]\s*[:\-=|]*\s*", "", body))
            if data:
                return line[: found.start()], side(found), data
    return None


def _is_head(text: str) -> bool:
    """Whether what is before a direction is a head: times, levels, counters, names; no bytes in words."""
    return len(text) < 120 and not _SURE.search(text) and re.search(r"<(?:CR|LF)>", text, re.I) is None


_NAME_FIRST = r"\W*(?:[\d/.\-]*[ T]?\d{1,2}:\d\d:\d\d(?:[.,]\d+)?)?\W*([A-Za-z][\w ]{0,24}?)\s*"
_NAMED, _NAMED_HEX = re.compile(_NAME_FIRST + r"[:>|\]]+\s*(.+)$"), re.compile(_NAME_FIRST + r"(?:[:>|\]]+\s*|\s)(.+)$")


def _named(read: List[Tuple[int, str]], grammar: Grammar, others: List[Tuple[int, str]]) -> Optional[Log]:
    """A log whose lines each begin with one of two names; a line of hex may have another beginning, and no bytes
    then. The other lines are left out."""
    pieces, left = [], list(others)
    for number, line in read:
        found = (_NAMED if grammar.name == "words" else _NAMED_HEX).match(line)
        data = grammar.read(found[2]) if found else None
        if found and data:
            pieces.append(Piece(find_time(line), found[1], data))
        elif grammar.name == "words":
            return None
        else:
            left.append((number, line))
    if len({one.side for one in pieces}) != 2:
        return None
    if grammar.name == "words":
        _no_text_around(pieces)
    for number, line in left:
        if holds_bytes(line):
            raise LogError(f"bytes that can't be read: {line[:60]!r}", number)
    return Log("trace", pieces, left_out(sorted(number for number, _ in left)))


#: What is before the bytes of a line without a direction: a time, a counter.
_HEAD = re.compile(r"\s*(?:\[?[\d/.\-]*[ T]?\d{1,2}:\d\d:\d\d(?:[.,]\d+)?\]?\s*)?(?:\d+[.:)]\s+)?")
#: One control byte in words, and nothing else.
_ONE_WORD = re.compile(rf"(?:{_WORD.pattern})\s*$", re.I)


def _unmarked(lines: List[str], grammar: Grammar) -> Log:
    """A log without directions: two columns by their indentation, or one with the replies among the rest."""
    if grammar.name not in ("words", "hex"):
        raise LogError("no line has a direction")
    full = [(number, line) for number, line in enumerate(lines, 1) if line.strip()]
    is_words = grammar.name == "words"
    read = [
        (number, line)
        for number, line in full
        if (
            _SURE.search(line) or _ONE_WORD.match(_HEAD.sub("", line, count=1))
            if is_words
            else grammar.read(line.strip()) is not None
        )
    ]
    numbers = {number for number, _ in read}
    left = [(number, line) for number, line in full if number not in numbers]
    named = _named(read, grammar, left) if is_words else _named(full, grammar, [])
    if named is not None:
        return named
    if not read:
        raise LogError("no line holds ENQ, a frame or a reply")
    bad = next((one for one in left if holds_bytes(one[1])), None)
    if bad is not None:
        raise LogError(f"bytes that can't be read: {bad[1][:60]!r}", bad[0])
    heads = [number for number, line in left if re.search(r"\b(?:%s|%s)\b" % (_OUT, _IN), line, re.I)]
    if len(heads) > 1:
        raise LogError(f"directions and bytes don't go together here: {lines[heads[0] - 1][:60]!r}", heads[0])
    pieces, how = _without_sides([line for _, line in read], grammar)
    if is_words:
        _no_text_around(pieces)
    remarks = [f"no line has a direction: {how}"]
    remarks += left_out([number for number, _ in left])
    return Log("trace", pieces, remarks)


def _without_sides(lines: List[str], grammar: Grammar) -> Tuple[List[Piece], str]:
    """The pieces of lines without directions, and a remark on what is assumed to be the two sides."""
    indents = [_indent(line) for line in lines]
    least = min(indents)
    wide = max(indents) - least >= 4
    pieces: List[Piece] = []
    for line, indent in zip(lines, indents):
        data = grammar.read(_HEAD.sub("", line, count=1).strip())
        if data is None:
            raise LogError(f"bytes that can't be read: {line[:60]!r}")
        if wide:
            side = "right" if indent - least >= 4 else "left"
        else:
            side = "replies" if data in (b"\x06", b"\x15") else "rest"
        pieces.append(Piece(find_time(line), side, data))
    if wide:
        return pieces, "the columns are assumed to be the two sides"
    return pieces, "lines that are one ACK or NAK are assumed to be the computer's"


def _indent(line: str) -> int:
    bare = line.expandtabs()
    return len(bare) - len(bare.lstrip())
