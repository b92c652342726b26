"""Logs of serial tools by their manuals: socat, strace, interceptty, Portmon, Eltima, Free Serial Port Monitor,
jpnevulator, ngrep, slsnif, and dumps of one direction."""
import ast
import re
from typing import Dict, List, Optional, Tuple

from ..diagnosis.log import Log, LogError, Piece, find_time, hex_row, holds_bytes, left_out, likeness

_SOCAT = re.compile(r"([<>]) (\d+/\d+/\d+ \d+:\d+:\d+)\.(\d+) +length=(\d+) from=\d+ to=\d+\s*$")


def socat(text: str) -> Log:
    """`socat -x`, with -v or without. Some versions print microseconds in nine digits."""
    pieces: List[Piece] = []
    wanted = 0
    fractions = re.findall(r"^[<>] \S+ \d+:\d+:\d+\.(\d+) +length=", text, re.M)
    micro = all(len(one) == 9 and one.startswith("000") for one in fractions)
    for number, line in enumerate(text.splitlines(), 1):
        head = _SOCAT.match(line)
        if head and wanted == 0:
            fraction = head[3][3:] if micro else head[3]
            pieces.append(Piece(find_time(f"{head[2]}.{fraction}"), head[1], b""))
            wanted = int(head[4])
            continue
        digits = re.match(r"((?: [0-9a-f]{2}){1,%d})(?:  .*)?$" % max(wanted, 1), line)
        if wanted and digits:
            data = bytes.fromhex(digits[1])
            wanted -= len(data)
            pieces[-1] = pieces[-1]._replace(data=pieces[-1].data + data)
        elif wanted and re.match(r"(?: [0-9a-f]{2})+(?:  .*)?$", line):
            raise LogError("the block has more bytes than its length", number)
        elif wanted:
            raise LogError(
                f"the block lacks {wanted} bytes; socat -v alone loses control bytes, socat -x has them", number
            )
        elif not re.match(r"(--|)$|\d+/\d+/\d+ \d+:\d+:\d+(\.\d+)? socat\[\d+\] ", line):
            raise LogError(f"no line of socat -x: {line[:60]!r}", number)
    if wanted:
        raise LogError("the last block lacks bytes")
    return Log("socat", pieces, [])


_NAMES = "read|readv|recv|recvfrom|recvmsg|write|writev|send|sendto|sendmsg"
_CALL = re.compile(rf"\b({_NAMES})\((\d+)(<.*?>)?,\s*(.*)$")
#: A call that moves bytes of no descriptor that can be read, or the end of a call that doesn't begin in the log.
_NO_DESCRIPTOR = re.compile(rf"\b(?:{_NAMES})\((?!\d+[<,])|^(?!.*\w\()")
_STRING = re.compile(r'"((?:[^"\\]|\\.)*)"(\.\.\.)?')
#: Another call that moves bytes of a descriptor, with some of them.
_OTHER_CALL = re.compile(r'(\S+)\((\d+)(?:<.*?>)?,.*"[^"]')
#: Sides of pieces that aren't whole; their data is the line's number.
_CUT, _OPEN, _UNREAD = "cut", "open", "unread"
_WHY = {
    _CUT: "strace left bytes out (...): ask it for -s 4096",
    _OPEN: "the call has no result: whether its bytes went over the line isn't known",
    _UNREAD: "a call that isn't read here moves bytes of this descriptor",
}


def strace(text: str, fd: Optional[int] = None) -> Log:
    """`strace -e trace=read,write,..` with or without -f, -t, -tt, -ttt, -x, -xx, -y: of the descriptor that has ENQ or
    STX, or of the one that is named."""
    found: Dict[int, List[Piece]] = {}
    left: List[int] = []
    open_calls: Dict[str, Tuple[str, int]] = {}
    for number, line in enumerate(text.splitlines(), 1):
        who = re.match(r"\s*(?:\[pid\s+(\d+)\]|(\d+)\s)", line)
        key = (who[1] or who[2]) if who else ""
        if line.rstrip().endswith("<unfinished ...>"):
            open_calls[key] = line.rstrip()[: -len("<unfinished ...>")].rstrip(), number
            continue
        resumed = re.search(r"<\.\.\. \w+ resumed>(.*)$", line)
        if resumed:
            begun, _ = open_calls.pop(key, ("", 0))
            before = re.sub(r",\s*$", "", begun)
            line = (before + "," if begun.endswith(",") or begun != before else before) + " " + resumed[1].lstrip(", ")
        if re.search(r'".*\)\s*=\s*[1-9]', line) and _NO_DESCRIPTOR.search(line):
            left.append(number)
        _put_call(line, number, found)
    for begun, number in open_calls.values():
        _put_call(begun, number, found)
    return Log("strace", _descriptor(found, fd), left_out(left, "of calls without a descriptor"))


def _put_call(line: str, number: int, found: Dict[int, List[Piece]]) -> None:
    """Puts what a call moved to the pieces of its descriptor."""
    call = _CALL.search(line)
    other = None if call else _OTHER_CALL.search(line)
    count = re.search(r"\)\s*=\s*(-?\d+\b|\?)[^\"]*$", line)
    one, moved = call or other, count[1] if count else ""
    if one is None or moved in ("0", "?") or moved.startswith("-"):
        return
    pieces = found.setdefault(int(one[2]), [])
    if call is None or not moved:
        if '"' in line:
            pieces.append(Piece(None, _UNREAD if call is None else _OPEN, str(number).encode()))
        return
    data = _string_bytes(call[4])
    if len(data) < int(moved):
        pieces.append(Piece(None, _CUT, str(number).encode()))
        return
    side = "read" if call[1].startswith(("read", "recv")) else "write"
    pieces.append(Piece(find_time(line.split("(")[0]), side, data[: int(moved)]))


def _string_bytes(text: str) -> bytes:
    data = b""
    for one in _STRING.finditer(text):
        try:
            data += ast.literal_eval('b"' + re.sub(r"[^\x00-\x7f]", "?", one[1]) + '"')
        except (ValueError, SyntaxError):
            raise LogError(f"no string of strace: {one[1][:40]!r}") from None
        if "iov_base" not in text:
            break
    return data


def _descriptor(found: Dict[int, List[Piece]], fd: Optional[int]) -> List[Piece]:
    if fd is not None and fd not in found:
        raise LogError(f"descriptor {fd} is neither read nor written in the log")
    likes = {one: likeness([piece for piece in pieces if piece.side not in _WHY]) for one, pieces in found.items()}
    linked = [one for one, like in likes.items() if one == fd or fd is None and like and like == max(likes.values())]
    if not linked:
        raise LogError("no descriptor carries ENQ or STX")
    if len(linked) > 1:
        raise LogError("descriptors " + ", ".join(map(str, linked)) + " carry ENQ or STX: choose one by --fd")
    pieces = found[linked[0]]
    bad = next((piece for piece in pieces if piece.side in _WHY), None)
    if bad is not None:
        raise LogError(_WHY[bad.side], int(bad.data))
    return pieces


def interceptty(text: str) -> Log:
    """interceptty: a byte a line, `> <tab>0x05 (^E)`, with times before it or without."""
    pieces = []
    for number, line in enumerate(text.splitlines(), 1):
        found = re.match(r"(.*?)([<>])\s+(?:0x|\\x)?([0-9a-fA-F]{2})\b(?:\s+\(?.*)?$", line)
        if found and len(found[1].split()) <= 2:
            pieces.append(Piece(find_time(found[1]), found[2], bytes.fromhex(found[3])))
        elif line.strip() and not re.match(r"\s*[#*]", line):
            raise LogError(f"no line of interceptty: {line[:60]!r}", number)
    return Log("interceptty", pieces, [])


#: A line of Portmon with bytes: after the length, after a word, or pairs of digits alone.
_WITH_BYTES = re.compile(
    r"IRP_MJ_(?:READ|WRITE)\b.*(?:\bLength:? \d+:|\bData:? +\S|\s[0-9A-Fa-f]{2}[ \t]+[0-9A-Fa-f]{2}\b)"
)


def portmon(text: str) -> Log:
    """Portmon and AccessPort: IRP_MJ_READ and IRP_MJ_WRITE with `Length 5: 02 31 ..` or `Length: 5, Data: 02 31 ..`."""
    pieces, left = [], []
    for number, line in enumerate(text.splitlines(), 1):
        found = re.search(r"\bIRP_MJ_(READ|WRITE)\b.*?\bLength:? *(\d+)(?::|, *Data:)\s*(.*?)\s*$", line)
        if not found:
            if _WITH_BYTES.search(line):
                raise LogError(f"no line of Portmon: {line[:60]!r}", number)
            left += [number] if line.strip() else []
            continue
        data = hex_row(found[3]) or b""
        if len(data) != int(found[2]):
            raise LogError(f"Portmon shows {len(data)} of {found[2]} bytes: raise its output length", number)
        pieces.append(Piece(find_time(line), found[1], data))
    return Log("portmon", pieces, left_out(left))


def irp_table(text: str) -> Log:
    """Tables with IRP_MJ_READ and IRP_MJ_WRITE, as Eltima's Serial Port Monitor exports them: the first column of
    pairs after the function has the bytes."""
    pieces, left = [], []
    for number, line in enumerate(text.splitlines(), 1):
        found = re.search(r"\bIRP_MJ_(READ|WRITE)\b(.*)$", line)
        cells = re.split(r"\t|\"?[,;]\"?|\s{2,}", found[2]) if found else []
        data = next(
            (cell.strip(' "') for cell in cells if re.match(r'[" ]*[0-9a-fA-F]{2}( [0-9a-fA-F]{2})*[" ]*$', cell)),
            None,
        )
        if found and data:
            pieces.append(Piece(find_time(line), found[1].lower(), bytes.fromhex(data)))
        elif found and (holds_bytes(found[2]) or any(re.match(r"(?:0x)?[0-9a-fA-F]{6,}$", one) for one in cells)):
            raise LogError(f"bytes that can't be read: {line[:60]!r}", number)
        elif line.strip():
            left.append(number)
    return Log("irp-table", pieces, left_out(left))


#: A line above rows of bytes: its side in one of the groups.
_HEADS = [
    re.compile(r"\[.*?\]\s*-?\s*(?P<side>Read|Written|Received|Sent|Write) data\b.*$", re.I),  # Eltima
    re.compile(r"(?P<side>Request|Answer):\s*\d.*$"),  # Free Serial Port Monitor, dump view
    re.compile(r"\d+:?\s.*?(?P<side>Read|Write) (?:Request )?\((?:UP|DOWN)\).*$", re.I),  # the same, request view
    re.compile(r"\d+:?\s+\d.*?(?P<side>IRP_MJ_READ|IRP_MJ_WRITE)\b.*?(?:UP|DOWN)?.*$"),
    re.compile(r"\d{4}-\d\d-\d\d \d\d:\d\d:\d\d(?:\.\d+)?: (?P<side>\S+)\s*$"),  # jpnevulator
    re.compile(r"T (?:\d{4}/\d\d/\d\d \d\d:\d\d:\d\d\.\d+ )?(?P<side>\S+:\d+) -> \S+:\d+ \[\w+\].*$"),  # ngrep -x
    re.compile(r"(?P<side>(?:\d{3}\.){4}\d{5})-(?:\d{3}\.){4}\d{5}: *$"),  # tcpflow -c -D
    re.compile(r"<?(?P<time>\d{14}\.\d{3}) (?P<side>TX|RX)>?\s*$"),  # Advanced Serial Port Logger
    re.compile(
        r"\[?[\d/.\- :]+(?:AM|PM)?\]?,?\s*\[?(?P<side>TX|RX|Read|Write|Sent|Received|IN|OUT)\]?\b[^0-9]*(?:\d+ bytes?\b.*|\(\d+.*)?$",
        re.I,
    ),
]


_ROW_OFFSET = re.compile(r"^\s*(?:0x)?[0-9a-fA-F]{4,8}(?:[:h]\s{1,3}(?=[0-9a-fA-F]{2})|\s{1,3}(?=[0-9a-fA-F]{2}\s))")


def is_blocks(text: str) -> bool:
    """Whether at least two lines with a side are each above a row of bytes."""
    rows = [line for line in text.splitlines() if line.strip() and not re.match(r"\s*Data:?\s*$", line)]
    return (
        sum(
            1
            for line, after in zip(rows, rows[1:])
            if _head(line)
            and not _head(after)
            and hex_row(_ROW_OFFSET.sub(" ", re.sub(r"^\s*Data:", " ", after))) is not None
        )
        >= 2
    )


def _head(line: str) -> "Optional[re.Match[str]]":
    return next((found for found in (one.match(line.strip()) for one in _HEADS) if found), None)


_IGNORED = re.compile(
    r"(#+|\s*Process\b.*|\s*Data:?|\s*Port (?:opened|closed).*|\s*(?:Length|Status|Buffer).*|--+|==+|interface:.*|filter:.*|\*+.*)?\s*$",
    re.I,
)


def blocks(text: str) -> Log:
    """Logs in which a line with the side and the time is above rows of bytes: Eltima's Serial Port Monitor, the Free
    Serial Port Monitor, jpnevulator, ngrep -x, the Advanced Serial Port Logger and others."""
    pieces: List[Piece] = []
    side, time, fresh = "", None, False  # type: str, Optional[int], bool
    left = []
    for number, line in enumerate(text.splitlines(), 1):
        head = _head(line)
        row = re.sub(r"^\s*Data:\s*", " ", line)
        row = _ROW_OFFSET.sub(" ", row) if side else row
        data = hex_row(row) if side and row[:1].isspace() or side and hex_row(row) else None
        if head:
            side, time, fresh = head["side"].lower(), find_time(line), True
        elif data is not None:
            if fresh:
                pieces.append(Piece(time, side, data))
                fresh = False
            else:
                pieces[-1] = pieces[-1]._replace(data=pieces[-1].data + data)
        elif holds_bytes(line) or re.match(r"\s+(?:[0-9a-fA-F]{2}\s+){2,}", line):
            raise LogError(f"an incomplete row of bytes: {line[:60]!r}", number)
        elif not _IGNORED.match(line):
            left.append(number)
    return Log("blocks", pieces, left_out(left))


#: A byte of slsnif: as a character or ^X, and its value.
_VALUED = re.compile(r"(?:\^.|.)\((\d{3}|[0-9a-f]{2})\)\s?", re.S)


def slsnif(text: str) -> Log:
    """slsnif: `Host   --> H(072)|(124)` and `Device --> ^F(006)`, the value of each byte in parentheses."""
    pieces, left = [], []
    for number, line in enumerate(text.splitlines(), 1):
        found = re.match(r"(.*?)\b(Host|Device)\s*-->\s?(.*)$", line)
        if not found:
            if re.search(r"\((?:\d{3}|[0-9a-f]{2})\)", line):
                raise LogError(f"no line of slsnif: {line[:60]!r}", number)
            left += [number] if line.strip() else []
            continue
        if _VALUED.sub("", found[3]).strip():
            raise LogError(f"a byte without its value: {line[-60:]!r}", number)
        values = _VALUED.findall(found[3])
        data = bytes(int(one) if len(one) == 3 else int(one, 16) for one in values)
        pieces.append(Piece(find_time(found[1]), found[2], data))
    return Log("slsnif", pieces, left_out(left))


_OFFSET = re.compile(r"^\s*([0-9a-fA-F]{6,8}|[0-9a-fA-F]{4})[:h]?(?:\s+|$)")


def hex_dump(text: str) -> Log:
    """A dump of one direction: xxd, hexdump -C, od -tx1, RealTerm's capture as hex, or digits alone."""
    data = b""
    repeat, rows, base = False, text.splitlines(), _offset_base(text)
    words = _has_words(text)
    for number, line in enumerate(rows, 1):
        if not line.strip() or line.lstrip().startswith("#") and not holds_bytes(line):
            continue
        if line.strip() == "*":
            if not base:
                raise LogError("rows that are repeated (*) have no offsets here: how many isn't known", number)
            repeat = True
            continue
        found = _OFFSET.match(line) if base else None
        if found:
            place = int(found[1], base)
            if repeat and place > len(data) >= 16:
                while len(data) < place:
                    data += data[-16:]
            repeat = False
            if place != len(data):
                raise LogError(f"the offset {found[1]} doesn't follow the bytes before: a row is missing", number)
            line = line[found.end() :]
            if not line.strip():
                continue
        row = hex_row(line)
        if row is None:
            raise LogError(f"no row of a hex dump: {line[:60]!r}", number)
        if words:
            row = b"".join(row[at : at + 2][::-1] for at in range(0, len(row), 2))
            ends = [int(last[1], base) for last in map(_OFFSET.match, rows[-1:]) if last]
            row = row[: ends[0] - len(data)] if ends and ends[0] > len(data) else row
        data += row
    if repeat:
        raise LogError("the dump ends in rows that are repeated (*): how many isn't known", len(rows))
    return Log("hex", [Piece(None, "", data)], [])


def _has_words(text: str) -> bool:
    """Whether this is hexdump without -C, or od -x: offsets of seven digits, words of two bytes with the low one
    first."""
    rows = [line for line in text.splitlines() if line.strip() and line.strip() != "*"]
    return (
        len(rows) > 1
        and all(re.match(r"\d[0-9a-f]{6}(?: +[0-9a-f]{4})*\s*$", line) for line in rows)
        and bool(re.match(r"[0-9a-f]{7}\s*$", rows[-1]))
    )


def _offset_base(text: str) -> int:
    """Whether rows begin with offsets, and whether those are of base 16 or 8; 0 for none."""
    rows = [line for line in text.splitlines() if line.strip() and line.strip() != "*"]
    heads = [_OFFSET.match(line) for line in rows]
    if not rows or not all(heads) or re.match(r"\s*([0-9a-fA-F]{2}){2,}\s*$", rows[0]):
        return 0
    places = [found[1] for found in heads if found]
    if int(places[0], 16) != 0:
        return 0
    if len(places) > 1:
        size = len(hex_row(rows[0][heads[0].end() :]) or b"")  # type: ignore[union-attr]
        if int(places[1], 16) != size and re.match("[0-7]+$", places[1]) and int(places[1], 8) == size:
            return 8
    return 16


def is_hex_dump(text: str) -> bool:
    """Whether each line is a row of a hex dump."""
    rows = [line for line in text.splitlines() if line.strip() and line.strip() != "*"]
    base = _offset_base(text)
    if not rows:
        return False
    return all(_is_hex_row(line, base) for line in rows)


def _is_hex_row(line: str, base: Optional[int]) -> bool:
    """Whether a line is a row of a hex dump: an offset alone, or with bytes after it."""
    offset = _OFFSET.match(line) if base else None
    if offset and not line[offset.end() :].strip():
        return True
    return hex_row(_OFFSET.sub("", line, count=1) if base else line) is not None
