"""Converts sniffers' logs to captures: finds a log's form, which side is the analyzer, and the lines of the capture."""
import contextlib
import gzip
import re
import shlex
import struct
import zlib
from typing import Callable, Dict, List, NamedTuple, Optional, Sequence, Tuple

from lislink.capture import Capture, Line, LINE_BYTES
from lislink.codes import Kind
from lislink.link import Scanner
from ..diagnosis.log import NEW, SECOND, Log, LogError, Piece, decode, in_order
from . import packets, serial_tools, traces, wireshark

ENQ, ACK, NAK, EOT, STX, LF = 5, 6, 0x15, 4, 2, 10


class Options(NamedTuple):
    """The options of a user for a log."""

    form: Optional[str] = None
    analyzer_side: Optional[str] = None
    swap: bool = False
    port: Optional[int] = None
    stream: Optional[int] = None
    fd: Optional[int] = None
    timer: Optional[float] = None
    mixed: bool = False
    units: bool = False
    skip_missing: bool = False


class Form(NamedTuple):
    """A form: what a text of it has, its reader, and the options that this reader takes."""

    pattern: str
    reader: Callable[..., Log]
    takes: Sequence[str] = ()

    def read(self, text: str, ask: Options) -> Log:
        """The pieces of a text."""
        return self.reader(text, **{name: getattr(ask, name) for name in self.takes})


_CHOICE = ("port", "stream")
#: The forms by their names: whether a text looks so, and its reader.
FORMS: Dict[str, Form] = {
    "socat": Form(r"^[<>] \d+/\d+/\d+ \S+ +length=\d+ from=", serial_tools.socat),
    "strace": Form(
        r"\b(?:read|write|recv\w*|send\w*|readv|writev)\(\d+(?:<.*?>)?,\s+[\"\[{<]?",
        serial_tools.strace, ("fd",),
    ),
    "json-lines": Form(
        r"\A\s*\{(?![^\n]*\"(?:_index|index|layers)\")[^\n]*\"(?:data|bytes|payload|hex|raw|message|msg)\"[^\n]*\}\s*$",
        traces.json_lines,
    ),
    "tshark-json": Form(r"\A\s*(?:\[\s*)?\{[^{]*\"(?:_index|index|timestamp)\"", wireshark.tshark_json, _CHOICE),
    "tshark-pdml": Form(r"<pdml\b", wireshark.tshark_pdml, _CHOICE),
    "wireshark-yaml": Form(r"!!binary", wireshark.follow_yaml),
    "wireshark-c": Form(r"\bpeer\d+_\d+\s*\[\]\s*=", wireshark.follow_c),
    "tshark-raw": Form(r"^Follow: tcp,raw", wireshark.follow_raw),
    "packet-text": Form(r"^\s*(?:0x)?0000:?  ?(?:[0-9a-f]{2} ?){15}[0-9a-f]{2}\b", packets.packet_text, _CHOICE),
    "wireshark-text": Form(
        r"^Transmission Control Protocol, Src Port:(?s:.*)^\s*(?:\[truncated\])?Data(?: \[truncated\])?: ?[0-9a-f]{2}",
        wireshark.wireshark_text, _CHOICE,
    ),
    "wireshark-hex": Form(
        r"^(?:\t| {2,})[0-9A-Fa-f]{8}  ?(?:[0-9a-f]{2} ){1,}|^Follow: tcp,hex|"
        r"\A[0-9A-F]{8}  [0-9a-f]{2}(?: +\S+)? *\n(?s:.*)^[0-9A-F]{6}[1-9A-F][0-9A-F]  |"
        r"\A[0-9A-F]{8}  [0-9a-f]{2}(?: +\S+)? *\n(?s:.*)^0000000[1-9A-F]  ",
        wireshark.follow_hex,
    ),
    "portmon": Form(r"\bIRP_MJ_(?:READ|WRITE)\b.*\bLength:? \d+", serial_tools.portmon),
    "csv-table": Form(
        r"\A(?!\"?[a-z]+\.[a-z_.]+)[^\n]*\b(?:data|value|payload|hex|bytes)\b[^\n]*\n(?:[^\n]*[,;\t])?\"?(?:0x)?[0-9a-fA-F]{2}[0-9a-fA-Fx ]*\"?[,;\t\n]",
        traces.csv_table,
    ),
    "irp-table": Form(
        r"\bIRP_MJ_(?:READ|WRITE)\b.*[\t,; ]\"?[0-9a-fA-F]{2}(?: [0-9a-fA-F]{2})*\"?\s*(?:[\t,;]| {2}|$)",
        serial_tools.irp_table,
    ),
    "interceptty": Form(r"^(?:[\d.:/\- ]*)[<>]\s+0x[0-9a-fA-F]{2}\b(?!,? ?0x)", serial_tools.interceptty),
    "slsnif": Form(r"\b(?:Host|Device)\s*-->.*\((?:\d{3}|[0-9a-f]{2})\)", serial_tools.slsnif),
    "blocks": Form(
        r"^\[.*?\]\s*(?:Read|Written|Received|Sent) data\b|^(?:Request|Answer):\s*\d|(?:Read|Write) (?:Request )?"
        r"\((?:UP|DOWN)\)|^\d{4}-\d\d-\d\d \d\d:\d\d:\d\d(?:\.\d+)?: \S+\s*\n|^T .*\S+:\d+ -> \S+:\d+ \[|"
        r"^<?\d{14}\.\d{3} (?:TX|RX)>?\s*$",
        serial_tools.blocks,
    ),
    "k12": Form(r"^\|0\s*\|(?:[0-9a-f]{2}\|){20}", packets.k12, _CHOICE),
    "tshark-fields": Form(r"[\t,;|]", wireshark.tshark_fields, _CHOICE),
    "hex": Form("", serial_tools.hex_dump),
    "trace": Form("", traces.traces),
}
LOSSY = [
    (
        r"^Follow: tcp,ascii",
        "Follow TCP Stream as ASCII has lost the control bytes: save it as Raw, hex dump or YAML",
    ),
    (
        r"^[<>] \d+/\d+/\d+ \S+ +length=\d+ from=.*\n(?! [0-9a-f]{2})",
        "socat -v alone loses control bytes: use socat -x",
    ),
]


def form_of(text: str) -> str:
    """Which form a text has."""
    for pattern, why in LOSSY:
        if re.search(pattern, text, re.M):
            raise LogError(why)
    if serial_tools.is_hex_dump(text) and not re.search(FORMS["wireshark-hex"].pattern, text, re.M):
        is_packet = re.search(FORMS["packet-text"].pattern, text, re.M) and _looks(packets.are_packets, text)
        return "packet-text" if is_packet else "hex"
    for name, (pattern, *_) in FORMS.items():
        if name == "tshark-fields" and serial_tools.is_blocks(text):
            return "blocks"
        if pattern and re.search(pattern, text, re.M | (re.I if name in ("blocks", "csv-table") else 0)):
            seems = {"tshark-fields": wireshark.is_table, "packet-text": packets.are_packets}.get(name)
            if seems is None or _looks(seems, text):
                return name
    return "trace"


def _looks(seems: Callable[[str], bool], text: str) -> bool:
    """Whether a text seems to be of a form; it isn't if it can't be read as one."""
    try:
        return seems(text)
    except (LogError, IndexError, ValueError):
        return False


def read_log(data: bytes, ask: Options) -> Log:
    """The pieces of a log, in the form that is named or found."""
    try:
        return _read_log(data, ask)
    except (ValueError, IndexError, KeyError, struct.error) as error:
        raise LogError(
            f"the log is incomplete, or of another form ({type(error).__name__}: {error}): see --form"
        ) from error


def _read_log(data: bytes, ask: Options) -> Log:
    if data[:2] == b"\x1f\x8b":
        data = _unpacked(data)
    if not data.strip(b"\0\r\n\t "):
        raise LogError("the file is empty")
    if ask.form in ("pcap", None) and packets.is_packets(data):
        remarks: List[str] = []
        log = packets.read_packets(packets.packets_of(data, remarks), "pcap", ask.stream, ask.port, ask.skip_missing)
        return log._replace(remarks=log.remarks + remarks)
    if ask.form == "raw" or ask.form is None and _is_raw(data):
        mixed = traces.with_control_bytes(data) if ask.form is None else None
        return mixed or Log("raw", [Piece(None, "", data)], [])
    text = decode(data)
    form = ask.form or form_of(text)
    if form == "pcap" or form not in FORMS:
        raise LogError("the file is neither pcap nor pcapng" if form == "pcap" else f"there is no form {form}")
    try:
        return FORMS[form].read(text, ask)
    except LogError:
        if ask.form is None and form in ("tshark-fields", "csv-table", "hex", "blocks"):
            with contextlib.suppress(LogError):
                log = traces.traces(text)  # a table or blocks may be a trace with directions in words
                if log.pieces and not any("no line has a direction" in one for one in log.remarks):
                    return log
        raise


def _unpacked(data: bytes) -> bytes:
    try:
        return gzip.decompress(data)
    except (OSError, EOFError, zlib.error) as error:
        raise LogError(f"the file is compressed and can't be decompressed: {error}") from None


def _is_raw(data: bytes) -> bool:
    """Whether these are the bytes of the line themselves, not a log of them."""
    controls = sum(data.count(byte) for byte in (2, 3, 4, 5, 6, 0x15, 0x17))
    is_text = data[:2] in (b"\xff\xfe", b"\xfe\xff") or len(data) > 3 and data[1:2] == b"\0" == data[3:4]
    if not is_text and data.count(0) * 12 > len(data):
        raise LogError("a binary file of a form that isn't read here: save it as pcap or pcapng")
    return controls > 0 and not is_text


def capture_of(log: Log, ask: Options) -> Tuple[Capture, List[str]]:
    """The capture of a log, and remarks on what was found."""
    pieces = in_order([one for one in log.pieces if one.data or one.side == NEW])
    if not any(one.data for one in pieces):
        raise LogError("no bytes of a line are in the log")
    remarks = [f"form: {log.form}"] + log.remarks
    sides = list(dict.fromkeys(one.side for one in pieces if one.side != NEW))
    if len(sides) == 1:
        pieces = _of_one_side(pieces, ask, remarks)
        sides = ["analyzer", "computer"]
        analyzer = "analyzer"
    else:
        analyzer = _analyzer(pieces, sides, ask, remarks)
    if ask.swap:
        analyzer = next((one for one in sides if one != analyzer), analyzer)
    others = [one for one in sides if one != analyzer]
    if len(others) > 1:
        raise LogError("more than two sides are in the log: " + ", ".join(sides))
    pieces = _by_units(pieces) if ask.units else _grouped(pieces)
    return _lines(pieces, analyzer, ask.timer), remarks


def _of_one_side(pieces: List[Piece], ask: Options, remarks: List[str]) -> List[Piece]:
    """One direction alone, a line for each unit; with `--mixed` the replies among them are the computer's."""
    data = b"".join(one.data for one in pieces)
    if not any(byte in data for byte in (ENQ, STX)) and not ask.mixed:
        found = [one for one in (ACK, NAK) if one in data]
        if found and len(data.strip(bytes([ACK, NAK, EOT]))) == 0:
            raise LogError("the log has only replies: it is the computer's side")
    told: List[Piece] = []
    replies = False
    for piece in pieces:
        start, is_open = 0, False
        for place, byte in enumerate(piece.data):
            reply = byte in (ACK, NAK) and not is_open
            replies = replies or reply
            is_open = byte == STX or is_open and byte not in (LF, ENQ, EOT)
            if reply and ask.mixed:
                if place > start:
                    told.append(Piece(piece.time, "analyzer", piece.data[start:place]))
                told.append(Piece(piece.time, "computer", bytes([byte])))
                start = place + 1
            elif byte in (ENQ, EOT, LF):
                told.append(Piece(piece.time, "analyzer", piece.data[start : place + 1]))
                start = place + 1
        if start < len(piece.data):
            told.append(Piece(piece.time, "analyzer", piece.data[start:]))
    if ask.mixed:
        remarks.append("both sides are in one stream: ACK and NAK outside frames are assumed to be the computer's")
    elif replies:
        remarks.append("ACK or NAK is among the bytes: if both sides are in one stream, --mixed takes them apart")
    if not ask.mixed:
        remarks.append("only one direction: the computer's replies are not in the log")
    return told


def swapped(capture: Capture) -> Capture:
    """A capture the other way round: the sides are swapped. What happened to the computer's receiver says nothing
    then."""
    told = [(line, time) for (_, line), time in zip(capture.lines, capture.times) if line.mark in ("", ">", "<")]
    lines = [line._replace(mark={">": "<", "<": ">"}.get(line.mark, "")) for line, _ in told]
    return Capture(1, list(enumerate(lines, 1)), [time for _, time in told])


def _analyzer(pieces: List[Piece], sides: List[str], ask: Options, remarks: List[str]) -> str:
    """The side that is the analyzer: the one that is named; the only one that sends ENQ, or frames; the one that sends
    results or queries; the first that sends ENQ."""
    if ask.analyzer_side is not None:
        name = ask.analyzer_side.lower()
        wanted = [one for one in sides if ask.analyzer_side == one] or [one for one in sides if name in one.lower()]
        if len(wanted) != 1:
            raise LogError(f"{ask.analyzer_side} isn't one of the two sides: " + ", ".join(sides))
        return wanted[0]
    joined = {one: b"".join(piece.data for piece in pieces if piece.side == one) for one in sides}
    for byte, name in ((ENQ, "ENQ"), (STX, "frames")):
        senders = [one for one in sides if byte in joined[one]]
        if len(senders) == 1:
            remarks.append(f"the analyzer is {senders[0]!r}: it alone sends {name}")
            return senders[0]
        if len(senders) > 1 and byte == ENQ:
            telling = [one for one in senders if re.search(rb"(?:[\x02][0-7]|\r)[RQrq][|!-/:-@\[-`{-~]", joined[one])]
            if len(telling) == 1:
                remarks.append(
                    f"both sides send ENQ; the analyzer is {telling[0]!r}: it alone sends results or queries "
                    "(--swap turns that round)"
                )
                return telling[0]
            first = next(piece.side for piece in pieces if piece.side != NEW and ENQ in piece.data)
            remarks.append(
                f"both sides send ENQ; the first, {first!r}, is assumed to be the analyzer (--swap reverses that)"
            )
            return first
    options = " or ".join(f"--analyzer-side={shlex.quote(one)}" for one in sides)
    raise LogError(f"neither side sends ENQ or STX: name the analyzer's side by {options}")


def _grouped(pieces: List[Piece]) -> List[Piece]:
    """Single bytes that follow one another on one side are put together, since a log byte by byte knows no pieces."""
    told: List[Piece] = []
    single = False
    for piece in pieces:
        if told and single and len(piece.data) == 1 and piece.side == told[-1].side != NEW and not _ends(told[-1].data):
            told[-1] = told[-1]._replace(data=told[-1].data + piece.data)
            continue
        single = len(piece.data) == 1
        told.append(piece)
    return told


def _by_units(pieces: List[Piece]) -> List[Piece]:
    """A line for each unit, whatever pieces the log has: so logs of one session by several tools give one capture."""
    told: List[Piece] = []
    for piece in pieces:
        if piece.side == NEW:
            told.append(piece)
            continue
        start = 0
        for place in range(len(piece.data)):
            unit = piece.data[start : place + 1]
            whole = unit
            if told and told[-1].side == piece.side and not _ends(told[-1].data):
                whole = told[-1].data + unit
            if _ends(whole) or place == len(piece.data) - 1:
                if whole is unit:
                    told.append(piece._replace(data=unit))
                else:
                    told[-1] = told[-1]._replace(data=whole)
                start = place + 1
    return told


def _ends(data: bytes) -> bool:
    """Whether a unit ends here."""
    return data[-1] in (ENQ, EOT, ACK, NAK) and len(data) == 1 or data[-1] == LF and STX in data


def _lines(pieces: List[Piece], analyzer: str, timer: Optional[float]) -> Capture:
    lines: List[Line] = []
    times: List[Optional[int]] = []
    last: Optional[int] = None
    for piece in pieces:
        if piece.side == NEW:
            lines.append(Line("R"))
            times.append(piece.time)
            continue
        mark = ">" if piece.side == analyzer else "<"
        if mark == ">":
            if timer is not None and last is not None and piece.time is not None and piece.time - last > timer * SECOND:
                lines.append(Line("T"))
                times.append(last + int(timer * SECOND))
            last = piece.time
        for start in range(0, len(piece.data), LINE_BYTES):
            lines.append(Line(mark, piece.data[start : start + LINE_BYTES]))
            times.append(piece.time)
    version = 2 if any(line.mark == "R" for line in lines) else 1
    return Capture(version, list(enumerate(lines, version)), times)


def of_two_dumps(analyzer: bytes, computer: bytes) -> Tuple[Capture, List[str]]:
    """A capture of the bytes of each direction: a reply of the computer is put after each ENQ and each frame. The
    order is a guess by the rules of the link, and a remark reports that."""
    pieces: List[Piece] = []
    at = used = 0
    with Scanner() as scanner:
        for place, signal in scanner.feed_placed(analyzer):
            if signal.kind in (Kind.ENQ, Kind.FRAME, Kind.BAD_FRAME, Kind.EOT):
                pieces.append(Piece(None, "analyzer", analyzer[at : place + 1]))
                at = place + 1
                if signal.kind is not Kind.EOT and used < len(computer):
                    pieces.append(Piece(None, "computer", computer[used : used + 1]))
                    used += 1
    if at < len(analyzer):
        pieces.append(Piece(None, "analyzer", analyzer[at:]))
    remarks = ["two dumps: their order isn't known; a reply is put after each ENQ and each frame"]
    if used < len(computer):
        pieces.append(Piece(None, "computer", computer[used:]))
        remarks.append(
            f"{len(computer) - used} bytes of the computer are left over: they are the last line, and answer nothing"
        )
    if not pieces:
        raise LogError("both dumps are empty")
    return _lines(pieces, "analyzer", None), remarks
