"""Reads what Wireshark and tshark write as text: Follow TCP Stream (hex dump, C arrays, YAML, raw) and fields, JSON,
PDML."""
import base64
import binascii
import csv
import json
import re
from typing import Any, Dict, Iterator, List, Optional, Tuple

from ..diagnosis.log import SECOND, Log, LogError, Piece, find_time, hex_row, holds_bytes, left_out
from .packets import Packet, Segment, connections_of, joined, read_packets

_HEX = re.compile(r"^(?:[0-9A-Fa-f]{2})(?:[:\- ]?[0-9A-Fa-f]{2})*$")


def _bytes(text: str) -> bytes:
    return bytes.fromhex(re.sub(r"[:\- ]", "", text))


def follow_hex(text: str) -> Log:
    """Follow TCP Stream as a hex dump: rows of an offset and 16 bytes; those of the second end are indented."""
    pieces: List[Piece] = []
    due: Dict[str, int] = {}
    full = False
    for number, line in enumerate(text.splitlines(), 1):
        found = re.match(r"(\s*)([0-9A-Fa-f]{8})  ?(.*)$", line)
        if not found:
            if not re.match(r"(=+|Follow:.*|Filter:.*|Node \d:.*|\s*)$", line):
                raise LogError(f"no row of Follow TCP Stream: {line[:60]!r}", number)
            continue
        side, data = "second" if found[1] else "first", hex_row(found[3])
        if data is None:
            raise LogError(f"no bytes after the offset: {line[:60]!r}", number)
        if int(found[2], 16) != due.get(side, 0):
            raise LogError("the offset doesn't follow the bytes before: a row is missing", number)
        due[side] = due.get(side, 0) + len(data)
        # A row of 16 bytes goes on in the next row of the same side.
        if full and pieces[-1].side == side:
            pieces[-1] = Piece(None, side, pieces[-1].data + data)
        else:
            pieces.append(Piece(None, side, data))
        full = len(data) == 16
    return Log("wireshark-hex", pieces, [])


def follow_raw(text: str) -> Log:
    """`tshark -z follow,tcp,raw,N`: a line of digits for each piece, those of the second end after a tab."""
    pieces = []
    for number, line in enumerate(text.splitlines(), 1):
        if re.match(r"(=+|Follow:.*|Filter:.*|Node \d:.*|\s*)$", line):
            continue
        if not _HEX.match(line.strip()):
            raise LogError(f"no line of digits: {line[:60]!r}", number)
        pieces.append(Piece(None, "second" if line[:1].isspace() else "first", _bytes(line.strip())))
    return Log("tshark-raw", pieces, [])


_ARRAY = re.compile(r"(peer\d+)_\d+\s*\[\]\s*=\s*\{([^{}]*)\}\s*;")


def follow_c(text: str) -> Log:
    """Follow TCP Stream as C arrays: peer0_0[], peer1_0[] and so on, in the order of the packets."""
    pieces = []
    others = _ARRAY.sub(lambda one: "\n" * one[0].count("\n"), text)
    rest = re.search(r"peer\d+_\d+|\b0x[0-9a-fA-F]{2}\b", others)
    if rest is not None:
        raise LogError(f"an incomplete array: {rest[0]}", others.count("\n", 0, rest.start()) + 1)
    for found in _ARRAY.finditer(text):
        body = re.sub(r"/\*.*?\*/", "", found[2], flags=re.S)
        words = re.findall(r"0x([0-9a-fA-F]{2})", body)
        if re.sub(r"0x[0-9a-fA-F]{2}|[\s,]", "", body):
            raise LogError(f"the array {found[1]} holds what is no byte")
        pieces.append(Piece(None, found[1], bytes.fromhex("".join(words))))
    return Log("wireshark-c", pieces, [])


def follow_yaml(text: str) -> Log:
    """Follow TCP Stream as YAML, in the old form (peer0_0: !!binary) and the new one (packets: with peer, data)."""
    pieces: List[Piece] = []
    side, time, digits, indent = "", None, None, 0  # type: str, Optional[int], Optional[List[str]], int

    def put() -> None:
        if digits is not None:
            try:
                pieces.append(Piece(time, side, base64.b64decode("".join(digits), validate=True)))
            except binascii.Error:
                raise LogError("the base64 of a packet is incomplete") from None

    for number, line in enumerate(text.splitlines(), 1):
        bare = line.strip()
        depth = len(line) - len(line.lstrip())
        if digits is not None and re.match(r"[A-Za-z0-9+/]+=*$", bare) and depth > indent:
            digits.append(bare)
            continue
        put()
        digits = None
        found = re.match(r"-?\s*(\w+):\s*(.*)$", bare)
        name = found[1] if found else ""
        binary = re.match(r"!!binary\s*[|>]?[-+]?\s*([A-Za-z0-9+/]*=*)$", found[2]) if found else None
        if binary and (name == "data" or re.match(r"peer\d+_\d+$", name)):
            side = side if name == "data" else name.split("_")[0]
            digits, indent = [binary[1]] if binary[1] else [], depth
        elif found and name == "peer":
            side = "peer" + found[2]
        elif found and name == "timestamp":
            time = _seconds(found[2])
        elif bare and not bare.startswith("#") and (not found or name == "data" or "!!binary" in bare):
            raise LogError(f"no line of YAML that is known: {line[:60]!r}", number)
    put()
    return Log("wireshark-yaml", pieces, [])


def _seconds(text: str) -> Optional[int]:
    found = re.match(r"(\d+)(?:\.(\d{1,9}))?$", text.strip())
    if found:
        return int(found[1]) * SECOND + int((found[2] or "0").ljust(9, "0"))
    return find_time(text)


def tshark_fields(text: str, port: Optional[int] = None, stream: Optional[int] = None) -> Log:
    """`tshark -T fields`: columns in any order, with or without a line of their names. The last column of digits is the
    bytes; the side is the source port, address or what else takes two values."""
    rows, names = _rows(text)
    payload = _payload(rows, names)
    left = {number for number, row in rows if payload >= len(row) or not row[payload].strip()}
    for number, row in rows:
        if payload >= len(row) and holds_bytes(" ".join(row) + " "):
            raise LogError(f"an incomplete row: {' '.join(row)[:60]!r}", number)
    kept = [(number, row) for number, row in rows if number not in left]
    for number, row in kept:
        if not _HEX.match(row[payload].strip().split(",")[0]):
            raise LogError(f"no bytes in column {payload + 1}: {row[payload][:40]!r}", number)
    if names and {"tcp.seq", "tcp.srcport", "tcp.dstport"} <= set(names):
        told = [{name: row[place] if place < len(row) else "" for place, name in enumerate(names)} for _, row in kept]
        return _segments(told, "tshark-fields", port, stream, left_out(sorted(left)), names[payload])
    side = _side_columns(kept, payload, names, port)
    time = _time_column(kept, payload, names)
    pieces = [
        Piece(
            None if time is None else _seconds(row[time]),
            ",".join(row[one] for one in side),
            _bytes(row[payload].strip()),
        )
        for _, row in kept
    ]
    return Log("tshark-fields", pieces, left_out(sorted(left)))


def is_table(text: str) -> bool:
    """Whether this is a table of fields: each row has as many columns, and one column holds bytes."""
    rows, names = _rows(text)
    if len({len(row) for _, row in rows}) != 1 or len(rows[0][1]) < 2:
        return False
    payload = _payload(rows, names)
    return any(_HEX.match(row[payload].strip()) for _, row in rows)


def _rows(text: str) -> Tuple[List[Tuple[int, List[str]]], List[str]]:
    lines = [(number, line) for number, line in enumerate(text.splitlines(), 1) if line.strip()]
    first = lines[0][1]
    separator = next((one for one in "\t;|," if one in first), "\t")
    rows = [
        (number, row) for (number, _), row in zip(lines, csv.reader((line for _, line in lines), delimiter=separator))
    ]
    names: List[str] = []
    if rows and any("." in one and re.match(r"[a-z_]+(\.[a-z_0-9]+)+$", one.strip()) for one in rows[0][1]):
        names = [one.strip() for one in rows.pop(0)[1]]
    return rows, names


def _payload(rows: List[Tuple[int, List[str]]], names: List[str]) -> int:
    for name in ("tcp.payload", "data.data", "data", "tcp.segment_data"):
        if name in names:
            return names.index(name)
    width = max((len(row) for _, row in rows), default=0)
    for place in reversed(range(width)):
        cells = [row[place].strip() for _, row in rows if place < len(row) and row[place].strip()]
        if cells and all(_HEX.match(one) for one in cells) and any("05" in one or "02" in one for one in cells):
            if not all(re.match(r"\d+$", one) and len(set(map(len, cells))) == 1 and len(one) > 2 for one in cells):
                return place
    raise LogError("no column holds bytes: ask tshark for -e tcp.payload")


def _side_columns(rows: List[Tuple[int, List[str]]], payload: int, names: List[str], port: Optional[int]) -> List[int]:
    wanted = [names.index(name) for name in ("ip.src", "ipv6.src", "tcp.srcport") if name in names]
    if wanted:
        return wanted
    width = min((len(row) for _, row in rows), default=0)
    two = []
    for place in range(width):
        values = [row[place] for _, row in rows]
        if place != payload and len(set(values)) == 2 and values != sorted(values):
            two.append(place)
    if port is not None:
        two = [one for one in two if any(row[one] == str(port) for _, row in rows)] or two
    # Addresses are the surest, then ports; a column of lengths may have two values too.
    two.sort(
        key=lambda place: (
            not all(re.match(r"[\d.]+\.[\d.]+\.|.*:.*:", row[place]) for _, row in rows),
            not all(row[place].isdigit() and int(row[place]) > 300 for _, row in rows),
        )
    )
    if not two:
        raise LogError("no column tells the two sides apart: ask tshark for -e tcp.srcport")
    return two[:1]


def _time_column(rows: List[Tuple[int, List[str]]], payload: int, names: List[str]) -> Optional[int]:
    for name in ("frame.time_epoch", "frame.time", "frame.time_relative"):
        if name in names:
            return names.index(name)
    for place in range(min((len(row) for _, row in rows), default=0)):
        if place != payload and all(
            re.match(r"\d+\.\d{2,9}$", row[place]) or ":" in row[place] and find_time(row[place]) is not None
            for _, row in rows
        ):
            return place
    return None


def _segment_of(one: Dict[str, str], payload: str) -> Segment:
    source = one.get("ip.src") or one.get("ipv6.src") or "a"
    target = one.get("ip.dst") or one.get("ipv6.dst") or ("b" if source == "a" else "a")
    time = one.get("frame.time_epoch") or one.get("frame.time") or one.get("frame.time_relative") or ""
    if "ip.src" not in one and "ipv6.src" not in one:
        source, target = "?", "?"
    return Segment(
        _seconds(time),
        source,
        int(one["tcp.srcport"]),
        target,
        int(one["tcp.dstport"]),
        int(one["tcp.seq"]),
        int(one.get("tcp.flags") or "0x18", 16) & ~2,
        _bytes(one[payload].strip()),
    )


def _segments(
    told: List[Dict[str, str]],
    form: str,
    port: Optional[int],
    stream: Optional[int],
    remarks: List[str],
    payload: str = "tcp.payload",
) -> Log:
    """Packets that have their TCP numbers are put together as those of a pcap."""
    segments, groups = [], {}  # type: List[Segment], Dict[str, List[Segment]]
    for one in told:
        segment = _segment_of(one, payload)
        segments.append(segment)
        groups.setdefault(one.get("tcp.stream", ""), []).append(segment)
    if all(len({one.source_port for one in group}) == 1 for group in groups.values()):
        groups = {"": segments}  # each direction was taken for a stream of its own
    log = joined([one for group in groups.values() for one in connections_of(group)], form, stream, port)
    return log._replace(remarks=log.remarks + remarks)


def _whole(
    told: List[Dict[str, str]], form: str, port: Optional[int], stream: Optional[int], lacking: int, name: str
) -> Log:
    """The same of packets with details, of which some lack bytes: a remark on packets with bytes that aren't TCP, or
    aren't in the text. A connection in which bytes are missing before others is an error."""
    if not told:
        raise LogError(f"no packet has {name}")
    remark = f"packets whose TCP bytes aren't in the text were left out, {lacking} of them"
    return _segments(told, form, port, stream, [remark] if lacking else [])


def tshark_json(text: str, port: Optional[int] = None, stream: Optional[int] = None) -> Log:
    """`tshark -T json` and `-T ek`, and Wireshark's export as JSON."""
    try:
        packets: List[Any] = json.loads(text)
    except json.JSONDecodeError:
        try:
            packets = [json.loads(line) for line in text.splitlines() if line.strip()]
        except json.JSONDecodeError as error:
            raise LogError(f"no JSON: {error.msg}", error.lineno) from None
    told: List[Dict[str, str]] = []
    raw: List[Packet] = []
    lacking = 0
    for packet in packets if isinstance(packets, list) else [packets]:
        flat = dict(_flat(packet))
        if flat.get("tcp.payload") and flat.get("tcp.srcport"):
            told.append(flat)
        elif flat.get("frame_raw"):
            raw.append(Packet(None, 1, bytes.fromhex(flat["frame_raw"]), 0))
        else:
            lacking += flat.get("tcp.len", "0") != "0"
    if raw and not told:
        return read_packets(iter(raw), "tshark-jsonraw", stream, port)
    return _whole(told, "tshark-json", port, stream, lacking, "tcp.payload")


def wireshark_text(text: str, port: Optional[int] = None, stream: Optional[int] = None) -> Log:
    """`tshark -V`, and Wireshark's export as plain text with details: the lines `Data: ..` of each packet."""
    told: List[Dict[str, str]] = []
    lacking = 0
    for block in re.split(r"(?m)^(?=Frame \d+:|No\. +Time)", text):
        data = re.search(
            r"(?m)^\s*(\[truncated\])?Data(?: \[truncated\])?: ?([0-9a-fA-F:]{2,}(?:\.\.\.|…)?)\s*$", block
        )
        head = re.search(
            r"Transmission Control Protocol, Src Port: .*?(\d+)\)?, Dst Port: .*?(\d+)\)?, Seq: (\d+).*?Len: (\d+)",
            block,
        )
        ends = re.search(r"Internet Protocol(?: Version \d)?, Src: (\S+?)(?: \(\S+\))?, Dst: (\S+)", block)
        if not data or not head:
            lacking += data is not None or head is not None and head[4] != "0"
            continue
        if data[1] or len(_bytes(data[2].rstrip(".…"))) != int(head[4]):
            raise LogError("the text has a part of a packet's bytes alone: export them whole (tshark -x), or as pcap")
        time = re.search(r"(?:Arrival Time|UTC Arrival Time|Epoch Arrival Time|Epoch Time): (.*)", block)
        told.append(
            {
                "tcp.srcport": head[1],
                "tcp.dstport": head[2],
                "tcp.seq": head[3],
                "tcp.payload": data[2],
                "frame.time": time[1] if time else "",
                "ip.src": ends[1] if ends else "a",
                "ip.dst": ends[2] if ends else "b",
            }
        )
    return _whole(told, "wireshark-text", port, stream, lacking, "a line Data")


def _flat(node: Any, name: str = "") -> Iterator[Tuple[str, str]]:
    if isinstance(node, dict):
        for key, value in node.items():
            yield from _flat(value, key)
    elif isinstance(node, list) and node:
        yield from _flat(node[0], name)
    elif node is not None:
        bare = re.sub(r"^(frame|tcp|ip|ipv6)_\1_", r"\1.", name)
        yield bare, str(node)


def tshark_pdml(text: str, port: Optional[int] = None, stream: Optional[int] = None) -> Log:
    """`tshark -T pdml`, and Wireshark's export as PDML."""
    told = []
    lacking = 0
    for packet in re.findall(r"<packet>(.*?)</packet>", text, re.S):
        one: Dict[str, str] = {}
        for found in re.finditer(r'<field name="([\w.]+)"([^>]*)>', packet):
            value = re.search(r' (?:show)="([^"]*)"', found[2])
            raw = re.search(r' value="([0-9a-fA-F]*)"', found[2])
            if found[1] == "tcp.payload" and raw:
                one["tcp.payload"] = raw[1]
            elif found[1] == "timestamp" and raw is None:
                stamp = re.search(r' value="([\d.]+)"', found[2])
                one["frame.time_epoch"] = stamp[1] if stamp else ""
            elif value:
                one.setdefault(found[1], value[1])
        if one.get("tcp.payload") and one.get("tcp.srcport"):
            told.append(one)
        else:
            lacking += one.get("tcp.len", "0") != "0"
    if text.count("<packet>") != text.count("</packet>"):
        raise LogError("the file ends within a packet")
    return _whole(told, "tshark-pdml", port, stream, lacking, "tcp.payload")
