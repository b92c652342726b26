"""Captures of packets: pcap, pcapng and packets as hex text; the TCP connections in them, put together again."""
import ipaddress
import re
import struct
from typing import Dict, Iterator, List, NamedTuple, Optional, Tuple

from ..diagnosis.log import NEW, SECOND, Log, LogError, Piece, find_time, likeness

#: The first bytes of a pcap: the order of its bytes, the nanoseconds of a tick, and the size of a packet's head.
_PCAP = {
    struct.pack(order + "I", magic): (order, unit, head)
    for order in "<>"
    for magic, unit, head in ((0xA1B2C3D4, 1000, 16), (0xA1B23C4D, 1, 16), (0xA1B2CD34, 1000, 24))
}
_PCAPNG = b"\x0a\x0d\x0d\x0a"


class Packet(NamedTuple):
    """A packet: its time, the kind of its link and its bytes; how many bytes of it weren't kept."""

    time: Optional[int]
    link: int
    data: bytes
    cut: int


class Segment(NamedTuple):
    """A TCP segment."""

    time: Optional[int]
    source: str
    source_port: int
    target: str
    target_port: int
    sequence: int
    flags: int
    data: bytes
    acknowledged: int = 0


def is_packets(data: bytes) -> bool:
    """Whether a file is pcap or pcapng."""
    return data[:4] in _PCAP or data[:4] == _PCAPNG


def packets_of(data: bytes, remarks: List[str]) -> Iterator[Packet]:
    """The packets of a file; an incomplete last one is left out with a remark."""
    return _pcapng(data, remarks) if data[:4] == _PCAPNG else _pcap(data, remarks)


_CUT = "the file ends within a packet, which was left out"


def _pcap(data: bytes, remarks: List[str]) -> Iterator[Packet]:
    order, unit, head = _PCAP[data[:4]]
    if len(data) < 24:
        raise LogError("the pcap ends within its head")
    link = struct.unpack_from(order + "I", data, 20)[0] & 0xFFFF
    at = 24
    while at + head <= len(data):
        seconds, fraction, kept, length = struct.unpack_from(order + "IIII", data, at)
        if at + head + kept > len(data):
            remarks.append(_CUT)
            return
        yield Packet(
            seconds * SECOND + fraction * unit, link, data[at + head : at + head + kept], max(length - kept, 0)
        )
        at += head + kept


def _pcapng(data: bytes, remarks: List[str]) -> Iterator[Packet]:
    order, at = "<", 0
    links: List[Tuple[int, int, int]] = []
    while at + 12 <= len(data):
        kind = struct.unpack_from(order + "I", data, at)[0]
        if data[at : at + 4] == _PCAPNG:
            order = "<" if data[at + 8 : at + 12] == b"\x4d\x3c\x2b\x1a" else ">"
            kind, links = 0x0A0D0D0A, []
        size = struct.unpack_from(order + "I", data, at + 4)[0]
        if size < 12 or size % 4:
            raise LogError(f"the pcapng has a block of {size} bytes at {at}")
        if at + size > len(data):
            remarks.append(_CUT)
            return
        body, at = data[at + 8 : at + size - 4], at + size
        if kind == 1:
            links.append(_interface(body, order))
        elif kind == 6 or kind == 2:
            if kind == 6:
                number, high, low, kept, length = struct.unpack_from(order + "IIIII", body, 0)
            else:
                number, _, high, low, kept, length = struct.unpack_from(order + "HHIIII", body, 0)
            if number >= len(links):
                raise LogError("the pcapng has a packet of no interface")
            link, unit, offset = links[number]
            ticks = (high << 32) + low
            yield Packet(ticks * SECOND // unit + offset * SECOND, link, body[20 : 20 + kept], max(length - kept, 0))
        elif kind == 3 and links:
            length = struct.unpack_from(order + "I", body, 0)[0]
            yield Packet(None, links[0][0], body[4 : 4 + length], max(length - len(body) + 4, 0))


def _interface(body: bytes, order: str) -> Tuple[int, int, int]:
    """The link of an interface, its ticks in a second, and the seconds to be added."""
    link, unit, offset, at = struct.unpack_from(order + "H", body, 0)[0], 1_000_000, 0, 8
    while at + 4 <= len(body):
        code, size = struct.unpack_from(order + "HH", body, at)
        value = body[at + 4 : at + 4 + size]
        if code == 0:
            break
        if code == 9 and size >= 1:
            unit = 2 ** (value[0] & 127) if value[0] & 128 else 10 ** value[0]
        elif code == 14 and size == 8:
            offset = struct.unpack(order + "q", value)[0]
        at += 4 + (size + 3) // 4 * 4
    return link, unit, offset


def _network(packet: Packet) -> Optional[bytes]:
    """The IP packet in a packet of a link; None if there is none."""
    data, link = packet.data, packet.link
    if link == 1:
        at = 12
        while data[at : at + 2] in (b"\x81\x00", b"\x88\xa8", b"\x91\x00"):
            at += 4
        if data[at : at + 2] == b"\x88\x64":  # PPPoE
            at += 6
            return data[at + 2 :] if data[at : at + 2] in (b"\x00\x21", b"\x00\x57") else None
        return data[at + 2 :] if data[at : at + 2] in (b"\x08\x00", b"\x86\xdd") else None
    if link in (0, 108):
        return data[4:]
    if link in (12, 14, 101, 228, 229):
        return data
    if link == 113:
        return data[16:] if data[14:16] in (b"\x08\x00", b"\x86\xdd") else None
    if link == 276:
        return data[20:] if data[0:2] in (b"\x08\x00", b"\x86\xdd") else None
    raise LogError(
        f"the packets are of a link that isn't read here (type {link}): Ethernet, loopback, raw IP and "
        "Linux cooked are"
    )


def segment_of(packet: Packet) -> Optional[Segment]:
    """The TCP segment of a packet; None if it is something else."""
    ip = _network(packet)
    if ip is None or len(ip) < 20:
        return None
    if ip[0] >> 4 == 4:
        start, total = (ip[0] & 15) * 4, struct.unpack_from(">H", ip, 2)[0]
        if ip[9] != 6 or struct.unpack_from(">H", ip, 6)[0] & 0x1FFF:
            return None
        source, target = str(ipaddress.ip_address(ip[12:16])), str(ipaddress.ip_address(ip[16:20]))
    elif ip[0] >> 4 == 6 and len(ip) >= 40:
        start, total, following = 40, 40 + struct.unpack_from(">H", ip, 4)[0], ip[6]
        while following in (0, 43, 60) and start + 8 <= len(ip):
            following, start = ip[start], start + 8 + ip[start + 1] * 8
        if following != 6:
            return None
        source, target = str(ipaddress.ip_address(ip[8:24])), str(ipaddress.ip_address(ip[24:40]))
    else:
        return None
    end = total if total > start else max(len(ip), start + 20)
    if end > len(ip):
        lacking = max(packet.cut, end - len(ip))
        raise LogError(f"{lacking} bytes of a packet weren't recorded: capture complete packets (tcpdump -s 0)")
    source_port, target_port, sequence, acknowledged = struct.unpack_from(">HHII", ip, start)
    data = ip[start + (ip[start + 12] >> 4) * 4 : end]
    return Segment(packet.time, source, source_port, target, target_port, sequence, ip[start + 13], data, acknowledged)


class Connection:
    """A TCP connection: its two ends, and its bytes in the order in which a program could read them."""

    def __init__(self, segment: Segment) -> None:
        self.ports = frozenset((segment.source_port, segment.target_port))
        self.addresses = frozenset((segment.source, segment.target))
        self.ends = (f"{segment.source}:{segment.source_port}", f"{segment.target}:{segment.target_port}")
        self.name = " - ".join(self.ends)
        self.pieces: List[Piece] = []
        self.due: Dict[str, int] = {}
        self.waiting: Dict[str, List[Tuple[int, bytes]]] = {}
        self.first: Dict[str, int] = {}
        self.begun = self.ended = segment.time
        self.repeated = self.early = self.skipped = 0

    def take(self, segment: Segment, skip_missing: bool = False) -> None:
        """Takes a segment: bytes that came before are left out, those that come too early wait. With `skip_missing`
        they wait until the other end has acknowledged what isn't in the file."""
        side = f"{segment.source}:{segment.source_port}"
        self.ended = segment.time
        if skip_missing and segment.flags & 16:
            self._pass_over(f"{segment.target}:{segment.target_port}", segment)
        if segment.flags & 2:
            self.first[side] = segment.sequence
            self.due.setdefault(side, (segment.sequence + 1) & 0xFFFFFFFF)
        if not segment.data:
            return
        if side not in self.due:
            self.due[side] = segment.sequence
            if segment.data == b"\0" and not segment.flags & 8:  # a keep-alive: its byte was sent before
                self.due[side] = (segment.sequence + 1) & 0xFFFFFFFF
                return
        start = segment.sequence + (1 if segment.flags & 2 else 0)
        waiting = self.waiting.setdefault(side, [])
        waiting.append((start & 0xFFFFFFFF, segment.data))
        self._take_waiting(side, segment.time)
        if waiting:
            self.early += 1

    def _pass_over(self, side: str, segment: Segment) -> None:
        """What a side acknowledges came to it: bytes before that which aren't in the file are passed over."""
        waiting, due = self.waiting.get(side, []), self.due.get(side)
        while waiting and due is not None and 0 < (segment.acknowledged - due) & 0xFFFFFFFF < 1 << 31:
            first = min((sequence - due) & 0xFFFFFFFF for sequence, _ in waiting)
            if first > (segment.acknowledged - due) & 0xFFFFFFFF:
                return
            self._jump(side, first, segment.time)
            due = self.due[side]

    def _jump(self, side: str, count: int, time: Optional[int]) -> None:
        self.skipped += count
        self.due[side] = (self.due[side] + count) & 0xFFFFFFFF
        self._take_waiting(side, time)

    def pass_over_all(self) -> None:
        """At the end of the file: what waits is taken, and the bytes before it are passed over."""
        for side, waiting in self.waiting.items():
            while waiting:
                self._jump(side, min((sequence - self.due[side]) & 0xFFFFFFFF for sequence, _ in waiting), self.ended)

    def _take_waiting(self, side: str, time: Optional[int]) -> None:
        """Takes what waits, as far as no byte is missing before it."""
        waiting, moved = self.waiting.get(side, []), True
        while moved:
            moved = False
            for place, (sequence, data) in enumerate(waiting):
                skip = (self.due[side] - sequence) & 0xFFFFFFFF
                if skip >= 1 << 31:
                    continue
                del waiting[place]
                if skip:
                    self.repeated += 1
                if skip < len(data):
                    self.pieces.append(Piece(time, side, data[skip:]))
                    self.due[side] = (sequence + len(data)) & 0xFFFFFFFF
                moved = True
                break

    def missing(self) -> int:
        """How many bytes wait for ones that aren't in the file."""
        return sum(len(data) for waiting in self.waiting.values() for _, data in waiting)


def _starts_of(segments: List[Segment]) -> List[Segment]:
    """The segments; of a side without a SYN those that are before its first one by their number come first."""
    first: Dict[Tuple[str, int, str, int], int] = {}
    place: Dict[Tuple[str, int, str, int], int] = {}
    told = list(segments)
    for number, one in enumerate(told):
        key = (one.source, one.source_port, one.target, one.target_port)
        if one.flags & 2 or key in first and first[key] < 0:
            first[key] = -1
        elif one.data and key not in first:
            first[key], place[key] = one.sequence, number
        elif one.data and number - place[key] < 12 and 0 < (first[key] - one.sequence) & 0xFFFFFFFF < 1 << 20:
            # An early one was first: the segment before it takes its place in the order, at its own time.
            first[key] = one.sequence
            told.insert(place[key], told.pop(number)._replace(time=told[place[key]].time))
    return told


def connections_of(segments: List[Segment], skip_missing: bool = False) -> List[Connection]:
    """The connections of segments, in the order of their beginning."""
    told: List[Connection] = []
    current: Dict[Tuple[frozenset, frozenset], Connection] = {}  # type: ignore[type-arg]
    for segment in _starts_of(segments):
        key = (frozenset((segment.source, segment.target)), frozenset((segment.source_port, segment.target_port)))
        side = f"{segment.source}:{segment.source_port}"
        known = current.get(key)
        is_new = (
            segment.flags & 0x12 == 2
            and known is not None
            and known.first.get(side, segment.sequence) != segment.sequence
        )
        if known is None or is_new:
            known = current[key] = Connection(segment)
            told.append(known)
        known.take(segment, skip_missing)
    if skip_missing:
        for one in told:
            one.pass_over_all()
    return told


def _serial(packets: List[Packet], form: str) -> Log:
    """Packets of a serial line (LINKTYPE_RTAC_SERIAL): 12 bytes of head with what happened, and the bytes."""
    names = {1: "TX", 2: "RX", 3: "TX", 4: "RX"}
    full = [one for one in packets if len(one.data) > 12]
    unknown = next((one.data[8] for one in full if one.data[8] not in names), None)
    if unknown is not None:
        raise LogError(f"bytes of a serial line have an event that isn't known: {unknown}")
    return Log(form, [Piece(one.time, names[one.data[8]], one.data[12:]) for one in full], [])


def read_packets(
    every_packet: Iterator[Packet],
    form: str,
    stream: Optional[int] = None,
    port: Optional[int] = None,
    skip_missing: bool = False,
) -> Log:
    """The bytes of the TCP line in packets. If there are several, those between the same two ends follow one another;
    else one is chosen by its number, or by its port."""
    packets = list(every_packet)
    if packets and all(one.link == 250 for one in packets):
        return _serial(packets, form)
    segments = [one for one in map(segment_of, packets) if one is not None]
    return joined(connections_of(segments, skip_missing), form, stream, port)


def joined(every: List[Connection], form: str, stream: Optional[int], port: Optional[int]) -> Log:
    """The bytes of the connections that are chosen, or look most like this link."""
    if port is not None:
        every = [one for one in every if port in one.ports]
    found = linked(every)
    if not every:
        raise LogError("no TCP connection is in the file" + (f" at port {port}" if port is not None else ""))
    if stream is not None:
        if not 1 <= stream <= len(every):
            raise LogError(f"there are {len(every)} connections, and no number {stream}")
        found = [every[stream - 1]]
    if not found:
        raise LogError(f"no ENQ and no STX is in any of the {len(every)} TCP connections")
    return _one_log(found, every, form)


def linked(every: List[Connection]) -> List[Connection]:
    """The connections that look most like this link; none if none has ENQ or STX."""
    likes = [likeness(one.pieces) for one in every]
    return [one for one, like in zip(every, likes) if like and like == max(likes)]


def _one_after_another(found: List[Connection]) -> bool:
    """Whether connections are between the same two machines, at one port of one of them, and each follows the one
    before."""
    common = frozenset.intersection(*(one.ports for one in found))
    same = len({one.addresses for one in found}) == 1 and bool(common)
    return same and all(_is_behind(after, before) for before, after in zip(found, found[1:]))


def _is_behind(after: Connection, before: Connection) -> bool:
    """Whether the bytes of a connection come after those of another. The packets that end the other may come later."""
    if not before.pieces or not after.pieces:
        return True
    last, first = before.pieces[-1].time, after.pieces[0].time
    return last is None or first is None or last <= first


def _one_log(found: List[Connection], every: List[Connection], form: str) -> Log:
    """The bytes of connections that follow one another, of which one is to be chosen if they don't. A remark says how
    many bytes the other ones have."""
    if len(found) > 1 and not _one_after_another(found):
        names = "; ".join(f"--stream {every.index(one) + 1}: {one.name}" for one in found)
        raise LogError(f"{len(found)} connections have ENQ or STX, choose one: {names}")
    pieces: List[Piece] = []
    remarks = []
    common = frozenset.intersection(*(one.ports for one in found))
    shared = next((end for end in found[0].ends if len(found) > 1 and int(end.rsplit(":", 1)[1]) in common), None)
    for number, one in enumerate(found):
        if one.missing():
            raise LogError(
                f"bytes are missing in the file: {one.missing()} bytes of {one.name} have none before them "
                "(--skip-missing goes on without them)"
            )
        if number:
            pieces.append(Piece(one.pieces[0].time if one.pieces else one.begun, NEW, b""))
        for piece in one.pieces:
            # The ends of several connections are two names: the one that they share, and the other.
            side = piece.side if shared is None else ("server" if piece.side == shared else "client")
            pieces.append(piece._replace(side=side))
    if len(found) > 1:
        remarks.append(f"{len(found)} connections follow one another; a line R is where each new one begins")
    for count, what in (
        (sum(one.repeated for one in found), "segments came again, and were left out"),
        (sum(one.skipped for one in found), "bytes aren't in the file, and were passed over: units are missing or torn"),
        (sum(one.early for one in found), "segments arrived out of order and were reordered"),
    ):
        remarks += [f"{count} {what}"] if count else []
    others = [one for one in every if one not in found and one.pieces]
    if others:
        count = sum(len(piece.data) for one in others for piece in one.pieces)
        remarks.append(f"other connections were left out, {len(others)} of them: {count} bytes")
    remarks.append("connection " + found[0].name)
    return Log(form, pieces, remarks)


def are_packets(text: str) -> bool:
    """Whether dumps are of packets: one of them holds a TCP segment."""
    return any(segment_of(one) is not None for one in dumped_packets(text))


def packet_text(text: str, stream: Optional[int] = None, port: Optional[int] = None) -> Log:
    """The bytes of the TCP line in dumps of packets."""
    return read_packets(dumped_packets(text), "packet-text", stream, port)


def k12(text: str, stream: Optional[int] = None, port: Optional[int] = None) -> Log:
    """The same of a K12 text file."""
    return read_packets(k12_packets(text), "k12", stream, port)


_DUMP = re.compile(r"^\s*(?:0x)?([0-9a-fA-F]{4,8}):? +((?:[0-9a-fA-F]{2,4} ?)+)(?:  .*)?$")


def dumped_packets(text: str) -> Iterator[Packet]:
    """The packets of `tshark -x`, of Wireshark's text with packet bytes, and of `tcpdump -x`, -xx, -X and -XX."""
    link: Optional[int] = None  # as the first packet is, so are the others
    for time, data in _dumps(text):
        link = link or _link_of(data)
        yield Packet(time, link, data, 0)


def _dumps(text: str) -> Iterator[Tuple[Optional[int], bytes]]:
    """The bytes of each dump, with the time before it."""
    time, data = None, b""  # type: Optional[int], bytes
    for row in text.splitlines():
        found = _DUMP.match(row)
        if data and (row.strip() if not found else int(found[1], 16) == 0):
            yield time, data
            data = b""
        if found and int(found[1], 16) != len(data):
            raise LogError(f"the offset {found[1]} doesn't follow the bytes before: a row is missing")
        if found:
            data += bytes.fromhex("".join(found[2].split()[:16]))
            continue
        relative = re.match(r"\s*\d+\s+(\d+)\.(\d{6,9})\s", row)
        if relative:
            time = int(relative[1]) * SECOND + int(relative[2].ljust(9, "0"))
        elif "Arrival Time" in row or re.match(r"(\d{4}-\d\d-\d\d )?\d\d:\d\d:\d\d\.\d+ |\d{9,10}\.\d+ ", row):
            time = find_time(row)
    if data:
        yield time, data


def k12_packets(text: str) -> Iterator[Packet]:
    """The packets of a K12 text file: a line with the time, and one with the bytes between strokes."""
    time = None
    for row in text.splitlines():
        stamp = re.match(r"(\d\d:\d\d:\d\d),(\d{3}),(\d{3})\s", row)
        if stamp:
            time = find_time(f"{stamp[1]}.{stamp[2]}{stamp[3]}")
        found = re.match(r"\|0\s*\|((?:[0-9a-fA-F]{2}\|)+)\s*$", row)
        if found:
            yield Packet(time, 1, bytes.fromhex(found[1].replace("|", "")), 0)
        elif row.startswith("|"):
            raise LogError(f"no row of K12: {row[:60]!r}")


def _link_of(data: bytes) -> int:
    """The link type of a packet in a dump: raw IP if its length field fits, otherwise Ethernet."""
    is_ip = len(data) > 20 and data[0] >> 4 == 4 and len(data) == struct.unpack_from(">H", data, 2)[0]
    return 101 if is_ip else 1
