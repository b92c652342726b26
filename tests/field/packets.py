"""Packet files of one session for tests: pcap and pcapng in each order of bytes, links, and what a network does to
TCP."""
import struct

ANALYZER, COMPUTER = ("10.0.0.1", 51234), ("10.0.0.2", 4001)
START = 1795166102


def tcp(source, target, sequence, data=b"", flags=0x18, version=4, acknowledged=0):
    """The IP packet of a segment."""
    head = struct.pack(
        ">HHIIBBHHH",
        source[1],
        target[1],
        sequence & 0xFFFFFFFF,
        acknowledged & 0xFFFFFFFF,
        0x50,
        flags,
        8192,
        0,
        0,
    )
    body = head + data
    if version == 6:
        ends = b"".join(bytes(12) + bytes(map(int, one[0].split("."))) for one in (source, target))
        return struct.pack(">IHBB", 6 << 28, len(body), 6, 64) + ends + body
    ends = b"".join(bytes(map(int, one[0].split("."))) for one in (source, target))
    return struct.pack(">BBHHHBBH", 0x45, 0, 20 + len(body), 0, 0, 64, 6, 0) + ends + body


LINKS = {
    "ethernet": (1, lambda ip: bytes(12) + (b"\x08\0" if ip[0] >> 4 == 4 else b"\x86\xdd") + ip),
    "padded": (1, lambda ip: (bytes(12) + b"\x08\0" + ip).ljust(60, b"\0")),
    "vlan": (1, lambda ip: bytes(12) + b"\x81\0\0\x05" + b"\x08\0" + ip),
    "loopback": (0, lambda ip: b"\x02\0\0\0" + ip),
    "raw": (101, lambda ip: ip),
    "cooked": (113, lambda ip: bytes(14) + b"\x08\0" + ip),
    "cooked 2": (276, lambda ip: b"\x08\0" + bytes(18) + ip),
}


def pcap(packets, link="ethernet", order="<", nano=False):
    """A pcap of (time in seconds, IP packet)."""
    kind, wrap = LINKS[link]
    out = struct.pack(order + "IHHiIII", 0xA1B23C4D if nano else 0xA1B2C3D4, 2, 4, 0, 0, 65535, kind)
    for time, ip in packets:
        data, unit = wrap(ip), 10**9 if nano else 10**6
        out += struct.pack(order + "IIII", START + int(time), round(time % 1 * unit), len(data), len(data)) + data
    return out


def pcapng(packets, link="ethernet", order="<", ticks=6):
    """A pcapng of the same, with blocks that a reader passes over, and ticks of ten to the minus so many seconds."""
    kind, wrap = LINKS[link]

    def block(number, body):
        body += bytes(-len(body) % 4)
        return struct.pack(order + "II", number, len(body) + 12) + body + struct.pack(order + "I", len(body) + 12)

    out = block(0x0A0D0D0A, struct.pack(order + "IHHq", 0x1A2B3C4D, 1, 0, -1))
    out += block(1, struct.pack(order + "HHI", kind, 0, 0) + struct.pack(order + "HHB3x", 9, 1, ticks) + bytes(4))
    out += block(4, struct.pack(order + "HH", 0, 0)) + block(0xBAD, b"of a maker")
    for time, ip in packets:
        data, count = wrap(ip), (START * 10**ticks) + round(time * 10**ticks)
        out += block(
            6, struct.pack(order + "IIIII", 0, count >> 32, count & 0xFFFFFFFF, len(data), len(data)) + data
        )
    return out


def segments(session, first=(1000, 9000), version=4):
    """The packets of (mark, time, bytes), with the handshake before and the end after them."""
    sequence = {">": first[0], "<": first[1]}
    ends = {">": (ANALYZER, COMPUTER), "<": (COMPUTER, ANALYZER)}
    told = [
        (0.0, tcp(*ends[">"], sequence[">"] - 1, flags=2, version=version)),
        (0.0, tcp(*ends["<"], sequence["<"] - 1, flags=0x12, version=version)),
        (0.0, tcp(*ends[">"], sequence[">"], flags=0x10, version=version)),
    ]
    for mark, time, data in session:
        told.append(
            (
                time,
                tcp(
                    *ends[mark],
                    sequence[mark],
                    data,
                    version=version,
                    acknowledged=sequence["<" if mark == ">" else ">"],
                ),
            )
        )
        sequence[mark] += len(data)
    told.append((session[-1][1], tcp(*ends[">"], sequence[">"], flags=0x11, version=version)))
    return told


def variants(session):
    """Files that hold the session: (name, bytes)."""
    plain = segments(session)
    for link in LINKS:
        yield f"pcap, {link}", pcap(plain, link)
        yield f"pcapng, {link}", pcapng(plain, link)
    yield "pcap, swapped", pcap(plain, order=">")
    yield "pcap of nanoseconds", pcap(plain, nano=True)
    yield "pcap of nanoseconds, swapped", pcap(plain, order=">", nano=True)
    yield "pcapng, swapped", pcapng(plain, order=">")
    yield "pcapng of nanoseconds", pcapng(plain, ticks=9)
    yield "IP version 6", pcap(segments(session, version=6))
    yield "each packet twice", pcap([one for one in plain for _ in range(2)])
    yield "no handshake", pcap(plain[3:-1])
    yield "numbers that pass 2^32", pcap(segments(session, (0xFFFFFFFE, 0xFFFFFFFF)))
    swapped = plain[:5] + [plain[6], plain[5]] + plain[7:]
    yield "two pieces out of order", pcap([(time, ip) for (time, _), (_, ip) in zip(plain, swapped)])
    yield "retransmission with more", pcap(_with_more(session))
    other = tcp(("10.0.0.9", 1), ("10.0.0.8", 22), 5, b"ssh\x05")
    yield "another connection without link bytes", pcap(
        plain[:4] + [(0.0, other.replace(b"\x05", b"x"))] + plain[4:]
    )
    keep = tcp(ANALYZER, COMPUTER, 1000 - 1, b"\0", 0x10)
    yield "a keep-alive first", pcap([(0.0, keep)] + plain[3:-1])


def _with_more(session):
    """The second piece of a frame comes again together with the first: only what is new counts."""
    plain = segments(session)
    first = session[2][2]
    both = tcp(ANALYZER, COMPUTER, 1000 + 1, first + session[3][2])
    return plain[:6] + [(session[3][1], both)] + plain[7:]
