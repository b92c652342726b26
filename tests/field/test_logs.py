"""Logs of tools: each gives the capture of the one session that all were made of."""
import base64
import glob
import itertools
import json
import os
import random
import re
import stat
import subprocess

from lislink.capture import read_capture
from lislab.field import sniffers
from tests import ROOT, kit
from tests.field import packets
from tests.field.lab import FieldTest, lislab

LOGS = os.path.join(ROOT, "samples", "logs")
SESSION = os.path.join(ROOT, "samples", "session.capture")
NAMES = {2: "STX", 3: "ETX", 4: "EOT", 5: "ENQ", 6: "ACK", 21: "NAK"}
#: Logs that know no pieces: a byte a line, or a whole frame.
BY_BYTES = ("interceptty", "interceptty-t", "saleae", "nolf")


def timed_session():
    """The session with times, as (mark, seconds, bytes)."""
    seconds = (0.000012, 0.00431, 0.1015, 0.1099, 0.11502, 0.201333, 0.207111, 0.30101, 0.307222, 0.402004)
    lines = [line for _, line in read_capture(kit.bytes_of(SESSION)).lines]
    return [(line.mark, second, line.data) for line, second in zip(lines, seconds)]


SOCAT = ("> 2026/11/20 23:59:59.900000  length=1 from=0 to=0\n 05\n"
         "2026/11/21 00:00:01 socat[7] N a notice\n< 2026/11/21 00:00:02.100000  length=2 from=0 to=1\n 06 3e\n--\n"
         "> 2026/11/21 00:00:32.000000  length=1 from=1 to=1\n 05\n")
LONG = "> 2026/11/20 00:00:00.000000  length=2048 from=0 to=2047\n" + " 41" * 2048 + "\n"
#: Logs, the options, and their captures.
MADE = (
    ("a notice", SOCAT, [], "> 05\n< 063e\n> 05\n"),
    ("the analyzer second", SOCAT, ["--swap"], "< 05\n> 063e\n< 05\n"),
    ("a timer that ran out", SOCAT, ["--timer", "30"], "> 05\n< 063e\nT\n> 05\n"),
    ("a timer that did not", SOCAT, ["--timer", "33"], "> 05\n< 063e\n> 05\n"),
    ("more bytes than a line has room for", LONG, [], "> " + "41" * 2047 + "\n> 41\n"),
    ("a log of a sniffer", "09:15:02.000 TX: 05\n09:15:02.004 RX: 06\n-- idle\n09:15:02.101 TX: 02 31 03 33 34 0d 0a\n",
     [], "> 05\n< 06\n> 02310333340d0a\n"),
)


def shown(data):
    return "".join(chr(byte) if 32 <= byte < 127 else "." for byte in data)


def written(pieces):
    """The pieces in the forms of tools."""
    clock = [f"09:15:{time:09.6f}" for _, time, _ in pieces]
    rows = [(mark, stamp, data) for (mark, _, data), stamp in zip(pieces, clock)]
    yield "socat", "".join(
        f"{mark} 2026/11/20 {stamp}  length={len(data)} from=0 to=0\n"
        + "".join(
            " "
            + data[at : at + 16].hex(" ")
            + "   " * (16 - len(data[at : at + 16]))
            + "  "
            + shown(data[at : at + 16])
            + "\n"
            for at in range(0, len(data), 16)
        )
        + "--\n"
        for mark, stamp, data in rows
    ).encode()
    yield "hex", "".join(
        f"{stamp} {'RX' if mark == '>' else 'TX'}: {data.hex(' ')}\n" for mark, stamp, data in rows
    ).encode()
    yield "strace", "".join(
        f"12 {stamp} {'read' if mark == '>' else 'write'}(5, \""
        f"{''.join(f'{chr(92)}x{byte:02x}' for byte in data)}\", 4096)"
        f" = {len(data)}\n"
        for mark, stamp, data in rows
    ).encode()
    yield "tshark", "".join(
        f"17951661{at:02}.5\t{51234 if mark == '>' else 4001}\t{data.hex()}\n"
        for at, (mark, _, data) in enumerate(rows)
    ).encode()
    yield from written_in_rows(rows)
    yield from written_otherwise(rows)
    yield "json", "".join(
        json.dumps({"dir": "rx" if mark == ">" else "tx", "data": data.hex()}) + "\n" for mark, _, data in rows
    ).encode()
    yield "pcapng", packets.pcapng(packets.segments(pieces))


def written_in_rows(rows):
    """The same as tools with rows of 16 bytes write it, and others."""

    def dump(data, form, width=16):
        return "".join(
            form.format(data[at : at + width].hex(" "), shown(data[at : at + width])) + "\n"
            for at in range(0, len(data), width)
        )

    yield "free-serial-port-monitor", "".join(
        f"{'Answer' if mark == '>' else 'Request'}: 11/20/2026 9:15:02 AM.00012 (+0.0010 seconds)\n\n"
        + dump(data, " {0:50}{1}")
        + "\n"
        for mark, _, data in rows
    ).encode()
    yield "jpnevulator", "".join(
        f"2026-11-20 {stamp}: /dev/ttyS{0 if mark == '>' else 1}\n" + dump(data, "{0:47}\t{1}")
        for mark, stamp, data in rows
    ).encode()
    yield "ngrep", "".join(
        f"T 10.0.0.{1 if mark == '>' else 2}:1 -> 10.0.0.{2 if mark == '>' else 1}:1 [AP] #4\n"
        + dump(data, "  {0:52}{1}")
        + "#\n"
        for mark, _, data in rows
    ).encode()
    yield "docklight", "".join(
        f"20.11.2026 {stamp} [{'RX' if mark == '>' else 'TX'}] - {data.hex(' ').upper()} \n\n"
        for mark, stamp, data in rows
    ).encode()
    yield "portmon", "".join(
        f"{at}\t0.1\tlis.exe\tIRP_MJ_{'READ' if mark == '>' else 'WRITE'}\tSerial0\tSUCCESS\tLength {len(data)}: "
        f"{data.hex(' ').upper()} \n"
        for at, (mark, _, data) in enumerate(rows)
    ).encode()


def written_otherwise(rows):
    """The same as code of C, Python and YAML, and with a word for each side."""
    yield "C arrays", "".join(
        f"char peer{0 if mark == '>' else 1}_{at}[] = {{ /* Packet {at} */\n"
        + ",\n".join(", ".join(f"0x{byte:02x}" for byte in data[cut : cut + 8]) for cut in range(0, len(data), 8))
        + " };\n"
        for at, (mark, _, data) in enumerate(rows)
    ).encode()
    yield "YAML", "".join(
        f"# Packet {at}\npeer{0 if mark == '>' else 1}_{at}: !!binary |\n"
        + "".join(f"  {line}\n" for line in base64.encodebytes(data).decode().split())
        for at, (mark, _, data) in enumerate(rows)
    ).encode()
    yield "escaped", "".join(
        f"{stamp} {'recv' if mark == '>' else 'send'}: \"{''.join(f'{chr(92)}x{byte:02x}' for byte in data)}\"\n"
        for mark, stamp, data in rows
    ).encode()
    yield "eltima", "".join(
        f"[20/11/2026 09:15:02] {'Read' if mark == '>' else 'Written'} data (COM3)\n"
        + "".join(f"\t{data[at:at + 16].hex(' '):50} {shown(data[at:at + 16])}\n" for at in range(0, len(data), 16))
        for mark, _, data in rows
    ).encode()
    yield "python", "".join(
        f"{stamp} {'<-' if mark == '>' else '->'} {data!r}\n" for mark, stamp, data in rows
    ).encode()
    yield "slsnif", "".join(
        f"{'Device' if mark == '>' else 'Host  '} --> "
        + "".join(f"{chr(byte) if 32 < byte < 127 else '.'}({byte:03})" for byte in data)
        + "\n"
        for mark, _, data in rows
    ).encode()


def notations():
    """How programs write a control byte into text: what makes it of the byte, and whether it is read."""
    letters = {13: "\\r", 10: "\\n"}
    return {
        "[02]": (lambda byte: f"[{byte:02X}]", True),
        "[0x02]": (lambda byte: f"[0x{byte:02x}]", True),
        "{02}": (lambda byte: f"{{{byte:02X}}}", True),
        "(02)": (lambda byte: f"({byte:02X})", True),
        "<0x02>": (lambda byte: f"<0x{byte:02X}>", True),
        "Java": (lambda byte: letters.get(byte, f"\\u{byte:04x}"), True),
        "Java, all by number": (lambda byte: f"\\u{byte:04X}", True),
        "C": (lambda byte: letters.get(byte, f"\\x{byte:02x}"), True),
        "words, and escapes": (lambda byte: letters.get(byte, f"<{NAMES.get(byte, '')}>"), True),
        "=02": (lambda byte: f"={byte:02X}", True),
        "%02": (lambda byte: f"%{byte:02x}", True),
        "<2>": (lambda byte: f"<{byte}>", True),
        "<2>, <D>": (lambda byte: f"<{byte:X}>", True),
        "^B": (lambda byte: f"^{chr(byte + 64)}", False),
    }


def heads(mark, number):
    """How a line of a log may begin."""
    yield f"{'RX' if mark == '>' else 'TX'}: "
    yield f"2026-11-20 09:15:{number:02}.000 [{'RECV' if mark == '>' else 'SEND'}] "
    yield "Analyzer -> Host: " if mark == ">" else "Host -> Analyzer: "


def errors():
    """What is no log: its name, its bytes, and words of the error."""
    return (
    ("nothing", b"", "empty"),
    ("blanks", b"\n \n", "empty"),
    ("a letter", b"Dear Sir,\nthe line is down.\n", "no line"),
    ("ASCII of Follow", b"Follow: tcp,ascii\nFilter: tcp.stream eq 0\n1\n.\n", "lost the control bytes"),
    ("socat -v alone", b"> 2026/11/20 09:15:02.000012  length=1 from=0 to=0\n.--\n", "use socat -x"),
    ("a block that lacks a byte", b"> 2026/11/20 09:15:02.000012  length=2 from=0 to=1\n 05\n", "lacks"),
    (
        "a byte too many",
        b"> 2026/11/20 00:00:00.000000  length=2 from=0 to=1\n 05 06 04\n",
        "line 2: the block has more bytes than its length",
    ),
    ("a cut strace", b'1 read(5, "\\5", 4096) = 1\n1 read(5, "\\0021H|"..., 4096) = 40\n', "-s 4096"),
    ("a row that is missing", b"00000000  05 02 31\n00000010  48\n", "row is missing"),
    (
        "two descriptors",
        b'1 read(5, "\\5", 9) = 1\n1 write(5, "\\6", 1) = 1\n1 read(6, "\\5", 9) = 1\n',
        "choose one by --fd",
    ),
    (
        "a Portmon line that is cut",
        b"1\t0.1\ta.exe\tIRP_MJ_READ\tSerial0\tSUCCESS\tLength 3: 05 02\n",
        "Portmon",
    ),
    ("an empty pcap", packets.pcap([]), "no TCP connection"),
    (
        "a capture of a bus",
        packets.pcap(packets.segments(timed_session())).replace(
            b"\xff\xff\0\0\1\0\0\0", b"\xff\xff\0\0\xf9\0\0\0"
        ),
        "type 249",
    ),
    ("replies alone", b"RX: 06\nRX: 06\n", "only replies"),
    ("a capture", b"> 05\n", "already"),
    )


#: Samples whose form is named, since another one would be taken for it otherwise.
IRP, CSV = "eltima-table.txt --form irp-table", "csv-dir.txt --form csv-table"
FIELDS = "tshark-fields-names.txt --form tshark-fields"


def skipped():
    """Rows with bytes that a reader of a form could skip: what is wrong, the sample, what is put in the place of
    what (or after all), and words of the error."""
    return (
        ("a byte without its value", "slsnif.txt", b"|(124)1(049)", b"|1(049)", "a byte without its value"),
        ("a row of no side", "slsnif.txt", b"Host   --> ^U(021)", b"Hosts: ^U(15)", "no line of slsnif"),
        ("a call without its end", "strace.txt", b"", b'1 write(5, "\\25", 1\n', "the call has no result"),
        ("a call that isn't resumed", "strace.txt", b"", b'7 write(5, "\\25", 1 <unfinished ...>\n', "has no result"),
        ("a call of another kind", "strace.txt", b"", b'1 pwrite64(5, "\\25", 1, 0) = 1\n', "isn't read here"),
        ("no length", "portmon.txt", b"Length 8: 02", b"Data: 02", "no line of Portmon"),
        ("digits that are none", "eltima-table.txt", b"02 31 48", b"02 31 4g", "no bytes in the column data"),
        ("digits that are none", IRP, b"02 31 48 7c", b"02 31 48 7g", "bytes that can't be read"),
        ("digits in one word", IRP, b"03 45 35 0d 0a", b"0345350d0a", "bytes that can't be read"),
        ("digits that are none", "eltima-dump.txt", b"02 31 48", b"0x2 31 48", "an incomplete row of bytes"),
        ("a row before the first side", "jpnevulator.txt", b"2026", b"02 31 48 7c 5c\n2026", "an incomplete row"),
        ("a word before the row", "serialport-monitor.txt", b"    02 31", b"Buffer: 02 31", "an incomplete row"),
        ("repeated rows at the end", "one-xxd.txt", b"", b"*\n", "how many isn't known"),
        ("repeated rows without offsets", "one-xxdp.txt", b"", b"*\n" + b"00" * 16 + b"\n", "how many isn't known"),
        ("an array that isn't ended", "follow-c.txt", b"", b"char peer0_9[] = {\n0x05", "an incomplete array"),
        ("bytes of another kind", "follow-yaml-old.txt", b"BQ==", b"BQ?=", "no line of YAML that is known"),
        ("a row that is cut", FIELDS, b"", b"02 31 48 7c 5c 5e 26 0d\n", "an incomplete row"),
        ("a row that is cut", "tshark-fields-names.txt", b"", b"0231487c5c5e260d\n", "bytes that can't be read"),
        ("a row that is cut", CSV, b"", b"02 31 48 7c 5c 5e 26 0d\n", "an incomplete row"),
        ("no direction", "json-lines.txt", b"", b'{"data": "02 31 48 7c"}\n', "bytes without a direction"),
        ("a row of another offset", "tcpdump-X.txt", b"0x0020:  5018", b"0x0030:  5018", "a row is missing"),
        ("a row that isn't ended", "k12.txt", b"|50|02|20|00|", b"|50|02|2|00|", "no row of K12"),
    )


def captured(text):
    """The bytes of a capture."""
    return bytes.fromhex("".join(row[2:] for row in text.splitlines() if row[:2] in ("> ", "< ")))


class Logs(FieldTest):
    def test_samples(self):
        """Each log of samples/logs: with its pieces, and a line a unit."""
        wanted = kit.bytes_of(SESSION).decode()
        units = lislab("capture", os.path.join(LOGS, "socat-x.txt"), "--units").text
        analyzer = "".join(line + "\n" for line in units.splitlines() if line.startswith(">"))
        paths = [path for path in sorted(glob.glob(os.path.join(LOGS, "*"))) if not path.endswith((".bin", ".md"))]
        self.check(len(paths) > 50, "there are logs", str(len(paths)))
        for path in paths:
            name = os.path.splitext(os.path.basename(path))[0]
            one_side = name.startswith("one-") or name == "realterm-hex"
            ran = lislab("capture", path, "--units")
            self.same(f"{name}: a line a unit", ran.text, analyzer if one_side else units)
            if not one_side and name not in BY_BYTES:
                self.same(f"{name}: with its pieces", lislab("capture", path).text, wanted)
            self.same(f"{name}: status", ran.status, 0)
            form = re.search(r"form: (\S+)", ran.error)[1]
            self.check(form in (*sniffers.FORMS, "pcap", "raw"), f"{name}: --form takes the form that is named", form)
            shown = lislab("ladder", path)
            self.has(f"{name}: the reason in one command", shown.text, "rejected: checksum wrong: 05 found, 06 wanted")
            if not one_side:
                self.has(f"{name}: the ladder's end", shown.text, "texts 2, differences 0, messages 1")
        raw = self.path("raw.bin", b"".join(data for mark, _, data in timed_session() if mark == ">"))
        self.same("the bytes themselves", lislab("capture", raw).text, analyzer)
        mixed = self.path("mixed.bin", b"".join(data for _, _, data in timed_session()))
        self.same("both sides in one stream", lislab("capture", mixed, "--mixed", "--units").text, units)
        self.has("both sides in one stream, not told", lislab("capture", mixed).error, "--mixed takes them apart")

    def test_made(self):
        """The log of the sample, also without its column of text; and what options make of a log."""
        log = kit.read("samples/session.socat")
        bare = re.sub(r"(?m)^((  ?[0-9a-f]{2})+) .*$", r"\1", re.sub(r"(?m)^--\n", "", log))
        for name, one, words, wanted in (
            ("socat -x -v", log, [], kit.read("samples/session.capture")),
            ("socat -x", bare, [], kit.read("samples/session.capture")),
            *MADE,
        ):
            self.same(name, lislab("capture", *words, data=one.encode()).text, wanted)

    def test_packets(self):
        """Packet files in each form."""
        wanted = kit.bytes_of(SESSION).decode()
        session = timed_session()
        for name, data in packets.variants(session):
            path = self.path("trace.pcap", data)
            out = self.path("trace.capture")
            ran = lislab("capture", path, "-o", out)
            self.same(f"{name}: status ({ran.error})", ran.status, 0)
            self.same(name, kit.bytes_of(out).decode(), wanted)
            times = kit.bytes_of(out + ".times").decode().splitlines()
            self.check(
                len(times) == 10 and times[0].startswith("2026-11-20T09:15:02.00001"), f"{name}: times", str(times[:2])
            )

    def test_packets_of_a_network(self):
        """What a network does to packets."""
        wanted = kit.bytes_of(SESSION).decode()
        session = timed_session()
        plain = packets.segments(session)
        gap = self.path("gap.pcap", packets.pcap(plain[:5] + plain[6:]))
        self.has("a packet is missing", lislab("capture", gap).error, "bytes are missing")
        ran = lislab("capture", gap, "--skip-missing")
        self.same("a packet is missing, and passed over", ran.text, wanted.replace("> 0231487c5c5e260d\n", ""))
        self.has("a packet is missing, told", ran.error, "8 bytes aren't in the file")
        cut = self.path("cut.pcap", packets.pcap(plain)[:-9])
        self.same("a last packet that is cut", lislab("capture", cut).status, 0)
        twice = self.path(
            "twice.pcap",
            packets.pcap(
                plain + [(time + 5, packet.replace(b"\xc8\x22", b"\xc8\x23")) for time, packet in plain]
            ),
        )
        ran = lislab("capture", twice)
        self.same("a second connection follows", ran.text, "capture 2\n" + wanted + "R\n" + wanted)
        self.same("the second connection alone", lislab("capture", twice, "--stream", "2").text, wanted)

    def test_packets_of_other_connections(self):
        wanted = kit.bytes_of(SESSION).decode()
        plain = packets.segments(timed_session())
        noise = random.Random(3)
        other = [
            (
                0.001 * at,
                packets.tcp(
                    ("10.0.0.9", 40000), ("10.0.0.8", 22), 5 + 900 * at, bytes(noise.choices(range(256), k=900))
                ),
            )
            for at in range(300)
        ]
        mixed = self.path("mixed.pcap", packets.pcap(sorted(plain + other)))
        self.same("among connections of other kinds", lislab("capture", mixed).text, wanted)
        both = self.path(
            "both.pcap",
            packets.pcap(
                sorted(plain + [(time, packet.replace(b"\x0a\0\0\x01", b"\x0a\0\0\x07")) for time, packet in plain])
            ),
        )
        self.has("two lines at once", lislab("capture", both).error, "--stream 2: ")
        self.same("two lines at once, the first", lislab("capture", both, "--stream", "1").text, wanted)

    def test_packets_of_a_reconnection(self):
        """A connection may begin before the last packets of the one before; where bytes overlap one is chosen."""
        wanted = kit.bytes_of(SESSION).decode()
        plain = packets.segments(timed_session())
        again = [(time + 0.4025, packet.replace(b"\xc8\x22", b"\xc8\x23")) for time, packet in plain]
        close = (again[2][0] + 0.0004, plain[-1][1])
        path = self.path("again.pcap", packets.pcap([*plain[:-1], *again[:3], close, *again[3:]]))
        ran = lislab("capture", path)
        self.same(f"a connection within a millisecond {ran.error}", ran.text, "capture 2\n" + wanted + "R\n" + wanted)
        at_once = sorted([*plain, *((time - 0.2, packet) for time, packet in again)])
        ran = lislab("capture", self.path("at-once.pcap", packets.pcap(at_once)))
        self.has("connections whose bytes overlap", ran.error, "choose one: --stream 1: ")

    def test_advice(self):
        """The options that are named where neither side sends ENQ work when they are pasted into a shell."""
        for name, log in (
            ("socat", "".join(f"{mark} 2026/11/20 09:15:02.000012  length=1 from=0 to=0\n {byte}\n--\n"
                              for mark, byte in ((">", "41"), ("<", "06")))),
            ("arrows", "09:15:02 -> 41 42\n09:15:03 <- 06\n"),
            ("names", "".join(json.dumps({"dir": side, "data": data}) + "\n"
                              for side, data in (("XN 1 (left)", "41 42"), ("Lab's PC", "06")))),
            ("a name within the other", "COM12: 41 42\nCOM1: 06\n"),
        ):
            path = self.path("log", log.encode())
            error = lislab("capture", path).error
            advice = re.search(r"name the analyzer's side by (.*) or (--.*)\n", error)
            if not self.check(advice is not None, f"{name}: options are named", error):
                continue
            for option, mark in zip(advice.groups(), "><"):  # the first side is the first that the log has
                words = subprocess.run(["sh", "-c", f"printf '%s\\n' {option}"], capture_output=True, text=True).stdout
                ran = lislab("capture", path, *words.splitlines())
                self.same(f"{name}: {option} {ran.error}", (ran.status, ran.text[:1]), (0, mark))

    def test_two_dumps(self):
        """Two raw dumps, one of each direction."""
        ran = lislab(
            "capture",
            "--analyzer",
            os.path.join(LOGS, "analyzer.bin"),
            "--computer",
            os.path.join(LOGS, "computer.bin"),
        )
        self.same("two dumps", ran.text, lislab("capture", os.path.join(LOGS, "socat-x.txt"), "--units").text)
        self.has("two dumps: the order is unknown", ran.error, "their order isn't known")
        self.same(
            "a dump without the other", lislab("capture", "--analyzer", os.path.join(LOGS, "analyzer.bin")).status, 2
        )

    def test_errors(self):
        """What is no log is an error, and never an empty capture."""
        for name, data, words in errors():
            ran = lislab("capture", self.path("log", data))
            self.same(f"{name}: status", ran.status, 3)
            self.same(f"{name}: no capture", ran.output, b"")
            self.has(name, ran.error, words)
        self.has(
            "records are no line",
            lislab("ladder", os.path.join(ROOT, "samples", "panel.records")).error,
            "normalize --explain",
        )
        out = self.path("never")
        lislab("capture", self.path("log", b"nothing here\n"), "-o", out)
        self.check(not os.path.exists(out), "no file is made of nothing")

    def test_notations(self):
        """Control bytes in text: each log is read whole, or is an error; no frame is left out, and no byte is wrong."""
        wanted = kit.bytes_of(SESSION).decode()
        session = [(mark, data) for mark, _, data in timed_session()]
        for name, mark in (("percent codes", "%"), ("quoted-printable", "=")):
            coded = lambda byte: chr(byte) if chr(byte).isalnum() else f"{mark}{byte:02X}"
            text = "".join(f"{'RX' if side == '>' else 'TX'}: {''.join(map(coded, data))}\n" for side, data in session)
            ran = lislab("capture", self.path("log", text.encode()))
            self.same(f"{name} of all but letters and digits {ran.error}", (ran.status, ran.text), (0, wanted))
        for row, why in (
            ("TX: ^B1H|\\^&^M^CE5^M^J", "line 3: control bytes are written as ^B here"),
            ("RX: %021R|1|^^^GLU|5%05|%%0D%0300", "line 3: a number within a frame is no byte of it"),
            ("RX: <2>1R|1|^^^GLU|<7>|%<13><3>00", "which bytes these are isn't clear: <13>, <2>, <3>, <7>"),
        ):
            ran = lislab("capture", self.path("log", f"RX: port opened\nTX: closed\n{row}\n".encode()))
            self.same(f"{row}: status", (ran.status, ran.text), (3, ""))
            self.has(f"{row}: why", ran.error, why)
        for name, (write, is_read) in notations().items():
            is_escaped = name in ("Java", "C", "words, and escapes")
            ways = [("\\", ""), ("\\\\", ""), ("\\\\", '"')] if is_escaped else [("\\", "")]
            for (backslash, quote), head in itertools.product(ways, range(3)):
                shown = lambda byte: backslash if byte == 92 else chr(byte) if 32 <= byte < 127 else write(byte)
                text = "".join(
                    f"{list(heads(mark, number))[head]}{quote}{''.join(map(shown, data))}{quote}\n"
                    for number, (mark, data) in enumerate(session)
                )
                ran = lislab("capture", self.path("log", text.encode()))
                where = f"{name}, {backslash}, {quote}, head {head}: {ran.error}"
                self.same(where, (ran.status, ran.text), (0, wanted) if is_read else (3, ""))
        for name, write in notations().items():
            rows = [
                {"dir": mark, "data": "".join(chr(one) if 32 <= one < 127 else write[0](one) for one in data)}
                for mark, data in session
            ]
            ran = lislab("capture", self.path("log", "".join(json.dumps(row) + "\n" for row in rows).encode()))
            self.same(f"{name} in JSON lines {ran.error}", (ran.status, ran.text), (0, wanted) if write[1] else (3, ""))
        for name, write in (("JSON", json.dumps), ("JSON, bare", lambda text: json.dumps(text)[1:-1])):
            text = "".join(f"{'in' if mark == '>' else 'out'}: {write(data.decode())}\n" for mark, data in session)
            self.same(name, lislab("capture", self.path("log", text.encode())).text, wanted)

    def test_left_out(self):
        """A line that is left out is reported; one that has bytes of the line and can't be read is an error."""
        hexed = "".join(f"{'RX' if mark == '>' else 'TX'}: {data.hex(' ')}\n" for mark, _, data in timed_session())
        ran = lislab("capture", self.path("log", b"port opened\n" + hexed.encode() + b"RX: closed\n"))
        self.same("a line without bytes", (ran.status, ran.text), (0, kit.bytes_of(SESSION).decode()))
        self.has("a line without bytes, told", ran.error, "lines without bytes were left out, 2 of them: 1, 12")
        for row in ("RX: 02 31 4g 7c 5c 5e 26 0d", "RX: #021H|\\^&#0D", "TX 1 R|1|^^^GLU|5.4"):
            ran = lislab("capture", self.path("log", hexed.encode() + row.encode() + b"\n"))
            self.same(f"a row that can't be read: {row}", (ran.status, ran.text), (3, ""))
            self.has(f"a row that can't be read: {row}", ran.error, "line 11: bytes that can't be read")
        for row in ("#021H|\\^&#0D", "RX 1H|\\^&"):
            ran = lislab("capture", self.path("log", b"05\n06\n" + row.encode() + b"\n06\n04\n"))
            self.same(f"a row that can't be read, without directions: {row}", (ran.status, ran.text), (3, ""))
        rows = [{"dir": "rx", "data": "05"}, {"dir": "tx", "data": "06"}, {"event": "closed"}]
        ran = lislab("capture", self.path("log", "".join(json.dumps(row) + "\n" for row in rows).encode()))
        self.has("JSON without bytes, told", ran.error, "lines without bytes were left out, 1 of them: 3")
        rows[2] = {"dir": "rx", "data": [2, 49, 72]}
        ran = lislab("capture", self.path("log", "".join(json.dumps(row) + "\n" for row in rows).encode()))
        self.same("JSON with a list of numbers", (ran.status, ran.text), (3, ""))

    def test_damaged_rows(self):
        """A row of bytes that is damaged is an error, or is reported as left out: no byte goes unsaid."""
        chance, tried, unsaid = random.Random(62), 0, []
        for path in sorted(glob.glob(os.path.join(LOGS, "*"))):
            log = kit.bytes_of(path)
            if path.endswith((".bin", ".md", ".pcap", "nolf.txt")) or b"\0" in log:
                continue  # a log without LF has fewer bytes than its capture
            whole = len(captured(lislab("capture", path).text))
            rows = log.splitlines(keepends=True)
            for at in chance.sample(range(len(rows)), min(len(rows), 12)):
                places = [place for place, byte in enumerate(rows[at]) if byte in b"0123456789abcdefABCDEF"]
                if not places:
                    continue
                place, byte = chance.choice(places), chance.choice((b"g", b"~"))
                row = rows[at][:place] + byte + rows[at][place + 1 :]
                ran = lislab("capture", self.path("log", b"".join([*rows[:at], row, *rows[at + 1 :]])))
                tried += 1
                if not (ran.status or len(captured(ran.text)) >= whole or "left out" in ran.error):
                    unsaid.append((os.path.basename(path), row, ran.error))
        self.check(tried > 500, "rows are damaged", str(tried))
        self.same("bytes are left out unsaid", unsaid, [])

    def test_skipped(self):
        """What the forms skip: a row that holds bytes is an error, any other is counted."""
        for name, log, old, new, words in skipped():
            sample, *options = log.split()
            data = kit.bytes_of(os.path.join(LOGS, sample))
            ran = lislab("capture", *options, self.path("log", data.replace(old, new, 1) if old else data + new))
            self.same(f"{log}, {name}: status {ran.text[:200]}", ran.status, 3)
            self.has(f"{log}, {name}: why", ran.error, words)
        for name, log, new in (
            ("the program's name", "slsnif.txt", b""),
            ("calls of other kinds", "portmon2.txt", b""),
            ("a row without bytes", "tshark-fields.txt", b"1763630103.5\t51234\t\n"),
            ("a row without bytes", "eltima-table.txt", b"11\t20/11/2026 09:15:03\tIRP_MJ_CLOSE\tUP\tSTATUS_SUCCESS\n"),
        ):
            ran = lislab("capture", self.path("log", kit.bytes_of(os.path.join(LOGS, log)) + new))
            self.same(f"{log}, {name}", (ran.status, ran.text), (0, kit.bytes_of(SESSION).decode()))
            self.has(f"{log}, {name}: told", ran.error, "lines without bytes were left out")
        yaml = re.sub(rb"\|\n +(\S+)\n", rb"\1\n", kit.bytes_of(os.path.join(LOGS, "follow-yaml-old.txt")))
        ran = lislab("capture", self.path("log", yaml))
        self.same(f"base64 on the line of its name {ran.error}", ran.text, kit.bytes_of(SESSION).decode())
        ran = lislab("capture", self.path("log", b"<STX>1H|\\^&<CR><ETX>E5<CR><LF>\n<15>\n<ENQ>\n<06>\n"))
        self.same("NAK as <15> without a direction", [row for row in ran.lines if row[0] == "<"], ["< 15", "< 06"])

    def test_options(self):
        """The side of the analyzer, the timer, modes and times."""
        log = os.path.join(LOGS, "socat-x.txt")
        swapped = lislab("capture", log, "--swap").lines
        elf = b'1 read(3, "\\177ELF\\2\\1\\1\\0\\5", 832) = 9\n'
        strace = elf + kit.bytes_of(os.path.join(LOGS, "strace.txt")) + elf.replace(b"3,", b"4,")
        self.same(
            "descriptors of other kinds", lislab("capture", self.path("log", strace)).text, kit.bytes_of(SESSION).decode()
        )
        self.same("--swap", swapped[:2], ["< 05", "> 06"])
        self.same("--analyzer-side", lislab("capture", log, "--analyzer-side", "<").lines, swapped)
        self.has(
            "--analyzer-side of none",
            lislab("capture", log, "--analyzer-side", "x").error,
            "isn't one of the two sides",
        )
        self.has("--timer", lislab("capture", log, "--timer", "0.09").text, "\nT\n")
        self.check("T" not in lislab("capture", log, "--timer", "30").lines, "no timer")
        both = b"RX: 05\nTX: 06\nRX: 02 31 4F 7C 31 0D 03 42 35 0D 0A\nTX: 06\nRX: 04\n"
        both += b"TX: 05\nRX: 06\nTX: 02 31 52 7C 31 0D 03 38 0D 0A\n"
        ran = lislab("capture", self.path("log", both))
        self.has("the side with results", ran.error, "alone sends results")
        self.same("the side with results, lines", ran.lines[0], "< 05")
        out = self.path("private.capture")
        old = os.umask(0)
        try:
            lislab("capture", log, "-o", out)
            lislab("ladder", log, "--html", self.path("private.html"))
        finally:
            os.umask(old)
        for path in (out, out + ".times", self.path("private.html")):
            self.same(f"mode of {os.path.basename(path)}", stat.S_IMODE(os.stat(path).st_mode), 0o600)
        self.has("times beside a capture", lislab("ladder", out).text, "09:15:02.201")
        long = b"RX: 05\nTX: 06\nRX: " + b"41 " * 3000 + b"\n"
        self.same(
            "more bytes than a line has room for",
            [len(line) for line in lislab("capture", self.path("log", long)).lines],
            [4, 4, 2 + 2 * 2047, 2 + 2 * 953],
        )

    def test_round_trips(self):
        """Random sessions written in the form of tools come back as they were."""
        chance = random.Random(7)
        for trial in range(12):
            # Letters that look like a dump's own digits and columns are in half of them.
            letters = range(256) if trial % 2 else b"0123456789ABCDEFabcdef ..|<>:-x\r\n"
            pieces = [
                (chance.choice("<>"), 0.001 * number, bytes(chance.choices(letters, k=chance.randrange(1, 70))))
                for number in range(12)
            ]
            pieces.insert(0, (">", 0.0, b"\x05\x021H|\\^&\r\x03E5\r\n"))
            pieces = [
                (mark, time, data if mark == ">" else data.replace(b"\x05", b"e").replace(b"\x02", b"s"))
                for mark, time, data in pieces
            ]
            wanted = "".join(f"{mark} {data.hex()}\n" for mark, _, data in pieces)
            for name, text in written(pieces):
                ran = lislab("capture", self.path(f"log-{name}", text))
                self.same(f"round trip {trial} of {name} {ran.error}", ran.text, wanted)

    def test_bytes(self):
        """Logs of text with the bytes as they came, and letters over 127."""
        session = timed_session()
        wanted = kit.bytes_of(SESSION).decode()
        for name, line in (("LF", b"\n"), ("CR LF", b"\r\n")):
            text = b"".join(
                b"2026-11-20 09:15:02.%03d %s: " % (int(time * 1000), b"RX" if mark == ">" else b"TX") + data + line
                for mark, time, data in session
            )
            self.same(f"control bytes in a log, {name}", lislab("capture", self.path("log", text)).text, wanted)
        for name, letters in (
            ("Latin-1", "é".encode("latin-1")),
            ("UTF-8", "é".encode("utf-8")),
            ("GBK", "病".encode("gbk")),
        ):
            text = b"RX: <ENQ>\nTX: <ACK>\nRX: <STX>1" + letters + b"<CR><ETX>00<CR><LF>\n"
            lines = lislab("capture", self.path("log", text)).lines
            self.same(f"letters of {name}", lines[2:], ["> 0231" + letters.hex() + "0d0330300d0a"])
        text = "RX: <ENQ>\r\nTX: <ACK>\r\nRX: <STX>1é<CR>\r\n".encode("utf-16")
        self.same("letters of UTF-16", lislab("capture", self.path("log", text)).lines[2:], ["> 0231e90d"])
        self.has(
            "text around each reply",
            lislab("capture", self.path("log", b"RX: a <ENQ>\nTX: b <ACK>\n")).error,
            "text around it",
        )
        swapped = lislab("capture", SESSION, "--swap").text
        self.same("a capture is turned round", swapped, wanted.replace(">", "x").replace("<", ">").replace("x", "<"))
