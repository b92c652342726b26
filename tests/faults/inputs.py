"""Hostile inputs, the same at every run: link bytes, captures, records and streams of records.

Each function gives (name, bytes). What they mean is said by conformance/model.py alone.
"""
from model import CR, ENQ, EOT, ETB, ETX, LF, STX, Receiver

PUNCTUATION = b"!\"#$%&'()*+,-./:;<=>?@[\\]^_`{|}~"
USUAL = b"|\\^&"
MARKS = bytes([STX, ETX, EOT, ENQ, 6, LF, CR, 0x15, ETB, 0x30, 0x31, 0x32, 0x37, 0x38, 0x41, 0x46, 0x61, 0x66])


def pick(rng, letters, most):
    return bytes(rng.choices(letters, k=rng.randrange(most + 1)))


def frame(number, text, end=ETX):
    body = b"%d%s%c" % (number % 8, text, end)
    return b"\x02%s%02X\r\n" % (body, sum(body) % 256)


def damaged(rng, data):
    """The bytes with some changed, put in, taken out or doubled."""
    data = bytearray(data)
    for _ in range(rng.randrange(4)):
        place = rng.randrange(len(data) + 1)
        how = rng.randrange(4)
        if how == 0:
            data[place:place] = bytes([rng.choice(MARKS)])
        elif how == 1:
            del data[place:place + rng.randrange(1, 9)]
        elif how == 2:
            data[place:place + 1] = bytes([rng.randrange(256)])
        else:
            data[place:place] = data[place:place + rng.randrange(40)]
    return bytes(data)


def session(rng, longest):
    """A session's bytes: its frames are mostly good and in turn."""
    return b"".join(sent(rng, longest)) + rng.choice((b"\x04", b""))


def sent(rng, longest):
    """ENQ and frames, mostly in turn."""
    number = 1
    yield b"\x05"
    for _ in range(rng.randrange(7)):
        yield frame(number, pick(rng, bytes(range(32, 256)), longest), rng.choice((ETX, ETB)))
        number += rng.choice((1, 1, 1, 1, 1, 0, 2))


# Link bytes

def link_inputs(rng, count):
    for turn in range(count):
        yield f"noise {turn}", rng.randbytes(rng.randrange(1500))
        yield f"marks {turn}", pick(rng, MARKS, 400)
        yield f"a session {turn}", session(rng, 250)
        yield f"torn frames {turn}", damaged(rng, session(rng, 60))
        yield f"frames round the limit {turn}", damaged(rng, frame(1, b"A" * rng.randrange(236, 246), ETB)) + b"\x04"


def link_edges():
    """Repeats, frame bodies without an end, and lengths round the limits of a frame."""
    for byte in (STX, LF, ENQ, EOT, CR, ETX, 0x26, 0):
        yield f"10,000 bytes {byte:02x}", bytes([byte]) * 10000
        yield f"STX, 10,000 bytes {byte:02x}, LF, a frame", b"\x02" + bytes([byte]) * 10000 + b"\n" + frame(1, b"A")
    for length in (0, 1, 2, 3, 4, 5, 239, 240, 241, 244, 245, 246):
        yield f"a stretch of {length}", b"\x02" + b"A" * length + b"\n"
        yield f"a text of {length}", frame(1, b"A" * length)
        yield f"a text of {length} and its last byte forbidden", frame(1, b"A" * length + b"\x01")
    for length in (63992, 63993, 63994, 63998, 63999):
        yield f"a text of {length}", frame(3, b"A" * length, ETB)
        yield f"a stretch of {length}", b"\x02" + b"A" * length + b"\n"
    for digits in (b"34", b"43", b"3\r", b"g4", b"  ", b"\x00\x00"):
        yield f"digits {digits.hex()}", b"\x021\x03" + digits + b"\r\n"


# Calls on the two ends

def sender_phases():
    """The calls that bring a new sender into each phase, and to the last try of a frame."""
    start, sent = ["sender.new", "sender.start 41,4242"], ["sender.reply 06"]
    yield ["sender.new"]
    yield start
    yield start + ["sender.reply 15"]
    yield start + ["sender.reply 05"]
    yield start + sent
    yield start + sent * 2
    yield start + sent + ["sender.reply 15"] * 5
    yield start + sent * 3
    yield start + sent + ["sender.timer"]
    yield start + ["sender.restart"]


def sender_cases():
    """Each byte, the timer, a restart and a start for a sender in each phase."""
    for phase in sender_phases():
        for byte in range(256):
            yield phase + [f"sender.reply {byte:02x}", "sender.timer", f"sender.reply {byte:02x}"]
        for call in ("sender.timer", "sender.restart", "sender.start 43", "sender.start none", "sender.start 41,410a"):
            yield phase + [call, "sender.timer", "sender.timer"]


def receiver_cases():
    """Each byte for a receiver that is neutral, open, inside a frame, after one, busy or contending."""
    opened = ["receiver.new", "receiver.bytes 05"]
    held = opened + ["receiver.bytes 0231411738390d0a"]
    for calls in (["receiver.new"], opened, opened + ["receiver.bytes 023141"], held, held + ["receiver.bytes 0232"],
                  ["receiver.new", "receiver.ready busy"], ["receiver.new", "receiver.ready contending"],
                  held + ["receiver.room off"]):
        for byte in range(256):
            frames = "0232420337370d0a0a0231410337350d0a"
            yield calls + [f"receiver.bytes {byte:02x}", f"receiver.bytes {frames}", "receiver.timer"]


def heard_cases(rng, count):
    """Sessions and noise in pieces, for receivers and scanners."""
    for name, data in link_inputs(rng, count):
        calls = ["receiver.new", rng.choice(("receiver.ready busy", "receiver.ready contending", "receiver.bytes 05"))]
        place = 0
        while place < len(data):
            length = rng.randrange(1, len(data) + 1)
            calls.append(f"receiver.bytes {data[place:place + length].hex()}")
            calls += rng.sample(("receiver.timer", "receiver.restart", "receiver.ready ready", "receiver.room off",
                                 "receiver.room on", "receiver.bytes 05"), 1) * (rng.random() < 0.2)
            place += length
        yield calls
        yield [f"frame.scan {rng.randrange(len(data) + 1)} {data.hex() or '-'}"]


def longest_text():
    """Full frames up to the longest text, one more, the same again, and the end of the line."""
    full = [f"receiver.bytes {frame(number, b'A' * 240, ETB).hex()}" for number in range(1, 4371)]
    yield ["receiver.new", "receiver.bytes 05"] + full + [full[-1], "receiver.bytes 04", "receiver.bytes 05"]


# Captures

def hexed(rng, data):
    text = data.hex().encode()
    return text.upper() if rng.random() < 0.2 else text


def capture_line(rng):
    """A line that says something, or nearly does."""
    how = rng.random()
    if how < 0.5:
        data = rng.choice((b"\x05", b"\x04", session(rng, 30), damaged(rng, session(rng, 20))))
        return b"> " + hexed(rng, data or b"\x05")
    if how < 0.7:
        return b"< " + hexed(rng, rng.choice((b"\x06", b"\x15", b"\x05", b"\x06\x06", rng.randbytes(3))))
    return rng.choice((b"", b"T", b"\r", b"R", b"S ready", b"S busy", b"S contending", b"capture 2"))


def bad_line(rng):
    """A line that says nothing."""
    return rng.choice((b">", b"> ", b"> 0", b"> 050", b">05", b">  05", b"> 05 ", b"> 0g", b"< ", b"t", b"TT", b" T",
                       b"S off", b"S  ready", b"s ready", b"S ready\r\r", b"capture 1", b"capture 2 ", b"Capture 2",
                       b"\x00", b"\xff", b"> 05\r\r", b"> 05\t", b"\t", rng.randbytes(5).replace(b"\n", b"") + b"?"))


def dialogue(rng):
    """The lines of sessions with most of the replies that a receiver gives; some frames come damaged or in pieces."""
    receiver, lines = Receiver(240), []
    for _ in range(rng.randrange(1, 4)):
        for data in sent(rng, 120):
            data = damaged(rng, data) or b"\x00" if rng.random() < 0.1 else data
            place = rng.randrange(1, len(data)) if len(data) > 1 and rng.random() < 0.2 else len(data)
            lines += [b"> " + hexed(rng, piece) for piece in (data[:place], data[place:]) if piece]
            replies = bytes(step.reply for step in receiver.hear(data) if step.reply is not None)
            replies = replies if rng.random() < 0.95 else b"\x15"
            lines += [b"< " + hexed(rng, replies)] * bool(replies)
        lines.append(rng.choice((b"> 04", b"T", b"")))
        receiver.hear(b"\x04")
    return lines


def capture_inputs(rng, count):
    for turn in range(count):
        lines = dialogue(rng)
        yield f"a dialogue {turn}", b"\n".join([b"capture 2"] * (turn % 2) + lines + [b""])
        yield f"a dialogue and a bad line {turn}", b"\n".join(lines + [bad_line(rng)])
        lines = [b"capture 2"] * (turn % 2) + [capture_line(rng) for _ in range(rng.randrange(25))]
        if rng.random() < 0.5:
            lines = [line for line in lines[:turn % 2]] + [
                line for line in lines[turn % 2:] if line[:1] in (b"<", b">", b"", b"T")]
        ended = rng.choice((b"\n", b"\r\n")).join(lines) + rng.choice((b"", b"\n", b"\r", b"\r\n"))
        yield f"lines {turn}", ended
        place = rng.randrange(len(lines) + 1)
        yield f"a bad line {turn}", b"\n".join(lines[:place] + [bad_line(rng)] + lines[place:])
        yield f"damaged lines {turn}", damaged(rng, ended)
    for turn in range(count // 4):
        yield f"noise {turn}", rng.randbytes(rng.randrange(600))


def capture_edges():
    """Lines without an end and round their longest length, many lines, and a long text in short frames."""
    for length in (4095, 4096, 4097, 65536):
        for tail in (b"", b"\n", b"\r\n", b"\r", b"\n> 05\n"):
            yield f"a line of {length} and {tail}", b"> 05\n> " + b"41" * (length // 2 - 1) + b"4" * (length % 2) + tail
    for line in (b"", b"T", b"> 05", b"\r", b"< 06"):
        yield f"5,000 lines {line}", (line + b"\n") * 5000
        yield f"an upgraded capture with 2,000 lines {line}", b"capture 2\n" + (line + b"\n") * 2000
    yield "a frame of a byte a line", b"".join(b"> %02x\n" % byte for byte in b"\x05" + frame(1, b"A" * 239) + b"\x04")
    yield "10,000 bytes of a stretch", b"> 05\n> 02\n" + b"> 41414141414141414141\n" * 1000 + b"> 0a\n"
    yield "a thousand frames", b"> 05\n" + b"".join(b"> %s\n< 06\n" % frame(k, b"ab", ETB).hex().encode()
                                                   for k in range(1, 1001)) + b"> " + frame(1001, b"").hex().encode()


# Records

def record_text(rng, delimiters):
    """A record's text: delimiters and escapes everywhere, now and then a byte that no record holds."""
    letters = delimiters * 6 + delimiters[3:] * 6 + b"HNFSREX0123456789abcdefABCDEFG" + bytes(range(32, 127))
    text = pick(rng, letters, 60)
    if rng.random() < 0.1:
        text += bytes([rng.randrange(256)]) + pick(rng, letters, 9)
    return text


def four(rng):
    """Four delimiters; mostly ones that may be."""
    how = rng.random()
    if how < 0.3:
        return USUAL
    if how < 0.8:
        return bytes(rng.sample(PUNCTUATION, 4))
    return bytes(rng.choices(PUNCTUATION, k=4)) if how < 0.9 else rng.randbytes(4)


def headers(rng, count):
    """Texts for a header: odd delimiters, and what may follow them."""
    for _ in range(count):
        delimiters = four(rng)
        letter = rng.choice((b"H", b"H", b"H", b"h", b"P", b"", b"\x00"))
        behind = rng.choice((b"", delimiters[:1], delimiters[1:2], b"A", b"\r"))
        front = letter + delimiters[:rng.choice((4, 4, 4, 4, 3, 2, 0))] + behind
        yield front + record_text(rng, delimiters.ljust(4, b"|"))


def records(rng, count):
    """(delimiters, text) of records."""
    for _ in range(count):
        delimiters = bytes(rng.sample(PUNCTUATION, 4))
        letter = rng.choice(b"PORCQMSLporcqmslHhX0|").to_bytes(1, "big")
        behind = rng.choice((delimiters[:1], delimiters[:1], delimiters[:1], b"", b"|"))
        yield delimiters, letter + behind + record_text(rng, delimiters)


def long_records():
    """Records of the longest length and one more: escapes alone, delimiters alone, one escape of many digits."""
    for length in (65536, 65537):
        for name, part in (("escapes", b"&"), ("field delimiters", b"|"), ("repeat delimiters", b"\\"),
                           ("letters", b"A"), ("component delimiters", b"^"), ("escapes of digits", b"&X41&"),
                           ("empty escapes", b"&X&"),
                           ("bytes of the longest escape", b"\xfe"), ("all four", USUAL), ("open escapes", b"&X4")):
            yield f"{length} bytes of {name}", USUAL, (b"C|" + part * length)[:length]
        yield f"an escape of {length} bytes", USUAL, b"C|&X" + b"4" * (length - 5) + b"&"
    yield "a bad byte at the end of a record that is too long", USUAL, b"C|" + b"A" * 65535 + b"\x7f"


# Streams of records

def message(rng, delimiters):
    """The records of a message, mostly in their hierarchy and numbered."""
    kinds = {"P": "OOOPQCML", "O": "RRROPCML", "R": "RRROPCCL", "Q": "QQPCL", "H": "PPPQCSL"}
    made, last, field = [b"H" + delimiters], "H", delimiters[:1]
    for _ in range(rng.randrange(12)):
        letter = rng.choice(kinds[last]) if rng.random() < 0.95 else rng.choice("HPORCQMSLX")
        number = rng.choice((b"1", b"1", b"2", b"3", b"01", b"", b"0000000001", b"x"))
        made.append(rng.choice((letter, letter, letter.lower())).encode() + field + number + field + pick(
            rng, delimiters + b"HNFSREX09af ", 12))
        if letter == "L":
            return made
        last = letter if letter in kinds else last
    return made + [rng.choice((b"L", b"l", b"L" + field + b"1"))] * (rng.random() < 0.8)


def streams(rng, count):
    """Streams of messages, damaged or not."""
    for _ in range(count):
        delimiters = four(rng) if rng.random() < 0.3 else bytes(rng.sample(PUNCTUATION, 4))
        whole = [record for _ in range(rng.randrange(1, 4)) for record in message(rng, delimiters)]
        data = b"".join(record + b"\r" for record in whole)
        how = rng.random()
        if how < 0.3:
            data = damaged(rng, data)
        elif how < 0.4:
            data = data.replace(b"\r", rng.choice((b"\r\n", b"\n", b"\r\r")))
        elif how < 0.5:
            data = data[:rng.randrange(len(data) + 1)]
        yield data
    for _ in range(count // 5):
        yield rng.randbytes(rng.randrange(40))
        yield b"H|\\^&\r" + pick(rng, b"HPORCQMSL|1\r", 60)


def fed_edges():
    """A record of the longest length in pieces, and one that is reported too long at its last letter."""
    for letters in (65534, 65535):
        yield ["message.new", "message.feed 487c5c5e260d", f"message.feed 507c{'41' * 65533}",
               f"message.feed {'41' * (letters - 65533)}", "message.feed 0d", "message.feed 4c0d", "message.finish"]


def stream_edges():
    """Long and deep streams: records of the longest length, many notes, many patients, many messages."""
    head = b"H|\\^&\r"
    for length in (65535, 65536, 65537):
        for text in (b"P|" + b"A" * (length - 2), b"C|" + b"&" * (length - 2), b"P" + b"|" * (length - 1)):
            yield f"a record of {length} and its CR", head + text + b"\r"
            yield f"a record of {length}", head + text
            yield f"a whole message with a record of {length}", head + b"P|1\r" + b"C" + text[1:] + b"\rL|1\r"
    whole = head + b"P|1\rO|1|S7\rR|1|^^^GLU|5.4|mmol/L|3.9 to 6.1|N||F\rC|1|I|fasting\rL|1|N\r"
    for length in range(len(whole) + 1):
        yield f"{length} bytes of a message", whole[:length]
    yield "65,537 bytes at the front", b"A" * 65537
    yield "empty records", head + b"\r" * 5000
    yield "notes", head + b"".join(b"C|%d\r" % k for k in range(1, 3001)) + b"L|1\r"
    yield "patients and orders", head + b"P|1\rO|1\rR|1\rR|2\r" * 1000 + b"L\r"
    yield "messages", (head + b"P|1\rL|1|N\r") * 500
    yield "headers", head * 1000
