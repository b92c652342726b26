"""What the benchmark and the test of cuts feed to the program: generated inputs, the same at every run.

An input is a head, and a block that may follow itself any number of times: sessions that end, messages that are
whole. So a large input is a small one, repeated.
"""
import random
from collections import namedtuple

Input = namedtuple("Input", "name commands head block")

# The scale of the inputs that are timed, and of those whose instructions are counted.
TIMED, COUNTED = 40, 4

STX, ETX, EOT, ENQ, ACK, LF, CR, NAK, ETB = 2, 3, 4, 5, 6, 10, 13, 21, 23
LETTERS = bytes(range(32, 127))
USUAL, LONG = 240, 63993
TESTS = (b"GLU", b"NA", b"CREA", b"CHOL", b"HbA1c", b"TSH")
UNITS = (b"mmol/L", b"umol/L", b"%", b"mU/L", b"")
REMARKS = (b"fasting", b"slightly haemolytic", b"", b"repeated after dilution 1:10")
ESCAPED = (b"A &F& B", b"&H&high&N&", b"&X0D0a&", b"5 &E& 6", b"Smith & Sons", b"&S&^&R&", b"&X4&", b"up&X7f&down")


def header(rng):
    return b"H|\\^&|||Analyzer %d^1.4|||||||P|LIS2-A2|20240%d%02d101500" % (
        rng.randrange(9), rng.randrange(1, 10), rng.randrange(1, 29))


def result(rng, number):
    return b"R|%d|^^^%s|%d.%d|%s|3.9 to 6.1|%s||F||%s" % (
        number, rng.choice(TESTS), rng.randrange(300), rng.randrange(100), rng.choice(UNITS),
        rng.choice((b"N", b"H", b"L")), rng.choice((b"", b"op7", b"op12|20240511101500|20240511102300|A4")))


def results_message(rng):
    """The records of a message of results: one to three patients, each with orders, results and comments."""
    records = [header(rng)]
    for patient in range(1, rng.randrange(2, 5)):
        records.append(b"P|%d|||%d|Doe^Jane||19%d0101|F" % (patient, rng.randrange(10**6), rng.randrange(30, 99)))
        for order in range(1, rng.randrange(2, 4)):
            records.append(b"O|%d|S%05d||^^^%s|R" % (order, rng.randrange(10**5), rng.choice(TESTS)))
            for number in range(1, rng.randrange(2, 12)):
                records.append(result(rng, number))
                if rng.random() < 0.1:
                    records.append(b"C|1|I|" + rng.choice(REMARKS))
    return records + [b"L|1|N"]


def full_record(letter, fields, told):
    """A record with as many fields as the standard lists, of which these are given."""
    return letter + b"".join(b"|" + told.get(number, b"") for number in range(2, fields + 1))


def full_result(rng, number):
    return full_record(b"R", 14, {
        2: b"%d" % number, 3: b"^^^%s^^%d" % (rng.choice(TESTS), rng.randrange(1, 4)),
        4: b"%d.%d" % (rng.randrange(300), rng.randrange(100)), 5: rng.choice(UNITS), 6: b"3.9 to 6.1",
        7: rng.choice((b"N", b"H", b"L")), 9: b"F", 11: b"op%d" % rng.randrange(20),
        12: b"202405%02d101500" % rng.randrange(1, 29), 13: b"202405%02d102300" % rng.randrange(1, 29), 14: b"A4"})


def full_message(rng):
    """The records of a message of results, as many fields in each as the standard lists."""
    records = [header(rng)]
    for patient in range(1, rng.randrange(2, 5)):
        records.append(full_record(b"P", 35, {
            2: b"%d" % patient, 3: b"L%06d" % rng.randrange(10**6), 5: b"%d" % rng.randrange(10**6), 6: b"Doe^Jane",
            8: b"19%d0101" % rng.randrange(30, 99), 9: b"F", 14: b"Dr^House", 26: b"ward %d" % rng.randrange(9)}))
        for order in range(1, rng.randrange(2, 4)):
            records.append(full_record(b"O", 31, {
                2: b"%d" % order, 3: b"S%05d" % rng.randrange(10**5), 5: b"^^^" + rng.choice(TESTS), 6: b"R",
                8: b"202405%02d093000" % rng.randrange(1, 29), 12: b"N", 16: b"S", 26: b"F"}))
            for number in range(1, rng.randrange(2, 12)):
                records.append(full_result(rng, number))
                if rng.random() < 0.1:
                    records.append(b"C|1|I|%s|G" % rng.choice(REMARKS))
    return records + [b"L|1|N"]


def query_message(rng):
    """The records of a message of queries."""
    queries = [b"Q|%d|^S%05d||ALL||||||||O" % (k, rng.randrange(10**5)) for k in range(1, rng.randrange(2, 6))]
    return [header(rng)] + queries + [b"L|1|N"]


def escaped_message(rng):
    """A message of results with escapes, lone escape bytes and wrong sequence numbers."""
    records = results_message(rng)
    for k in range(1, len(records) - 1):
        fields = records[k].split(b"|")
        if rng.random() < 0.1:
            fields[1] = b"%d" % rng.randrange(12)
        fields[rng.randrange(2, len(fields))] = rng.choice(ESCAPED)
        records[k] = b"|".join(fields)
    return records


def frame(number, text, end):
    body = b"%d%s%c" % (number % 8, text, end)
    return b"\x02%s%02X\r\n" % (body, sum(body) % 256)


def frames(texts, limit):
    """The frames of a session's texts."""
    made = []
    for text in texts:
        pieces = [text[k:k + limit] for k in range(0, len(text), limit)] or [b""]
        for place, piece in enumerate(pieces, 1):
            made.append(frame(len(made) + 1, piece, ETX if place == len(pieces) else ETB))
    return made


def record_texts(rng):
    return [record + b"\r" for record in results_message(rng)]


def filled_texts(rng, length):
    return [bytes(rng.choices(LETTERS, k=rng.randrange(length // 2, length))) for _ in range(3)]


def link(sessions, limit):
    return b"".join(b"\x05" + b"".join(frames(texts, limit)) + b"\x04" for texts in sessions)


def lines(direction, data):
    """Lines of a capture: at most 2,047 bytes in one."""
    return [b"%s %s" % (direction, data[k:k + 2047].hex().encode()) for k in range(0, len(data), 2047)]


def captured(texts, limit):
    """A session as a capture's lines, each frame acknowledged."""
    made = [b"> 05", b"< 06"]
    for sent in frames(texts, limit):
        made += lines(b">", sent) + [b"< 06"]
    return made + [b"> 04"]


def disturbed(rng, texts):
    """A session of a capture of version 2 with what may happen on a line, and with replies that no receiver gives."""
    made = [b"S busy", b"> 05", b"< 15", b"S contending", b"> 05", b"< 05", b"> 05", b"< 06"]
    for sent in frames(texts, USUAL):
        what = rng.random()
        if what < 0.1:
            made += [lines(b">", sent[:2] + b"\x7f" + sent[2:])[0].upper(), b"< 15"]
        elif what < 0.2:
            made += lines(b">", sent) + [b"< 06"]
        elif what < 0.25:
            cut = len(sent) // 2
            made += [b""] + lines(b">", sent[:cut]) + lines(b">", sent[cut:]) + [b"< 06"]
        made += lines(b">", sent) + [b"< 06" if what < 0.95 else b"< 0615"]
    return made + [rng.choice((b"> 04", b"T", b"R"))]


def capture(sessions):
    return b"".join(line + b"\n" for session in sessions for line in session)


def messages(rng, kind, count):
    return b"".join(record + b"\r" for _ in range(count) for record in kind(rng))


def of_show(rng, scale):
    short = [record_texts(rng) for _ in range(12 * scale)]
    marks = (STX, EOT, ENQ, LF)
    noise = bytes(rng.choices([byte for byte in range(256) if byte not in marks], k=20000 * scale))
    torn = bytes(rng.choices(list(range(256)) + [STX] * 16 + [LF] * 16, k=20000 * scale))
    full = [[bytes(rng.choices(LETTERS, k=4 * USUAL))] for _ in range(20 * scale)]
    yield Input("short frames", ["show", "show --long"], b"", link(short, USUAL))
    yield Input("full frames", ["show"], b"", link(full, USUAL))
    yield Input("long frames", ["show --long"], b"", link([filled_texts(rng, 40000) for _ in range(scale)], LONG))
    yield Input("noise", ["show"], b"", noise)
    yield Input("torn frames", ["show"], b"", torn)


def of_captures(rng, scale):
    both, all_three = ["replay", "texts"], ["replay", "texts", "upgrade"]
    short = capture(captured(record_texts(rng), USUAL) for _ in range(6 * scale))
    full = capture(captured(filled_texts(rng, 2000), USUAL) for _ in range(6 * scale))
    long = capture(captured(filled_texts(rng, 40000), LONG) for _ in range(scale))
    wild = capture(disturbed(rng, record_texts(rng)) for _ in range(6 * scale))
    yield Input("short frames", all_three, b"", short)
    yield Input("short frames, version 2", all_three, b"capture 2\n", short)
    yield Input("full frames", all_three, b"", full)
    yield Input("long frames", [command + " --long" for command in both], b"", long)
    yield Input("disturbed, version 2", all_three, b"capture 2\n", wild)


def of_records(rng, scale):
    commands = ["check", "results"]
    yield Input("results", commands, b"", messages(rng, results_message, 12 * scale))
    yield Input("queries", commands, b"", messages(rng, query_message, 40 * scale))
    yield Input("escapes", commands, b"", messages(rng, escaped_message, 12 * scale))
    yield Input("full records", commands, b"", messages(rng, full_message, 8 * scale))


def inputs(scale):
    """All inputs; a block has about 25,000 bytes for each step of the scale."""
    for make in (of_show, of_captures, of_records):
        yield from make(random.Random(7), scale)
