"""A plain model of records and messages, and of the commands over them; model.py has the rest, and says more."""
import re
from collections import namedtuple

LONGEST_RECORD, MOST_TEXTS = 65536, 65536

# A run of a command: what goes out, the status, and the line on standard error.
Run = namedtuple("Run", "output status error")


# Records

Record = namedtuple("Record", "letter fields")
Refused = namedtuple("Refused", "why")
PUNCTUATION = frozenset([*range(33, 48), *range(58, 65), *range(91, 97), *range(123, 127)])
NO_TEXT_BYTE = re.compile(rb"[^\x07\x09\x0b\x0c\x20-\x7e\x80-\xfe]")
LETTERS = b"HPORCQMSL"


def delimiter_fault(four):
    """The first fault of four delimiters, or None."""
    for place, byte in enumerate(four):
        if byte not in PUNCTUATION:
            return f"NotPunctuation.{place}"
    for place, byte in enumerate(four):
        if byte in four[:place]:
            return f"Repeated.{place}"
    return None


def read_symbols(text, delimiters):
    """The symbols of a component, as the rows write them: from its front, an escape ends at the next escape byte."""
    field, repeat, component, escape = delimiters
    letters = {b"H": "+", b"N": "!", b"F": f"{field:02x}", b"S": f"{component:02x}", b"R": f"{repeat:02x}",
               b"E": f"{escape:02x}"}
    symbols, place = [], 0
    while place < len(text):
        end = text.find(escape, place + 1) if text[place] == escape else -1
        name = text[place + 1:end] if end >= 0 else b""
        if name in letters:
            symbols.append(letters[name])
        elif re.fullmatch(rb"X([0-9A-Fa-f]{2})+", name):
            symbols += ["~" + name[k:k + 2].decode().lower() for k in range(1, len(name), 2)]
        else:
            symbols.append(f"{text[place]:02x}")
            end = place
        place = end + 1
    return symbols


def read_fields(text, delimiters):
    """The fields of what follows a record's letter, or a header's delimiters."""
    field, repeat, component, _ = (bytes([byte]) for byte in delimiters)
    return [[[read_symbols(part, delimiters) for part in again.split(component)] for again in one.split(repeat)]
            for one in text.split(field)[1:]]


def byte_fault(text):
    """A byte that no record holds, and then the length."""
    found = NO_TEXT_BYTE.search(text)
    if found:
        return Refused(f"Byte.{found.start()}")
    return Refused("TooLong") if len(text) > LONGEST_RECORD else None


def read_header(text):
    """The delimiters and the record of a header, or why it can't be one."""
    if not text:
        return Refused("Empty")
    if text[:1] not in (b"H", b"h"):
        return Refused(f"UnknownKind.{text[0]:02x}")
    if len(text) < 5:
        return Refused("Delimiters.Short")
    four = text[1:5]
    fault = delimiter_fault(four)
    if fault:
        return Refused(f"Delimiters.{fault}")
    if len(text) > 5 and text[5] != four[0]:
        return Refused(f"Delimiters.Trailing.{text[5]:02x}")
    return byte_fault(text) or (four, Record("H", read_fields(text[5:], four)))


def read_record(text, delimiters):
    """The record of another kind, or why the text can't be one."""
    if not text:
        return Refused("Empty")
    if text[0] not in LETTERS[1:] + LETTERS[1:].lower():
        return Refused(f"UnknownKind.{text[0]:02x}")
    if len(text) > 1 and text[1] != delimiters[0]:
        return Refused(f"UnknownKind.{text[1]:02x}")
    return byte_fault(text) or Record(chr(text[0]).upper(), read_fields(text[1:], delimiters))


def spell_symbol(symbol, delimiters):
    """A symbol as it is written."""
    field, repeat, component, escape = delimiters
    mark = bytes([escape])
    if symbol in "+!":
        return mark + (b"H" if symbol == "+" else b"N") + mark
    if symbol[0] == "~":
        return mark + b"X" + symbol[1:].encode() + mark
    letters = {field: b"F", repeat: b"R", component: b"S", escape: b"E"}
    byte = int(symbol, 16)
    return mark + letters[byte] + mark if byte in letters else bytes([byte])


def spell_field(field, delimiters):
    """A field's encoding."""
    _, repeat, component, _ = (bytes([byte]) for byte in delimiters)
    return repeat.join(component.join(b"".join(spell_symbol(symbol, delimiters) for symbol in part) for part in again)
                       for again in field)


def spell(record, delimiters):
    """A record's encoding, without its CR."""
    head = record.letter.encode() + (bytes(delimiters) if record.letter == "H" else b"")
    return head + b"".join(bytes(delimiters[:1]) + spell_field(field, delimiters) for field in record.fields)


def record_word(record):
    """A record as a word of the rows."""
    fields = (";".join(",".join("".join(part) for part in again) for again in field) for field in record.fields)
    return record.letter + "".join("/" + field for field in fields)


# Messages

Message = namedtuple("Message", "delimiters records")
Stream = namedtuple("Stream", "messages open place fault held")


def message_fault(text, opened, delimiters, level):
    """What a record's text is in a message that has begun, or hasn't: a record, its delimiters, or why it is
    rejected."""
    if not text:
        return Refused("BadRecord.Empty")
    if text[0] not in LETTERS + LETTERS.lower():
        return Refused(f"BadRecord.UnknownKind.{text[0]:02x}")
    is_header = text[:1] in (b"H", b"h")
    if not opened and not is_header:
        return Refused("NotHeader")
    if opened and is_header:
        return Refused("SecondHeader")
    read = read_header(text) if is_header else read_record(text, delimiters)
    if isinstance(read, Refused):
        return Refused("BadRecord." + read.why)
    delimiters, record = read if is_header else (delimiters, read)
    needs = {"O": "PO", "R": "O"}.get(record.letter)
    if needs and level not in tuple(needs):
        return Refused(f"NoParent.{record.letter}")
    return delimiters, record


def read_stream(data):
    """The messages of a stream of records, the records of one that isn't closed, the place of the next record, the
    fault of the first rejected one as it is reported before the end, and the bytes that are held."""
    messages, records, delimiters, level = [], [], None, None
    *ended, rest = data.split(b"\r")
    if len(rest) > LONGEST_RECORD:
        ended.append(rest)
    for text in ended:
        place = len(records) + 1
        read = Refused("RecordTooLong") if len(text) > LONGEST_RECORD else message_fault(
            text, bool(records), delimiters, level)
        if isinstance(read, Refused):
            return Stream(messages, records, place, f"{place}.{read.why}", 0)
        delimiters, record = read
        records.append(record)
        # What an order or a result may belong to: the last patient or query, or an order after it.
        level = record.letter if record.letter in "PQO" else level if record.letter != "H" else None
        if record.letter == "L":
            messages.append(Message(delimiters, records))
            records, level = [], None
    return Stream(messages, records, len(records) + 1, None, len(rest))


def end_fault(stream):
    """The fault at the end of a stream."""
    if stream.fault is None and (stream.open or stream.held):
        return f"{stream.place}.Unfinished"
    return stream.fault


def parents(records):
    """For each record its place, from 1, and that of the record that it belongs to, or of the one that a note is on."""
    patient = order = last = 0
    for place, record in enumerate(records, 1):
        letter = record.letter
        yield place, record, {"O": patient, "R": order}.get(letter, last if letter in "CMS" else 0)
        if letter in "PQ":
            patient = place
        if letter == "O":
            order = place
        if letter not in "CMS":
            last = place


def findings(message):
    """(place, letter, expected) of each record whose second field isn't the number of its place among its siblings."""
    counts, found = {}, []
    for place, record, parent in parents(message.records):
        if record.letter in "HMS":
            continue
        counts[parent, record.letter] = expected = counts.get((parent, record.letter), 0) + 1
        first = record.fields[0] if record.fields else []
        digits = first[0][0] if len(first) == 1 and len(first[0]) == 1 else []
        is_number = 1 <= len(digits) <= 9 and all(re.fullmatch("3[0-9]", symbol) for symbol in digits)
        if not is_number or int("".join(symbol[1] for symbol in digits)) != expected:
            found.append((place, record.letter, expected))
    return found


def tree_word(message):
    """A message's tree as the rows have it."""
    depths, depth, word = {"P": 1, "Q": 1, "O": 2, "R": 3}, 0, ""
    for record in message.records:
        if record.letter in "CMS":
            word += "*" + record_word(record)
            continue
        under = depths.get(record.letter, 1) - 1
        while depth > under:
            word, depth = word + "]", depth - 1
        if record.letter in depths:
            word, depth = word + "[", depth + 1
        word += record_word(record)
    return word


def message_word(message):
    """A message as the rows have it."""
    found = ",".join(".".join(map(str, finding)) for finding in findings(message)) or "none"
    written = [spell(record, message.delimiters) for record in message.records]
    long = next((place for place, text in enumerate(written, 1) if len(text) > LONGEST_RECORD), None)
    if long:
        rest = f"texts=refused:{long}.TooLong written={long}.TooLong:-"
    else:
        each = ",".join((text + b"\r").hex() for text in written)
        whole = "".join((text + b"\r").hex() for text in written)
        rest = f"texts={'refused:TooMany' if len(written) > MOST_TEXTS else each} written=ok:{whole}"
    return (f"message delimiters={bytes(message.delimiters).hex()} records={len(message.records)} "
            f"tree={tree_word(message)} findings={found} {rest}")


def fed_word(messages, fault):
    """What a reader gives, as the rows have it."""
    return " ".join([f"messages={len(messages)}", *map(message_word, messages), f"fault={fault or 'none'}"])


# Commands over records

RECORD_CODES = {"Empty": "C1", "UnknownKind": "C2", "Delimiters": "C3", "Byte": "C4", "TooLong": "C5"}
REASON_CODES = {"NotHeader": "G2", "NoParent": "G3", "SecondHeader": "G4", "Unfinished": "G5", "RecordTooLong": "G6"}


def refused_line(messages, fault):
    """The line of a rejected record: the message's number, the record's place, and the code."""
    place, reason, *more = fault.split(".")
    code = f"G1 {RECORD_CODES[more[0]]}" if reason == "BadRecord" else REASON_CODES[reason]
    return f"refused {len(messages) + 1} {place} {code}"


def check(data, limit, ended=True):
    """'check': a line for each record, each finding, and a rejected record."""
    stream = read_stream(data)
    fault = end_fault(stream) if ended else stream.fault
    output, count = [], 0
    for number, message in enumerate(stream.messages, 1):
        found = findings(message)
        count += len(found)
        output.append(f"message {number}")
        output += [f"{place} {record.letter} {len(record.fields)}" for place, record in enumerate(message.records, 1)]
        output += ["finding {} {} {}".format(*finding) for finding in found]
    if fault:
        output.append(refused_line(stream.messages, fault))
    if ended or fault:
        output.append(f"messages {len(stream.messages)} findings {count}")
    return Run("".join(line + "\n" for line in output).encode(), int(count > 0 or fault is not None), "")


def results(data, limit, ended=True):
    """'results': a line for each result."""
    stream = read_stream(data)
    fault = end_fault(stream) if ended else stream.fault
    whole = b"".join(result_lines(message) for message in stream.messages)
    error = "lislink: " + refused_line(stream.messages, fault) if fault else ""
    return Run(whole, int(fault is not None), error)


def result_lines(message):
    """The lines of a message's results: field 3 of the order, and fields of the result."""
    lines, order = b"", None
    for record in message.records:
        order = record if record.letter == "O" else order
        if record.letter == "R":
            picked = [(order, 3)] + [(record, number) for number in (3, 4, 5, 6, 7, 9)]
            spelled = [spell_field(one.fields[number - 2], message.delimiters) if number - 2 < len(one.fields) else b""
                       for one, number in picked]
            lines += bytes(message.delimiters[:1]).join(spelled) + b"\n"
    return lines
