"""The calls of conformance rows on records and messages, compared through the library for C: records by their texts,
the reader of a stream, and the writer. test_rows.py asks them, and says what is compared."""
import re

from lislink import LinkError, MessageError, Reader, Reason, Record, Status, Writer, message_places
from model import bytes_of
from tests.ffi.rows_link import Unknown

TEXT_FAULTS = {"Empty": Status.NO_RECORD, "UnknownKind": Status.BAD_LETTER, "Delimiters": Status.BAD_DELIMITERS,
               "Byte": Status.FORBIDDEN, "TooLong": Status.TOO_LONG}
REASONS = {"BadRecord": Reason.BAD_RECORD, "NotHeader": Reason.NOT_HEADER, "NoParent": Reason.NO_PARENT,
           "SecondHeader": Reason.SECOND_HEADER, "Unfinished": Reason.UNFINISHED, "RecordTooLong": Reason.TOO_LONG}
PUT_FAULTS = {"NotHeader": Status.PUT_NOT_HEADER, "NoParent": Status.PUT_NO_PARENT,
              "SecondHeader": Status.PUT_SECOND_HEADER, "CharNotText": Status.FORBIDDEN, "TooLong": Status.TOO_LONG}
# What has to be before a record of a letter.
PARENTS = {"H": "", "O": "HP", "R": "HPO"}
MESSAGE = re.compile(r" message delimiters=\S+ records=(\d+) tree=(\S+) ")
RECORD_OF_TREE = re.compile(r"[A-Z][^][*A-Z]*")
STEP_OF_TREE = re.compile(r"[][*]|[A-Z][^][*A-Z]*")
NOT_SAID = re.compile("[~+!]")


# Records

def text_fault(why):
    """The status and the place by which the library says why a text is no record."""
    name, _, rest = why.partition(".")
    return TEXT_FAULTS[name], int(rest) if name == "Byte" else 0


def plain(component):
    """The bytes of a component of a row."""
    return bytes.fromhex("".join(char for char in component if char not in "~+!"))


def content(record):
    """The letter and the fields of a row's record, as a reader gives them."""
    letter, *fields = record.split("/")
    return letter, [[[plain(part) for part in repeat.split(",")] for repeat in field.split(";")] for field in fields]


def holds(record, wanted, first):
    """Whether a record has the letter and the parts of a row, and no more."""
    letter, fields = content(wanted)
    if (record.letter, record.fields) != (letter, len(fields)) or record.part(first + len(fields)) is not None:
        return False
    for number, repeats in enumerate(fields, first):
        for place, parts in enumerate(repeats):
            found = [record.part(number, place, at) for at in range(len(parts) + 1)]
            if found != parts + [None]:
                return False
        if record.part(number, len(repeats)) is not None:
            return False
    return True


def is_refused(wanted, *words):
    """Whether a text is rejected as a row has it."""
    try:
        Record(*words)
    except LinkError as error:
        return (error.status, error.place) == text_fault(wanted.removeprefix("fault "))
    return False


# Reading messages

class Stream:
    """A reader, and the records of the message that isn't closed."""

    def __init__(self):
        self.reader, self.begun = Reader(), []

    def feed(self, data):
        """The messages that further bytes close, each as its records, and the fault, or None."""
        messages = []
        try:
            for row in self.reader.feed(data):
                self.begun.append(tuple(row))
                if row.letter == "L":
                    messages.append(self.begun)
                    self.begun = []
        except MessageError as error:
            return messages, error
        return messages, None

    def finish(self):
        """The fault at the end, or None."""
        try:
            self.reader.finish()
        except MessageError as error:
            return error
        return None


def is_fault(error, wanted):
    """Whether a reader's fault is that of a row; None is 'none'."""
    if error is None or wanted == "none":
        return error is None and wanted == "none"
    place, reason, *rest = wanted.split(".", 2)
    detail, at = (0, 0)
    if reason == "BadRecord":
        detail, at = text_fault(rest[0])
    if reason == "NoParent":
        detail = ord(rest[0])
    return (error.number, error.reason, error.detail, error.place) == (int(place), REASONS[reason], detail, at)


def are_told(told, error, wanted):
    """Whether a reader's messages and its fault are those of a row."""
    given = MESSAGE.findall(wanted)
    messages = [[content(record) for record in RECORD_OF_TREE.findall(tree)] for _, tree in given]
    counts = [int(count) for count, _ in given]
    if f"messages={len(told)}" != wanted.split(" ")[0] or counts != [len(message) for message in messages]:
        return False
    return told == messages and is_fault(error, re.search(r" fault=(\S+)", wanted)[1])


def parents_of(tree):
    """The place of the record that each record of a row's tree is under; the header's is its own."""
    parents, above, last, is_note = [], [], 0, False
    for step in STEP_OF_TREE.findall(tree):
        if step == "[":
            above.append(last)
        elif step == "]":
            last = above.pop()
        elif step == "*":
            is_note = True
        else:
            parents.append(last if is_note else above[-1] if above else 0)
            last, is_note = last if is_note else len(parents) - 1, False
    return parents


def are_placed(data, wanted):
    """Whether the records of a text's messages are where they are in the text, each under the record that a row's tree
    has it under, and the fault is the row's."""
    wanted_trees, placed, error = [tree for _, tree in MESSAGE.findall(wanted)], [], None
    try:
        placed.extend(message_places(data))
    except MessageError as fault:
        error = fault
    if len(placed) != len(wanted_trees) or not is_fault(error, re.search(r" fault=(\S+)", wanted)[1]):
        return False
    if b"".join(one.text + b"\r" for message in placed for one in message) != data[:placed[-1].end if placed else 0]:
        return False
    return all([content(record) for record in RECORD_OF_TREE.findall(tree)] == [tuple(one.row) for one in message]
               and parents_of(tree) == [one.parent.index for one in message]
               for message, tree in zip(placed, wanted_trees))


# Writing

def said(record):
    """The fields of a row's record as a writer gets them, each as its repeats; None if it can't get them: a
    component is characters, without hexadecimal escapes and highlighting."""
    return None if NOT_SAID.search(record) else content(record)[1]


def put(writer, letter, fields):
    """Puts a record: the status and the field at fault, or None."""
    try:
        writer.record(letter, fields)
    except LinkError as error:
        return error.status, error.place
    return None


def put_fault(how):
    """The same for a row's fault."""
    name, _, rest = how.partition(".")
    return PUT_FAULTS[name], int(rest) if name == "CharNotText" else None


def write(delimiters, records):
    """Writes records up to the first that is rejected: the texts, and its place with the fault, or None."""
    with Writer() as writer:
        writer.start(bytes_of(delimiters))
        for place, record in enumerate(records, 1):
            # A record that a writer can't get is there by its letter alone.
            fault = put(writer, record[0], said(record) or [])
            if fault:
                return writer.texts(), (place, fault)
        return writer.texts(), None


def wanted_fault(wanted, records):
    """The fault of a row as `write` has it, or None. Unknown if the writer has no such fault."""
    found = re.match(r"fault (\d+)\.(.*)", wanted) or re.search(r" texts=refused:(\d+)\.(\S+)", wanted)
    if not found:
        return None
    place, how = int(found[1]), found[2]
    if how == "Unfinished":
        raise Unknown("a writer has no end")
    if how == "SecondHeader" and any(record[0] == "L" for record in records[:place - 1]):
        raise Unknown("behind a closing record the next message begins")
    if how.startswith("CharNotText") and said(records[place - 1]) is None:
        raise Unknown("a record that a writer can't be told")
    return place, put_fault(how)


class Records:
    """Compares the answers to the calls of a case on records and messages."""

    def __init__(self):
        self.stream = Stream()

    def is_right(self, name, words, wanted):
        return getattr(self, name)(wanted, *words)

    def record_delimiters(self, wanted, four):
        with Writer() as writer:
            try:
                writer.start(bytes_of(four))
            except LinkError as error:
                return wanted.startswith("fault ") and error.status is Status.BAD_DELIMITERS
        return wanted == four

    def record_header(self, wanted, text):
        if wanted.startswith("fault "):
            return is_refused(wanted, bytes_of(text))
        header, (delimiters, record) = Record(bytes_of(text)), wanted.split(" ")
        return header.delimiters == bytes_of(delimiters) and holds(header, record, 3)

    def record_read(self, wanted, delimiters, text):
        # The delimiters of a call are put into a header without a field.
        header = Record(b"H" + bytes_of(delimiters))
        if wanted.startswith("fault "):
            return is_refused(wanted, bytes_of(text), header)
        return holds(Record(bytes_of(text), header), wanted, 2)

    def record_write(self, wanted, delimiters, record, *_):
        if said(record) is None:
            raise Unknown("a record that a writer can't be told")
        before = PARENTS.get(record[0], "H")
        texts, fault = write(delimiters, [*before, record])
        check, whole = re.match(r"check=(\S+) whole=(\S+) ", wanted).groups()
        if check != "ok":
            return whole == f"{check}:-" and fault == (len(before) + 1, put_fault(check))
        return fault is None and whole == f"ok:{texts[-1].hex()}" and len(texts) == len(before) + 1

    def message_new(self, wanted):
        self.stream = Stream()
        return wanted == "ok"

    def message_feed(self, wanted, data):
        return are_told(*self.stream.feed(bytes_of(data)), wanted)

    def message_finish(self, wanted):
        return is_fault(self.stream.finish(), "none" if wanted == "ok" else wanted.removeprefix("fault "))

    def message_read(self, wanted, data):
        stream = Stream()
        told, error = stream.feed(bytes_of(data))
        return are_told(told, error or stream.finish(), wanted) and are_placed(bytes_of(data), wanted)

    def message_build(self, wanted, delimiters, *records):
        texts, fault = write(delimiters, records)
        if fault != wanted_fault(wanted, records):
            return False
        if fault:
            return True
        places = [place for place, record in enumerate(records) if said(record) is not None]
        if not places:
            raise Unknown("records that a writer can't be told")
        count, given = re.search(r" records=(\d+) .* texts=(\S+)", wanted).groups()
        given = given.split(",")
        if not int(count) == len(given) == len(texts):
            return False
        return all(given[place] == texts[place].hex() for place in places)
