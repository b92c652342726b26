"""Makes record files of dialects readable. Each change has an option of its own, and is reported with its line."""
import bisect
import re
from typing import Dict, Iterator, List, NamedTuple, Set, Tuple

from lislink.message import Fault, read_all
from lislink.records import RECORD_BYTES
from ..diagnosis.endings import Ending, ending_of
from ..diagnosis.faults import code_of, words
from ..model.changes import CHANGES
from .compare import changes_of_results, is_one_record
from .looks import rejected_at

#: Those that `--all` asks for. The results before and after them are compared, and each that changed is printed.
ALL = tuple(name for name in CHANGES if name not in ("orders", "long"))


#: How many changed results are printed.
MOST_TOLD = 20


class Told(NamedTuple):
    """A change: the number of the input's line, what was done, and whether a record is gone since it is too long."""

    line: int
    what: str
    is_long: bool = False


class Work:
    """Records on their way: the line of each in the input, its bytes, and what ended it."""

    def __init__(self, data: bytes, asked: Set[str]) -> None:
        self.data, self.asked = data, asked
        self.told: List[Told] = []
        #: Changes that the input needs and that weren't asked for, each with its first line.
        self.needed: Dict[str, int] = {}

    def wants(self, name: str, line: int) -> bool:
        """Whether a change that the input needs was asked for."""
        if name in self.asked:
            return True
        self.needed.setdefault(name, line)
        return False

    def tell(self, line: int, what: str, is_long: bool = False) -> None:
        """Notes a change."""
        self.told.append(Told(line, what, is_long))


Record = Tuple[int, bytes, bytes]


def normalize(data: bytes, asked: Set[str]) -> "Tuple[bytes, List[Told], Dict[str, int]]":
    """The records with the changes that are asked for, what was changed, and which changes are needed and weren't."""
    work = Work(data, asked)
    _bytes(work)
    records = list(_split(work))
    for change in (_unframed, _blank, _headers, _escaped, _behind, _parents, _long, _ends):
        records = list(change(work, records))
    out = b"".join(record + end for _, record, end in records)
    return out, sorted(work.told, key=lambda one: one.line), work.needed


def _line_at(data: bytes, place: int) -> int:
    return len(re.findall(rb"\r\n|\r|\n", data[:place])) + 1


def _bytes(work: Work) -> None:
    """Bytes that no record holds, over the whole input."""
    if work.data[:2] in (b"\xff\xfe", b"\xfe\xff") and work.wants("bom", 1):
        text = work.data.decode("utf-16", "replace")
        work.data = text.encode("latin-1", "replace") if all(ord(one) < 256 for one in text) else text.encode("utf-8")
        work.tell(1, "the file was UTF-16, and is one byte a character now")
    if work.data[:3] == b"\xef\xbb\xbf" and work.wants("bom", 1):
        work.data = work.data[3:]
        work.tell(1, "the byte order mark was left out")
    for name, byte, shown in (("nul", b"\0", "NUL"), ("ctrl-z", b"\x1a", "Ctrl-Z")):
        lines = (
            [_line_at(work.data, found.start()) for found in re.finditer(re.escape(byte), work.data)]
            if work.data.count(byte) < 200
            else [1] * work.data.count(byte)
        )
        if lines and work.wants(name, lines[0]):
            for line in dict.fromkeys(lines):
                work.tell(
                    line,
                    f"{shown} was left out" + (f", {lines.count(line)} times" if lines.count(line) > 1 else ""),
                )
            work.data = work.data.replace(byte, b"")
    ending = ending_of(work.data)
    ended = sorted(_lines_of(ending, work.data)) if ending is not None and ending.is_sure else []
    if ending is not None and ended and work.wants("cr-words", ended[0]):
        for line in ended:
            work.tell(line, f"{ending.shown} became a CR")
        work.data = ending.with_cr(work.data)


def _lines_of(ending: Ending, data: bytes) -> Set[int]:
    """The lines in which a word ends a record."""
    ends = [found.end() for found in re.finditer(rb"\r\n|\r|\n", data)]
    return {bisect.bisect_right(ends, found.start()) + 1 for found in ending.places.finditer(data)}


def _split(work: Work) -> Iterator[Record]:
    """The records, each with its first line and what ended it: CR, or nothing for the last."""
    at, line, first = 0, 1, 1
    for found in re.finditer(rb"\r\n|\r|\n", work.data):
        end, stop, following = found.group(), found.start(), found.end()
        if end == b"\n":
            if not work.wants("lf", line):
                line += 1
                continue
            work.tell(line, "LF became CR")
        elif end == b"\r\n":
            if work.wants("crlf", line):
                work.tell(line, "CR LF became CR")
            else:
                following -= 1
        yield first, work.data[at:stop], b"\r"
        at, line = following, line + 1
        first = line
    if at < len(work.data):
        yield first, work.data[at:], b""


_FRAMED = re.compile(rb"[\x02\x03\x04\x05\x17]")


def _unframed(work: Work, records: List[Record]) -> Iterator[Record]:
    """Records without the bytes of the link around them; what ends in ETB goes on in the next frame."""
    is_framed = any(_FRAMED.search(record) for _, record, _ in records)
    held, first = b"", 0
    for number, record, end in records:
        has_number = re.match(rb"\n?[0-7][HPORCQML][^0-9A-Za-z]", record)
        if not (is_framed and _FRAMED.search(record) or has_number) or not work.wants("unframe", number):
            yield (first or number), held + record, end
            held, first = b"", 0
            continue
        work.tell(number, "link bytes around the record were left out")
        goes_on = re.search(rb"\x17(?:[0-9A-Fa-f]{2})?$", record) is not None
        bare = re.sub(rb"[\x03\x17](?:[0-9A-Fa-f]{2})?(?=$|[\n\x02\x04\x05])", b"", record)
        bare = re.sub(rb"\n?\x02[0-7]?", b"", bare)
        bare = re.sub(rb"[\x03\x04\x05\x06\x17]", b"", bare)
        if has_number:
            bare = bare.lstrip(b"\n")[1:]
        held, first = held + bare.strip(b"\n"), first or number
        if goes_on or not held:
            continue
        yield first, held, end
        held, first = b"", 0
    if held:
        yield first, held, b""


def _blank(work: Work, records: List[Record]) -> Iterator[Record]:
    for number, record, end in records:
        if not record.strip(b" \t"):
            if (end or record) and work.wants("blank", number):
                work.tell(number, "an empty record was left out")
                continue
        elif record[:1] in b" \t" and record.lstrip(b" \t")[:1].isalpha() and work.wants("blank", number):
            work.tell(number, "blanks before the letter were left out")
            record = record.lstrip(b" \t")
        yield number, record, end


def _headers(work: Work, records: List[Record]) -> Iterator[Record]:
    for number, record, end in records:
        if record[:1] in (b"H", b"h") and len(record) > 1:
            delimiter = record[1:2]
            if record[4:5] in (delimiter, b"") and len(set(record[1:4])) == 3 and not record[1:4].isalnum():
                if work.wants("header-3", number):
                    work.tell(number, "the header's fourth delimiter '&' was put in")
                    record = record[:4] + b"&" + record[4:]
            elif record[1:6] == b"|^~\\&" and record[6:7] in (b"|", b""):
                if work.wants("header-5", number):
                    work.tell(
                        number,
                        "HL7's delimiters |^~\\& became repeat ~, component ^, escape \\: the header has H|~^\\",
                    )
                    record = record[:1] + b"|~^\\" + record[6:]
            elif record[5:6] not in (delimiter, b"") and record[6:7] in (delimiter, b"") and not record[5:6].isalnum():
                if work.wants("header-5", number):
                    work.tell(number, f"the header's fifth delimiter byte '{words(record[5:6])}' was left out")
                    record = record[:5] + record[6:]
        yield number, record, end


#: Bytes that no record may hold, except NUL, Ctrl-Z, LF and the bytes of the link.
_NO_TEXT = re.compile(rb"[\x01\x08\x0e-\x14\x16\x18\x19\x1b-\x1f\x7f\xff]")


def _escaped(work: Work, records: List[Record]) -> Iterator[Record]:
    """Records whose bytes that none may hold are written as escapes, which mean the same bytes."""
    escape = b"&"
    for number, record, end in records:
        if record[:1] in (b"H", b"h") and len(record) > 4:
            escape = record[4:5]
        found = _NO_TEXT.findall(record[1:])
        if found and record[:1].isalpha() and work.wants("bytes", number):
            shown = ", ".join(words(one) for one in sorted(set(found)))
            times = f", {len(found)} times" if len(found) > 1 else ""
            work.tell(number, f"bytes that no record holds were escaped: {shown}{times}")
            record = _NO_TEXT.sub(lambda one: escape + b"X%02X" % one[0][0] + escape, record)
        yield number, record, end


def _behind(work: Work, records: List[Record]) -> Iterator[Record]:
    """Records after L and before the next H, and those before the first H, which belong to no message."""
    level = b""
    for number, record, end in records:
        letter = record[:1].upper()
        if level == b"L" and letter != b"H" and record and work.wants("behind-l", number):
            work.tell(number, f"a record after L was left out ({words(letter)}, {len(record)} bytes)")
            continue
        level = letter if letter in (b"H", b"L") else level
        yield number, record, end


def _parents(work: Work, records: List[Record]) -> Iterator[Record]:
    delimiter, level, counts = b"|", b"", {b"P": 0, b"O": 0}
    for number, record, end in records:
        letter = record[:1].upper()
        if letter == b"H":
            delimiter, level, counts = record[1:2], b"H", {b"P": 0, b"O": 0}
        missing = {
            b"O": [] if level in (b"P", b"O", b"R") else [b"P"],
            b"R": [] if level in (b"O", b"R") else [b"O"] if level == b"P" else [b"P", b"O"],
        }.get(letter, [])
        if missing and level and work.wants("orders", number):
            for one in missing:
                counts[one] += 1
                work.tell(
                    number,
                    f"a record {one.decode()} was put above: what is below it has no "
                    f"{'sample' if one == b'O' else 'patient'}",
                )
                yield number, one + delimiter + b"%d" % counts[one], b"\r"
        if letter in (b"P", b"O", b"R", b"Q", b"L"):
            level = letter
        if letter in counts:
            counts[letter] += 1
        yield number, record, end


def _long(work: Work, records: List[Record]) -> Iterator[Record]:
    """Records that are too long to be read are left out, if nothing but comments belongs to them. The comments go
    with them, since they would else belong to the record before. What has other records within it isn't one."""
    is_of_one, delimiter = False, b"|"
    for number, record, end in records:
        letter, is_long = record[:1].upper(), len(record) > RECORD_BYTES
        delimiter = record[1:2] if letter == b"H" else delimiter
        is_of_one = is_of_one and letter in (b"C", b"M", b"S")
        may_go = is_long and letter in (b"R", b"C", b"M", b"S") and is_one_record(record, delimiter)
        if (is_of_one or may_go) and work.wants("long", number):
            why = "it is too long to be read" if is_long else "it is on a record that was left out"
            work.tell(number, f"a record was left out ({words(letter)}, {len(record)} bytes): {why}", is_long)
            is_of_one = is_of_one or letter == b"R"
            continue
        yield number, record, end


def _ends(work: Work, records: List[Record]) -> Iterator[Record]:
    level, delimiter, number = b"", b"|", 1
    for place, (number, record, end) in enumerate(records):
        letter = record[:1].upper()
        if letter == b"H":
            if level not in (b"", b"L") and work.wants("last-l", number):
                work.tell(number, "L was put before this header")
                yield number, b"L" + delimiter + b"1" + delimiter + b"N", b"\r"
            delimiter = record[1:2] or b"|"
        level = letter if letter else level
        if not end and record and place == len(records) - 1 and work.wants("last-cr", number):
            work.tell(number, "the last record got its CR")
            end = b"\r"
        yield number, record, end
    if level not in (b"", b"L") and work.wants("last-l", number + 1):
        work.tell(number + 1, "L was put at the end")
        yield number + 1, b"L" + delimiter + b"1" + delimiter + b"N", b"\r"


def rejected_lines(data: bytes) -> Iterator[str]:
    """What the proved reader still rejects: a line for each message that can't be read."""
    for number, one in enumerate(read_all(data), 1):
        if isinstance(one, Fault):
            _, cause = rejected_at(data, one)
            yield (
                f"message {number}: record {one.error.number} at line {_line_at(data, one.place)} is rejected "
                f"({code_of(one.error)}): {cause.words}"
            )


def explain(data: bytes) -> Iterator[str]:
    """Reports what is wrong with the records, which options fix it, and what stays wrong with them."""
    before = list(rejected_lines(data))
    if not before and not any(changed_lines(data, data)):
        yield "nothing is wrong: all records are read"
        return
    yield from before
    if data[:3] in (b"MSH", b"FHS", b"BHS"):
        return
    # One change after another, in their order, until all is read: what is needed shows only when the earlier ones are
    # done.
    asked: Set[str] = set()
    needed: Dict[str, int] = {}
    out, _, more = normalize(data, asked)
    while any(rejected_lines(out)) or any(changed_lines(data, out)):
        fresh = [name for name in ALL if name in more and name not in asked]
        if not fresh:
            break
        needed[fresh[0]] = more[fresh[0]]
        asked.add(fresh[0])
        out, _, more = normalize(data, asked)
    for name in CHANGES:
        if name in needed:
            yield f"line {needed[name]}: --{name}: {CHANGES[name]}"
    left, changed = list(rejected_lines(out)), list(changed_lines(data, out))
    if "orders" in more and left:
        yield f"line {more['orders']}: --orders: {CHANGES['orders']}"
    if "long" in more and left:
        yield f"line {more['long']}: --long: {CHANGES['long']}"
    if left:
        yield "still rejected with these options:" if needed else "no option fixes it without a loss:"
        yield from ("  " + line for line in left)
    if changed:
        yield "not what the file has:" if not needed else "these options don't keep each result:"
        yield from ("  " + line for line in changed)
    if not left and not changed:
        yield "fixed by: lislab normalize " + " ".join(f"--{name}" for name in CHANGES if name in needed)


def changed_lines(before: bytes, after: bytes) -> Iterator[str]:
    """What became of the results of a file: a line for each that is gone, changed or new."""
    told = 0
    for line, what in changes_of_results(before, after):
        told += 1
        if told <= MOST_TOLD:
            yield f"line {line}: {what}" if line else what
    if told > MOST_TOLD:
        yield f"and {told - MOST_TOLD} results more"
