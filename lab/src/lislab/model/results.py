"""What a message says, in the terms that other systems share: patients, orders with their results, and comments. A
message for which this is uncertain is quarantined: nothing of it is delivered."""
import datetime
import functools
import re
import zoneinfo
from collections import Counter
from typing import Dict, Iterator, List, Mapping, NamedTuple, Optional, Set, Tuple

from lislink.letters import UTF_8, looks_like
from lislink.message import Entry, Message
from lislink.places import MessagePlaces
from lislink.records import MessageError
from .failures import Quarantined, Refused
from .numbers import number_of
from .options import LETTERS, TWICE
from .store import Stored
from .unix import shown

#: A time as records have it: a date, and maybe a time of day.
_TIME = re.compile(r"(\d{4})(\d\d)(\d\d)(?:(\d\d)(?:(\d\d)(\d\d)?)?)?$", re.ASCII)
#: Report types of an order (LIS02-A2, 9.4.26) that say something of it, also without a result.
REPORTS = "CPFXIYZ"
#: A C by itself that begins no record, as each correction has it; an escape that has a C.
_CORRECTION, _ESCAPED = re.compile(rb"C(?<![0-9A-Za-z\r]C)(?![0-9A-Za-z])"), re.compile(rb"X[0-9A-Fa-f]*43")
#: The fields of a patient's identities. The most records of a message.
IDENTITIES, MOST_RECORDS = (3, 4, 5), 250_000
#: How a comment begins that a code mapping makes.
MARK = "lislab: "


class Reading(NamedTuple):
    """How a line's records are read: its settings, as a file of lines has them. Empty ones are not given."""

    sample: str = ""
    test: str = ""
    zone: str = ""
    letters: str = ""
    twice: str = ""
    #: That of the line now. A message goes by the one that it came with, unless its letters aren't of that.
    encoding: str = ""


class Coding(NamedTuple):
    """The entry of a code mapping for a test: the laboratory's code with its system, the unit's code in UCUM, and the
    field that came."""

    code: str
    system: str = ""
    ucum: str = ""
    field: str = ""


class Coded(NamedTuple):
    """A message as it is delivered by a code mapping: how it is read, the entries for the tests of its records, by
    the record's number in the message and the test's place in it, how many results it leaves out, and the message if it
    is read already."""

    one: Stored
    reading: Reading = Reading()
    codings: Mapping[Tuple[int, int], Coding] = {}
    left_out: int = 0
    message: Optional[Message] = None
    #: Its bytes as they came, if the mapping changed them.
    came: bytes = b""


class Comment(NamedTuple):
    """A comment: who says it (P practice, L laboratory, I instrument), and what."""

    source: str
    text: str


class Result(NamedTuple):
    """A result, each field as text without blanks around it, and how often its order had its code before."""

    code: str
    name: str
    system: str
    value: str
    unit: str
    ucum: str
    range: str
    flags: List[str]
    nature: str
    status: str
    operator: str
    at: str
    instrument: str
    comments: List[Comment]
    #: The whole field of the test, and which one of its code this is: 0 if its code is there once.
    field: str
    turn: int


class Identity(NamedTuple):
    """An identity of a patient, and its authority and type if the message names them."""

    value: str
    authority: str = ""
    kind: str = ""


class Ordered(NamedTuple):
    """An order: its record, the sample, the instrument's sample, its tests, and whether it is a control."""

    record: Entry
    sample: str
    instrument_sample: str
    tests: List[Coding]
    control: bool
    comments: List[Comment]


class Case(NamedTuple):
    """Orders that are delivered together: of a patient; or, without a patient, controls, or orders below a query."""

    patient: Optional[Entry]
    orders: List[Ordered]
    comments: List[Comment]
    #: Which case of its message it is.
    place: int = 1

    @property
    def is_control(self) -> bool:
        """Whether these are controls."""
        return self.orders[0].control


def message_of(one: Stored) -> Message:
    """The message that is kept; `Refused` if it can't be read."""
    try:
        return Message(MessagePlaces(one.body).rows, one.encoding)
    except MessageError as error:
        raise Refused(f"message {one.number} can't be read: {error}") from None
    except ValueError:
        raise Refused(f"message {one.number} has no records") from None


class Told:
    """A message as another system gets it: its cases; `Quarantined` if they can't be said surely."""

    def __init__(self, coded: Coded) -> None:
        if coded.one.body.count(b"\r") > MOST_RECORDS:
            raise Quarantined(f"it has more than {MOST_RECORDS} records")
        self.one, self.reading, self._codings = coded.one, coded.reading, coded.codings
        self.marks = marks_of(self.one)
        #: The tests of results, by the records' numbers.
        self._tests: Dict[int, Tuple[str, str, Coding, str]] = {}
        self._look_at_letters(coded.came or self.one.body)
        self.message = coded.message or message_of(self.one)
        #: How many orders are left out because they have no content; how many codes an order has twice.
        self.orders_left_out = self.twice = 0
        found = [case for entry in self.message.entries if entry.letter in "PQ" for case in self._cases(entry)]
        self.cases = [case._replace(place=place) for place, case in enumerate(found, 1)]
        #: The records of results that are left out because the message corrects them.
        self._corrected: Set[int] = set()

    def _look_at_letters(self, body: bytes) -> None:
        why = letters_fault(body, self.one.encoding)
        if why and self.reading.letters != LETTERS[1]:
            raise Quarantined(why)
        self.has_other_letters = bool(why)
        self.marks += [why] if why else []

    def _cases(self, above: Entry) -> Iterator[Case]:
        """The case of a patient or a query, and the case of the controls below it, which belong to no patient."""
        told = [one for one in above.orders if one.results or comments_of(one) or report_of(one)]
        self.orders_left_out += len(above.orders) - len(told)
        orders = [self._ordered(one, above) for one in told]
        own, controls = [[one for one in orders if one.control is of] for of in (False, True)]
        if own and above.letter == "P":
            self._check_patient(above)
        if own:
            yield Case(above if above.letter == "P" else None, own, comments_of(above))
        if controls:
            yield Case(None, controls, [] if own else comments_of(above))

    def _check_patient(self, record: Entry) -> None:
        """Whether the identities are sure."""
        for field in IDENTITIES:
            why = identity_of(record, field, self.reading)[1]
            if why:
                raise Quarantined(f"patient, record {record.number} of the message: {why}")

    def _ordered(self, record: Entry, above: Entry) -> Ordered:
        sample, why = sample_of(record, above, self.reading)
        if not why and not sample and not (above.letter == "P" and self.identities(above)):
            why = "neither a sample nor a patient is named"
        if why:
            raise Quarantined(f"order, record {record.number} of the message: {why}")
        self._check(record)
        tests = []
        for at, parts in enumerate(repeats_of(record, 5)):
            coding = self._codings.get((record.number, at)) or Coding(code_among(parts, self.reading))
            tests += [coding] if coding.code else []
        other = record.row.field(4)
        instrument = record.text(4).strip() if len(other) == 1 and len(other[0]) == 1 else ""
        control = is_control(self.message, record)
        return Ordered(record, sample, "" if instrument == sample else instrument, tests, control, comments_of(record))

    def _check(self, order: Entry) -> None:
        """Whether each result has its test, and no test two contents."""
        seen: Dict[str, Entry] = {}
        for entry in order.results:
            code, field = self._test(entry)[:2]
            if not code:
                raise Quarantined(f"result, record {entry.number} of the message: no test is named")
            first = seen.setdefault(code, entry)
            if first is entry or all(content_of(first, number) == content_of(entry, number) for number in (4, 5)):
                continue
            self.twice += 1
            merged = self._test(first)[1] != field and self.reading.twice != TWICE[1]
            if merged or self.reading.twice == TWICE[0]:
                why = "out of different fields R-3" if merged else "with different values"
                raise Quarantined(f"order, record {order.number} of the message: {shown(code)} is there twice, {why}")

    def _test(self, entry: Entry) -> Tuple[str, str, Coding, str]:
        """The code of a result, its whole field, its entry in the code mapping, and its name."""
        found = self._tests.get(entry.number)
        if found is None:
            parts = parts_of(entry, 3)
            coding = self._codings.get((entry.number, 0)) or Coding(code_among(parts, self.reading))
            name = parts[1] if len(parts) == 4 and parts[1] != coding.code else ""
            found = self._tests[entry.number] = coding.code, coding.field or "^".join(parts), coding, name
        return found

    def identities(self, patient: Entry) -> Dict[int, Identity]:
        """A patient's identities by their fields."""
        return identities_of(patient, self.reading)

    def who(self, case: Case) -> List[str]:
        """Whose results these are: the first identity of a patient, and without one its name; nobody's if there is
        neither."""
        if case.patient is None:
            return []
        for one in self.identities(case.patient).values():
            return [one.value + (f"^{one.authority}" if one.authority else "")]
        name = parts_of(case.patient, 6)
        return ["", *name] if name else []

    def tested(self, case: Case, order: Ordered, code: str, field: str) -> List[str]:
        """What a result has in common with its correction: the sample, whose it is, the code; and the whole field if
        the line's results of one code may be out of several fields, each of which is another result. Without a sample
        or a patient who is named it is that of no other order or patient."""
        sample, who = order.sample or f"record {order.record.number}", self.who(case) or [f"case {case.place}", ""]
        return [sample, *who, "", code, *([field] if self.reading.twice == TWICE[1] else [])]

    def leave_out_corrected(self) -> int:
        """Leaves out the results that a correction further on in the message replaces, because a receiver would keep
        both, and the orders that have no others: how many results. `Quarantined` if it isn't sure which one it is."""
        fixed, gone = {}, {}  # type: Dict[Tuple[str, ...], Entry], Dict[Tuple[str, ...], Entry]
        orders = [(case, order) for case in self.cases for order in case.orders] if may_correct(self.one.body) else []
        for case, order in orders[::-1]:
            for entry in order.record.results[::-1]:
                is_correction = field_text(entry, 9) == "C"
                test = tuple(self.tested(case, order, *self._test(entry)[:2])) if fixed or is_correction else ()
                if test in fixed:
                    other = entry if is_correction else gone.setdefault(test, entry)
                    self._check_correction(fixed[test], entry, other)
                    self._corrected.add(entry.number)
                if is_correction:
                    fixed.setdefault(test, entry)
        if self._corrected:
            cases = [case._replace(orders=[one for one in case.orders if self._is_left(one)]) for case in self.cases]
            self.cases = [case for case in cases if case.orders]
        return len(self._corrected)

    def _check_correction(self, by: Entry, result: Entry, other: Entry) -> None:
        """Whether a correction corrects a result, and no other one that says something else."""
        is_sure = self._test(by)[1] == self._test(result)[1]
        if not is_sure or any(content_of(result, number) != content_of(other, number) for number in (4, 5)):
            which = f"does it correct record {result.number}" + (f" or {other.number}?" if is_sure else "?")
            raise Quarantined(f"result, record {by.number} of the message: {which}")

    def _is_left(self, order: Ordered) -> bool:
        return not order.record.results or any(one.number not in self._corrected for one in order.record.results)

    def comments(self) -> List[Comment]:
        """The comments on the patients, the orders and the results that go out."""
        orders = [order for case in self.cases for order in case.orders]
        results = [entry for order in orders for entry in order.record.results if entry.number not in self._corrected]
        found = [case.comments for case in self.cases] + [order.comments for order in orders]
        return [one for comments in [*found, *map(comments_of, results)] for one in comments]

    def came(self, order: Ordered) -> List[Result]:
        """All results of an order, also those that are left out."""
        return [self._result(entry, self._test(entry), 0) for entry in order.record.results]

    def results(self, order: Ordered) -> Iterator[Result]:
        """The results of an order."""
        entries = (entry for entry in order.record.results if entry.number not in self._corrected)
        found = [(entry, self._test(entry)) for entry in entries]
        total, turns = Counter(test[0] for _, test in found), Counter()  # type: Counter[str], Counter[str]
        for entry, test in found:
            turns[test[0]] += 1
            yield self._result(entry, test, turns[test[0]] if total[test[0]] > 1 else 0)

    def _result(self, entry: Entry, test: Tuple[str, str, Coding, str], turn: int) -> Result:
        (_, field, coding, name), texts = test, entry.row.texts(entry.encoding)
        is_plain = len(texts) > 6 and texts[6] is not None
        flags = [texts[6] or ""] if is_plain else [each for parts in repeats_of(entry, 7) for each in parts]
        cells = [_READ[at](entry, at) if one is None and at in _READ else one or "" for at, one in enumerate(texts, 1)]
        value, unit, usual, _, nature, status, _, operator, started, completed, last = (cells + _EMPTY)[3:14]
        return Result(
            coding.code,
            name,
            coding.system,
            value,
            unit,
            coding.ucum,
            usual,
            [one for one in flags if one],
            nature,
            status,
            operator,
            time_of(completed) or time_of(started),
            last or first_text(self.message.header, 5),
            comments_of(entry),
            field,
            turn,
        )

    def at(self, text: str) -> str:
        """A time in the form of HL7, with the line's zone if it has one; empty for anything else."""
        moment, text = moment_of(text), text.strip()
        if moment is None:
            return ""
        if len(text) == 8 or not self.reading.zone:
            return text
        return text + moment.replace(tzinfo=zoneinfo.ZoneInfo(self.reading.zone)).strftime("%z")

    def iso(self, text: str) -> str:
        """The same in the form of ISO 8601, which has no time of day without a zone: then it is the date."""
        moment, text = moment_of(text), text.strip()
        if moment is None:
            return ""
        if len(text) < 12 or not self.reading.zone:
            return moment.date().isoformat()
        return moment.replace(tzinfo=zoneinfo.ZoneInfo(self.reading.zone)).isoformat()


def may_correct(body: bytes) -> bool:
    """Whether a message may have a correction."""
    return _CORRECTION.search(body) is not None or _ESCAPED.search(body) is not None


def is_control(message: Message, order: Entry) -> bool:
    """Whether an order, or the whole message, is a control, and no sample of a patient."""
    return "Q" in (order.text(12).strip().upper(), message.header.text(12).strip().upper())


def report_of(order: Entry) -> str:
    """The report type of an order that says something also without a result; empty for any other."""
    word = order.text(26).strip().upper()
    return word if len(word) == 1 and word in REPORTS else ""


def identities_of(patient: Entry, reading: Reading = Reading()) -> Dict[int, Identity]:
    """A patient's identities by their fields: the practice's (3), the laboratory's (4), and the third (5)."""
    found = {field: identity_of(patient, field, reading)[0] for field in IDENTITIES}
    return {field: one for field, one in found.items() if one.value}


def identity_of(patient: Entry, field: int, reading: Reading = Reading()) -> Tuple[Identity, str]:
    """An identity of a patient, and why it isn't sure. Of components, as those of CX in HL7, the first one is the
    identity, the fourth its authority, the fifth its type; with any other one no one can say which it is. The component
    or field that is the line's sample is no part of it, and if the rest isn't sure, there is no identity."""
    letter, number, component = (*reading.sample.split("."), "", "")[:3]
    is_sample = (letter, number) == ("P", str(field))
    plain = None if is_sample else patient.row.plain(field)
    if plain is not None:
        return Identity(plain.decode(patient.encoding, "replace").strip()), ""
    parts = parts_of(patient, field)
    if is_sample:
        parts = [one if component and at != int(component) else "" for at, one in enumerate(parts, 1)]
    value, check, scheme, authority, kind, *others = [*parts, *[""] * (5 - len(parts))]
    is_one = len(patient.row.field(field)) == 1 and (value or not parts) and not (check or scheme or any(others))
    if is_one or is_sample:
        return Identity(value, authority, kind) if is_one else Identity(""), ""
    return Identity(_whole(patient, field)), f"which part of P-{field} is the patient's identity?"


def parts_of(entry: Entry, field: int) -> List[str]:
    """The components of a field without blanks around them, up to the last one that isn't empty."""
    plain = entry.row.plain(field)
    if plain is not None:
        text = plain.decode(entry.encoding, "replace").strip()
        return [text] if text else []
    repeats = entry.row.field(field)
    return _filled(repeats[0], entry.encoding) if repeats else []


def repeats_of(entry: Entry, field: int) -> List[List[str]]:
    """The same of each repeat of a field."""
    return [_filled(parts, entry.encoding) for parts in entry.row.field(field)]


def _filled(parts: List[bytes], encoding: str) -> List[str]:
    found = [part.decode(encoding, "replace").strip() for part in parts]
    while found and not found[-1]:
        found.pop()
    return found


def code_of(entry: Entry, field: int, reading: Reading = Reading()) -> str:
    """The code of a test: the components that the line's setting names; without one the maker's code if nothing is
    after it (LIS02-A2, 6.6.1), else the whole field, so that two tests never have one code."""
    return code_among(parts_of(entry, field), reading)


def code_among(parts: List[str], reading: Reading) -> str:
    """The same, of the components of a field."""
    if reading.test:
        places = [int(one) - 1 for one in reading.test.split("^")]
        return "^".join(parts[at] if at < len(parts) else "" for at in places).strip("^")
    return parts[3] if len(parts) == 4 else "^".join(parts)


def sample_of(order: Entry, patient: Optional[Entry], reading: Reading = Reading()) -> Tuple[str, str]:
    """The sample of an order, and why it isn't sure. Without a setting it is O-3, or O-4 if that is empty; which one of
    several components it is, no one can say: one may be the rack."""
    if reading.sample == "none":
        return "", ""
    if reading.sample:
        letter, field, component = (reading.sample.split(".") + [""])[:3]
        entry = order if letter == "O" else patient
        repeats = entry.row.field(int(field)) if entry is not None else []
        if entry is None or len(repeats) > 1 or (not component and repeats and len(repeats[0]) > 1):
            return _whole(order, int(field)), f"{reading.sample} is not one sample"
        text = entry.text(int(field), 0, int(component or 1) - 1).strip()
        return text, "" if text else f"{reading.sample}, the sample, is empty"
    for number in (3, 4):
        repeats = order.row.field(number)
        text = _whole(order, number)
        if text and (len(repeats) > 1 or len(repeats[0]) > 1):
            return text, f"which part of O-{number} is the sample? The line needs a setting, as sample = O.{number}.1"
        if text:
            return text, ""
    return "", "the sample is missing: O-3 and O-4 are empty"


def _whole(entry: Entry, field: int) -> str:
    """A field as one text; empty if it has only delimiters."""
    is_there = any(part.strip() for repeat in entry.row.field(field) for part in repeat)
    return field_text(entry, field) if is_there else ""


def comments_of(entry: Entry) -> List[Comment]:
    """The comments on a record."""
    if not entry.notes:
        return []
    found = [Comment(one.text(3), field_text(one, 4)) for one in entry.notes if one.letter == "C"]
    return [one for one in found if one.text]


def marks_of(one: Stored) -> List[str]:
    """What is to be said of a complete message: which one it repeats, and what was fixed in it."""
    again = [] if one.again_of is None else [f"repeat of message {one.again_of}"]
    return again + ([one.reason] if one.reason else [])


def text_of(entry: Entry, field: int) -> str:
    """A field as its text; with components or repeats as `whole` has it."""
    plain = entry.row.plain(field)
    if plain is not None:
        return plain.decode(entry.encoding, "replace")
    parts = entry.parts(field)
    return parts if isinstance(parts, str) else entry.whole(field)


def first_text(entry: Entry, field: int) -> str:
    """The first component of a field without blanks around it."""
    return entry.text(field).strip()


def field_text(entry: Entry, field: int) -> str:
    """The same without blanks around it."""
    return text_of(entry, field).strip()


def content_of(entry: Entry, field: int) -> str:
    """The same of a value, a unit or a range: alone if other components are empty, and two numbers as a range."""
    plain = entry.row.plain(field)
    if plain is not None:
        return plain.decode(entry.encoding, "replace").strip()
    parts = parts_of(entry, field) if len(entry.row.field(field)) == 1 else []
    filled = [part for part in parts if part]
    if len(filled) == 1:
        return filled[0]
    is_range = field == 6 and len(parts) == 2 and all(number_of(part) for part in parts)
    return "-".join(parts) if is_range else field_text(entry, field)


#: How the fields of a result are read that have components; as many empty fields as a result has.
_READ = {4: content_of, 5: content_of, 6: content_of, 8: field_text, 9: field_text}
_READ.update(dict.fromkeys((11, 12, 13, 14), first_text))
_EMPTY = [""] * 14


def letters_fault(body: bytes, encoding: str) -> str:
    """Why the letters of a message aren't of its encoding; empty if they may be."""
    try:
        body.decode(encoding)
    except UnicodeDecodeError as error:
        return f"byte {error.start} of the message is no letter of {encoding}, the line's encoding"
    if looks_like(body, encoding) != UTF_8:
        return ""
    return f"its letters are those of UTF-8, and the line's encoding is {encoding}"


def in_its_letters(one: Stored, reading: Reading) -> Stored:
    """A message in the encoding that its line has now, if its letters are of that and not of the one it came with."""
    if not reading.encoding or not letters_fault(one.body, one.encoding):
        return one
    return one if letters_fault(one.body, reading.encoding) else one._replace(encoding=reading.encoding)


def time_of(text: str) -> str:
    """A date or a time as records have it; empty for anything else."""
    text = text.strip()
    return text if moment_of(text) is not None else ""


def has_clock(text: str) -> bool:
    """Whether a text is a time with a time of day."""
    return len(text) >= 12 and moment_of(text) is not None


@functools.lru_cache(maxsize=64)  # the results of a message mostly have the same times
def moment_of(text: str) -> Optional[datetime.datetime]:
    """What a time of a record means, which has no zone; None for anything else."""
    found = _TIME.match(text.strip()) if text else None
    if found is None:
        return None
    year, month, day, hour, minute, second = [int(one or 0) for one in found.groups()]
    try:
        return datetime.datetime(year, month, day, hour, minute, second)
    except ValueError:
        return None
