"""Messages as data: the patients, orders and results in what the proved reader read, with LIS02-A2's names of
fields."""
import json
from typing import Any, Dict, Generator, Iterable, Iterator, List, NamedTuple, Optional, Tuple, Union

from ._checks import as_pieces
from .letters import LATIN
from .records import MessageError, Reader
from .rows import Row
from .shown import Parts, as_parts, as_text

#: The names of the fields after a record's letter, by the standard's numbers (a header's delimiters are field 2).
NAMES: Dict[str, Dict[int, str]] = {
    "H": dict(
        enumerate(
            """message_control_id access_password sender_name sender_address reserved sender_phone
        sender_characteristics receiver_id comment processing_id version timestamp""".split(),
            3,
        )
    ),
    "P": dict(
        enumerate(
            """sequence practice_patient_id laboratory_patient_id third_patient_id name mothers_maiden_name
        birthdate sex race address reserved phone physician special_1 special_2 height weight diagnosis medications diet
        practice_1 practice_2 admission_dates admission_status location diagnostic_code_nature diagnostic_code religion
        marital_status isolation_status language hospital_service hospital_institution dosage_category""".split(),
            2,
        )
    ),
    "O": dict(
        enumerate(
            """sequence specimen_id instrument_specimen_id test priority requested_at collected_at
        collection_end_at collection_volume collector action_code danger_code clinical_information received_at
        specimen_descriptor physician physician_phone user_1 user_2 laboratory_1 laboratory_2 reported_at
        instrument_charge instrument_section report_type reserved collection_location nosocomial_flag specimen_service
        specimen_institution""".split(),
            2,
        )
    ),
    "R": dict(
        enumerate(
            """sequence test value unit reference_range abnormal_flags nature_of_abnormality status
        normative_change_date operator started_at completed_at instrument""".split(),
            2,
        )
    ),
    "C": dict(enumerate("sequence source comment_text type".split(), 2)),
    "Q": dict(
        enumerate(
            """sequence starting_range ending_range test time_nature beginning ending physician
        physician_phone user_1 user_2 status_codes""".split(),
            2,
        )
    ),
    "L": dict(enumerate("sequence termination_code".split(), 2)),
    "M": {2: "sequence"},
    "S": {2: "sequence"},
}
#: The names of records by their letters.
KINDS = {
    "H": "header",
    "P": "patient",
    "O": "order",
    "R": "result",
    "C": "comment",
    "Q": "query",
    "L": "terminator",
    "M": "manufacturer",
    "S": "scientific",
}
_NUMBERS = {letter: {name: number for number, name in names.items()} for letter, names in NAMES.items()}


class Entry:
    """A record in its message: its fields by number or by name, its notes (C, M, S), and the records below it."""

    def __init__(self, row: Row, number: int, encoding: str) -> None:
        #: The record itself, and its letter.
        self.row, self.letter = row, row.letter
        #: Its number in the message, from 1.
        self.number = number
        #: The encoding of its texts.
        self.encoding = encoding
        #: The comments, manufacturer's and scientific records on it.
        self.notes: List[Entry] = []
        #: The orders of a patient or a query, the results of an order.
        self.children: List[Entry] = []

    @property
    def orders(self) -> "List[Entry]":
        """The orders below a patient or a query."""
        return self.children if self.letter in "PQ" else []

    @property
    def results(self) -> "List[Entry]":
        """The results below an order."""
        return self.children if self.letter == "O" else []

    def part(self, field: int, repeat: int = 0, component: int = 0) -> Optional[bytes]:
        """The bytes that a component means; None if there is no such component."""
        return self.row.part(field, repeat, component)

    def text(self, field: int, repeat: int = 0, component: int = 0) -> str:
        """A component as text in the message's encoding; empty if there is no such component."""
        return (self.row.part(field, repeat, component) or b"").decode(self.encoding, "replace")

    def whole(self, field: int) -> str:
        """A field as text, its components joined by ^ and its repeats by a backslash. Escapes are decoded, but for
        those of these two, `&S&` and `&R&`, and for `&E&` where an & would be read as an escape."""
        return as_text(self.row, field, self.encoding)

    def parts(self, field: int) -> Parts:
        """A field as text; as a list if it has components, as a list of lists if it has repeats."""
        return as_parts(self.row, field, self.encoding)

    def __getattr__(self, name: str) -> str:
        numbers = _NUMBERS.get(self.__dict__["row"].letter, {}) if "row" in self.__dict__ else {}
        if name in numbers:
            return self.whole(numbers[name])
        raise AttributeError(
            f"a record {self.__dict__['row'].letter if 'row' in self.__dict__ else ''} has no {name}"
        )

    def to_dict(self, nested: bool = False) -> Dict[str, Any]:
        """The record, its notes and the records below it, as plain data; empty fields are left out. Fields are texts
        (`whole`); if `nested`, those with components or repeats are lists (`parts`)."""
        names = NAMES.get(self.letter, {})
        told: Dict[str, Any] = {"record": self.letter}
        for number in range(self.row.first, self.row.first + self.row.count):
            text = self.parts(number) if nested else self.whole(number)
            if text:
                told[names.get(number, f"field_{number}")] = text
        if self.notes:
            told["notes"] = [one.to_dict(nested) for one in self.notes]
        for name, below in (("orders", self.orders), ("results", self.results)):
            if below:
                told[name] = [one.to_dict(nested) for one in below]
        return told


class Finding(NamedTuple):
    """A record whose sequence number isn't its position under its parent."""

    #: The record's number in its message, from 1.
    number: int
    #: The record's letter.
    letter: str
    #: The position, which the sequence number should be.
    position: int


class Message:
    """A whole message: a header, patients and queries with what is below them, and a terminator."""

    def __init__(self, rows: Iterable[Row], encoding: str = LATIN) -> None:
        #: Its records.
        self.rows = list(rows)
        #: The encoding of its texts.
        self.encoding = encoding
        #: Its patients, each with its orders.
        self.patients: List[Entry] = []
        #: Its queries.
        self.queries: List[Entry] = []
        #: All its records, in order.
        self.entries: List[Entry] = []
        self._build()

    def _build(self) -> None:
        above: Dict[str, Entry] = {}
        last: Optional[Entry] = None
        for number, row in enumerate(self.rows, 1):
            entry = Entry(row, number, self.encoding)
            self.entries.append(entry)
            if row.letter in "CMS":
                if last is not None:
                    last.notes.append(entry)
                continue
            last = entry
            if row.letter in "PQ":
                (self.patients if row.letter == "P" else self.queries).append(entry)
                above = {"O": entry}
            elif row.letter == "O" and "O" in above:
                above["O"].children.append(entry)
                above["R"] = entry
            elif row.letter == "R" and "R" in above:
                above["R"].children.append(entry)

    @property
    def header(self) -> Entry:
        """The header."""
        return self.entries[0]

    @property
    def terminator(self) -> Optional[Entry]:
        """The last record, if it is a terminator."""
        return self.entries[-1] if self.entries and self.entries[-1].letter == "L" else None

    def results(self) -> Iterator[Tuple[Entry, Entry, Entry]]:
        """Each result with the patient (or query) and the order that it belongs to."""
        for patient in self.entries:
            if patient.letter in "PQ":
                for order in patient.orders:
                    for result in order.results:
                        yield patient, order, result

    def findings(self) -> List[Finding]:
        """The records P, O, R, C, Q and L whose sequence number isn't their position under their parent."""
        found: List[Finding] = []
        counts: Dict[Tuple[int, str], int] = {}
        parents = {"P": 0, "Q": 0, "O": 0, "R": 0, "L": 0}
        last = 0
        for entry in self.entries:
            letter = entry.letter
            parent = last if letter in "CMS" else parents.get(letter, 0)
            position = counts[parent, letter] = counts.get((parent, letter), 0) + 1
            if letter not in "CMS":
                last = entry.number
            if letter in "PQ":
                parents["O"] = entry.number
            elif letter == "O":
                parents["R"] = entry.number
            if letter in "PORCQL" and not _is_number(entry.row, 1 if letter == "L" else position):
                found.append(Finding(entry.number, letter, 1 if letter == "L" else position))
        return found

    def to_dict(self, nested: bool = False) -> Dict[str, Any]:
        """The message as plain data; fields are texts or, if `nested`, lists if they have components or repeats."""
        told = {
            "header": self.header.to_dict(nested),
            "patients": [one.to_dict(nested) for one in self.patients],
        }
        if self.queries:
            told["queries"] = [one.to_dict(nested) for one in self.queries]
        if self.terminator:
            told["terminator"] = self.terminator.to_dict(nested)
        return told

    def to_json(self, nested: bool = False, **words: Any) -> str:
        """The message as JSON."""
        return json.dumps(self.to_dict(nested), ensure_ascii=False, **words)


def _is_number(row: Row, position: int) -> bool:
    field = row.field(row.first)
    if len(field) != 1 or len(field[0]) != 1:
        return False
    digits = field[0][0]
    return 1 <= len(digits) <= 9 and all(48 <= one <= 57 for one in digits) and int(digits) == position


class Fault(NamedTuple):
    """A message that can't be read."""

    #: Why its next record can't be read.
    error: MessageError
    #: The place of its first byte in the stream.
    start: int
    #: The place of that record.
    place: int
    #: The records before that one.
    rows: List[Row]


class Found(NamedTuple):
    """A message, and its place in the stream."""

    #: The message.
    message: Message
    #: The place of its first byte.
    start: int
    #: The place after the end of each of its records.
    ends: List[int]


def read_all(stream: Union[bytes, Iterable[bytes]], encoding: str = LATIN) -> Iterator[Union[Found, Fault]]:
    """All messages of a stream, or of the pieces of one, and a Fault for each that can't be read, which doesn't hide
    the later ones: reading goes on at the next record that begins with H and a byte that may be a delimiter."""
    stream, at = b"".join(as_pieces(stream)), 0
    while at < len(stream):
        fault = yield from _read_from(stream, at, encoding)
        if fault is None:
            return
        yield fault
        at = _next_header(stream, fault.place, fault.start)


def _read_from(stream: bytes, begun: int, encoding: str) -> Generator[Found, None, Optional[Fault]]:
    """The messages from a place on, up to one that can't be read. The pieces grow, so that a fault costs no more than
    what was read before it."""
    start, place, size, rows, ends = begun, begun, 1024, [], []  # type: int, int, int, List[Row], List[int]
    with Reader() as reader:
        try:
            while place < len(stream):
                whole = stream.rfind(b"\r", place, place + size) + 1  # records that are whole are read together
                end = whole if whole > place else place + size
                for row in reader.feed(stream[place:end]):
                    rows.append(row)
                    ends.append(begun + reader.read)
                    if row.letter == "L":
                        yield Found(Message(rows, encoding), start, ends)
                        start, rows, ends = ends[-1], [], []
                place, size = end, min(size * 2, 1 << 16)
            reader.finish()
            return None
        except MessageError as error:
            return Fault(error, start, ends[-1] if ends else start, rows)


def _next_header(stream: bytes, place: int, start: int) -> int:
    """Where the next header may begin: at the rejected record, if it isn't the first of its message, or after it."""
    at = place
    while at < len(stream):
        if stream[at : at + 1] in (b"H", b"h") and at > start and not stream[at + 1 : at + 2].isalnum():
            return at
        cut = stream.find(b"\r", at)
        if cut < 0:
            return len(stream)
        at = cut + 1
        if at == start:
            at += 1
    return len(stream)
