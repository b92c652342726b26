"""An order, the files that hold orders, and the records by which an analyzer gets one (LIS02-A2, 6 to 8)."""
import csv
import io
import json
import re
import time
from typing import Any, Callable, Dict, Iterable, Iterator, List, NamedTuple, Optional, Sequence, Tuple, Union

from .link import LinkError
from .message import Fault, read_all
from .records import Field, Writer, messages
from .rows import Row

#: The names of an order's columns in a file. After the first two, which must be there: what each order has, and what it
#: may say besides.
COLUMNS = ("sample", "tests", "line", "priority", "patient", "name", "birth", "sex", "collected")
MORE = ("dilution", "specimen", "action", "physician", "rack", "position")
#: A field or a component that a maker wants, by its number in the standard, as `O.19` or `P.9.2`.
_FREE = re.compile(r"([OP])\.([1-9]\d?)(?:\.([1-9]\d?))?$")
#: Fields that an order sets itself.
_OWN = {"O": (2, 3, 4, 5, 6, 8, 12, 16, 17, 26), "P": (2, 3, 6, 8, 9)}
#: Action codes of LIS02-A2, 8.4.12: a new order, an added one, one that is cancelled at the analyzer.
ACTIONS = "NAC"
#: Priorities of LIS02-A2, 8.4.6: at once, as soon as possible, routine, call back, before an operation.
PRIORITIES = "SARCP"
_DATE = re.compile(r"(?:\d{8}(?:\d{4}(?:\d{2})?)?)?$")
_BETWEEN = re.compile(r"[\s;,]+")
#: Terminators of LIS02-A2, 12.1.3: as usual, the last request is answered, nothing is known for it, it failed.
NORMAL, ANSWERED, NOTHING, CANT = "N", "F", "I", "Q"
#: Report types of LIS02-A2, 8.4.26: an order, the answer to a query.
ORDERED, QUERIED = b"O", b"Q"


class OrderError(Exception):
    """What can't be an order, and why."""


class Order(NamedTuple):
    """What is to be measured of a sample. A date is YYYYMMDD, and HHMM or HHMMSS may follow."""

    #: The sample.
    sample: str
    #: The tests of it.
    tests: Tuple[str, ...]
    #: The line that gets it; empty for any line that asks.
    line: str = ""
    #: S, A, R, C or P: at once, as soon as possible, routine, call back, before an operation.
    priority: str = "R"
    #: The patient's number.
    patient: str = ""
    #: The patient's name, `last^first`.
    name: str = ""
    #: The patient's date of birth.
    birth: str = ""
    #: The patient's sex.
    sex: str = ""
    #: When the sample was taken.
    collected: str = ""
    #: What it says besides, by the names of MORE and those of free fields.
    more: Tuple[Tuple[str, str], ...] = ()

    def row(self) -> Dict[str, Any]:
        """What each order has, by its columns, without the tests."""
        return {name: one for name, one in zip(COLUMNS, self) if name != "tests"}

    def says(self, name: str) -> str:
        """What it says by a name of MORE; empty if it doesn't."""
        return dict(self.more).get(name, "")

    def checked(self) -> "Order":
        """The order, if it can be one; OrderError."""
        if not self.sample:
            raise OrderError("it has no sample")
        if not self.tests or not all(self.tests):
            raise OrderError("it has no test")
        if self.priority not in PRIORITIES or len(self.priority) != 1:
            raise OrderError(f"the priority is one of {', '.join(PRIORITIES)}, not {self.priority}")
        for name, date in (("birth", self.birth), ("collected", self.collected)):
            if not _DATE.match(date):
                raise OrderError(f"{name} is YYYYMMDD or YYYYMMDDHHMM, not {date}")
        if self.says("action") not in ("", *ACTIONS):
            raise OrderError(f"the action is one of {', '.join(ACTIONS)}, not {self.says('action')}")
        said = (one for _, one in self.more)
        for text in (*self.tests, *said, *(one for one in self if isinstance(one, str))):
            if any(ord(one) < 32 or 127 <= ord(one) < 160 for one in text):
                raise OrderError("it holds a control character")
        return self

    @property
    def patient_fields(self) -> Tuple[str, str, str, str]:
        """What its patient record says."""
        return self.patient, self.name, self.birth, self.sex


def order_of(given: Dict[str, Any]) -> Order:
    """The order of a row of a file, by the names of its columns; OrderError."""
    unknown = [name for name in given if not is_column(name)]
    if unknown:
        raise OrderError(no_column(unknown[0]))
    tests = given.get("tests") or ()
    if isinstance(tests, str):
        tests = tuple(one for one in _BETWEEN.split(tests) if one)
    if not isinstance(tests, (list, tuple)) or not all(isinstance(one, str) for one in tests):
        raise OrderError("tests are a text or a list of texts")
    others = {name: str(value).strip() for name, value in given.items() if name != "tests" and value not in (None, "")}
    more = tuple((name, one) for name, one in others.items() if name not in COLUMNS and one)
    own = {name: one for name, one in others.items() if name in COLUMNS}
    return Order(sample=own.pop("sample", ""), tests=tuple(tests), more=more, **own).checked()


def is_column(name: str) -> bool:
    """Whether an order's file may have a column of this name."""
    free = _FREE.match(name)
    return name in (*COLUMNS, *MORE) or (free is not None and int(free[2]) not in (1, *_OWN[free[1]]))


def no_column(name: str) -> str:
    """The error for a column that doesn't exist, with those that do."""
    known = ", ".join((*COLUMNS, *MORE))
    return f"there is no column {name}: {known}, and a field that these don't set, for example O.19 or P.9.2"


#: The error for a file of HL7.
_HL7 = (
    "this is HL7, which isn't read: orders come as CSV, JSON lines or records, as rows of the store's table, or from the "
    "command of a line"
)
#: A row of a file: its line, and its order, or why it can't be one.
Read = Tuple[int, Union[Order, str]]


def orders_of(data: bytes, encoding: str = "utf-8") -> Iterator[Read]:
    """The orders of a file: CSV with a line of names, JSON lines, or records. Each with its line; of records this is
    the number of the record in the file."""
    text = data.lstrip(b"\xef\xbb\xbf \r\n\t\v")
    if re.match(rb"MSH.", text):
        return iter([(1, _HL7)])
    if re.match(rb"[Hh][!-/:-@\[-`{-~]{3}", text):
        wrong = _not_in(re.sub(rb"\r\n?", b"\n", text), encoding)
        return iter(sorted(wrong.items())) if wrong else _of_records(text, encoding)
    rows = (_of_json if text.startswith(b"{") else _of_csv)(data, encoding)
    return _without(rows, _not_in(data, encoding))


def _without(rows: Iterator[Read], wrong: Dict[int, str]) -> Iterator[Read]:
    """The rows of a file, with what is wrong with a line in the place of the row that it belongs to."""
    left = sorted(wrong)
    for line, found in rows:
        bad = [one for one in left if one <= line]
        left = left[len(bad) :]
        for one in bad:
            yield one, wrong[one]
        if not bad:
            yield line, found
    for one in left:
        yield one, wrong[one]


def _not_in(data: bytes, encoding: str) -> Dict[int, str]:
    """The lines of a file whose bytes aren't text in this encoding, each with why. An encoding of more than a byte for
    a line's end is looked at as a whole."""
    lines = data.split(b"\n") if "\n".encode(encoding) == b"\n" else [data]
    found = {}
    for number, line in enumerate(lines, 1):
        try:
            line.decode(encoding)
        except UnicodeDecodeError as error:
            found[number] = f"the byte {line[error.start]:02X} isn't {encoding}: name the file's encoding by --encoding"
    return found


def _of_json(data: bytes, encoding: str) -> Iterator[Read]:
    for number, row in enumerate(data.decode(encoding, "replace").splitlines(), 1):
        if not row.strip():
            continue
        try:
            given = json.loads(row)
            yield number, order_of(given) if isinstance(given, dict) else "it is no object"
        except (ValueError, RecursionError) as error:
            yield number, f"it is no JSON: {error}"
        except OrderError as error:
            yield number, str(error)


def _of_csv(data: bytes, encoding: str) -> Iterator[Read]:
    text = data.decode(encoding, "replace").lstrip("\ufeff")
    head = text.splitlines()[0] if text.strip() else ""
    rows = csv.reader(io.StringIO(text, newline=""), delimiter=max(",;\t", key=head.count), strict=True)
    names: Optional[List[str]] = None
    try:
        for row in rows:
            if not any(cell.strip() for cell in row):
                continue
            if names is None:
                names = [cell.strip().lower() for cell in row]
                names = [name.upper() if _FREE.match(name.upper()) else name for name in names]
                unknown = [name for name in names if name and not is_column(name)]
                if unknown:
                    yield rows.line_num, no_column(unknown[0])
                    return
                if "sample" not in names or "tests" not in names:
                    yield rows.line_num, "the first line names the columns: sample and tests, and maybe " + ", ".join(
                        (*COLUMNS[2:], *MORE)
                    )
                    return
            elif len(row) > len(names):
                yield rows.line_num, f"it has {len(row)} cells, and there are {len(names)} columns"
            else:
                yield rows.line_num, _order_or_why(dict(zip(names, row)))
    except csv.Error as error:
        yield rows.line_num, f"it is no CSV: {error}"


def _order_or_why(given: Dict[str, Any]) -> Union[Order, str]:
    try:
        return order_of(given)
    except OrderError as error:
        return str(error)


def _of_records(data: bytes, encoding: str) -> Iterator[Read]:
    before = 0
    for found in read_all(re.sub(rb"\r?\n|\r", b"\r", data), encoding):
        if isinstance(found, Fault):
            yield before + found.error.number, f"the record can't be read: {found.error.reason.name}"
            return
        message = found.message
        for patient in message.patients:
            for order in patient.orders:
                given: Dict[str, Any] = {"patient": patient.text(3) or patient.text(4)}
                given.update(name=_joined(patient.parts(6)), birth=patient.text(8), sex=patient.text(9))
                given.update(sample=order.text(3), tests=codes_of(order.parts(5)), collected=order.text(8))
                given.update(priority=order.text(6) or "R", action=order.text(12), specimen=order.text(16))
                given.update(physician=_joined(order.parts(17)), dilution=_dilution(order.parts(5)))
                yield before + order.number, _order_or_why(given)
        before += len(found.ends)


def _joined(parts: Any) -> str:
    """A field with components as one text."""
    if isinstance(parts, str):
        return parts
    return "^".join(parts if all(isinstance(one, str) for one in parts) else parts[0]).rstrip("^")


def codes_of(parts: Any) -> Tuple[str, ...]:
    """The codes of a test's field: of each repeat its fourth component, which is the maker's code, or its last one."""
    if isinstance(parts, str):
        return (parts,) if parts else ()
    repeats = [parts] if all(isinstance(one, str) for one in parts) else parts
    codes = (one[3] if len(one) > 3 and one[3] else _last(one) for one in repeats)
    return tuple(code for code in codes if code)


def _dilution(parts: Any) -> str:
    """The fifth component of each test's field, if it is the same in all of them."""
    if isinstance(parts, str):
        return ""
    repeats = [parts] if all(isinstance(one, str) for one in parts) else parts
    found = {one[4] if len(one) > 4 else "" for one in repeats}
    return str(found.pop()) if len(found) == 1 else ""


def _last(parts: Sequence[str]) -> str:
    return next((part for part in reversed(parts) if part), "")


# ---- the records of orders

#: What a line's answer has in a field of an order's record besides: its number, and components.
Beside = Callable[[Order], Tuple[int, List[bytes]]]


def texts_of(
    orders: Sequence[Order],
    encoding: str,
    *,
    report: bytes = ORDERED,
    end: str = NORMAL,
    clock: Optional[float] = None,
    beside: Beside = lambda order: (0, []),
    component: int = 4,
) -> List[bytes]:
    """The records of a message with these orders, each a text with its CR: H, a P for each patient with its O, and L. A
    test's code is this component of O-5. OrderError if they can't be written in this encoding. What is written is read
    back by the proved reader, and compared."""
    try:
        fields = [_fields(order, encoding, report, beside, component) for order in orders]
        texts = _written(orders, fields, encoding, end, clock)
    except UnicodeEncodeError as error:
        # one letter, and not all of a name
        raise OrderError(f"{error.object[error.start]!r} isn't in {encoding}") from None
    except LinkError as error:
        raise OrderError(f"it can't be a record: {error}") from None
    _compare(fields, texts)
    return texts


def _head(writer: Writer, clock: Optional[float]) -> None:
    at = time.strftime("%Y%m%d%H%M%S", time.localtime(clock)).encode()
    writer.record("H", [b"", b"", b"lislab", b"", b"", b"", b"", b"", b"", b"P", b"LIS2-A2", at])


def _written(
    orders: Sequence[Order], fields: Sequence[List[Field]], encoding: str, end: str, clock: Optional[float]
) -> List[bytes]:
    with Writer() as writer:
        _head(writer, clock)
        last: Optional[Tuple[Any, ...]] = None
        patients = placed = 0
        for order, of_order in zip(orders, fields):
            whose = (order.patient_fields, [one for one in order.more if one[0][0] == "P"])
            if whose != last:
                last, patients, placed = whose, patients + 1, 0
                writer.record("P", _patient(order, patients, encoding))
            placed += 1
            of_order[0] = b"%d" % placed
            writer.record("O", of_order)
        writer.record("L", [b"1", end.encode()])
        texts: List[bytes] = writer.texts()
    return texts


def _patient(order: Order, number: int, encoding: str) -> List[Field]:
    name = [one.encode(encoding) for one in order.name.split("^")]
    known = [order.patient, order.birth, order.sex]
    patient, birth, sex = (one.encode(encoding) for one in known)
    fields: Dict[int, Field] = {2: b"%d" % number, 3: patient, 6: name, 8: birth, 9: sex}
    return _trimmed(_numbered(_with_free(order, "P", fields, encoding)))


def _fields(order: Order, encoding: str, report: bytes, beside: Beside, component: int) -> List[Field]:
    """Those of the order's record: its tests are repeats of one field."""
    rack, position, dilution = (order.says(name).encode(encoding) for name in ("rack", "position", "dilution"))
    after = [dilution] if dilution else []
    fields: Dict[int, Field] = {
        3: order.sample.encode(encoding),
        4: [rack, position] if position else rack,
        5: [[*[b""] * (component - 1), test.encode(encoding), *after] for test in order.tests],
        6: order.priority.encode(),
        8: order.collected.encode(),
        12: order.says("action").encode() or b"N",
        16: order.says("specimen").encode(encoding),
        17: [one.encode(encoding) for one in order.says("physician").split("^")],
        26: report,
    }
    number, parts = beside(order)
    if number and parts:
        fields[number] = parts
    return _numbered(_with_free(order, "O", fields, encoding))


def _with_free(order: Order, letter: str, fields: Dict[int, Field], encoding: str) -> Dict[int, Field]:
    """The fields with those that the order names by their numbers."""
    found = {name: one for name, one in order.more if name.startswith(f"{letter}.")}
    for name in sorted(found):
        number, _, component = name[2:].partition(".")
        one = found[name].encode(encoding)
        parts = list(fields.get(int(number), [])) if component else []
        fields[int(number)] = one if not component else [*_filled(parts, int(component) - 1), one]
    return fields


def _filled(parts: List[Any], count: int) -> List[bytes]:
    return [*parts, *[b""] * (count - len(parts))][:count]


def _numbered(fields: Dict[int, Field]) -> List[Field]:
    """Fields by their numbers, the first of which is 2, as a list."""
    return [fields.get(number, b"") for number in range(2, max(fields) + 1)]


def _trimmed(fields: List[Field]) -> List[Field]:
    while len(fields) > 1 and not any(fields[-1]):
        fields = fields[:-1]
    return fields


def _compare(fields: Sequence[List[Field]], texts: Sequence[bytes]) -> None:
    """Whether the proved reader finds in the records what was written: the sample, and each test."""
    rows = [row for rows in messages([b"".join(texts)]) for row in rows if row.letter == "O"]
    found = [(row.field(3), row.field(5)) for row in rows]
    if found != [(_repeats(one[1]), _repeats(one[3])) for one in fields]:
        raise OrderError("what is written isn't read back as it was")


def _repeats(field: Field) -> List[List[bytes]]:
    """A field that is written, as it is read."""
    if isinstance(field, bytes):
        return [[field]]
    return [list(one) for one in field] if field and not isinstance(field[0], bytes) else [list(field)]  # type: ignore


def nothing_of(query: Row, way: str, clock: Optional[float] = None) -> List[bytes]:
    """The answer if there is no order for a query: `L-I`, no information available; `Q-X`, the query comes back with X,
    can't be done (LIS02-A2, 11.13 and 12.3); nothing for `silence`."""
    if way == "silence":
        return []
    with Writer() as writer:
        _head(writer, clock)
        if way == "Q-X":
            fields: List[Field] = [query.field(number) or b"" for number in range(2, max(query.count + 2, 14))]
            fields[11] = b"X"
            writer.record("Q", fields)
        writer.record("L", [b"1", (NOTHING if way == "L-I" else NORMAL).encode()])
        texts: List[bytes] = writer.texts()
    return texts


def failure(clock: Optional[float] = None) -> List[bytes]:
    """The answer to a query that can't be looked up: the terminator for an error in the last request (LIS02-A2,
    12.1.3). It doesn't say that there is no order."""
    return texts_of([], "ascii", end=CANT, clock=clock)


def told_of(orders: Iterable[Order]) -> str:
    """Orders in a few words."""
    return "; ".join(f"{order.sample} {','.join(order.tests)}" for order in orders)
