"""A test code mapping: the laboratory's code, unit and factor for an analyzer's code. It changes a message's
records; the store keeps what came."""
import csv
import decimal
import functools
import io
import re
from typing import Callable, Dict, Iterator, List, NamedTuple, Optional, Sequence, Tuple

from lislink.message import Entry, Message
from lislink.records import RECORD_BYTES
from lislink.rows import Row, marks_of
from .failures import Refused
from .numbers import Number, number_of, range_of, rounded, times
from .options import OptionError
from .results import MARK, Coded, Coding, Reading, code_among, content_of, message_of, parts_of, repeats_of, text_of
from .store import Stored

#: The columns; those that a row must fill. In place of the laboratory's code: the result doesn't go out.
COLUMNS, _NEEDED = (
    ("analyzer", "laboratory", "unit", "factor", "line", "sent", "digits", "system", "ucum"),
    ("analyzer", "laboratory"),
)
LEAVE_OUT = "leave out"
#: The bytes that records may have (LIS02-A2, 5.4.1 to 5.4.3), and the CR after each.
_TEXT = bytes([7, 9, 11, 12, 13, *range(32, 127), *range(128, 255)])
_ONE, _SYSTEM = decimal.Decimal(1), re.compile(r"[A-Za-z0-9]{1,12}$|[a-z]+:[!-~]+$")


class Code(NamedTuple):
    """A row: the analyzer's code, or a pattern over the components of its field, and the laboratory's code; the
    laboratory's unit, if it isn't the analyzer's; what a value is multiplied by; of which line, and for which unit of
    the analyzer, each of any if it is empty; the digits after the point of a value that is multiplied; the system of
    the laboratory's code, and its unit in UCUM."""

    analyzer: str
    laboratory: str
    unit: str
    factor: decimal.Decimal
    line: str
    sent: str
    digits: Optional[int] = None
    system: str = ""
    ucum: str = ""

    def named(self) -> List[Tuple[int, str]]:
        """The components that a pattern names, by their places from 0; none of a code."""
        parts = self.analyzer.split("^") if "^" in self.analyzer else []
        return [(at, part.strip()) for at, part in enumerate(parts) if part.strip() not in ("", "*")]

    def fits(self, field: Sequence[str]) -> bool:
        """Whether these are components of its test."""
        named = self.named()
        return bool(named) and all(at < len(field) and field[at] == part for at, part in named)


class Read(NamedTuple):
    """What was read of a file: its rows, and each fault with its file and row."""

    codes: List[Code]
    faults: List[str]


def read_codes(path: str) -> Read:
    """Reads a table: CSV with a row of names."""
    with open(path, "rb") as file:
        data = file.read()
    try:
        text = data.decode("utf-8-sig")
    except UnicodeDecodeError as error:
        row = data.count(b"\n", 0, error.start) + 1
        return Read([], [f"{path}:{row}: a test code mapping is written in UTF-8"])
    rows = csv.reader(io.StringIO(text, newline=""))
    try:
        return _read_table(path, rows)
    except csv.Error as error:
        return Read([], [f"{path}:{max(rows.line_num, 1)}: {error}: a test code mapping is CSV"])


def _read_table(path: str, rows: "csv._reader") -> Read:  # type: ignore[name-defined]
    names = [one.strip() for one in next(rows, [])]
    wrong = [one for one in names if one not in COLUMNS or names.count(one) > 1]
    missing = [one for one in _NEEDED if one not in names]
    if wrong or missing:
        no_such = f"there is no column {wrong[0]}, or it is there twice" if wrong else ""
        what = no_such or f"the column {missing[0]} is missing"
        return Read([], [f"{path}:1: {what}: the first row names {', '.join(COLUMNS)}"])
    return _read_rows(path, names, rows)


def _read_rows(path: str, names: Sequence[str], rows: "csv._reader") -> Read:  # type: ignore[name-defined]
    codes: List[Code] = []
    faults: List[str] = []
    known: Dict[Tuple[str, str, str], int] = {}
    for row in rows:
        number = rows.line_num
        if not any(cell.strip() for cell in row) or row[0].startswith("#"):
            continue
        given = dict(zip(names, (cell.strip() for cell in row)))
        code, why = _code_of(given, len(row) - len(names))
        if code is None:
            faults.append(f"{path}:{number}: {why}")
            continue
        place = code.line, code.analyzer, code.sent
        if place in known:
            faults.append(f"{path}:{number}: {code.analyzer} is in row {known[place]} too")
            continue
        known[place] = number
        codes.append(code)
    return Read(codes, faults)


def _code_of(given: Dict[str, str], more: int) -> "Tuple[Optional[Code], str]":
    """The code of a row, or what would be right."""
    if more > 0:
        return None, f"there are {more} cells more than names"
    for name in _NEEDED:
        if not given.get(name):
            return None, f"the {name}'s code is missing"
    word = given.get("factor", "")
    try:
        factor = decimal.Decimal(word) if word else _ONE
    except decimal.InvalidOperation:
        factor = decimal.Decimal("NaN")
    if not factor.is_finite() or not factor:
        return None, f"{word}: a factor is a decimal, as 0.0555, and not 0"
    if factor != _ONE and not given.get("unit"):
        return None, "a factor needs the unit that it gives"
    rest = given["analyzer"], given["laboratory"], given.get("unit", ""), factor
    code = Code(*rest, given.get("line", ""), given.get("sent", ""))
    return _more_of(code, given)


def _more_of(code: Code, given: Dict[str, str]) -> "Tuple[Optional[Code], str]":
    """The same with what a row may say besides."""
    digits, system, ucum = (given.get(name, "") for name in ("digits", "system", "ucum"))
    if digits and (not re.match(r"\d$", digits, re.ASCII) or code.factor == _ONE):
        return None, f"{digits}: digits are 0 to 9, of a value with a factor"
    if system and not _SYSTEM.match(system):
        return None, f"{system}: a system is a word of HL7, as LN for LOINC, or an address"
    if ucum and not code.unit and not code.sent:
        return None, "a unit of UCUM needs the unit that it stands for: unit or sent"
    if code.laboratory == LEAVE_OUT and (code.unit or system or ucum):
        return None, "what is left out has no unit and no system"
    if "^" in code.analyzer and not code.named():
        return None, f"{code.analyzer}: a pattern names a component, as ^^^GLU^^^F"
    return code._replace(digits=int(digits) if digits else None, system=system, ucum=ucum), ""


class _Change(NamedTuple):
    """What a table does to the results of a test in a unit: its row, which there may not be, and what that means; the
    record's new fields, by their numbers; what is to be said of it; and whether values are multiplied."""

    code: Optional[Code]
    coding: Optional[Coding]
    fields: Dict[int, bytes]
    why: str
    is_product: bool = False


class Codes:
    """The codes of a laboratory."""

    def __init__(self, codes: Sequence[Code], test: str = "") -> None:
        self.rows = tuple(codes)
        #: Which component is the test, as the line's setting has it.
        self.reading = Reading(test=test)
        self._codes = {(one.line, one.analyzer, one.sent): one for one in codes if "^" not in one.analyzer}
        patterns = [one for one in codes if "^" in one.analyzer]
        self._patterns = sorted(patterns, key=lambda one: (-len(one.named()), not one.sent))
        #: The rows for tests that were looked up.
        self._known: Dict[Tuple[str, str], List[Code]] = {}
        #: What was done to results, by line, encoding, delimiters, and the fields of the test and the unit.
        self._changes: Dict[Tuple[str, str, bytes, bytes, bytes], _Change] = {}

    def of_orders(self, line: str) -> Dict[str, str]:
        """For the orders of a line: each code of the laboratory, with the analyzer's code in the first row that has it.
        A row whose pattern names more than the manufacturer's code, the fourth component, is only for results."""
        found: Dict[str, str] = {}
        for one in sorted(self.rows, key=lambda row: row.line == ""):
            named = one.named() or [(3, one.analyzer)]
            if one.line in ("", line) and one.laboratory != LEAVE_OUT and [at for at, _ in named] == [3]:
                found.setdefault(one.laboratory, named[0][1])
        return found

    def _rows(self, line: str, parts: Sequence[str], name: str) -> Iterator[Code]:
        """The rows for a test, the best one first: those of its line before those of any; a pattern that names more
        components before others, and patterns before codes; a row of a unit before one of any."""
        plain_names = [name] if self.reading.test or len(parts) < 5 else [name, parts[3]]
        for where in (line, "") if line else ("",):
            yield from (one for one in self._patterns if one.line == where and one.fits(parts))
            for code in plain_names:
                found = [one for (at, of, _), one in self._codes.items() if (at, of) == (where, code)]
                yield from sorted(found, key=lambda one: not one.sent)

    def found(self, line: str, field: str, unit: str) -> Optional[Code]:
        """The row for a result, of which the components of R-3 and the unit are named."""
        return next((one for one in self._of(line, field) if one.sent in ("", unit)), None)

    def _of(self, line: str, field: str) -> List[Code]:
        found = self._known.get((line, field))
        if found is None:
            if len(self._known) > 10000:
                self._known.clear()
            parts = field.split("^")
            found = self._known[line, field] = list(self._rows(line, parts, code_among(parts, self.reading)))
        return found

    def lacked(self, line: str, field: str, unit: str) -> str:
        """What the table lacks of a result: its code, with the unit if it has the code in another one; empty if it has
        both."""
        if self.found(line, field, unit) is not None:
            return ""
        code = code_among(field.split("^"), self.reading)
        return f"{code} {unit or '-'}" if self._of(line, field) else (code or "-")

    def applied(self, one: Stored, reading: Reading = Reading()) -> Coded:
        """A message with the laboratory's codes, its units, and values that are multiplied. What isn't in the table
        stays as it is, and gets a comment that says so after its own; what a row leaves out is gone, with what is
        below it. `Refused` if a word can't be written in the message's encoding."""
        rows: List[Row] = []
        marks: List[Row] = []
        codings: Dict[Tuple[int, int], Coding] = {}
        left_out, skips = 0, False
        for entry in message_of(one).entries:
            skips = skips and entry.letter in "CMS"
            if skips:
                continue
            if marks and entry.letter not in "CMS":
                rows += marks
                marks = []
            if entry.letter == "R":
                change = self._change(entry, one)
                skips = change.code is not None and change.code.laboratory == LEAVE_OUT
                if skips:
                    left_out += 1
                    continue
                row, why = _result(entry, change, one)
                numbers = [each for each in entry.notes if each.letter == "C"]
                marks = [_comment(entry.row, len(numbers) + 1, why, one)] if why else []
                rows.append(row)
                if change.coding is not None:
                    codings[len(rows), 0] = change.coding
            elif entry.letter == "O":
                rows.append(self._order(entry, one, len(rows) + 1, codings))
            else:
                rows.append(entry.row)
        body = b"".join([row.text + b"\r" for row in rows])
        is_read = not body.translate(None, _TEXT) and all(len(row.text) <= RECORD_BYTES for row in rows)
        message = Message(rows, one.encoding) if is_read else None  # who reads the text is told what is wrong
        return Coded(one._replace(body=body), reading, codings, left_out, message, one.body)

    def _order(self, entry: Entry, one: Stored, number: int, codings: Dict[Tuple[int, int], Coding]) -> Row:
        """The order with the laboratory's codes of its tests, as far as it has some."""
        row, (_, repeat, component, _) = entry.row, _marks(entry.row)
        tests = []
        for at, (written, meant) in enumerate(zip(row.written(5).split(repeat), repeats_of(entry, 5))):
            parts = written.split(component)
            field = "^".join(meant)
            found = next((each for each in self._of(one.line, field) if each.laboratory != LEAVE_OUT), None)
            if field and found is not None:
                parts[3 if len(parts) > 3 else 0] = _bytes(found.laboratory, row, one)
                codings[number, at] = Coding(found.laboratory, found.system)
            tests.append(component.join(parts))
        return _with(row, {5: repeat.join(tests)} if row.written(5) else {})

    def _change(self, entry: Entry, one: Stored) -> _Change:
        """What a table does to the results of a test in a unit."""
        row = entry.row
        known = one.line, one.encoding, row.delimiters, row.written(3), row.written(5)
        found = self._changes.get(known)
        if found is None:
            if len(self._changes) > 10000:
                self._changes.clear()
            found = self._changes[known] = self._change_of(entry, one)
        return found

    def _change_of(self, entry: Entry, one: Stored) -> _Change:
        row, (field, unit) = entry.row, field_and_unit(entry)
        code = self.found(one.line, field, unit)
        if code is None:
            name = code_among(field.split("^"), self.reading)
            lacked = f"no code for {name} in {unit or 'no unit'}" if self._of(one.line, field) else ""
            return _Change(None, None, {}, lacked or f"unknown code {name or 'none'}")
        if code.laboratory == LEAVE_OUT:
            return _Change(code, None, {}, "")
        coding, fields = Coding(code.laboratory, code.system, code.ucum, field), {3: _test(row, code.laboratory, one)}
        if code.factor != _ONE and unit == code.unit:
            return _Change(code, coding, fields, f"it is in {unit} already, and isn't multiplied")
        new_unit = {5: _bytes(code.unit, row, one)} if code.unit else {}
        return _Change(code, coding, {**fields, **new_unit}, "", code.factor != _ONE)


def _result(entry: Entry, change: _Change, one: Stored) -> Tuple[Row, str]:
    """A result as the laboratory has it, and what is to be said of it."""
    row, code, fields = entry.row, change.code, change.fields
    if code is None or not change.is_product:
        return _with(row, fields), change.why
    value = content_of(entry, 4)
    number = number_of(value)
    if number is None and value:
        return _with(row, {3: fields[3]}), "the value is no number, and isn't multiplied"
    fields, told = dict(fields), []
    if number is not None:
        fields[4] = _bytes(_times(number, code).text(), row, one)
        if code.digits is not None:
            told.append(f"it was {number.text()} {content_of(entry, 5)}".strip())
    usual = content_of(entry, 6)
    product = _range_times(usual, code)
    if product:
        fields[6] = _bytes(product, row, one)
    elif usual.strip():
        fields[6] = row.written(6) + (b" " + row.written(5)).rstrip()
        told.append(f"the range is in {content_of(entry, 5) or 'the unit of the analyzer'}")
    return _with(row, fields), "; ".join(told)


@functools.lru_cache(maxsize=1024)  # a test has one range in many messages
def _range_times(text: str, code: Code) -> str:
    """A range by the factor of a row; empty if it is none of numbers."""
    usual = range_of(text)
    if usual is None:
        return ""
    low, high = (None if each is None else _times(each, code) for each in usual)
    usual = type(usual)(high, low) if code.factor < 0 else type(usual)(low, high)
    return usual.text(" to " if "to" in text.lower() else "-")


def _times(number: Number, code: Code) -> Number:
    """A number by the factor of a row, with as many digits as that says."""
    product = times(number, code.factor)
    return product if code.digits is None else rounded(product, code.digits)


def _marks(row: Row) -> Tuple[bytes, bytes, bytes, bytes]:
    marks = row.delimiters
    return marks[:1], marks[1:2], marks[2:3], marks[3:]


def _bytes(text: str, row: Row, one: Stored) -> bytes:
    """A text as a component's bytes: in the message's encoding, delimiters as escapes."""
    try:
        return _escaped(text, row.delimiters, one.encoding)
    except UnicodeEncodeError:
        why = f"can't be written in {one.encoding}, the encoding of line {one.line}"
        raise Refused(f"{text} of the code mapping {why}") from None


@functools.lru_cache(maxsize=4096)  # the codes and units of a table
def _escaped(text: str, delimiters: bytes, encoding: str) -> bytes:
    if text.isascii():
        plain = text.encode(encoding)
        if not any(mark in plain for mark in delimiters):
            return plain
    escape = delimiters[3:]
    names = {bytes([mark]): name for mark, name in zip(delimiters, (b"F", b"R", b"S", b"E"))}
    found = [_encoded(letter, encoding) for letter in text]
    return b"".join([escape + names[data] + escape if data in names else data for data in found])


def _encoded(letter: str, encoding: str) -> bytes:
    try:
        return letter.encode(encoding)
    except UnicodeEncodeError:  # two letters for micro
        return {"\u03bc": "\u00b5", "\u00b5": "\u03bc"}.get(letter, letter).encode(encoding)


def _with(row: Row, changes: Dict[int, bytes]) -> Row:
    """A record with other fields, by the standard's numbers; the letter is field 1."""
    if not changes:
        return row
    field = _marks(row)[0]
    cells = row.text.split(field)
    cells += [b""] * (max(changes) - len(cells))
    for number, data in changes.items():
        cells[number - 1] = data
    return _row(row.letter, field.join(cells), row)


def _row(letter: str, text: bytes, like: Row) -> Row:
    """A record under the delimiters of another one."""
    return Row(letter, text, marks_of(like.delimiters), text.count(like.delimiters[:1]), None)


def _test(row: Row, code: str, one: Stored) -> bytes:
    """The field of a test with another code in place of the manufacturer's, or only that code."""
    component = _marks(row)[2]
    parts = row.written(3).split(component)
    if len(parts) < 4 or not parts[3]:
        return component * 3 + _bytes(code, row, one)
    return component.join([*parts[:3], _bytes(code, row, one), *parts[4:]])


def _comment(row: Row, number: int, why: str, one: Stored) -> Row:
    words = (MARK + why).encode(one.encoding, "replace").decode(one.encoding)
    cells = [b"C", str(number).encode(), b"L", _bytes(words, row, one), b"G"]
    return _row("C", _marks(row)[0].join(cells), row)


def field_and_unit(result: Entry) -> Tuple[str, str]:
    """By what a result is looked up: the components of its test, joined by ^, and its unit."""
    return "^".join(parts_of(result, 3)), content_of(result, 5)


def mark_of(result: Entry) -> str:
    """The mark that the code mapping puts on a result; empty if there is none."""
    texts = [text_of(note, 4) for note in result.notes if note.letter == "C"]
    return "; ".join(text[len(MARK) :] for text in texts if text.startswith(MARK))


def codes_of(path: str) -> Codes:
    """The codes of a file; OptionError with the first fault."""
    read = read_codes(path)
    if read.faults:
        raise OptionError(read.faults[0])
    return Codes(read.codes)


def unknown_of(rows: Sequence[Code], test_of: Callable[[str], str], messages: Iterator[Stored]) -> Dict[str, int]:
    """How many results a table lacks, by their code; with the unit, if it has the code in another one. Which component
    is the test is a setting of each line."""
    found: Dict[str, int] = {}
    tables: Dict[str, Codes] = {}
    for one in messages:
        test = test_of(one.line)
        table = tables.setdefault(test, Codes(rows, test))
        for _, _, entry in message_of(one).results():
            name = table.lacked(one.line, *field_and_unit(entry))
            if name:
                found[name] = found.get(name, 0) + 1
    return found
