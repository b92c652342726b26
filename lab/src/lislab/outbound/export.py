"""`lislab export`: prints messages from a store."""
import contextlib
import datetime
import json
import re
from collections import Counter
from typing import Callable, Dict, Iterator, List, NamedTuple, Optional, Sequence

from lislink.message import Fault, read_all
from ..field import table
from ..model.codes import mark_of
from ..model.failures import Quarantined
from ..model.options import LETTERS
from ..model.results import MARK, Coded, Told, code_of, comments_of, content_of, field_text, identities_of, is_control
from ..model.results import letters_fault, message_of, sample_of
from ..model.store import COMPLETE, INCOMPLETE, INVALID, Store, Stored
from . import fhir, oru
from .oru import Wishes
from .tables import Tables

FORMATS = ("records", "json", "csv", "tsv", "oru", "fhir")
#: What is counted of results that corrections replace.
CORRECTED = "results left out, corrected since"
#: What makes the bytes of a message; of None those at the head of all.
Writer = Callable[[Optional[Stored]], bytes]
#: The columns of a table before those of a result, and after them; the last one of all is `control`, Q for a control.
OWN, LAST = ("number", "line", "received", "again_of"), ("fixed",)
#: A comment of a message.
_COMMENT = re.compile(rb"\r[Cc]")
#: A cell that a program for tables would take for a formula, unless it is a number.
_FORMULA, _NUMBER = re.compile(r"\s*[=+\-@]"), re.compile(r"[+-]?[\d.,]+(?:[eE][+-]?\d+)?$", re.ASCII)


class Wanted(NamedTuple):
    """Which messages to export."""

    states: List[str]
    after: int
    since: Optional[float]
    line: Optional[str]
    repeats: bool


def time_of(word: str) -> float:
    """The time of `2026-11-27`, `2026-11-27T10:30`, or these with a zone; ValueError for anything else."""
    return datetime.datetime.fromisoformat(word.replace("Z", "+00:00")).timestamp()


def time_text(at: Optional[float]) -> str:
    """A time of the clock on the wall, with its zone; empty if there is none."""
    return "" if at is None else datetime.datetime.fromtimestamp(at).astimezone().isoformat(timespec="milliseconds")


def wanted_of(store: Store, wanted: Wanted) -> Iterator[Stored]:
    """The messages to export: complete ones by their numbers, then the others."""
    if COMPLETE in wanted.states:
        for one in store.messages(wanted.after):
            if _is_wanted(one, wanted):
                yield one
    if INCOMPLETE in wanted.states or INVALID in wanted.states:
        for one in store.others():
            if one.state in wanted.states and _is_wanted(one, wanted):
                yield one


def _is_wanted(one: Stored, wanted: Wanted) -> bool:
    at = one.began if one.ended is None else one.ended
    if wanted.since is not None and at < wanted.since:
        return False
    return (wanted.line is None or one.line == wanted.line) and (wanted.repeats or one.again_of is None)


class Form(NamedTuple):
    """How messages are written: in which form, by which code mapping and settings of lines, and as their receiver
    wants it. A table has these columns; its formulas are made harmless; controls go out too, or they alone."""

    form: str
    tables: Optional[Tables] = None
    fields: Sequence[str] = table.USUAL
    safe: bool = False
    controls: str = "with"
    wishes: Optional[Wishes] = None
    #: Whether a table is kept back too, as the forms of HL7 are, if a result has no sample or no test.
    is_strict: bool = True
    #: How many results and orders were left out, and how many messages somebody should look at. A delivery counts these
    #: only once a message is delivered: until then `written` has them, by the keys of the last two messages.
    counts: "Counter[str]" = Counter()
    written: Optional[Dict[str, "Counter[str]"]] = None
    #: The message as it came, if results were left out of what is written.
    whole: Optional[Stored] = None


def writer_of(form: Form) -> Writer:
    """What writes messages in this form. It fails with `Quarantined` for a message that can't be said surely."""
    coded: Callable[[Stored], Coded] = Coded
    if form.tables:
        coded = form.tables.applied
    if form.form == "records":
        return lambda one: b"" if one is None else coded(one).one.body
    if form.form == "json":
        return lambda one: b"" if one is None else (_json(_as_data(coded(one).one)) + "\n").encode()
    return _message_writer(form, coded) if form.form in ("oru", "fhir") else _table_writer(form, coded)


def _json(data: object) -> str:
    return json.dumps(data, ensure_ascii=False)


def _message_writer(form: Form, coded: Callable[[Stored], Coded]) -> Writer:
    """What writes each message by itself in a form of HL7. One that isn't complete, or says nothing of a patient or a
    control, gives nothing."""
    wishes = form.wishes or oru.Wishes()

    def write(one: Optional[Stored]) -> bytes:
        if one is None or one.state != COMPLETE:
            return b""
        told, whole = _told(form, coded(one)), None
        if form.form == "oru":
            return oru.oru_of(told, wishes)
        with contextlib.suppress(Quarantined):
            whole = Told(coded(form.whole)) if form.whole is not None else None
        return fhir.bundle_of(told, wishes, whole)

    return write


def _told(form: Form, coded: Coded) -> Told:
    """A message as its receiver gets it. What is left out is counted."""
    told = Told(coded)
    counts: "Counter[str]" = Counter()
    if form.controls != "with":
        wanted = [one for one in told.cases if one.is_control is (form.controls == "only")]
        counts["orders left out by --controls"] += sum(len(one.orders) for one in told.cases if one not in wanted)
        told.cases = wanted
    counts["results left out by a table"] += coded.left_out
    counts["orders left out, without a result"] += told.orders_left_out
    if form.form in ("csv", "tsv"):  # a table has rows of results alone
        orders = [order for case in told.cases for order in case.orders]
        counts["orders left out, without a result"] += sum(not order.record.results for order in orders)
    else:
        counts[CORRECTED] += told.leave_out_corrected()
    counts["comments left out"] += _comments_left_out(form, coded, told)
    counts["tests twice in an order, with different values"] += told.twice
    counts["messages with letters of another encoding"] += told.has_other_letters
    if form.written is None:
        form.counts.update(counts)
        return told
    form.written[told.one.key] = counts
    for key in list(form.written)[:-2]:
        del form.written[key]
    return told


def _comments_left_out(form: Form, coded: Coded, told: Told) -> int:
    """How many comments of a message as it came don't go out: those on the header, and those on what is left out; in a
    table all, because it has none. Marks of the code mapping don't count."""
    came = form.whole or coded.one._replace(body=coded.came or coded.one.body)
    if not _COMMENT.search(came.body):
        return 0
    message = told.message if came.body == coded.one.body else message_of(came)
    sent = [one for entry in message.entries for one in comments_of(entry)]
    out = [] if form.form in ("csv", "tsv") else told.comments()
    return sum(not one.text.startswith(MARK) for one in sent) - sum(not one.text.startswith(MARK) for one in out)


def _table_writer(form: Form, coded: Callable[[Stored], Coded]) -> Writer:
    """What writes results as rows."""
    more = [table.Column("mark", lambda where: mark_of(where[3]))] if form.tables else []
    control = table.Column("control", lambda where: "Q" if is_control(where[0], where[2]) else "")
    own, last = ([table.Column(name, lambda where: "") for name in names] for names in (OWN, LAST))
    line = table.line_writer(form.form, [*own, *table.columns_of(list(form.fields)), *more, *last, control])

    def rows(one: Optional[Stored]) -> bytes:
        if one is None:
            return line(None).encode()
        message = coded(one)
        if form.is_strict and one.state == COMPLETE:
            _told(form, message)
        columns = [*table.columns_of(list(form.fields), usual=_usual(message)), *more, control]
        own = ["" if one.number is None else str(one.number), one.line, time_text(one.ended), one.again_of or ""]
        found = table.rows_of(message.one.body, columns, message.one.encoding)
        wanted = {"with": ("", "Q"), "without": ("",), "only": ("Q",)}[form.controls]
        told = [row for row, _ in found if row and row[-1] in wanted]
        letters = letters_fault(one.body, message.one.encoding) if message.reading.letters == LETTERS[1] else ""
        for row in told if letters else ():
            row[-2] = "; ".join(filter(None, [row[-2], letters]))  # the mark
        fixed = one.reason if one.state == COMPLETE else ""
        cells = ([*own, *row[:-1], fixed, row[-1]] for row in told)
        return "".join(line(_harmless(row) if form.safe else row) for row in cells).encode()

    return rows


def _usual(coded: Coded) -> Dict[str, Callable[[table.Where], str]]:
    """The usual columns of a table as the forms of HL7 have them: the sample and the test by the settings of the line,
    no patient of a control, no blanks around a text."""

    def patient(where: table.Where) -> str:
        if where[1].letter != "P" or is_control(where[0], where[2]):
            return ""
        return next((one.value for one in identities_of(where[1], coded.reading).values()), "")

    def test(where: table.Where) -> str:
        coding = coded.codings.get((where[3].number, 0))
        return coding.code if coding else code_of(where[3], 3, coded.reading)

    texts = {"value": 4, "unit": 5, "range": 6, "flag": 7, "status": 9}
    return {
        "sample": lambda where: sample_of(where[2], where[1], coded.reading)[0],
        "patient": patient,
        "test": test,
        **{name: _text(field) for name, field in texts.items()},
        "date": lambda where: field_text(where[3], 13) or field_text(where[3], 12),
        "instrument": lambda where: field_text(where[3], 14) or field_text(where[0].header, 5),
    }


def _text(field: int) -> Callable[[table.Where], str]:
    """What makes the cell of a result's field."""
    return lambda where: (content_of if field < 7 else field_text)(where[3], field)


def _harmless(row: List[str]) -> List[str]:
    """Cells of which none is a formula: one that would be has an apostrophe before it."""
    return [f"'{one}" if _FORMULA.match(one) and not _NUMBER.match(one) else one for one in row]


def _as_data(one: Stored) -> "dict[str, object]":
    row: "dict[str, object]" = {
        "number": one.number,
        "key": one.key,
        "line": one.line,
        "peer": one.peer,
        "began": time_text(one.began),
        "received": time_text(one.ended),
        "state": one.state,
        "again_of": one.again_of,
    }
    if one.state == COMPLETE:
        found = [each for each in read_all(one.body, one.encoding) if not isinstance(each, Fault)]
        if one.reason:
            row["fixed"] = one.reason
        row["message"] = found[0].message.to_dict() if found else None
    else:
        row["reason"] = one.reason
        row["records"] = one.body.decode(one.encoding, "replace")
    return row
