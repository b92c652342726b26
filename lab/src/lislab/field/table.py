"""Results as a table (CSV, TSV or JSON lines), from messages that the proved reader reads."""
import csv
import io
import json
import re
from typing import Any, Callable, Dict, Iterator, List, NamedTuple, Optional, Tuple

from lislink.message import NAMES, Entry, Fault, Message, read_all
from lislink.rows import Row
from lislink.shown import as_parts, as_text, component_text
from ..diagnosis.faults import code_of
from ..model.said import many
from .looks import rejected_at

#: The forms of a table.
FORMS = ("csv", "tsv", "json")
#: The columns that a table has if none are named.
USUAL = ("sample", "patient", "test", "value", "unit", "range", "flag", "status", "date", "instrument")
#: Those of a table of orders.
OF_ORDERS = ("sample", "patient", "tests", "priority", "collected", "requested", "action", "report")
#: Those of both that are a field as it is.
_PLACES = {
    **{"value": "R.4", "unit": "R.5", "range": "R.6", "flag": "R.7", "status": "R.9", "tests": "O.5", "priority": "O.6"},
    **{"collected": "O.8", "requested": "O.7", "action": "O.12", "report": "O.26"},
}
#: A message, a patient, an order and a result; in a table of orders the order is in the result's place.
Where = Tuple[Message, Entry, Entry, Entry]


class TableError(Exception):
    """A column can't be made."""


class Column(NamedTuple):
    """A column: its name, and its cell for a result in its message: a text, or a list of its parts."""

    name: str
    text: Callable[[Where], Any]


#: What makes a cell of a field, and of a component of one.
Field = Callable[[Entry, int], Any]
Component = Callable[[Entry, int, int], str]


def columns_of(
    names: List[str],
    sample_from: int = 3,
    nested: bool = False,
    orders: bool = False,
    usual: "Optional[Dict[str, Callable[[Where], Any]]]" = None,
) -> List[Column]:
    """Columns by their names: those of USUAL, `R.4`, `O.3`, `P.6`, `H.5`, `R.3.4` (a component, from 1), the standard's
    names such as `result.operator`, and each with a heading of its own before `=`. Nested ones have lists where a field
    has components or repeats. A table of orders has those of OF_ORDERS, and none of results. `usual` says how some of
    the usual ones are made."""
    whole: Callable[[Row, int, str], Any] = as_parts if nested else as_text

    def field(entry: Entry, number: int) -> Any:
        return whole(entry.row, number, entry.encoding)

    def part(entry: Entry, number: int, component: int) -> str:
        return component_text(entry.row, number, component, entry.encoding, not nested)

    known: Dict[str, Callable[[Where], Any]] = {
        "sample": lambda where: field(where[2], sample_from),
        "patient": lambda where: _patient(where[1], field),
        "test": lambda where: part(where[3], 3, 3) or field(where[3], 3),  # the maker's code, else the whole field
        "date": lambda where: field(where[3], 13) or field(where[3], 12),
        "instrument": lambda where: field(where[3], 14) or field(where[0].header, 5),
        **{name: _of_field(place, field, part) for name, place in _PLACES.items()},
    }
    known.update(usual or {})
    if orders:
        known = {name: known[name] for name in OF_ORDERS}
    told = []
    for name in names:
        heading, _, source = name.rpartition("=")
        if source in known:
            told.append(Column(heading or source, known[source]))
        else:
            if orders and source[:2] in ("R.", "re"):
                raise TableError(f"{source}: an order has no result")
            told.append(Column(heading or source, _of_field(source, field, part)))
    return told


def _patient(above: Entry, field: Field) -> Any:
    """The patient's first identity; none of a query."""
    texts = (field(above, one) for one in (3, 4, 5)) if above.letter == "P" else ()
    return next((text for text in texts if text), "")


def _of_field(source: str, field: Field, component: Component) -> Callable[[Where], Any]:
    places = {"H": 0, "P": 1, "O": 2, "R": 3}
    numbered = re.match(r"([HPOR])\.(\d+)(?:\.(\d+))?$", source)
    named = re.match(r"(header|patient|order|result)\.(\w+)$", source)
    if numbered:
        letter, number, part = numbered[1], int(numbered[2]), int(numbered[3] or 0)
    elif named:
        letter, part = {"header": "H", "patient": "P", "order": "O", "result": "R"}[named[1]], 0
        known = {name: number for number, name in NAMES[letter].items()}
        if named[2] not in known:
            raise TableError(f"{named[1]} has no {named[2]}: it has " + ", ".join(known))
        number = known[named[2]]
    else:
        raise TableError(f"there is no column {source}: {', '.join(USUAL)}, R.4, R.3.4 or result.value")

    def text(where: Where) -> Any:
        entry = where[0].header if letter == "H" else where[places[letter]]
        assert isinstance(entry, Entry)
        return component(entry, number, part - 1) if part else field(entry, number)

    return text


def rows_of(
    stream: bytes, columns: List[Column], encoding: str, orders: bool = False
) -> Iterator["Tuple[Optional[List[Any]], str]"]:
    """A row for each result, or for each order; None and why for a message that can't be read, of which no result is
    given."""
    number, (letter, what) = 0, ("O", "order") if orders else ("R", "result")
    for one in read_all(stream, encoding):
        number += 1
        if isinstance(one, Fault):
            _, cause = rejected_at(stream, one)
            lost = sum(row.letter == letter for row in one.rows)
            more = "; " + many(lost, f"{what} before it isn't told", f"{what}s before it aren't told") if lost else ""
            why = f"record {one.error.number} is rejected ({code_of(one.error)}): {cause.words}"
            yield None, f"message {number}: {why}{more}"
            continue
        for where in _orders(one.message) if orders else one.message.results():
            yield [column.text((one.message, *where)) for column in columns], ""


def _orders(message: Message) -> Iterator[Tuple[Entry, Entry, Entry]]:
    for patient in message.entries:
        if patient.letter in "PQ":
            for order in patient.orders:
                yield patient, order, order


def line_writer(form: str, columns: List[Column]) -> Callable[[Optional[List[Any]]], str]:
    """What makes a line of a row, in CSV, TSV or JSON lines; of None it makes the line with the names."""
    names = [column.name for column in columns]

    def as_csv(row: Optional[List[Any]]) -> str:
        out = io.StringIO()
        csv.writer(out, lineterminator="\n").writerow(names if row is None else row)
        return out.getvalue()

    def as_tsv(row: Optional[List[Any]]) -> str:
        cells = (
            cell.replace("\\", "\\\\").replace("\t", "\\t").replace("\n", "\\n").replace("\r", "\\r")
            for cell in (names if row is None else row)
        )
        return "\t".join(cells) + "\n"

    def as_json(row: Optional[List[Any]]) -> str:
        return "" if row is None else json.dumps(dict(zip(names, row)), ensure_ascii=False) + "\n"

    return dict(zip(FORMS, (as_csv, as_tsv, as_json)))[form]


def form_of(name: str) -> str:
    """The name of a form; `jsonl` is another one of `json`, which is JSON lines."""
    return "json" if name == "jsonl" else name
