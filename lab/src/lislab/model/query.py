"""What an analyzer asks for: its query records (LIS02-A2, 11), read as the settings of its line say."""
import re
from typing import List, NamedTuple

from lislink.rows import Row
from .asks import Asks
from .book import Wanted

#: Request status codes that take a query back: abort, can't be done (LIS02-A2, 11.13).
_CANCELS = "AX"
_ALL = "ALL"
_DATE = re.compile(r"\d{8}(?:\d{4}(?:\d{2})?)?$")


class Query(NamedTuple):
    """A query: its record, the samples that it asks for, and whether it cancels the last query."""

    row: Row
    wanted: Wanted
    cancels: bool


def query_of(row: Row, encoding: str, asks: Asks = Asks()) -> Query:
    """The query of a record with the letter Q. One that names no sample, as after a barcode that can't be read, asks
    for none."""
    first, last = _samples(row, 3, encoding, asks.sample), _samples(row, 4, encoding, asks.sample)
    cancels = (row.part(13) or b"").decode("latin-1").upper() in (*_CANCELS,)
    named = [one for one in first if one.upper() != _ALL]
    # Of samples that it names, 11.7 and 11.8 say nothing: many analyzers write the time of the query there.
    since, until = _date(row, 7), _date(row, 8)
    if len(named) < len(first):
        return Query(row, Wanted((), "", "", since, until, asks.all), cancels)
    if len(first) == 1 and last and last != first:
        return Query(row, Wanted((), first[0], last[-1], since, until), cancels)
    return Query(row, Wanted(tuple(named)), cancels)


def _date(row: Row, field: int) -> str:
    """When the samples of a query were collected, from or to (11.7, 11.8); empty for anything else."""
    date = (row.part(field) or b"").decode("latin-1")
    return date if _DATE.match(date) else ""


def _samples(row: Row, field: int, encoding: str, component: int) -> List[str]:
    """The samples of a field, one for each repeat that has one, without the blanks around them."""
    found = []
    for repeat in row.field(field):
        parts = [part.decode(encoding, "replace").strip() for part in repeat]
        if component:
            sample = parts[component - 1] if component <= len(parts) else ""
        else:
            sample = parts[1] if len(parts) > 1 and parts[1] else next((part for part in parts if part), "")
        found += [sample] if sample else []
    return found


def echoed(query: Query, asks: Asks, sample: str, encoding: str) -> List[bytes]:
    """What a query's record has in Q-3 next to the sample, as rack and position: the components that its line's answer
    has to have. Only of the repeat that names this sample."""
    for repeat in query.row.field(3):
        if sample in (part.decode(encoding, "replace").strip() for part in repeat):
            return repeat[asks.echo[1] - 1 :]
    return []
