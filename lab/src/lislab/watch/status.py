"""`lislab status`: the lines of a host, what its store has, and what isn't delivered yet."""
import json
import time
from typing import Any, Dict, Iterator, List, NamedTuple, Optional

from ..model.book import Failed
from ..model.books import reading_book
from ..model.files import is_locked
from ..model.said import many, shown
from ..model.store import LineCount, Store
from ..outbound import deliver
from ..outbound.quarantine import held_of
from ..outbound.export import time_text

#: A state that was written longer ago than this, in seconds, is old; so many failed orders of a line are named.
OLD, NAMED = 10.0, 20
_COLUMNS = (
    *("line", "connected", "came", "complete", "queries", "again", "fixed", "incomplete", "invalid"),
    *("rejected", "late", "not_stored", "last"),
)


class Waiting(NamedTuple):
    """What a delivery has still to do."""

    cursor: str
    messages: int
    oldest: Optional[float]
    quarantined: List[Dict[str, Any]]
    #: Why nothing goes, as the delivery said last, or because the cursor is of another store; empty if it goes.
    why: str = ""


def read_state(path: Optional[str]) -> Dict[str, Any]:
    """What the host wrote last; nothing if it wrote nothing."""
    try:
        with open(path or "", encoding="utf-8") as file:
            return dict(json.load(file))
    except (OSError, ValueError):
        return {}


def age_of(state: Dict[str, Any]) -> Optional[float]:
    """How many seconds ago the host wrote its state; below 0 if the clock was set back since, None if there is none."""
    return round(time.time() - float(state["at"]), 1) if state else None


def is_fresh(age: Optional[float]) -> bool:
    """Whether a state of this age is current."""
    return age is not None and -OLD < age < OLD


def runs(store: Store, state: Dict[str, Any]) -> bool:
    """Whether the host is running: it has its store. One that lost its connection may not have it for a while, and
    writes its state all the same."""
    if store.is_held(str(state.get("host", ""))):
        return True
    return not store.held_to_the_end and not state.get("stopped") and is_fresh(age_of(state))


def waiting_of(store: Store, path: str, most: int = 1000) -> Waiting:
    """How much a delivery with this cursor has still to do; it counts up to a limit."""
    oldest, count = None, 0
    try:
        for one in store.messages(deliver.checked_number(store, path), most):
            oldest = one.ended if count == 0 else oldest
            count += 1
        why = deliver.read_state(path).why if count or is_locked(path + ".lock") else ""
    except deliver.WrongStore as error:
        why = str(error)
    held = [{"key": one.key, "number": one.number, "tries": one.tries, "why": one.why} for one in held_of(path)]
    return Waiting(path, count, oldest, held, why)


def rows_of(store: Store, state: Dict[str, Any]) -> List[Dict[str, Any]]:
    """A row for each line that is known."""
    kept = {one.line: one for one in store.counts()}
    live: Dict[str, Any] = state.get("lines", {})
    rows = []
    for name in sorted({*kept, *live}):
        now, one = live.get(name, {}), kept.get(name, LineCount(name, 0, 0, 0, 0, 0, None))
        row: Dict[str, Any] = {
            one: now.get(one, 0)
            for one in ("connected", "queries", "found_nothing", "rejected", "late", "not_stored", "noise")
        }
        row["came"] = now.get("connections", 0)
        row["late"] += now.get("late_replies", 0)
        counts = ("line", "complete", "again", "fixed", "incomplete", "invalid")
        row.update({key: getattr(one, key) for key in counts}, last=time_text(one.last))
        rows.append(row)
    return rows


def data_of(store: Store, state: Dict[str, Any], cursors: List[str]) -> Dict[str, Any]:
    """All of it as data."""
    waiting = [waiting_of(store, path) for path in cursors]
    with reading_book(store) as book:
        orders, failed = book.counts(), book.failed(NAMED)
    return {
        "running": runs(store, state),
        "state_age": age_of(state),
        "since": time_text(state.get("begun")),
        "process": state.get("process"),
        **{key: state.get(key, 0) for key in ("commits", "failed_commits", "refused_connections")},
        "lines": rows_of(store, state),
        **{key: state.get(key, {}) for key in ("would", "unknown_codes", "notices", "not_said")},
        "undelivered": [{**one._asdict(), "oldest": time_text(one.oldest)} for one in waiting],
        "orders": orders,
        "failed_orders": {line: _failed_of(one) for line, one in failed.items()},
    }


def _failed_of(found: Failed) -> Dict[str, Any]:
    """The orders of a line that have failed, as data. The names of patients stay in the store."""
    newest = []
    for one in found.newest:
        about = {"number": one.number, "sample": one.order.sample, "tests": one.order.tests, "reason": one.reason}
        newest.append({**about, "tries": one.tries, "at": time_text(one.changed)})
    return {"count": found.many, "newest": newest}


def _old(age: Optional[float]) -> str:
    """The remark on a state that isn't current."""
    if age is None:
        return "; there is no state that it wrote"
    where = "old" if age > 0 else "ahead of the clock"
    return f"; its state is {abs(age):.0f} seconds {where}"


def text_of(data: Dict[str, Any]) -> str:
    """The same for a reader."""
    if data["running"]:
        head = (
            f"the host has been running since {data['since']}, process {data['process']}: "
            f"{many(data['commits'], 'commit')}, {data['failed_commits']} failed; "
            f"{many(data['refused_connections'], 'connection')} turned away"
        )
        head = head if is_fresh(data["state_age"]) else f"the host is running{_old(data['state_age'])}"
    else:
        head = "the host isn't running"
    cells = [list(_COLUMNS)] + [[str(row[one]) for one in _COLUMNS] for row in data["lines"]]
    widths = [max(len(row[place]) for row in cells) for place in range(len(_COLUMNS))]
    rows = ["  ".join(cell.ljust(width) for cell, width in zip(row, widths)).rstrip() for row in cells]
    for one in data["undelivered"]:
        oldest = f", the oldest of {one['oldest']}" if one["messages"] else ""
        held = f"; {len(one['quarantined'])} in quarantine" if one["quarantined"] else ""
        why = f"; {one['why']}" if one["why"] else ""
        left = f"{one['cursor']}: {many(one['messages'], 'message')} not delivered{oldest}{held}{why}"
        rows.append(left if one["messages"] else one["why"] or left)
        for each in one["quarantined"]:
            rows += [f"  {each['key']} failed {many(each['tries'], 'time')}: {each['why']}"] if each["tries"] else []
    for name, settings in sorted(data["would"].items()):
        rows += [
            f"{name}: {setting} would deliver {many(count, 'message')}" for setting, count in sorted(settings.items())
        ]
    for name, codes in sorted(data["unknown_codes"].items()):
        lacking = ", ".join(f"{code} {count}" for code, count in codes.items())
        rows.append(f"{name}: codes that its code mapping lacks: {lacking}")
    for name, kinds in sorted(data["not_said"].items()):
        counts = ", ".join(f"{count} of kind {kind}" for kind, count in sorted(kinds.items()))
        rows.append(f"{name}: suppressed events: {counts}")
    return "".join(shown(row) + "\n" for row in [head, *rows, *_order_rows(data)])


def _order_rows(data: Dict[str, Any]) -> Iterator[str]:
    """How many orders are in each state, and the last ones of each line that have failed."""
    if data["orders"]:
        yield "orders: " + ", ".join(f"{count} {state}" for state, count in data["orders"].items())
    for name, found in data["failed_orders"].items():
        for one in found["newest"]:
            yield f"  {_failed_row(name, one)}"
        others = found["count"] - len(found["newest"])
        if others:
            yield f"  and {others} more of {name}: lislab order list --state failed"


def _failed_row(line: str, one: Dict[str, Any]) -> str:
    at = one["at"][:19].replace("T", " ")
    return f"order {one['number']} {one['sample']} {line} failed {at} {one['reason']}, tried {one['tries']}"
