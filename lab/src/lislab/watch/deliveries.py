"""The state of deliveries: whether one goes on, since when nothing goes and why, how many messages wait, and how many
are in quarantine. A delivery is known by its cursor."""
import os
import time
from typing import Any, Dict, Sequence

from ..diagnosis.pulse import clock
from ..model.files import is_locked
from ..model.said import counted, many
from ..model.store import Store, StoreError
from ..outbound.quarantine import held_of
from ..outbound.deliver import WrongStore, read_cursor, read_state
from .tally import undelivered

#: So many seconds a message may wait for a delivery that isn't running, before this is bad.
PATIENCE = 60.0
#: The verdict on a delivery that fails, isn't running, has a quarantine, or delivers.
FAILS, DOWN, QUARANTINED, GOOD = "delivery-fails", "delivery-down", "quarantined", "delivers"


def deliveries_of(store: Store, cursors: Sequence[str]) -> Dict[str, Dict[str, Any]]:
    """A row for each delivery, and one for its quarantine, in the form of the rows of lines."""
    rows: Dict[str, Dict[str, Any]] = {}
    for path in cursors:
        name = f"delivery {os.path.basename(path)}"
        try:
            rows[name] = _delivery(store, path)
            held = held_of(path)
        except (StoreError, WrongStore, OSError) as error:
            rows[name] = _row("bad", FAILS, time.time(), str(error), 0)
            continue
        if held:
            first = held[0]
            text = f"{many(len(held), 'message')} in quarantine; message {first.number}: {first.why}"
            rows[f"{name}: quarantine"] = _row("bad", QUARANTINED, first.at, text, len(held))
    return rows


def _row(state: str, verdict: str, since: float, says: str, waiting: int) -> Dict[str, Any]:
    return {"state": state, "verdict": verdict, "since": since, "says": says, "waiting": waiting, "advice": ""}


def _delivery(store: Store, path: str) -> Dict[str, Any]:
    waiting, found = undelivered(store, path), read_state(path)
    wait = f"; {many(waiting, 'message')} not delivered" if waiting else ""
    is_running = is_locked(path + ".lock")
    if is_running and found.why:
        return _row("bad", FAILS, found.since, f"nothing goes since {clock(found.since)}: {found.why}{wait}", waiting)
    if not is_running and waiting:
        first = next(iter(store.messages(read_cursor(path)[0], 1)), None)
        since = time.time() if first is None else first.ended or first.began
        why = f": {found.why}" if found.why else ""
        state = "bad" if time.time() - since > PATIENCE else "quiet"
        return _row(state, DOWN, since, f"the delivery isn't running{why}{wait}", waiting)
    more = "".join(f"; {one}" for one in counted(found.counts))
    says = f"all is delivered{more}" if not waiting else f"it goes on{wait}{more}"
    return _row("good" if is_running else "quiet", GOOD, found.since, says, waiting)
