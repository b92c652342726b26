"""The data of `lislab watch`: from a running host by its socket, otherwise from the store."""
import contextlib
import time
from typing import Any, Dict, List, Optional, Sequence, Tuple

from ..diagnosis.pulse import clock, says, says_failed
from ..diagnosis.ring import Piece, pieces_of
from ..diagnosis.verdicts import Verdict
from ..model.books import reading_book
from ..model.said import many
from ..model.store import LineCount, StoreError
from ..model.stores import open_store
from ..model.unix import WatchError, ask, shown
from .deliveries import FAILS, deliveries_of


class Host:
    """A host that is looked at: its store, and its socket, if it can have one; the cursors of its deliveries."""

    def __init__(self, store: str, socket: Optional[str], cursors: Sequence[str] = ()) -> None:
        self.store, self.socket, self._cursors = store, socket, cursors

    def look(self) -> Dict[str, Any]:
        """How the lines do: as the host says, or as its store has it if no host answers; and how deliveries do."""
        return {**self._look(), "deliveries": self._deliveries()}

    def _deliveries(self) -> Dict[str, Dict[str, Any]]:
        if not self._cursors:
            return {}
        try:
            with contextlib.closing(open_store(self.store)) as store:
                return deliveries_of(store, self._cursors)
        except StoreError as error:
            return {"deliveries": {"state": "bad", "verdict": FAILS, "since": time.time(), "says": str(error)}}

    def _look(self) -> Dict[str, Any]:
        why = "it has no socket: name a file by --status"
        if self.socket is not None:
            try:
                return {**ask(self.socket, ask="lines")[0], "running": True, "why": ""}
            except WatchError as error:
                why = str(error)
        return self._of_store(why)

    def _of_store(self, why: str) -> Dict[str, Any]:
        with contextlib.closing(open_store(self.store)) as store:
            counts, held = {one.line: one for one in store.counts()}, store.is_held()
            with reading_book(store) as book:
                failed = book.failed(1)
        lines = {}
        for name in sorted({*counts, *failed}):
            lines[name] = self._of_line(counts.get(name), f"the host doesn't answer: {why}" if held else "")
            if name in failed:
                lines[name]["says"] += f"; {says_failed(failed[name]).text}"
        return {"running": False, "held": held, "why": why, "at": time.time(), "lines": lines}

    @staticmethod
    def _of_line(kept: Optional[LineCount], why: str) -> Dict[str, Any]:
        """What the store has of a line, or why a host that runs doesn't answer."""
        at = kept.last if kept else None
        last = f", the last one at {clock(at)}" if at else ""
        down = says(Verdict.HOST_DOWN, at or 0.0)
        return {
            "state": "bad",
            "verdict": down.verdict.key,
            "since": down.since,
            "says": why or f"{down.text}; {many(kept.complete if kept else 0, 'complete message')}{last}",
            "advice": down.advice,
            "connected": 0,
            "last": at,
        }

    def ring(self, line: str, after: int = 0) -> Tuple[Dict[str, Any], List[Piece]]:
        """The pieces of a line's ring from this number on, and what its head says. WatchError if there are none."""
        if self.socket is None:
            raise WatchError("the last bytes of a line are in the memory of a host, and it has no socket: see --status")
        head, held = ask(self.socket, ask="ring", line=line, after=after)
        return head, list(pieces_of(held))


def is_bad(data: Dict[str, Any]) -> bool:
    """Whether a line or a delivery is bad, or the host doesn't run."""
    found = [*data["lines"].values(), *data["deliveries"].values()]
    return not data["running"] or any(one["state"] == "bad" for one in found)


def rows_of(data: Dict[str, Any]) -> List[str]:
    """A row for each line and each delivery: its name, its state, and why."""
    found = [*data["lines"].items(), *data["deliveries"].items()]
    width = max((len(shown(name)) for name, _ in found), default=0)
    rows = [f"{shown(name):{width}}  {one['state']:5}  {shown(one['says'])}" for name, one in found]
    if data["running"]:
        return rows or ["no line is known"]
    head = "the host runs, and doesn't answer" if data["held"] else Verdict.HOST_DOWN.live
    return [f"{head}: {shown(data['why'])}" if data["held"] else head, *rows]
