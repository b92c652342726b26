"""What a store has, for a page: messages over time of each line, how long they took, and single messages. A thread
counts each message once, from its number on, so that no page waits for a store that is large."""
import contextlib
import threading
import time
from collections import Counter, deque
from typing import Any, Callable, Deque, Dict, List, Optional, Sequence, Tuple

from ..model.store import Head, Store, StoreError
from ..model.stores import open_store
from ..outbound.deliver import checked_number

#: What is counted: the messages of so many days; how many are read at once; how often new ones are looked for, in
#: seconds; how many of the last ones say how long they take.
DAYS, AT_ONCE, EVERY, TIMED = 31, 5000, 2.0, 5000
#: The seconds of a span in which messages are counted, a quarter of an hour, as zones differ; and of a day.
SPAN, DAY = 900, 86400


def undelivered(store: Store, cursor: str) -> int:
    """How many messages a delivery with this cursor has still to do; WrongStore if it is of another store."""
    return store.count_after(checked_number(store, cursor))


class Tally:
    """Messages over the last month of each line, and how long the last ones took to be kept."""

    def __init__(self, where: str) -> None:
        self._where, self._lock = where, threading.Lock()
        #: Messages by their span, of each line and of all.
        self._lines: "Dict[str, Counter[int]]" = {}
        self._all: "Counter[int]" = Counter()
        self._took: Dict[str, Deque[float]] = {}
        self._last: Dict[str, float] = {}
        self._number = -1
        #: Why the store can't be read, if it can't.
        self.why = ""

    def start(self) -> None:
        """Counts from now on."""
        threading.Thread(target=self._run, name="tally", daemon=True).start()

    def _run(self) -> None:
        while True:
            try:
                self.count()
                self.why = ""
            except (StoreError, OSError, ValueError) as error:
                self.why = str(error)
            time.sleep(EVERY)

    def count(self) -> None:
        """Counts what is new in the store."""
        with contextlib.closing(open_store(self._where)) as store:
            if self._number < 0:
                self._number = store.number_at(time.time() - DAYS * DAY)
            while found := store.heads(self._number, AT_ONCE):
                self._take(found)
        self._forget(time.time() - DAYS * DAY)

    def _take(self, found: Sequence[Head]) -> None:
        with self._lock:
            for one in found:
                ended = one.began if one.ended is None else one.ended
                span = int(ended // SPAN)
                self._last[one.line] = max(ended, self._last.get(one.line, 0.0))
                self._lines.setdefault(one.line, Counter())[span] += 1
                self._all[span] += 1
                self._took.setdefault(one.line, deque(maxlen=TIMED)).append(max(0.0, ended - one.began))
        self._number = found[-1].number or self._number

    def _forget(self, before: float) -> None:
        with self._lock:
            for counts in [self._all, *self._lines.values()]:
                for span in [one for one in counts if one < before // SPAN]:
                    del counts[span]

    def counts(self, line: Optional[str] = None) -> List[Tuple[float, int]]:
        """When the spans of a line, or of all, began, and how many messages were kept in each."""
        with self._lock:
            counts = self._all if line is None else self._lines.get(line, Counter())
            return [(span * SPAN, count) for span, count in counts.items()]

    def last(self, line: str) -> Optional[float]:
        """When the last message of a line was kept, among those that are counted."""
        return self._last.get(line)

    def took(self, line: str) -> List[float]:
        """How long the last messages of a line took from their first byte to the last, in order of length."""
        with self._lock:
            return sorted(self._took.get(line, ()))


def share(found: Sequence[float], part: float) -> Optional[float]:
    """The value that this part of all is at most; None of none."""
    return found[min(int(len(found) * part), len(found) - 1)] if found else None


def each(where: str, work: Callable[[Store], Any]) -> Any:
    """Does some work with a store that is opened for it."""
    with contextlib.closing(open_store(where)) as store:
        return work(store)
