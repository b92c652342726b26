"""The codes that a line's code mapping lacks: the results of its complete messages are looked up as a delivery looks
them up."""
import contextlib
from collections import Counter
from typing import Callable, Dict, Optional, Tuple

from lislink.message import Entry
from lislink.records import MessageError, Reader
from lislink.rows import Row
from ..diagnosis.events import MessageEnded, Sees
from ..diagnosis.notices import CODES
from ..model.codes import Codes, field_and_unit
from ..model.store import COMPLETE

#: So many codes are counted one by one, of a line and of a message; so many of a message are named; a code is shown up
#: to so many characters.
MOST, NAMED, SHOWN = 50, 5, 20
#: The field of a test and a unit as they came. Codes over the most are one.
Pair = Tuple[str, str]
_OTHERS: Pair = ("other codes", "")


class Unknown:
    """What the table of a line lacks, since the host started."""

    def __init__(self, line: str) -> None:
        self._line = line
        self.table: Optional[Codes] = None
        #: How many results there were of each.
        self._counts: "Counter[Pair]" = Counter()
        #: Those of messages that aren't known to be kept, by the messages' keys.
        self._ending: "Dict[str, Counter[Pair]]" = {}

    def take(self, table: Optional[Codes]) -> bool:
        """Takes another table: what it has isn't lacking any more. Whether it isn't as the one before."""
        is_other = (table and (table.rows, table.reading)) != (self.table and (self.table.rows, self.table.reading))
        self.table = table
        if is_other:
            self._counts = Counter({one: count for one, count in self._counts.items() if self._lacked(one)})
        return is_other

    def _lacked(self, pair: Pair) -> str:
        table = self.table  # another thread may take another one
        return "" if table is None or pair is _OTHERS else table.lacked(self._line, *pair)

    def look(self, key: str, row: Row, encoding: str) -> None:
        """Looks a record of a message up, if it is a result."""
        if row.letter != "R":
            return
        try:
            pair = field_and_unit(Entry(row, 0, encoding))
            if self._lacked(pair):
                _add(self._ending.setdefault(key, Counter()), pair, 1)
        except Exception:  # no reason to lose the message: a delivery reports what is wrong with it
            return

    def look_at_all(self, key: str, body: bytes, encoding: str) -> None:
        """The same of all records of a message that can be read."""
        if self.table is None:
            return
        with Reader() as reader, contextlib.suppress(MessageError):
            for row in reader.feed(body):
                self.look(key, row, encoding)

    def ended(self, key: str, is_whole: bool) -> Tuple[int, str]:
        """A message ended. Returns how many results of a complete message have codes that the mapping lacks, and which
        codes."""
        found = self._ending.pop(key, None)
        if not found or not is_whole:
            return 0, ""
        for pair, count in found.items():
            _add(self._counts, pair, count)
        names = [f"{name} {count}" for name, count in self._names(found).items()]
        more = f", and {len(names) - NAMED} others" if len(names) > NAMED else ""
        return sum(found.values()), ", ".join(names[:NAMED]) + more

    def sees(self, counts: "Counter[str]", say: Callable[[str, str], None]) -> Sees:
        """Counts and logs the codes that the mapping lacks when a message of the line ends."""

        def see(ended: MessageEnded) -> None:
            count, names = self.ended(ended.end.key, ended.end.state == COMPLETE)
            if count:
                counts["unknown_codes"] += count
                say(f"message {ended.end.key} has codes that the line's code mapping lacks: {names}", CODES)

        return {MessageEnded: see}

    def names(self) -> Dict[str, int]:
        """How many results there were of each code that the table lacks, the most first."""
        return self._names(self._counts)

    def _names(self, found: "Counter[Pair]") -> Dict[str, int]:
        named: "Counter[str]" = Counter()
        for pair, count in found.items():
            named[_shown(self._lacked(pair) or pair[0])] += count
        return dict(named.most_common())


def _add(found: "Counter[Pair]", pair: Pair, count: int) -> None:
    found[pair if pair in found or len(found) < MOST else _OTHERS] += count


def _shown(name: str) -> str:
    """A code as the log prints it."""
    return "".join(one if one.isprintable() else "?" for one in name[:SHOWN]) + (".." if len(name) > SHOWN else "")
