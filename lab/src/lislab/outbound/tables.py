"""How messages are delivered: by the settings and the code mapping of each line, from a lines file, and by a mapping
for all other lines. A delivery that goes on reads them again when they changed."""
import os
from typing import Callable, Dict, List, NamedTuple, Optional, Sequence, Tuple

from ..model.codes import Codes, read_codes
from ..model.lines import LinesError, read_lines
from ..model.options import ANY, OptionError
from ..model.results import Coded, Reading, in_its_letters
from ..model.store import COMPLETE, Stored


class _Read(NamedTuple):
    """The tables of lines and how their records are read, by the lines' names, and the table of all others."""

    lines: Dict[str, Codes]
    readings: Dict[str, Reading]
    others: Optional[Codes]


class Tables:
    """The tables of a file of codes and of a file of lines, each of which may be left out. With `say` they are read
    again when a file changed. If one has a fault then, that is logged, and they stay as they were."""

    def __init__(self, codes: Optional[str], lines: Optional[str], say: Optional[Callable[[str], None]] = None) -> None:
        self._codes, self._lines, self._say = codes, lines, say
        #: The files that are looked at, and what they were like before they were read last.
        self._paths = [path for path in (codes, lines) if path]
        self._states: List[Optional[Tuple[int, ...]]] = []
        self._read = self._read_all()

    def _read_all(self) -> _Read:
        """OptionError with the faults."""
        while True:
            self._states = _states_of(self._paths)
            found = read_lines(self._lines, ANY) if self._lines else None
            paths = [path for path in (self._codes, self._lines, *(found.tables_at if found else ())) if path]
            if paths == self._paths:
                break
            self._paths = paths  # what is new was read before it was looked at
        if found and found.faults:
            raise LinesError("\n".join(found.faults))
        places = found.places if found else []
        readings = {one.name: Reading(*(getattr(one, name) for name in Reading._fields)) for one in places}
        tables = dict(found.tables) if found else {}
        if not self._codes:
            return _Read(tables, readings, None)
        others = read_codes(self._codes)
        if others.faults:
            raise OptionError(others.faults[0])
        for name, reading in readings.items():
            tables.setdefault(name, Codes(others.codes, reading.test))
        return _Read(tables, readings, Codes(others.codes))

    def _look(self) -> None:
        """Reads them again if a file changed."""
        if self._say is None or _states_of(self._paths) == self._states:
            return
        try:
            self._read = self._read_all()
            self._say("the code mappings are read again")
        except (OptionError, OSError) as error:
            for row in str(error).splitlines():
                self._say(row)
            self._say("the code mappings stay as they were")

    def reading(self, line: str) -> Reading:
        """How the records of a line are read."""
        self._look()
        return self._read.readings.get(line, Reading())

    def applied(self, one: Stored) -> Coded:
        """A message by the settings and the table of its line; as it is, if that has none or the message isn't
        complete. It fails as `applied` of a table does."""
        reading, table = self.reading(one.line), self._read.lines.get(one.line, self._read.others)
        one = in_its_letters(one, reading)
        return Coded(one, reading) if table is None or one.state != COMPLETE else table.applied(one, reading)


def _states_of(paths: Sequence[str]) -> List[Optional[Tuple[int, ...]]]:
    """What differs once a file has changed; None of one that isn't there."""
    return [_state_of(path) for path in paths]


def _state_of(path: str) -> Optional[Tuple[int, ...]]:
    try:
        found = os.stat(path)
    except OSError:
        return None
    return found.st_mtime_ns, found.st_size, found.st_dev, found.st_ino


def tables_of(
    codes: Optional[str], lines: Optional[str], say: Optional[Callable[[str], None]] = None
) -> Optional[Tables]:
    """The tables of a command's files; None if it names none."""
    return Tables(codes, lines, say) if codes or lines else None
