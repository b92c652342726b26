"""The lines file: one section per line, as configparser reads it. Each fault has its row and the right form."""
import configparser
import os
import re
from typing import Any, Callable, Dict, Iterator, List, NamedTuple, Sequence, Tuple

from . import options, renamed
from .asks import told
from .codes import Codes, Read, read_codes
from .options import Connect, Listen, Network, OptionError, Place, Serial

_HEAD = re.compile(r"\[.+\]")
#: Where a line is: the key that says so, what reads it, and the settings that it may have.
_WHERE: Dict[str, Tuple[Callable[[str], Any], Tuple[str, ...]]] = {
    "listen": (options.split_address, ("allow", *options.TCP_WORDS, *options.OF_FILES)),
    "connect": (options.split_peer, (*options.TCP_WORDS, *options.OF_FILES)),
    "serial": (options.split_device, (*options.SERIAL_WORDS, *options.OF_FILES)),
}


class LinesError(OptionError):
    """A file of lines has faults."""


class Lines(NamedTuple):
    """The lines of a file. Its faults, and those of its code mappings, each begin with the file and the row. The
    tables by the lines' names, and the files that they are in."""

    places: List[Place]
    faults: List[str]
    tables: Dict[str, Codes]
    tables_at: List[str]


class _Section(configparser.RawConfigParser):
    """Rows of a file that begin with a section's head, and the row of each key."""

    def __init__(self, first: int, rows: Sequence[str]) -> None:
        super().__init__(delimiters=("=",), interpolation=None, default_section="", empty_lines_in_values=False)
        self.rows: Dict[str, int] = {}
        self._row = first
        self.read_file(self._counted(first, rows))

    def _counted(self, first: int, rows: Sequence[str]) -> Iterator[str]:
        for self._row, row in enumerate(rows, first):
            yield row

    def optionxform(self, optionstr: str) -> str:
        """A key by its present name. configparser asks for it as soon as it has read the key's row."""
        key = renamed.key_of(optionstr)
        self.rows.setdefault(key, self._row)
        return key


class _File:
    """A file that is read."""

    def __init__(self, path: str, networks: Sequence[Network]) -> None:
        self._path, self._networks = path, networks
        self.places: List[Place] = []
        #: The faults: the row of each, or the row that names a code mapping with a fault, and the text.
        self._faults: List[Tuple[int, str]] = []
        #: The code mappings that lines name, by their files.
        self._tables: Dict[str, Read] = {}
        #: The row of each name, and of each port or device.
        self._names: Dict[str, int] = {}
        self._at: Dict[Any, int] = {}

    def found(self) -> Lines:
        """What was found, the faults in the order of their rows."""
        tables = {one.name: Codes(self._tables[one.codes].codes, one.test) for one in self.places if one.codes}
        faults = [text for _, text in sorted(self._faults, key=lambda one: one[0])]
        return Lines(self.places, faults, tables, list(self._tables))

    def fault(self, row: int, text: str) -> None:
        """A fault in this row."""
        self._faults.append((row, f"{self._path}:{row}: {' '.join(text.split())}"))

    def read(self, data: bytes) -> None:
        """Reads each section by itself, so that a fault in one hides none in another."""
        try:
            rows = data.decode("utf-8-sig").splitlines()
        except UnicodeDecodeError as error:
            self.fault(data.count(b"\n", 0, error.start) + 1, "a lines file is written in UTF-8")
            return
        heads = [place for place, row in enumerate(rows) if _HEAD.match(row)]
        for first, over in zip([0, *heads], [*heads, len(rows)]):
            self._read_section(first + 1, rows[first:over])
        if not heads and not self._faults:
            where = "listen or connect = HOST:PORT, or serial = DEVICE:SPEED"
            self.fault(1, f"there is no line: [NAME], and below it {where}")

    def _read_section(self, first: int, rows: Sequence[str]) -> None:
        try:
            section = _Section(first, rows)
        except configparser.MissingSectionHeaderError as error:
            self.fault(first - 1 + error.lineno, "expected a line's name first, for example [chemistry]")
        except configparser.DuplicateOptionError as error:
            self.fault(first - 1 + (error.lineno or 1), f"{error.option} is there twice")
        except configparser.DuplicateSectionError as error:
            self.fault(first - 1 + (error.lineno or 1), f"the name {error.section} is there twice")
        except configparser.ParsingError as error:
            for row, _ in error.errors:
                self.fault(first - 1 + row, "a row is KEY = VALUE, [NAME], or a comment after #")
        else:
            for name in section.sections():
                self._take(name.strip(), first, section, dict(section.items(name)))

    def _take(self, name: str, first: int, section: _Section, given: Dict[str, str]) -> None:
        """A section that could be read: a line, or faults."""
        before = len(self._faults)
        if not name:
            self.fault(first, "expected the name of a line, for example [chemistry]")
        self._once(self._names, name, first, f"the name {name}")
        found = [key for key in _WHERE if key in given]
        if len(found) != 1:
            self.fault(first, f"{name} has {' and '.join(found) or 'no place'}: it is at one listen, connect or serial")
            return
        kind = found[0]
        where, values = self._values(kind, section, given)
        is_coded = "codes" not in values or not self._tables[values["codes"]].faults
        if len(self._faults) > before or not is_coded:
            return
        place = _place_of(kind, where, name, values)
        self._check(place, section.rows[kind])
        if len(self._faults) == before:
            self.places.append(place)

    def _values(self, kind: str, section: _Section, given: Dict[str, str]) -> Tuple[Any, Dict[str, Any]]:
        """Where a line is, and its settings."""
        split, known = _WHERE[kind]
        where, values = None, {}  # type: Any, Dict[str, Any]
        for key, word in given.items():
            try:
                if key not in ("allow", "fix") and "\n" in word:
                    raise OptionError(f"{key} has one word; a row that begins with a space belongs to the row above it")
                if key == kind:
                    where = split(word)
                elif key == "codes":
                    values[key] = self._table(word, section.rows[key])
                elif key in known:
                    values[key] = options.read_setting(key, word)
                else:
                    raise OptionError(f"there is no setting {key}: a line with {kind} has {', '.join(known)}")
            except OptionError as error:
                self.fault(section.rows[key], str(error))
        return where, values

    def _table(self, word: str, row: int) -> str:
        """The path of a code mapping, which is relative to the lines file. The mapping is read once."""
        path = os.path.join(os.path.dirname(self._path), word)
        if path not in self._tables:
            try:
                self._tables[path] = read_codes(path)
            except OSError as error:
                why = f"{self._path}:{row}: {path}: {error.strerror}: codes names the file of a test code mapping"
                self._tables[path] = Read([], [why])
            self._faults += [(row, fault) for fault in self._tables[path].faults]
        return path

    def _check(self, place: Place, row: int) -> None:
        try:
            options.check_settings(place)
        except OptionError as error:
            self.fault(row, str(error))
        if isinstance(place, Serial):
            self._once(self._at, place.device, row, f"the device {place.device}")
            return
        try:
            options.check_allowed([place] if isinstance(place, Listen) else [], self._networks)
        except OptionError as error:
            self.fault(row, f"{error}, or here by allow")
        if place.port:  # one that is chosen is another for each
            self._once(self._at, (place.host, place.port), row, f"the port {place.host}:{place.port}")

    def _once(self, known: Dict[Any, int], one: Any, row: int, what: str) -> None:
        if one in known:
            self.fault(row, f"{what} is in row {known[one]} too: each line has its own")
        known.setdefault(one, row)


def _place_of(kind: str, where: Any, name: str, values: Dict[str, Any]) -> Place:
    kinds: Dict[str, Callable[..., Place]] = {"listen": Listen, "connect": Connect, "serial": Serial}
    return kinds[kind](*where, name, **options.gathered(values))


def read_lines(path: str, networks: Sequence[Network]) -> Lines:
    """The lines of a file; these networks may connect to all of them. OSError if it can't be read."""
    one = _File(path, networks)
    with open(path, "rb") as file:
        one.read(file.read())
    return one.found()


def lines_of(path: str, networks: Sequence[Network]) -> Lines:
    """The lines of a file; LinesError if it has faults."""
    found = read_lines(path, networks)
    if found.faults:
        raise LinesError("\n".join(found.faults))
    return found


def text_of(place: Place) -> str:
    """A line and its settings in a row, as a file of lines has them."""
    if isinstance(place, Serial):
        where = f"serial={place.device}:{place.speed}"
    else:
        kind = "listen" if isinstance(place, Listen) else "connect"
        host = f"[{place.host}]" if ":" in place.host else place.host
        where = f"{kind}={host}:{place.port}"
    given = place._asdict()
    shown = [key for key in options.READS if given.get(key) and (key != "none" or place.orders)]
    words = {**{key: _word(given[key]) for key in shown}, **told(place.asks)}
    return f"{place.name}: {where} " + " ".join(f"{key}={word}" for key, word in words.items())


def _word(value: Any) -> str:
    return ",".join(map(str, value)) if isinstance(value, tuple) else str(value)
