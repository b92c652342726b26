"""What the stores in databases share: the tables and the statements. A text, or a part of a long one, is one row; a
message's bytes are those of its texts in order. So nothing is copied when a message becomes complete."""
import abc
import functools
from typing import Any, ContextManager, Dict, Iterator, List, NamedTuple, Optional, Sequence, Tuple, TypeVar

from .schema import EARLIER_MESSAGES, LATER, ORDERS, SCHEMA, TABLES
from .store import (
    COMPLETE,
    FIXED,
    INCOMPLETE,
    INVALID,
    LEFT,
    LISTED,
    OPEN,
    Add,
    Begin,
    End,
    Head,
    LineCount,
    Store,
    StoreError,
    Stored,
    Unit,
)

#: How many rows one statement puts; among how many messages the last ones of a line are looked for.
ROWS, AMONG = 100, 100_000
#: The table of texts, and its columns.
TEXT = "text (message, place, at, body)"
# In the words of the index of messages that aren't complete.
_OPEN_HOSTS = f"SELECT DISTINCT host FROM message WHERE state <> '{COMPLETE}' AND state = '{OPEN}'"
T = TypeVar("T")
_HEADS = "SELECT number, line, began, ended, state, reason, key, size FROM message"
_COLUMNS = "number, key, line, peer, encoding, began, ended, state, reason, again_of"


def _lots(values: List[T], width: int) -> Iterator[List[T]]:
    """The values of rows of this width in lots, each for one statement."""
    return (values[start : start + ROWS * width] for start in range(0, len(values), ROWS * width))


@functools.lru_cache(maxsize=1024)
def _marks(count: int, width: int) -> str:
    """The signs for so many values, in rows of this width."""
    return ",".join([f"({','.join('?' * width)})"] * (count // width))


@functools.lru_cache(maxsize=1024)
def insert(table: str, count: int, width: int) -> str:
    """A statement that puts rows of so many values into a table: those that aren't there."""
    return f"INSERT INTO {table} VALUES {_marks(count, width)} ON CONFLICT DO NOTHING"


class Rows(NamedTuple):
    """What changes put into the tables: the values of rows of messages and of texts, and the ends of messages."""

    begins: List[Any]
    texts: List[Any]
    ends: List[End]


def rows_of(units: Sequence[Unit], host: str) -> Rows:
    """The rows for the changes of a host."""
    rows = Rows([], [], [])
    begins, texts, ends = rows
    for unit in units:
        for one in unit:
            if isinstance(one, Add):
                texts += one
            elif isinstance(one, Begin):
                begins += (one.key, host, one.line, one.peer, one.encoding, one.at, OPEN)
            else:
                ends.append(one)
    return rows


class SqlStore(Store):
    """A store in a database. A subclass has the connection, and what differs in the words of SQL."""

    #: The type of bytes; what a subclass adds to the table of texts, and to a choice of rows that others may have.
    blob, tail, skip_locked = "BLOB", "", ""
    #: The statements of the step to version 3.
    states: Tuple[str, ...] = ()

    def __init__(self) -> None:
        self.host, self.label = "", "the store"

    @abc.abstractmethod
    def run(self, statement: str, values: Sequence[Any] = ()) -> Any:
        """Runs a statement with `?` for its values: a cursor."""

    @abc.abstractmethod
    def changing(self) -> ContextManager[None]:
        """A transaction: all of it is on the disk when it is over; on a StoreError none of it is."""

    @abc.abstractmethod
    def join(self) -> None:
        """Opens the store to change it while a host may have it too."""

    def commit(self, units: Sequence[Unit]) -> None:
        with self.changing():
            self.apply(rows_of(units, self.host))

    @abc.abstractmethod
    def lock_numbers(self) -> None:
        """Makes the numbering of complete messages this transaction's own until it ends."""

    @abc.abstractmethod
    def has(self, name: str) -> bool:
        """Whether there is a table or an index of this name."""

    def version(self) -> int:
        """The version of the tables; 0 if there are none."""
        found = self.read("SELECT value FROM about WHERE name = 'schema'") if self.has("about") else []
        return int(found[0][0]) if found else 0

    def set_version(self, version: int) -> None:
        """Notes the version of the tables, inside a transaction."""
        words = "INSERT INTO about (name, value) VALUES ('schema', ?) ON CONFLICT (name) DO UPDATE SET value = excluded.value"
        self.run(words, (str(version),))

    def refuse_later(self) -> None:
        """StoreError if the tables are of a later program: it knows what is in them, and this one doesn't."""
        found = self.version()
        if found > SCHEMA:
            self.close()
            later = f"version {found} of the tables, and this program knows version {SCHEMA}"
            raise StoreError(f"{self.label} has {later}: a later lislab made it")

    def read_as_earlier(self) -> None:
        """If the tables are of an earlier program, this connection reads its messages in the words of this one, from a
        view that hides the table."""
        if 0 < self.version() < SCHEMA:
            self.run(f"CREATE TEMPORARY VIEW message AS {EARLIER_MESSAGES} {self.table_of_messages()}")

    @abc.abstractmethod
    def table_of_messages(self) -> str:
        """The table of messages, with the schema that it is in."""

    @abc.abstractmethod
    def is_held_by_another(self) -> bool:
        """Whether a host other than the one of this connection has the store."""

    def make_tables(self) -> None:
        """Upgrades the tables from their version to this program's, step by step, inside a transaction. StoreError if a
        host of an earlier program has them: it couldn't store what it receives any more."""
        found = self.version()
        if 0 < found < SCHEMA and self.is_held_by_another():
            raise StoreError(f"{self.label} is of an earlier lislab, whose host is running: stop that first")
        for version in range(found, SCHEMA):
            self._step(version)
        if found < SCHEMA:
            self.set_version(SCHEMA)

    def _step(self, version: int) -> None:
        """Upgrades the tables from a version to the next one."""
        for statement in (TABLES, ORDERS, self.states)[version]:
            text = statement.replace("{blob}", self.blob)
            self.run(text + (self.tail if "TABLE IF NOT EXISTS text" in text else ""))
        if version == 1:
            known = [str(one[0]) for one in self.run("SELECT * FROM orders LIMIT 0").description]
            for name, kind in LATER.items():
                if name not in known:
                    self.run(f"ALTER TABLE orders ADD COLUMN {name} {kind}")

    def faults(self) -> List[str]:
        """What is wrong with the database, as far as it can say so."""
        return []

    @abc.abstractmethod
    def is_gone(self, host: str) -> bool:
        """Whether no other host runs that has this name; inside the transaction of a start."""

    def take_left(self) -> List[Stored]:
        """What this host, or one that is gone, left open: all of it is this host's now."""
        for (host,) in self.run(_OPEN_HOSTS).fetchall():
            if host != self.host and self.is_gone(host):
                self.run("UPDATE message SET host = ? WHERE state = ? AND host = ?", (self.host, OPEN, host))
        where = f"state <> '{COMPLETE}' AND state = '{OPEN}' AND host = ?"
        rows = self.run(f"SELECT {_COLUMNS} FROM message WHERE {where} ORDER BY began, key", (self.host,)).fetchall()
        return [Stored._make([*row, b""]) for row in rows]

    def body_of(self, key: str) -> bytes:
        rows = self.read("SELECT body FROM text WHERE message = ? ORDER BY place", (key,))
        return b"".join(bytes(row[0]) for row in rows)

    def _left(self) -> Tuple[str, List[str]]:
        """The condition of messages that hosts left open that don't run, and its values."""
        hosts = [row[0] for row in self.read(_OPEN_HOSTS)]
        gone = [host for host in hosts if not self.is_held(host)]
        return f"(state = '{OPEN}' AND host IN ({', '.join('?' * len(gone))}))" if gone else "(1 = 0)", gone

    def apply(self, rows: Rows) -> None:
        """The rows, inside a transaction. What is there already, since a commit was kept whose answer was lost, stays
        as it is. Numbers come last, so that their lock is short."""
        begins, texts, ends = rows
        self._put("message (key, host, line, peer, encoding, began, state)", 7, begins)
        self._put(TEXT, 4, texts)
        if ends:
            self._end([(one, None, None) for one in ends if one.state != COMPLETE])
            self._number([one for one in ends if one.state == COMPLETE])

    def _put(self, table: str, width: int, values: List[Any]) -> None:
        """Puts rows of so many values into a table."""
        for some in _lots(values, width):
            self.run(insert(table, len(some), width), some)

    def _end(self, ends: Sequence[Tuple[End, Optional[str], Optional[int]]]) -> None:
        """Ends messages that are open: each with the first one of its bytes and its number."""
        values: List[Any] = []
        for one, first, number in ends:
            values += (one.key, one.state, one.reason, one.digest, one.size, one.at, first, number)
        for some in _lots(values, 8):
            self.run(
                "UPDATE message SET state = v.column2, reason = v.column3, digest = v.column4,"
                " size = CAST(v.column5 AS BIGINT), ended = CAST(v.column6 AS DOUBLE PRECISION),"
                " again_of = CAST(v.column7 AS TEXT), number = CAST(v.column8 AS BIGINT)"
                f" FROM (VALUES {_marks(len(some), 8)}) AS v WHERE key = v.column1 AND state = '{OPEN}'",
                some,
            )

    def _number(self, ends: Sequence[End]) -> None:
        """Ends complete messages, each with its number and the first one of its bytes. However many they are, few rows
        are read: after each row this thread waits for its turn, as long as the lines are busy."""
        if not ends:
            return
        self.lock_numbers()
        number = int(self.run("SELECT coalesce(max(number), 0) FROM message").fetchone()[0])
        ends = self._not_kept_yet(ends)
        first = self._first_of(sorted({(one.line, one.digest) for one in ends}))
        rows = []
        for number, end in enumerate(ends, number + 1):
            rows.append((end, first.get((end.line, end.digest)), number))
            first.setdefault((end.line, end.digest), end.key)
        self._end(rows)

    def _not_kept_yet(self, ends: Sequence[End]) -> Sequence[End]:
        """Those whose commit wasn't kept before, its answer being lost. StoreError if one isn't open."""
        lots = [(f"key IN {_marks(len(some), len(some))}", some) for some in _lots([one.key for one in ends], 1)]
        words = f"SELECT count(*) FROM message WHERE state = '{OPEN}' AND"
        if sum(int(self.run(f"{words} {which}", keys).fetchone()[0]) for which, keys in lots) == len(ends):
            return ends
        states: Dict[str, str] = {}
        for which, keys in lots:
            states.update(self.run(f"SELECT key, state FROM message WHERE {which}", keys).fetchall())
        for one in ends:
            if states.get(one.key) not in (OPEN, COMPLETE):
                raise StoreError(f"message {one.key} isn't open")
        return [one for one in ends if states[one.key] == OPEN]

    def _first_of(self, pairs: Sequence[Tuple[str, str]]) -> Dict[Tuple[str, str], str]:
        """The first message of each line and digest that is kept, by its key."""
        first: Dict[Tuple[str, str], str] = {}
        for some in _lots([one for pair in pairs for one in pair], 2):
            words = f"SELECT line, digest, key FROM (VALUES {_marks(len(some), 2)}) AS v CROSS JOIN message"
            words += f" WHERE line = v.column1 AND digest = v.column2 AND again_of IS NULL AND state = '{COMPLETE}'"
            first.update({(line, digest): key for line, digest, key in self.run(words, some).fetchall()})
        return first

    def read(self, statement: str, values: Sequence[Any] = ()) -> List[Tuple[Any, ...]]:
        """The rows of a statement that changes nothing."""
        return list(self.run(statement, values).fetchall())

    def messages(self, after: int = 0, limit: Optional[int] = None) -> Iterator[Stored]:
        left = limit
        while left is None or left > 0:
            rows = self.read(
                f"SELECT {_COLUMNS} FROM message WHERE number > ? ORDER BY number LIMIT ?",
                (after, 100 if left is None else min(left, 100)),
            )
            for row in rows:
                yield self._stored(row)
            if not rows:
                return
            after = int(rows[-1][0])
            left = None if left is None else left - len(rows)

    def others(self) -> Iterator[Stored]:
        left, gone = self._left()
        rows = self.read(
            f"SELECT {_COLUMNS} FROM message WHERE state IN (?, ?) OR {left} ORDER BY began, key",
            (INCOMPLETE, INVALID, *gone),
        )
        for row in rows:
            one = self._stored(row)
            yield one._replace(state=INCOMPLETE, reason=LEFT) if one.state == OPEN else one

    def heads(self, after: int, most: int) -> List[Head]:
        rows = self.read(f"{_HEADS} WHERE number > ? ORDER BY number LIMIT ?", (after, most))
        return [Head._make(row) for row in rows]

    def _newest(self) -> int:
        """The number of the last complete message; 0 if there is none."""
        return int(self.read("SELECT coalesce(max(number), 0) FROM message")[0][0])

    def last_heads(self, line: str, most: int = LISTED) -> List[Head]:
        rows = self.read(
            f"{_HEADS} WHERE number > ? AND line = ? ORDER BY number DESC LIMIT ?", (self._newest() - AMONG, line, most)
        )
        return [Head._make(row) for row in rows]

    def not_complete(self, line: Optional[str] = None, most: int = LISTED) -> List[Head]:
        words, values = ("AND line = ?", [line]) if line is not None else ("", [])
        rows = self.read(
            f"{_HEADS} WHERE state <> '{COMPLETE}' AND state IN (?, ?) {words} ORDER BY began DESC LIMIT ?",
            (INCOMPLETE, INVALID, *values, most),
        )
        return [Head._make(row) for row in rows]

    def message(self, key: str) -> Optional[Stored]:
        rows = self.read("SELECT number FROM message WHERE key = ?", (key,))
        if rows and rows[0][0] is not None:
            return next(iter(self.messages(int(rows[0][0]) - 1, 1)), None)
        return next((one for one in (self.others() if rows else ()) if one.key == key), None)

    def count_after(self, number: int) -> int:
        return int(self.read("SELECT count(*) FROM message WHERE number > ?", (number,))[0][0])

    def number_before(self, number: int, count: int) -> int:
        words = "SELECT number FROM message WHERE number <= ? ORDER BY number DESC LIMIT 1 OFFSET ?"
        return int(next(iter(self.read(words, (number, count))), (0,))[0])

    def number_at(self, at: float) -> int:
        """Numbers rise with the time."""
        low, high = 0, self._newest()
        while low < high:
            middle = (low + high) // 2
            rows = self.read("SELECT number, ended FROM message WHERE number > ? ORDER BY number LIMIT 1", (middle,))
            if rows and rows[0][1] < at:
                low = int(rows[0][0])
            else:
                high = middle
        return low

    def _stored(self, row: Tuple[Any, ...]) -> Stored:
        return Stored._make([*row, self.body_of(row[1])])

    def counts(self) -> List[LineCount]:
        left, gone = self._left()
        plain = f"AND substr(reason, 1, {len(FIXED)}) <> '{FIXED}'"
        wanted = ["number IS NOT NULL", "again_of IS NOT NULL", f"state = '{INCOMPLETE}' {plain} OR {left}"]
        wanted += [f"state = '{INVALID}' {plain}", f"state = '{OPEN}' AND NOT {left}"]
        wanted += ["number IS NOT NULL AND reason <> ''"]
        sums = ", ".join(f"sum(CASE WHEN {one} THEN 1 ELSE 0 END)" for one in wanted)
        rows = self.read(
            f"SELECT line, {sums}, max(CASE WHEN number IS NOT NULL THEN ended END)"
            " FROM message GROUP BY line ORDER BY line",
            (*gone, *gone),
        )
        return [LineCount._make([row[0], *(int(one) for one in row[1:6]), row[7], int(row[6])]) for row in rows]
