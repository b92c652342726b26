"""The orders of a store, and what became of each. An order that waits is taken by one host, sent, and then marked: if
the host dies before it can mark it, the order is sent again."""
import contextlib
import itertools
import json
import time
from typing import Any, Callable, Collection, Dict, Iterable, Iterator, List, NamedTuple, Optional, Sequence, Set, Tuple

from lislink.order import Order, OrderError, order_of
from .schema import LATER
from .sql import SqlStore
from .store import StoreError
from .stores import open_store

#: The states of an order. One that is done is kept as sent, with the time when its last result came.
WAITING, SENT, DONE, FAILED, CANCELLED = STATES = ("waiting", "sent", "done", "failed", "cancelled")
#: A host that is gone has its orders for so many seconds more: it may only have lost its connection. So often does one
#: that sends them say that it has them still.
LEFT_AFTER, STILL = 30.0, 10.0
#: The reason of an order that a host had in its hands when it died. It stays when the order is sent again.
PERHAPS = "a host died while it was being sent: an analyzer may have got it before"
_ORDER = "sample, tests, line, priority, patient, name, birth, sex, collected"
_SHOWN = f"CASE WHEN state = '{SENT}' AND done > 0 THEN '{DONE}' ELSE state END"
#: Orders that are urgent come first.
_IN_TURN = "CASE priority WHEN 'S' THEN 0 WHEN 'A' THEN 1 ELSE 2 END, number"
#: So many orders are added, or looked at, in one transaction.
LOT = 1000
#: The state of an order that no analyzer asks for any more: one that was sent on a line stays sent.
_BEFORE = f"CASE WHEN sent_on <> '' THEN '{SENT}' ELSE '{WAITING}' END"
_WAITS = f"state = '{WAITING}'"
#: The line on which an order has failed: it may be one for any line.
_FAILED_ON = "CASE WHEN line = '' THEN asked ELSE line END"


class Placed(NamedTuple):
    """An order in the store: its number, and what became of it."""

    number: int
    state: str
    reason: str
    tries: int
    added: float
    changed: float
    order: Order
    #: Where an analyzer asked for it, if one did; of one that has failed, on which line it did.
    asked: str = ""
    #: The tests whose results have come.
    came: Tuple[str, ...] = ()
    #: The host that had it in its hands, and is gone.
    left_by: str = ""


class Asked(NamedTuple):
    """How many orders a query has marked, and how many are being sent already: over the connection that asks, and over
    others from the same place."""

    found: int
    mine: int
    others: int = 0


class Failed(NamedTuple):
    """The orders of a line that have failed: how many, since when, and the last ones, the newest first."""

    many: int
    since: float
    newest: List[Placed]


class Wanted(NamedTuple):
    """Which samples a query asks for: these, those in a range, or each one; and, of a range or of each one, when they
    were collected, as YYYYMMDD, maybe with HHMM or HHMMSS after it."""

    samples: Sequence[str] = ()
    first: str = ""
    last: str = ""
    since: str = ""
    until: str = ""
    everything: bool = False

    def condition(self) -> Tuple[str, List[str]]:
        """The orders among which they are, in SQL, with its values."""
        if self.samples:
            return f"sample IN ({', '.join('?' * len(self.samples))})", list(self.samples)
        return ("1 = 1" if self.everything or self.first else "1 = 0"), []

    def holds(self, sample: str, collected: str) -> bool:
        """Whether it asks for an order of a sample that was collected then."""
        if self.samples:
            return sample in self.samples
        return self._is_within(sample) and self.is_then(collected)

    def _is_within(self, sample: str) -> bool:
        """Whether a sample is in the range. If both ends are numbers, it is a number with as many digits as one of
        them, or with a count in between; else texts are compared."""
        if self.everything:
            return True
        if not (self.first.isdecimal() and self.last.isdecimal()):
            return self.first <= sample <= self.last
        is_like = sample.isdecimal() and len(self.first) <= len(sample) <= len(self.last)
        return is_like and int(self.first) <= int(sample) <= int(self.last)

    def is_then(self, date: str) -> bool:
        """Whether a date is in its time; compared as far as both are written. A sample without a date always is."""
        begun, over = date[: len(self.since)], date[: len(self.until)]
        return not date or (begun >= self.since[: len(begun)] and over <= self.until)


class OrderBook:
    """The orders of a store in a database. It is used by one thread."""

    def __init__(self, store: SqlStore, host: str = "", clock: Callable[[], float] = time.time) -> None:
        self._store, self._host, self._clock = store, host, clock
        #: The orders that this host had in its hands when it died: they wait again.
        self.left: List[int] = []
        #: The columns of the table that were there when they were asked for last.
        self._columns_there: Set[str] = set()

    def start(self) -> None:
        """Makes the tables if they are missing, and gives back what this host held when it died; StoreError."""
        self._store.join()
        if self._host:
            with self._store.changing():
                self._store.lock_numbers()
                self._take_back_left()

    def _take_back_left(self) -> None:
        held = f"holder = ? AND state = '{WAITING}'"
        rows = self._store.run(f"SELECT number FROM orders WHERE {held} ORDER BY number", (self._host,)).fetchall()
        self.left = [int(number) for (number,) in rows]
        self._store.run(f"UPDATE orders SET holder = '', reason = ? WHERE {held}", (PERHAPS, self._host))
        self._store.run(
            f"UPDATE orders SET seat = '' WHERE substr(seat, 1, {len(self._host) + 1}) = ?", (self._host + "/",)
        )

    def is_there(self) -> bool:
        """Whether there is a table of orders."""
        return self._store.has("orders")

    def _known(self) -> Set[str]:
        """The columns of the table. Once they are all there, the store isn't asked again."""
        if not self._columns_there >= LATER.keys():
            self._columns_there = {str(one[0]) for one in self._store.run("SELECT * FROM orders LIMIT 0").description}
        return self._columns_there

    def _shown(self) -> str:
        """The state that is shown, in SQL. A store that an earlier version made may be read before it is changed."""
        return _SHOWN if "done" in self._known() else "state"

    def _columns(self) -> str:
        """The columns of an order that is listed."""
        known = self._known()
        later = (name if name in known else LATER[name].rsplit(" ", 1)[1] for name in ("more", "came"))
        return f"number, {self._shown()}, reason, tries, added, changed, {_ORDER}, asked, {', '.join(later)}"

    def add(self, orders: Iterable[Order]) -> List[Placed]:
        """Stores orders in lots, so that no host waits long for the store: each lot as a whole. A StoreError says how
        many were stored before."""
        left, placed = iter(orders), []  # type: Iterator[Order], List[Placed]
        while True:
            lot = list(itertools.islice(left, LOT))
            if not lot:
                return placed
            try:
                with self._store.changing():
                    more = self._add(lot)
            except StoreError as error:
                raise StoreError(f"{error}: {len(placed)} orders are stored, the others aren't") from None
            placed += more

    def _add(self, orders: Iterable[Order]) -> List[Placed]:
        """Stores orders within a transaction."""
        placed, at = [], self._clock()
        self._store.lock_numbers()
        number = int(self._store.run("SELECT coalesce(max(number), 0) FROM orders").fetchone()[0])
        for number, order in enumerate(orders, number + 1):
            row = (number, order.sample, json.dumps(order.tests), *order[2:9], at, at, json.dumps(dict(order.more)))
            self._store.run(
                f"INSERT INTO orders (number, {_ORDER}, added, changed, more) VALUES ({', '.join('?' * len(row))})", row
            )
            placed.append(Placed(number, WAITING, "", 0, at, at, order))
        return placed

    def take_in(self) -> List[str]:
        """Takes in the files of orders that other programs left for the store; what is to be said of each. Only a spool
        has such files. StoreError."""
        return []

    def listed(self, sample: Optional[str] = None, state: Optional[str] = None) -> Iterator[Placed]:
        """The orders, of a sample or in a state, in the order of their numbers. A row of another program that can't be
        an order is listed as one that has failed."""
        if not self.is_there():
            return
        last, columns = 0, self._columns()
        asked = [(f"{name} = ?", one) for name, one in (("sample", sample), (self._shown(), state)) if one is not None]
        where = " AND ".join(["number > ?", *(words for words, _ in asked)])
        while True:
            rows = self._store.read(
                f"SELECT {columns} FROM orders WHERE {where} ORDER BY number LIMIT ?",
                [last, *(one for _, one in asked), LOT],
            )
            if not rows:
                return
            last = int(rows[-1][0])
            yield from (_placed(row) for row in rows)

    def counts(self) -> Dict[str, int]:
        """How many orders are in each state; none if there are no orders."""
        if not self.is_there():
            return {}
        rows = self._store.read(f"SELECT {self._shown()} AS shown, count(*) FROM orders GROUP BY 1")
        found = {str(state): int(count) for state, count in rows}
        return {state: found[state] for state in STATES if state in found}

    def failed_mark(self) -> Tuple[int, float]:
        """How many orders have failed, and when the last one did: as long as this is the same, `failed` is, too."""
        if not self.is_there():
            return 0, 0.0
        count, last = self._store.read(f"SELECT count(*), max(changed) FROM orders WHERE state = '{FAILED}'")[0]
        return int(count), last or 0.0

    def failed(self, most: int) -> Dict[str, Failed]:
        """The orders that have failed, by the line on which they did, at most so many of each line."""
        if not self.is_there():
            return {}
        part = f"OVER (PARTITION BY {_FAILED_ON}"
        rows = self._store.read(
            f"SELECT * FROM (SELECT {_FAILED_ON} AS failed_on, count(*) {part}) AS many, min(changed) {part}) AS since,"
            f" row_number() {part} ORDER BY changed DESC, number DESC) AS place, {self._columns()}"
            f" FROM orders WHERE state = '{FAILED}') AS found WHERE place <= ? ORDER BY failed_on, place",
            (most,),
        )
        found: Dict[str, Failed] = {}
        for line, many, since, _, *row in rows:
            found.setdefault(line, Failed(int(many), since, [])).newest.append(_placed(row))
        return found

    def cancel(self, number: int) -> bool:
        """Cancels an order that isn't sent and isn't being sent; whether it is one."""
        return self._becomes(number, CANCELLED, f"state IN ('{WAITING}', '{FAILED}') AND holder = ''")

    def again(self, number: int) -> bool:
        """Lets an order wait that is sent, failed or cancelled; whether it is one."""
        return self._becomes(number, WAITING, f"state <> '{WAITING}'")

    def _becomes(self, number: int, state: str, where: str) -> bool:
        with self._store.changing():
            done = self._store.run(
                "UPDATE orders SET state = ?, reason = '', tries = 0, next_try = 0, asked = '', seat = '', holder = '',"
                " came = '[]', done = 0, sent_on = '', changed = ?"
                f" WHERE number = ? AND {where}",
                (state, self._clock(), number),
            )
            return int(done.rowcount) == 1

    # ---- what a host does

    def ask(
        self, place: str, seat: str, line: str, wanted: Sequence[Wanted], again: float = 0.0, waits: bool = True
    ) -> Asked:
        """Marks orders as asked for at a place, over the connection that has this seat. They are to be sent there now.
        They are those that wait, and those that were sent on the line not longer ago than so many seconds and lack a
        result; none that is being sent, but by a host that is gone for a while. If some are being sent to the same
        place, over a connection that may be gone without a word, none is marked, unless nobody waits for these."""
        now, mine, others, own = self._clock(), 0, 0, self._seat(seat)
        free: Dict[int, str] = {}
        with self._store.changing():
            gone = self._gone(now)
            for one in wanted:
                where, values = one.condition()
                rows = self._store.run(
                    "SELECT number, sample, collected, holder, seat, changed, asked FROM orders WHERE"
                    f" (state = '{WAITING}' OR"
                    f" (state = '{SENT}' AND done = 0 AND sent_on = ? AND changed >= ?)) AND line IN ('', ?)"
                    f" AND {where}",
                    (line, now - again, line, *values),
                ).fetchall()
                for number, sample, collected, holder, at, changed, asked in rows:
                    if not one.holds(sample, collected):
                        continue
                    if not holder or (holder in gone and changed < now - LEFT_AFTER):
                        free[number] = holder
                    else:
                        mine += at == own
                        others += at != own and asked == place
            if others and waits:
                return Asked(0, mine, others)
            marks = f"state = '{WAITING}', asked = ?, seat = ?, next_try = 0"
            self._set(marks, (place, own), list(free), f"state IN ('{WAITING}', '{SENT}')")
            self._set("holder = '', reason = ?", (PERHAPS,), [number for number, holder in free.items() if holder])
        return Asked(len(free), mine, others)

    def _seat(self, seat: str) -> str:
        return f"{self._host}/{seat}"

    def take_back(self, place: str, seat: str, numbers: Sequence[int] = ()) -> None:
        """What was asked for at a place is asked for no more, but for what is being sent, and for what was asked for
        over another connection of this host. Orders with these numbers are in this host's hands and are not sent."""
        ours = f" OR number IN ({', '.join('?' * len(numbers))})" if numbers else ""
        with self._store.changing():
            self._store.run(
                f"UPDATE orders SET asked = '', seat = '', holder = '', state = {_BEFORE}"
                f" WHERE state = '{WAITING}' AND asked = ? AND (holder = ''{ours})"
                " AND (seat = ? OR substr(seat, 1, ?) <> ?)",
                (place, *numbers, self._seat(seat), len(self._seat("")), self._seat("")),
            )

    def leave(self, seat: str) -> None:
        """A connection is over: what was asked for over it is sent over the next one from there."""
        with self._store.changing():
            self._store.run("UPDATE orders SET seat = '' WHERE seat = ?", (self._seat(seat),))

    def take(self, place: str, seat: str, line: str, most: int, without: Iterable[int]) -> List[Placed]:
        """Takes orders that are to be sent now: those that were asked for at a place, over this connection or one that
        is over, or, if the place is empty, those of a line that nobody asked for; urgent ones first. Nobody else has
        them until `sent`, `tried` or `give_back` is said of them. A row of another program that can't be an order is
        among them as one that has failed, with the reason; it isn't taken."""
        out = sorted(set(without))
        skip = f" AND number NOT IN ({', '.join('?' * len(out))})" if out else ""
        now = self._clock()
        with self._store.changing():
            free, gone = self._free(now)
            rows = self._store.run(
                f"SELECT holder, {self._columns()} FROM orders WHERE state = '{WAITING}' AND next_try <= ? AND {free}"
                f"{skip} AND asked = ? AND seat IN ('', ?) AND line IN ('', ?) ORDER BY {_IN_TURN} LIMIT ?"
                f"{self._store.skip_locked}",
                (now, *gone, *out, place, self._seat(seat), line, most),
            ).fetchall()
            placed = [_placed(row)._replace(left_by=holder) for holder, *row in rows]
            for one in placed:
                if one.state == FAILED:
                    self._store.run(
                        "UPDATE orders SET state = ?, reason = ?, asked = ?, changed = ? WHERE number = ?",
                        (FAILED, one.reason, line, now, one.number),
                    )
            good = [one for one in placed if one.state != FAILED]
            self._set("reason = ?", (PERHAPS,), [one.number for one in good if one.left_by])
            # An analyzer that asks again over this connection is being answered.
            seated = self._seat(seat) if place else ""
            self._set("holder = ?, changed = ?, seat = ?", (self._host, now, seated), [one.number for one in good])
        return placed

    def _set(self, what: str, values: Sequence[Any], numbers: Sequence[int], where: str = _WAITS) -> None:
        """Changes orders by their numbers, all of a lot by one statement: those that wait, or that `where` names."""
        for start in range(0, len(numbers), LOT):
            some = numbers[start : start + LOT]
            words = f"UPDATE orders SET {what} WHERE number IN ({', '.join('?' * len(some))})"
            self._store.run(f"{words} AND {where}", (*values, *some))

    def still(self, numbers: Sequence[int]) -> None:
        """Orders that were taken are being sent still: no other host takes them, even if this one lost its name."""
        with self._store.changing():
            self._set("changed = ?", (self._clock(),), numbers)

    def give_back(self, numbers: Sequence[int]) -> None:
        """Orders that were taken wait again, as if they hadn't been."""
        with self._store.changing():
            self._set("holder = ''", (), numbers)

    def _gone(self, now: float) -> List[str]:
        """The hosts that are gone, and have had orders in their hands for a while."""
        rows = self._store.run(
            f"SELECT DISTINCT holder FROM orders WHERE state = '{WAITING}' AND holder <> '' AND changed < ?",
            (now - LEFT_AFTER,),
        ).fetchall()
        return [one for (one,) in rows if one == self._host or not self._store.is_held(one)]

    def _free(self, now: float) -> Tuple[str, List[Any]]:
        """The condition of orders that no host has, or one that is gone for a while."""
        gone = self._gone(now)
        left = f" OR (holder IN ({', '.join('?' * len(gone))}) AND changed < ?)" if gone else ""
        return f"(holder = ''{left})", [*gone, now - LEFT_AFTER] if gone else []

    def due(self) -> List[Tuple[str, str]]:
        """Where orders are to be sent now: the places that asked, and the lines of those that nobody asked for."""
        now = self._clock()
        rows = self._store.read(
            f"SELECT DISTINCT asked, line FROM orders WHERE state = '{WAITING}' AND next_try <= ?"
            " AND (holder = '' OR changed < ?)",
            (now, now - LEFT_AFTER),
        )
        return [(asked, line) for asked, line in rows]

    def sent(self, line: str, numbers: Sequence[int]) -> None:
        """Orders are sent on a line: each frame of theirs was acknowledged, in a session that is done."""
        reason = "reason = CASE WHEN reason = ? THEN reason ELSE '' END"
        with self._store.changing():
            self._set(
                f"state = ?, {reason}, holder = '', asked = '', seat = '', sent_on = ?, changed = ?",
                (SENT, PERHAPS, line, self._clock()),
                numbers,
            )

    def results(self, line: str, sample: str, tests: Collection[str]) -> None:
        """Results of these tests of a sample came on a line: an order that was sent is done once each of its tests has
        one."""
        with self._store.changing():
            rows = self._store.run(
                f"SELECT number, tests, came FROM orders WHERE sample = ? AND done = 0 AND line IN ('', ?)"
                f" AND (state = '{SENT}' OR sent_on <> '')",
                (sample, line),
            ).fetchall()
            for number, text, before in rows:
                wanted, came = _texts_in(text), set(_texts_in(before))
                now = came | (set(wanted) & set(tests))
                if now != came:
                    done = self._clock() if now >= set(wanted) else 0.0
                    state = SENT if done else None
                    self._store.run(
                        "UPDATE orders SET came = ?, done = ?, state = coalesce(?, state) WHERE number = ?",
                        (json.dumps(sorted(now)), done, state, number),
                    )

    def tried(self, line: str, numbers: Sequence[int], why: str, most: int, wait: float) -> List[int]:
        """Orders were tried on a line in vain: they wait for so many seconds, or have failed if it was the last try.
        Those that have failed."""
        failed, now = [], self._clock()
        with self._store.changing():
            for number in numbers:
                row = self._store.run("SELECT tries, asked FROM orders WHERE number = ?", (number,)).fetchone()
                before, asked = row or (0, "")
                tries = int(before) + 1
                state = FAILED if 0 < most <= tries else WAITING
                asked = line if state == FAILED else asked
                done = self._store.run(
                    "UPDATE orders SET state = ?, reason = ?, tries = ?, holder = '', changed = ?, next_try = ?,"
                    f" asked = ? WHERE number = ? AND state = '{WAITING}' AND holder IN ('', ?)",
                    (state, why, tries, now, now + wait, asked, number, self._host),
                )
                failed += [number] if state == FAILED and done.rowcount else []
        return failed

    def close(self) -> None:
        """Gives the store back."""
        self._store.close()


def _texts_in(text: str) -> List[str]:
    """The texts of a JSON list; none if it is something else."""
    try:
        found = json.loads(text)
    except ValueError:
        return []
    return [one for one in found if isinstance(one, str)] if isinstance(found, list) else []


def _placed(row: Sequence[Any]) -> Placed:
    """An order of the store. Other programs add rows: one that can't be an order is one that has failed."""
    number, state, reason, tries, added, changed, sample, tests, *others = row
    asked, more, came = others[7:]
    order = Order(sample, tuple(_texts_in(tests)), *others[:7])
    try:
        order = order_of({**order.row(), **json.loads(more), "tests": json.loads(tests)})
        if not tests.lstrip().startswith("["):
            raise OrderError("its tests are no JSON list of texts")
    except (OrderError, ValueError, TypeError) as error:
        if state == WAITING:
            state, reason = FAILED, f"the row can't be an order: {error}"
    return Placed(int(number), state, reason, int(tries), added, changed, order, asked, tuple(_texts_in(came)))
