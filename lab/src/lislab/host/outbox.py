"""The orders that the lines of a host have to send: answers to queries, downloads, and the answers of a command."""
import asyncio
import functools
import re
import time
from collections import deque
from concurrent.futures import Future, ThreadPoolExecutor
from typing import Any, Callable, Collection, Deque, Dict, List, Mapping, NamedTuple, Optional, Sequence, Set, Tuple

from lislink.order import ANSWERED, NORMAL, ORDERED, QUERIED, Order, OrderError
from lislink.order import failure, nothing_of, texts_of, told_of
from lislink.records import MessageError, messages
from ..model.asks import Asks
from ..model.book import FAILED, STILL, Asked, Failed, OrderBook, Placed, Wanted
from ..model.query import Query, echoed
from ..model.store import StoreError
from .program import output_of
from .tasks import Tasks

#: The most orders of a download, and of an answer; seconds between looks at the store; the seconds
#: that a command has, the most bytes that it may answer, and how many run at once; seconds until the next try, by the
#: tries so far.
MOST, ASKED, LOOK, COMMAND, ANSWER, AT_ONCE = 20, 10_000, 1.0, 5.0, 1 << 20, 4
WAITS = (5.0, 15.0, 60.0, 300.0)
#: How often a query is looked up while the store gives no answer, a look apart, and while its orders are being sent
#: over another connection from there; an answer that couldn't be sent waits so many seconds for its analyzer to
#: reconnect.
LOOKS, OTHERS, KEPT = 3, 30, 600.0
#: Of so many messages of a connection the queries are known, for what their orders have from them.
MESSAGES = 8
#: Work of a thread, and what becomes of it.
Work = Tuple["Future[Any]", Callable[[], Any]]


class Site(NamedTuple):
    """A line as the outbox knows it: its name, who is at the other end, and what its setting says."""

    line: str
    peer: str
    encoding: str
    unasked: bool
    none: str
    #: The number of the connection.
    seat: str
    #: How its queries are read and answered; which component of an order's O-5 is the test.
    asks: Asks = Asks()
    component: int = 4
    #: Whether ENQ goes out again only on a new connection.
    is_anew: bool = False

    @property
    def place(self) -> str:
        """Where an analyzer asks."""
        return f"{self.line} {self.peer}"


class Batch(NamedTuple):
    """What is sent in one session: its texts, the orders in them with how often these were tried, and the queries that
    asked for them."""

    texts: Sequence[bytes]
    placed: Sequence[Placed] = ()
    queries: Sequence[Query] = ()

    @property
    def is_answer(self) -> bool:
        """Whether an analyzer asked for it."""
        return not self.placed or self.placed[0].asked != ""

    @property
    def told(self) -> str:
        """It in a few words."""
        return told_of(one.order for one in self.placed) or "the answer to a query"


class Answer(NamedTuple):
    """What there is for a query: what is sent, if it isn't in the store; and whether an order was found, or the store
    doesn't say."""

    batch: Optional[Batch]
    is_any: bool


class Desk:
    """A thread that does work for a store: marks before all else, so that a host that dies sends little twice."""

    def __init__(self) -> None:
        self._thread = ThreadPoolExecutor(1, "orders")
        self._first, self._others = deque(), deque()  # type: Deque[Work], Deque[Work]

    def put(self, work: Callable[[], Any], first: bool) -> "Future[Any]":
        """What will be done, before all others that are not `first`."""
        done: "Future[Any]" = Future()
        (self._first if first else self._others).append((done, work))
        self._thread.submit(self._next)
        return done

    def _next(self) -> None:
        done, work = (self._first or self._others).popleft()
        if not done.set_running_or_notify_cancel():
            return
        try:
            done.set_result(work())
        except BaseException as error:
            done.set_exception(error)

    def shut(self) -> None:
        """Ends the thread, after all that was put."""
        self._thread.shutdown()


class Outbox:
    """The orders of a host. A store that is slow, or a command, delays no line."""

    def __init__(
        self,
        open_book: Callable[[], OrderBook],
        command: Sequence[str],
        tries: int,
        scale: float,
        say: Callable[[str], None],
    ) -> None:
        self._open, self._command, self._tries, self._scale, self._say = open_book, command, tries, scale, say
        self._desk, self._asking = Desk(), asyncio.Semaphore(AT_ONCE)
        self._book: Optional[OrderBook] = None
        #: The orders that are being sent, or are sent and not yet marked; when it was said last that they are in hand.
        self._in_hand: Set[int] = set()
        self._still = time.monotonic()
        self._work = Tasks(say)
        self._looking: "Optional[asyncio.Task[None]]" = None
        self._woken: List[Callable[[str, str], None]] = []
        #: Who sees which orders have failed, and how many had when that was looked at.
        self._seen: Callable[[Dict[str, Failed]], None] = lambda failed: None
        self._failed = (0, 0.0)
        self._said, self._told = "", set()  # type: str, Set[str]
        self._codes: Callable[[str], Mapping[str, str]] = lambda line: {}
        #: The queries whose orders aren't sent yet, message by message, by their place and seat; the seat is empty once
        #: the connection is over.
        self._queries: Dict[Tuple[str, str], List[Sequence[Query]]] = {}
        #: The answers that wait for an analyzer to reconnect, by its place and seat, each with the time of the answer.
        self._kept: Dict[Tuple[str, str], Tuple[Batch, float]] = {}
        #: How often in a row an analyzer was busy, or requested the line too, before it reconnected.
        self.put_off: Dict[str, Tuple[int, int]] = {}
        #: How many orders may be in one session with this one: fewer after a session that was rejected.
        self._lots: Dict[int, int] = {}

    async def start(self) -> None:
        """Opens the store; StoreError."""
        if not self._command:
            book: OrderBook = await self._run(self._open)
            self._say_left(book.left, "this host")
            self._book = book
            self._looking = self._work.begin(self._look())

    async def stop(self) -> None:
        """Marks what is sent and isn't marked yet, as far as the store lets it."""
        if self._looking is not None:
            self._looking.cancel()
        if self._work.all:
            await asyncio.wait(list(self._work.all), timeout=2.0)
        await self._work.cancel()
        if self._book is not None:
            await self._run(self._book.close)
        self._desk.shut()

    async def _run(self, work: Callable[..., Any], *words: Any, first: bool = False) -> Any:
        return await asyncio.wrap_future(self._desk.put(functools.partial(work, *words), first))

    def _say_left(self, numbers: Sequence[int], host: str) -> None:
        """Says which orders a host had in its hands when it died: some of them may be sent a second time."""
        if numbers:
            many = f"orders {_ranges(sorted(numbers))} were" if len(numbers) > 1 else f"order {numbers[0]} was"
            self._say(f"{many} being sent when {host} died: sent again, perhaps a second time")

    # ---- waking lines

    def wakes(self, woken: Callable[[str, str], None]) -> None:
        """`woken(asked, line)` is called when orders are to be sent: at the place that asked, or unasked on a line."""
        self._woken.append(woken)

    def shows(self, seen: Callable[[Dict[str, Failed]], None]) -> None:
        """`seen(failed)` is called when other orders have failed than before: those of each line, with the last one."""
        self._seen = seen

    def codes(self, of: Callable[[str], Mapping[str, str]]) -> None:
        """`of(line)` has the codes of a line's analyzer for those that orders have."""
        self._codes = of

    def forget(self, site: Site, woken: Callable[[str, str], None]) -> None:
        """The connection is over. What was asked for over it is sent over the next one from there."""
        self._woken.remove(woken)
        for queries in self._queries.pop((site.place, site.seat), ()):
            self._note(site.place, "", queries)
        if self._book is not None:
            self._work.begin(self._until_kept(self._book.leave, site.seat))

    async def _until_kept(self, change: Callable[..., None], *words: Any, first: bool = False) -> None:
        """Changes the store, again each second until it holds."""
        while True:
            try:
                await self._run(change, *words, first=first)
                return
            except StoreError as error:
                self._say_once(f"orders can't be marked: {error}")
                await asyncio.sleep(1.0)

    async def _look(self) -> None:
        assert self._book is not None
        while True:
            try:
                told = await self._run(self._book.take_in)
                for text in told:  # the host logs once that a file can't be read
                    if text not in self._told:
                        self._say(text)
                self._told = set(told)
                due = await self._run(self._book.due)
                await self._look_at_failed()
                await self._say_still()
                self._said = ""
            except StoreError as error:
                due = []
                self._say_once(f"orders can't be read: {error}")
            for asked, line in due:
                for woken in list(self._woken):
                    woken(asked, line)
            await asyncio.sleep(LOOK * max(self._scale, 0.05))

    async def _say_still(self) -> None:
        """Says to the store now and then that what is in hand still is: a long session keeps its orders."""
        assert self._book is not None
        if self._in_hand and time.monotonic() >= self._still + STILL:
            self._still = time.monotonic()
            await self._run(self._book.still, sorted(self._in_hand))

    async def _look_at_failed(self) -> None:
        assert self._book is not None
        mark = await self._run(self._book.failed_mark)
        if mark != self._failed:
            self._seen(await self._run(self._book.failed, 1))
            self._failed = mark

    def _say_once(self, text: str) -> None:
        if text != self._said:
            self._said = text
            self._say(text)

    # ---- queries

    async def answer(self, site: Site, queries: Sequence[Query], message: bytes) -> Answer:
        """The answer to the queries of a message. Orders of the store are marked as asked for, and `take` gives them,
        all in one session."""
        command, is_silent = site.asks.command or self._command, site.none == "silence"
        if command:
            texts = await self._asked_of_command(site, command, message)
            batch = None if is_silent and not texts else Batch(texts or nothing_of(queries[0].row, site.none))
            return Answer(batch, any(text[:1] in b"Oo" for text in texts))
        found = await self._look_up(site, [one.wanted for one in queries])
        if found is not None and found.found:
            self._note(site.place, site.seat, queries)
        if found is not None and (found.found or found.mine):
            return Answer(None, True)
        is_any = found is None or found.others > 0
        if is_silent:
            return Answer(None, is_any)
        return Answer(Batch(failure() if is_any else nothing_of(queries[0].row, site.none)), is_any)

    def _note(self, place: str, seat: str, queries: Sequence[Query]) -> None:
        """Orders are to be sent for these queries."""
        if queries:
            self._queries[place, seat] = [*self._queries.get((place, seat), ()), queries][-MESSAGES:]

    def _noted(self, site: Site) -> List[Query]:
        """The queries for which orders are sent now, the last message's first. Another connection from there, as that
        of a second analyzer of a terminal server, has its own."""
        found = [one for seat in (site.seat, "") for one in reversed(self._queries.pop((site.place, seat), []))]
        return [query for queries in found for query in queries]

    async def _look_up(self, site: Site, wanted: Sequence[Wanted]) -> Optional[Asked]:
        """The orders that are marked as asked for; None if the store doesn't say. What is on its way to the same place
        is waited for: it is sent, or it waits again."""
        assert self._book is not None
        failed = 0
        for left in range(OTHERS, -1, -1):
            try:
                words = (site.place, site.seat, site.line, wanted, site.asks.again, left > 0)
                found: Asked = await self._run(self._book.ask, *words)
                if not found.others or not left:
                    return found
            except StoreError as error:
                failed += 1
                self._say(f"{site.line}: the orders of a query can't be read: {error}")
                if failed == LOOKS:
                    break
            await asyncio.sleep(LOOK * max(self._scale, 0.05))
        return None

    async def take_back(self, site: Site, batches: Sequence[Batch]) -> None:
        """The analyzer cancels its query: its orders wait again, also those of these batches, which are not sent."""
        while self._kept_for(site) is not None:
            pass
        self._noted(site)
        if self._book is None:
            return
        numbers = [one.number for batch in batches for one in batch.placed]
        try:
            await self._run(self._book.take_back, site.place, site.seat, numbers)
        except StoreError as error:
            self._say(f"{site.line}: a query can't be cancelled: {error}")
        self._in_hand.difference_update(numbers)

    async def _asked_of_command(self, site: Site, command: Sequence[str], message: bytes) -> List[bytes]:
        """The records that the command prints, each a text; none, with the reason in the log, if they are no
        messages."""
        try:
            async with self._asking:
                about = {"LISLAB_LINE": site.line, "LISLAB_PEER": site.peer}
                out = await output_of(command, message, ANSWER, COMMAND, about)
            rows = [row for rows in messages([re.sub(rb"\r?\n|\r", b"\r", out)]) for row in rows]
            return [row.text + b"\r" for row in rows]
        except MessageError as error:
            why = f"its answer is no message: {error}"
        except (OSError, StoreError) as error:
            why = str(error)
        self._say(f"{site.line}: the query command returned no orders: {why}")
        return []

    # ---- what a line sends

    async def take(self, site: Site) -> Optional[Batch]:
        """What is to be sent on a line now; None if there is nothing, or the store doesn't say."""
        kept = self._kept_for(site)
        if kept is not None:
            return kept
        if self._book is None or site.asks.command:
            return None
        for place in [site.place, ""] if site.unasked else [site.place]:
            placed = await self._taken(site, place)
            if placed is None:
                return None
            # None of what was asked for is taken: it is another connection's, or somebody has it for now.
            queries = self._noted(site) if place and placed else []
            try:
                batch = await self._batch_of(site, placed, place, queries)
            except OrderError:  # one of them can't be written: the others are sent without it
                good = [one for one in placed if self._can_be_written(site, one)]
                batch = await self._batch_of(site, good, place, queries)
            if batch is None and queries and site.none != "silence":
                return Batch(nothing_of(queries[0].row, site.none))
            if batch is not None:
                return batch
        return None

    def _kept_for(self, site: Site) -> Optional[Batch]:
        """An answer that waits for this connection: it came after the one that asked, from the same place."""
        over = time.monotonic() - KEPT
        for (place, seat), (batch, at) in list(self._kept.items()):
            if at <= over or (place == site.place and int(seat) < int(site.seat)):
                del self._kept[place, seat]
                if at > over:
                    return batch
        return None

    async def _batch_of(
        self, site: Site, placed: List[Placed], place: str, queries: Sequence[Query]
    ) -> Optional[Batch]:
        """The orders that go together: fewer of them after a session with them was rejected. OrderError if they can't
        be written."""
        lot = min((self._lots.get(one.number, len(placed)) for one in placed), default=0)
        now, later = placed[:lot], placed[lot:]
        if not now:
            return None
        report, end = (QUERIED, NORMAL if later else ANSWERED) if place else (ORDERED, NORMAL)
        beside = functools.partial(_beside, site, queries)
        orders = [self._coded(site, one.order) for one in now]
        how: Dict[str, Any] = {"report": report, "end": end, "beside": beside, "component": site.component}
        texts = texts_of(orders, site.encoding, **how)
        if later:
            self._note(site.place, site.seat, queries)
            await self._give_back(later)
        return Batch(texts, now, queries)

    async def _give_back(self, placed: Sequence[Placed]) -> None:
        """Orders that were taken, and of which none was begun, wait again."""
        assert self._book is not None
        numbers = [one.number for one in placed]
        await self._until_kept(self._book.give_back, numbers)
        self._in_hand.difference_update(numbers)

    async def _taken(self, site: Site, place: str) -> Optional[List[Placed]]:
        assert self._book is not None
        try:
            words = (place, site.seat, site.line, ASKED if place else MOST, list(self._in_hand))
            placed: List[Placed] = await self._run(self._book.take, *words)
        except StoreError as error:
            self._say_once(f"orders can't be read: {error}")
            return None
        for one in placed:
            if one.state == FAILED:
                self._say(f"{site.line}: order {one.number} has failed: {one.reason}")
        good = [one for one in placed if one.state != FAILED]
        for host in {one.left_by for one in good} - {""}:
            self._say_left([one.number for one in good if one.left_by == host], f"host {host}")
        self._in_hand.update(one.number for one in good)
        return good

    def _can_be_written(self, site: Site, one: Placed) -> bool:
        try:
            texts_of([self._coded(site, one.order)], site.encoding)
            return True
        except OrderError as error:
            self._work.begin(self._in_vain(site, [one], str(error), 1))
            return False

    def _coded(self, site: Site, order: Order) -> Order:
        """An order with the codes of the line's analyzer."""
        codes = self._codes(site.line)
        return order._replace(tests=tuple(codes.get(test, test) for test in order.tests))

    def came(self, site: Site, sample: str, tests: Collection[str]) -> None:
        """Results of these tests of a sample are stored. They have the codes of the line's analyzer."""
        ordered = {test for test, code in self._codes(site.line).items() if code in tests}
        if self._book is not None:
            self._work.begin(self._until_kept(self._book.results, site.line, sample, ordered | set(tests)))

    def sent(self, site: Site, batch: Batch) -> None:
        """All of it was acknowledged, in a session that is done."""
        if batch.placed:
            self._work.begin(self._mark(site, [one.number for one in batch.placed]))

    async def _mark(self, site: Site, numbers: List[int]) -> None:
        """Marks orders as sent. Until that is done, only a host that starts again resends them."""
        assert self._book is not None
        await self._until_kept(self._book.sent, site.line, numbers, first=True)
        self._in_hand.difference_update(numbers)
        for number in numbers:
            self._lots.pop(number, None)

    def unsent(self, site: Site, batch: Batch) -> None:
        """The connection is over before it was begun, or before anything came over it: that is no try. An answer that
        isn't in the store waits for its analyzer."""
        self._note(site.place, site.seat, batch.queries)
        if batch.placed:
            self._work.begin(self._give_back(batch.placed))
        else:
            self._kept[site.place, site.seat] = batch, time.monotonic()

    def failed(self, site: Site, batch: Batch, why: str, is_rejected: bool = False) -> None:
        """A batch failed. Orders that were rejected together are sent in halves, and then one by one, so that one order
        that an analyzer rejects blocks no other."""
        self._say(f"{site.line}: not sent: {batch.told}: {why}")
        self._note(site.place, site.seat, batch.queries)
        if is_rejected and len(batch.placed) > 1:
            self._lots.update((one.number, (len(batch.placed) + 1) // 2) for one in batch.placed)
            self._work.begin(self._give_back(batch.placed))
        elif batch.placed:
            self._work.begin(self._in_vain(site, batch.placed, why, self._tries))

    async def _in_vain(self, site: Site, placed: Sequence[Placed], why: str, most: int) -> None:
        assert self._book is not None
        samples = {one.number: one.order.sample for one in placed}
        numbers = [one.number for one in placed]
        wait = WAITS[min(min(one.tries for one in placed), len(WAITS) - 1)] * self._scale
        try:
            for number in await self._run(self._book.tried, site.line, numbers, why, most, wait):
                self._say(f"{site.line}: order {number} of sample {samples[number]} has failed: {why}")
        except StoreError as error:
            self._say_once(f"orders can't be marked: {error}")
        self._in_hand.difference_update(numbers)


def _ranges(numbers: Sequence[int]) -> str:
    """Numbers that rise, those that follow one another as a range."""
    runs: List[List[int]] = []
    for number in numbers:
        if runs and number == runs[-1][-1] + 1:
            runs[-1] = [runs[-1][0], number]
        else:
            runs.append([number])
    return ", ".join("-".join(map(str, run)) for run in runs)


def _beside(site: Site, queries: Sequence[Query], order: Order) -> Tuple[int, List[bytes]]:
    """What an order's record has from its query next to the sample, as rack and position, and in which field."""
    for query in queries if site.asks.echo[0] else ():
        parts = echoed(query, site.asks, order.sample, site.encoding)
        if parts:
            return site.asks.echo[0], parts
    return 0, []
