"""Turns of many lines that share one thread. The lines of a peer have one account, which is charged for their time. A
peer that has used more time than the others waits until they have used as much. So a peer that works now and then waits
for nobody, however many others work all the time, and over however many connections."""
import asyncio
import heapq
import time
from collections import deque
from contextvars import Context, copy_context
from typing import Callable, Deque, List, Optional, Tuple
from weakref import WeakValueDictionary

#: A line goes on without waiting until its peer has used HEARS seconds more than the others. Unless it has used as many
#: less, it also waits once all lines have used ALL seconds of this turn of the loop. Those that wait go on until they
#: have used as many of the next one.
HEARS, ALL = 0.002, 0.002
#: A peer that has used less is credited up to CREDIT seconds. A line is charged at most MOST seconds for work without a
#: pause: what takes longer isn't its work alone, as when the interpreter collects garbage.
CREDIT, MOST = 0.004, 0.004
#: The thread's own clock is asked, which takes a call of the system, only if so many seconds have gone by since it was.
#: Who works then is charged for shorter work before it, too: of many lines each is so charged for its share of it.
STEP = 0.0002


class Rest(asyncio.Future[None]):
    """What the task of a line waits for. A callback of the loop calls `end`: so the task goes on at once, and not in
    the loop's next turn."""

    _waits: "Optional[Tuple[Callable[[Rest], object], Context]]" = None

    def add_done_callback(self, goes_on: "Callable[[Rest], object]", *, context: Optional[Context] = None) -> None:
        """Sets what goes on at the end, and in which context; the task that waits calls it."""
        if self._waits is None and not self.done():
            self._waits = goes_on, context or copy_context()
        else:
            super().add_done_callback(goes_on, context=context)

    def end(self) -> None:
        """Ends it, unless it has ended."""
        if not self.done():
            self.set_result(None)
            if self._waits is not None:
                goes_on, context = self._waits
                context.run(goes_on, self)

    def fail(self, fault: Exception) -> None:
        """Ends it with an error. The task goes on in the loop's next turn."""
        self._goes_on_later()
        self.set_exception(fault)

    def cancel(self, msg: Optional[object] = None) -> bool:
        """Cancels it, as the task does that is cancelled itself."""
        self._goes_on_later()
        return super().cancel(msg)

    def _goes_on_later(self) -> None:
        if self._waits is not None and not self.done():
            super().add_done_callback(self._waits[0], context=self._waits[1])


class Account:
    """How much time the lines of a peer have used, in seconds; and what those wait for that wait for their turn."""

    def __init__(self, had: float) -> None:
        self.had = had
        self.waiting: Deque[Rest] = deque()


class Turns:
    """The lines that wait for their turn. The next one is a line of the peer that has used the least time."""

    def __init__(
        self, worked: Callable[[], float] = time.thread_time, clock: Callable[[], float] = time.monotonic
    ) -> None:
        #: The thread's own clock. By any other clock a line is charged for the work of other threads and processes, so
        #: on a busy machine good lines wait ten times as long.
        self.worked, self.clock = worked, clock
        #: How much time the peers used whose lines go on, and when a line was charged last, by both clocks.
        self.had, self.charged, self.charged_at = 0.0, worked(), clock()
        #: The accounts of the peers that have lines.
        self._accounts: "WeakValueDictionary[str, Account]" = WeakValueDictionary()
        #: The accounts whose lines wait: the one that has used the least first, and of several the one that came first.
        self._waiting: List[Tuple[float, int, Account]] = []
        self._count, self._goes = 0, False
        #: When the first line checked for its turn, in this turn of the loop if `_is_one`, or in an earlier one; None if
        #: none has.
        self._begun: Optional[float] = None
        self._is_one = False

    def account(self, peer: str) -> Account:
        """Returns the account of a peer, which all its lines share."""
        return self._accounts.setdefault(peer, Account(self.had))

    def is_full(self) -> bool:
        """Whether the lines have used enough of this turn of the loop by now. A turn costs time, and is measured only if
        lines wait, or have used as much in several turns."""
        begun, now = self._begun, self.charged
        if begun is None or (now > begun + ALL and not self._is_one):
            self._begun, self._is_one = now, begun is not None or self._goes
            if self._is_one:
                asyncio.get_running_loop().call_soon(self._turn_over)
            return False
        return now > begun + ALL

    def _turn_over(self) -> None:
        self._begun, self._is_one = None, False

    async def wait(self, account: Account) -> None:
        """Returns when it is the turn of a line with this account."""
        loop = asyncio.get_running_loop()
        one = Rest(loop=loop)
        account.waiting.append(one)
        if len(account.waiting) == 1:
            self._push(account)
        if not self._goes:
            self._goes = True
            loop.call_soon(self._next)
        await one

    def _push(self, account: Account) -> None:
        self._count += 1
        heapq.heappush(self._waiting, (account.had, self._count, account))

    def _next(self) -> None:
        begun = self.charged
        while self._waiting and self.charged - begun <= ALL:
            had, _, account = heapq.heappop(self._waiting)
            if had < account.had:  # the peer's other lines worked meanwhile
                self._push(account)
                continue
            one = account.waiting.popleft()
            if account.waiting:
                self._push(account)
            self.had = max(self.had, had)
            one.end()
        self._goes = bool(self._waiting)
        if self._goes:
            asyncio.get_running_loop().call_soon(self._next)


class Share:
    """What one line uses of its peer's account."""

    def __init__(self, turns: Turns, peer: str, before: Callable[[], None] = lambda: None) -> None:
        self._turns, self._account = turns, turns.account(peer)
        #: Called before the line waits for its turn: it is read no further if more waits already.
        self._before = before

    def rests(self) -> None:
        """Charges the line, which waits for something now, for the thread's time since a line was charged last."""
        turns, account = self._turns, self._account
        at = turns.clock()
        if at < turns.charged_at + STEP:
            return
        turns.charged_at, now = at, turns.worked()
        account.had = max(turns.had - CREDIT, account.had) + min(now - turns.charged, MOST)
        turns.charged = now

    def is_behind(self) -> bool:
        """Whether other lines come first: the peer has used more than theirs, or all have used enough of this turn."""
        more = self._account.had - self._turns.had
        return more > HEARS or (more > -HEARS and self._turns.is_full())

    def is_over(self) -> bool:
        """Charges the line for its work so far. Returns whether other lines come first."""
        self.rests()
        return self.is_behind()

    async def take_turns(self) -> None:
        """Lets other lines work, if they come first."""
        if self.is_over():
            await self.wait()

    async def wait(self) -> None:
        """Returns when it is the line's turn again."""
        self._before()
        await self._turns.wait(self._account)
