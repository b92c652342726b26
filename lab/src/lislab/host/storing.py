"""Stores texts. A line's keeper turns each text into changes, and the reply to the text waits until these are stored;
it reports what becomes of the line's messages. One thread, the committer's, stores together what all lines wait for, so
a slow disk delays no line's reading."""
import asyncio
import functools
import os
import threading
import time
from collections import Counter, deque
from queue import Empty, SimpleQueue
from typing import Awaitable, Callable, Deque, Dict, List, NamedTuple, Optional, Sequence, Tuple

from ..diagnosis.events import MessageEnded, Observers
from ..diagnosis.notices import LETTERS, MESSAGE
from ..model.store import COMPLETE, FIXED, INCOMPLETE, Add, Change, End, Store, StoreError, Unit
from .fix import Ended
from .fixer import Bodies, Fixer, fixed_ends
from .intake import Intake
from .turns import Rest, Share

#: How many bytes of a long text one row has.
ROW = 1 << 14
#: The most changes of one commit, if it has more than one unit; the most units that are owed.
TOGETHER, OWED = 500, 10000
#: How often these are tried at the end. What is still open then becomes incomplete at the next start.
LAST_TRIES = 5
#: The most bytes that are read from the committer's pipe at once.
RINGS = 4096


class _Waiting(NamedTuple):
    """A unit that is to be stored, and its future. An error ends the future, unless the unit is owed."""

    unit: Unit
    done: Rest
    is_long: bool
    is_owed: bool


class Committer:
    """Stores units in the order in which they are put."""

    def __init__(self, store: Store, say: Callable[[str], None]) -> None:
        self._store, self._say = store, say
        self._loop = asyncio.get_running_loop()
        #: What the lines put in this turn of the loop; what they put in each turn before, None at the end.
        self._new: List[_Waiting] = []
        self._put: "SimpleQueue[Optional[List[_Waiting]]]" = SimpleQueue()
        #: What the thread has stored, or why it could not be. A byte in the pipe says that there is some: it costs much
        #: less than `call_soon_threadsafe`.
        self._done: Deque[Tuple[List[_Waiting], Optional[Exception]]] = deque()
        self._rung, self._bell = os.pipe()
        os.set_blocking(self._bell, False)
        self._loop.add_reader(self._rung, self._settle)
        #: What the thread has taken from there: units, parts of long texts, and units that could not be stored.
        self._waiting: Deque[_Waiting] = deque()
        self._long: Deque[_Waiting] = deque()
        self._owed: Deque[_Waiting] = deque(maxlen=OWED)
        #: How many changes of one line are stored at once.
        self.part = store.part
        #: When what is owed is tried again, and how many changes then; whether the host stops.
        self._next_try, self._some, self._stopping = 0.0, 1, False
        #: How many commits were made, and how many failed; whether the last one had a single unit.
        self.commits, self.failed, self._is_alone = 0, 0, True
        self._thread = threading.Thread(target=self._run, name="commits", daemon=True)
        self._thread.start()

    def put(self, unit: Unit, is_long: bool = False, is_owed: bool = False) -> Rest:
        """Returns a future, which is done when the unit is on the disk; StoreError if it can't be. A commit has at most
        one part of a long text, so that other lines don't wait for all of it."""
        done = Rest(loop=self._loop)
        self._new.append(_Waiting(unit, done, is_long, is_owed))
        if self._is_alone:
            self._hand_over()
        elif len(self._new) == 1:
            self._loop.call_soon(self._hand_over)
        return done

    def _hand_over(self) -> None:
        """Hands over to the thread what the lines put in a turn of the loop, so that one commit stores it."""
        new, self._new = self._new, []
        self._put.put(new)

    def put_later(self, unit: Unit, is_long: bool = False) -> "asyncio.Future[None]":
        """The same for a unit for which no reply waits. If it can't be stored, it is owed: it is tried again until it
        is."""
        return self.put(unit, is_long, True)

    async def stop(self) -> None:
        """Stores what is still waiting, and ends the thread."""
        self._hand_over()
        self._put.put(None)
        while self._thread.is_alive():
            await asyncio.sleep(0.01)
        os.write(self._bell, b"\0")
        self._settle()
        self._loop.remove_reader(self._rung)
        for end in (self._rung, self._bell):
            os.close(end)
        await asyncio.sleep(0)

    def _run(self) -> None:
        while self._take():
            batch = _some_of(self._waiting, TOGETHER)
            if self._long:
                batch.append(self._long.popleft())
            if (not batch or self._commit(batch)) and self._owed:
                self._commit_owed()
        tries = LAST_TRIES
        while self._owed and tries:
            self._next_try = 0.0
            tries -= 0 if self._commit_owed() else 1

    def _take(self) -> bool:
        """Takes what the lines have put. If there is nothing to store, it waits for that, or until what is owed is due.
        Returns False once the host stops and all is stored."""
        is_idle = not (self._waiting or self._long or self._stopping)
        while is_idle or not self._put.empty():
            try:
                new = self._put.get(timeout=max(0.0, self._next_try - time.monotonic()) if self._owed else None)
            except Empty:
                break
            is_idle = False
            self._stopping = self._stopping or new is None
            for one in new or ():
                (self._long if one.is_long else self._waiting).append(one)
        return bool(self._waiting or self._long or not self._stopping)

    def _commit_owed(self) -> bool:
        """Tries to store some of what is owed, if that is due. Returns False if it failed. It is then tried after the
        others, and one by one, so that none holds up another."""
        now = time.monotonic()
        if now < self._next_try:
            return True
        if self._commit(_some_of(self._owed, self._some), is_again=True):
            self._some = min(2 * self._some, TOGETHER)
            return True
        self._next_try, self._some = now + 1, 1
        return False

    def _commit(self, batch: List[_Waiting], is_again: bool = False) -> bool:
        """Stores a batch, and ends its futures on the thread of the lines. Returns whether it is stored: if it isn't,
        those units of it are owed from now on that have to be, or are again."""
        fault: Optional[Exception] = None
        self._is_alone = len(batch) == 1
        try:
            self._store.commit([one.unit for one in batch])
            self.commits += 1
        except Exception as error:  # also a fault of the store's own is no reason to lose the thread
            fault = error if isinstance(error, StoreError) else StoreError(f"{type(error).__name__}: {error}")
            self._owed.extend(one for one in batch if one.is_owed)
            if is_again:
                return False
            self.failed += 1
            batch = [one for one in batch if not one.is_owed]
        self._done.append((batch, fault))
        try:
            os.write(self._bell, b"\0")
        except BlockingIOError:
            pass  # the pipe is full: it says so already
        return fault is None

    def _settle(self) -> None:
        """Ends the futures of what the thread has stored."""
        os.read(self._rung, RINGS)
        while self._done:
            batch, fault = self._done.popleft()
            for one in batch:
                if one.done.done():
                    continue
                if fault is not None:
                    one.done.fail(fault)
                elif one.is_owed:
                    self._loop.call_soon(one.done.end)
                else:
                    one.done.end()
            if fault is not None:
                self._say(f"not stored: {fault}")


def _some_of(queue: Deque[_Waiting], most: int) -> List[_Waiting]:
    """Takes what goes into one commit."""
    batch: List[_Waiting] = []
    size = 0
    while queue and (not batch or size + len(queue[0].unit) <= most):
        batch.append(queue.popleft())
        size += len(batch[-1].unit)
    return batch


def _join(part: List[Change], changes: List[Change]) -> None:
    """Adds changes to a part. Bytes of one message that follow each other become one row."""
    if changes:
        last, first = part[-1], changes[0]
        if isinstance(last, Add) and isinstance(first, Add) and last.key == first.key and len(last.body) < ROW:
            part[-1] = last._replace(body=last.body + first.body)
            changes = changes[1:]
    part += changes


def _incomplete(end: End, reason: str) -> End:
    """The end of a message that could not be stored."""
    return end._replace(state=INCOMPLETE, reason=reason) if end.state == COMPLETE else end


class Keeper:
    """Stores what comes on one line."""

    def __init__(
        self,
        intake: Intake,
        committer: Committer,
        fixer: Fixer,
        share: Share,
        observers: Observers,
        counts: "Counter[str]",
        say: Callable[[str, str], None],
        took_fixed: Callable[[str, Sequence[Change]], None],
    ) -> None:
        self.intake, self._committer, self._fixer, self._share = intake, committer, fixer, share
        self._tell, self._counts, self._say, self._took_fixed = observers.tell, counts, say, took_fixed
        #: Messages that ended. For each, the host tries which setting would deliver it.
        self._tries: List[Ended] = []
        #: The ends of messages in the text that aren't stored yet, by the messages' keys.
        self._ends: Dict[str, End] = {}
        #: Whether the text is stored in parts.
        self._is_long = False
        #: When the last complete message was stored, in seconds since 1970.
        self.last: Optional[float] = None

    async def keep(self, text: bytes) -> None:
        """Stores a text, in parts if it has many changes, so that no other line waits for all of them. Call `undo`
        after StoreError or TooLong."""
        part: List[Change] = []
        for changes in self.intake.take(text):
            for one in changes:
                if isinstance(one, End):
                    self._ends[one.key] = one
            if self.intake.bodies:
                changes = await self._fixed(changes)
            if not part:
                part = changes
                continue
            await self._share.take_turns()
            if len(part) + len(changes) > self._committer.part:
                self._is_long = True
                await self._put(part)
                part = changes
            else:
                _join(part, changes)
        if part:
            await self._put(part)
            if self._share.is_behind():
                await self._share.wait()
        self._is_long = False
        if self._tries:
            self._ends.clear()
            self._fixer.begin_tries(self._tries, self.put_later)

    def undo(self, reason: str) -> None:
        """A text could not be stored: the messages that ended in it, or go on, are incomplete."""
        self._is_long = False
        self._tries.clear()
        undone: List[Change] = [_incomplete(one, reason) for one in self._ends.values()]
        undone += self.intake.drop(reason)
        self._ends.clear()
        self.intake.bodies = {}
        if undone:
            self.put_later(undone)

    async def _fixed(self, changes: List[Change]) -> List[Change]:
        """Returns these changes, with those that store the messages made of the ones that end and aren't complete."""
        bodies, self.intake.bodies = self.intake.bodies, {}
        self._share.rests()
        changes = await self._fixer.of_all(changes, bodies, True, self._tries)
        self._ends.update((one.key, one) for one in fixed_ends(changes))
        return changes

    def _put(self, part: Sequence[Change]) -> Awaitable[None]:
        """Stores a part of a text: returns what is to be awaited."""
        self._share.rests()
        return self._put_ends(part) if self._ends else self._committer.put(part, self._is_long)

    async def _put_ends(self, part: Sequence[Change]) -> None:
        """Stores a part of a text in which messages end, as a rule."""
        ends = [one for one in part if isinstance(one, End)]
        if any(one.state == COMPLETE for one in ends):
            await self._fixer.order.over()  # no message overtakes one that is made of an earlier one
        await self._committer.put(part, self._is_long)
        for one in ends:
            self._ends.pop(one.key, None)
        self._note_ends(part)

    def _note_ends(self, changes: Sequence[Change]) -> None:
        """Counts the messages that ended in these changes, and logs what is wrong with them."""
        for end in changes:
            if not isinstance(end, End):
                continue
            self._tell(MessageEnded(end))
            self._counts["messages" if end.state == COMPLETE else "not_complete"] += 1
            look = self.intake.letters.pop(end.key, "")
            if end.state == COMPLETE:
                self.last = end.at
                if look:
                    about = f"message {end.key}: its letters are {look}"
                    self._say(f"{about}, and the line's encoding is {self.intake.encoding}", LETTERS)
                if end.reason:
                    self._counts["fixed"] += 1
                    self._took_fixed(end.key, changes)
            elif end.size:
                state = "" if end.reason.startswith(FIXED) else f"{end.state}: "
                self._say(f"message {end.key} is {state}{end.reason}", MESSAGE)

    def drop(self, reason: str, is_over: bool = False) -> None:
        """Ends the message that goes on, because no more of it comes. `is_over` says whether the analyzer had sent all
        of it."""
        changes = self.intake.drop(reason)
        if self.intake.bodies:
            bodies, self.intake.bodies = self.intake.bodies, {}
            self._fixer.order.begin(functools.partial(self._end_later, changes, bodies, is_over))
        elif changes:
            self.put_later(changes)

    def end(self, reason: str) -> None:
        """The line is closed. It isn't told any more what is fixed, and can be freed at once."""
        self.drop(reason)
        self._took_fixed = lambda key, changes: None

    async def _end_later(self, changes: List[Change], bodies: Bodies, is_over: bool) -> None:
        """Stores the end of a message for which no reply waits, and the messages that are made of it."""
        tries: List[Ended] = []
        made = await self._fixer.of_all(changes, bodies, is_over, tries)
        if made:
            await self.put_later(made)
        self._fixer.begin_tries(tries, self.put_later)

    def put_later(self, changes: Sequence[Change]) -> "asyncio.Future[None]":
        """Stores changes for which no reply waits. The messages that end in them are counted once they are stored."""
        kept = self._committer.put_later(changes, self._is_long)
        kept.add_done_callback(lambda done: None if done.cancelled() else self._note_ends(changes))
        return kept
