"""The fixers of a host's lines, by the names of the lines and by what they fix. And the messages that a host left open
when it died: the next start ends them, and fixes them if their line does."""
import asyncio
import functools
import hashlib
from collections import Counter
from typing import Callable, Dict, Iterable, List, Mapping, NamedTuple, Sequence, Tuple

from ..diagnosis.notices import MESSAGE, Notices
from ..model.options import Listen, Place
from ..model.store import INCOMPLETE, LEFT, Begin, End, Store, Stored
from .storing import Committer
from .fix import MOST, Ended, has_long
from .fixer import Fixer, InOrder, Workers, fixed_ends
from .unknown import Unknown

#: How long a stop waits for what is fixed, and a start for the ends of what was left open.
FIXING = ENDING = 3.0
#: The most bytes of messages that are held at a start to be fixed.
HELD = 64 << 20


class Left(NamedTuple):
    """Messages that were left open: the ends of those that are not fixed, and those that may be fixed."""

    ends: List[End]
    to_fix: List[Ended]


def left_of(store: Store, left: Iterable[Stored], fixes: Mapping[str, Sequence[str]]) -> Left:
    """How messages end that were left open, by what each line fixes, in their order."""
    found, held = Left([], []), 0
    for one in left:
        ended = ended_of(one._replace(body=store.body_of(one.key)))
        if len(ended.body) <= min(MOST, HELD - held) and (fixes.get(one.line) or has_long(ended.body)):
            found.to_fix.append(ended)
            held += len(ended.body)
        else:
            found.ends.append(ended.end)
    return found


def ended_of(one: Stored) -> Ended:
    """A message that was left open, as it ends. All of it was acknowledged, and the end of its session may have come:
    if its last record is whole, it is fixed as if it had."""
    digest = hashlib.sha256(one.body).hexdigest()
    end = End(one.key, one.line, INCOMPLETE, LEFT, digest, len(one.body), one.began)
    begin = Begin(one.key, one.line, one.peer, one.encoding, one.began)
    return Ended(begin, one.body, end, one.body.endswith((b"\r", b"\n")))


class Fixers:
    """The fixers of all lines, and the processes that they share."""

    def __init__(self, committer: Committer, notices: Notices, unknown: Callable[[str], Unknown]) -> None:
        self._committer, self._notices, self._unknown = committer, notices, unknown
        self._fixers: Dict[Tuple[str, Tuple[str, ...]], Fixer] = {}
        self._workers = Workers()
        self._orders: Dict[str, InOrder] = {}
        #: How many messages of each line a setting would deliver.
        self.would: Dict[str, "Counter[str]"] = {}

    def of(self, place: Place) -> Fixer:
        """What fixes the messages of a line, by its settings as they are now."""
        one = self._fixers.get((place.name, place.fix))
        if one is None:
            would = self.would.setdefault(place.name, Counter())
            order = self._orders.setdefault(place.name, InOrder())
            one = Fixer(place.fix, self._workers, would, self._unknown(place.name), order)
            self._fixers[place.name, place.fix] = one
        return one

    async def end_left(self, left: Left, places: Sequence[Place]) -> None:
        """Ends what the host left open that was here before, and begins to fix it: what comes now is after it."""
        part, ends = self._committer.part, left.ends
        kept = [self._committer.put_later(ends[start : start + part]) for start in range(0, len(ends), part)]
        if kept:  # a store that keeps nothing now is no reason not to start
            await asyncio.wait(kept, timeout=ENDING)
        known = {place.name: place for place in places}
        for one in left.to_fix:
            fixer = self.of(known.get(one.begin.line, Listen("", 0, one.begin.line)))
            fixer.order.begin(functools.partial(self._fix_one, fixer, one))

    async def _fix_one(self, fixer: Fixer, one: Ended) -> None:
        made = await fixer.changes(one)
        await self._committer.put_later(made)
        for end in fixed_ends(made):
            self._notices.say(end.line, f"message {one.end.key} is fixed: delivered as {end.key}; {LEFT}", MESSAGE)

    async def stop(self) -> None:
        """Waits for a while for what is fixed, and ends the processes."""
        await asyncio.gather(*(order.stop(FIXING) for order in self._orders.values()))
        await asyncio.gather(*(fixer.stop() for fixer in self._fixers.values()))
        self._workers.stop()
