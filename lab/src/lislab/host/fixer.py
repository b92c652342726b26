"""Fixes a line's messages that aren't complete, in their order and in processes of their own, so that no reply of
another line waits. If the host dies, the next start fixes what it left."""
import asyncio
import contextlib
import functools
import multiprocessing
import os
import signal
import threading
import time
from collections import Counter
from concurrent.futures import Executor, ProcessPoolExecutor
from concurrent.futures.process import BrokenProcessPool
from typing import Any, Awaitable, Callable, Dict, FrozenSet, List, Mapping, Optional, Sequence, Tuple, TypeVar

from ..model.options import NAMES
from ..model.store import COMPLETE, Add, Begin, Change, End
from . import fix
from .fix import MAKES_AN_END, MOST_RECORDS, MOST_TRIED, Ended, Fixed, has_long, made_of
from .tasks import Tasks
from .unknown import Unknown

#: So many messages of a line are tried at once, and then one each so many seconds; of all lines so many bytes wait to
#: be tried.
AT_ONCE, SECONDS, TRIED = 5, 10.0, 2 * MOST_TRIED
#: Up to so many bytes a message is fixed by a process that has no long work.
SMALL = 1 << 16
#: How messages began that aren't complete, and their bytes, by their keys.
Bodies = Mapping[str, Tuple[Begin, bytes]]
T = TypeVar("T")


def _alone() -> None:
    """Begins a process that works for a host: it ends with the host, however that ends, and not before."""
    for name in (signal.SIGTERM, signal.SIGINT, signal.SIGHUP):
        signal.signal(name, signal.SIG_IGN)
    # A service may be forbidden to change what it gets of the processor, as the packaged unit is.
    with contextlib.suppress(OSError):
        os.nice(5)
    threading.Thread(target=_end_with_host, daemon=True).start()


def _end_with_host() -> None:
    host = multiprocessing.parent_process()
    if host is not None:
        host.join()
        os._exit(0)


def _pool() -> Executor:
    return ProcessPoolExecutor(1, multiprocessing.get_context("spawn"), _alone)


class Workers:
    """The processes that fix: one for short work, one for long, and one that only tries. Each is started when there is
    work for it, and again if it dies."""

    def __init__(self, pool: Callable[[], Executor] = _pool) -> None:
        self._make = pool
        self._pools: Dict[str, Executor] = {}
        self._tried, self._is_stopped = 0, False

    async def fixed(self, body: bytes, names: FrozenSet[str]) -> Optional[Fixed]:
        """As `fix.fixed`."""
        return await self._run("short" if len(body) <= SMALL else "long", fix.fixed, body, names)

    def may_try(self, size: int) -> bool:
        """Whether a message of this size may be tried, or too much is waiting to be."""
        return self._tried + size <= TRIED

    async def lacking(self, body: bytes, names: FrozenSet[str], is_over: bool) -> List[str]:
        """As `fix.lacking`."""
        self._tried += len(body)
        try:
            return await self._run("tries", fix.lacking, body, names, is_over)
        finally:
            self._tried -= len(body)

    async def _run(self, kind: str, work: Callable[..., T], *words: Any) -> T:
        for is_last in (False, True):
            if self._is_stopped:  # a process that the stop ended isn't started again
                raise asyncio.CancelledError
            if kind not in self._pools:
                self._pools[kind] = self._make()
            pool = self._pools[kind]
            try:
                return await asyncio.get_running_loop().run_in_executor(pool, functools.partial(work, *words))
            except BrokenProcessPool:
                if self._pools.get(kind) is pool:
                    del self._pools[kind]
                if is_last:
                    raise
        raise AssertionError("the last try returned")

    def stop(self) -> None:
        """Ends the processes, with what they do. None is started after that."""
        self._is_stopped = True
        for pool in self._pools.values():
            pool.shutdown(wait=False, cancel_futures=True)
        for process in multiprocessing.active_children():
            process.kill()


class InOrder:
    """Work on a line's messages after their sessions, in order: each fixed message is stored before the next one is
    fixed, and before a later message becomes complete."""

    def __init__(self) -> None:
        self._tasks = Tasks()
        self._last: "Optional[asyncio.Task[None]]" = None

    def begin(self, work: Callable[[], Awaitable[None]]) -> None:
        """Begins work, after all that was begun before."""
        self._last = self._tasks.begin(self._after(self._last, work))

    @staticmethod
    async def _after(before: "Optional[asyncio.Task[None]]", work: Callable[[], Awaitable[None]]) -> None:
        if before is not None and not before.done():
            await asyncio.wait([before])
        await work()

    async def over(self) -> None:
        """Returns when all work begun so far is stored."""
        if self._last is not None and not self._last.done():
            await asyncio.wait([self._last])

    async def stop(self, seconds: float) -> None:
        """Waits so long for the work begun so far. The next start does what isn't done then."""
        if self._tasks.all:
            await asyncio.wait(list(self._tasks.all), timeout=seconds)
        await self._tasks.cancel()


class Fixer:
    """What is made of a line's messages that aren't complete."""

    def __init__(
        self,
        names: Sequence[str],
        workers: Workers,
        would: "Counter[str]",
        unknown: Optional[Unknown] = None,
        order: Optional[InOrder] = None,
    ) -> None:
        self.names, self._workers, self._unknown = frozenset(names), workers, unknown
        self.order = order or InOrder()
        #: How many messages each setting would have delivered.
        self._would = would
        self._left, self._at = float(AT_ONCE), time.monotonic()
        self._tries = Tasks()

    async def of_all(
        self, changes: Sequence[Change], bodies: Bodies, is_over: bool, tries: List[Ended]
    ) -> List[Change]:
        """These changes, and the changes that store the fixed messages made of those that end and aren't complete. A
        message for which the host will try which setting would deliver it goes to `tries`, without its end."""
        made: List[Change] = []
        for one in changes:
            if isinstance(one, End) and one.key in bodies:
                made += await self.changes(Ended(*bodies[one.key], one, is_over), tries)
            else:
                made.append(one)
        return made

    async def changes(self, one: Ended, tries: Optional[List[Ended]] = None) -> List[Change]:
        """The changes that end a message, with those of the messages that are made of it; none if it goes to
        `tries`."""
        try:
            found = await self._made(one)
        except Exception as error:  # an error in a fix is no reason to lose the message
            return [one.end._replace(reason=f"{one.end.reason}; it could not be fixed: {type(error).__name__}")]
        if found is not None:
            return await self._looked_up(made_of(one, found), one.begin.encoding)
        if tries is None or not one.is_over or not self._may_try(len(one.body)):
            return [one.end]
        tries.append(one)
        return []

    async def _made(self, one: Ended) -> Optional[Fixed]:
        """What is made of a message by the line's changes, and by what is always done."""
        names = self.names if one.is_over else self.names - MAKES_AN_END
        is_small = one.body.count(b"\r") + one.body.count(b"\n") <= MOST_RECORDS
        return await self._workers.fixed(one.body, names) if is_small and (names or has_long(one.body)) else None

    async def _looked_up(self, made: List[Change], encoding: str) -> List[Change]:
        """The same changes: the codes of the messages that they keep are looked up."""
        for change in made if self._unknown is not None else ():
            if self._unknown is not None and isinstance(change, Add):
                work = functools.partial(self._unknown.look_at_all, change.key, change.body, encoding)
                await asyncio.get_running_loop().run_in_executor(None, work)
        return made

    def _may_try(self, size: int) -> bool:
        now = time.monotonic()
        self._left, self._at = min(AT_ONCE, self._left + (now - self._at) / SECONDS), now
        if size > MOST_TRIED or self._left < 1 or not self._workers.may_try(size):
            return False
        self._left -= 1
        return True

    def begin_tries(self, tries: List[Ended], later: Callable[[List[Change]], object]) -> None:
        """Tries which settings would deliver messages whose bytes are stored; calls `later` with the end of each."""
        for one in tries:
            self._tries.begin(self._try(one, later))
        tries.clear()

    async def _try(self, one: Ended, later: Callable[[List[Change]], object]) -> None:
        end = one.end
        try:
            with contextlib.suppress(Exception):
                more = await self._workers.lacking(one.body, self.names, one.is_over)
                if more:
                    setting = "fix=" + ",".join(name for name in NAMES if name in self.names or name in more)
                    self._would[setting] += 1
                    end = end._replace(reason=f"{end.reason}; {setting} would deliver it")
        finally:
            later([end])

    async def stop(self) -> None:
        """Tries nothing more: what was to be tried ends without it."""
        await self._tries.cancel()


def fixed_ends(changes: Sequence[Change]) -> List[End]:
    """The ends of the messages that were made of others."""
    return [one for one in changes if isinstance(one, End) and one.state == COMPLETE and one.reason]
