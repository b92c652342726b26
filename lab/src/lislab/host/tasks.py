"""Background work."""
import asyncio
from typing import Any, Callable, Coroutine, Optional, Set


class Tasks:
    """Background tasks. If one fails, that is logged, if there is a log."""

    def __init__(self, say: Optional[Callable[[str], None]] = None) -> None:
        self._say = say
        self.all: "Set[asyncio.Task[None]]" = set()

    def begin(self, work: "Coroutine[Any, Any, None]") -> "asyncio.Task[None]":
        """Begins work."""
        task: "asyncio.Task[None]" = asyncio.ensure_future(work)
        self.all.add(task)
        task.add_done_callback(self._over)
        return task

    def _over(self, done: "asyncio.Task[None]") -> None:
        self.all.discard(done)
        if self._say is not None and not done.cancelled() and done.exception() is not None:
            self._say(f"given up: {type(done.exception()).__name__}: {done.exception()}")

    async def cancel(self) -> None:
        """Ends all that goes on."""
        for task in self.all:
            task.cancel()
        await asyncio.gather(*self.all, return_exceptions=True)
