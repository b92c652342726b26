"""Runs a program for an answer. If the answer doesn't come in time, the program and all that it started are killed."""
import asyncio
import contextlib
import os
import signal
from typing import Mapping, Optional, Sequence, cast

from ..model.store import StoreError


class _Running(asyncio.SubprocessProtocol):
    """A program that runs: what it has printed, of at most so many bytes."""

    def __init__(self, most: int) -> None:
        self._most, self.out = most, bytearray()
        #: Done when the program has ended and nobody has its standard output any more.
        self.over: "asyncio.Future[None]" = asyncio.get_running_loop().create_future()
        #: Set when the program itself has ended.
        self.ended = asyncio.Event()

    def process_exited(self) -> None:
        """It has ended."""
        self.ended.set()

    def pipe_data_received(self, fd: int, data: bytes) -> None:
        """It prints something."""
        self.out += data
        if len(self.out) > self._most and not self.over.done():
            self.over.set_exception(StoreError(f"it answers over {self._most} bytes"))

    def connection_lost(self, exc: Optional[Exception]) -> None:
        """It has ended, and its pipes are closed."""
        if not self.over.done():
            self.over.set_result(None)


async def output_of(words: Sequence[str], given: bytes, most: int, seconds: float, about: Mapping[str, str]) -> bytes:
    """What a program prints that has these bytes as its standard input, and `about` in its environment; StoreError if
    it prints more than `most` bytes, ends with another status than 0, or isn't over within so many seconds, with all
    that has its output: then its process group is killed, so that nothing of it goes on."""
    loop, pipe = asyncio.get_running_loop(), asyncio.subprocess.PIPE
    transport, running = await loop.subprocess_exec(
        lambda: _Running(most),
        *words,
        stdin=pipe,
        stdout=pipe,
        stderr=None,
        start_new_session=True,
        env={**os.environ, **about},
    )
    try:
        to = cast(asyncio.WriteTransport, transport.get_pipe_transport(0))
        to.write(given)
        to.close()
        await asyncio.wait_for(asyncio.shield(running.over), seconds)
        if transport.get_returncode():
            raise StoreError(f"it ended with status {transport.get_returncode()}")
        return bytes(running.out)
    except asyncio.TimeoutError:
        raise StoreError(f"it took over {seconds:g} s") from None
    finally:
        if transport.get_returncode() is None or not running.over.done() or running.over.exception() is not None:
            with contextlib.suppress(ProcessLookupError):
                os.killpg(transport.get_pid(), signal.SIGKILL)
            with contextlib.suppress(asyncio.TimeoutError):
                await asyncio.wait_for(running.ended.wait(), 1.0)
        transport.close()
