"""`lislab send`: an analyzer. After a session that failed it takes a new connection, so that no late reply of the old
session reaches the next one; on a serial line it waits until such a reply would have come."""
import asyncio
import hashlib
import json
import os
import random
import socket
import sys
import time
from collections import Counter, deque
from typing import Callable, Deque, Iterator, List, NamedTuple, Optional, Sequence, Tuple, Union

from lislink.capture import looks_like_capture
from lislink.codes import Outcome, Phase
from lislink.link import REPLY, Sender
from lislink.message import Fault, read_all
from lislink.records import Writer
from ..host.tty import open_serial
from ..model.files import Appended
from ..model.options import Serial

Target = Union[Tuple[str, int], Serial]
Texts = List[bytes]


class Channel(asyncio.Protocol):
    """A line to a host."""

    def __init__(self) -> None:
        self._loop = asyncio.get_running_loop()
        self._came: Deque[int] = deque()
        self._waiter: "Optional[asyncio.Future[None]]" = None
        self._closed = False
        self._transport: Optional[asyncio.Transport] = None
        self._descriptor = -1

    def connection_made(self, transport: asyncio.BaseTransport) -> None:
        """The connection is there."""
        assert isinstance(transport, asyncio.Transport)
        self._transport = transport
        transport.get_extra_info("socket").setsockopt(socket.IPPROTO_TCP, socket.TCP_NODELAY, 1)

    def data_received(self, data: bytes) -> None:
        """Replies came."""
        self._came.extend(data)
        self._wake()

    def connection_lost(self, exc: Optional[Exception]) -> None:
        """The host closed the connection, or it broke."""
        self._closed = True
        self._wake()

    def begin(self, descriptor: int) -> None:
        """Uses a serial line."""
        self._descriptor = descriptor
        self._loop.add_reader(descriptor, self._readable)

    def _readable(self) -> None:
        try:
            data = os.read(self._descriptor, 4096)
        except BlockingIOError:
            return
        except OSError:
            data = b""
        if data:
            self.data_received(data)
        else:
            self._loop.remove_reader(self._descriptor)
            self.connection_lost(None)

    def _wake(self) -> None:
        if self._waiter is not None and not self._waiter.done():
            self._waiter.set_result(None)

    async def byte(self, due: float) -> Optional[int]:
        """The next reply byte; None if none comes until then. EOFError if the line is closed."""
        while not self._came:
            if self._closed:
                raise EOFError("the line is closed")
            if self._loop.time() >= due:
                return None
            self._waiter = self._loop.create_future()
            alarm = self._loop.call_at(due, self._wake)
            try:
                await self._waiter
            finally:
                alarm.cancel()
                self._waiter = None
        return self._came.popleft()

    async def write(self, data: bytes) -> None:
        """Sends a unit."""
        if self._closed:
            raise EOFError("the line is closed")
        if self._transport is not None:
            self._transport.write(data)
            return
        while data:
            try:
                data = data[os.write(self._descriptor, data) :]
            except BlockingIOError:
                time.sleep(0.001)

    def close(self) -> None:
        """Closes the line."""
        if self._transport is not None:
            self._transport.close()
        elif self._descriptor >= 0:
            self._loop.remove_reader(self._descriptor)
            os.close(self._descriptor)
            self._descriptor = -1
        self._closed = True


async def session(channel: Channel, texts: Sequence[bytes], scale: float, waits: List[float]) -> Outcome:
    """Sends texts in one session by the standard's timers; how long each reply was waited for goes to `waits`."""
    loop = asyncio.get_running_loop()
    with Sender() as sender:
        for text in texts:
            sender.add_text(text)
        out = sender.start()
        while True:
            sent = loop.time()
            if out:
                await channel.write(out)
            phase = sender.phase
            if phase is Phase.NEUTRAL:
                return sender.outcome
            due, out = loop.time() + (sender.seconds or 0) * scale, b""
            while not out and sender.phase is phase:
                reply = await channel.byte(due)
                if reply is None:
                    out = sender.timer()
                    break
                waits.append(loop.time() - sent)
                out = sender.reply(reply)


async def connect(target: Target, made: Callable[[], Channel] = Channel) -> Channel:
    """A line to a host; OSError."""
    if isinstance(target, Serial):
        channel = made()
        channel.begin(open_serial(target))
        return channel
    _, found = await asyncio.get_running_loop().create_connection(made, *target)
    return found


class Sent(NamedTuple):
    """How a message went: its outcome, how many sessions it took, and how long in seconds."""

    done: bool
    why: str
    sessions: int
    seconds: float


class Analyzer:
    """Sends messages one after another to one host."""

    def __init__(self, plan: "Plan") -> None:
        self._target, self._made, self._scale, self._tries = plan.target, plan.made, plan.scale, plan.tries
        self._channel: Optional[Channel] = None
        #: How many messages are done and failed, and how its sessions ended.
        self.done = self.failed = 0
        self.outcomes: "Counter[str]" = Counter()
        #: How long each reply was waited for, in seconds: the last ten thousand.
        self.waits: List[float] = []

    async def send(self, texts: Sequence[bytes]) -> Sent:
        """Sends a message until it is done or has failed too often, with a new connection after each session that
        failed."""
        begun, tried, why = time.monotonic(), 0, ""
        while not self._tries or tried < self._tries:
            tried += 1
            try:
                if self._channel is None:
                    self._channel = await connect(self._target, self._made)
                outcome = await session(self._channel, texts, self._scale, self.waits)
                why = outcome.name
            except (OSError, EOFError) as error:
                outcome, why = Outcome.RESTARTED, str(error) or type(error).__name__
            self.outcomes[outcome.name if why == outcome.name else "CLOSED"] += 1
            del self.waits[:-10000]
            if outcome is Outcome.DONE:
                self.done += 1
                return Sent(True, why, tried, time.monotonic() - begun)
            await self._give_up()
        self.failed += 1
        return Sent(False, why, tried, time.monotonic() - begun)

    async def _give_up(self) -> None:
        """After a session that failed: nothing of it may reach the next one."""
        wait = min(1.0, REPLY * self._scale) * (0.2 + 0.8 * random.random())
        if isinstance(self._target, Serial):
            wait = REPLY * self._scale
        await asyncio.sleep(wait)
        self.close()

    def close(self) -> None:
        """Closes the line."""
        if self._channel is not None:
            self._channel.close()
        self._channel = None


def messages_of(stream: bytes) -> Iterator[Union[Texts, str]]:
    """The messages of a stream of records, each as the texts of its records; why one can't be sent in its place."""
    if looks_like_capture(stream):
        yield "this is a capture, no file of records: `lislab play` plays it, `lislink texts` makes records of it"
        return
    for number, found in enumerate(read_all(stream), 1):
        if isinstance(found, Fault):
            yield f"message {number}: record {found.error.number} can't be read: {found.error.reason.name}"
            continue
        places = [found.start, *found.ends]
        yield [stream[start:end] for start, end in zip(places, places[1:])]


def made_message(name: str, number: int) -> Texts:
    """A message that no other analyzer and no other number has, for tests."""
    with Writer() as writer:
        writer.record("H", [b"", b"", name.encode()])
        writer.record("P", [b"1"])
        writer.record("O", [b"1", b"%s-%d" % (name.encode(), number)])
        for test in range(3):
            writer.record("R", [b"%d" % (test + 1), [b"", b"", b"", b"T%d" % test], b"5.%d" % test, b"mmol/L"])
        writer.record("C", [b"1", b"I", b"a comment that takes more than one frame " * 7])
        writer.record("L", [b"1", b"N"])
        return writer.texts()


class Plan(NamedTuple):
    """What `lislab send` is to do."""

    target: Target
    texts: Callable[[str], Iterator[Texts]]
    names: Sequence[str]
    rate: float
    scale: float
    tries: int
    log: Optional[str]
    seconds: Optional[float]
    #: What makes a line to the host.
    made: Callable[[], Channel] = Channel


class Summary(NamedTuple):
    """How it went: messages that are done and that failed, sessions by outcome, seconds, and waits for replies."""

    done: int
    failed: int
    outcomes: "Counter[str]"
    seconds: float
    waits: List[float]


async def send_all(plan: Plan, report: Callable[[str, int, Sent], None]) -> Summary:
    """Lets all analyzers send, for some time or to their ends; `report` gets each message."""
    begun, log = time.monotonic(), None
    if plan.log is not None:
        log = Appended(plan.log, os.O_APPEND)
    analyzers = [Analyzer(plan) for _ in plan.names]
    work = [
        asyncio.ensure_future(_send_of(plan, name, analyzer, log, report))
        for name, analyzer in zip(plan.names, analyzers)
    ]
    _, left = await asyncio.wait(work, timeout=plan.seconds)
    for one in left:
        one.cancel()
    faults = [one for one in await asyncio.gather(*work, return_exceptions=True) if isinstance(one, Exception)]
    if log is not None:
        log.close()
    if faults:
        raise faults[0]
    outcomes: "Counter[str]" = Counter()
    for analyzer in analyzers:
        outcomes.update(analyzer.outcomes)
    waits = sorted(wait for analyzer in analyzers for wait in analyzer.waits)
    done, failed = sum(one.done for one in analyzers), sum(one.failed for one in analyzers)
    return Summary(done, failed, outcomes, time.monotonic() - begun, waits)


async def _send_of(
    plan: Plan, name: str, analyzer: Analyzer, log: Optional[Appended], report: Callable[[str, int, Sent], None]
) -> None:
    next_at = time.monotonic()
    try:
        for number, texts in enumerate(plan.texts(name), 1):
            if plan.rate:
                await asyncio.sleep(max(0.0, next_at - time.monotonic()))
                next_at = max(next_at + 1 / plan.rate, time.monotonic() - 1 / plan.rate)
            sent = await analyzer.send(texts)
            if sent.done and log is not None:
                row = [name, number, hashlib.sha256(b"".join(texts)).hexdigest()]
                log.add(json.dumps(row).encode() + b"\n")
            report(name, number, sent)
    finally:
        analyzer.close()


def milliseconds(waits: Sequence[float], share: float) -> str:
    """The wait that this share of all waits doesn't pass."""
    return f"{waits[min(len(waits) - 1, int(len(waits) * share))] * 1000:.1f}" if waits else "-"


def print_sent(name: str, number: int, sent: Sent) -> None:
    """A line for a message."""
    how = "done" if sent.done else f"failed: {sent.why}"
    print(f"{name}message {number} {how}, sessions {sent.sessions}, {sent.seconds:.2f} s", flush=True)


def print_summary(summary: Summary) -> None:
    """The last lines, on standard error."""
    rate = summary.done / summary.seconds if summary.seconds else 0.0
    sessions = ", ".join(f"{name} {count}" for name, count in sorted(summary.outcomes.items()))
    shares = ((0.5, "median"), (0.99, "99%"), (1, "longest"))
    waits = ", ".join(f"{milliseconds(summary.waits, share)} ms ({text})" for share, text in shares)
    head = f"lislab: done {summary.done}, failed {summary.failed}, {rate:.1f} per second"
    print(f"{head}; sessions {sessions}; replies after {waits}", file=sys.stderr)
