"""`lislab send --query`: an analyzer that queries the orders of samples, receives them, and may send results for
them."""
import asyncio
import re
from typing import Iterator, List, NamedTuple, Optional, Sequence, Tuple

from lislink.codes import Outcome, Phase, Role
from lislink.letters import LATIN
from lislink.link import FRAME_TEXT
from lislink.records import Writer, messages
from lislink.station import Answer, Station
from .send import Channel, Target, connect

#: How long the orders are waited for after a query, and a session that the host begins, in seconds.
ORDERS = 30.0
#: A sample and its tests.
Asked = Tuple[bytes, List[bytes]]


class Round(NamedTuple):
    """How a round went: the records of the answer, each a text, and why there are none, or no results were sent."""

    texts: List[bytes]
    why: str


def query_texts(samples: Sequence[str], encoding: str = LATIN) -> List[bytes]:
    """The records of a query for samples: all of them if there are none."""
    named = [sample.encode(encoding) for sample in samples] or [b"ALL"]
    with Writer() as writer:
        writer.record("H", [b"", b"", b"lislab send", b"", b"", b"", b"", b"", b"", b"P", b"LIS2-A2"])
        for number, sample in enumerate(named, 1):
            writer.record("Q", [b"%d" % number, [b"", sample], b"", [b"", b"", b"", b"ALL"], *[b""] * 7, b"O"])
        writer.record("L", [b"1", b"N"])
        return writer.texts()


def orders_in(texts: Sequence[bytes]) -> Iterator[Asked]:
    """The samples of an answer with their tests."""
    for rows in messages([b"".join(texts)]):
        for row in rows:
            if row.letter == "O":
                yield row.part(3) or b"", [some[3] if len(some) > 3 else some[-1] for some in row.field(5)]


def result_texts(asked: Sequence[Asked], values: Sequence[Tuple[bytes, bytes, bytes]]) -> List[bytes]:
    """The records of results for the orders that came. A value is (test, value, unit); a test without one has none."""
    known = {test: (value, unit) for test, value, unit in values}
    with Writer() as writer:
        writer.record("H", [b"", b"", b"lislab send", b"", b"", b"", b"", b"", b"", b"P", b"LIS2-A2"])
        writer.record("P", [b"1"])
        for number, (sample, tests) in enumerate(asked, 1):
            writer.record("O", [b"%d" % number, sample])
            for place, test in enumerate((one for one in tests if one in known), 1):
                value, unit = known[test]
                writer.record("R", [b"%d" % place, [b"", b"", b"", test], value, unit, b"", b"", b"", b"F"])
        writer.record("L", [b"1", b"N"])
        return writer.texts()


def values_of(data: bytes) -> List[Tuple[bytes, bytes, bytes]]:
    """The values of a file with lines of `TEST,VALUE,UNIT`."""
    rows = [row.split(b",") for row in re.split(rb"\r?\n", data) if row.strip()]
    return [
        (row[0].strip(), row[1].strip() if len(row) > 1 else b"", row[2].strip() if len(row) > 2 else b"")
        for row in rows
    ]


class Asker:
    """An analyzer on one line: a station, its line, and its timers."""

    def __init__(self, channel: Channel, scale: float) -> None:
        self._channel, self._scale = channel, scale
        self._station = Station(Role.ANALYZER, frame_limit=FRAME_TEXT)
        self._loop = asyncio.get_running_loop()

    async def send(self, texts: Sequence[bytes]) -> Outcome:
        """Sends texts in a session, as soon as the line is free; what comes before that is heard."""
        while self._station.is_open:
            await self._next(self._loop.time() + ORDERS * self._scale)
        await self._channel.write(self._station.start(texts))
        while self._station.phase is not Phase.NEUTRAL:
            await self._next(None)
        return self._station.outcome

    async def receive(self) -> List[bytes]:
        """The texts of the next session of the host; none if none comes in time."""
        texts: List[bytes] = []
        end, began = self._loop.time() + ORDERS * self._scale, False
        while True:
            answer = await self._next(None if self._station.is_open else end)
            if answer is None:
                return texts
            texts += [answer.text] if answer.text is not None else []
            began = began or self._station.is_open
            if began and not self._station.is_open:
                return texts

    async def _next(self, end: Optional[float]) -> Optional[Answer]:
        """The next answer of the station, which is sent; None if the time is over before there is one."""
        seconds = self._station.seconds
        timer = None if seconds is None else self._loop.time() + seconds * self._scale
        while True:
            until = min(at for at in (timer, end, self._loop.time() + 3600) if at is not None)
            byte = await self._channel.byte(until)
            if byte is None:
                if timer is None or self._loop.time() < timer:
                    return None
                return await self._sent(self._station.timer())
            for answer in self._station.hear(bytes([byte])):
                return await self._sent(answer)

    async def _sent(self, answer: Answer) -> Answer:
        if answer.send:
            await self._channel.write(answer.send)
        return answer

    def close(self) -> None:
        """Gives the station back."""
        self._station.close()


async def connected(target: Target, tries: int) -> Channel:
    """A line to a host, which is tried so many times, a second apart; OSError."""
    tried = 0
    while True:
        tried += 1
        try:
            return await connect(target)
        except OSError:
            if tried == tries:
                raise
            await asyncio.sleep(1.0)


async def ask(
    channel: Channel, samples: Sequence[str], values: Optional[Sequence[Tuple[bytes, bytes, bytes]]], scale: float
) -> Round:
    """Asks for the orders of samples, and sends results for them if there are values."""
    one = Asker(channel, scale)
    try:
        outcome = await one.send(query_texts(samples))
        if outcome is not Outcome.DONE:
            return Round([], f"the query's session ended as {outcome.name}")
        texts = await one.receive()
        if not texts:
            return Round([], "no answer came")
        if values is None:
            return Round(texts, "")
        asked = list(orders_in(texts))
        if not asked:
            return Round(texts, "the answer holds no order")
        outcome = await one.send(result_texts(asked, values))
        return Round(texts, "" if outcome is Outcome.DONE else f"the results' session ended as {outcome.name}")
    finally:
        one.close()
