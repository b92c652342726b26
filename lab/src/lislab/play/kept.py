"""The records that were acknowledged in a script, and whether the other end has stored each of them once."""
import contextlib
import shlex
import subprocess
from collections import Counter
from typing import Callable, List, Optional, Tuple

from ..model.store import StoreError
from ..model.stores import open_store
from .frames import Frame, quoted, read_frame
from .wanted import Difference

#: Gives the records that the other end has kept.
Source = Callable[[], bytes]


class NotKept(Exception):
    """What the other end has kept can't be looked at."""


def from_command(words: str) -> Source:
    """What a command prints: records."""
    split = shlex.split(words)

    def read() -> bytes:
        try:
            done = subprocess.run(split, stdout=subprocess.PIPE, timeout=60, check=False)
        except (OSError, subprocess.TimeoutExpired) as error:
            raise NotKept(f"--kept: {error}") from None
        if done.returncode:
            raise NotKept(f"--kept: {split[0]} ended with status {done.returncode}")
        return done.stdout

    return read


def from_store(name: str) -> Source:
    """The messages in a store of `lislab serve`, complete or not."""

    def read() -> bytes:
        try:
            with contextlib.closing(open_store(name)) as store:
                return b"".join(one.body for some in (store.messages(), store.others()) for one in some)
        except StoreError as error:
            raise NotKept(f"--store: {error}") from None

    return read


def records_in(data: bytes) -> "Counter[bytes]":
    """The records of bytes, each with how often it is there; they end in CR, LF or both."""
    return Counter(one for one in data.replace(b"\n", b"\r").split(b"\r") if one)


def _of(record: bytes, wanted: int, got: int) -> Difference:
    return f"kept:{quoted(record)}*{wanted}", f"kept:{quoted(record)}*{got}"


class Keeping:
    """The texts that were acknowledged, as a sender counts them."""

    def __init__(self, source: Optional[Source]) -> None:
        self._source = source
        self._before: "Counter[bytes]" = Counter()
        self._texts: List[bytes] = []
        self._part, self._accepted, self._sent = b"", 0, None  # type: bytes, int, Optional[Frame]

    def begin(self) -> None:
        """The play begins: what is there already doesn't count."""
        if self._source is not None:
            self._before = records_in(self._source())

    def enquiry(self) -> None:
        """A session begins, or the line was restarted."""
        self._part, self._accepted, self._sent = b"", 0, None

    def sent(self, data: bytes) -> None:
        """A frame was sent, or something else."""
        self._sent = read_frame(data)

    def acknowledged(self) -> None:
        """ACK came, or EOT in its place. A frame with the number of the last one counts once."""
        frame, self._sent = self._sent, None
        if frame is None or frame.number != (self._accepted + 1) % 8:
            return
        self._accepted += 1
        self._part += frame.text
        if frame.is_last:
            self._texts.append(self._part)
            self._part = b""

    def expected(self) -> "Tuple[Counter[bytes], Counter[bytes]]":
        """The records of complete messages, which must be stored, and those of others, which may be. A message that
        came before may be stored again."""
        must: List[bytes] = []
        may: List[bytes] = []
        whole: List[List[bytes]] = []
        message: List[bytes] = []
        for record in b"".join(self._texts).split(b"\r"):
            if record[:1] in (b"H", b"h"):
                may += message
                message = []
            message += [record] if record else []
            if record[:1] in (b"L", b"l"):
                must += [] if message in whole else message
                may += message if message in whole else []
                whole.append(message)
                message = []
        return Counter(must), Counter(may + message)

    def look(self) -> Tuple[str, List[Difference]]:
        """What was seen, in words; what is missing, and what is there too often."""
        if self._source is None:
            return "what is kept wasn't looked at", []
        must, may = self.expected()
        there = records_in(self._source())
        there.subtract(self._before)
        found = []
        for record in must:
            if there[record] < must[record]:
                found.append(_of(record, must[record], max(there[record], 0)))
        for record, count in there.items():
            if count > must[record] + may[record]:
                found.append(_of(record, must[record] + may[record], count))
        return f"checked what is stored: {sum(must.values())} records of complete messages", found
