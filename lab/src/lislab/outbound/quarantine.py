"""The quarantine of a delivery: messages that failed too often, and later messages about the same samples. It is a file
next to the delivery's cursor. `lislab deliver --resend` leaves a wish there, an empty file, and the delivery that is
running sends the message."""
import contextlib
import glob
import json
import os
import re
import time
from typing import Any, Callable, Dict, FrozenSet, List, NamedTuple, Optional, Sequence, Tuple

from ..model.files import Unsynced, sync_folder, write_synced
from ..model.results import Reading
from ..model.samples import samples_of
from ..model.store import StoreError, Stored

#: The wish for all of them; and the form of a key.
ALL, _KEY = "all", re.compile(r"[0-9a-z]{1,64}$")
#: The ends of the names of the file next to a cursor: of this version, and of the version before.
QUARANTINE, EARLIER = ".quarantine", ".aside"


class Held(NamedTuple):
    """A quarantined message: how often it failed, why last, and since when."""

    number: int
    key: str
    samples: List[str]
    tries: int
    why: str
    at: float


class Quarantine:
    """The quarantine of a delivery. Only the process that has the cursor changes it."""

    def __init__(self, cursor: str, most: int = 0, reading: Callable[[str], Reading] = lambda line: Reading()) -> None:
        #: A message is quarantined after so many failures; never if it is 0.
        self.most = most
        self.path, self._earlier = cursor + QUARANTINE, cursor + EARLIER
        #: What is in quarantine, in order; the keys of these, the first one of each sample, and each as it is written.
        self.held = _read_held(self.path, self._earlier)
        self._keys, self._firsts = {one.key for one in self.held}, _firsts_of(self.held)
        self._rows: Dict[str, Tuple[Held, str]] = {}
        #: Which message is tried, and for which time: a try that ends the process is counted too.
        self._trying = Unsynced(cursor + ".trying")
        self._key, self._tries = _trying_of(cursor + ".trying")
        #: How the records of a line are read; and how they were when the samples of its messages were named.
        self._reading = reading
        self._named: Optional[Dict[str, Reading]] = None

    def _write(self, held: Sequence[Held]) -> None:
        """Writes them to the disk first, then keeps them here. StoreError if they can't be written."""
        for one in held:
            if one.key not in self._rows or self._rows[one.key][0] is not one:
                self._rows[one.key] = one, json.dumps(one._asdict())
        self._rows = {one.key: self._rows[one.key] for one in held}
        rows = ", ".join(text for _, text in self._rows.values())
        try:
            write_synced(self.path, f'{{"held": [{rows}]}}\n'.encode())
        except OSError as error:
            raise StoreError(f"{self.path}: {error.strerror or error}") from None
        with contextlib.suppress(OSError):  # one that stays is no longer read
            os.unlink(self._earlier)
        self.held, self._keys, self._firsts = list(held), {one.key for one in held}, _firsts_of(held)

    def _put(self, one: Stored, samples: FrozenSet[str], tries: int, why: str) -> None:
        assert one.number is not None
        row = Held(one.number, one.key, sorted(samples), tries, why, time.time())
        others = [each for each in self.held if each.key != one.key]
        self._write(sorted([*others, row]))

    def _count(self, key: str, tries: int) -> None:
        """Notes a try. It needs no sync: what is counted are ends of this process, and not of the machine."""
        self._key, self._tries = key, tries
        with contextlib.suppress(OSError):
            self._trying.write(f"{key} {tries}\n".encode())

    def begins(self, one: Stored) -> bool:
        """Counts a try of the next message before it is made; False if the message is quarantined, because each try
        ended the process."""
        if not self.most:
            return True
        tries = self._tries if self._key == one.key else 0
        if tries >= self.most:
            self._put(one, self._samples(one), tries, "each try ended the delivery itself")
            return False
        self._count(one.key, tries + 1)
        return True

    def takes_back(self, one: Stored) -> None:
        """Doesn't count the last try, because it failed for a reason that isn't the message's."""
        if self.most and self._key == one.key:
            self._count(one.key, self._tries - 1)

    def hold(self, one: Stored, why: str) -> None:
        """Quarantines a message at once."""
        self._put(one, self._samples(one), 0, why)

    def _samples(self, one: Stored) -> FrozenSet[str]:
        reading = self._reading(one.line)
        if self._named is not None:
            self._named.setdefault(one.line, reading)
        return samples_of(one, reading)

    def name(self, found: Callable[[Held], Optional[Stored]]) -> None:
        """Names the samples of the messages in quarantine as their lines' settings have them now: what comes later
        about one of them waits, also if it was a setting that was wrong."""
        named = self._named
        if not self.held or (named is not None and all(self._reading(line) == one for line, one in named.items())):
            return
        self._named, held = {}, []
        for one in self.held:
            stored = found(one)
            if stored is not None:
                samples = sorted(self._samples(stored))
                one = one if samples == one.samples else one._replace(samples=samples)
            held.append(one)
        if held != self.held:
            self._write(held)

    def takes(self, one: Stored) -> bool:
        """Whether a message is about a sample in quarantine; then it is quarantined too."""
        if not self.held:
            return False
        if one.key in self._keys:  # the cursor wasn't moved after it
            return True
        samples = self._samples(one)
        firsts = [self._firsts[sample] for sample in samples if sample in self._firsts]
        if firsts:
            self._put(one, samples, 0, f"waits for {min(firsts).key}")
        return bool(firsts)

    def failed(self, one: Stored, why: str) -> bool:
        """The next message failed; whether it is quarantined now."""
        if not self.most or self._tries < self.most:
            return False
        self._put(one, self._samples(one), self._tries, why)
        return True

    def together(self, key: str) -> List[Held]:
        """A quarantined message and all that share samples with it, or with each other, in order; all messages for the
        word `all`."""
        if key == ALL:
            return list(self.held)
        found = {each.key for each in self.held if each.key == key}
        samples: "set[str]" = set()
        while True:
            samples |= {one for each in self.held if each.key in found for one in each.samples}
            more = {each.key for each in self.held if samples & set(each.samples)} | found
            if more == found:
                return [each for each in self.held if each.key in found]
            found = more

    def sent(self, one: Held) -> None:
        """This one is delivered."""
        self._write([each for each in self.held if each.key != one.key])

    def failed_again(self, one: Held, why: str) -> None:
        """This one failed once more."""
        row = one._replace(tries=one.tries + 1, why=why)
        self._write([row if each.key == one.key else each for each in self.held])


def _read_held(path: str, earlier: str) -> List[Held]:
    """The messages of a quarantine, which the version before may have written."""
    which = earlier if not os.path.exists(path) and os.path.exists(earlier) else path
    return _held_of(which, _read(which))


def _read(path: str) -> Dict[str, Any]:
    try:
        with open(path, encoding="utf-8") as file:
            return dict(json.load(file))
    except FileNotFoundError:
        return {}
    except (OSError, ValueError) as error:
        raise StoreError(f"{path}: {error}") from None


def _firsts_of(held: Sequence[Held]) -> Dict[str, Held]:
    """The first one of each sample."""
    return {sample: one for one in reversed(held) for sample in one.samples}


def _trying_of(path: str) -> "tuple[str, int]":
    try:
        with open(path, encoding="ascii") as file:
            key, tries = file.read().split()
            return key, int(tries)
    except (OSError, ValueError):
        return "", 0


def _held_of(path: str, data: Dict[str, Any]) -> List[Held]:
    try:
        return sorted(Held(**row) for row in data.get("held", []))
    except TypeError as error:
        raise StoreError(f"{path}: {error}") from None


def held_of(cursor: str) -> List[Held]:
    """The messages in quarantine of the delivery with this cursor."""
    return Quarantine(cursor).held


def is_key(word: str) -> bool:
    """Whether a word may be a message's key, or is the word for all."""
    return _KEY.match(word) is not None


def wish(cursor: str, key: str) -> None:
    """Asks the delivery that has this cursor to send a message again."""
    path = f"{cursor}.again.{key}"
    try:
        os.close(os.open(path, os.O_WRONLY | os.O_CREAT | os.O_CLOEXEC, 0o600))
        sync_folder(os.path.dirname(os.path.realpath(path)))
    except OSError as error:
        raise StoreError(f"{path}: {error.strerror or error}") from None


def wishes(cursor: str) -> List[str]:
    """The keys that are asked for."""
    start = f"{cursor}.again."
    return sorted(path[len(start) :] for path in glob.glob(f"{glob.escape(start)}*"))


def grant(cursor: str, key: str) -> None:
    """Takes a wish away."""
    with contextlib.suppress(OSError):  # one that stays names a message that is no longer in quarantine
        os.unlink(f"{cursor}.again.{key}")
