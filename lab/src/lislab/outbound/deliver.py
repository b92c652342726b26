"""`lislab deliver`: complete messages out of a store to a command or a directory: in order, each at least once. What
was delivered last is kept in a small file, so that a delivery that was stopped goes on where it was."""
import contextlib
import json
import os
import signal
import subprocess
import time
from typing import Any, Callable, Dict, Iterator, List, NamedTuple, Optional, Set

from ..model.failures import Quarantined, Refused, Unreachable
from ..model.files import Unsynced, take_lock, write_synced
from ..model.said import many
from ..model.store import Store, StoreError, Stored
from .quarantine import Held, Quarantine, grant, wishes
from .export import Writer

#: Seconds until an idle delivery looks for new messages; seconds that a failed delivery waits, at first and at most.
POLL, FIRST_WAIT, LONGEST_WAIT = 1.0, 1.0, 60.0


#: Of so many messages a cursor says how long they took. For so many seconds it may be ahead of the disk: a power cut
#: makes the messages of that time come again, a process that ends doesn't.
TOOK, SYNC = 200, 0.2


class NotNoted(StoreError):
    """A message was delivered, and the cursor that says so can't be written."""


class Stopped(BaseException):
    """The delivery is asked to end."""


class WrongStore(Exception):
    """The cursor belongs to another store."""


class Cursor:
    """The file that says which message was delivered last. Only one delivery has it."""

    def __init__(self, path: str, say: Callable[[str], None] = lambda text: None) -> None:
        self.path = path
        #: The lock, which a command has too as long as it runs.
        self.lock = _locked(path, say)
        #: What is on the disk, and since when; whether more is delivered than that.
        self._disk, self._synced, self._is_ahead = _read_number(path), -SYNC, False
        self.number, self.key = read_cursor(path)
        #: How long the last messages took from when they were kept, in seconds.
        self._took = read_took(path)
        self._ahead = Unsynced(path + ".ahead")
        if (self.number, self.key) == self._disk:
            self._ahead.remove()

    def check(self, store: Store) -> None:
        """WrongStore if the store hasn't the message that was delivered last."""
        _check(store, self.path, self.number, self.key)

    def move(self, one: Stored) -> None:
        """This message is delivered."""
        assert one.number is not None
        took = [*self._took, round(max(0.0, time.time() - (one.ended or one.began)), 3)][-TOOK:]
        try:
            if not self._disk[0] or time.monotonic() - self._synced >= SYNC:
                self._sync(one.number, one.key, took)
            else:
                data = {"after": self._disk, "number": one.number, "key": one.key}
                self._ahead.write((json.dumps(data) + "\n").encode())
                self._is_ahead = True
        except OSError as error:
            why = f"{self.path}: {error.strerror or error}"
            raise NotNoted(f"{why}: message {one.number} {one.key} is done, and the cursor doesn't say so") from None
        self.number, self.key, self._took = one.number, one.key, took

    def _sync(self, number: int, key: str, took: List[float]) -> None:
        data = {"number": number, "key": key, "took": took}
        write_synced(self.path, (json.dumps(data) + "\n").encode())
        self._disk, self._synced, self._is_ahead = (number, key), time.monotonic(), False
        self._ahead.remove()

    def settle(self) -> None:
        """Brings what is delivered to the disk; one that can't be written is ahead of it, as it was."""
        if self._is_ahead:
            with contextlib.suppress(OSError):
                self._sync(self.number, self.key, self._took)

    def close(self) -> None:
        """Gives the file back."""
        self.settle()
        os.close(self.lock)


def _locked(path: str, say: Callable[[str], None]) -> int:
    """The lock of a cursor. If the delivery that had it is gone and its command isn't, that is waited for; StoreError
    if another delivery has it."""
    is_said = False
    while True:
        lock = take_lock(path + ".lock")
        if lock is not None:
            os.ftruncate(lock, 0)
            os.pwrite(lock, str(os.getpid()).encode(), 0)
            return lock
        if _is_there(path + ".lock"):
            raise StoreError(f"{path}: another delivery uses this cursor")
        if not is_said:
            say(f"{path}: a command of a delivery that was killed still runs, and is waited for")
            is_said = True


def _is_there(path: str) -> bool:
    """Whether the process that a lock names is there."""
    try:
        with open(path, encoding="ascii") as file:
            os.kill(int(file.read()), 0)
    except (ProcessLookupError, FileNotFoundError):
        return False
    except (OSError, ValueError):
        return True
    return True


def read_cursor(path: str) -> "tuple[int, str]":
    """The number and the key of the message that was delivered last; 0 if none was."""
    disk = _read_number(path)
    try:
        with open(path + ".ahead", encoding="utf-8") as file:
            data: Dict[str, Any] = json.load(file)
        is_after = tuple(data["after"]) == disk and disk[0] > 0  # and not of a cursor that somebody put there
        return (int(data["number"]), str(data["key"])) if is_after else disk
    except (OSError, ValueError, KeyError, TypeError):
        return disk


def checked_number(store: Store, path: str) -> int:
    """The number of the last message delivered from this store; WrongStore if the cursor is of another one."""
    number, key = read_cursor(path)
    _check(store, path, number, key)
    return number


def _check(store: Store, path: str, number: int, key: str) -> None:
    """Whether the store has the message that was delivered last: else it isn't the same store any more."""
    if number:
        found = next(iter(store.messages(number - 1, 1)), None)
        if found is None or (found.number == number and found.key != key):
            why = "was it restored, or is it another store's cursor?"
            raise WrongStore(f"{path}: the store hasn't message {number} {key}: {why}")


def _read_number(path: str) -> "tuple[int, str]":
    """What the file of a cursor says."""
    try:
        with open(path, encoding="utf-8") as file:
            data: Dict[str, Any] = json.load(file)
        return int(data["number"]), str(data["key"])
    except FileNotFoundError:
        return 0, ""
    except (OSError, ValueError, KeyError) as error:
        raise StoreError(f"{path}: {error}") from None


class State(NamedTuple):
    """How a delivery does: since when nothing goes, and why, or since when all is well; and what was counted since its
    start."""

    since: float = 0.0
    why: str = ""
    counts: Dict[str, int] = {}


def read_state(cursor: str) -> State:
    """How the delivery with this cursor did last."""
    try:
        with open(cursor + ".state", encoding="utf-8") as file:
            data: Dict[str, Any] = json.load(file)
        return State(float(data["since"]), str(data["why"]), {str(one): int(of) for one, of in data["counts"].items()})
    except (OSError, ValueError, KeyError, TypeError, AttributeError):
        return State()


class _Notes:
    """Writes how a delivery does, when that changes. It is for who looks: one that can't be written says nothing."""

    def __init__(self, delivery: "Delivery") -> None:
        self._file, self._counts = Unsynced(delivery.cursor.path + ".state"), delivery.counts
        self._state = State(0.0, " ")

    def well(self) -> None:
        """It goes."""
        self._write("")

    def failed(self, why: str) -> None:
        """Nothing goes."""
        self._write(why)

    def _write(self, why: str) -> None:
        counts = self._counts()
        if (why, counts) == (self._state.why, self._state.counts):
            return
        is_as_before = bool(why) == bool(self._state.why.strip()) and self._state.since
        self._state = State(self._state.since if is_as_before else time.time(), why, counts)
        with contextlib.suppress(OSError):
            self._file.write((json.dumps(self._state._asdict()) + "\n").encode())


def read_took(path: str) -> List[float]:
    """How long the last messages of a delivery took from when they were kept, in seconds; none if it isn't said."""
    try:
        with open(path, encoding="utf-8") as file:
            return [float(one) for one in json.load(file).get("took", ())][-TOOK:]
    except (OSError, ValueError, TypeError, AttributeError):
        return []


#: What delivers a message: whether there was something to hand over. Whether a message is to be delivered at all.
Target = Callable[[Stored], bool]
Wants = Callable[[Stored], bool]


def to_directory(folder: str, form: str, write: Writer) -> Target:
    """Writes each message to a file of its own; a repeat has the same name."""
    os.makedirs(folder, 0o700, exist_ok=True)

    def deliver(one: Stored) -> bool:
        data = write(one)
        if not data:
            return False
        try:
            write_synced(os.path.join(folder, f"{one.number:016}-{one.key}.{form}"), (write(None) or b"") + data)
        except OSError as error:
            raise Unreachable(str(error)) from None
        return True

    return deliver


def to_command(words: List[str], write: Writer, seconds: float, lock: Optional[int] = None) -> Target:
    """Runs a command with a message on its standard input; it took the message if it ends with status 0. The command
    has the cursor's lock too: if this process is killed, the next delivery waits until the command ends."""

    def deliver(one: Stored) -> bool:
        about = {
            "LISLAB_NUMBER": str(one.number),
            "LISLAB_KEY": one.key,
            "LISLAB_LINE": one.line,
            "LISLAB_PEER": one.peer,
            "LISLAB_AGAIN_OF": one.again_of or "",
            "LISLAB_FIXED": one.reason,
        }
        data = write(one)
        if not data:
            return False
        status = _run(words, (write(None) or b"") + data, seconds, {**os.environ, **about}, lock)
        if status:
            raise Refused(f"{words[0]} ended with status {status}")
        return True

    return deliver


def _run(words: List[str], data: bytes, seconds: float, about: Dict[str, str], lock: Optional[int]) -> int:
    """Runs a command in a process group of its own, kills the group if it takes too long, and returns the status."""
    kept = () if lock is None else (lock,)
    try:
        child = subprocess.Popen(words, stdin=subprocess.PIPE, env=about, pass_fds=kept, start_new_session=True)
    except OSError as error:
        raise Unreachable(str(error)) from None
    try:
        child.communicate(data, timeout=seconds)
        return child.returncode
    except subprocess.TimeoutExpired as error:
        raise Refused(str(error)) from None
    finally:
        if child.poll() is None:
            with contextlib.suppress(ProcessLookupError):
                os.killpg(child.pid, signal.SIGKILL)
            child.wait()


class Delivery(NamedTuple):
    """A delivery: from which store, to whom, who reports what went wrong, and its quarantine."""

    store: Store
    cursor: Cursor
    deliver: Target
    say: Callable[[str], None]
    sleep: Callable[[float], None] = time.sleep
    quarantine: Optional[Quarantine] = None
    wants: Wants = lambda one: True
    #: What it has counted.
    counts: Callable[[], Dict[str, int]] = dict
    #: The messages of the store, in turn: `Ahead` reads the next one while the answer to one is waited for.
    over: Callable[[Iterator[Stored]], Iterator[Stored]] = iter


class _Round:
    """One round of a delivery: first the resends that were asked for, then new messages."""

    def __init__(self, delivery: Delivery) -> None:
        self._to, self._quarantine, self._cursor = delivery, delivery.quarantine, delivery.cursor
        #: How many messages are delivered, how many had nothing to hand over, and how many are done with.
        self.delivered = self.empty = self.done = 0
        #: What is done with, and isn't noted in the cursor; which messages were sent again, and are still in
        #: quarantine.
        self._unnoted: Optional[Stored] = None
        self._sent: Set[str] = set()

    def run(self) -> int:
        """One of these rounds: how many messages were found. It ends with `Refused` or StoreError."""
        if self._unnoted is not None:
            self._note(self._unnoted)
        for key in wishes(self._cursor.path) if self._quarantine is not None else ():
            self.again(key)
            grant(self._cursor.path, key)
        found = 0
        self._cursor.check(self._to.store)
        for one in self._to.over(self._to.store.messages(self._cursor.number, 100)):
            found += 1
            if self._to.wants(one) and not self._waits(one):
                self._next(one)
            self._note(one)
            self.done += 1
        if not found:
            self._cursor.settle()
        return found

    def _waits(self, one: Stored) -> bool:
        """Whether a message waits in quarantine, because one about its sample does."""
        if self._quarantine is None:
            return False
        self._quarantine.name(self._find)
        return self._quarantine.takes(one)

    def _note(self, one: Stored) -> None:
        self._unnoted = one
        self._cursor.move(one)
        self._unnoted = None

    def _next(self, one: Stored) -> None:
        """Delivers a message, or quarantines it."""
        kept = self._quarantine
        if kept is not None and not kept.begins(one):
            self._to.say(f"message {one.number} {one.key} is quarantined: each try ended the delivery itself")
            return
        try:
            self._handed(self._delivered(one))
        except (Unreachable, StoreError, Stopped):
            if kept is not None:
                kept.takes_back(one)
            raise
        except Refused as error:
            if kept is None or not (isinstance(error, Quarantined) or kept.failed(one, str(error))):
                raise
            if isinstance(error, Quarantined):
                kept.hold(one, str(error))
            self._to.say(f"message {one.number} {one.key} is quarantined: {error}")

    def _delivered(self, one: Stored) -> bool:
        """Delivers a message; whether there was something to hand over."""
        try:
            return self._to.deliver(one)
        except MemoryError:
            raise Refused("it takes more memory than there is") from None

    def _handed(self, is_handed: bool) -> None:
        self.delivered += is_handed
        self.empty += not is_handed

    def again(self, key: str) -> bool:
        """Sends a quarantined message, with those of its samples, in order; whether none of them is left. One that
        fails holds up those of its samples."""
        assert self._quarantine is not None
        self._quarantine.name(self._find)
        blocked: Set[str] = set()
        asked = self._quarantine.together(key)
        for held in asked:
            if blocked & set(held.samples):  # it waits, and so do later ones of its other samples
                blocked |= set(held.samples)
                continue
            try:
                if held.key not in self._sent:
                    self._handed(self._delivered(self._found(held)))
            except Unreachable:
                raise
            except Refused as error:
                blocked |= set(held.samples)
                self._quarantine.failed_again(held, str(error))
                self._to.say(f"message {held.number} {held.key} stays in quarantine: {error}")
                continue
            self._sent.add(held.key)
            self._quarantine.sent(held)
            self._sent.remove(held.key)
        return not {held.key for held in asked} & {held.key for held in self._quarantine.held}

    def _found(self, held: Held) -> Stored:
        one = self._find(held)
        if one is None:
            raise Refused("the store no longer has this message")
        return one

    def _find(self, held: Held) -> Optional[Stored]:
        one = next(iter(self._to.store.messages(held.number - 1, 1)), None)
        return one if one is not None and one.key == held.key else None


class Count(NamedTuple):
    """How many messages were delivered, and how many had nothing to hand over."""

    delivered: int
    empty: int


def run(delivery: Delivery, once: bool) -> Count:
    """Delivers what there is, and then, unless it is to be done once, what comes."""
    one, notes, wait, done = _Round(delivery), _Notes(delivery), FIRST_WAIT, 0
    while True:
        failed: Optional[str] = None
        found, least = 0, 0.0
        try:
            found = one.run()
            notes.well()
        except NotNoted as error:
            if once:
                raise
            failed = str(error)
        except (Refused, StoreError) as error:
            after = f"after message {delivery.cursor.number} " if delivery.cursor.number else ""
            failed = f"nothing is delivered {after}as long as this holds: {error}"
            least = error.wait if isinstance(error, Unreachable) else 0.0
        if one.done > done:
            done, wait = one.done, FIRST_WAIT
        if failed is not None:
            delivery.say(failed)
            notes.failed(failed)
            if once:
                raise Refused(failed)
            delivery.sleep(max(wait, least))
            wait = min(wait * 2, LONGEST_WAIT)
        elif not found:
            if once:
                return Count(one.delivered, one.empty)
            delivery.sleep(POLL)


def run_again(delivery: Delivery, key: str) -> bool:
    """Sends what is in quarantine and is named by this key; whether none of it is left."""
    one, done = _Round(delivery), False
    try:
        done = one.again(key)
    except (Refused, StoreError) as error:
        delivery.say(str(error))
    delivery.say(f"{many(one.delivered, 'message')} delivered")
    return done
