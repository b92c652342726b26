"""The store in a directory: a file for each message, which other programs can take. A file is synced before each
acknowledgement, and moved to its place when its message is complete.

    host                         the host's lock
    open/KEY                     the texts of a message that is arriving, and KEY.about: its line, as JSON
    complete/NUMBER-KEY.records  a complete message, and NUMBER-KEY.about; numbers rise with the time, in microseconds
    incomplete/KEY.records       the acknowledged texts of an incomplete message; invalid/ the same of an invalid one
    digests/DIGEST               which complete message has these bytes first

The version before had the folders whole, unfinished and unreadable: they are read, and a host that starts renames them.
"""
import bisect
import contextlib
import hashlib
import itertools
import json
import os
import time
from concurrent.futures import ThreadPoolExecutor
from typing import Any, Dict, Iterator, List, Optional, Sequence, Set, Tuple

from .files import Appended, is_locked, sync_folder, take_lock, write_whole
from .renamed import STATES
from .store import (
    COMPLETE,
    FIXED,
    INCOMPLETE,
    INVALID,
    LEFT,
    LISTED,
    OPEN,
    Add,
    Begin,
    Change,
    End,
    Head,
    LineCount,
    Store,
    StoreError,
    Stored,
    Unit,
)

#: Among how many messages the last ones of a line are looked for: a file is read for each.
AMONG = 5000
_FOLDERS = (OPEN, COMPLETE, INCOMPLETE, INVALID, "digests")
#: The folders of the version before, by the present ones; the first word of a fixed message's reason in that version.
_EARLIER, _EARLIER_FIXED = {state: word for word, state in STATES.items()}, "mended"


class SpoolStore(Store):
    """A store in a directory, for one host, on a local disk."""

    part = 3

    def __init__(self, folder: str) -> None:
        self.folder = folder
        self._lock: Optional[int] = None
        self._open: Dict[str, "_Open"] = {}
        #: The messages that a commit ended which failed, and may be tried again.
        self._ended: Set[str] = set()
        self._number = 0
        #: The mark that the last complete message still needs, and its key.
        self._unmarked: Optional[Tuple[str, str]] = None
        self._syncing: Optional[ThreadPoolExecutor] = None

    def start(self, host: str) -> List[Stored]:
        try:
            os.makedirs(self.folder, 0o700, exist_ok=True)
            self._lock = take_lock(self._path("host"))
            if self._lock is None:
                raise StoreError(f"{self.folder}: another host has this spool")
            for state, earlier in _EARLIER.items():
                _move_all(os.path.join(self.folder, earlier), os.path.join(self.folder, state))
            for name in _FOLDERS:
                os.makedirs(os.path.join(self.folder, name), 0o700, exist_ok=True)
            sync_folder(self.folder)
            self._take_last()
            return self._take_left()
        except OSError as error:
            raise StoreError(f"{self.folder}: {error}") from None

    def _path(self, first: str, *names: str) -> str:
        """The path of a file or folder. A reader also finds the folders of the version before."""
        if self._lock is None and first in _EARLIER and not os.path.isdir(os.path.join(self.folder, first)):
            earlier = _EARLIER[first]
            first = earlier if os.path.isdir(os.path.join(self.folder, earlier)) else first
        return os.path.join(self.folder, first, *names)

    def _names(self, state: str) -> List[str]:
        """The messages in a state, without the ends of their files' names; open ones of which something is kept."""
        names = os.listdir(self._path(state))
        if state != OPEN:
            return sorted([name[: -len(".records")] for name in names if name.endswith(".records") and name[0] != "."])
        kept = [name for name in names if name[0] != "." and not name.endswith(".about")]
        return sorted([name for name in kept if _size_of(self._path(OPEN, name))])

    def _take_last(self) -> None:
        """Continues after the last complete message. A host that died may have left it without its mark."""
        last = max(self._names(COMPLETE), default=None)
        if last is None:
            return
        number, key = last.split("-")
        self._number = int(number)
        with contextlib.suppress(StoreError):
            one = self._stored(COMPLETE, last, self._number, key)
            mark = self._mark(one.line, hashlib.sha256(one.body).hexdigest())
            if one.again_of is None and self._first(mark) is None:
                self._unmarked = mark, key
                self._write_mark()

    def _mark(self, line: str, digest: str) -> str:
        """The file that names the first complete message of a line with these bytes."""
        return self._path("digests", hashlib.sha256(line.encode() + b"\0" + digest.encode()).hexdigest())

    def _first(self, mark: str) -> Optional[str]:
        """The message that a mark names; None if it isn't complete, since an earlier program marked before it kept."""
        key = _read_about(mark).get("key")
        places = (self._path(OPEN, str(key)), self._path(INCOMPLETE, f"{key}.records"))
        return None if any(map(os.path.exists, places)) else key

    def _take_left(self) -> List[Stored]:
        """The messages that an earlier run left open. Files without a text, and unfinished ones, are deleted."""
        left = self._names(OPEN)
        for name in os.listdir(self._path(OPEN)):
            if name.split(".about")[0] not in left:
                os.unlink(self._path(OPEN, name))
        self._sync_folders({OPEN})
        for key in left:
            path = self._path(OPEN, key)
            self._open[key] = _Open(path, _read_about(path + ".about"), 0)
            self._open[key].keep()
        return [self._left(key)._replace(body=b"") for key in left]

    def body_of(self, key: str) -> bytes:
        return self._left(key).body

    def commit(self, units: Sequence[Unit]) -> None:
        changed: Set[str] = set()
        folders: Set[str] = set()
        ended: Set[str] = set()
        try:
            for unit in units:
                for change in unit:
                    self._change(change, changed, folders)
            self._sync_files(changed)
            self._sync_folders(folders)
            folders = set()
            ends = [change for unit in units for change in unit if isinstance(change, End)]
            for end in ends:
                folders |= {OPEN, end.state}
                self._end(end, ended)
            self._sync_folders(folders)
        except OSError as error:
            for key in changed & set(self._open):
                self._open[key].take_back()
            self._ended.update(ended)
            raise StoreError(f"{self.folder}: {error}") from None
        for key in changed & set(self._open):
            self._open[key].keep()
        self._ended.difference_update(ended)

    def _change(self, change: Change, changed: Set[str], folders: Set[str]) -> None:
        """Applies a change to the open files. What a failed commit has already done stays."""
        one = self._open.get(change.key)
        if change.key in self._ended or isinstance(change, End):
            return
        if isinstance(change, Begin) and one is None:
            folders.add(OPEN)
            about = {"line": change.line, "peer": change.peer, "encoding": change.encoding, "began": change.at}
            _write_about(self._path(OPEN, change.key + ".about"), about)
            self._open[change.key] = _Open(self._path(OPEN, change.key), about)
        elif isinstance(change, Add):
            if one is None:
                raise OSError(f"message {change.key} isn't open")
            changed.add(change.key)
            one.take(change)

    def _end(self, end: End, ended: Set[str]) -> None:
        one = self._open.get(end.key)
        if end.key in self._ended or (one is None and end.state != COMPLETE):
            ended.add(end.key)
            return
        if one is None:
            raise OSError(f"message {end.key} isn't open")
        if not one.size:  # nothing of it was kept
            os.unlink(self._path(OPEN, end.key))
            os.unlink(self._path(OPEN, end.key + ".about"))
        elif end.state == COMPLETE:
            self._write_mark()
            mark = self._mark(end.line, end.digest)
            first = self._first(mark)
            self._move(end, one.about, first)
            if first is None:
                self._unmarked = mark, end.key
        else:
            self._move(end, one.about, None)
        ended.add(end.key)
        del self._open[end.key]
        one.close()
        self._write_mark()

    def _write_mark(self) -> None:
        """Marks a message as the first of its bytes, once it is kept: a repeat never names one that isn't. Until its
        mark is written no other message becomes complete, so at most the last one has none."""
        if self._unmarked is not None:
            mark, key = self._unmarked
            sync_folder(self._path(COMPLETE))
            _write_about(mark, {"key": key})
            sync_folder(self._path("digests"))
            self._unmarked = None

    def _move(self, end: End, about: Dict[str, Any], first: Optional[str]) -> None:
        """Puts a message in its place; it is there when its file of records is."""
        name = end.key
        if end.state == COMPLETE:
            self._number = max(self._number + 1, time.time_ns() // 1000)
            name = f"{self._number:016}-{end.key}"
        path = self._path(end.state, name)
        data = {**about, "key": end.key, "ended": end.at, "reason": end.reason, "again_of": first}
        try:
            _write_about(path + ".about", data)
            sync_folder(self._path(end.state))
            os.rename(self._path(OPEN, end.key), path + ".records")
        except OSError:
            with contextlib.suppress(OSError):
                os.unlink(path + ".about")
            raise
        with contextlib.suppress(OSError):
            os.unlink(self._path(OPEN, end.key + ".about"))

    def _sync_files(self, keys: Set[str]) -> None:
        files = [self._open[key].descriptor for key in keys]
        if len(files) < 2:
            for descriptor in files:
                os.fsync(descriptor)
            return
        if self._syncing is None:
            self._syncing = ThreadPoolExecutor(8)
        list(self._syncing.map(os.fsync, files))

    def _sync_folders(self, names: Set[str]) -> None:
        for name in sorted(names):
            sync_folder(self._path(name))

    def messages(self, after: int = 0, limit: Optional[int] = None) -> Iterator[Stored]:
        for name in self._after(after)[:limit]:
            number, key = name.split("-")
            yield self._stored(COMPLETE, name, int(number), key)

    def _after(self, number: int) -> List[str]:
        """Complete messages with a number above this one, in order, by their names."""
        names = self._listed(COMPLETE)
        return names[bisect.bisect(names, f"{number:016}~") :]

    def _others(self) -> List[Tuple[str, str]]:
        """Messages that aren't complete: the name and the state of each, in the order in which they began."""
        names = [(name, state) for state in (INCOMPLETE, INVALID) for name in self._listed(state)]
        left = [] if self.is_held() else [(name, OPEN) for name in self._listed(OPEN)]
        return sorted([*names, *left])

    def others(self) -> Iterator[Stored]:
        for name, state in self._others():
            yield self._left(name) if state == OPEN else self._stored(state, name, None, name)

    def heads(self, after: int, most: int) -> List[Head]:
        return [self._head(COMPLETE, name) for name in self._after(after)[:most]]

    def last_heads(self, line: str, most: int = LISTED) -> List[Head]:
        found = (self._head(COMPLETE, name) for name in self._listed(COMPLETE)[: -AMONG - 1 : -1])
        return list(itertools.islice((one for one in found if one.line == line), most))

    def not_complete(self, line: Optional[str] = None, most: int = LISTED) -> List[Head]:
        found = (self._head(state, name) for name, state in reversed(self._others()))
        return list(itertools.islice((one for one in found if line in (None, one.line)), most))

    def message(self, key: str) -> Optional[Stored]:
        name = next((name for name in self._listed(COMPLETE) if name.endswith(f"-{key}")), None)
        if name is not None:
            return self._stored(COMPLETE, name, int(name.split("-")[0]), key)
        return next((one for one in self.others() if one.key == key), None)

    def count_after(self, number: int) -> int:
        return len(self._after(number))

    def number_before(self, number: int, count: int) -> int:
        names = self._listed(COMPLETE)
        at = len(names) - self.count_after(number) - count - 1
        return int(names[at].split("-")[0]) if at >= 0 else 0

    def number_at(self, at: float) -> int:
        """Numbers are times, in microseconds."""
        return max(0, int(at * 1_000_000) - 1)

    def _head(self, state: str, name: str) -> Head:
        """A message without its bytes, which aren't read."""
        if state == OPEN:
            one = self._left(name)
            return Head(None, one.line, one.began, one.ended, one.state, one.reason, name, len(one.body))
        path, (number, _, key) = self._path(state, name), name.rpartition("-")
        about = self._about(path)
        try:
            times, size = (float(about["began"]), float(about["ended"])), os.path.getsize(path + ".records")
            return Head(int(number) if number else None, str(about["line"]), *times, state, about["reason"], key, size)
        except (OSError, ValueError, KeyError, TypeError) as error:
            raise _damaged(path, error) from None

    def _about(self, path: str) -> Dict[str, Any]:
        """What is noted of a message that isn't open. StoreError if that can't be read."""
        try:
            with open(path + ".about", encoding="utf-8") as file:
                return _in_words_of_now(dict(json.load(file)))
        except (OSError, ValueError, TypeError) as error:
            raise _damaged(path, error) from None

    def _listed(self, state: str) -> List[str]:
        try:
            return self._names(state)
        except OSError as error:
            raise StoreError(f"{self.folder}: {error}") from None

    def _stored(self, state: str, name: str, number: Optional[int], key: str) -> Stored:
        path = self._path(state, name)
        about = self._about(path)
        try:
            with open(path + ".records", "rb") as records:
                body = records.read()
            line, peer, encoding = (str(about[one]) for one in ("line", "peer", "encoding"))
            times = float(about["began"]), float(about["ended"])
            return Stored(number, key, line, peer, encoding, *times, state, about["reason"], about["again_of"], body)
        except (OSError, ValueError, KeyError, TypeError) as error:
            raise _damaged(path, error) from None

    def _left(self, key: str) -> Stored:
        """A message that a host left open that doesn't run."""
        path = self._path(OPEN, key)
        try:
            about = _read_about(path + ".about")
            with open(path, "rb") as records:
                body = records.read()
        except OSError as error:
            raise StoreError(str(error)) from None
        line, peer, encoding = (str(about.get(one, "")) for one in ("line", "peer", "encoding"))
        began = float(about.get("began", 0))
        return Stored(None, key, line, peer, encoding, began, began, INCOMPLETE, LEFT, None, body)

    def counts(self) -> List[LineCount]:
        found: Dict[str, List[Tuple[str, Dict[str, Any]]]] = {}
        try:
            is_held = self.is_held()
            for state in (OPEN, COMPLETE, INCOMPLETE, INVALID):
                kept = INCOMPLETE if state == OPEN and not is_held else state
                for name in self._names(state):
                    about = _read_about(self._path(state, name + ".about"))
                    found.setdefault(str(about.get("line", "")), []).append((kept, about))
        except OSError as error:
            raise StoreError(f"{self.folder}: {error}") from None
        return [_count(line, found[line]) for line in sorted(found)]

    def is_held(self, host: str = "") -> bool:
        try:
            return is_locked(self._path("host"))
        except OSError as error:
            raise StoreError(f"{self.folder}: {error}") from None

    def close(self) -> None:
        for one in self._open.values():
            one.close()
        self._open.clear()
        if self._syncing is not None:
            self._syncing.shutdown()
        if self._lock is not None:
            os.close(self._lock)
            self._lock = None


def _damaged(path: str, error: Exception) -> StoreError:
    """Why a message can't be read."""
    return StoreError(str(error) if isinstance(error, OSError) else f"{path}.about is damaged")


def _count(line: str, rows: List[Tuple[str, Dict[str, Any]]]) -> LineCount:
    states = [state for state, about in rows if not str(about.get("reason", "")).startswith(FIXED)]
    again = sum(1 for _, about in rows if about.get("again_of"))
    last = max((about["ended"] for state, about in rows if state == COMPLETE), default=None)
    some = [states.count(state) for state in (INCOMPLETE, INVALID, OPEN)]
    fixed = sum(1 for state, about in rows if state == COMPLETE and about.get("reason"))
    return LineCount._make([line, states.count(COMPLETE), again, *some, last, fixed])


class _Open(Appended):
    """The file of a message that isn't complete."""

    def __init__(self, path: str, about: Dict[str, Any], how: int = os.O_TRUNC) -> None:
        super().__init__(path, how)  # if it is begun, what is there is of a try that failed
        #: Its line; how long it was at the last commit, and how many texts or parts of texts it had then and has now.
        self.about, self.good, self._kept, self._places = about, 0, 0, 0

    def take(self, one: Add) -> None:
        """Puts bytes after the others, unless a commit whose answer was an error has kept them."""
        if one.place >= self._places:
            self.add(one.body)
            self._places = one.place + 1

    def keep(self) -> None:
        """All that it has is kept."""
        self.good, self._kept = self.size, self._places

    def take_back(self) -> None:
        """Removes what was added since the last commit."""
        self.cut(self.good)
        self._places = self._kept


def _size_of(path: str) -> int:
    try:
        return os.path.getsize(path)
    except FileNotFoundError:  # moved to its place meanwhile
        return 0


def _read_about(path: str) -> Dict[str, Any]:
    try:
        with open(path, encoding="utf-8") as file:
            return _in_words_of_now(dict(json.load(file)))
    except (FileNotFoundError, ValueError):
        return {}


def _in_words_of_now(about: Dict[str, Any]) -> Dict[str, Any]:
    """What is noted of a message, perhaps by the version before."""
    reason = str(about.get("reason", ""))
    return {**about, "reason": "fixed" + reason[len(_EARLIER_FIXED) :]} if reason.startswith(_EARLIER_FIXED) else about


def _move_all(earlier: str, later: str) -> None:
    """Gives a folder its new name. If both are there, because the version before ran once more, the files are moved; a
    message is there when its `.records` is, which comes after its `.about`."""
    if not os.path.isdir(later):
        with contextlib.suppress(FileNotFoundError):
            os.rename(earlier, later)
    elif os.path.isdir(earlier):
        for name in sorted(os.listdir(earlier)):
            os.rename(os.path.join(earlier, name), os.path.join(later, name))
        os.rmdir(earlier)


def _write_about(path: str, data: Dict[str, Any]) -> None:
    write_whole(path, json.dumps(data, ensure_ascii=False).encode() + b"\n")
