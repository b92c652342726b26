"""Writes files completely, or raises an OSError. Only their owner can read them."""
import contextlib
import errno
import fcntl
import os
import stat
import time
from io import FileIO
from typing import Iterator, Optional

#: How long a start waits for a lock, in seconds: who asks whether it is taken has it for a moment.
PATIENCE = 0.5
_MODE = 0o600


def write_all(descriptor: int, data: bytes) -> None:
    """Writes all bytes. After a write of only some of them, it writes the rest."""
    left = memoryview(data)
    while left:
        count = os.write(descriptor, left)
        if not count:
            raise OSError(errno.ENOSPC, os.strerror(errno.ENOSPC))
        left = left[count:]


class Appended:
    """A file that grows. What an error leaves of an addition is taken back."""

    def __init__(self, path: str, how: int = os.O_EXCL) -> None:
        self.descriptor = os.open(path, os.O_WRONLY | os.O_CREAT | how | os.O_CLOEXEC, _MODE)
        os.fchmod(self.descriptor, _MODE)
        self.size = os.lseek(self.descriptor, 0, os.SEEK_END)

    def add(self, data: bytes) -> None:
        """Appends bytes: all, or none."""
        try:
            write_all(self.descriptor, data)
        except OSError:
            self.cut(self.size)
            raise
        self.size += len(data)

    def cut(self, size: int) -> None:
        """Takes back what is after these bytes."""
        with contextlib.suppress(OSError):
            os.ftruncate(self.descriptor, size)
            os.lseek(self.descriptor, size, os.SEEK_SET)
            self.size = size

    def close(self) -> None:
        """Closes the file."""
        os.close(self.descriptor)


class Output:
    """A file that is being written: it takes its name when it is whole."""

    def __init__(self, descriptor: int) -> None:
        self._descriptor = descriptor

    def write(self, data: bytes) -> None:
        """Puts bytes after the others."""
        write_all(self._descriptor, data)


@contextlib.contextmanager
def writing(path: str) -> Iterator[Output]:
    """A file that is on the disk, whole, when this is over; after an error there is what was there before. The
    directory is the caller's to sync. What is no regular file, as a pipe, is written as it goes."""
    if os.path.exists(path) and not stat.S_ISREG(os.stat(path).st_mode):
        with _closing(os.open(path, os.O_WRONLY | os.O_CLOEXEC)) as descriptor:
            yield Output(descriptor)
        return
    whole = os.path.realpath(path)
    folder, name = os.path.split(whole)
    made = os.path.join(folder, f".{name}.new")
    try:
        how = os.O_WRONLY | os.O_CREAT | os.O_TRUNC | os.O_NOFOLLOW | os.O_CLOEXEC
        with _closing(os.open(made, how, _MODE)) as descriptor:
            os.fchmod(descriptor, _MODE)
            yield Output(descriptor)
            os.fsync(descriptor)
        os.replace(made, whole)
    except BaseException:
        with contextlib.suppress(OSError):
            os.unlink(made)
        raise


def write_whole(path: str, data: bytes) -> None:
    """Writes a file so that it is there whole, or what was there before. Its directory is the caller's to sync."""
    with writing(path) as file:
        file.write(data)


def write_synced(path: str, data: bytes) -> None:
    """The same, with its directory: the file is on the disk when this returns."""
    write_whole(path, data)
    sync_folder(os.path.dirname(os.path.realpath(path)))


class Unsynced:
    """A small file that a power cut may take or damage. It is written in place: a name that is replaced costs a sync on
    some file systems. It ends in blanks, so that a shorter text after a longer one is whole at once."""

    def __init__(self, path: str) -> None:
        self._path = path
        self._file: Optional[FileIO] = None
        self._size = 0

    def write(self, data: bytes) -> None:
        """Overwrites the file; OSError if it can't. The file is opened once."""
        if self._file is None:
            how = os.O_WRONLY | os.O_CREAT | os.O_NOFOLLOW | os.O_CLOEXEC
            self._file = FileIO(os.open(self._path, how, _MODE), "wb")
            self._size = os.fstat(self._file.fileno()).st_size
        self._size = max(len(data), self._size)
        if os.pwrite(self._file.fileno(), data.ljust(self._size), 0) < self._size:
            raise OSError(errno.ENOSPC, os.strerror(errno.ENOSPC))

    def remove(self) -> None:
        """Takes it away."""
        file, self._file = self._file, None
        if file is not None:
            file.close()
        with contextlib.suppress(OSError):
            os.unlink(self._path)


def sync_folder(path: str) -> None:
    """Makes the names of a directory's files last."""
    with _closing(os.open(path, os.O_RDONLY | os.O_DIRECTORY | os.O_CLOEXEC)) as descriptor:
        os.fsync(descriptor)


def take_lock(path: str) -> Optional[int]:
    """The descriptor of a lock, which goes with the process, however that ends; None if another has it."""
    descriptor = os.open(path, os.O_RDWR | os.O_CREAT | os.O_CLOEXEC, _MODE)
    until = time.monotonic() + PATIENCE
    while True:
        try:
            fcntl.flock(descriptor, fcntl.LOCK_EX | fcntl.LOCK_NB)
            return descriptor
        except BlockingIOError:
            if time.monotonic() >= until:
                os.close(descriptor)
                return None
            time.sleep(0.02)
        except OSError:
            os.close(descriptor)
            raise


def is_locked(path: str) -> bool:
    """Whether a process has this lock."""
    try:
        with _closing(os.open(path, os.O_RDONLY | os.O_CLOEXEC)) as descriptor:
            fcntl.flock(descriptor, fcntl.LOCK_SH | fcntl.LOCK_NB)
    except BlockingIOError:
        return True
    except FileNotFoundError:
        return False
    return False


@contextlib.contextmanager
def _closing(descriptor: int) -> Iterator[int]:
    try:
        yield descriptor
    finally:
        os.close(descriptor)
