"""A file of texts, each with its CR, which one program at a time writes. Half of a text doesn't stay in it, since the
next text would be read as its rest: `^^^GLU|1` and `H|\\^&` are a glucose of 1H."""
import errno
import fcntl
import os
import sys

LONGEST = 1 << 20  # bytes of a text


def with_cr(text: bytes) -> bytes:
    """A text with its CR, which ends a record; an empty one has none."""
    return text if text.endswith(b"\r") or not text else text + b"\r"


class TextFile:
    """Appends texts to a file. What a power failure left after its last CR is cut off.

    OSError if the file can't be opened, another program writes it, or it is no file of texts."""

    def __init__(self, path: str) -> None:
        self._file = os.open(path, os.O_RDWR | os.O_CREAT | os.O_APPEND, 0o600)
        fcntl.lockf(self._file, fcntl.LOCK_EX | fcntl.LOCK_NB)
        size = os.lseek(self._file, 0, os.SEEK_END)
        last = os.pread(self._file, min(size, LONGEST), max(size - LONGEST, 0))
        half = last[last.rfind(b"\r") + 1:]
        if b"\n" in half or len(half) == LONGEST:
            raise OSError(errno.EINVAL, f"{path} is no file of texts")
        if half:
            print(f"{path}: half a text of {len(half)} bytes is cut off", file=sys.stderr)
        self._end = size - len(half)            # where its last whole text ends
        self._cut_back()

    def _cut_back(self) -> None:
        """Drops what follows the last whole text."""
        if os.lseek(self._file, 0, os.SEEK_END) != self._end:
            os.ftruncate(self._file, self._end)
            os.fsync(self._file)

    def keep(self, text: bytes) -> None:
        """Appends a text, with a CR if it has none, and returns once it is on the disk. OSError, and the file is as it
        was, or nothing is kept in it until it can be cut back."""
        whole = with_cr(text)
        self._cut_back()
        try:
            if os.write(self._file, whole) < len(whole):
                raise OSError(errno.ENOSPC, "a part of the text is written")
            os.fsync(self._file)
        except OSError:
            self._cut_back()
            raise
        self._end += len(whole)

    def close(self) -> None:
        """Closes the file."""
        os.close(self._file)
