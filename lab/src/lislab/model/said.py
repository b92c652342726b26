"""The host's log, a line at a time. Logging never fails and never waits, whatever its reader does: what can't be
written now is dropped. If standard error is systemd's journal, an entry has the name of its line as LISLAB_LINE."""
import contextlib
import contextvars
import os
import select
import socket
import sys
from typing import Any, Iterator, List, Mapping

#: The most bytes of a line: a pipe that is writable has room for so many.
MOST = 2000


#: The journal's socket, and the line that entries are about.
JOURNAL = "/run/systemd/journal/socket"
_LINE: "contextvars.ContextVar[str]" = contextvars.ContextVar("line", default="")


@contextlib.contextmanager
def about(line: str) -> Iterator[None]:
    """Entries that are logged meanwhile are about this line."""
    token = _LINE.set(line)
    try:
        yield
    finally:
        _LINE.reset(token)


def shown(text: str) -> str:
    """Text for a terminal: a character that isn't printed there, or changes the direction of text, is shown by its
    number."""
    return "".join(one if one.isprintable() else _number(ord(one)) for one in text)


def many(count: int, name: str, names: str = "") -> str:
    """So many of something: of a `name`, or of `names`, where these aren't just one with an s."""
    return f"{count} {name}" if count == 1 else f"{count} {names or name + 's'}"


def counted(counts: Mapping[str, int]) -> List[str]:
    """What was counted, as `1 order left out`. Each name begins with a plural that ends with s."""
    found = [(count, name.partition(" ")) for name, count in counts.items() if count]
    return [f"{many(count, names[:-1])} {rest}" for count, (names, _, rest) in found]


def _number(code: int) -> str:
    return f"\\x{code:02x}" if code < 256 else f"\\u{code:04x}"


def say(text: str) -> None:
    """A line on standard error."""
    if not (_is_journal() and _to_journal(text)):
        _put(sys.stderr, f"lislab: {text}")


def _is_journal() -> bool:
    """Whether standard error is the journal's, as systemd says."""
    stream = os.environ.get("JOURNAL_STREAM", "")
    try:
        found = os.fstat(sys.stderr.fileno()) if stream else None
        return found is not None and stream == f"{found.st_dev}:{found.st_ino}"
    except (AttributeError, OSError, ValueError):
        return False


def _to_journal(text: str) -> bool:
    """Whether the journal took it."""
    fields = {"PRIORITY": "4", "SYSLOG_IDENTIFIER": "lislab", "LISLAB_LINE": _LINE.get(), "MESSAGE": text}
    rows = [f"{name}={shown(' '.join(value.splitlines()))}\n" for name, value in fields.items() if value]
    try:
        with socket.socket(socket.AF_UNIX, socket.SOCK_DGRAM | socket.SOCK_CLOEXEC) as one:
            one.setblocking(False)
            one.sendto("".join(rows).encode("utf-8", "replace"), JOURNAL)
        return True
    except OSError:
        return False


def announce(text: str) -> None:
    """A line on standard output."""
    _put(sys.stdout, text)


def _put(stream: Any, text: str) -> None:
    line = shown(" ".join(text.splitlines())).encode("utf-8", "replace")[:MOST] + b"\n"
    try:
        stream.flush()
        descriptor = stream.fileno()
        poll = select.poll()
        poll.register(descriptor, select.POLLOUT)
        if poll.poll(0):
            os.write(descriptor, line)
    except (OSError, ValueError, AttributeError):  # full, closed, or never open
        pass
