"""The Unix socket next to a store, through which its owner looks at a host that runs. A connection has one question,
a line of JSON; the answer is a line of JSON and, for a ring, the bytes that it holds."""
import asyncio
import contextlib
import json
import os
import socket
from typing import Any, Callable, Dict, Optional, Tuple

from .said import shown as shown

#: How long a question may take to come, and its answer to be taken, in seconds; how many look at once; the longest
#: question, and the longest answer.
SECONDS, AT_ONCE, QUESTION, ANSWER = 5.0, 16, 4096, 64 << 20
#: The longest path that a Unix socket may have.
LONGEST = 107


class WatchError(Exception):
    """A host that runs can't be looked at."""


def socket_of(status: Optional[str]) -> Optional[str]:
    """Where the socket of a host is: next to its state; None if that has no file."""
    if status is None:
        return None
    return (status[: -len(".status")] if status.endswith(".status") else status) + ".watch"


class Door:
    """The host's end of the socket. Who looks delays no line: an answer is made at once, and sent as it is taken."""

    def __init__(self, path: str, answer: Callable[[Dict[str, Any]], bytes]) -> None:
        self._path, self._answer = path, answer
        self._server: Optional[asyncio.AbstractServer] = None
        self._looking = 0

    async def open(self) -> None:
        """Opens it; OSError if it can't be opened. What an earlier host left there is removed."""
        if len(os.fsencode(self._path)) > LONGEST:
            raise OSError(f"{self._path}: a socket's path has at most {LONGEST} bytes")
        with contextlib.suppress(FileNotFoundError):
            os.unlink(self._path)
        one = socket.socket(socket.AF_UNIX, socket.SOCK_STREAM)
        before = os.umask(0o177)
        try:
            one.bind(self._path)
        except OSError:
            one.close()
            raise
        finally:
            os.umask(before)
        self._server = await asyncio.start_unix_server(self._serve, sock=one, limit=QUESTION)

    async def close(self) -> None:
        """Closes it."""
        if self._server is not None:
            self._server.close()
            with contextlib.suppress(OSError):
                os.unlink(self._path)

    async def _serve(self, reader: asyncio.StreamReader, writer: asyncio.StreamWriter) -> None:
        self._looking += 1
        try:
            if self._looking <= AT_ONCE:
                await asyncio.wait_for(self._talk(reader, writer), SECONDS)
        except (OSError, ValueError, asyncio.TimeoutError):
            pass  # a peer that sends no question, or reads no answer, gets none
        finally:
            self._looking -= 1
            writer.transport.abort() if writer.transport.get_write_buffer_size() else writer.close()

    async def _talk(self, reader: asyncio.StreamReader, writer: asyncio.StreamWriter) -> None:
        asked = json.loads(await reader.readline())
        writer.write(self._answer(asked if isinstance(asked, dict) else {}))
        await writer.drain()


def ask(path: str, **asked: Any) -> Tuple[Dict[str, Any], bytes]:
    """Asks a host: the line of its answer, and what is after it. WatchError if it doesn't answer."""
    try:
        with socket.socket(socket.AF_UNIX, socket.SOCK_STREAM) as one:
            one.settimeout(SECONDS)
            one.connect(path)
            one.sendall(json.dumps(asked).encode() + b"\n")
            data = bytearray()
            while more := one.recv(1 << 16):
                data += more
                if len(data) > ANSWER:
                    raise WatchError(f"{path}: the answer has no end")
    except (OSError, ValueError) as error:
        raise WatchError(f"{path}: {error}") from None
    head, _, rest = bytes(data).partition(b"\n")
    try:
        told = dict(json.loads(head))
    except ValueError:
        raise WatchError(f"{path}: the host gave no answer") from None
    if "error" in told:
        raise WatchError(shown(str(told["error"])))
    return told, rest
