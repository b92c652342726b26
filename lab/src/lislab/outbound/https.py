"""Messages over HTTPS: each is the body of a POST. The server's certificate is verified. Over HTTP to this machine
alone."""
import contextlib
import datetime
import http.client
import re
import select
import socket
import ssl
import threading
from email.utils import parsedate_to_datetime
from typing import Any, Dict, Optional
from urllib.parse import urlsplit

from ..model.failures import Refused, Unreachable
from ..model.options import OptionError, is_loopback
from ..model.store import StoreError, Stored
from .deliver import Target
from .export import Writer
from .oru import messages_of

#: What the forms are called.
TYPES = {
    "records": "application/octet-stream",
    "json": "application/json",
    "csv": "text/csv; charset=utf-8",
    "tsv": "text/tab-separated-values; charset=utf-8",
    "oru": "application/hl7-v2; charset=utf-8",
    "fhir": "application/fhir+json; charset=utf-8",
}
#: The answers that say something of a message. All others are of the server, or of what it was asked.
_OF_MESSAGE = (400, 409, 412, 413, 422, 500)
#: How many bytes of an answer are read; how many seconds a server may ask to wait; a row of a file of headers.
_MOST, _LONGEST, _HEADER = 1 << 20, 3600.0, re.compile(r"([!#$%&'*+.^_`|~0-9A-Za-z-]+):\s*([^\x00-\x1f\x7f]+)$")


def context_of(authority: Optional[str]) -> ssl.SSLContext:
    """TLS that verifies certificates by the system's authorities, or by the authorities of a file."""
    try:
        return ssl.create_default_context(cafile=authority)
    except (OSError, ssl.SSLError) as error:
        raise StoreError(f"{authority}: {getattr(error, 'strerror', None) or error}") from None


def headers_of(path: str) -> Dict[str, str]:
    """The header fields of a file, each a row `Name: value`."""
    found = {}
    with open(path, encoding="latin-1") as file:
        for number, row in enumerate(file, 1):
            field = _HEADER.match(row.strip())
            if row.strip() and not field:
                raise OptionError(f"{path}:{number}: a header is Name: value")
            if field:
                found[field[1]] = field[2]
    return found


class _Head:
    """What an answer is read from: its head has an end."""

    def __init__(self, file: Any) -> None:
        self._file = file

    def __getattr__(self, name: str) -> Any:
        return getattr(self._file, name)

    def readline(self, size: int = -1) -> bytes:
        """A row, whole; IncompleteRead if it breaks off."""
        row: bytes = self._file.readline(size)
        if not row.endswith(b"\n"):
            raise http.client.IncompleteRead(row)
        return row


class _Answer(http.client.HTTPResponse):
    """An answer whose head is whole."""

    def begin(self) -> None:
        """Reads the head of the last answer: those before it only say that there will be one (RFC 9110, 15.2)."""
        whole = self.fp
        self.fp = _Head(whole)  # type: ignore[assignment]
        try:
            super().begin()
            while 100 <= self.status < 200:
                self.headers = self.msg = None  # type: ignore[assignment]
                super().begin()
        finally:
            if isinstance(self.fp, _Head):  # it is closed if there is no body
                self.fp = whole


class Https:
    """A server. The connection stays open from one message to the next."""

    def __init__(self, url: str, seconds: float, context: ssl.SSLContext, headers: Optional[str] = None) -> None:
        parts = urlsplit(url)
        if not parts.hostname or parts.username or parts.fragment or re.search(r"[^!-~]", url):
            raise OptionError(f"{url}: expected https://HOST[:PORT]/PATH")
        if parts.scheme == "http" and not is_loopback(parts.hostname):
            raise OptionError(
                f"{url}: http:// isn't encrypted: it is only for this machine, for example http://127.0.0.1"
            )
        self._where = parts.netloc
        self._path = (parts.path or "/") + (f"?{parts.query}" if parts.query else "")
        self._headers, self._seconds, self._is_late = headers, seconds, False
        try:
            if parts.scheme == "http":
                self._line = http.client.HTTPConnection(parts.hostname, parts.port, timeout=seconds)
            else:
                self._line = http.client.HTTPSConnection(parts.hostname, parts.port, timeout=seconds, context=context)
        except ValueError:
            raise OptionError(f"{url}: expected a port from 1 to 65535") from None
        self._line.response_class = _Answer

    def deliver(self, data: bytes, key: str, kind: str) -> None:
        """Posts a message; `Refused` if the answer isn't 2xx, or isn't there within the seconds, however it drips. If
        the connection is an earlier message's, the server may have closed it meanwhile: the message is sent once more,
        over a new one."""
        fresh = self._line.sock is None
        try:
            self._in_time(data, key, kind)
        except (http.client.HTTPException, ConnectionError) as error:
            self._line.close()
            if self._is_late or fresh:
                late = f"no answer within {self._seconds:g} seconds" if self._is_late else ""
                raise Refused(f"{self._where}: {late or _said(error)}") from None
            self.deliver(data, key, kind)
        except socket.timeout:
            self._line.close()
            raise Refused(f"{self._where}: no answer within {self._seconds:g} seconds") from None
        except OSError as error:
            self._line.close()
            late = f"no answer within {self._seconds:g} seconds" if self._is_late else ""
            raise Refused(f"{self._where}: {late or error.strerror or error}") from None

    def _in_time(self, data: bytes, key: str, kind: str) -> None:
        self._is_late = False
        timer = threading.Timer(self._seconds, self._end)
        timer.daemon = True
        timer.start()
        try:
            self._post(data, key, kind)
        finally:
            timer.cancel()

    def _end(self) -> None:
        """The time is over: ends what is read."""
        line = self._line.sock
        if line is not None:
            self._is_late = True
            with contextlib.suppress(OSError):
                line.shutdown(socket.SHUT_RDWR)

    def _given(self) -> Dict[str, str]:
        """The header fields of the file. It is read again for every message, because a token may have been renewed."""
        try:
            return {} if self._headers is None else headers_of(self._headers)
        except (OptionError, OSError) as error:
            raise Unreachable(str(error)) from None

    def _post(self, data: bytes, key: str, kind: str) -> None:
        given = self._given()
        if self._line.sock is not None and _has_more(self._line.sock):
            self._line.close()
        if self._line.sock is None:
            try:
                self._line.connect()
            except OSError as error:
                self._line.close()
                raise Unreachable(f"{self._where}: {error.strerror or error}") from None
        self._line.request("POST", self._path, data, {**given, "Content-Type": kind, "X-Request-ID": key})
        answer = self._line.getresponse()
        rest = answer.read(_MOST)
        if len(rest) == _MOST:
            self._line.close()
        elif answer.length or self._is_late:
            raise http.client.IncompleteRead(rest)
        if 200 <= answer.status < 300:
            return
        why = f"{self._where}: {answer.status} {http.client.responses.get(answer.status, '')}".strip()
        if answer.status in _OF_MESSAGE:
            raise Refused(why)
        raise Unreachable(why, min(_wait_of(answer.getheader("Retry-After") or ""), _LONGEST))


def _has_more(line: socket.socket) -> bool:
    """Whether something came after an answer, or the end of the connection: nothing there answers what comes next."""
    poll = select.poll()
    poll.register(line, select.POLLIN)
    return bool(poll.poll(0))


def _said(error: Exception) -> str:
    """Why an answer is none, in words that aren't the server's."""
    if isinstance(error, OSError):
        return error.strerror or "the connection was closed without an answer"
    return "the answer breaks off" if isinstance(error, http.client.IncompleteRead) else "an answer that can't be read"


def _wait_of(text: str) -> float:
    """How many seconds a server asks to wait, as a number or a date (RFC 9110, 10.2.3)."""
    if re.match(r"\d{1,9}$", text):
        return float(text)
    with contextlib.suppress(TypeError, ValueError):
        return max(0.0, (parsedate_to_datetime(text) - datetime.datetime.now(datetime.timezone.utc)).total_seconds())
    return 0.0


def to_https(server: Https, write: Writer, form: str) -> Target:
    """Posts each message to a server; as HL7, one for each patient."""

    def deliver(one: Stored) -> bool:
        data = write(one)
        parts = messages_of(data) if form == "oru" else [(write(None) or b"") + data] if data else []
        for place, part in enumerate(parts, 1):
            server.deliver(part, one.key if place == 1 else f"{one.key}-{place}", TYPES[form])
        return bool(data)

    return deliver
