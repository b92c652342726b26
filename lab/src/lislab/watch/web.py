"""The server of `lislab watch --http`: read only, on loopback unless somebody else is named who may look and a token is
set. The standard library's server is enough: a thread a request, and few who look."""
import base64
import contextlib
import hmac
import ipaddress
import os
import secrets
import socket
import threading
import time
from http.server import BaseHTTPRequestHandler, ThreadingHTTPServer
from typing import Any, Callable, Dict, List, NamedTuple, Optional, Sequence, Tuple
from urllib.parse import parse_qs, urlsplit

from ..diagnosis.ring import capture_of
from ..field.ladder import Ladder
from ..model.book import STATES
from ..model.books import reading_book
from ..model.files import write_synced
from ..model.options import Network, is_allowed, is_loopback
from ..model.said import say
from ..model.store import StoreError
from ..model.unix import WatchError
from ..outbound.deliver import WrongStore, read_took
from . import metrics, page, tally
from .client import Host

#: How long a request may take to come, in seconds; how many are served at once, and how many of one address; how old
#: what is shown may be; how many bytes of a line are drawn, and how many of its messages and orders are listed.
SECONDS, AT_ONCE, OF_ONE, FRESH, DRAWN, LISTED = 10.0, 64, 16, 1.0, 16 << 10, 20
#: What has nothing of what a record says, and is shown on this machine without a token.
OPEN = ("/", "/metrics", "/style.css", "/live.js")
HEADS = (
    (
        "Content-Security-Policy",
        "default-src 'none'; style-src 'self'; script-src 'self'; connect-src 'self'; "
        "img-src data:; base-uri 'none'; form-action 'none'; frame-ancestors 'none'",
    ),
    ("X-Content-Type-Options", "nosniff"),
    ("Referrer-Policy", "no-referrer"),
    ("Cross-Origin-Resource-Policy", "same-origin"),
    ("Cache-Control", "no-store"),
)
NO_TOKEN = "Start <code>lislab watch</code> with <code>--token FILE</code>: it makes the file if it isn't there."
HTML, CSS, JS = "text/html; charset=utf-8", "text/css; charset=utf-8", "text/javascript; charset=utf-8"


class Asked(NamedTuple):
    """Where the pages are, who may see them, and with which token."""

    host: str
    port: int
    networks: Sequence[Network]
    token: str
    cursors: Sequence[str]


class Answer(NamedTuple):
    """What is answered to a request."""

    status: int
    form: str
    text: str


def _alarm(status: int, title: str, why: object) -> Answer:
    return Answer(status, HTML, page.page(title, f'<p class="alarm">{page.safe(why)}</p>'))


class Pages:
    """Makes the pages of a host. It asks the host at most once a second, however many readers there are."""

    def __init__(self, host: Host, cursors: Sequence[str]) -> None:
        self.host, self.tally, self._cursors = host, tally.Tally(host.store), cursors
        self._lock = threading.Lock()
        self._data: Dict[str, Any] = {}
        self._at = -FRESH
        self._drawn: Dict[str, Tuple[int, str]] = {}

    def data(self) -> Dict[str, Any]:
        """How the lines do."""
        with self._lock:
            if time.monotonic() - self._at >= FRESH:
                self._data, self._at = self.host.look(), time.monotonic()
            return self._data

    def answer(self, path: str, given: Dict[str, str]) -> Answer:
        """The page at a path."""
        one = self._PATHS.get(path)
        if one is None:
            return Answer(404, HTML, page.page("There is no such page", ""))
        try:
            return one(self, given)
        except (StoreError, WatchError) as error:
            return _alarm(503, "The store can't be read", error)
        except Exception as error:  # a page that can't be made is no reason to say nothing
            return _alarm(500, "The page can't be shown", f"{type(error).__name__}: {error}")

    def _lines(self, _: Dict[str, str]) -> Answer:
        delivered = {os.path.basename(one): sorted(read_took(one)) for one in self._cursors}
        return Answer(200, HTML, page.lines_page(self.data(), self.tally, delivered))

    def _line(self, given: Dict[str, str]) -> Answer:
        name = given.get("name", "")
        lines = self.data()["lines"]
        one = lines.get(name)
        if one is None:
            return Answer(404, HTML, page.no_line_page(lines))

        def work(store: Any) -> page.LineData:
            with reading_book(store) as book:
                failed = book.failed(LISTED).get(name)
            kept = (store.last_heads(name, LISTED), store.not_complete(name, LISTED))
            return page.LineData(*kept, failed, self._ladder(name))

        more = tally.each(self.host.store, work)
        return Answer(200, HTML, page.line_page(name, one, self.tally, more))

    def _ladder(self, name: str) -> str:
        """The rows of a line's last bytes; drawn again if there are new ones."""
        try:
            head, pieces = self.host.ring(name)
        except WatchError as error:
            return f"<p>{page.safe(error)}</p>"
        before = self._drawn.get(name)
        if before is not None and before[0] == head["next"]:
            return before[1]
        size, first = 0, len(pieces)
        while first and size < DRAWN:
            first -= 1
            size += len(pieces[first].data) + 17
        capture = capture_of(pieces[first:], first > 0 or head["first"] > 0)
        made = page.ladder_table(Ladder(capture, frame_limit=int(head["frame"])).rows)
        self._drawn = {**self._drawn, name: (int(head["next"]), made)}
        return made

    def _trouble(self, _: Dict[str, str]) -> Answer:
        found = tally.each(self.host.store, lambda store: store.not_complete(None))
        return Answer(200, HTML, page.page("Incomplete and invalid messages", page.heads_table(found)))

    def _message(self, given: Dict[str, str]) -> Answer:
        found = tally.each(self.host.store, lambda store: store.message(given.get("key", "")))
        if found is None:
            return Answer(404, HTML, page.page("There is no such message", ""))
        return Answer(200, HTML, page.message_page(found))

    def _metrics(self, _: Dict[str, str]) -> Answer:
        def work(store: Any) -> Tuple[Dict[str, int], Dict[str, int]]:
            left: Dict[str, int] = {}
            for cursor in self._cursors:  # what a cursor of another store has still to do isn't known
                with contextlib.suppress(WrongStore, StoreError):
                    left[cursor] = tally.undelivered(store, cursor)
            with reading_book(store) as book:
                return left, {**dict.fromkeys(STATES, 0), **book.counts()}

        data, counts = self.data(), ({}, {})  # type: Dict[str, Any], Tuple[Dict[str, int], Dict[str, int]]
        with contextlib.suppress(StoreError):  # the host's own state is better than nothing
            counts = tally.each(self.host.store, work)
        return Answer(200, metrics.FORM, metrics.metrics_of(data, *counts))

    _PATHS: "Dict[str, Callable[[Pages, Dict[str, str]], Answer]]" = {
        "/": _lines,
        "/line": _line,
        "/trouble": _trouble,
        "/message": _message,
        "/metrics": _metrics,
        "/style.css": lambda self, _: Answer(200, CSS, page.STYLE),
        "/live.js": lambda self, _: Answer(200, JS, page.SCRIPT),
    }


class Server(ThreadingHTTPServer):
    """The server. It limits the requests at once, of all and of one address. For one more it closes the oldest
    connection whose request hasn't arrived, so that a slow sender keeps nobody away."""

    daemon_threads = True

    def __init__(self, asked: Asked, pages: Pages) -> None:
        self.asked, self.pages = asked, pages
        #: The connections, the oldest first: by whom, and whether the request has come.
        self._looking: Dict[Any, Tuple[str, bool]] = {}
        self._lock = threading.Lock()
        self.address_family = socket.AF_INET6 if ":" in asked.host else socket.AF_INET
        super().__init__((asked.host, asked.port), Handler)

    def verify_request(self, request: Any, client_address: Any) -> bool:
        """Whether an address may look, and there is room."""
        peer = str(client_address[0])
        if not is_allowed(peer, self.asked.networks):
            return False
        with self._lock:
            same = [one for one, (by, _) in self._looking.items() if by == peer]
            among = same if len(same) >= OF_ONE else list(self._looking) if len(self._looking) >= AT_ONCE else []
            slow = next((one for one in among if not self._looking[one][1]), None)
            if among and slow is None:
                return False
            if slow is not None:
                del self._looking[slow]
                _cut(slow)
            self._looking[request] = peer, False
        return True

    def has_come(self, request: Any) -> None:
        """The request of a connection has come: what follows is this server's own time."""
        with self._lock:
            if request in self._looking:
                self._looking[request] = self._looking[request][0], True

    def process_request_thread(self, request: Any, client_address: Any) -> None:
        over = threading.Timer(SECONDS, _cut, [request])
        over.daemon = True
        over.start()
        try:
            super().process_request_thread(request, client_address)
        finally:
            over.cancel()
            with self._lock:
                self._looking.pop(request, None)

    def handle_error(self, request: Any, client_address: Any) -> None:
        """A reader who goes away before the answer is no error to speak of."""


def _cut(request: socket.socket) -> None:
    """Ends a connection whose time is over, however slowly its bytes come or are taken."""
    with contextlib.suppress(OSError):
        request.shutdown(socket.SHUT_RDWR)


class Handler(BaseHTTPRequestHandler):
    """A request."""

    server: Server
    server_version, sys_version = "lislab", ""

    def do_GET(self) -> None:
        """Answers with a page, or with its head alone."""
        self._reply(self._answer())

    do_HEAD = do_GET

    def _answer(self) -> Answer:
        self.server.has_come(self.connection)
        try:
            address = urlsplit(self.path)
            given = {key: values[-1] for key, values in parse_qs(address.query, max_num_fields=8).items()}
        except ValueError:
            return Answer(400, HTML, page.page("Bad address", ""))
        return self._refused(address.path) or self.server.pages.answer(address.path, given)

    def _refused(self, path: str) -> Optional[Answer]:
        """Why somebody may not look at a path, if so. A token, which a browser gives to the name that it was typed for,
        makes each name of the server good."""
        asked = self.server.asked
        if self._has_token(asked.token):
            return None
        is_wanted = asked.token and (not is_loopback(asked.host) or "Authorization" in self.headers)
        if not is_wanted and not self._is_named():
            return Answer(421, HTML, page.page("This server has another name", ""))
        if not is_wanted and path in OPEN:
            return None
        if asked.token:
            return Answer(401, HTML, page.page("A token is needed", "<p>Any name, and the token as its password.</p>"))
        return Answer(403, HTML, page.page("Records are shown only with a token", f"<p>{NO_TOKEN}</p>"))

    def _is_named(self) -> bool:
        """Whether the request is for an address of this server, and not for a name that somebody else has given it."""
        host = self.headers.get("Host", "")
        name = (host if host.endswith("]") else host.rpartition(":")[0] or host).strip("[]")
        if name == "localhost" or name == self.server.asked.host:
            return True
        try:
            return ipaddress.ip_address(name).is_loopback
        except ValueError:
            return False

    def _has_token(self, token: str) -> bool:
        """Whether the token is there: as a bearer's, or as the password of any user."""
        kind, _, word = self.headers.get("Authorization", "").partition(" ")
        found = word.strip().encode()
        if kind.lower() == "basic":
            try:
                found = base64.b64decode(found, validate=True).partition(b":")[2]
            except ValueError:
                return False
        return bool(token) and hmac.compare_digest(found, token.encode())

    def _reply(self, answer: Answer) -> None:
        data = answer.text.encode("utf-8", "replace")
        self.send_response(answer.status)
        for name, text in (("Content-Type", answer.form), ("Content-Length", str(len(data))), *HEADS):
            self.send_header(name, text)
        if answer.status == 401:
            self.send_header("WWW-Authenticate", 'Basic realm="lislab", charset="UTF-8"')
        self.end_headers()
        if self.command != "HEAD":
            self.wfile.write(data)

    def log_message(self, format: str, *args: Any) -> None:
        """No log: a path may name a message."""


def token_of(path: Optional[str]) -> str:
    """The token in a file; none without a file. A missing file is made with a new token, readable only by its owner."""
    if path is None:
        return ""
    if not os.path.exists(path):
        write_synced(path, secrets.token_urlsafe(24).encode() + b"\n")
        say(f"{path}: a token is made")
    with open(path, encoding="utf-8") as file:
        return file.read().strip()
