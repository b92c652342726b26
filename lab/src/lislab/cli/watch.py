"""`lislab watch`: the state of a host's lines, at a glance."""
import argparse
import os
import shlex
import sys
import threading
import time
from typing import List, Optional, Tuple

from lislink.capture import Capture, write_lines
from ..diagnosis.ring import capture_of
from ..field.ladder import Ladder
from ..field.looks import looks_of
from ..field.show import row_text, text_of
from ..model.files import write_whole
from ..model.options import OptionError, is_loopback, networks_of, split_address
from ..model.said import announce, many, say
from ..model.store import StoreError
from ..model.unix import WatchError, shown, socket_of
from ..watch import client
from ..watch.client import Host
from ..watch.live import LiveLadder
from ..watch.notify import Notifier
from ..watch.web import Asked, Pages, Server, token_of
from .capture import times_text
from .common import GOOD, LOOKS_WRONG, write_output
from .serve import state_file
from .words import add_allow, add_each

#: The fewest characters of a token.
SHORTEST = 16
#: Terminal codes: before a screen is painted again, before a bad line, before a quiet one, and after each.
CLEAR, COLOURS, PLAIN = "\x1b[H\x1b[J", {"bad": "\x1b[1;31m", "quiet": "\x1b[2m", "good": "\x1b[32m"}, "\x1b[0m"


def add_options(one: argparse.ArgumentParser) -> None:
    """Adds the options of `lislab watch`."""
    one.add_argument("--store", required=True, metavar="STORE", help="the store of the host")
    one.add_argument("--status", metavar="FILE", help="the host's state file; its socket is next to it (STORE.status)")
    one.add_argument("--once", action="store_true", help="print once; exit with 1 if a line is bad")
    one.add_argument("--every", type=float, default=2.0, metavar="SECONDS", help="look every SECONDS (%(default)s)")
    one.add_argument("--line", metavar="NAME", help="show the traffic of this line live")
    one.add_argument("--save", metavar="FILE", help="with --line: write its last bytes as a capture, then exit")
    one.add_argument("--notify", metavar="COMMAND", help="run this when a line turns bad, and when it is good again")
    one.add_argument("--http", metavar="HOST:PORT", help="serve status pages and /metrics")
    add_allow(one, "with --http: let this network connect too")
    one.add_argument(
        "--token", metavar="FILE", help="with --http: the file of the token (password) for pages with records"
    )
    add_each(one, "--cursor", "FILE", "also show the delivery with this cursor; may be repeated")


def run(ask: argparse.Namespace) -> int:
    """Shows the lines, or one of them."""
    if ask.save and not ask.line:
        raise OptionError("--save writes the last bytes of a line: name it by --line")
    host = Host(ask.store, socket_of(state_file(ask.store, ask.status)), ask.cursor)
    every = max(0.1, ask.every)
    if ask.notify and (ask.once or ask.line):
        raise OptionError("--notify watches all lines, and goes on")
    if ask.http:
        return _serve(host, ask, every)
    if ask.save:
        return _save(host, ask.line, ask.save)
    if ask.line:
        return _ladder_once(host, ask.line) if ask.once else _ladder(host, ask.line, every)
    if ask.once:
        data = host.look()
        _print(client.rows_of(data))
        return LOOKS_WRONG if client.is_bad(data) else GOOD
    return _stay(host, every, _notifier(ask))


def _print(rows: List[str]) -> None:
    sys.stdout.write("".join(row + "\n" for row in rows))
    sys.stdout.flush()


def _notifier(ask: argparse.Namespace) -> Optional[Notifier]:
    words = shlex.split(ask.notify or "")
    if not words:
        return None
    one = Notifier(words, say)
    one.start()
    return one


def _rows(host: Host, notifier: Optional[Notifier]) -> Tuple[List[str], List[str]]:
    """The rows of the lines and the deliveries, and the state of each."""
    try:
        data = host.look()
    except StoreError as error:
        if notifier is not None:
            notifier.see_nothing(str(error))
        return [f"the host doesn't answer, nor its store: {shown(str(error))}"], ["bad"]
    if notifier is not None:
        notifier.see(data)
    rows = client.rows_of(data)
    states = [one["state"] for one in [*data["lines"].values(), *data["deliveries"].values()]]
    return rows, [""] * (len(rows) - len(states)) + states


def _stay(host: Host, every: float, notifier: Optional[Notifier]) -> int:
    """Paints the rows again and again. Output that is no terminal gets a row when its line changes."""
    before: List[str] = []
    host.look()  # a store that isn't there is said at once
    while True:
        rows, states = _rows(host, notifier)
        if sys.stdout.isatty():
            painted = [f"{COLOURS.get(state, '')}{row}{PLAIN}" for state, row in zip(states, rows)]
            sys.stdout.write(CLEAR)
            _print([time.strftime("%Y-%m-%d %H:%M:%S"), *painted])
        else:
            _print([f"{time.strftime('%H:%M:%S')}  {row}" for row in rows if row not in before])
        before = rows
        time.sleep(every)


# ---- pages


def _asked(ask: argparse.Namespace) -> Asked:
    """The address of the pages, and who may read them."""
    address, port = split_address(ask.http)
    token = token_of(ask.token)
    if ask.token and len(token) < SHORTEST:
        raise OptionError(f"{ask.token}: a token has at least {SHORTEST} characters")
    if ask.token and os.stat(ask.token).st_mode & 0o077:
        raise OptionError(f"{ask.token}: a token is its owner's alone: chmod 600")
    if not is_loopback(address) and not (ask.allow and token):
        raise OptionError(f"{ask.http} isn't loopback: name networks by --allow, and a file with a token by --token")
    return Asked(address, port, networks_of(ask.allow), token, ask.cursor)


def _serve(host: Host, ask: argparse.Namespace, every: float) -> int:
    """Serves pages, and looks whether a line turns bad, as long as it runs."""
    asked = _asked(ask)
    host.look()  # a store that isn't there is said at once
    pages = Pages(host, asked.cursors)
    pages.tally.start()
    server, notifier = Server(asked, pages), _notifier(ask)
    address, port = server.server_address[:2]
    threading.Thread(target=server.serve_forever, name="pages", daemon=True).start()
    where = f"[{address!s}]" if ":" in str(address) else str(address)
    announce(f"listening http://{where}:{port}/")
    said = ""
    while True:
        try:
            if notifier is not None:
                notifier.see(pages.data())
            said = ""
        except StoreError as error:
            if notifier is not None:
                notifier.see_nothing(str(error))
            if said != str(error):
                said = str(error)
                say(said)
        time.sleep(every)


# ---- one line


def _captured(host: Host, line: str) -> "tuple[Capture, int]":
    head, pieces = host.ring(line)
    return capture_of(pieces, int(head["first"]) > 0), int(head["frame"])


def _save(host: Host, line: str, path: str) -> int:
    """Writes a capture of a line's last bytes, and their times next to it."""
    capture, _ = _captured(host, line)
    write_whole(path, write_lines(row for _, row in capture.lines).encode())
    write_whole(path + ".times", times_text(capture).encode())
    say(f"capture: {path}, {many(len(capture.lines), 'line')}; times: {path}.times")
    return GOOD


def _ladder_once(host: Host, line: str) -> int:
    """The ladder of what the host holds of a line."""
    capture, frame = _captured(host, line)
    ladder = Ladder(capture, frame_limit=frame)
    write_output(None, text_of(ladder).encode("utf-8"))
    return LOOKS_WRONG if any(look.level == "bad" for look in looks_of(ladder)) else GOOD


def _ladder(host: Host, line: str, every: float) -> int:
    """Prints the rows of a line's ladder, as they are complete. It waits for a host that isn't there."""
    ladder, after = None, 0
    while True:
        try:
            head, pieces = host.ring(line, after)
        except WatchError as error:
            if ladder is None:
                raise
            _print([f"-- {shown(str(error))}"])
            time.sleep(every)
            after = 0
            continue
        if int(head["next"]) < after:  # another host runs now
            ladder, after = None, 0
            continue
        if ladder is None:
            ladder = LiveLadder(int(head["frame"]))
        elif int(head["first"]) > after:
            _print([f"-- {int(head['first']) - after} pieces went by unseen"])
        after = int(head["next"])
        _print([text for row in ladder.grow(pieces) for text in row_text(row)])
        time.sleep(every)
