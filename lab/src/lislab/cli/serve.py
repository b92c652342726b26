"""The command `lislab serve`."""
import argparse
import asyncio
import contextlib
import functools
import os
import re
import shlex
import socket
from typing import Callable, Optional, Sequence, Union

from lislink._library import calls
from ..host import serve
from ..host.fixers import left_of
from ..host.outbox import Outbox
from ..model import lines, options, renamed
from ..model.books import open_book
from ..model.options import Limits, OptionError, Place
from ..model.said import many, say
from ..model.stores import open_store
from ..model.unix import socket_of
from .common import GOOD, add_renamed
from .lines import lines_of
from .words import COUNT, FACTOR, PLACE, SECONDS, add_allow, add_each, add_scale, add_store

#: The end of `serve --help`.
_SETTINGS = (
    "KEY=VALUE is a setting of the line, for example --listen 4000,name=chemistry,orders=query. lislab.lines(5) and "
    "docs/lislab.md list the settings."
)


def _limit_or_file(word: str) -> Union[float, str]:
    """The value of `--lines`: a number is the most lines at once, any other word a file of lines."""
    return COUNT(word) if re.match(r"[-+]?\d+$", word) else word


def add_options(one: argparse.ArgumentParser) -> None:
    """Adds the options of `lislab serve`."""
    one.epilog = _SETTINGS
    add_store(one)
    for name, where, what in (
        ("--listen", "HOST:PORT[,KEY=VALUE ..]", "listen on a TCP port; without HOST, only for this machine"),
        ("--connect", "HOST:PORT[,KEY=VALUE ..]", "connect to an analyzer or terminal server that listens"),
        ("--serial", "DEVICE:SPEED[,KEY=VALUE ..]", "open a serial port"),
    ):
        add_each(one, name, where, what)
    add_allow(one)
    one.add_argument(
        "--lines",
        type=_limit_or_file,
        action="append",
        default=[],
        metavar="FILE",
        help="read the lines from a lines file, and again at SIGHUP",
    )
    one.add_argument(
        "--host-name",
        default=socket.gethostname(),
        metavar="NAME",
        help="name of this host in the store (the machine's name)",
    )
    _add_limits(one, Limits())
    answers = "answer queries by this command, which reads a query and prints records"
    one.add_argument("--query-command", metavar="COMMAND", help=answers)
    add_renamed(one, "serve", "--ask", metavar="COMMAND")
    one.add_argument(
        "--tries", type=PLACE, default=10, metavar="N", help="try N times to send an order; 0 is no limit (%(default)s)"
    )
    one.add_argument(
        "--capture", metavar="PREFIX", help="record the traffic of every connection to PREFIX-NAME-TIME-N.capture"
    )
    one.add_argument("--status", metavar="FILE", help="write the state for lislab status to FILE (STORE.status)")
    add_scale(one)


def _add_limits(one: argparse.ArgumentParser, usual: Limits) -> None:
    number = functools.partial(one.add_argument, metavar="N")
    most = "accept at most N TCP connections at once (%(default)s)"
    number("--max-lines", type=COUNT, default=usual.lines, help=most)
    number("--address-lines", type=COUNT, default=usual.address, help="at most N from one address (%(default)s)")
    number("--message-bytes", type=COUNT, default=usual.message, help="most bytes of a message (%(default)s)")
    seconds = functools.partial(one.add_argument, metavar="SECONDS")
    seconds("--idle", type=FACTOR, default=usual.idle, help="close a silent connection after this (%(default)s)")
    seconds("--reply-within", type=FACTOR, default=usual.reply, help="never reply later than this (%(default)s)")
    seconds("--grace", type=SECONDS, default=usual.grace, help="let open sessions finish at a stop (%(default)s)")


def state_file(store: str, named: Optional[str]) -> Optional[str]:
    """Where a host writes its state; None if it has no file for it."""
    if named is not None or "://" in store:
        return named
    return (store[len("spool:") :].rstrip("/") if store.startswith("spool:") else store) + ".status"


def run(ask: argparse.Namespace) -> int:
    """Serves until it is stopped."""
    asked = _asked_of(ask)
    if ask.reply_within >= 15:
        raise OptionError("--reply-within is below the analyzer's timer of 15 seconds")
    calls()  # without the library no line could be answered
    os.umask(0o077)
    with contextlib.closing(open_store(ask.store)) as store:
        left = store.start(ask.host_name)
        if left:
            say(f"{many(len(left), 'message was', 'messages were')} open when the host stopped: incomplete")
        ends = left_of(store, left, {place.name: place.fix for place in asked.places})
        asyncio.run(serve.serve(asked, store, ends))
    return GOOD


def _asked_of(ask: argparse.Namespace) -> serve.Asked:
    """The settings of serve, by its options and its lines file as that is now."""
    files = [one for one in ask.lines if isinstance(one, str)]
    most = [ask.max_lines, *(one for one in ask.lines if not isinstance(one, str))][-1]
    if len(files) < len(ask.lines):
        renamed.report("--lines N", renamed.OPTIONS["serve", "--lines N"])
    if len(files) > 1:
        raise OptionError(f"only one lines file is read, not {' and '.join(files)}")
    networks = options.networks_of(ask.allow)
    found = lines_of(ask, files, networks)
    listens = [one for one in found.places if isinstance(one, options.Listen)]
    connects = [one for one in found.places if isinstance(one, options.Connect)]
    serials = [one for one in found.places if isinstance(one, options.Serial)]
    limits = Limits(most, ask.message_bytes, ask.idle, ask.reply_within, ask.grace, ask.scale, ask.address_lines)
    state, outbox = state_file(ask.store, ask.status), _outbox_of(ask, found.places)
    asked = serve.Asked(listens, serials, networks, limits, ask.capture, state, ask.host_name, outbox, connects)
    asked = asked._replace(watch=socket_of(state), tables=found.tables)
    return asked._replace(again=functools.partial(_asked_of, ask)) if files else asked


def _outbox_of(ask: argparse.Namespace, places: Sequence[Place]) -> Optional[Callable[[Callable[[str], None]], Outbox]]:
    """A function that makes the outbox of a host, if a line has orders."""
    command = shlex.split(ask.query_command or "")
    if not any(place.orders for place in places):
        if command:
            raise OptionError("--query-command answers on lines with orders=query")
        return None
    if command and any(place.orders == "download" for place in places):
        raise OptionError("a line with orders=download sends orders of the store: --query-command only answers queries")
    book = functools.partial(open_book, ask.store, ask.host_name)
    return functools.partial(Outbox, book, command, ask.tries, ask.scale)
