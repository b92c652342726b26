"""Which functions of the packages a host runs, on all its threads, for a text in mid-message, and for a query with its
answer: from the first byte on the socket until the host waits again (`tests/host/more walk`). The host serves in this
process, with SQLite; the analyzer is written from the standard, over no code of the packages."""
import asyncio
import contextlib
import os
import sys
import tempfile
import threading
import unittest.mock
from collections import Counter

from lislab.cli import main as cli, serve as command
from lislab.host.serve import Host
from lislab.host.turns import Turns
from lislab.model.books import open_book
from lislab.model.stores import open_store
from lislink.order import Order
from tests.host import SOURCE
from tests.host.hosts import NEVER, say
from tests.host.plain import ACK, ENQ, EOT, frame, query

FOLDERS = tuple(os.path.realpath(one) + os.sep for one in SOURCE.split(os.pathsep))
TEXTS = [b"H|\\^&\r", b"P|1\r", b"O|1|S7||^^^GLU\r"]
#: What is a part of the function that it is in.
PARTS = ("<listcomp>", "<genexpr>", "<setcomp>", "<dictcomp>")
#: So many turns of the loop after a reply it waits again.
TURNS = 20


class Walk:
    """The functions that are called while it is on: how often, by their files, lines and names."""

    def __init__(self):
        self.calls, self.is_on = Counter(), False

    def note(self, frame, event, _):
        """Something happened on a thread."""
        code = frame.f_code
        if self.is_on and event == "call" and code.co_name not in PARTS:
            self.calls[code.co_filename, code.co_firstlineno, code.co_name] += 1

    def of_packages(self):
        """Those of the packages, each as its file, name and calls, in the order of their first call."""
        for (path, _, name), count in self.calls.items():
            for folder in FOLDERS:
                if os.path.realpath(path).startswith(folder):
                    yield os.path.realpath(path)[len(folder) :], name, count


class Analyzer:
    """An analyzer on a connection."""

    def __init__(self, reader, writer):
        self.reader, self.writer = reader, writer

    async def asks(self, data, wanted=ACK):
        """Sends bytes, which are answered."""
        self.writer.write(data)
        got = await self.reader.readexactly(1)
        assert got == wanted, got

    async def takes(self):
        """Takes the host's session, up to its EOT."""
        while True:
            self.writer.write(ACK)
            if await self.reader.readexactly(1) == EOT:
                return
            await self.reader.readuntil(b"\n")


async def _text(host, walk):
    """A text in mid-message: walked."""
    async with connected(host, "text") as one:
        first, second, third = (frame(number, text) for number, text in enumerate(TEXTS, 1))
        for unit in (ENQ, first, second):
            await one.asks(unit)
        await _walked(walk, one.asks(third))


async def _query(host, walk):
    """The last frame of a query, and its answer: walked."""
    async with connected(host, "query") as one:
        *first, last = (frame(number, text) for number, text in enumerate(query("S7"), 1))
        for unit in (ENQ, *first):
            await one.asks(unit)

        async def asked():
            await one.asks(last)
            await one.asks(EOT, ENQ)
            await one.takes()

        await _walked(walk, asked())


WALKS = {"a text in mid-message": _text, "a query with its answer": _query}


@contextlib.asynccontextmanager
async def connected(host, name):
    server = next(port.server for port in host.ports._open if port.place.name == name)
    reader, writer = await asyncio.open_connection(*server.sockets[0].getsockname())
    try:
        yield Analyzer(reader, writer)
    finally:
        writer.close()


async def _walked(walk, work):
    """Walks what a host does for this, until it waits again."""
    await _settle()
    walk.is_on = True
    await work
    await _settle()
    walk.is_on = False


async def _settle():
    for _ in range(TURNS):
        await asyncio.sleep(0.001)


async def served(folder, work):
    """Serves in this process, and does some work."""
    path = os.path.join(folder, "walk.db")
    words = ["serve", "--store", path, "--scale", str(NEVER)]
    words += ["--listen", "0,name=text", "--listen", "0,name=query,orders=query"]
    store = open_store(path)
    with contextlib.closing(store):
        store.start("walk")
        book = open_book(path)
        book.add([Order("S7", ("GLU", "K"))])
        book.close()
        # No time is used, because the analyzer and the walk itself use this thread's.
        with unittest.mock.patch("lislab.host.serve.Turns", lambda: Turns(lambda: 0.0)):
            host = Host(command._asked_of(cli.parser().parse_args(words)), store)
        await host.start()
        await work(host)
        await host.stop()


def walked(folder, work):
    """Serves, and walks some work."""
    walk = Walk()
    threading.setprofile(walk.note)
    sys.setprofile(walk.note)
    try:
        asyncio.run(served(folder, lambda host: work(host, walk)))
    finally:
        sys.setprofile(None)
        threading.setprofile(None)
    return list(walk.of_packages())


def run(words):
    """Prints how many functions there are, in how many files; with `list`, each with its calls."""
    for name, work in WALKS.items():
        with tempfile.TemporaryDirectory(prefix="lis-walk-") as folder:
            found = walked(folder, work)
        for file, function, calls in found if "list" in words else ():
            print(f"{file}: {function} {calls}")
        calls = sum(one for *_, one in found)
        say(f"{name}: {len(found)} functions in {len({file for file, *_ in found})} files, {calls} calls")
    return 0
