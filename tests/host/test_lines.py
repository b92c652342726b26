"""One line at a time: cuts, silence, late replies, limits, what can't be read, a stop in order."""
import asyncio
import contextlib
import gc
import os
import signal
import socket
import threading
import time
import unittest.mock
import weakref
from collections import Counter
from concurrent.futures import ThreadPoolExecutor
from typing import get_args

from lislink import FrameFault, _library, frame_bytes
from lislink.link import LONG_FRAME_TEXT
from lislab.diagnosis.events import Came, Closed, Event, Late, Observers, Sent
from lislab.host import line, ports, wires
from lislab.host.intake import Intake
from lislab.model import options
from tests.host import walk
from tests.host.hosts import NEVER, Found, Host, HostTest, lislab, sending, wait_for

#: The timers of tests in which they run out while a frame is answered in time: 15 seconds are 0.75.
LATE = 0.05
#: The same where a host is silent, and where it is stopped: a busy machine that stalls one for six seconds makes its
#: replies late too.
SILENT, STALLED = 0.2, 0.6
#: What the host says of a late reply.
NOT_SENT = "a reply is late and isn't sent: byte "
ENQ, ACK, NAK, EOT = b"\x05", b"\x06", b"\x15", b"\x04"
TEXTS = [b"H|\\^&|||A\r", b"P|1\r", b"O|1|S7\r", b"R|1|^^^GLU|5.4\r", b"L|1|N\r"]


def frames(texts):
    """A session's frames."""
    return [frame_bytes(number % 8, True, text) for number, text in enumerate(texts, 1)]


def session(texts):
    """The bytes of a session."""
    return ENQ + b"".join(frames(texts)) + EOT


class Client:
    """A connection to a host, by hand."""

    def __init__(self, port, address="127.0.0.1"):
        self.socket = socket.create_connection(("127.0.0.1", port), source_address=(address, 0))
        self.socket.setsockopt(socket.IPPROTO_TCP, socket.TCP_NODELAY, 1)

    def __enter__(self):
        return self

    def __exit__(self, *_):
        self.socket.close()

    def send(self, data):
        """Sends bytes."""
        self.socket.sendall(data)

    def heard(self, wanted, seconds=60.0):
        """So many bytes, or those that come in time."""
        self.socket.settimeout(seconds)
        data = b""
        try:
            while len(data) < wanted:
                more = self.socket.recv(wanted - len(data))
                if not more:
                    break
                data += more
        except OSError:
            pass
        return data

    def asks(self, data, wanted=1, seconds=60.0):
        """What is answered to bytes."""
        self.send(data)
        return self.heard(wanted, seconds)

    def whole(self, texts):
        """Whether a session is acknowledged to its end."""
        good = self.asks(ENQ) == ACK and all(self.asks(frame) == ACK for frame in frames(texts))
        self.send(EOT)
        return good

    def is_closed(self, seconds=60.0):
        """Whether the host closes the connection."""
        self.socket.settimeout(seconds)
        try:
            return self.socket.recv(1) == b""
        except TimeoutError:
            return False
        except OSError:
            return True


def late_reply(host, client, frame, place, fault):
    """What is answered to a frame that comes while the host is stopped. What comes before the host has said that its
    reply is late may have come while it was stopped too."""
    time.sleep(place * 0.003)
    os.kill(host.process.pid, signal.SIGSTOP)
    client.send(frame)
    time.sleep(15 * STALLED * 1.3)
    os.kill(host.process.pid, signal.SIGCONT)
    if not fault:
        wait_for(lambda: host.says().count(NOT_SENT) == place)
    return client.heard(1, 60.0 if fault else 0.2)


def flood(client, most):
    """Sends ENQ so many times, or until none was taken for two seconds, and reads no reply."""
    client.setblocking(False)
    over, sent = time.monotonic() + 2, 0
    while time.monotonic() < over and sent < most:
        try:
            sent += client.send(ENQ * 4096)
            over = time.monotonic() + 2
        except BlockingIOError:
            time.sleep(0.001)
        except OSError:
            return


class Chained(threading.Thread):
    """An analyzer that sends sessions, each with the next one's ENQ right after its EOT, until its line is closed."""

    def __init__(self, client):
        super().__init__(daemon=True)
        self.client, self.sessions, self.most, self.ended = client, 0, None, "in a session"

    def run(self):
        with contextlib.suppress(OSError):
            while all(self.client.asks(one) == ACK for one in frames(TEXTS)):
                if self.client.asks(EOT + ENQ) != ACK:
                    self.ended = "between sessions"
                    return
                self.sessions += 1
                if self.most is not None and self.sessions > self.most:
                    self.ended = "it goes on"
                    return

    def ends(self):
        """How it ends, once the host closes its line as soon as no session goes on."""
        self.most = self.sessions + 2
        self.join()
        return self.ended


def is_refused(port):
    """Whether nobody listens at a port."""
    try:
        socket.create_connection(("127.0.0.1", port)).close()
    except ConnectionRefusedError:
        return True
    return False


GOOD = b"".join(TEXTS)
#: Sessions with what can't be read: their texts, how many complete messages they have, and the reasons.
ODD = (
    (
        [b"H|\\^&\r", b"R|1\r", b"L|1\r"],
        0,
        ["record 2, from byte 6: no record above it that it belongs to: R; fix=orders would deliver it"],
    ),
    ([b"P|1\r", *TEXTS], 1, ["record 1, from byte 0: no header before it"]),
    (
        [b"H|\\^&\r", b"P|1\r", *TEXTS],
        1,
        ["a header comes before its L record, after record 2, at byte 10; fix=last-l would deliver it"],
    ),
    (
        [b"H|\\^&\r", b"P|1\r"],
        0,
        ["the session ended before its L record, after record 2, at byte 10; fix=last-l would deliver it"],
    ),
    ([GOOD[:20], GOOD[20:]], 1, []),
    ([GOOD + GOOD], 2, []),
    ([GOOD + GOOD[:30], GOOD[30:]], 2, []),
    ([GOOD + b"R|1\r" + GOOD], 2, ["record 1, from byte 0: no header before it"]),
    ([b"H|^^^\rP|1\r" + GOOD], 1, ["record 1, from byte 0: malformed: BAD_DELIMITERS"]),
    ([b"", *TEXTS], 1, []),
)


def kept_bytes(found):
    """How many bytes a store has."""
    return sum(len(one.body) for one in [*found.whole, *found.others])


def keeps_each_text(test, store):
    """Kills a host after each number of texts that it acknowledged."""
    host = Host(store, scale=1.0)
    for place in range(len(TEXTS) + 1):
        with Client(host.port) as client:
            front = frames(TEXTS)[:place]
            good = client.asks(ENQ) == ACK and all(client.asks(frame) == ACK for frame in front)
            host.kill()
            host.start()
        found = Found(store)
        kept = [one.body for one in (found.others if place < len(TEXTS) else found.whole)]
        good = good and (not place or kept[-1:] == [b"".join(TEXTS[:place])])
        test.true(f"{store[:5]}: killed after {place} texts", good, repr(kept))
    host.kill()


class Lines(HostTest):
    """A host and its lines."""

    def test_cuts(self):
        """A session that is cut in two anywhere, or into bytes, is answered and kept the same."""
        store, whole = self.path("cuts.db"), session(TEXTS)
        host, wanted, wrong = Host(store, scale=1.0), ACK * (len(TEXTS) + 1), []
        ways = [[whole[:place], whole[place:]] for place in range(1, len(whole))]
        ways.append([whole[place : place + 1] for place in range(len(whole))])
        for pieces in ways:
            with Client(host.port) as client:
                for piece in pieces:
                    client.send(piece)
                if client.heard(len(wanted)) != wanted:
                    wrong.append([len(piece) for piece in pieces])
            if len(wrong) == 3:
                break
        host.stop()
        found = Found(store)
        self.same("all are acknowledged", wrong, [])
        self.same("all are kept", [one.body for one in found.whole], [b"".join(TEXTS)] * len(whole))
        self.same("the repeats are marked", found.unmarked(), [])

    def test_keeping(self):
        """Killed after each acknowledgement, the host has kept what it acknowledged."""
        for store in (self.path("keeping.db"), "spool:" + self.path("keeping.spool")):
            keeps_each_text(self, store)

    def test_late(self):
        """A host that was stopped for longer than the sender's timer sends no reply to what came before."""
        with ThreadPoolExecutor() as threads:
            late, (said, replies, good, store) = threads.map(self.stopped, ("late", None))
        self.true("a host that replies late is noticed", late[0] == 0 and ACK in late[1], repr(late))
        self.same("late replies that are said", said, 3)
        self.same("no reply", replies, [b""] * 3)
        self.true("the lines go on", good)
        found = Found(store)
        self.same("each message is kept once, whole", (len(found.whole), found.again()), (3, 0))
        front = [b"".join([b"H|\\^&|||A%d\r" % place, *TEXTS[1:]]) for place in range(1, 4)]
        self.true(
            "what was acknowledged before is kept",
            len(found.others) == 3
            and all(
                whole.startswith(one.body) and one.body.count(b"\r") >= 2 for whole, one in zip(front, found.others)
            ),
            repr(found.others),
        )

    def stopped(self, fault):
        """A host that is stopped three times within a session: how many late replies it reports, what it replies after
        each stop, whether its lines go on, and its store."""
        host, replies, good = Host(self.path(f"late{fault}.db"), fault=fault, scale=STALLED), [], True
        for place in range(1, 4):
            texts = [b"H|\\^&|||A%d\r" % place, *TEXTS[1:]]
            with Client(host.port) as client:
                good = client.asks(ENQ) == ACK and all(client.asks(one) == ACK for one in frames(texts)[:2]) and good
                replies.append(late_reply(host, client, frames(texts)[2], place, fault))
                good = bool(fault) or (client.whole(texts) and good)
        host.stop()
        return host.errors[-1].count(NOT_SENT), replies, good, host.store

    def test_slow_lines(self):
        """Lines that stall, or read no reply, delay no other: no timer of theirs runs out meanwhile."""
        host = Host(self.path("slow.db"), scale=NEVER)
        with Client(host.port) as stalled, Client(host.port) as deaf, Client(host.port) as client:
            stalled.asks(ENQ)
            stalled.send(frames(TEXTS)[0][:5])
            deaf.socket.setsockopt(socket.SOL_SOCKET, socket.SO_RCVBUF, 1)
            before = host.memory()
            flood(deaf.socket, 1 << 25)
            self.true("another line is answered", all([client.whole(TEXTS) for _ in range(20)]))
            grown = host.memory() - before
            self.true("who reads no reply fills no memory", grown < 2048, f"{grown} KiB")
            self.same("the stalled line goes on", stalled.asks(frames(TEXTS)[0][5:]), ACK)
        self.same("the host's status", host.stop(), 0)

    def test_one_address(self):
        """An address has eight lines at most, and a connection without a session makes room for another."""
        host = Host(self.path("address.db"), each=None, scale=1.0)
        with contextlib.ExitStack() as stack:
            ones = [stack.enter_context(Client(host.port)) for _ in range(8)]
            self.same("eight sessions", [one.asks(ENQ) for one in ones], [ACK] * 8)
            self.true("a ninth connection", stack.enter_context(Client(host.port)).is_closed())
            self.same("another address", stack.enter_context(Client(host.port, "127.0.0.2")).asks(ENQ), ACK)
        self.same("the host's status", host.stop(), 0)
        host = Host(self.path("idle.db"), "--lines", "3", each=None, scale=1.0)
        with contextlib.ExitStack() as stack:
            first, second, third = (stack.enter_context(Client(host.port)) for _ in range(3))
            self.same("a session", first.asks(ENQ + EOT), ACK)
            third.send(b"x")
            time.sleep(0.1)
            self.same("another address", stack.enter_context(Client(host.port, "127.0.0.2")).asks(ENQ), ACK)
            self.true("the one that is silent for the longest is closed", second.is_closed())
            self.same("who had a session stays", first.asks(ENQ), ACK)
            self.same("who was not silent for so long stays", third.asks(ENQ), ACK)
            self.true("no other has room", stack.enter_context(Client(host.port, "127.0.0.2")).is_closed())
        self.same("the host's status", host.stop(), 0)
        said = "127.0.0.1: a connection without a session gives way to one of 127.0.0.2"
        self.has("it is said", host.errors[-1], said)

    def test_limits(self):
        """Limits on lines, on the size of a message, on silence and on the receiver's timer."""
        words = ["--max-lines", "2", "--message-bytes", "1000", "--idle", "9"]
        host = Host(self.path("limits.db"), *words, scale=SILENT)
        with Client(host.port) as one, Client(host.port) as two:
            self.same("two are heard", (one.asks(ENQ), two.asks(ENQ)), (ACK, ACK))
            with Client(host.port) as three:
                self.true("a line too many is closed", three.is_closed())
            long = [TEXTS[0], *[b"C|1|I|" + b"x" * 190 + b"\r"] * 6]
            *front, last = frames(long)
            replies = [*(one.asks(frame) for frame in front), one.asks(last, 1, 2.0)]
            self.same("a message too long gets no reply", replies, [ACK] * 6 + [b""])
            self.true("its line goes on", one.whole(TEXTS))
            time.sleep(30 * SILENT + 0.2)
            self.same("the receiver's timer", two.asks(frames(TEXTS)[0], 1, 0.2), b"")
            self.true("a silent line is closed", two.is_closed(30))
        host.stop()
        found = Found(host.store)
        self.same("the short message is kept", [one.body for one in found.whole], [b"".join(TEXTS)])
        self.true("what came of the long one is kept", "more than 1000 bytes" in found.others[0].reason)

    def test_long_frames(self):
        """A line takes frames as long as its setting allows, and rejects longer ones."""
        host = Host(self.path("long.db"), "--listen", "0,name=long,frame=63993", scale=1.0)
        port = next(int(row.split()[1].rsplit(":", 1)[1]) for row in host.rows if row.endswith(" long\n"))
        kept = []
        for size in (241, 5000, LONG_FRAME_TEXT):
            texts = [TEXTS[0], b"C|1|I|" + b"x" * (size - 7) + b"\r", TEXTS[-1]]
            kept.append(b"".join(texts))
            sent = [frame_bytes(place, True, text, frame_limit=LONG_FRAME_TEXT) for place, text in enumerate(texts, 1)]
            with Client(port) as client, Client(host.port) as short:
                replies = [client.asks(unit) for unit in (ENQ, *sent)]
                self.same(f"{size} bytes: a line with the long limit", replies, [ACK] * 4)
                client.send(EOT)
                replies = [short.asks(unit) for unit in (ENQ, *sent[:2])]
                self.same(f"{size} bytes: one with the usual limit", replies, [ACK, ACK, NAK])
                short.send(EOT)
        self.same("the host's status", host.stop(), 0)
        whole = [one.body for one in Found(host.store).whole]
        self.same("they are kept", whole, kept)

    def test_peers(self):
        """Who may connect, who may not, and a peer that is gone before it is looked at."""
        for peer, wanted in ((None, (1, 0, 0)), (("192.0.3.1", 1), (1, 0, 1)), (("192.0.2.7", 1), (0, 1, 0))):
            transport = unittest.mock.create_autospec(asyncio.Transport, instance=True)
            transport.get_extra_info.side_effect = {"peername": peer, "socket": unittest.mock.Mock()}.get
            host = unittest.mock.Mock(stopping=False, lines={}, limits=options.Limits(), refused=0)
            host.asked.networks = options.networks_of(["192.0.2.0/24"])
            wires.TcpWire(ports.Port(host, options.listen_of("0")), host.ticks).connection_made(transport)
            found = transport.abort.call_count, host.add.call_count, host.refused
            self.same(f"{peer}: broken off, a line, refused", found, wanted)
            said = [call.args[1] for call in host.notices.say.call_args_list]
            refused = ["192.0.3.1: a connection is refused: the address isn't allowed"]
            self.same(f"{peer}: what is said", said, refused[: wanted[2]])

    def test_quarantine(self):
        """What can't be read is kept with its reason, and hides nothing that follows."""
        found = self.after_odd(None)
        wholes = sum(whole for _, whole, _ in ODD)
        sent = sum(len(text) for texts, _, _ in ODD for text in texts)
        self.same("complete messages", [one.body for one in found.whole], [GOOD] * wholes)
        self.same(
            "reasons", [one.reason for one in found.others], [why for *_, whys in ODD for why in whys]
        )
        self.same("every byte is kept", kept_bytes(found), sent)
        self.true(
            "a host that forgets what it can't read is noticed", kept_bytes(self.after_odd("forgetful")) < sent
        )

    def after_odd(self, fault):
        """What a host has kept of these sessions."""
        host = Host(self.path(f"quarantine{fault}.db"), fault=fault, scale=1.0)
        with Client(host.port) as client:
            for texts, _, _ in ODD:
                self.true(f"{texts!r} is acknowledged", client.whole(texts))
            tried = sum(why.endswith("would deliver it") for *_, whys in ODD for why in whys)
            wait_for(lambda: fault or host.says().count("would deliver it") == tried)
        self.same("the host's status", host.stop(), 0)
        return Found(host.store)

    def test_stop(self):
        """A stop in order: an open session ends, no new one begins, and the status is 0."""
        host = Host(self.path("stop.db"), scale=1.0)
        with Client(host.port) as client, Client(host.port) as idle:
            good = client.asks(ENQ) == ACK and client.asks(frames(TEXTS)[0]) == ACK
            host.process.terminate()
            self.true("a line without a session is closed", idle.is_closed())
            good = good and all(client.asks(frame) == ACK for frame in frames(TEXTS)[1:])
            client.send(EOT)
            self.true("the open session ends", good and client.is_closed())
            self.same("the status", host.stop(), 0)
        self.same("its message is kept", [one.body for one in Found(host.store).whole], [b"".join(TEXTS)])

    def test_enq_behind_eot(self):
        """An analyzer sends ENQ right after EOT, again and again: a stop cuts no session, since that ENQ gets no
        ACK."""
        host = Host(self.path("behind.db"), "--grace", "3600", scale=1.0)
        with Client(host.port) as client:
            self.same("a session", client.asks(ENQ), ACK)
            analyzer = Chained(client)
            analyzer.start()
            self.true("sessions", wait_for(lambda: analyzer.sessions > 2))
            host.process.terminate()
            self.true("its port is closed", wait_for(lambda: is_refused(host.port)))
            self.same("the line is closed", analyzer.ends(), "between sessions")
        self.same("the host's status", (host.process.wait(60), host.stop())[0], 0)
        found = Found(host.store)
        self.true("sessions were kept", found.whole)
        self.same("sessions that were cut", [one.reason for one in found.others], [])

    def test_giving_way(self):
        """The ENQ of a connection that has to give way is on its way: it gets no ACK, so there are never more lines
        than are allowed."""
        sent = []

        async def runs():
            wire = unittest.mock.Mock(is_tcp=True, write=sent.append)
            intake, committer, observers, fixer = (unittest.mock.Mock(names=frozenset(), bodies={}) for _ in range(4))
            intake.drop.return_value = []
            one = line.Line(line.Parts(wire, intake, observers, print, Counter(), fixer, committer, line.Turns()))
            task = asyncio.ensure_future(one.run())
            await asyncio.sleep(0.01)
            loop = asyncio.get_running_loop()
            loop.call_soon(one.inbox.add, ENQ, loop.time())
            one.stop("for another connection")
            await asyncio.wait_for(task, 60)

        asyncio.run(runs())
        self.same("what is sent", sent, [])

    def test_observers(self):
        """Who listens to a line and fails changes nothing on it: the replies are the same, the others hear the same,
        and each failure is said."""
        async def runs(those):
            sent, heard, said = [], [], []
            wire = unittest.mock.Mock(is_tcp=True, write=sent.append)
            intake, committer, fixer = (unittest.mock.Mock(names=frozenset(), bodies={}) for _ in range(3))
            intake.drop.return_value = intake.take.return_value = []
            every = [dict.fromkeys(get_args(Event), see) for see in (*those, heard.append)]
            observers = Observers(every, lambda text, _: said.append(text))
            one = line.Line(line.Parts(wire, intake, observers, print, Counter(), fixer, committer, line.Turns()))
            task = asyncio.ensure_future(one.run())
            loop = asyncio.get_running_loop()
            for unit in (ENQ, frames(TEXTS)[0], EOT):
                loop.call_soon(one.inbox.add, unit, loop.time())
            loop.call_soon(one.lost)
            await asyncio.wait_for(task, 60)
            return sent, [type(event) for event in heard], said

        def fails(_):
            raise ValueError("it fails")

        good, bad = asyncio.run(runs([])), asyncio.run(runs([fails]))
        self.same("the replies, and what others hear", bad[:2], good[:2])
        self.same("the replies", good[0], [ACK, ACK])
        self.same("it is said", (len(bad[2]), bad[2][0]),
                  (len(good[1]), "an observer of the line failed at Came: ValueError: it fails"))
        self.same("nothing is said of the others", good[2], [])

    def test_closed_lines(self):
        """A line is freed as soon as it is closed, without the garbage collector."""
        found = []

        async def work(host):
            async with walk.connected(host, "text") as one:
                await one.asks(ENQ)
                found.extend(map(weakref.ref, host.lines))
            while host.lines:
                await asyncio.sleep(0.01)
            await asyncio.sleep(0.01)
            found.append([one() for one in found])

        gc.disable()
        self.addCleanup(gc.enable)
        asyncio.run(walk.served(self.path(""), work))
        self.same("lines", found[1:], [[None]])

    def test_who_listens(self):
        """An observer is called for the kinds of events that it listens for, and for no other."""
        heard = []
        observers = Observers([{Sent: heard.append}, {Sent: heard.append, Late: heard.append}], print)
        events = [Came(b"x"), Sent(ACK), Late(9.0, True), Closed("x")]
        for event in events:
            observers.tell(event)
        self.same("calls", heard, [events[1], events[1], events[2]])

    def test_calls_of_a_text(self):
        """A text of one frame takes four calls of the library, sets no timer of the loop, and reading goes on."""
        calls, alarms = [], []

        async def runs():
            loop = asyncio.get_running_loop()
            wire, observers, fixer = (unittest.mock.Mock(names=frozenset()) for _ in range(3))
            fixer.order.over, committer = unittest.mock.AsyncMock(), unittest.mock.Mock(part=60)
            committer.put.side_effect = lambda *_: loop.create_task(asyncio.sleep(0))
            intake = Intake("fire", "x", "latin-1", 1 << 20, time.time)
            turns = line.Turns(lambda: 0.0)
            one = line.Line(line.Parts(wire, intake, observers, print, Counter(), fixer, committer, turns))
            task = asyncio.ensure_future(one.run())
            for number, unit in enumerate([ENQ, *frames(TEXTS)]):
                calls.append([])
                alarms.append([])
                loop.call_soon(one.inbox.add, unit, loop.time())
                while wire.write.call_count <= number and not task.done():
                    await asyncio.sleep(0)
                await asyncio.sleep(0)
            one.cut("by the test")
            await asyncio.wait_for(task, 60)
            return wire.pause.call_count

        call_at, library = asyncio.BaseEventLoop.call_at, [_library.calls_of(kind)[0] for kind in ("receiver", "reader")]
        noted = lambda name, call: lambda *words: (calls and calls[-1].append(name), call(*words))[1]
        timed = lambda loop, at, *words, **how: (alarms and alarms[-1].append(at), call_at(loop, at, *words, **how))[1]
        with contextlib.ExitStack() as patched:
            for one in library:
                those = {name: noted(name, call) for name, call in one.items()}
                patched.enter_context(unittest.mock.patch.dict(one, those))
            patched.enter_context(unittest.mock.patch.object(asyncio.BaseEventLoop, "call_at", timed))
            paused = asyncio.run(runs())
        self.same("calls of a text", calls[2], ["hear", "text_len", "text", "records"])
        self.same("timers", [len(some) for some in alarms[2:-1]], [0] * (len(alarms) - 3))
        self.same("pauses", paused, 0)

    def test_capture(self):
        """What went over a line is a capture that replays without a difference."""
        host = Host(self.path("capture.db"), "--capture", self.path("tape"), scale=NEVER)
        one = sending(host.port, "--made", "3", "--noise", "0.001", "--seed", "3", scale=NEVER)
        one.communicate()
        host.stop()
        names = sorted(
            name for name in os.listdir(self.folder.name) if name.startswith("tape") and name.endswith("capture")
        )
        self.true("there is one", bool(names), str(names))
        for name in names:
            shown = lislab("ladder", self.path(name))
            self.has(f"{name} replays", shown.stdout, "differences 0")
            times = open(self.path(name + ".times"), encoding="ascii").read().count("\n")
            self.same("a time for each line", times, open(self.path(name), "rb").read().count(b"\n"))

    def test_words(self):
        """Words that make no sense, and networks."""
        for words, why in (
            (["--listen", "0.0.0.0:0"], "--allow"),
            (["--listen", "x"], "HOST:PORT"),
            (["--listen", "0,frame=241"], "240 or 63993"),
            (["--listen", "0,encoding=latin-77"], "no encoding"),
            (["--serial", "/dev/null"], "DEVICE:SPEED"),
            (["--listen", "0", "--allow", "10.0.0.0/99"], "--allow"),
            (["--listen", "0", "--reply-within", "15"], "15 seconds"),
            ([], "name a line"),
            (["--lines", "5"], "--lines N is now --max-lines N"),
            (["--listen", "0", "--max-lines", "0"], "at least 1"),
            (["--listen", "0", "--idle", "nan"], "at least 0.001"),
        ):
            done = lislab("serve", "--store", self.path("words.db"), *words)
            self.true(f"{words}", done.returncode == 2 and why in done.stderr, done.stderr)
        allowed = options.networks_of(["192.0.2.0/24", "2001:db8::/32"])
        for address, good in (
            ("127.0.0.1", True),
            ("::1", True),
            ("192.0.2.7", True),
            ("::ffff:192.0.2.7", True),
            ("2001:db8::7", True),
            ("192.0.3.1", False),
            ("::ffff:192.0.3.1", False),
            ("2001:db9::7", False),
            ("x", False),
        ):
            self.same(f"may {address} connect", options.is_allowed(address, allowed), good)
        self.true("the library's faults have names", FrameFault.SUM.name == "SUM")

    def test_written_addresses(self):
        """An address of IPv4 and the same one written in IPv6 are counted together."""
        host = unittest.mock.Mock(stopping=False)
        port = ports.Port(host, options.listen_of("0,name=one"))
        host.asked.networks = options.networks_of(["192.0.2.0/24", "2001:db8::/32"])
        for given, wanted in (
            ("192.0.2.7", "192.0.2.7"),
            ("::ffff:192.0.2.7", "192.0.2.7"),
            ("::ffff:c000:207", "192.0.2.7"),
            ("2001:db8::7", "2001:db8::7"),
        ):
            transport = unittest.mock.Mock(spec=asyncio.Transport)
            transport.get_extra_info.side_effect = {"peername": (given, 4000), "socket": unittest.mock.Mock()}.get
            wires.TcpWire(port, host.ticks).connection_made(transport)
            self.same(f"{given} is counted as", host.room.has_room.call_args[0][1], wanted)
            self.same(f"{given} is shown as", host.add.call_args[0][2], wanted)
