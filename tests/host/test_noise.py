"""A noisy wire: of each frame one byte is another when the host has it. What an analyzer holds as acknowledged must be
kept, byte for byte. The analyzers are written from the standard, over no code of this repository."""
import asyncio
import hashlib
from collections import Counter

from lislab.model.unix import ask
from tests.host import hosts
from tests.host.hosts import Found, Host, HostTest, wait_for
from tests.host.noisy import Analyzer, message
from tests.host.plain import ACK, ENQ, EOT, NAK, frame
from tests.host.test_lines import LATE, TEXTS, Client

#: How many analyzers send at once.
MANY = 40


class Noise(HostTest):
    """Sessions over a noisy wire."""

    async def play(self, ports, count):
        """So many sessions of many analyzers."""
        async def sends(number):
            one = Analyzer(ports[number % len(ports)], number, 15 * LATE)
            for at in range(number, count, MANY):
                await one.send(message(one.rng, f"{number}-{at}"))
            if one.line is not None:
                one.line[1].close()
            return one

        return await asyncio.gather(*(sends(number) for number in range(min(MANY, count))))

    def test_one_byte(self):
        """No session is done of which a text isn't kept, on lines of one direction and of both."""
        store, count = self.path("noise.db"), hosts.size("noise")
        words = [word for way in ("name=one", "name=both,orders=query")
                 for word in ("--listen", f"127.0.0.1:0,{way}")]
        host = Host(store, *words, each=2 * MANY, listen=False, scale=LATE)
        ports = [int(row.split()[1].rsplit(":", 1)[1]) for row in host.rows if row.startswith("listening")]
        ran = asyncio.run(self.play(ports, count))
        self.same("the host's status", host.stop(), 0)
        found, done, ends = Found(store), [text for one in ran for text in one.done], Counter()
        for one in ran:
            ends.update(one.ends)
        lost = [text for text in done if hashlib.sha256(text).hexdigest() not in found.digests]
        hosts.say(f"noise: {count} sessions, {dict(ends)}, {len(lost)} done and not kept")
        self.same("done and not kept", lost, [])
        self.true("some are done, some break off", ends["done"] and ends["broken off"], ends)


class Careful(HostTest):
    """What a host does about ENQ in a session, and about STX in a frame."""

    def started(self, settings=""):
        """A host with a line of each way that has these settings, and their ports."""
        words = [word for name, way in (("one", ""), ("both", ",orders=query"))
                 for word in ("--listen", f"127.0.0.1:0,name={name}{way}{settings}")]
        host = Host(self.path(f"{len(settings)}.db"), *words, listen=False, scale=0.3)
        self.addCleanup(host.kill)
        return host, {row.split()[2]: int(row.split()[1].rsplit(":", 1)[1]) for row in host.rows if "listening" in row}

    def test_enq_and_stx(self):
        """ENQ in a session ends it and has no reply; a frame that begins inside an unfinished one is rejected. It is
        said, counted, and a row of `watch` until a message is whole."""
        host, ports = self.started()
        one, two, *rest = [frame(number, text) for number, text in enumerate(TEXTS, 1)]
        for name, port in ports.items():
            with Client(port) as client:
                self.same(f"{name}: a frame", [client.asks(ENQ), client.asks(one)], [ACK, ACK])
                self.same(f"{name}: ENQ in one", client.asks(two[:4] + ENQ + two[5:], seconds=0.5), b"")
                client.send(EOT)
                self.same(f"{name}: ENQ between two", [client.asks(ENQ), client.asks(one), client.asks(ENQ, seconds=0.5)],
                          [ACK, ACK, b""])
                self.same(f"{name}: the next one", client.asks(ENQ), ACK)
                self.same(f"{name}: STX in one", [client.asks(one[:4] + two), client.asks(one)], [NAK, ACK])
                self.true(f"{name}: bad", wait_for(lambda name=name: seen(host, name)[:2] == ("bad", "disturbed")),
                          str(seen(host, name)))
                self.same(f"{name}: the others", [client.asks(each) for each in (two, *rest)], [ACK] * 4)
                client.send(EOT)
                self.true(f"{name}: good again", wait_for(lambda name=name: seen(host, name)[0] == "good"), host.says())
        for name, said, times in (("each ENQ is said", "is ENQ; it has no reply", 4),
                                  ("one that came again at once", "careful=no of its line answers its first ENQ", 2)):
            self.true(name, wait_for(lambda said=said, times=times: host.says().count(said) == times), host.says())
        self.same("what is kept", [len(Found(host.store).whole), len(Found(host.store).others)], [2, 4])

    def test_anew(self):
        """With `careful=no` the first ENQ of an analyzer that begins anew without EOT is answered."""
        _, ports = self.started(",careful=no")
        for name, port in ports.items():
            with Client(port) as client:
                self.same(name, [client.asks(ENQ), client.asks(frame(1, TEXTS[0])), client.asks(ENQ)], [ACK] * 3)

    def test_fixes(self):
        """Noise is no end of a message without L, and a frame that may hold LF is heard as carefully."""
        host, ports = self.started(",fix=last-l+lf")
        with Client(ports["one"]) as client:
            self.same("frames", [client.asks(ENQ), *(client.asks(frame(at, text)) for at, text in enumerate(TEXTS[:4], 1))],
                      [ACK] * 5)
            client.send(ENQ)
            self.same("STX", [client.asks(ENQ), client.asks(frame(1, TEXTS[0])[:5] + frame(1, b"C|1\n"))], [ACK, NAK])
            client.send(EOT)
            self.true("unfinished", wait_for(lambda: len(Found(host.store).others) == 1), host.says())
        self.same("nothing is whole", Found(host.store).whole, [])


def seen(host, name):
    """The state, the verdict and the sentence of a line."""
    one = ask(host.store + ".watch", ask="lines")[0]["lines"][name]
    return one["state"], one["verdict"], one["says"]
