"""`lislab send` on a bad line: sender.py [--noise P] [--late P] [--reset P] [--cut] [--seed N] [--name A] WORD .. The
chances that a byte is damaged, that a reply is held back until its timer is over, and that the connection breaks off
before a unit; whether units are cut at random places; the names of the analyzers."""
import argparse
import asyncio
import collections
import random
import socket
import struct
import sys

from lislab.analyzer import send
from lislab.cli.main import main
from lislink.link import REPLY


class Troubled(send.Channel):
    """A line to a host, with its trouble."""

    def __init__(self, ask, rng):
        super().__init__()
        self._ask, self._rng, self._held = ask, rng, collections.deque()

    def data_received(self, data):
        """Replies came; some are held back, and with each all that follow."""
        for byte in self.damaged(data):
            at = max(self._loop.time(), self._held[-1][0] if self._held else 0.0)
            if self._rng.random() < self._ask.late:
                at += REPLY * self._ask.scale * (1 + self._rng.random())
            self._held.append((at, byte))
            self._loop.call_at(at, self.release)
        self.release()

    def release(self):
        """Gives what is held back no longer."""
        while self._held and self._held[0][0] <= self._loop.time():
            super().data_received(bytes([self._held.popleft()[1]]))

    def damaged(self, data):
        """With this chance a byte, one byte of a unit is lost, or becomes another that is printable. The checksum
        notices each such damage of a frame, and no reply becomes another one."""
        noise, rng = self._ask.noise, self._rng
        if not noise or rng.random() < (1 - noise) ** len(data):
            return data
        place = rng.randrange(len(data))
        other = bytes([rng.choice([byte for byte in range(32, 127) if byte != data[place]])])
        return data[:place] + (b"" if rng.random() < 0.2 else other) + data[place + 1 :]

    async def write(self, data):
        """Sends a unit."""
        if self._rng.random() < self._ask.reset:
            self.reset()
            raise EOFError("the line is reset")
        data = self.damaged(data)
        while data:
            size = self._rng.randrange(1, len(data) + 1) if self._ask.cut else len(data)
            await super().write(data[:size])
            data = data[size:]
            if data:
                await asyncio.sleep(self._rng.random() * 0.002)

    def reset(self):
        """Breaks a connection off, as a machine does that loses its power."""
        if self._transport is not None:
            one = self._transport.get_extra_info("socket")
            one.setsockopt(socket.SOL_SOCKET, socket.SO_LINGER, struct.pack("ii", 1, 0))
            self._transport.abort()
        self._closed = True


def run(words):
    """Sends: the status of the command."""
    parser = argparse.ArgumentParser(allow_abbrev=False)
    for name in ("--noise", "--late", "--reset"):
        parser.add_argument(name, type=float, default=0.0)
    parser.add_argument("--cut", action="store_true")
    parser.add_argument("--seed", type=int, default=1)
    parser.add_argument("--name", default="A")
    ask, words = parser.parse_known_args(words)
    seeds, send_all = iter(range(ask.seed, sys.maxsize)), send.send_all

    def sent(plan, report):
        ask.scale = plan.scale
        names = [name and ask.name + name[1:] for name in plan.names]
        return send_all(plan._replace(names=names, made=lambda: Troubled(ask, random.Random(next(seeds)))), report)

    send.send_all = sent
    return main(["send", *words])


if __name__ == "__main__":
    sys.exit(run(sys.argv[1:]))
