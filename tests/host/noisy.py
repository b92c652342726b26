"""An analyzer on a noisy wire, written from the standard over no code of this repository: one byte of each frame is
another one when the receiver has it."""
import asyncio
import random
from collections import Counter

from tests.host.plain import ACK, ENQ, EOT, ETB, ETX, frame

#: What a byte becomes, besides any other byte: the bytes that have a meaning on the link.
MEANT = b"\x02\x03\x04\x05\x06\x0a\x0d\x15\x17"
#: For how many seconds the first reply on a connection is waited for: a busy machine may first start the receiver.
FIRST = 60.0


def frames_of(texts):
    """The frames of a session: texts of over 240 bytes in several."""
    found = []
    for text in texts:
        parts = [text[at : at + 240] for at in range(0, len(text), 240)]
        found += [(part, ETX if part is parts[-1] else ETB) for part in parts]
    return [frame(number, part, end) for number, (part, end) in enumerate(found, 1)]


class Silent(Exception):
    """No reply came in time, or the line is closed."""


class Analyzer:
    """An analyzer on a wire that changes one byte of each frame the first time that it is sent. It waits so many
    seconds for a reply, and connects anew after a session that failed."""

    def __init__(self, port, seed, patience):
        self.port, self.rng, self.patience = port, random.Random(seed), patience
        self.done, self.ends, self.line = [], Counter(), None

    def damaged(self, data):
        """A frame with one other byte."""
        at = self.rng.randrange(len(data))
        flipped = data[at] ^ (1 << self.rng.randrange(8))
        byte = self.rng.choice((self.rng.choice(MEANT), flipped, self.rng.randrange(256)))
        return data[:at] + bytes([byte if byte != data[at] else byte ^ 1]) + data[at + 1 :]

    async def reply(self, data, patience):
        """The reply to these bytes, within so many seconds."""
        reader, writer = self.line
        writer.write(data)
        try:
            found = await asyncio.wait_for(reader.read(1), patience)
        except (asyncio.TimeoutError, OSError):
            raise Silent from None
        if not found:
            raise Silent
        return found

    async def session(self, texts):
        """Sends a session (6.2 to 6.4)."""
        patience = self.patience
        if self.line is None:
            self.line, patience = await asyncio.open_connection("127.0.0.1", self.port), FIRST
        while await self.reply(ENQ, patience) != ACK:
            await asyncio.sleep(self.patience * 2 / 3)
        for data in frames_of(texts):
            answer = await self.reply(self.damaged(data), self.patience)
            for _ in range(5):
                if answer in (ACK, EOT):
                    break
                answer = await self.reply(data, self.patience)
            else:
                self.ends["given up after six tries"] += 1
                raise Silent
        self.line[1].write(EOT)

    async def send(self, texts):
        """Sends a session, and notes it if all of it was acknowledged."""
        try:
            await self.session(texts)
            self.done.append(b"".join(texts))
            self.ends["done"] += 1
        except (Silent, OSError):
            self.ends["broken off"] += 1
            if self.line is not None:
                self.line[1].write(EOT)
                self.line[1].close()
            self.line = None


def message(rng, name):
    """A message that no other one is like."""
    value = "%".join(str(rng.randrange(10**9)) for _ in range(rng.choice((1, 1, 40))))
    rows = ["H|\\^&|||noisy", f"P|1|{name}", "O|1|S%E5M||^^^GLU", f"R|1|^^^GLU|{value}|mmol/L", "L|1|N"]
    return [f"{row}\r".encode() for row in rows]
