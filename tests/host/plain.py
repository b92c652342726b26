"""An analyzer as plain as can be, written from LIS01-A2 and over no code of this repository: it sends a session, and
takes the computer's. Each text it takes is one that it acknowledged, and which a real analyzer would act on."""
import random
import socket
import time

ENQ, ACK, NAK, EOT, STX, ETX, ETB = b"\x05", b"\x06", b"\x15", b"\x04", 0x02, 0x03, 0x17


def frame(number, text, end=ETX):
    """A frame (6.3): STX, number, text, ETX or ETB, checksum, CR, LF."""
    body = bytes([48 + number % 8]) + text + bytes([end])
    return bytes([STX]) + body + b"%02X\r\n" % (sum(body) % 256)


def is_good(data, number):
    """Whether these bytes are a frame with this number."""
    if len(data) < 7 or data[0] != STX or not data.endswith(b"\r\n") or data[-5] not in (ETX, ETB):
        return False
    return data[1] == 48 + number % 8 and data[-4:-2] == b"%02X" % (sum(data[1:-4]) % 256)


def query(*samples):
    """The records of a query."""
    rows = [b"Q|%d|^%s||^^^ALL" % (at, one.encode()) for at, one in enumerate(samples, 1)]
    return [row + b"\r" for row in [b"H|\\^&|||plain", *rows, b"L|1|N"]]


class Gone(Exception):
    """The line is closed, or nothing came in time."""


class Plain:
    """An analyzer on a TCP line: one that it connects, or `line`, which it accepted. `late` is the chance that a reply
    of its own comes after the computer's timer, `noise` that it damages one, `contends` that it asks for the line at
    the same time as the computer; `slow` is how long it takes for each, in seconds."""

    def __init__(self, port, scale, seed=1, late=0.0, noise=0.0, slow=0.0, line=None, contends=0.0):
        self.scale, self.rng, self.late, self.noise = scale, random.Random(seed), late, noise
        self.slow, self.contends, self.contended = slow, contends, 0
        self.line = line or socket.create_connection(("127.0.0.1", port), 10)
        self.line.setsockopt(socket.IPPROTO_TCP, socket.TCP_NODELAY, 1)
        self.left = b""
        #: How often it took a frame again; the records of the session that goes on.
        self.again, self.rows = 0, []

    def close(self):
        """Closes the line."""
        self.line.close()

    def byte(self, seconds):
        """The next byte; Gone if none comes in this time of the standard."""
        if not self.left:
            self.line.settimeout(max(0.001, seconds * self.scale))
            try:
                self.left = self.line.recv(4096)
            except (socket.timeout, OSError):
                raise Gone("nothing came") from None
            if not self.left:
                raise Gone("the line is closed")
        first, self.left = self.left[:1], self.left[1:]
        return first

    def put(self, data):
        """Sends bytes."""
        try:
            self.line.sendall(data)
        except OSError:
            raise Gone("the line is closed") from None

    def reply(self, data):
        """Sends a reply: late or damaged by chance."""
        time.sleep(self.slow)
        if self.rng.random() < self.late:
            time.sleep((15 + 25 * self.rng.random()) * self.scale)
        self.put(b"\x00" if self.rng.random() < self.noise else data)

    def send(self, texts):
        """Sends a session (6.2 to 6.4). If the computer asks too, it is asked again after a second (6.2.7)."""
        while True:
            self.put(ENQ)
            answer = self.byte(15)
            if answer == ACK:
                break
            if answer == ENQ:
                time.sleep(1.0 * self.scale)
        for number, text in enumerate(texts, 1):
            for _ in range(6):
                self.put(frame(number, text))
                if self.byte(15) == ACK:
                    break
            else:
                raise Gone("six tries")
        self.put(EOT)

    def take(self, seconds=30.0):
        """Takes a session of the computer, if one begins in this time: its records; Gone if it breaks off."""
        while True:
            while self.byte(seconds) != ENQ:
                pass
            if self.rng.random() >= self.contends:
                break
            self.contended += 1
            self.put(ENQ)
            time.sleep(1.0 * self.scale)
            self.send([b"H|\\^&\r", b"L|1\r"])
        self.reply(ACK)
        rows, number, data = [], 1, b""
        while True:
            data += self.byte(30)
            if data == EOT:
                return rows
            if data == ENQ:  # asked anew
                rows, number, data = [], 1, b""
                self.reply(ACK)
            if not data.endswith(b"\n"):
                continue
            if is_good(data, number):
                rows, number = [*rows, data[2:-5]], number + 1
                self.rows = rows
                self.reply(ACK)
            elif is_good(data, number - 1) and number > 1:
                self.again += 1
                self.reply(ACK)
            else:
                self.reply(NAK)
            data = b""


def samples_of(rows):
    """The samples of the order records of a message."""
    return [row.split(b"|")[2].decode() for row in rows if row.startswith(b"O|")]
