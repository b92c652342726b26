"""A plain host, written by hand from LIS01-A2 and LIS02-A2 and from nothing of this repository: it takes sessions,
keeps their texts in a file, answers queries, and sends a worklist. It takes one connection at a time.

    python3 plain_host.py FILE SCALE [WORD..]     prints its port

Words: `worklist` (it sends orders once an analyzer has connected), the three faults `acknowledges-first`,
`takes-repeats` and `answers-late`, and `port=N`.
"""
import os
import socket
import sys
import threading
import time

STX, ETX, EOT, ENQ, ACK, LF, CR, NAK, ETB = b"\2", b"\3", b"\4", b"\5", b"\6", b"\n", b"\r", b"\x15", b"\x17"
#: The orders that it has, by sample.
ORDERS = {"S1": "GLU", "S2": "K", "S3": "NA"}


class Gone(Exception):
    """The analyzer closed the connection."""


class Host:
    def __init__(self, line, path, scale, words):
        self.line, self.path, self.scale, self.words = line, path, scale, words
        self.came = b""

    def byte(self, seconds=None):
        """The next byte; nothing if none comes in this time."""
        if not self.came:
            self.line.settimeout(None if seconds is None else seconds * self.scale)
            try:
                self.came = self.line.recv(4096)
            except socket.timeout:
                return b""
            except OSError:
                raise Gone from None
            if not self.came:
                raise Gone
        one, self.came = self.came[:1], self.came[1:]
        return one

    def answer(self, reply):
        if "answers-late" in self.words:
            time.sleep(17 * self.scale)
        self.line.sendall(reply)

    def run(self):
        """Waits for an analyzer's sessions; sends what there is to send between them."""
        if "worklist" in self.words:
            self.send([f"O|{at}|{sample}||^^^{test}" for at, (sample, test) in enumerate(ORDERS.items(), 1)])
        while True:
            if self.byte() == ENQ:
                self.take()

    def take(self):
        """A session of the analyzer, whose ENQ came."""
        self.answer(ACK)
        accepted, text, asked = 0, "", []
        while True:
            one = self.byte(30)
            if one == STX:
                found = self.frame()
                if found is None:
                    continue
                good, number, part, is_last = found
                repeat = good and accepted and number == accepted % 8
                if not good or not repeat and number != (accepted + 1) % 8:
                    self.answer(NAK)
                    continue
                if not repeat or "takes-repeats" in self.words:
                    accepted += not repeat
                    text += part
                    if is_last:
                        self.keep(text)
                        asked += [record for record in text.split("\r") if record.startswith("Q")]
                        text = ""
                self.answer(ACK)
            elif one == ENQ:
                self.answer(ACK)
                accepted, text, asked = 0, "", []
            elif one in (EOT, b""):
                break
        for record in asked:
            self.send_asked(record)

    def frame(self):
        """The frame that follows STX: whether it is good, its number, its text, and whether it is the last; None if its
        end doesn't come."""
        body = b""
        while not body.endswith(LF):
            one = self.byte(30)
            if one in (b"", ENQ, EOT):  # it isn't whole, and gets no answer
                self.came = one + self.came
                return None
            body = b"" if one == STX else body + one
        number, text, end, total = body[:1], body[1:-5], body[-5:-4], body[-4:-2]
        good = len(body) >= 6 and body[-2:] == CR + LF and number in b"01234567" and end in (ETX, ETB)
        good = good and len(text) <= 240 and total.upper() == b"%02X" % (sum(body[:-4]) % 256)
        return good, int(number) if good else 0, text.decode("latin-1"), end == ETX

    def keep(self, text):
        """Keeps a text on the disk."""
        def write():
            with open(self.path, "ab") as file:
                file.write(text.encode("latin-1"))
                file.flush()
                os.fsync(file.fileno())

        if "acknowledges-first" in self.words:
            threading.Timer(60.0, write).start()
        else:
            write()

    def send_asked(self, record):
        """The answer to a query: orders of a sample, or of a range of them; none if there are none."""
        fields = record.split("|") + [""] * 4
        first, last = fields[2].split("^")[-1], fields[3].split("^")[-1] or fields[2].split("^")[-1]
        found = [one for one in ORDERS if first <= one <= last]
        orders = [f"O|{at}|{sample}||^^^{ORDERS[sample]}" for at, sample in enumerate(found, 1)]
        self.send(orders, "F" if orders else "I")

    def send(self, orders, end="N"):
        """Sends orders in a session of its own. In contention it waits for the analyzer's session first."""
        while True:
            self.line.sendall(ENQ)
            reply = self.byte(15)
            if reply == ACK:
                break
            if reply == ENQ:
                if self.byte(20) == ENQ:
                    self.take()
            elif reply == NAK:
                time.sleep(10 * self.scale)
            else:
                self.line.sendall(EOT)
                return
        records = ["H|\\^&|||Plain host", *(["P|1"] if orders else []), *orders, f"L|1|{end}"]
        for number, record in enumerate(records, 1):
            body = b"%d%s\r\3" % (number % 8, record.encode("latin-1"))
            for _ in range(6):
                self.line.sendall(STX + body + b"%02X" % (sum(body) % 256) + CR + LF)
                reply = self.byte(15)
                if reply in (ACK, EOT):
                    break
            else:
                break
        self.line.sendall(EOT)


def main(path, scale, *words):
    ports = [int(word[5:]) for word in words if word.startswith("port=")]
    server = socket.create_server(("127.0.0.1", (ports or [0])[0]))
    print(server.getsockname()[1], flush=True)
    while True:
        line, _ = server.accept()
        line.setsockopt(socket.IPPROTO_TCP, socket.TCP_NODELAY, 1)
        try:
            Host(line, path, float(scale), words).run()
        except (Gone, OSError):
            line.close()


if __name__ == "__main__":
    main(*sys.argv[1:])
