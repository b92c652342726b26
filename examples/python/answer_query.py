#!/usr/bin/env python3
"""A computer that answers queries on a TCP port: appends each text to a file before it is acknowledged, and sends the
orders for the samples that an analyzer asked for (Q), in a session of its own.

    answer_query.py PORT FILE           PORT 0 is one that is free, and is printed

The line is given up, for a new connection, where a session of its own failed or a reply would be late.
"""
import contextlib
import socket
import sys
from typing import Optional

from clock import now
from keep import TextFile

import lislink

LATE = 10  # seconds: a reply that goes out later could come after the analyzer's timer, which is 15
PAUSE = 1  # second: a line that is idle is looked at so often


def asked_for(texts: list[bytes]) -> list[bytes]:
    """The samples that the queries of a session are for, up to a record that can't be read."""
    samples = []
    with lislink.Reader() as reader, contextlib.suppress(lislink.MessageError):
        for row in reader.feed(b"".join(texts)):
            if row.letter == "Q" and (sample := row.part(3, component=1)):
                samples.append(sample)
    return samples


def orders(samples: list[bytes]) -> list[bytes]:
    """The texts of a message with an order of glucose for each sample."""
    with lislink.Writer() as writer:
        writer.record("H", [])
        for number, sample in enumerate(samples, 1):
            writer.record("P", [b"%d" % number])
            writer.record("O", [b"1", sample, b"", [b"", b"", b"", b"GLU"]])
        writer.record("L", [b"1", b"F"])
        return writer.texts()


class Computer:
    """The computer's side of one line."""

    def __init__(self, line: socket.socket, store: TextFile) -> None:
        self.line, self.store = line, store
        self.station = lislink.Station(lislink.Role.COMPUTER, careful=True)    # a damaged byte acknowledges nothing
        self.texts: list[bytes] = []            # of the analyzer's session
        self.samples: list[bytes] = []          # what it asked for
        self.due: Optional[float] = None
        self.is_sending, self.free_at = False, 0.0

    def take(self, answer: lislink.Answer) -> None:
        """Keeps an answer's text, sends its bytes, and lets the timer begin anew."""
        if answer.text is not None:
            self.store.keep(answer.text)        # keep, then send: where this fails, nothing is sent
            self.texts.append(answer.text)
        self.line.sendall(answer.send)
        if answer.note is lislink.Note.OPENED:
            self.texts = []                     # an analyzer whose session failed sends it all again
        elif answer.note is lislink.Note.ENDED:
            self.samples += asked_for(self.texts)
        self.run_timer()

    def run_timer(self) -> None:
        seconds = self.station.seconds
        self.due = None if seconds is None else now() + seconds

    def settle(self) -> bool:
        """Looks how a session of its own ended; whether the line can be used on."""
        if self.is_sending and self.station.phase is lislink.Phase.NEUTRAL:
            self.is_sending = False
            self.free_at = now() + (self.station.turn_seconds or 0)
            return self.station.outcome is lislink.Outcome.DONE
        return True

    def start(self) -> None:
        """Sends the orders, if there are any, the line is free, and the analyzer doesn't wait for its turn."""
        its_turn = self.station.turn_seconds is not None and now() < self.free_at
        if self.samples and not (self.is_sending or self.station.is_open or its_turn):
            self.line.sendall(self.station.start(orders(self.samples)))
            self.is_sending, self.samples = True, []
            self.run_timer()

    def read(self) -> Optional[bytes]:
        """What came; None if nothing did for a while."""
        left = PAUSE if self.due is None else min(PAUSE, self.due - now())
        self.line.settimeout(max(left, 0.001))
        try:
            return self.line.recv(4096)
        except socket.timeout:
            return None

    def run(self) -> None:
        """Hears and sends until the line is closed or given up."""
        seen_empty = now()           # bytes came after this
        while self.settle():
            self.start()
            before, data = now(), self.read()
            if data == b"":
                return
            for answer in self.station.hear(data or b""):
                if now() - seen_empty > LATE:
                    return
                self.take(answer)
            if data is None or len(data) < 4096:
                seen_empty = before
            if self.due is not None and now() >= self.due:
                self.take(self.station.timer())


def main() -> None:
    server = socket.create_server(("127.0.0.1", int(sys.argv[1])))
    if sys.argv[1] == "0":
        print("port", server.getsockname()[1], flush=True)
    with contextlib.closing(TextFile(sys.argv[2])) as store:
        line, _ = server.accept()
        with line:
            Computer(line, store).run()


if __name__ == "__main__":
    main()
