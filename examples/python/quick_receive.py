#!/usr/bin/env python3
"""Receives from an analyzer that connects to a TCP port of this machine, stores each text in a file before it is
acknowledged, and prints the results of a session at its end.

    quick_receive.py PORT FILE          PORT 0 is one that is free, and is printed

`lislab serve` has what a laboratory needs besides: the receiver's timer, many lines, messages that are marked when they
come again, and no reply that is late.
"""
import contextlib
import socket
import sys

from keep import TextFile, with_cr

import lislink


def report(fault: lislink.MessageError) -> None:
    print(fault, file=sys.stderr)


def show(texts: bytes) -> None:
    """Prints the patient, the sample, the test and the value of each result."""
    for message in lislink.message_places(texts, on_fault=report):
        for patient, order, result in message.results:
            parts = patient.part(4), order.part(3), result.part(3, component=3), result.part(4)
            print(*(part.decode("latin-1") if part else "" for part in parts), flush=True)


def receive(line: socket.socket, store: TextFile) -> None:
    texts = b""                                         # of the session
    with lislink.Receiver(careful=True) as receiver:    # a damaged byte acknowledges nothing
        while data := line.recv(4096):
            for step in receiver.hear(data):
                if step.text is not None:
                    store.keep(step.text)               # keep, then reply: where this fails, no reply goes out
                    texts += with_cr(step.text)
                line.sendall(step.reply)
            if not receiver.is_open:                    # the session is over
                show(texts)
                texts = b""
    show(texts)


def main() -> None:
    server = socket.create_server(("127.0.0.1", int(sys.argv[1])))
    if sys.argv[1] == "0":
        print("port", server.getsockname()[1], flush=True)
    with contextlib.closing(TextFile(sys.argv[2])) as store:
        line, _ = server.accept()
        with line:
            receive(line, store)


if __name__ == "__main__":
    main()
