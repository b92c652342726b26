"""Fifty analyzers that send COUNT short messages together, each in one text: loader.py PORT NAME COUNT. Its exit status
is 0 if all were acknowledged."""
import asyncio
import sys

from lislab.analyzer import send

ANALYZERS = 50


def message(name, number):
    """The texts of a message that no other analyzer and no other number has: one."""
    return [b"H|\\^&|||%s\rP|1\rO|1|%d\rR|1|^^^GLU|5.4|mmol/L\rL|1|N\r" % (name.encode(), number)]


def main():
    port, name, count = int(sys.argv[1]), sys.argv[2], int(sys.argv[3])
    names = [f"{name}{place}" for place in range(ANALYZERS)]
    shares = {one: len(range(place, count, ANALYZERS)) for place, one in enumerate(names)}
    plan = send.Plan(
        target=("127.0.0.1", port),
        texts=lambda one: (message(one, number) for number in range(shares[one])),
        names=names,
        rate=0.0,
        scale=1.0,
        tries=10,
        log=None,
        seconds=None,
    )
    summary = asyncio.run(send.send_all(plan, lambda *_: None))
    return 0 if (summary.done, summary.failed) == (count, 0) else 1


if __name__ == "__main__":
    sys.exit(main())
