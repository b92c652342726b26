"""Times the calls of the crates that lislink doesn't make by themselves, through crates/vectors; and the package.

The receiver gets a session's bytes at once, 65,536 from each read; MB/s of link bytes, reading them included. A session
of 1,000 full frames is played event by event; milliseconds of one. All are medians, and each answer is compared with
what the input holds.
"""
import os
import re
import statistics
import subprocess
import sys

import host
import programs
import trees

PLAYED, FRAMES = 50, 1000


def heard(work, vectors, made, asked):
    """MB/s of link bytes."""
    path = os.path.join(work, "link")
    blocks = int(asked.size * 1e6 / len(made.block)) + 1
    with open(path, "wb") as file:
        file.write(made.block * blocks)
    texts = blocks * made.block.count(b"\x03")
    times = [trees.seconds([vectors, "bytes"], path, texts) for _ in range(asked.rounds)]
    return blocks * len(made.block) / 1e6 / statistics.median(times)


def played(vectors, rounds):
    """Milliseconds of a session."""
    words = [vectors, "play", str(PLAYED)]
    return statistics.median(trees.seconds(words, os.devnull, PLAYED * FRAMES) for _ in range(rounds)) * 1000 / PLAYED


def in_python(megabytes, rounds):
    """The records a second that each reader of bench/package reads, by its name: the package, and plain Python."""
    words = [sys.executable, os.path.join(programs.HERE, "package"), str(megabytes), str(rounds)]
    run = subprocess.run(words, env=host.environment(), stdout=subprocess.PIPE, text=True, check=True)
    found = re.findall(r"(?m)^(.+?) +([\d,]+) records/s", run.stdout)
    return {name: float(speed.replace(",", "")) for name, speed in found}
