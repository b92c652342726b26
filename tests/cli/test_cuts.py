"""However its input is split, the program prints the same.

The pipe is one of packets: a read gives the bytes of one write, and loses those that it has no room for. The program
reads 4,096 bytes or more, so no piece is longer.
"""
import os
import random
import subprocess
import tempfile
import threading

import inputs
from tests import kit

LONGEST = 4096
# One byte at a time is slow: only so many of them.
SINGLE = 12000


def whole(program, command, data):
    """What a run over a file prints, its status, and what it says on standard error."""
    with tempfile.TemporaryFile() as file:
        file.write(data)
        file.seek(0)
        run = subprocess.run([program, *command.split()], stdin=file, capture_output=True)
    return run.stdout, run.returncode, run.stderr


def feed(pipe, data, length):
    place = 0
    try:
        while place < len(data):
            place += os.write(pipe, data[place:place + length()])
    except BrokenPipeError:
        pass  # the run stopped at a line or record that it rejected
    os.close(pipe)


def in_pieces(program, command, data, length):
    """The same of a run that reads pieces of these lengths."""
    reading, writing = os.pipe2(os.O_DIRECT | os.O_CLOEXEC)
    run = subprocess.Popen([program, *command.split()], stdin=reading, stdout=subprocess.PIPE, stderr=subprocess.PIPE)
    os.close(reading)
    feeding = threading.Thread(target=feed, args=(writing, data, length))
    feeding.start()
    printed, said = run.communicate()
    feeding.join()
    return printed, run.returncode, said


def splits(data):
    """Each way to split the data: its name, the data, and what gives the next piece's length."""
    chance = random.Random(11)
    yield "single bytes", data[:SINGLE], lambda: 1
    yield "7 bytes", data[:7 * SINGLE], lambda: 7
    yield "249 bytes", data, lambda: 249
    yield "4,095 bytes", data, lambda: LONGEST - 1
    yield "short pieces", data[:50 * SINGLE], lambda: chance.randrange(1, 120)
    yield "pieces of any length", data, lambda: chance.randrange(1, LONGEST + 1)


class Cuts(kit.Test):
    def test_pieces(self):
        program, printed = kit.built("lislink"), {}
        for made in inputs.inputs(1):
            for command in made.commands:
                for name, data, length in splits(made.head + made.block):
                    wanted = whole(program, command, data)
                    printed[command] = printed.get(command, 0) + len(wanted[0])
                    self.check(wanted[1] != 2 and in_pieces(program, command, data, length) == wanted,
                               f"{command}, {made.name}, {name}")
        silent = [command for command, count in printed.items() if count == 0]
        self.assertEqual((silent, bool(printed)), ([], True), "commands that print nothing")
