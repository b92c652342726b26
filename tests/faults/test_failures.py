"""Reads and writes that fail.

Each command is run with each of its reads failing in turn, and with each of its writes failing, taking nothing or
taking one byte; and with a sink that fails after each number of bytes. conformance/model.py says what the run's text
is. After a failed read the text for all bytes read is out, and K2 is printed; after a failed write the prefix of the
text that was taken, and K3. Nothing is tried again: the calls are counted.
"""
import errno

import model
from tests import kit
from tests.faults.shim import Shim

READ_ERRORS = (errno.EIO, errno.EINTR, errno.EAGAIN)
# An error of 0 is a write that takes nothing.
WRITE_ERRORS = (errno.EIO, errno.EINTR, errno.ENOSPC, errno.EAGAIN, errno.EPIPE, 0)

SESSION = bytes.fromhex("05 0231487c5c5e260d0345350d0a 02324c7c317c4e0d0330350d0a 04")
BAD = bytes.fromhex("05 020a 0238 0a 023103410333340d0a 02310333350d0a 0231 02310333340d0a 41 04 0230")
TWO = b"\n".join((b"> 05", b"< 06", b"> 0231411738390d0a", b"< 06", b"> 0232410337360D0A\r", b"< 15", b"", b"T",
                  b"> 05"))
SECOND = b"\n".join((b"capture 2", b"S busy", b"> 05", b"< 15", b"S contending", b"> 05", b"< 05", b"> 05", b"< 06",
                     b"> 0231410337350d0a", b"R", b"> 0231410337350d0a", b"S ready", b"< 0606", b""))
REFUSED = b"> 05\n< 06\n> 0231410337350d0a\nhello\n< 06\n"
MESSAGE = (b"H|\\^&\rP|1\rO|2|S7\rR|1|^^^GLU|5.4|mmol/L|3.9 to 6.1|N||F\rC|1|I|fasting\rR|2|A&F&B|&X0D&\\1^2\rL|1|N\r")
RECORDS = {"two messages": MESSAGE + b"h!@#$\rl\r", "a refused record": MESSAGE + b"H|\\^&\rR|1\rL\r",
           "an open message": MESSAGE + b"H|\\^&\rP|1", "no header": b"P|1\r" + MESSAGE}
INPUTS = {"link": {"a session": SESSION, "bad frames": BAD, "nothing": b""},
          "capture": {"two texts": TWO, "version 2": SECOND, "a refused line": REFUSED, "nothing": b""},
          "records": {**RECORDS, "nothing": b""}}
# The most bytes of a read: one, few, and more than any input here has.
PIECES = (1, 17, 4096)


class Case:
    """A command over an input, read in pieces of at most so many bytes, and what it is to print."""

    def __init__(self, shim, program, command, name, data, piece):
        self.shim, self.words, self.data, self.piece = shim, [program, *command.split()], data, piece
        self.command, self.title = command, f"{command}, {name}, reads of {piece}"
        self.wanted = model.run(command, data)
        self.error = f"{self.wanted.error}\n".encode() if self.wanted.error else b""

    def run(self, **numbers):
        return self.shim.run(self.words, self.data, read_most=self.piece, **numbers)

    def is_whole(self, ran):
        return (ran.output, ran.status, ran.error) == (self.wanted.output, self.wanted.status, self.error)


def reads_fail(case, reads, test):
    """Each read fails in turn: the text for all bytes before it is out."""
    for place in range(1, reads + 1):
        for error in READ_ERRORS if place in (1, reads) else READ_ERRORS[:1]:
            ran = case.run(fail_read=place, fail_error=error)
            prefix = model.run(case.command, case.data[:ran.table["read_bytes"]], ended=False).output
            test.need((ran.output, ran.status, ran.error) == (prefix, 3, b"lislink: K2\n")
                      and ran.table["reads"] == place and not ran.table["later_calls"],
                      lambda: f"{case.title}, read {place} fails with {error}: {ran}, wanted {prefix}")


def writes_fail(case, writes, test):
    """Each write fails in turn, or takes nothing: what was taken is a prefix of the text, and no call follows."""
    for place in range(1, writes + 1):
        for error in WRITE_ERRORS if place in (1, writes) else WRITE_ERRORS[:1]:
            ran = case.run(fail_write=place, fail_error=error)
            taken = ran.table["written_bytes"]
            test.need((ran.output, ran.status, ran.error) == (case.wanted.output[:taken], 3, b"lislink: K3\n")
                      and ran.table["writes"] == place and not ran.table["later_calls"],
                      lambda: f"{case.title}, write {place} fails with {error}: {ran}")


def writes_end_anywhere(case, test):
    """Writes of one byte, of which each fails in turn: so many bytes of the text are out as were taken before it."""
    for taken in range(len(case.wanted.output)):
        ran = case.run(write_most=1, fail_write=taken + 1, fail_error=errno.EIO)
        test.need((ran.output, ran.status, ran.error) == (case.wanted.output[:taken], 3, b"lislink: K3\n")
                  and ran.table["writes"] == taken + 1 and not ran.table["later_calls"],
                  lambda: f"{case.title}, a sink that takes {taken} bytes: {ran}")


def writes_are_short(case, writes, test):
    """Each write takes one byte in turn, then all do: the whole text goes out all the same."""
    for place in range(1, writes + 1):
        ran = case.run(short_write=place)
        test.need(case.is_whole(ran), lambda: f"{case.title}, write {place} takes one byte: {ran}")
    ran = case.run(write_most=1)
    test.need(case.is_whole(ran) and ran.table["writes"] == len(case.wanted.output),
              lambda: f"{case.title}, writes of one byte: {ran}")


def error_line_fails(case, test):
    """If standard error fails too, the status is the same."""
    for numbers, status in (({}, case.wanted.status), ({"fail_read": 1, "fail_error": errno.EIO}, 3)):
        ran = case.run(fail_told=1, **numbers)
        test.need(ran.status == status and not ran.error, lambda: f"{case.title}, standard error fails: {ran}")


def try_case(case, test):
    """Tries a case in all ways; how many reads and writes failed or were short, and how often a sink failed."""
    ran = case.run()
    reads, writes = ran.table["reads"], ran.table["writes"]
    places = len(case.wanted.output) if case.piece == max(PIECES) else 0
    test.need(case.is_whole(ran), lambda: f"{case.title}: {ran}, wanted {case.wanted}")
    reads_fail(case, reads, test)
    writes_fail(case, writes, test)
    writes_are_short(case, writes, test)
    if places:
        writes_end_anywhere(case, test)
    error_line_fails(case, test)
    return reads, writes, places


class Failures(kit.Test):
    @classmethod
    def setUpClass(cls):
        cls.program, cls.shim = kit.built("lislink"), Shim()

    def test_reads_and_writes(self):
        tried = [0, 0, 0]
        for command, known in model.COMMANDS.items():
            for name, data in INPUTS[known.reads].items():
                for piece in PIECES:
                    case = Case(self.shim, self.program, command, name, data, piece)
                    with self.subTest(case.title):
                        more = try_case(case, self)
                        tried = [one + other for one, other in zip(tried, more)]
        reads, writes, places = tried
        print(f"failures: {reads} places of a failed read, {writes} of a failed or short write, "
              f"{places} of a sink that takes so many bytes and then fails")
