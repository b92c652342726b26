"""Pairs of changed bytes between the STX and the LF of a frame that the checksum doesn't show: how many there are."""
import itertools

import model
from model import ETB, ETX, LF, STX, USUAL

DIGITS = b"0123456789ABCDEFabcdef"
ENDS = (ETB, ETX)


def frames_of(paths):
    """The different good frames of captures."""
    found = set()
    for path in paths:
        with open(path, "rb") as file:
            lines = [line.split(b" ") for line in file.read().split(b"\n")]
        for mark in (b"<", b">"):
            side = [words[1] for words in lines if len(words) == 2 and words[0] == mark]
            stream = b"".join(bytes.fromhex(digits.decode()) for digits in side)
            found.update(body for body in bodies_of(stream) if isinstance(model.read_frame(body, USUAL), model.Frame))
    return sorted(found)


def bodies_of(stream):
    """What is between an STX and the next LF, if no other mark of the link is."""
    for piece in stream.split(bytes([STX]))[1:]:
        body, feed, _ = piece.partition(bytes([LF]))
        if feed:
            yield body


def all_of(body):
    """How many pairs of changes there are: two places, and at each another byte."""
    return len(body) * (len(body) - 1) // 2 * 255 * 255


def tried(body):
    """How many of them are read as another frame, by trying each."""
    frame, count = model.read_frame(body, USUAL), 0
    for one, two in itertools.combinations(range(len(body)), 2):
        changed = bytearray(body)
        for changed[one], changed[two] in itertools.product(range(256), repeat=2):
            if changed[one] != body[one] and changed[two] != body[two]:
                read = model.read_frame(bytes(changed), USUAL)
                count += isinstance(read, model.Frame) and read != frame
    return count


def choices(body, place):
    """The bytes that a frame may have at a place before its digits."""
    if place == 0:
        return range(0x30, 0x38)
    if place == len(body) - 4:
        return ENDS
    return [byte for byte in range(256) if byte not in model.FORBIDDEN]


def unnoticed(body):
    """The same by the sum: two bytes before the digits change by the same in opposite directions; or one of them does,
    and one digit with it. CR is always itself."""
    high, low, covered = body[-3], body[-2], len(body) - 3
    moves = [{(byte - body[place]) % 256 for byte in choices(body, place)} - {0} for place in range(covered)]
    both = sum(len(one & {-move % 256 for move in two}) for one, two in itertools.combinations(moves, 2))
    total = int(bytes([high, low]), 16)
    of_digit = [(int(bytes(pair), 16) - total) % 256 for digit in DIGITS
                for pair in ((digit, low), (high, digit)) if bytes(pair) != bytes([high, low])]
    return both + sum(move in each for move in of_digit for each in moves)
