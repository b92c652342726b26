"""What a host keeps of random texts: every byte, in order, and the messages that a reader of the whole finds."""
import hashlib
import random
import tracemalloc
import unittest.mock

from lislink import Found, read_all
from lislab.host import intake
from lislab.host.duplex import Asking
from lislab.host.intake import Held, Intake
from lislab.model.store import COMPLETE, Add, Begin
from lislink.records import Reader
from tests.host import hosts
from tests.host.hosts import HostTest

HEADS = (b"H|\\^&|||A\r", b"H|\\^&\r", b"h*!+-\r", b"H|^^^\r", b"P|1\r")
RECORDS = (b"P|1\r", b"O|1|S7\r", b"R|1|^^^GLU|5\r", b"C|1\r", b"\r", b"X|1\r", b"H|\\^&\r", b"R|\x02\r")


class Streams(HostTest):
    """Random streams in random texts."""

    def test_random_streams(self):
        """Every byte is kept, in order, and each message ends once."""
        streams = hosts.size("streams")
        self.same(f"{streams} random streams", wrong(random.Random(9), streams), [])
        with unittest.mock.patch.object(intake, "PIECE", 9):
            self.same("in small pieces", wrong(random.Random(9), streams // 4), [])

    def test_places(self):
        """Why a message can't be read: its record, where that begins, and the byte, if the text has it."""
        for texts, wanted in (
            ([b"H|\\^&\rP|1|\x02\r"], "record 2, from byte 6: malformed: FORBIDDEN, byte 10 is 0x02"),
            ([b"H|\\^&\r", b"P|1|", b"\x02\r"], "record 2, from byte 6: malformed: FORBIDDEN, byte 10 is 0x02"),
            ([b"H|\\^&\r", b"P|1|\x02", b"x\r"], "record 2, from byte 6: malformed: FORBIDDEN, byte 10"),
            ([b"H|\\^&\rP|1\rX|1\r"], "record 3, from byte 10: malformed: BAD_LETTER"),
        ):
            one = Intake("line", "peer", "latin-1", 1 << 20, lambda: 0.0)
            for text in texts:
                list(one.take(text))
            self.same(repr(texts), [end.reason for end in one.drop("the end")], [wanted])

    def test_what_is_held(self):
        """Many lines hold no more of messages that aren't whole than they may together, and a query's records as their
        bytes; a message that can't be held is kept all the same, and the next one is held again."""
        held, record = Held(1 << 20, 4 << 20), b"C|1|" + b"x" * 1000 + b"\r"
        ones = [Intake("line", "peer", "latin-1", 1 << 24, lambda: 0.0, held) for _ in range(40)]
        for one in ones:
            for text in [b"H|\\^&\rZ|1\r", *[record] * 800]:
                list(one.take(text))
        sizes = [len(one._message.body or b"") for one in ones]
        self.true("of all", sum(sizes) <= (4 << 20) + 40 * intake.FIRST, str(sizes))
        self.true("of some", max(sizes) > 800_000, str(sizes))
        ends = [one.drop("the end")[-1] for one in ones]
        self.same("all are kept", {end.size for end in ends}, {10 + 800 * len(record)})
        list(ones[-1].take(b"H|\\^&\rZ|1\r" + record))
        self.true("held again", ones[-1].drop("the end") and ones[-1].bodies)
        tracemalloc.start()
        asking = Asking("latin-1")
        for row in Reader().feed(b"H|\\^&\r" + b"C|\r" * 20_000):
            asking.note(row)
        self.true("of a query", tracemalloc.get_traced_memory()[0] < 1 << 19, str(tracemalloc.get_traced_memory()))
        tracemalloc.stop()
        asking.over()

    def test_a_forgetful_intake(self):
        """An intake that forgets what can't be read is noticed."""
        right = Intake._pass_over
        self.addCleanup(setattr, Intake, "_pass_over", right)
        Intake._pass_over = lambda self, one, text, start, changes: len(text)
        self.true("an intake that forgets is noticed", wrong(random.Random(9), 50))


def random_stream(rng):
    """Messages, some of which can't be read."""
    out = []
    for _ in range(rng.randrange(1, 8)):
        out.append(rng.choice(HEADS))
        out += rng.choices(RECORDS, k=rng.randrange(6))
        out += [b"L|1|N\r"] * (rng.random() < 0.8)
    return b"".join(out)


def random_texts(rng, stream):
    """The stream in pieces, cut anywhere."""
    texts, at = [], 0
    while at < len(stream):
        size = rng.randrange(1, rng.choice((12, 60)))
        texts.append(stream[at : at + size])
        at += size
    return texts


def wrong(rng, streams):
    """The streams of which a host keeps something else."""
    found = []
    for number in range(streams):
        stream = random_stream(rng)
        by_record = number % 2 == 0
        texts = [one + b"\r" for one in stream.split(b"\r")[:-1]] if by_record else random_texts(rng, stream)
        if not is_kept(stream, texts, by_record):
            found.append(stream)
    return found


def is_kept(stream, texts, by_record):
    """Whether every byte is kept in order, each message ends once, and whole ones are those that can be read."""
    one = Intake("line", "peer", "latin-1", 1 << 20, lambda: 0.0)
    changes = [change for text in texts for some in one.take(text) for change in some] + one.drop("the end")
    bodies, ends = {}, {}
    for change in changes:
        if isinstance(change, Begin):
            bodies[change.key] = []
        elif isinstance(change, Add):
            if change.key in ends or change.place != len(bodies[change.key]):
                return False
            bodies[change.key].append(change.body)
        else:
            body = b"".join(bodies[change.key])
            if change.key in ends or (change.digest, change.size) != (hashlib.sha256(body).hexdigest(), len(body)):
                return False
            ends[change.key] = change
    kept = b"".join(change.body for change in changes if isinstance(change, Add))
    wholes = [b"".join(bodies[key]) for key, end in ends.items() if end.state == COMPLETE]
    good = all([isinstance(one, Found) for one in read_all(body)] == [True] for body in wholes)
    if by_record:
        good = good and len(wholes) == sum(isinstance(one, Found) for one in read_all(stream))
    return good and kept == stream and set(bodies) == set(ends)
