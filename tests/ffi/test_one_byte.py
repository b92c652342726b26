"""One changed byte of a frame, by the model and by the library: what a careful receiver says to it, and to the frame
sent again. Each change of short frames, at both limits on a text, and by the model alone at small ones; and of 1,000 frames
with texts of up to 240 bytes, at each place, to a byte that the link reads and to another one. Nothing is acknowledged
that wasn't taken.

And two changed bytes: how many pairs of changes of a frame of the samples are read as another frame, as docs/protocol.md
says."""
import glob
import random

import model
from model import ACK, CR, ENQ, EOT, ETB, ETX, LF, LONG, NAK, STX, USUAL
from tests import ROOT, kit
from tests.ffi import pairs

kit.library()
from lislink import FRAME_TEXT, LONG_FRAME_TEXT, Receiver, frame_bytes  # noqa: E402
from tests.ffi.rows_link import step_word  # noqa: E402

LIMITS = {USUAL: FRAME_TEXT, LONG: LONG_FRAME_TEXT}
#: The bytes that the link reads, those that matter here twice.
READ = (STX, STX, ENQ, ENQ, EOT, LF, LF, CR, ETX, ETB, ACK, NAK)
FRAMES = 1000
#: The texts of the frames that are changed in each way.
SHORT = (b"", b"H", b"H|\\^&", b"\xff\x7f")


def words_of(steps):
    return [model.step_word(step) for step in steps]


class Heard:
    """What a receiver of the library and the model's say to the same bytes; at a small limit the model alone."""

    def __init__(self, test, limit):
        self.test, self.limit = test, limit
        self.library = Receiver(careful=True, frame_limit=LIMITS[limit]) if limit in LIMITS else None
        self.asked = 0

    def begin(self):
        self.model = model.CarefulReceiver(self.limit)
        if self.library:
            self.library.restart()
        self.both(b"\x05")

    def both(self, data):
        """The model's steps; the library has to give the same."""
        noise, before = self.model.noise, self.library and self.library.noise
        steps = self.model.hear(data)
        if not self.library:
            return steps
        told = [step_word(*step) for step in self.library.hear_placed(data)]
        self.asked += 1
        same = (told == words_of(steps) and self.library.is_open == self.model.is_open
                and self.library.accepted == self.model.accepted and self.library.held == len(self.model.held)
                and self.library.noise - before == self.model.noise - noise)
        if not same:
            self.test.check(False, f"{data.hex()}: {told}, by the model {words_of(steps)}")
        return steps

    def changed(self, frame, number, place, byte):
        """A frame with one changed byte, and what follows: a NAK, and the frame is taken when it is sent again; no
        reply, so that the sender's timer ends the session; or it was the frame."""
        self.begin()
        steps = self.both(frame[:place] + bytes([byte]) + frame[place + 1:])
        replies = [step.reply for step in steps if step.reply is not None]
        taken = [step for step in steps if step.note == f"Accepted.{number}"]
        if taken:
            same = frame[:place] + bytes([byte]) + frame[place + 1:]
            return replies == [ACK] and same.upper() == frame.upper() and len(taken) == 1
        if replies == [NAK]:
            again = self.both(frame)
            return [(step.note, step.reply) for step in again] == [(f"Accepted.{number}", ACK)]
        return not replies and len([step for step in steps if step.note == "Ended"]) <= 1


class OneByte(kit.Test):
    def counted(self, heard, changes):
        wrong = [case for case in changes if not heard.changed(*case)]
        self.same(f"at {heard.limit}: acknowledged and not taken, or not taken when sent again", wrong[:3], [])
        if heard.library:
            print(f"one byte, at {heard.limit}: {heard.asked} hearings, the model's and the library's the same")

    def test_small_limits(self):
        for limit in (1, 2, 4, 8):
            heard = Heard(self, limit)
            frames = [frame_bytes(1, last, b"H|1^&~!x"[:size]) for size in range(limit + 1) for last in (True, False)]
            self.counted(heard, ((frame, 1, place, byte) for frame in frames for place in range(len(frame))
                                 for byte in range(256) if byte != frame[place]))

    def test_short(self):
        for limit in LIMITS:
            heard = Heard(self, limit)
            frames = [frame_bytes(1, last, text) for text in SHORT for last in (True, False)]
            self.counted(heard, ((frame, 1, place, byte) for frame in frames for place in range(len(frame))
                                 for byte in range(256) if byte != frame[place]))

    def test_many(self):
        draw, heard = random.Random(81), Heard(self, USUAL)
        allowed = [byte for byte in range(256) if byte not in model.FORBIDDEN]

        def changes():
            for _ in range(FRAMES):
                text = bytes(draw.choices(allowed, k=draw.choice((3, 20, 40, 60, 240))))
                frame = frame_bytes(1, draw.random() < .5, text)
                for place, was in enumerate(frame):
                    for byte in {draw.choice(READ), draw.randrange(256)} - {was}:
                        yield frame, 1, place, byte
        self.counted(heard, changes())

    def test_pinned(self):
        """The receiver as the profile has it makes both mistakes: the model of it, and the comparison, can fail."""
        pinned = model.Receiver(USUAL)
        pinned.hear(b"\x05")
        self.same("ENQ in a frame", [step.reply for step in pinned.hear(b"\x021\x05\x037C\r\n")], [ACK])
        within = b"\x021AB\x021H\x037C\r\n"
        self.same("STX in a frame", [step.text for step in pinned.hear(within)], [b"H"])


class TwoBytes(kit.Test):
    def test_count(self):
        """The count of pairs is that of trying each: of one short frame by the model's reading."""
        frame = frame_bytes(1, True, b"H|")[1:-1]
        self.same("pairs of a frame", pairs.unnoticed(frame), pairs.tried(frame))

    def test_page(self):
        frames = pairs.frames_of(sorted(glob.glob(f"{ROOT}/samples/**/*.capture", recursive=True)))
        total, unnoticed = sum(map(pairs.all_of, frames)), sum(map(pairs.unnoticed, frames))
        print(f"two bytes: {unnoticed:,} of {total:,} pairs in {len(frames)} frames")
        said = f"frames of the samples one in {total / unnoticed:.0f} pairs of changes gives another good frame"
        page = " ".join(kit.read("docs/protocol.md").split())
        self.check(said in page, f"docs/protocol.md doesn't say: {said}")
