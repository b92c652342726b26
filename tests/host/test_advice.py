"""What `lislab watch` advises about a line, and `lislab ladder` about its bytes: the same."""
from lislink.capture import Capture, Line
from lislab.field.ladder import Ladder
from lislab.field.looks import looks_of
from lislink.link import Receiver
from lislab.diagnosis.events import Came, Meant
from lislab.diagnosis.pulse import Probe, Pulse
from lislab.diagnosis.verdicts import Verdict
from tests.host.hosts import HostTest, see
from tests.host.plain import frame
from tests.host.test_lines import ENQ, EOT, TEXTS
from tests.host.test_watch import H, body, even, odd


def summed(text, by):
    """A frame whose checksum is right by another way to sum."""
    return b"\x02" + text + b"\x03%02X\r\n" % (by(text + b"\x03") % 256)


#: Ways to sum: without ETX, with STX, the two's complement.
WITHOUT_END, WITH_STX, COMPLEMENT = (lambda one: sum(one[:-1])), (lambda one: sum(one) + 2), (lambda one: -sum(one))
#: A text whose checksum by the complement is also that of the text alone.
BOTH = b"1C|1|I|699\r"
FRAMES = b"".join(frame(number, text) for number, text in enumerate(TEXTS, 1))
GOOD = ENQ + FRAMES + EOT


def all_of(units):
    """A session of these frames, all rejected."""
    return ENQ + b"".join(units) + EOT


def told(stream):
    """What is said of a line that sent these bytes: of one that runs, and on a ladder."""
    pulse = Pulse(240, 0.0)  # no timer is waited for
    probe = Probe(pulse)
    with Receiver() as receiver:
        see(probe, Came(stream))
        for place, step in receiver.hear_placed(stream):
            see(probe, Meant(place, step))
    found = pulse.says()
    return found, looks_of(Ladder(Capture(1, [(1, Line(">", stream))], [None])))


TEXT = b"1" + H
CABLE, SENDER = "look at cable, shield and speed", "a receiver must not take such a"
UNSURE = "the sender sums otherwise, or bytes were damaged"
#: What comes, the name of the ladder's look, and what both advise.
STREAMS = {
    "one other way to sum": (all_of([summed(TEXT, WITHOUT_END)] * 6), "sum-without-end", SENDER),
    "one way, and one by chance": (all_of([summed(BOTH, COMPLEMENT), summed(TEXT, COMPLEMENT)]), "sum-complement",
                                   SENDER),
    "two ways": (all_of([summed(TEXT, WITHOUT_END)] * 3 + [summed(TEXT, WITH_STX)] * 3), "sum", UNSURE),
    "a wrong sum": (all_of([frame(1, H)[:-4] + b"00\r\n"] * 6), "sum", UNSURE),
    "a wrong sum next to good ones": (GOOD + all_of([frame(1, H)[:-4] + b"00\r\n"] * 6), "sum", CABLE),
    "another way once next to good ones": (GOOD + all_of([summed(TEXT, WITH_STX)]), "sum", CABLE),
    "another way from now on": (GOOD + all_of([summed(TEXT, WITH_STX)] * 6), "sum-with-stx", SENDER),
    "a forbidden byte": (all_of([body(b"1H|\x01\r\x03")] * 6), "forbidden", SENDER),
    "a forbidden byte next to good ones": (GOOD + all_of([body(b"1H|\x01\r\x03")] * 6), "forbidden", CABLE),
    "few bytes": (all_of([b"\x02\n"] * 3), "short", SENDER),
    "few bytes next to good ones": (GOOD + all_of([b"\x02\n"] * 3), "short", CABLE),
    "a long checksum": (all_of([b"\x021H|\r\x03123\r\n"] * 3), "sum-digits", SENDER),
    "no digits": (all_of([b"\x021H|\r\x03xy\r\n"] * 3), "sum-no-digits", SENDER),
    "ETX where it doesn't belong": (all_of([b"\x02\x03E5\r\n"] * 3), "shape", SENDER),
    "ETX where it doesn't belong next to good ones": (GOOD + all_of([b"\x02\x03E5\r\n"] * 3), "shape", CABLE),
    "too long": (all_of([frame(1, b"C|1|" + b"x" * 300)] * 3), "long",
                 "`frame=63993`"),
    "LF in the text": (all_of([b"\x021H|\\^&\r\nP|1\r\n\x0300\r\n"] * 3), "lf-in-text", "fix=lf"),
    "no CR": (all_of([b"\x021H|\\^&\r\x03E5\n"] * 3), "no-cr", "must end a frame in CR and LF"),
    "no checksum": (all_of([b"\x021H|\\^&\r\x03\r\n"] * 3), "no-sum", "another dialect"),
    "number 9": (all_of([body(b"9H|\r\x03")] * 3), "number-over-7", "count modulo 8"),
    "no number": (all_of([body(b"H|\r\x03")] * 3), "number", "frames need a number"),
    "XON": (all_of([body(b"1H|\x11\r\x03")] * 3), "flow-control", "turn XON/XOFF off"),
    "out of turn": (all_of([frame(2, H)] * 3), "out-of-turn", "count on by one"),
    "blocks": (ENQ + b"\x02H|\\^&\r\x03\x02L|1\r\x03", "dropped", "`link=plain` takes these"),
    "no LF": (ENQ + FRAMES.replace(b"\n", b""), "dropped", "two digits, CR and LF"),
    "no STX": (ENQ + b"1H|\\^&\r\x03E5\r\n", "no-stx", "must begin a frame with STX"),
    "no ENQ": (FRAMES, "not-open", "a sender must send ENQ first"),
    "one number": (ENQ + b"".join(frame(1, one) for one in TEXTS), "lost", "doesn't count its frames"),
    "even parity": (even(GOOD), "parity", "8N1 or 7E1"),
    "odd parity": (odd(GOOD), "parity", "8N1 or 7O1"),
    "HL7": (b"\x0bMSH|^~\\&|A\r\x1c\r", "hl7", "HL7 receiver"),
    "another speed": (b"\xf8\x00\xfe\x1c", "no-protocol", "compare speed"),
    "Telnet": (ENQ + b"\x021H|\\^&\r\0\x03E5\r\0", "telnet", "telnet=yes"),
    "only ENQ": (ENQ, "no-frame", "see whether the computer answers ACK"),
}
#: Verdicts of both that no bytes alone give: memory, time and replies are in them.
OTHERS = {"no-room", "text-too-long", "too-many", "memory", "late", "echo"}


class Advice(HostTest):
    """Each fault that both name."""

    def test_advice(self):
        """Both say the same about each; where a capture can be fixed, a ladder says that too."""
        seen = set()
        for name, (stream, look, wanted) in STREAMS.items():
            found, looks = told(stream)
            seen |= {look, found.verdict.key}
            mine = [one for one in looks if one.name == look]
            self.same(f"{name}: the ladder's look", len(mine), 1)
            self.same(f"{name}: it is bad", found.state, "bad")
            self.has(f"{name}: watch", found.advice, wanted)
            advice = mine[0].advice if mine else ""
            if found.verdict.live_advice == found.verdict.advice or found.verdict is Verdict.NONE_ACCEPTED:
                self.same(f"{name}: both", found.advice, advice)
            self.has(f"{name}: ladder", advice, wanted)
        both = {one.key for one in Verdict if one.sentence and one.live and not one.name.startswith("SUM_")}
        self.same("each verdict of both", sorted(both - seen - OTHERS), [])

    def test_sums(self):
        """If checksums are right by two ways, both say which, and how often."""
        found, looks = told(STREAMS["two ways"][0])
        self.has("watch", found.text, "3 times the checksum is wrong: it leaves out ETX or ETB; "
                                      "3 times the checksum is wrong: it counts STX")
        self.has("ladder", next(one.words for one in looks if one.name == "sum"),
                 "3 times it leaves out ETX or ETB, 3 times it counts STX")
        found, looks = told(STREAMS["one way, and one by chance"][0])
        self.has("one way: watch", found.text, "all 2 frames rejected")
        self.has("one way: watch says which", found.text, ": the checksum is wrong: it is the two's complement")
        self.has("one way: ladder", next(one.words for one in looks if one.name == "sum-complement"),
                 "all 2 frames rejected: checksum wrong: ")
        parts = [one.words for one in looks if one.name == "none-accepted"]
        self.true("all that came", parts and parts[0].count("checksum wrong") == 1, str(parts))
