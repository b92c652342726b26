"""The programs that the gate built of the proofs: all conformance rows as both compilers built them, the calls that the
benchmark times, on samples of known counts, and calls on hostile input, whose answers are compared with
conformance/model.py: odd delimiters, records of escapes alone, streams that are split anywhere."""
import os
import random
import shlex
import subprocess

import model
import suite
from tests import ROOT, kit
from tests.cli.test_conformance import compare, compare_commands
from tests.faults import inputs
from tests.faults.shim import SECONDS
from tests.faults.test_hostile import CAPTURES, LINKS, SEED, front

#: The calls that the benchmark times: a sample, the words, and what is counted.
COUNTS = (("session.link", "bytes", 2), ("panel.records", "messages", 1), ("panel.records", "again 3", 3),
          ("session.link", "play 1", 1000))
HEADERS, RECORDS, STREAMS = 1500, 3000, 500
# Calls that are asked at once.
AT_ONCE = 1000


def ask(program, lines):
    """The answers to calls; an empty line parts nothing here."""
    ran = subprocess.run([program], input="".join(line + "\n" for line in lines).encode(), stdout=subprocess.PIPE,
                         timeout=SECONDS)
    return ran.stdout.decode(errors="replace").split("\n")[:-1]


def cut(rng, data):
    """The data in pieces of any length."""
    pieces, place = [], 0
    while place < len(data):
        length = rng.randrange(1, max(2, len(data) // 2))
        pieces.append(data[place:place + length])
        place += length
    return pieces


def cases():
    """All calls; those that use what others leave are next to them."""
    rng = random.Random(SEED)
    for limit in (model.USUAL, model.LONG):
        yield [f"limit {limit}"]
        yield from inputs.sender_cases()
        yield from inputs.receiver_cases()
        yield from inputs.heard_cases(rng, LINKS)
    yield ["limit 240"]
    yield from inputs.longest_text()
    yield from record_cases(rng)


def record_cases(rng):
    """Calls on records and messages."""
    for text in inputs.headers(rng, HEADERS):
        yield [f"record.header {model.word_of(text)}"]
    for delimiters, text in inputs.records(rng, RECORDS):
        yield [f"record.read {delimiters.hex()} {model.word_of(text)}"]
    for _, delimiters, text in inputs.long_records():
        yield [f"record.read {delimiters.hex()} {model.word_of(text)}"]
        yield [f"record.header {model.word_of(b'H' + delimiters + b'|' + text[6:])}"]
    streams = list(inputs.streams(rng, STREAMS))
    for data in streams + [data for _, data in inputs.stream_edges()]:
        yield [f"message.read {model.word_of(data)}"]
    for data in streams[:STREAMS // 4]:
        yield ["message.new", *(f"message.feed {piece.hex()}" for piece in cut(rng, data)), "message.finish"]
    yield from inputs.fed_edges()


def batches():
    """The calls of some cases at a time, after the limit that holds for them."""
    some, limit = [], "limit 240"
    for case in cases():
        limit = case[0] if case[0].startswith("limit ") else limit
        some += case
        if len(some) >= AT_ONCE:
            yield some
            some = [limit]
    yield some


class Vectors(kit.Test):
    BUILDS = ("vectors", "vectors_by_rattle")

    def test_calls(self):
        for answering in self.BUILDS:
            program = shlex.quote(kit.built(answering))
            for kind in suite.kinds():
                for path in suite.files(kind):
                    compare(self, path, suite.asked(program, path))

    def test_commands(self):
        """`make test` has them over what is built of dist/, which LLVM made."""
        compare_commands(self, kit.built("lislink_by_rattle"))

    def test_timed_calls(self):
        for answering in self.BUILDS:
            program = kit.built(answering)
            for sample, words, wanted in COUNTS:
                with open(os.path.join(ROOT, "samples", sample), "rb") as source:
                    ran = subprocess.run([program, *words.split()], stdin=source, capture_output=True, text=True)
                self.same(f"{words} on {sample}", ran.stdout, f"{wanted}\n")

    def test_hostile_calls(self):
        """All calls on hostile input, some at once."""
        program, answers, asked, printed = kit.built("vectors"), model.Answers(), 0, 0
        for some in batches():
            with self.subTest(f"calls from {front(some[0])}"):
                got = ask(program, some)
                wanted = [answers.answer(call) for call in some]
                wrong = [it for it in zip(some, got, wanted) if it[1] != it[2]]
                self.need(len(got) == len(some), lambda: f"{len(got)} answers to {len(some)} calls")
                self.need(not wrong, lambda: "{}: {}, wanted {}".format(*map(front, wrong[0])))
                asked, printed = asked + len(some), printed + sum(map(len, got))
        print(f"hostile: {asked} calls, {printed} bytes answered")
