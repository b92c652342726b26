"""Hostile input.

Generated noise, torn frames, captures with malformed lines or lines without an end, odd delimiters, records of escapes
alone: what the program prints is compared with conformance/model.py, byte for byte. It has a minute for each input; the
largest have a few megabytes, which a program that is linear in its input reads in a fraction of a second, and one that
isn't does not. The model itself answers the conformance rows. tests/proofs asks the answering program its calls.
"""
import random
import subprocess

import model
import suite
from tests import kit
from tests.faults import inputs
from tests.faults.shim import SECONDS

SEED = 20241123
LINKS, CAPTURES = 40, 60


def front(answer):
    """The first part of an answer, or of what a run printed, which is shown."""
    return answer._replace(output=answer.output[:100]) if isinstance(answer, model.Run) else answer[:100]


def run(program, command, data):
    """A run of a command: what it printed, its status, its line on standard error."""
    ran = subprocess.run([program, *command.split()], input=data, stdout=subprocess.PIPE, stderr=subprocess.PIPE,
                         timeout=SECONDS)
    return model.Run(ran.stdout, ran.returncode, ran.stderr.decode(errors="replace").removesuffix("\n"))


def large_inputs(kind):
    """A few megabytes of each kind."""
    if kind == "link":
        yield "a large noise", random.Random(SEED).randbytes(2000000)
        yield "a large stretch", b"\x05\x02" + b"A" * 2000000 + b"\n"
        yield "many stretches", b"\x02\n" * 100000
    elif kind == "capture":
        yield "many lines", b"> 05\n< 06\n" + b"> 0231410337350d0a\n< 06\n" * 15000
        yield "a large line", b"> 05\n> " + b"4" * 2000000
        yield "empty lines", b"\n" * 300000
    else:
        yield "large escapes", b"H|\\^&\r" + (b"C|" + b"&" * 65000 + b"\r") * 20 + b"L\r"
        yield "large fields", b"H|\\^&\rP|1\rO|1\r" + (b"R|1|" + b"^" * 65000 + b"\r") * 10 + b"L\r"
        yield "many records", b"H|\\^&\rP|1\r" + b"O|1|S7\rR|1|^^^GLU|5.4\r" * 20000 + b"L|1|N\r"
        yield "many messages", b"H|\\^&\rP|1\rL|1|N\r" * 30000


def made(kind):
    """All inputs of a kind."""
    rng = random.Random(SEED)
    if kind == "link":
        return [*inputs.link_inputs(rng, LINKS), *inputs.link_edges(), *large_inputs(kind)]
    if kind == "capture":
        return [*inputs.capture_inputs(rng, CAPTURES), *inputs.capture_edges(), *large_inputs(kind)]
    streams = [(f"stream {number}", data) for number, data in enumerate(inputs.streams(rng, CAPTURES))]
    return [*streams, *inputs.stream_edges(), *large_inputs(kind)]


class Hostile(kit.Test):
    def test_commands(self):
        """Each command over all inputs of its kind."""
        program, runs, printed = kit.built("lislink"), 0, 0
        for kind in dict.fromkeys(it.reads for it in model.COMMANDS.values()):
            commands = [command for command, known in model.COMMANDS.items() if known.reads == kind]
            for name, data in made(kind):
                with self.subTest(f"{kind}, {name}"):
                    for command in commands:
                        got, wanted = run(program, command, data), model.run(command, data)
                        self.need(got == wanted, lambda: f"{command}: {front(got)}, wanted {front(wanted)}")
                        runs, printed = runs + 1, printed + len(got.output)
        print(f"hostile: {runs} runs of the program, {printed} bytes printed")

    def test_model(self):
        """The model itself answers the conformance rows, but for calls that it doesn't know."""
        answered = 0
        for path in (path for kind in [*suite.kinds(), "commands"] for path in suite.files(kind)):
            answers = model.Answers()
            with self.subTest(f"the model, {path}"):
                for number, call, wanted in (row for case in suite.cases(path) for row in case):
                    got = model.ran_word(call) if call.startswith("run ") else answers.answer(call)
                    answered += got != model.NO_CALL
                    self.need(got in (wanted, model.NO_CALL),
                              lambda: f"line {number}: {front(call)}: {front(got)}, wanted {front(wanted)}")
        print(f"hostile: the model answers {answered} conformance rows")
