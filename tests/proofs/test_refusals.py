"""Each growth of memory of a call fails in turn.

`vectors` answers calls of conformance rows. A call of a case is asked with its first growth failing, with its
second, and so on until a run has none left; trials.py says what it may answer and leave. Of the tests of
crates/record_tests, those of lists that get no memory pass whichever growth fails. Of these and of the tests of
crates/link_tests, each growth of the tests of calls that take no memory is counted.
"""
import itertools

import model
import suite
from tests import kit
from tests.faults.shim import Shim
from tests.faults.test_refusals import frame
from tests.faults.trials import OUT, TRIALS, Plain, named

# Of each kind so many of the shorter cases; the calls that get no memory; how long a case may be.
KINDS = {"texts": (30, ("text.split",), 3000), "sender": (12, ("sender.start",), 2500),
         "link": (20, ("link.play",), 4000), "late": (10, ("late.play",), 2000),
         "receiver": (40, ("receiver.bytes", "receiver.reserve"), 2500),
         "headers": (80, ("record.header",), 800), "records": (120, ("record.read",), 400),
         "writing": (80, ("record.write", "record.write_field", "record.put_field"), 500),
         "building": (25, ("message.build", "message.write"), 2000),
         "messages": (25, ("message.feed", "message.read", "message.write"), 4000)}


def picked(kind):
    """The cases of a kind that are tried: the shorter ones among those made by hand, and then among the others."""
    most, calls, length = KINDS[kind]
    every = itertools.chain.from_iterable(suite.cases(path) for path in suite.files(kind))
    short = ([row[1:] for row in case] for case in every)
    fitting = (case for case in short if sum(len(call) + len(wanted) for call, wanted in case) <= length
               and any(call.startswith(calls) for call, _ in case))
    return itertools.islice(fitting, most)


class Tally:
    """How many growths failed, and how the calls answered."""

    def __init__(self):
        self.out = self.named = self.full = 0

    def add(self, trial, answer):
        if answer == OUT:
            self.out += 1
        elif trial.is_named(answer):
            self.named += 1
        else:
            self.full += 1

    def refused(self):
        return self.out + self.named + self.full


def of_trees(answer):
    """What an answer says of trees, where a growth failed. `message.read` also reads its text as tables and says what
    they say if it is something else; the growth that failed can be one of theirs, or of what is compared."""
    return answer.partition(" tables: ")[0]


def try_call(shim, program, trial, growths, test, tally):
    """Asks a call with each of its growths failing in turn, and once more with one after the last, which it doesn't
    reach."""
    before = [(0, 0, call) for call, _ in trial.case[:trial.place]]
    behind = [(0, 0, call) for call in trial.follow()]
    asked = [line for growth in range(1, growths + 2) for line in before + [(growth, 0, trial.call)] + behind]
    answers = shim.ask(program, asked)
    size = len(before) + 1 + len(behind)
    for growth in range(1, growths + 2):
        part, answers = answers[:size], answers[size:]
        front, mine = part[:len(before)], part[len(before):]
        is_refused = growth <= growths
        answered = [of_trees(one.answer) if is_refused else one.answer for one in mine]
        holds = trial.holds(answered) and [one.answer for one in front] == [row[1] for row in trial.case[:trial.place]]
        if not is_refused:
            holds = holds and answered[0] == trial.wanted
        test.need(holds and mine[0].refused == int(is_refused),
                  lambda: f"{trial.call[:100]}, growth {growth} of {growths}: {answered}, wanted {trial.wanted}")
        if is_refused:
            tally.add(trial, answered[0])
    test.need(trial.comes_far(), lambda: f"{trial.call[:100]}: whole messages are lost")


def try_kind(shim, program, kind, test):
    """Tries all picked cases of a kind."""
    tally, calls = Tally(), KINDS[kind][1]
    for case in picked(kind):
        plain = shim.ask(program, [(0, 0, call) for call, _ in case])
        test.check([one.answer for one in plain] == [row[1] for row in case], lambda: f"{kind}: {case[0][0][:100]}")
        for place, (call, _) in enumerate(case):
            if named(call) in calls:
                trial = TRIALS.get(named(call), Plain)(case, place)
                with test.subTest(f"{kind}, {call[:100]}"):
                    try_call(shim, program, trial, plain[place].growths, test, tally)
    test.check(tally.refused() > 0, lambda: f"{kind}: no growth was refused")
    print(f"refusals: {kind}: {tally.refused()} growths refused, {tally.named} answered by the call's own refusal, "
          f"{tally.out} by '{OUT}', {tally.full} answered in full")
    return tally.refused()


# Room that is reserved: no growth of the receiver's text is asked for after it.

# Longer than what a call takes for itself: its line, its words, its answer.
LARGE = 2048


def long_text():
    """The frames of a text of 1,048,576 bytes: full ones, one of 16 bytes, an empty last one."""
    frames = [frame(number, b"A" * 240, model.ETB) for number in range(1, 4370)]
    return frames + [frame(4370, b"A" * 16, model.ETB), frame(4371, b"", model.ETX)]


def try_reserved(shim, program, test):
    """With room reserved, a long text is taken while each larger growth fails; without, memory runs out at some
    frame, with NAK and the state as before, and the frame sent again is taken."""
    frames = long_text()
    hear = [f"receiver.bytes {data}" for data in frames[:-1]]
    start = [(0, 0, "receiver.new"), (0, 0, "receiver.bytes 05")]
    asked = start + [(0, 0, "receiver.reserve 1048576")] + [(-1, LARGE, call) for call in hear]
    told = shim.ask(program, asked + [(0, 0, f"receiver.bytes {frames[-1]}")])
    places = [246] * 4369 + [22]
    wanted = [f"{place}=Accepted.{k % 8}:06 open accepted={k} held={min(240 * k, 1048576)}"
              for k, place in enumerate(places, 1)]
    test.check([one.answer for one in told[3:-1]] == wanted, lambda: "frames of a text with room reserved")
    test.check(not any(one.refused for one in told), lambda: "a growth after the room was reserved")
    last = f"6=Accepted.3:06:{'41' * 1048576} open accepted=4371 held=0"
    test.check(told[-1].answer == last, lambda: "the end of a text with room reserved")
    told = shim.ask(program, start + [(-1, LARGE, call) for call in hear[:40]])
    refused = next(place for place, one in enumerate(told) if one.refused)
    before = [f"246=Accepted.{k % 8}:06 open accepted={k} held={240 * k}" for k in range(1, refused - 1)]
    held = f"open accepted={refused - 2} held={240 * (refused - 2)}"
    last = f"246=OutOfMemory:15 {held}"
    test.check([one.answer for one in told[2:refused]] == before and told[refused].answer == last,
               lambda: f"frames without room: {told[refused]}")
    again = shim.ask(program, [one[:2] + (call,) for one, call in zip(start + [(-1, LARGE, "")] * (refused - 1), [
        line[2] for line in start] + hear)] + [(0, 0, hear[refused - 2])])
    number = refused - 1
    test.check(again[-1].answer == f"246=Accepted.{number % 8}:06 open accepted={number} held={240 * number}",
               lambda: f"a refused frame again: {again[-1]}")


# What a reader of messages answers without memory.

def try_unended(shim, program, test):
    """How many bytes are held, and the end of the stream, are reported without memory: of a record that isn't ended,
    in a message that isn't closed, and of a message that is whole, no growth as large as either is asked for."""
    message = b"H|\\^&\rP|1\r" + b"C|1|%s\r" % (b"A" * 40) * 200
    calls = ["message.feed -", "message.finish"]
    for stream in (message + b"C|1|" + b"A" * 60000, message + b"L|1\r"):
        answers = model.Answers()
        answers.stream = stream
        wanted = [answers.answer(call) for call in calls]
        start = [(0, 0, "message.new"), (0, 0, f"message.feed {stream.hex()}")]
        told = shim.ask(program, start + [(-1, LARGE, call) for call in calls])[2:]
        test.check([one.answer for one in told] == wanted, lambda: f"the end of a stream: {told}, wanted {wanted}")
        test.check(not any(one.growths for one in told), lambda: f"the end of a stream takes memory: {told}")


# Tests of lists

# The module of crates/record_tests whose tests pass even if a growth fails.
OF_LISTS = "memory::"


def try_test(shim, tests, name, test):
    """Runs a test with each growth failing in turn, until a run has none left; how many failed."""
    for growth in itertools.count(1):
        ran = shim.run([tests, name], b"", armed=1, refuse=growth)
        is_passed = not ran.status and ran.output.endswith(b"test result: ok\n")
        test.need(is_passed, lambda: f"{name}, growth {growth}: {ran}")
        if not ran.table["refused"]:
            return growth - 1


def try_tests(shim, tests, test):
    """Tries all tests of lists; how many growths failed."""
    listed = shim.run([tests, "--list"], b"").output.decode().splitlines()
    names = [line.removesuffix(": test") for line in listed if line.startswith(OF_LISTS)]
    refused = 0
    for name in names:
        with test.subTest(name):
            growths = try_test(shim, tests, name, test)
            test.need(growths > 0, lambda: f"{name}: no growth was refused")
            refused += growths
    test.check(bool(names), f"{tests} has no test of lists")
    print(f"refusals: {len(names)} tests of lists: {refused} growths refused")


# Calls that take no memory

# The module whose tests come in pairs: one makes its values, the other makes the calls on them too.
OF_CALLS = "without_memory::"


def growths_of(shim, tests, name, test):
    """How many growths a test takes in all."""
    ran = shim.run([tests, name], b"", armed=1)
    test.need(not ran.status and ran.output.endswith(b"test result: ok\n"), lambda: f"{name}: {ran}")
    return ran.table["growths"]


def try_pairs(shim, tests, test):
    """Tries that the calls of each pair of tests take no memory, not even for a moment."""
    listed = shim.run([tests, "--list"], b"").output.decode().splitlines()
    names = [line.removesuffix("_asked: test") for line in listed if line.startswith(OF_CALLS) and "_asked: " in line]
    taken = 0
    for name in names:
        with test.subTest(name):
            given, asked = (growths_of(shim, tests, f"{name}_{word}", test) for word in ("given", "asked"))
            test.need(asked == given, lambda: f"{name}: {asked} growths with the calls, {given} without them")
            taken += given
    test.check(taken > 0, f"{tests}: no growth was counted")
    test.check(bool(names), f"{tests} has no test of calls that take no memory")
    print(f"refusals: the calls of {len(names)} tests take no memory beside the {taken} growths of their values")


class Refusals(kit.Test):
    @classmethod
    def setUpClass(cls):
        cls.shim, cls.vectors = Shim(), kit.built("vectors")

    def test_calls(self):
        refused = sum(try_kind(self.shim, self.vectors, kind, self) for kind in KINDS)
        print(f"refusals: of calls {refused} growths refused")

    def test_reserved_room(self):
        try_reserved(self.shim, self.vectors, self)

    def test_unended_stream(self):
        try_unended(self.shim, self.vectors, self)

    def test_lists(self):
        try_tests(self.shim, kit.built("record_tests"), self)

    def test_calls_without_memory(self):
        for tests in ("record_tests", "link_tests"):
            try_pairs(self.shim, kit.built(tests), self)
