"""What a call may answer that gets no memory, and what may follow: by the row, and for receivers and readers of
messages by conformance/model.py. conformance/README.md says what such a call may leave."""
import copy
import re

import model

OUT = "out of memory"
# Calls after the one that is made again.
BEHIND = 2


def named(call):
    return call.split(" ", 1)[0]


class Plain:
    """A call that leaves nothing, or all of it only if it succeeds: made again it is answered in full."""

    REFUSALS = {"record.header": r"fault OutOfMemory", "record.read": r"fault OutOfMemory",
                "message.build": r"fault \d+\.OutOfMemory"}

    def __init__(self, case, place):
        self.case, self.place = case, place
        self.call, self.wanted = case[place]
        self.behind = case[place + 1:place + 1 + BEHIND]
        self.last = (0, 0)

    def follow(self):
        """The calls after the one that failed."""
        return [self.call] + [call for call, _ in self.behind]

    def comes_far(self):
        """Whether what the failed calls left came far enough, now that each growth has failed in turn."""
        return True

    def is_named(self, answer):
        """Whether an answer is the failure that the call names; the texts of a message fail by themselves."""
        refusal = self.REFUSALS.get(named(self.call))
        return bool(refusal and re.fullmatch(refusal, answer)) or is_without_texts(answer, self.wanted)

    def holds(self, answers):
        """Whether the answers of the failed call and of those after it are ones that may be given."""
        first, *rest = answers
        return (first in (OUT, self.wanted) or self.is_named(first)) and rest == [self.wanted] + [
            wanted for _, wanted in self.behind]


def is_without_texts(answer, wanted):
    """Whether an answer is the wanted one but for a message's texts, for which memory ran out."""
    parts = answer.split(" texts=refused:OutOfMemory written=")
    if len(parts) != 2 or not wanted.startswith(parts[0] + " texts="):
        return False
    rest = wanted[len(parts[0]) + 1:]
    return rest.split(" written=", 1)[1] == parts[1]


class Build(Plain):
    """A message of its records. Memory runs out at a later record for each later growth, and never at the header, which
    takes none."""

    before = 1

    def holds(self, answers):
        found = re.fullmatch(r"fault (\d+)\.OutOfMemory", answers[0])
        if not found:
            return Plain.holds(self, answers)
        earlier, self.before = self.before, int(found[1])
        # The call has the delimiters and the records.
        return earlier < self.before <= len(self.call.split()) - 2 and Plain.holds(self, answers)


class Start(Plain):
    """A start of a sender: memory runs out for the texts before it, or for the answer after it."""

    def holds(self, answers):
        first, again, *rest = answers
        texts = self.call.split(" ")[1]
        started = f"refused:InSession:{texts} AwaitLine acknowledged=0 outcome=none"
        may = (self.wanted, started) if self.wanted.startswith("Enq ") else (self.wanted,)
        return first in (OUT, self.wanted) and again in may and rest == [wanted for _, wanted in self.behind]


class Hear(Plain):
    """Bytes to a receiver: NAK and the state as before if its text can't grow. Two receivers hear them, one byte by
    byte, the other at once; if memory ran out for the answer itself, each has heard a prefix of the bytes."""

    def __init__(self, case, place):
        super().__init__(case, place)
        answers = model.Answers()
        for call, _ in case[:place]:
            answers.answer(call)
        self.receiver, self.data = answers.receiver, model.bytes_of(self.call.split(" ")[1])
        self.behind = []
        self.may = {self.told(*pair) for pair in self.pairs()}

    def follow(self):
        return ["receiver.bytes -", self.call, "receiver.bytes -"]

    def heard(self, upto=None, refused=()):
        """A receiver that has heard a prefix of the bytes, and what it answered."""
        receiver = copy.copy(self.receiver)
        receiver.refusals, receiver.growths = refused, 0
        word = state_word(receiver, receiver.hear(self.data[:upto]))
        receiver.refusals = ()
        return receiver, word

    def pairs(self):
        """What the two receivers may have heard, and whether the call was answered."""
        whole = self.heard()
        steps = copy.copy(self.receiver).hear(self.data)
        fronts = [self.heard(0)] + [self.heard(step.place + 1) for step in steps] + [whole]
        for front in fronts:
            yield OUT, front, self.heard(0)
            yield OUT, whole, front
        yield None, whole, whole
        for growth in range(1, whole[0].growths + 1):
            refused = self.heard(refused=(growth,))
            yield None, refused, whole
            yield None, whole, refused

    def told(self, answer, one, other):
        """The answers to the call and to those after it."""
        both = [copy.copy(one[0]), copy.copy(other[0])]
        return tuple([answer or at_once(one[1], other[1])] + [
            at_once(*(state_word(receiver, receiver.hear(data)) for receiver in both))
            for data in (b"", self.data, b"")])

    def is_named(self, answer):
        return "=OutOfMemory:15" in answer

    def holds(self, answers):
        return tuple(answers) in self.may


def state_word(receiver, steps):
    return " ".join([model.step_word(step) for step in steps] + [receiver.state()])


def at_once(one, other):
    """The answer of two receivers."""
    return one if one == other else f"{one} at once: {other}"


class Reserve(Plain):
    """Room for a receiver: without memory the state stays as it was."""

    def follow(self):
        return ["receiver.bytes -"] + super().follow()

    def holds(self, answers):
        first, state, *rest = answers
        return (first in (OUT, self.wanted) and state == self.wanted[len("ok "):]
                and rest == [self.wanted] + [wanted for _, wanted in self.behind])


class Feed(Plain):
    """A piece for a reader of messages: it fails for good, and delivers what was completed before; or memory ran out
    for the answer itself, with the piece read or not."""

    def __init__(self, case, place):
        super().__init__(case, place)
        self.before = b"".join(model.bytes_of(call.split(" ")[1]) for call, _ in behind_new(case[:place]))
        self.piece = model.bytes_of(self.call.split(" ")[1])

    def follow(self):
        return ["message.feed -", self.call, "message.finish"]

    def reading(self, stream):
        """What a reader that has read a stream answers to the calls after it."""
        answers = model.Answers()
        answers.stream = stream
        return [answers.answer(call) for call in self.follow()]

    def holds(self, answers):
        first, *rest = answers
        refused = self.refusal(first)
        if refused:
            return self.fits(*refused) and rest == self.failed(refused[1])
        if first != OUT:
            after = first == self.wanted or is_without_texts(first, self.wanted)
            return after and rest == self.reading(self.before + self.piece)
        failed = re.search(r" fault=(\d+)\.OutOfMemory ", rest[0])
        may = [self.reading(self.before), self.reading(self.before + self.piece)]
        return rest in (may + [self.failed(int(failed[1]))] if failed else may)

    def refusal(self, answer):
        """How many messages a failed call delivered, and the place of its record."""
        found = re.search(r"(?:^| )fault=(\d+)\.OutOfMemory held=0$", answer)
        return (answer[:found.start()], int(found[1])) if found else None

    def is_named(self, answer):
        return self.refusal(answer) is not None or super().is_named(answer)

    def failed(self, place):
        word = f"fault={place}.OutOfMemory"
        return [f"messages=0 {word} held=0"] * 2 + [word.replace("=", " ")]

    def fits(self, messages, place):
        """Whether these messages are the first of the wanted ones, and the place is one of the next. The later the
        growth that fails, the more messages are delivered, or as many."""
        wanted = split_messages(self.wanted.rsplit(" fault=", 1)[0])
        given = split_messages(messages)
        stream = model.read_stream(self.before + self.piece)
        new = stream.messages[len(model.read_stream(self.before).messages):]
        sizes = [len(message.records) for message in new] + [len(stream.open)]
        is_later = (len(given), place) >= self.last
        self.last = (len(given), place)
        return is_later and given == wanted[:len(given)] and 1 <= place <= sizes[len(given)] + 1


    def comes_far(self):
        """Whether it kept all messages but the last when the last growths failed: none that was whole is lost."""
        wanted = split_messages(self.wanted.rsplit(" fault=", 1)[0])
        return self.last[0] >= len(wanted) - 1


class Read(Feed):
    """A whole stream at once."""

    def follow(self):
        return Plain.follow(self)

    def refusal(self, answer):
        found = re.search(r"(?:^| )fault=(\d+)\.OutOfMemory$", answer)
        return (answer[:found.start()], int(found[1])) if found else None

    def holds(self, answers):
        refused = self.refusal(answers[0])
        if refused:
            return self.fits(*refused) and answers[1:] == self.full()
        return Plain.holds(self, answers)

    def full(self):
        return [self.wanted] + [wanted for _, wanted in self.behind]


def behind_new(case):
    """The feeds of a case since its last new reader."""
    feeds = []
    for call, wanted in case:
        feeds = [] if call == "message.new" else feeds
        if call.startswith("message.feed "):
            feeds.append((call, wanted))
    return feeds


def split_messages(text):
    """The messages of an answer."""
    return text.split(" message ")[1:]


TRIALS = {"sender.start": Start, "receiver.bytes": Hear, "receiver.reserve": Reserve, "message.build": Build,
          "message.feed": Feed, "message.read": Read}
