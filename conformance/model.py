"""A plain model of the link, of captures and of the commands, for tests to compare programs with; that of records is in
record_model.py, that of two stations in station_model.py.

They are written from docs/lislink.md and docs/protocol.md, by the definitions and not by any program:
a stream's signals are looked for by places, a message is read whole. Speed is no aim, but each function is linear in
its input.

    conformance/run 'python3 conformance/model.py answer' headers records scanner receiver sender texts link late both
    conformance/run 'python3 conformance/model.py' commands

Calls that it does not know it answers by 'no call'.
"""
import os
import re
import sys
from collections import namedtuple

from record_model import (Refused, Run, check, delimiter_fault, end_fault, fed_word, read_header, read_record, read_stream,
                          record_word, results)
from station_model import TwoWay

STX, ETX, EOT, ENQ, ACK, LF, CR, NAK, ETB = 2, 3, 4, 5, 6, 10, 13, 21, 23
USUAL, LONG = 240, 63993
LONGEST_TEXT, LONGEST_LINE = 1048576, 4096
FORBIDDEN = frozenset([*range(1, 7), LF, *range(0x10, 0x18)])
FORBIDDEN_BYTE = re.compile(rb"[\x01-\x06\x0a\x10-\x17]")


# Frames and signals

Frame = namedtuple("Frame", "number last text")


def text_fault(text, limit):
    """Why bytes are no text of at most so many bytes; None where they are one."""
    if len(text) > limit:
        return "TooLong"
    found = FORBIDDEN_BYTE.search(text)
    return f"Forbidden.{found.start()}" if found else None


def read_frame(stretch, limit):
    """The frame that the bytes between STX and LF are, or the name of the first fault."""
    if len(stretch) > limit + 5:
        return "TooLong"
    if len(stretch) < 5 or stretch[-1] != CR or stretch[-4] not in (ETB, ETX):
        return "Shape"
    if not 0x30 <= stretch[0] <= 0x37:
        return "Number"
    text = stretch[1:-4]
    found = FORBIDDEN_BYTE.search(text)
    if found:
        return f"Text.{found.start()}"
    digits = stretch[-3:-1]
    if not re.fullmatch(rb"[0-9A-Fa-f]{2}", digits) or int(digits, 16) != sum(stretch[:-3]) % 256:
        return "Checksum"
    return Frame(stretch[0] - 0x30, stretch[-4] == ETX, text)


def signals(stream, limit, heard=0):
    """The signals of a stream: (place, signal) for each place from 'heard' on. A signal is ENQ, EOT, a Frame, or the
    name of a fault. The nearest earlier byte among STX, EOT, ENQ and LF decides whether an LF ends a frame."""
    nearest = None
    for mark in re.finditer(rb"[\x02\x04\x05\x0a]", stream):
        place, byte = mark.start(), mark[0][0]
        if place >= heard:
            if byte in (ENQ, EOT):
                yield place, byte
            elif byte == LF and nearest is not None and stream[nearest] == STX:
                yield place, read_frame(stream[nearest + 1:place], limit)
        nearest = place


def from_last_mark(stream):
    """The part of a stream on which signals of what comes after it may depend."""
    return stream[max(stream.rfind(mark) for mark in (b"\x02", b"\x04", b"\x05", b"\x0a")):] if stream else stream


def frames(texts, limit, number=1):
    """The frames of texts in turn, numbered through: full ones, and a last one for each text."""
    made = []
    for text in texts:
        pieces = [text[place:place + limit] for place in range(0, len(text), limit)] or [b""]
        for place, piece in enumerate(pieces, 1):
            made.append(Frame((number + len(made)) % 8, place == len(pieces), piece))
    return made


# The sender

MOST_TRIES = 6


class Sender:
    """The analyzer's sender, by the table of docs/protocol.md. Each event answers what is emitted."""

    def __init__(self, limit):
        self.limit, self.phase, self.acknowledged, self.outcome = limit, "Neutral", 0, "none"
        self.frames, self.tries = [], 0

    def state(self):
        return f"{self.phase} acknowledged={self.acknowledged} outcome={self.outcome}"

    def start_fault(self, texts):
        """Why a start is rejected, or None."""
        if self.phase != "Neutral":
            return "InSession"
        if not texts:
            return "NoText"
        faults = ((place, text_fault(text, LONGEST_TEXT)) for place, text in enumerate(texts))
        return next((f"BadText.{place}.{fault}" for place, fault in faults if fault), None)

    def start(self, texts):
        self.frames, self.acknowledged, self.outcome = frames(texts, self.limit), 0, "none"
        return self.goes_to("AwaitLine", "Enq")

    def goes_to(self, phase, emitted):
        self.phase = phase
        return emitted

    def over(self, outcome):
        self.outcome = outcome
        return self.goes_to("Neutral", "Eot")

    def send(self, tries):
        self.tries = tries
        return self.goes_to("AwaitReply", "frame:" + frame_word(self.frames[self.acknowledged]))

    def reply(self, byte):
        if self.phase == "Neutral":
            return "Nak" if byte == ENQ else "Nothing"
        if self.phase == "AwaitLine":
            other = "Contention" if byte == ENQ else "Busy"
            return self.send(1) if byte == ACK else self.goes_to(other, "Nothing")
        if self.phase != "AwaitReply":
            return "Nothing"
        if byte in (ACK, EOT):
            self.acknowledged += 1
            return self.send(1) if self.acknowledged < len(self.frames) else self.over("Done")
        return self.send(self.tries + 1) if self.tries < MOST_TRIES else self.over("SixTries")

    def timer(self):
        if self.phase == "Neutral":
            return "Nothing"
        return self.goes_to("AwaitLine", "Enq") if self.phase in ("Busy", "Contention") else self.over("TimedOut")

    def restart(self):
        if self.phase != "Neutral":
            self.over("Restarted")


# The receiver

Step = namedtuple("Step", "place note reply text")


class Receiver:
    """The computer's receiver, by the table of docs/protocol.md. `refusals` has the places of growths that fail, counted
    over accepted frames whose text isn't empty."""

    def __init__(self, limit, refusals=()):
        self.limit, self.refusals, self.growths = limit, refusals, 0
        self.accepted = 0
        self.restart()

    def restart(self):
        self.is_open, self.ready, self.room, self.held, self.tail = False, "ready", True, b"", b""

    def state(self):
        return f"{'open' if self.is_open else 'shut'} accepted={self.accepted} held={len(self.held)}"

    def hear(self, data):
        """The steps of bytes that aren't quiet."""
        stream, before = self.tail + data, len(self.tail)
        self.tail = from_last_mark(stream)
        steps = (self.step(place - before, signal) for place, signal in signals(stream, self.limit, before))
        return [step for step in steps if step]

    def timer(self):
        steps = [Step(0, "TimedOut", None, None)] if self.is_open else []
        self.close()
        return steps

    def close(self):
        self.is_open, self.held = False, b""

    def step(self, place, signal):
        if signal == ENQ:
            return self.asked(place)
        if not self.is_open:
            return None
        if signal == EOT:
            self.close()
            return Step(place, "Ended", None, None)
        if isinstance(signal, str):
            return Step(place, f"Refused.{signal}", NAK, None)
        return self.frame(place, signal)

    def asked(self, place):
        if self.ready == "ready":
            self.is_open, self.accepted, self.held = True, 0, b""
            return Step(place, "Opened", ACK, None)
        reply = NAK if self.ready == "busy" else ENQ
        self.ready = "ready" if self.ready == "contending" else self.ready
        self.close()
        return Step(place, "NotReady", reply, None)

    def frame(self, place, frame):
        if self.accepted > 0 and frame.number == self.accepted % 8:
            return Step(place, f"Duplicate.{frame.number}", ACK, None)
        refused = self.refused(frame)
        if refused:
            return Step(place, refused, NAK, None)
        self.accepted += 1
        self.held += frame.text
        text, note = None, f"Accepted.{frame.number}"
        if frame.last:
            text, self.held = self.held, b""
        return Step(place, note, ACK, text)

    def refused(self, frame):
        """Why a frame that is no duplicate isn't accepted."""
        if frame.number != (self.accepted + 1) % 8:
            return f"OutOfTurn.{frame.number}"
        if not self.room:
            return "NoRoom"
        if len(self.held) + len(frame.text) > LONGEST_TEXT:
            return "TooLong"
        if frame.text:
            self.growths += 1
            if self.growths in self.refusals:
                return "OutOfMemory"
        return None


MARK = re.compile(rb"[\x02\x04\x05\x0a]")


class CarefulReceiver(Receiver):
    """A receiver that hears carefully, by docs/protocol.md. While the line is open ENQ ends the session as EOT does, with
    no reply, and what came before it is forgotten. A frame goes from its STX to the next LF, so an STX within it is one of
    its bytes, which no frame may hold. `noise` counts each such ENQ and STX on an open line."""

    def restart(self):
        super().restart()
        self.unfinished = None

    def __init__(self, limit, refusals=()):
        super().__init__(limit, refusals)
        self.noise = 0

    def hear(self, data):
        steps, begin = [], 0
        for mark in MARK.finditer(data):
            place, byte = mark.start(), mark[0][0]
            if byte == STX and self.unfinished is not None:
                self.noise += self.is_open
            elif byte == STX:
                self.unfinished, begin = b"", place + 1
            elif byte == LF and self.unfinished is not None:
                steps.append(self.step(place, read_frame(self.unfinished + data[begin:place], self.limit)))
                self.unfinished = None
            elif byte != LF:
                self.unfinished = None
                steps.append(self.ends_or_begins(place, byte))
        if self.unfinished is not None:
            self.unfinished += data[begin:]
        return [step for step in steps if step]

    def ends_or_begins(self, place, byte):
        """The step of ENQ or EOT."""
        if not self.is_open:
            return self.step(place, byte)
        self.noise += byte == ENQ
        return self.step(place, EOT)


# The link between them

class Session:
    """What a session had to send, and what came of it."""

    def __init__(self, texts):
        self.texts, self.sent, self.accepted, self.acknowledged, self.handed = texts, [], [], 0, []
        self.outcome = "none"

    def word(self):
        sent, accepted = (",".join(map(frame_word, made)) or "none" for made in (self.sent, self.accepted))
        return (f"session texts={texts_word(self.texts)} sent={sent} accepted={accepted} "
                f"acknowledged={self.acknowledged} handed={texts_word(self.handed)} outcome={self.outcome}")


class Link:
    """A link between a new sender and a new receiver, by docs/protocol.md. Each event is a method. On a line that answers
    late a reply that comes after the sender's timer or restart is delivered like any other, a session starts only on an
    empty link, and the line can be connected anew."""

    def __init__(self, limit, is_late):
        self.limit, self.is_late = limit, is_late
        self.sender, self.receiver = Sender(limit), Receiver(limit)
        self.units, self.replies, self.mute = [], [], 0  # a unit: its session, and 'Enq', 'Eot' or a Frame
        self.sessions, self.current, self.opened = [], 0, 0

    def happen(self, word):
        """One event, if it is possible."""
        name, *argument = word.split(":")
        getattr(self, name)(*argument)

    def Start(self, texts):
        texts = texts_of(texts)
        if self.is_late and (self.units or self.replies) or self.sender.start_fault(texts):
            return
        self.current = len(self.sessions)
        self.sessions.append(Session(texts))
        self.emit(self.sender.start(texts))

    def Deliver(self):
        if self.units:
            self.comes(unit_bytes(self.units[0][1]))

    def DeliverNoRoom(self):
        self.receiver.room = False
        self.Deliver()
        self.receiver.room = True

    def Damage(self, data):
        if self.units and self.is_noticed(bytes_of(data)):
            self.comes(bytes_of(data))

    def is_noticed(self, data):
        """Whether bytes in the place of the front unit are no signal, or one bad frame in the place of a frame."""
        tail = self.receiver.tail
        heard = [signal for _, signal in signals(tail + data, self.limit, len(tail))]
        is_bad_frame = len(heard) == 1 and isinstance(heard[0], str) and isinstance(self.units[0][1], Frame)
        return not heard or is_bad_frame

    def Lose(self):
        if self.units:
            self.comes(b"")

    def comes(self, data):
        """Bytes come in the place of the front unit; the replies to it are dropped if they would come too late."""
        session, load = self.units.pop(0)
        caused = []
        for step in self.receiver.hear(data):
            if step.note == "Opened":
                self.opened = session
            if step.note.startswith("Accepted"):
                self.sessions[self.opened].accepted.append(load)
            if step.text is not None:
                self.sessions[self.opened].handed.append(step.text)
            if step.reply is not None:
                caused.append(step.reply)
        if self.mute > 0:
            self.mute -= 1
        else:
            self.replies += caused

    def Reply(self):
        if self.replies:
            self.emit(self.sender.reply(self.replies.pop(0)))

    def DamageReply(self, byte):
        if self.replies and int(byte, 16) not in (ACK, EOT):
            self.replies.pop(0)
            self.emit(self.sender.reply(int(byte, 16)))

    def LoseReply(self):
        del self.replies[:1]

    def SenderTimer(self):
        if self.sender.phase in ("AwaitLine", "AwaitReply"):
            self.drop_replies()
        self.emit(self.sender.timer())

    def RestartSender(self):
        self.drop_replies()
        self.sender.restart()
        self.emit("Nothing")

    def drop_replies(self):
        """No reply to what is on its way comes any more; on a line that answers late it does."""
        if not self.is_late:
            self.replies, self.mute = [], len(self.units)

    def ReceiverTimer(self):
        self.receiver.timer()

    def RestartReceiver(self):
        self.receiver.restart()

    def Reconnect(self):
        self.units, self.replies = [], []
        self.receiver.restart()

    def Ready(self):
        self.receiver.ready = "ready"

    def Busy(self):
        self.receiver.ready = "busy"

    def Contending(self):
        self.receiver.ready = "contending"

    def emit(self, emitted):
        """The sender made a step: its session follows, and what it emits goes on the link."""
        if not self.sessions:
            return
        session = self.sessions[self.current]
        session.acknowledged, session.outcome = self.sender.acknowledged, self.sender.outcome
        if emitted in ("Enq", "Eot"):
            self.units.append((self.current, emitted))
        elif emitted.startswith("frame:"):
            frame = self.sender.frames[self.sender.acknowledged]
            if session.acknowledged == len(session.sent):
                session.sent.append(frame)
            self.units.append((self.current, frame))


def unit_bytes(load):
    """The bytes of a unit."""
    if not isinstance(load, Frame):
        return bytes([ENQ if load == "Enq" else EOT])
    body = bytes([0x30 + load.number]) + load.text + bytes([ETX if load.last else ETB])
    return bytes([STX]) + body + b"%02X" % (sum(body) % 256) + bytes([CR, LF])


# Captures

Line = namedtuple("Line", "number kind value")
HEX_LINE = re.compile(rb"([<>]) ((?:[0-9A-Fa-f]{2})+)")


def meaning(line, version):
    """What a line says: (kind, value), or None."""
    found = HEX_LINE.fullmatch(line)
    if found:
        return found[1].decode(), bytes.fromhex(found[2].decode())
    if line in (b"", b"T"):
        return line.decode(), None
    if version == 2 and line == b"R":
        return "R", None
    if version == 2 and line in (b"S ready", b"S busy", b"S contending"):
        return "S", line[2:].decode()
    return None


def capture(data, ended):
    """The lines of a capture up to the first malformed one, the version, and the number of the malformed one or
    None. If the input has not ended, a last line without LF doesn't count yet, unless it is too long."""
    *whole, rest = data.split(b"\n")
    if rest and (ended or len(rest) > LONGEST_LINE):
        whole.append(rest)
    version, lines = 1, []
    for number, line in enumerate(whole, 1):
        if len(line) > LONGEST_LINE:
            return lines, version, number
        line = line[:-1] if line.endswith(b"\r") else line
        if number == 1 and line == b"capture 2":
            version = 2
            continue
        told = meaning(line, version)
        if told is None:
            return lines, version, number
        lines.append(Line(number, *told))
    return lines, version, None


# Runs of commands

STOPPED = 3


def show(data, limit, ended=True):
    """'show': a line for each signal."""
    text = b"".join(show_line(signal) for _, signal in signals(data, limit))
    return Run(text, 0, "")


FRAME_CODES = {"TooLong": "F1", "Shape": "F2", "Number": "F3", "Text": "F4", "Checksum": "F5"}


def show_line(signal):
    if signal in (ENQ, EOT):
        return b"ENQ\n" if signal == ENQ else b"EOT\n"
    if isinstance(signal, str):
        name, *place = signal.split(".")
        return " ".join(["bad", FRAME_CODES[name], *place]).encode() + b"\n"
    words = ["frame", str(signal.number), "end" if signal.last else "more", str(len(signal.text))]
    return " ".join(words + [signal.text.hex()] * bool(signal.text)).encode() + b"\n"


def received(lines, limit):
    """What a receiver makes of a capture's lines: (line, steps) for each, the steps of '>' and 'T' lines."""
    receiver = Receiver(limit)
    for line in lines:
        steps = []
        if line.kind == ">":
            steps = receiver.hear(line.value)
        elif line.kind == "T":
            steps = receiver.timer()
        elif line.kind == "R":
            receiver.restart()
        elif line.kind == "S":
            receiver.ready = line.value
        yield line, steps


def stopped_at(refused):
    return Run(b"", STOPPED, f"lislink: K1 line {refused}")


def replay(data, limit, ended=True):
    """'replay': each text delivered, and each reply that differs."""
    lines, _, refused = capture(data, ended)
    output, replies, texts, differences = [], b"", 0, 0
    for line, steps in received(lines, limit):
        replies += bytes(step.reply for step in steps if step.reply is not None)
        for step in steps:
            if step.text is not None:
                texts += 1
                output.append(f"text {line.number} {len(step.text)}\n")
        if line.kind == "<":
            if replies != line.value:
                differences += 1
                output.append(f"difference {line.number} {line.value.hex()} {replies.hex() or '-'}\n")
            replies = b""
    if refused is None and ended:
        if replies:
            differences += 1
            output.append(f"difference end - {replies.hex()}\n")
        output.append(f"texts {texts} differences {differences}\n")
    whole = "".join(output).encode()
    if refused is not None:
        return stopped_at(refused)._replace(output=whole)
    return Run(whole, int(differences > 0), "")


def texts(data, limit, ended=True):
    """'texts': the bytes of the texts that are delivered."""
    lines, _, refused = capture(data, ended)
    whole = b"".join(step.text for _, steps in received(lines, limit) for step in steps if step.text is not None)
    return Run(whole, 0, "") if refused is None else stopped_at(refused)._replace(output=whole)


def upgrade(data, limit, ended=True):
    """'upgrade': the capture as one of version 2."""
    lines, version, refused = capture(data, ended)
    has_begun = lines or version == 2 or ended or refused is not None
    output = ["capture 2\n"] if has_begun and refused != 1 else []
    for line in lines:
        value = line.value.hex() if isinstance(line.value, bytes) else line.value
        output.append(" ".join([line.kind] + [value] * (value is not None)) + "\n")
    whole = "".join(output).encode()
    return Run(whole, 0, "") if refused is None else stopped_at(refused)._replace(output=whole)


# Commands

# A command: what makes its run, and the kind of its input, a key of the tests' inputs.
Command = namedtuple("Command", "run reads limit", defaults=(USUAL,))
COMMANDS = {"show": Command(show, "link"), "show --long": Command(show, "link", LONG),
            "replay": Command(replay, "capture"), "replay --long": Command(replay, "capture", LONG),
            "texts": Command(texts, "capture"), "texts --long": Command(texts, "capture", LONG),
            "upgrade": Command(upgrade, "capture"), "check": Command(check, "records"), "results": Command(results, "records")}


def run(command, data, ended=True):
    """A run of a command over all of its input, or over the front of it that came before a failed read."""
    one = COMMANDS[command]
    return one.run(data, one.limit, ended)


def ran_word(call):
    """What is answered to a row of a command."""
    _, *words, text = call.split(" ")
    ran = run(" ".join(words), bytes_of(text))
    return f"{ran.status} {word_of(ran.output)} {ran.error}".rstrip()


# Answers to the calls of rows

NO_CALL = "no call"


def bytes_of(word):
    return b"" if word == "-" else bytes.fromhex(word)


def word_of(data):
    return data.hex() or "-"


def texts_of(word):
    return [] if word == "none" else [bytes_of(text) for text in word.split(",")]


def texts_word(texts):
    return ",".join(map(word_of, texts)) or "none"


def frame_word(frame):
    return f"{frame.number}:{'end' if frame.last else 'more'}:{word_of(frame.text)}"


def signal_word(signal):
    if signal in (ENQ, EOT):
        return "ENQ" if signal == ENQ else "EOT"
    return f"bad:{signal}" if isinstance(signal, str) else f"frame:{frame_word(signal)}"


def step_word(step):
    reply = "none" if step.reply is None else f"{step.reply:02x}"
    return f"{step.place}={step.note}:{reply}" + (f":{word_of(step.text)}" if step.text is not None else "")


class Answers:
    """Answers the calls of rows that the model knows."""

    def __init__(self):
        self.limit, self.sender, self.receiver, self.stream = USUAL, Sender(USUAL), Receiver(USUAL), b""

    def answer(self, line):
        name, *words = line.split(" ")
        if name == "limit":
            self.limit = int(words[0])
            return "ok"
        call = getattr(self, name.replace(".", "_"), None)
        return call(*words) if call else NO_CALL

    def frame_read(self, stretch):
        read = read_frame(bytes_of(stretch), self.limit)
        return f"fault {read}" if isinstance(read, str) else frame_word(read)

    def frame_make(self, number, last, text):
        fault = text_fault(bytes_of(text), self.limit)
        if fault or int(number) > 7:
            return f"fault {fault}" if fault else "none"
        frame = Frame(int(number), last == "end", bytes_of(text))
        return f"{frame_word(frame)} {unit_bytes(frame).hex()}"

    def frame_scan(self, _, stream):
        told = signals(bytes_of(stream), self.limit)
        return " ".join(f"{place}={signal_word(signal)}" for place, signal in told) or "none"

    def text_check(self, text):
        fault = text_fault(bytes_of(text), LONGEST_TEXT)
        return f"fault {fault}" if fault else "ok"

    def text_split(self, number, text):
        fault = text_fault(bytes_of(text), LONGEST_TEXT)
        told = frames([bytes_of(text)], self.limit, int(number))
        return f"fault {fault}" if fault else " ".join(map(frame_word, told))

    def sender_new(self):
        self.sender = Sender(self.limit)
        return self.sender.state()

    def sender_start(self, texts):
        split = texts_of(texts)
        fault = self.sender.start_fault(split)
        emitted = f"refused:{fault}:{texts}" if fault else self.sender.start(split)
        return f"{emitted} {self.sender.state()}"

    def sender_reply(self, byte):
        return f"{self.sender.reply(int(byte, 16))} {self.sender.state()}"

    def sender_timer(self):
        return f"{self.sender.timer()} {self.sender.state()}"

    def sender_restart(self):
        self.sender.restart()
        return self.sender.state()

    def receiver_new(self):
        self.receiver = Receiver(self.limit)
        return self.receiver.state()

    def receiver_careful(self):
        self.receiver = CarefulReceiver(self.limit)
        return self.receiver.state()

    def receiver_noise(self):
        return f"noise={self.receiver.noise}"

    def receiver_bytes(self, data):
        return self.steps(self.receiver.hear(bytes_of(data)))

    def receiver_timer(self):
        return self.steps(self.receiver.timer())

    def receiver_restart(self):
        self.receiver.restart()
        return self.receiver.state()

    def receiver_ready(self, how):
        self.receiver.ready = how
        return self.receiver.state()

    def receiver_room(self, how):
        self.receiver.room = how == "on"
        return self.receiver.state()

    def receiver_reserve(self, _):
        return "ok " + self.receiver.state()

    def link_play(self, *events):
        return self.played(Link(self.limit, False), events)

    def late_play(self, *events):
        return self.played(Link(self.limit, True), events)

    def both_play(self, *events):
        line = TwoWay(self.limit, sys.modules[__name__])
        for event in events:
            line.happen(event)
        return line.word()

    def played(self, link, events):
        for event in events:
            link.happen(event)
        return " ".join([f"sessions={len(link.sessions)}"] + [session.word() for session in link.sessions])

    def steps(self, steps):
        return " ".join([step_word(step) for step in steps] + [self.receiver.state()])

    def record_delimiters(self, four):
        fault = delimiter_fault(bytes_of(four))
        return f"fault {fault}" if fault else four

    def record_header(self, text):
        read = read_header(bytes_of(text))
        return f"fault {read.why}" if isinstance(read, Refused) else f"{read[0].hex()} {record_word(read[1])}"

    def record_read(self, delimiters, text):
        read = read_record(bytes_of(text), bytes_of(delimiters))
        return f"fault {read.why}" if isinstance(read, Refused) else record_word(read)

    def message_new(self):
        self.stream = b""
        return "ok"

    def message_feed(self, piece):
        before = read_stream(self.stream)
        self.stream += bytes_of(piece)
        after = read_stream(self.stream)
        return f"{fed_word(after.messages[len(before.messages):], after.fault)} held={after.held}"

    def message_finish(self):
        fault = end_fault(read_stream(self.stream))
        return f"fault {fault}" if fault else "ok"

    def message_read(self, data):
        stream = read_stream(bytes_of(data))
        return fed_word(stream.messages, end_fault(stream))


def main(words):
    """Answers calls a line, or runs a command over standard input."""
    if words == ["answer"]:
        answers = Answers()
        for line in sys.stdin.read().split("\n")[:-1]:
            print(answers.answer(line) if line else "")
        return 0
    if " ".join(words) not in COMMANDS:
        print("usage: lislink COMMAND", file=sys.stderr)
        return 2
    ran = run(" ".join(words), sys.stdin.buffer.read())
    with os.fdopen(1, "wb", closefd=False) as output:
        output.write(ran.output)
    if ran.error:
        print(ran.error, file=sys.stderr)
    return ran.status


if __name__ == "__main__":
    sys.exit(main(sys.argv[1:]))
