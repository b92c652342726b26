"""The calls of conformance rows on the link, answered through the library for C: frames, streams, texts, both ends
and the link between them. test_rows.py asks them, and says what is compared."""
import collections

import model
from lislink import (
    FrameFault,
    Kind,
    LinkError,
    Note,
    Outcome,
    Phase,
    Readiness,
    Receiver,
    Scanner,
    Sender,
    Status,
    frame_bytes,
)
from model import ACK, ENQ, EOT, LF, STX, bytes_of, word_of
from tests.ffi import rows_both

PHASES = {Phase.NEUTRAL: "Neutral", Phase.AWAIT_LINE: "AwaitLine", Phase.BUSY: "Busy", Phase.CONTENTION: "Contention",
          Phase.AWAIT_REPLY: "AwaitReply"}
OUTCOMES = {Outcome.NONE: "none", Outcome.DONE: "Done", Outcome.TIMED_OUT: "TimedOut", Outcome.SIX_TRIES: "SixTries",
            Outcome.RESTARTED: "Restarted"}
NOTES = {Note.OPENED: "Opened", Note.NOT_READY: "NotReady", Note.ENDED: "Ended", Note.ACCEPTED: "Accepted.{}",
         Note.DUPLICATE: "Duplicate.{}", Note.OUT_OF_TURN: "OutOfTurn.{}", Note.NO_ROOM: "NoRoom",
         Note.TEXT_TOO_LONG: "TooLong", Note.TIMED_OUT: "TimedOut"}
FAULTS = {FrameFault.TOO_LONG: "TooLong", FrameFault.SHAPE: "Shape", FrameFault.NUMBER: "Number",
          FrameFault.FORBIDDEN: "Text.{}", FrameFault.SUM: "Checksum"}
EMITTED = {b"": "Nothing", b"\x05": "Enq", b"\x04": "Eot", b"\x15": "Nak"}
READY = {"ready": Readiness.READY, "busy": Readiness.BUSY, "contending": Readiness.CONTENDING}


class Unknown(Exception):
    """A call that the library has not."""


def frame_word(number, last, text):
    return f"{number}:{'end' if last else 'more'}:{word_of(text)}"


def emit_word(data):
    """What a sender put on the link; a frame's bytes are read by the model."""
    if data in EMITTED:
        return EMITTED[data]
    is_whole = data[0] == STX and data[-1] == LF
    return model.signal_word(model.read_frame(data[1:-1], model.USUAL) if is_whole else "Shape")


def signal_word(signal):
    if signal.kind in (Kind.ENQ, Kind.EOT):
        return signal.kind.name
    if signal.kind is Kind.BAD_FRAME:
        return "bad:" + FAULTS[signal.fault].format(signal.place)
    return "frame:" + frame_word(signal.number, signal.last, signal.text)


def step_word(place, step):
    note = ("Refused." + FAULTS[FrameFault(step.detail)].format(step.place) if step.note is Note.REFUSED
            else NOTES[step.note].format(step.detail))
    text = "" if step.text is None else ":" + word_of(step.text)
    return f"{place}={note}:{step.reply.hex() or 'none'}{text}"


def text_fault(error):
    known = {Status.TOO_LONG: "TooLong", Status.FORBIDDEN: f"Forbidden.{error.place}"}
    return known.get(error.status, error.status.name)


def texts_of(word):
    return [] if word == "none" else [bytes_of(text) for text in word.split(",")]


def begun(sender, texts):
    """What a sender emits when it is started with texts, or why one of them is rejected."""
    for index, text in enumerate(texts):
        try:
            sender.add_text(text)
        except LinkError as error:
            return f"fault {text_fault(error)}" if index == len(texts) - 1 else f"fault of text {index}"
    return emit_word(sender.start(is_quiet=True))


class Session:
    """What a session was started with, and what became of it, in the words of the rows."""

    def __init__(self, texts):
        self.texts, self.sent, self.accepted, self.handed = texts, [], [], []
        self.acknowledged, self.outcome = 0, Outcome.NONE

    def word(self):
        sent, accepted, handed = (",".join(words) or "none" for words in (self.sent, self.accepted, self.handed))
        return (f"session texts={self.texts} sent={sent} accepted={accepted} acknowledged={self.acknowledged} "
                f"handed={handed} outcome={OUTCOMES[self.outcome]}")


class Link:
    """A link between a sender and a receiver of the library. What is on its way, and what comes of an event, is in
    conformance/README.md; whether damage may happen, by the model, from the bytes that the receiver heard."""

    def __init__(self):
        self.sender, self.receiver, self.heard = Sender(), Receiver(), b""
        # A unit is its bytes with the number of its session. Of those at the front 'late' will be answered too late.
        self.units, self.replies, self.late = collections.deque(), collections.deque(), 0
        self.sessions, self.opener = [], 0

    def word(self):
        return " ".join([f"sessions={len(self.sessions)}"] + [session.word() for session in self.sessions])

    def happen(self, event):
        name, *words = event.split(":")
        EVENTS[name](self, *words)

    def start(self, texts):
        try:
            for text in texts_of(texts):
                self.sender.add_text(text)
            emitted = self.sender.start(is_quiet=True)
        except LinkError:
            self.sender.clear()
            return
        self.sessions.append(Session(texts))
        self.put(emitted)

    def put(self, emitted):
        """The sender has made a step: its session follows, and ENQ, EOT or a frame goes on the link."""
        if self.sessions:
            session = self.sessions[-1]
            session.acknowledged, session.outcome = self.sender.acknowledged, self.sender.outcome
        if EMITTED.get(emitted) not in ("Nothing", "Nak"):
            self.units.append((len(self.sessions) - 1, emitted))

    def forget(self):
        """No reply to a unit on its way comes any more."""
        self.replies.clear()
        self.late = len(self.units)

    def deliver(self):
        if self.units:
            number, unit = self.units.popleft()
            self.hear(number, unit, unit)

    def deliver_no_room(self):
        self.receiver.set_room(False)
        self.deliver()
        self.receiver.set_room(True)

    def damage(self, data):
        data, place = bytes_of(data), len(self.heard)
        signals = [signal for _, signal in model.signals(self.heard + data, model.USUAL, place)]
        if self.units and self.is_noticed(signals):
            self.hear(*self.units.popleft(), data)

    def is_noticed(self, signals):
        """Whether the front unit may be damaged so: nothing is heard in its place or, of a frame, one bad frame."""
        is_frame = self.units[0][1] not in EMITTED
        return not signals or is_frame and len(signals) == 1 and isinstance(signals[0], str)

    def lose(self):
        if self.units:
            self.hear(*self.units.popleft(), b"")

    def hear(self, number, unit, data):
        """These bytes come in the place of a unit, which is on the link no more."""
        self.heard = model.from_last_mark(self.heard + data)
        for step in self.receiver.hear(data):
            if step.note is Note.OPENED:
                self.opener = number
            if step.note is Note.ACCEPTED:
                # The frame is the unit's; its number is what the receiver reports.
                word = emit_word(unit).removeprefix("frame:")
                self.sessions[self.opener].accepted.append(f"{step.detail}{word[1:]}")
            if step.text is not None:
                self.sessions[self.opener].handed.append(word_of(step.text))
            if not self.late:
                self.replies.extend(step.reply)
        self.late = max(0, self.late - 1)

    def reply(self):
        if self.replies:
            self.come(self.replies.popleft())

    def damage_reply(self, byte):
        byte = int(byte, 16)
        if self.replies and byte not in (ACK, EOT):
            self.replies.popleft()
            self.come(byte)

    def come(self, byte):
        """The sender gets a reply. A frame is in what was sent once: the next one is due when it is acknowledged."""
        emitted = self.sender.reply(byte)
        if emitted not in EMITTED:
            frame, sent = emit_word(emitted).removeprefix("frame:"), self.sessions[-1].sent
            if byte in (ACK, EOT) or sent[-1:] != [frame]:
                sent.append(frame)
        self.put(emitted)

    def lose_reply(self):
        if self.replies:
            self.replies.popleft()

    def sender_timer(self):
        if self.sender.phase in (Phase.AWAIT_LINE, Phase.AWAIT_REPLY):
            self.forget()
        self.put(self.sender.timer())

    def receiver_timer(self):
        self.replies.extend(self.receiver.timer().reply)

    def restart_sender(self):
        self.forget()
        self.sender.restart()
        self.put(b"")

    def restart_receiver(self):
        self.receiver.restart()
        self.heard = b""


class LateLink(Link):
    """The same on a line that answers late: a reply to what is on its way comes still, a session starts only where
    nothing is on its way, and the line may be connected anew."""

    def start(self, texts):
        if not self.units and not self.replies:
            super().start(texts)

    def forget(self):
        pass

    def reconnect(self):
        self.units.clear()
        self.replies.clear()
        self.restart_receiver()


EVENTS = {"Start": lambda link, texts: link.start(texts), "Reconnect": LateLink.reconnect,
          "Deliver": Link.deliver, "DeliverNoRoom": Link.deliver_no_room, "Damage": Link.damage,
          "Lose": Link.lose, "Reply": Link.reply, "DamageReply": Link.damage_reply, "LoseReply": Link.lose_reply,
          "SenderTimer": Link.sender_timer, "ReceiverTimer": Link.receiver_timer,
          "RestartSender": Link.restart_sender, "RestartReceiver": Link.restart_receiver,
          "Ready": lambda link: link.receiver.set_ready(Readiness.READY),
          "Busy": lambda link: link.receiver.set_ready(Readiness.BUSY),
          "Contending": lambda link: link.receiver.set_ready(Readiness.CONTENDING)}


def played(link, events):
    for event in events:
        link.happen(event)
    return link.word()


class Ends:
    """Answers the calls of a case on the link."""

    def __init__(self):
        self.sender, self.receiver = Sender(), Receiver()

    def is_right(self, name, words, wanted):
        return getattr(self, name)(*words) == wanted

    def frame_read(self, stretch):
        data = bytes_of(stretch)
        if {STX, ENQ, EOT, LF} & set(data):
            raise Unknown("a stretch that a stream is not read as")
        with Scanner() as scanner:
            told = [signal_word(signal) for signal in scanner.feed(bytes([STX]) + data + bytes([LF]))]
        return " ".join(told).replace("frame:", "").replace("bad:", "fault ")

    def frame_make(self, number, last, text):
        text = bytes_of(text)
        try:
            data = frame_bytes(int(number), last == "end", text)
        except LinkError as error:
            return "none" if error.status is Status.BAD_NUMBER else f"fault {text_fault(error)}"
        return f"{frame_word(int(number), last == 'end', text)} {data.hex()}"

    def frame_scan(self, cut, data):
        cut, data = int(cut), bytes_of(data)
        with Scanner() as scanner:
            told = list(scanner.feed_placed(data[:cut]))
            told += [(place + min(cut, len(data)), signal) for place, signal in scanner.feed_placed(data[cut:])]
        return " ".join(f"{place}={signal_word(signal)}" for place, signal in told) or "none"

    def text_check(self, text):
        with Sender() as sender:
            told = begun(sender, [bytes_of(text)])
        return "ok" if told == "Enq" else told

    def text_split(self, number, text):
        """The frames of a text that is the last of a session in which each frame is acknowledged. Empty texts before
        it, each one frame, give it its number."""
        ahead = (int(number) - 1) % 8
        with Sender() as sender:
            told = [begun(sender, [b""] * ahead + [bytes_of(text)])]
            while sender.phase is not Phase.NEUTRAL:
                told.append(emit_word(sender.reply(ACK)))
        if (told[0], told[-1]) != ("Enq", "Eot"):
            return " ".join(told)
        return " ".join(word.removeprefix("frame:") for word in told[1 + ahead:-1])

    def link_play(self, *events):
        return played(Link(), events)

    def late_play(self, *events):
        return played(LateLink(), events)

    def both_play(self, *events):
        return rows_both.played(events)

    def sender_state(self):
        one = self.sender
        return f"{PHASES[one.phase]} acknowledged={one.acknowledged} outcome={OUTCOMES[one.outcome]}"

    def sender_new(self):
        self.sender = Sender()
        return self.sender_state()

    def sender_start(self, texts):
        bad = None
        for index, text in enumerate(texts_of(texts)):
            try:
                self.sender.add_text(text)
            except LinkError as error:
                bad = bad or f"BadText.{index}.{text_fault(error)}"
        emitted = f"refused:{bad}:{texts}"
        # A text is rejected as it is added, and the start says first whether a session goes on.
        if not bad or self.sender.phase is not Phase.NEUTRAL:
            try:
                emitted = emit_word(self.sender.start(is_quiet=True))
            except LinkError as error:
                why = {Status.IN_SESSION: "InSession", Status.NO_TEXT: "NoText"}[error.status]
                emitted = f"refused:{why}:{texts}"
        self.sender.clear()
        return f"{emitted} {self.sender_state()}"

    def sender_reply(self, byte):
        return f"{emit_word(self.sender.reply(int(byte, 16)))} {self.sender_state()}"

    def sender_timer(self):
        return f"{emit_word(self.sender.timer())} {self.sender_state()}"

    def sender_restart(self):
        self.sender.restart()
        return self.sender_state()

    def receiver_state(self, steps=()):
        one = self.receiver
        state = f"{'open' if one.is_open else 'shut'} accepted={one.accepted} held={one.held}"
        return " ".join([step_word(*step) for step in steps] + [state])

    def receiver_new(self):
        self.receiver = Receiver()
        return self.receiver_state()

    def receiver_careful(self):
        self.receiver = Receiver(careful=True)
        return self.receiver_state()

    def receiver_noise(self):
        return f"noise={self.receiver.noise}"

    def receiver_bytes(self, data):
        return self.receiver_state(list(self.receiver.hear_placed(bytes_of(data))))

    def receiver_timer(self):
        step = self.receiver.timer()
        return self.receiver_state([(0, step)] if step.note else [])

    def receiver_restart(self):
        self.receiver.restart()
        return self.receiver_state()

    def receiver_ready(self, how):
        self.receiver.set_ready(READY[how])
        return self.receiver_state()

    def receiver_room(self, how):
        self.receiver.set_room(how == "on")
        return self.receiver_state()

    def receiver_reserve(self, size):
        self.receiver.reserve(int(size))
        return "ok " + self.receiver_state()
