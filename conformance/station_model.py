"""A plain model of two stations on one line, by the section of docs/protocol.md on both ways; the two ends of a station are
those of model.py, which answers the rows of the kind 'both' by it.

Seen from a station, 'out' is what it has sent and the other one has not heard.
"""
from collections import namedtuple

EOT, ENQ, ACK, NAK = 4, 5, 6, 21
AWAITING, WAITING = ("AwaitLine", "AwaitReply"), ("Busy", "Contention")

# What is on its way: of which session, its load ('Enq', 'Eot', a frame, or 'Reply'), its bytes, and whether the reply to
# it comes too late.
Item = namedtuple("Item", "session load bytes is_late")


class Station:
    """One side of the line: its ends, its sessions, the other side's session that has the line, and what it sent."""

    def __init__(self, sender, receiver):
        self.sender, self.receiver, self.asks_turn = sender, receiver, False
        self.sessions, self.current, self.opened, self.out = [], 0, 0, []

    def awaits_reply(self):
        return self.sender.phase in AWAITING


class TwoWay:
    """A line between two new stations. An event is a word: the side, 'A' or 'C', a point and what happens there."""

    def __init__(self, limit, model):
        self.model, self.limit = model, limit
        self.sides = {side: Station(model.Sender(limit), model.Receiver(limit)) for side in "AC"}

    def happen(self, word):
        """One event, if it is possible."""
        side, event = word.split(".", 1)
        name, *argument = event.split(":")
        near, far = self.sides[side], self.sides["CA"["AC".index(side)]]
        getattr(self, name)(near, far, *argument)

    # What a station does

    def Start(self, near, far, texts):
        texts = self.model.texts_of(texts)
        if not near.receiver.is_open and not near.sender.start_fault(texts):
            near.sender.start(texts)
            self.asks(near, texts)

    def asks(self, near, texts):
        """ENQ goes out, in a session of its own."""
        near.current = len(near.sessions)
        near.sessions.append(self.model.Session(texts))
        self.emit(near, "Enq")

    def Timer(self, near, far):
        phase = near.sender.phase
        if near.receiver.is_open:
            near.receiver.timer()
            near.asks_turn = False
        elif phase in AWAITING:
            self.forget(near, far)
            self.emit(near, near.sender.timer())
        elif phase in WAITING:
            self.forget(near, far)
            near.sender.timer()
            self.asks(near, near.sessions[near.current].texts)

    def GiveUp(self, near, far):
        self.forget(near, far)
        near.sender.restart()
        self.emit(near, "Nothing")

    def CloseLine(self, near, far):
        ready = near.receiver.ready
        near.receiver.restart()
        near.receiver.ready = ready
        near.asks_turn = False

    def Restart(self, near, far):
        self.GiveUp(near, far)
        near.receiver.restart()
        near.asks_turn = False

    def Ready(self, near, far):
        near.receiver.ready = "ready"

    def Busy(self, near, far):
        near.receiver.ready = "busy"

    def AskTurn(self, near, far):
        near.asks_turn = near.receiver.is_open

    # What is on the line

    def Arrive(self, near, far):
        if far.out:
            self.comes(near, far, far.out.pop(0), None)

    def Lose(self, near, far):
        del far.out[:1]

    def Damage(self, near, far, data):
        data = self.model.bytes_of(data)
        if far.out and self.is_noticed(near, far.out[0], data):
            self.comes(near, far, far.out.pop(0), data)

    def is_noticed(self, near, item, data):
        """Whether these bytes in the item's place are noticed. To a sender that awaits a reply no byte is ACK, and none
        after the first ENQ; to a receiver they are no signal or, in place of a frame, one bad frame."""
        if item.load == "Reply" and len(data) != 1:
            return False
        if near.awaits_reply():
            return ACK not in data and ENQ not in data[1:]
        tail = near.receiver.tail
        heard = [signal for _, signal in self.model.signals(tail + data, self.limit, len(tail))]
        is_frame = isinstance(item.load, self.model.Frame)
        return not heard or is_frame and len(heard) == 1 and isinstance(heard[0], str)

    def comes(self, near, far, item, data):
        """Bytes come in the place of an item, its own where there are no others."""
        for byte in item.bytes if data is None else data:
            if near.awaits_reply():
                is_turn = near.sender.phase == "AwaitReply" and byte == EOT
                self.emit(near, near.sender.reply(NAK if is_turn else byte))
            else:
                for step in near.receiver.hear(bytes([byte])):
                    self.heard(near, far, item, step)

    def heard(self, near, far, item, step):
        """The receiver took a step that isn't quiet."""
        reply, is_accepted = step.reply, step.note.startswith("Accepted")
        if step.note == "Opened" and item.load != "Reply":
            near.opened = item.session
        if is_accepted:
            session = far.sessions[near.opened]
            session.accepted.append(item.load)
            session.handed += [] if step.text is None else [step.text]
            reply = EOT if near.asks_turn else reply
        if is_accepted or step.note in ("Opened", "NotReady", "Ended"):
            near.asks_turn = False
        if reply is not None and not item.is_late:
            near.out.append(Item(0, "Reply", bytes([reply]), False))

    def emit(self, near, emitted):
        """The sender took a step: its session follows, and what it emits goes on the line."""
        if not near.sessions:
            return
        session = near.sessions[near.current]
        session.acknowledged, session.outcome = near.sender.acknowledged, near.sender.outcome
        load = emitted
        if emitted.startswith("frame:"):
            load = near.sender.frames[near.sender.acknowledged]
            if session.acknowledged == len(session.sent):
                session.sent.append(load)
        if load not in ("Nothing", "Nak"):
            near.out.append(Item(near.current, load, self.model.unit_bytes(load), False))

    def forget(self, near, far):
        """No reply to what the station has sent comes any more."""
        far.out[:] = [item for item in far.out if item.load != "Reply"]
        near.out[:] = [item._replace(is_late=True) for item in near.out]

    def word(self):
        """What became of the sessions of either side."""
        return " ".join(part for name, side in (("analyzer", "A"), ("computer", "C"))
                        for part in (f"{name} sessions={len(self.sides[side].sessions)}",
                                     *(session.word() for session in self.sides[side].sessions)))
