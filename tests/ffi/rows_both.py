"""The calls of conformance rows on a line between two stations, answered through the library for C. What is on its way,
and what comes of an event, is in conformance/README.md; whether damage may happen the model says, from the bytes that
a receiver heard."""
import model
from lislink import LinkError, Note, Outcome, Phase, Role, Station
from model import ACK, ENQ, bytes_of

OUTCOMES = {Outcome.NONE: "none", Outcome.DONE: "Done", Outcome.TIMED_OUT: "TimedOut", Outcome.SIX_TRIES: "SixTries",
            Outcome.RESTARTED: "Restarted"}
WAITING = (Phase.BUSY, Phase.CONTENTION)


def read(data):
    """A frame that is written, or ENQ or EOT."""
    return model.read_frame(data[1:-1], model.USUAL) if len(data) > 1 else None


class Side:
    """A station of the library, its sessions, the session that has its line, and what it sent: for each the session, the
    bytes, whether it is a unit, and whether it will be answered too late. 'heard' is what its receiver heard."""

    def __init__(self, role):
        self.station, self.sessions, self.opened, self.out, self.heard = Station(role), [], 0, [], b""

    def begin(self, texts, enquiry):
        self.sessions.append(model.Session(texts))
        self.out.append([len(self.sessions) - 1, enquiry, True, False])

    def put(self, emitted):
        """The sender has made a step: its session follows, and what it emits goes on the line."""
        if not self.sessions:
            return
        session, frame = self.sessions[-1], read(emitted) if emitted else None
        session.acknowledged, session.outcome = self.station.acknowledged, OUTCOMES[self.station.outcome]
        if frame and session.acknowledged == len(session.sent):
            session.sent.append(frame)
        if emitted:
            self.out.append([len(self.sessions) - 1, emitted, True, False])


class TwoWay:
    """A line between two stations of the library."""

    def __init__(self):
        self.sides = {"A": Side(Role.ANALYZER), "C": Side(Role.COMPUTER)}

    def happen(self, word):
        side, event = word.split(".", 1)
        name, *argument = event.split(":")
        near, far = self.sides[side], self.sides["C" if side == "A" else "A"]
        EVENTS[name](near, far, *argument)

    def word(self):
        return " ".join(part for name, side in (("analyzer", "A"), ("computer", "C"))
                        for part in (f"{name} sessions={len(self.sides[side].sessions)}",
                                     *(session.word() for session in self.sides[side].sessions)))


def start(near, far, texts):
    texts = model.texts_of(texts)
    try:
        near.begin(texts, near.station.start(texts, is_quiet=True))
    except LinkError:
        pass


def comes(near, far, item, data):
    """Bytes come in the place of an item, each for the end that the station gives it to."""
    for byte in data:
        if not near.station.awaits_reply:
            near.heard += bytes([byte])
        for answer in near.station.hear(bytes([byte])):
            if answer.step is None:
                near.put(answer.send)
            else:
                noted(near, far, item, answer)


def noted(near, far, item, answer):
    """What the receiver answered while an item came."""
    session, data, is_unit, is_late = item
    if answer.note is Note.OPENED and is_unit:
        near.opened = session
    if answer.note is Note.ACCEPTED:
        owner = far.sessions[near.opened]
        owner.accepted.append(read(data))
        owner.handed += [] if answer.text is None else [answer.text]
    if answer.send and not is_late:
        near.out.append([0, answer.send, False, False])


def arrive(near, far):
    if far.out:
        item = far.out.pop(0)
        comes(near, far, item, item[1])


def damage(near, far, data):
    data = bytes_of(data)
    if far.out and is_noticed(near, far.out[0], data):
        comes(near, far, far.out.pop(0), data)


def is_noticed(near, item, data):
    if not item[2] and len(data) != 1:
        return False
    if near.station.awaits_reply:
        return ACK not in data and ENQ not in data[1:]
    heard = [signal for _, signal in model.signals(near.heard + data, model.USUAL, len(near.heard))]
    return not heard or len(item[1]) > 1 and len(heard) == 1 and isinstance(heard[0], str)


def lose(near, far):
    del far.out[:1]


def forget(near, far):
    """No reply to what the station has sent comes any more."""
    far.out[:] = [item for item in far.out if item[2]]
    for item in near.out:
        item[3] = True


def timer(near, far):
    if near.station.is_open:
        near.station.timer()
    elif near.station.phase is not Phase.NEUTRAL:
        forget(near, far)
        waits = near.station.phase in WAITING
        emitted = near.station.timer().send
        if waits:
            near.begin(near.sessions[-1].texts, emitted)
        else:
            near.put(emitted)


def give_up(near, far):
    forget(near, far)
    near.station.give_up()
    near.put(b"")


def close_line(near, far):
    near.station.close_line()
    near.heard = b""


def restart(near, far):
    forget(near, far)
    near.station.restart()
    near.put(b"")
    near.heard = b""


EVENTS = {"Start": start, "Arrive": arrive, "Damage": damage, "Lose": lose, "Timer": timer, "GiveUp": give_up,
          "CloseLine": close_line, "Restart": restart, "Ready": lambda near, far: near.station.set_ready(True),
          "Busy": lambda near, far: near.station.set_ready(False),
          "AskTurn": lambda near, far: near.station.ask_turn()}


def played(events):
    line = TwoWay()
    for event in events:
        line.happen(event)
    return line.word()
