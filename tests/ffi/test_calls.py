"""Calls of the Python package, at values known from outside: each error, and each call on its happy path."""
import copy
import pickle
import threading

from tests import kit

kit.library()
from lislink import (
    LONG_FRAME_TEXT,
    FrameFault,
    Kind,
    LinkError,
    MessageError,
    Note,
    Outcome,
    Phase,
    Readiness,
    Reason,
    Reader,
    Receiver,
    Record,
    Role,
    Scanner,
    Sender,
    Station,
    Status,
    Writer,
    WrongThread,
    columns,
    frame_bytes,
    message_places,
    messages,
    next_header,
    read_all,
    records,
)

FIRST = bytes.fromhex("0231487c5c5e260d0345350d0a")
LONG = b"\x021" + b"a" * 63993 + b"\x03%02X\r\n" % ((ord("1") + 63993 * ord("a") + 3) % 256)


def error_of(call):
    """Why a call fails."""
    try:
        call()
    except MessageError as error:
        return error.number, error.reason, error.detail, error.place
    return None


def read_error(pieces):
    """Why a stream can't be read."""
    return error_of(lambda: list(messages(pieces)))


class Calls(kit.Test):
    def setUp(self):
        self.calls = 0

    def gives(self, found, wanted):
        self.calls += 1
        self.same(f"call {self.calls}", found, wanted)

    def rejects(self, call, status, index=None, place=None):
        try:
            call()
        except LinkError as error:
            return self.gives((error.status, error.index, error.place), (status, index, place))
        return self.gives("nothing was rejected", status)

    def test_words(self):
        """What an error prints."""
        words = {
            b"H|\\^&\rR|1\r": "record 2: NO_PARENT: the record has no parent in the message",
            b"H|\\^&\rP|1\x02\r": "record 2: BAD_RECORD: the text is not a record: "
                                 "the text has a byte that no text may hold, byte 3 from 0",
            b"H|\\^&\rX|1\r": "record 2: BAD_RECORD: the text is not a record: "
                              "no letter of such a record, or no field delimiter after it",
        }
        for stream, wanted in words.items():
            try:
                list(messages([stream]))
            except MessageError as error:
                self.gives(str(error), wanted)
        forbidden = "FORBIDDEN: the text has a byte that no text may hold"
        for call, wanted in ((lambda: frame_bytes(1, True, b"a\x02"), f"{forbidden} (place 1)"),
                             (lambda: Scanner(frame_limit=241),
                              "BAD_NUMBER: the number is not one of those that are known")):
            try:
                call()
            except LinkError as error:
                self.gives(str(error), wanted)
        self.gives(self.calls, 5)

    def test_frames(self):
        self.gives(frame_bytes(1, True, b"H|\\^&\r"), FIRST)
        self.rejects(lambda: frame_bytes(8, True, b""), Status.BAD_NUMBER, None, 0)
        self.rejects(lambda: frame_bytes(8, True, b"a\x02"), Status.FORBIDDEN, None, 1)
        self.rejects(lambda: frame_bytes(1, True, b"a" * 241), Status.TOO_LONG, None, 0)
        self.gives(len(frame_bytes(1, False, b"a" * 240)), 247)
        self.gives(frame_bytes(1, True, b"H|\\^&\r", frame_limit=LONG_FRAME_TEXT), FIRST)
        self.gives(frame_bytes(1, True, b"a" * 63993, frame_limit=LONG_FRAME_TEXT), LONG)
        self.rejects(lambda: frame_bytes(1, True, b"a" * 63994, frame_limit=LONG_FRAME_TEXT), Status.TOO_LONG, None, 0)
        self.rejects(lambda: frame_bytes(1, True, b"", frame_limit=241), Status.BAD_NUMBER)

    def test_long_frames(self):
        self.rejects(lambda: Scanner(frame_limit=241), Status.BAD_NUMBER)
        self.rejects(lambda: Receiver(frame_limit=0), Status.BAD_NUMBER)
        with Scanner(frame_limit=LONG_FRAME_TEXT) as scanner:
            signals = list(scanner.feed(LONG + FIRST + LONG[:9] + b"\n"))
            self.gives([signal.kind for signal in signals], [Kind.FRAME, Kind.FRAME, Kind.BAD_FRAME])
            self.gives([signal.text for signal in signals], [b"a" * LONG_FRAME_TEXT, b"H|\\^&\r", b""])
        with Scanner() as scanner:
            self.gives([signal.fault for signal in scanner.feed(LONG)], [FrameFault.TOO_LONG])
        with Receiver(frame_limit=LONG_FRAME_TEXT) as receiver:
            self.gives([step.text for step in receiver.hear(b"\x05" + LONG)], [None, b"a" * LONG_FRAME_TEXT])
        with Receiver() as receiver:
            self.gives([step.detail for step in receiver.hear(b"\x05" + LONG)], [0, FrameFault.TOO_LONG])
        self.rejects(lambda: Sender(frame_limit=241), Status.BAD_NUMBER)
        with Sender(frame_limit=LONG_FRAME_TEXT) as sender:
            sender.add_text(b"a" * LONG_FRAME_TEXT)
            self.gives((sender.start(), sender.reply(21), sender.timer()), (b"\x05", b"", b"\x05"))
            self.gives((sender.reply(6), sender.reply(21), sender.reply(6)), (LONG, LONG, b"\x04"))
            self.gives((sender.reply(6), sender.outcome), (b"", Outcome.DONE))

    def test_scanner(self):
        with Scanner() as scanner:
            signals = list(scanner.feed(b"\x05" + FIRST + b"\x021\x02\n\x04"))
            self.gives([signal.kind for signal in signals], [Kind.ENQ, Kind.FRAME, Kind.BAD_FRAME, Kind.EOT])
            self.gives(signals[1][1:], (1, True, FrameFault.NONE, 0, b"H|\\^&\r"))
            self.gives(signals[2].fault, FrameFault.SHAPE)
            self.gives(list(scanner.feed(FIRST[:5])), [])
            self.gives([signal.text for signal in scanner.feed(FIRST[5:])], [b"H|\\^&\r"])
            bad = list(scanner.feed(b"\x021a\x10\x0300\r\n"))
            self.gives((bad[0].fault, bad[0].place), (FrameFault.FORBIDDEN, 1))

    def test_sender(self):
        with Sender() as sender:
            self.rejects(sender.start, Status.NO_TEXT, 0, 0)
            self.rejects(lambda: sender.add_text(b"bad\n"), Status.FORBIDDEN, None, 3)
            self.rejects(lambda: sender.add_text(b"a" * 1048577), Status.TOO_LONG)
            self.rejects(sender.start, Status.NO_TEXT, 0, 0)
            sender.add_text(b"H|\\^&\r")
            self.gives((sender.start(), sender.phase, sender.seconds), (b"\x05", Phase.AWAIT_LINE, 15))
            sender.add_text(b"later")
            self.rejects(sender.start, Status.IN_SESSION, 0, 0)
            self.gives((sender.reply(21), sender.phase, sender.seconds), (b"", Phase.BUSY, 10))
            self.gives((sender.timer(), sender.phase), (b"\x05", Phase.AWAIT_LINE))
            self.gives((sender.reply(6), sender.phase), (FIRST, Phase.AWAIT_REPLY))
            self.gives(sender.reply(21), FIRST)
            self.gives((sender.reply(6), sender.outcome, sender.acknowledged), (b"\x04", Outcome.DONE, 1))
            self.gives(sender.start(), b"\x05")
            sender.restart()
            self.gives((sender.phase, sender.outcome, sender.seconds), (Phase.NEUTRAL, Outcome.RESTARTED, None))

    def test_old_lines(self):
        """No session starts on a connection where one failed, until it is connected anew."""
        with Sender() as sender:
            sender.add_text(b"a\r")
            self.gives((sender.start(), sender.reply(6) != b"", sender.reply(6)), (b"\x05", True, b"\x04"))
            sender.add_text(b"a\r")
            self.gives((sender.needs_new_line, sender.start(), sender.timer()), (False, b"\x05", b"\x04"))
            sender.add_text(b"a\r")
            self.rejects(sender.start, Status.OLD_LINE)
            self.gives((sender.needs_new_line, sender.start(is_quiet=True)), (True, b"\x05"))
            sender.add_text(b"b\r")
            sender.connected()
            self.gives((sender.outcome, sender.needs_new_line), (Outcome.RESTARTED, False))
            self.gives((sender.start(), sender.needs_new_line), (b"\x05", True))
        with Station(Role.ANALYZER) as station:
            self.gives((station.start([b"a\r"]), station.timer().send), (b"\x05", b"\x04"))
            self.rejects(lambda: station.start([b"a\r"]), Status.OLD_LINE)
            station.connected()
            self.gives(station.start([b"a\r"]), b"\x05")
            station.give_up()
            self.rejects(lambda: station.start([b"a\r"]), Status.OLD_LINE)
            self.gives(station.start([b"a\r"], is_quiet=True), b"\x05")

    def test_copies(self):
        """An owner can't be copied: its block would be freed twice. An error can be pickled."""
        for kind in (Scanner, Sender, Receiver, Reader, Writer, lambda: Station(Role.COMPUTER)):
            with kind() as owner:
                for call in (copy.copy, copy.deepcopy, pickle.dumps):
                    with self.assertRaises(TypeError):
                        call(owner)
                self.gives(owner.waiting, 0)
        errors = LinkError(Status.FORBIDDEN, 1, 3), LinkError(Status.FULL), MessageError(2, Reason.BAD_RECORD, 4, 3)
        for error in errors:
            again = pickle.loads(pickle.dumps(error))
            self.gives((type(again), str(again), vars(again)), (type(error), str(error), vars(error)))

    def test_threads(self):
        """An owner goes to the thread that calls it first, once it is given away; not to two."""
        receiver, found = Receiver(), []

        def hear():
            try:
                found.extend(step.note for step in receiver.hear_all(b"\x05"))
            except WrongThread:
                found.append(WrongThread)

        def in_another():
            thread = threading.Thread(target=hear)
            thread.start()
            thread.join()

        in_another()
        receiver.hand_over()
        in_another()
        hear()
        self.gives(found, [WrongThread, Note.OPENED, WrongThread])
        for call in (receiver.hand_over, receiver.close):
            with self.assertRaises(WrongThread):
                call()

    def test_station(self):
        with Station(Role.ANALYZER) as station:
            self.rejects(lambda: station.start([]), Status.NO_TEXT, 0, 0)
            self.rejects(lambda: station.start([b"ok", b"bad\n"]), Status.FORBIDDEN, 1, 3)
            self.rejects(lambda: station.start([b"ok", b"a" * 1048577]), Status.TOO_LONG)
            self.gives((station.start([b"H|\\^&\r"]), station.phase, station.seconds), (b"\x05", Phase.AWAIT_LINE, 15))
            self.rejects(lambda: station.start([b"later"]), Status.IN_SESSION, 0, 0)
            self.gives(list(station.hear(b"\x06")), [(FIRST, None)])
            self.gives((station.awaits_reply, station.turn_seconds), (True, None))
            self.gives([answer.send for answer in station.hear(b"\x04")], [FIRST])
            self.gives((station.turn_asked, station.turn_seconds), (True, 15))
            self.gives([answer.send for answer in station.hear(b"\x06")], [b"\x04"])
            self.gives((station.outcome, station.acknowledged, station.seconds), (Outcome.DONE, 1, None))
            answers = list(station.hear(b"\x05" + FIRST[:4]))
            self.gives([(it.send, it.note, it.text) for it in answers], [(b"\x06", Note.OPENED, None)])
            self.rejects(lambda: station.start([b"a"]), Status.LINE_OPEN, 0, 0)
            self.gives((station.is_open, station.seconds), (True, 30))
            station.ask_turn()
            answers = [answer for _, answer in station.hear_placed(FIRST[4:])]
            self.gives([(it.send, it.note, it.text) for it in answers], [(b"\x04", Note.ACCEPTED, b"H|\\^&\r")])
            self.gives((station.accepted, station.held, station.waiting), (1, 0, 0))
            self.gives((station.timer().note, station.turn_seconds, station.timer()), (Note.TIMED_OUT, None, (b"", None)))
            station.set_ready(False)
            self.gives([answer.send for answer in station.hear(b"\x05")], [b"\x15"])
            station.reserve(1000)
            self.rejects(lambda: station.reserve(1 << 21), Status.TOO_LONG)

    def test_types_of_a_station(self):
        with Station(Role.COMPUTER) as station:
            for call in (lambda: Station(True), lambda: station.hear("ENQ"), lambda: station.start("text"),
                         lambda: station.start(b"text"), lambda: station.set_ready(1), lambda: station.reserve("1")):
                self.assertRaises(TypeError, call)
            for call in (lambda: Station(2), lambda: station.reserve(-1)):
                self.assertRaises(ValueError, call)
            self.gives((station.phase, station.is_open, station.seconds), (Phase.NEUTRAL, False, None))
        self.assertRaises(ValueError, station.timer)

    def test_stations(self):
        """Contention of a computer, with frames of any length; what is given up or closed."""
        with Station(Role.COMPUTER, frame_limit=LONG_FRAME_TEXT) as station:
            station.start([b"a" * LONG_FRAME_TEXT])
            self.gives(list(station.hear(b"\x05")), [(b"", None)])
            self.gives((station.phase, station.seconds), (Phase.CONTENTION, 20))
            self.gives([(it.send, it.note) for it in station.hear(b"\x05\x04")], [(b"\x06", 1), (b"", Note.ENDED)])
            self.gives((station.seconds, station.timer()), (0, (b"\x05", None)))
            self.gives(list(station.hear(b"\x06\x15")), [(LONG, None), (LONG, None)])
            station.give_up()
            self.gives((station.outcome, station.phase), (Outcome.RESTARTED, Phase.NEUTRAL))
            self.gives([it.send for it in station.hear(b"\x05" + LONG)], [b"\x06", b"\x06"])
            station.close_line()
            self.gives((station.is_open, list(station.hear(FIRST))), (False, []))
            station.restart()
            self.gives(station.timer(), (b"", None))
        self.rejects(lambda: Station(Role.COMPUTER, frame_limit=241), Status.BAD_NUMBER)

    def test_writer(self):
        with Writer() as writer:
            self.rejects(lambda: writer.record("P", [b"1"]), Status.PUT_NOT_HEADER)
            self.rejects(lambda: writer.record("x", []), Status.BAD_LETTER)
            writer.record("H", [b"", b"", b"analyzer"])
            self.rejects(lambda: writer.record("H", []), Status.PUT_SECOND_HEADER)
            self.rejects(lambda: writer.record("R", [b"1"]), Status.PUT_NO_PARENT)
            writer.record("P", [b"1"])
            writer.record("O", [b"1", b"S7", b"", [b"", b"", b"", b"GLU"]])
            self.rejects(lambda: writer.record("R", [b"1", b"a\nb"]), Status.FORBIDDEN, None, 3)
            writer.record("R", [b"1", [b"", b"", b"", b"GLU"], b"5.4", b"a|b&c"])
            writer.record("L", [b"1", b"N"])
            self.gives(writer.texts(), [b"H|\\^&|||analyzer\r", b"P|1\r", b"O|1|S7||^^^GLU\r",
                                        b"R|1|^^^GLU|5.4|a&F&b&E&c\r", b"L|1|N\r"])
            self.gives([row.letter for row in records(writer.texts())], ["H", "P", "O", "R", "L"])
            self.rejects(lambda: writer.start(b"||^&"), Status.BAD_DELIMITERS)
            self.rejects(lambda: writer.start(b"|"), Status.BAD_DELIMITERS)
            self.gives(len(writer.texts()), 5)
            writer.start(b"*!+-")
            self.gives(writer.texts(), [])
            writer.record("H", [b"a*b", [b"", b"c-"]])
            self.gives(writer.texts(), [b"H*!+-*a-F-b*+c-E-\r"])
            writer.start()
            writer.record("H", [])
            self.gives(writer.texts(), [b"H|\\^&\r"])

    def test_repeats(self):
        """Fields with repeats, and what is no field."""
        with Writer() as writer:
            writer.record("H", [])
            writer.record("P", [b"1"])
            writer.record("O", [b"1", b"S7", b"", [[b"", b"", b"", b"GLU"], [b"", b"", b"", b"K\\"]], [b"a", [b"b"]]])
            self.gives(writer.texts()[2], b"O|1|S7||^^^GLU\\^^^K&R&|a\\b\r")
            for wrong in ("S7", [["S7"]], [b"a", ["b"]], None, 7):
                with self.assertRaises(TypeError):
                    writer.record("O", [wrong])
                self.check(len(writer.texts()) == 3, f"{wrong!r} is no field")
            with self.assertRaises(ValueError):
                writer.record("O", [[]])
            self.check(len(writer.texts()) == 3, "a field has a component")

    def test_receiver(self):
        with Receiver() as receiver:
            receiver.reserve(1000)
            self.rejects(lambda: receiver.reserve(1048577), Status.TOO_LONG)
            steps = list(receiver.hear(b"noise\x05" + FIRST + FIRST + b"\x04"))
            self.gives([step.note for step in steps], [Note.OPENED, Note.ACCEPTED, Note.DUPLICATE, Note.ENDED])
            self.gives([step.reply for step in steps], [b"\x06", b"\x06", b"\x06", b""])
            self.gives([step.text for step in steps], [None, b"H|\\^&\r", None, None])
            receiver.set_ready(Readiness.BUSY)
            self.gives([(step.note, step.reply) for step in receiver.hear(b"\x05")], [(Note.NOT_READY, b"\x15")])
            receiver.set_ready(Readiness.READY)
            receiver.set_room(False)
            self.gives([(step.note, step.reply) for step in receiver.hear(b"\x05" + FIRST)],
                       [(Note.OPENED, b"\x06"), (Note.NO_ROOM, b"\x15")])
            self.gives(receiver.timer().note, Note.TIMED_OUT)
            receiver.restart()
            steps = list(receiver.hear(b"\x05" + FIRST[:-3] + b"0\r\n"))
            self.gives((steps[1].note, steps[1].detail), (Note.REFUSED, FrameFault.SUM))
        self.gives(receiver._handle, None)

    def test_records(self):
        header = Record(b"H|\\^&|||Analyzer&F&7")
        self.gives((header.letter, header.fields, header.part(5)), ("H", 3, b"Analyzer|7"))
        self.gives((header.part(2), header.part(9)), (None, None))
        self.gives((header.delimiters, Record(b"H*!+-").delimiters), (b"|\\^&", b"*!+-"))
        result = Record(b"r|1|^^^GLU\\^^^NA|5.4&X0d&&H&x&N&", header)
        self.gives((result.letter, result.fields), ("R", 3))
        self.gives((result.part(3, 0, 3), result.part(3, 1, 3), result.part(3, 2, 0)), (b"GLU", b"NA", None))
        self.gives((result.part(4), result.part(2), result.part(1)), (b"5.4\rx", b"1", None))
        self.gives(result.delimiters, header.delimiters)
        self.rejects(lambda: Record(b""), Status.NO_RECORD, None, 0)
        self.rejects(lambda: Record(b"P|1"), Status.BAD_LETTER, None, 0)
        self.rejects(lambda: Record(b"H|\\^^"), Status.BAD_DELIMITERS, None, 0)
        self.rejects(lambda: Record(b"R|1\x02", header), Status.FORBIDDEN, None, 3)
        self.rejects(lambda: Record(b"R|" + b"1" * 65536, header), Status.TOO_LONG, None, 0)
        self.rejects(lambda: Record(b"H|\\^&", header), Status.BAD_LETTER, None, 0)
        texts = [b"H|\\^&\r", b"P|1\rO|1|S7\r", b"H*!+-\rP*2\r"]
        self.gives([(record.letter, record.part(2)) for record in records(texts)],
                   [("H", None), ("P", b"1"), ("O", b"1"), ("H", None), ("P", b"2")])

    def test_reader(self):
        fault = (2, Reason.NO_PARENT, ord("R"), 0)
        with Reader() as reader:
            self.gives([list(reader.feed(piece)) for piece in (b"", b"H|", b"", b"\\^&\r")], [[], [], [], [("H", [])]])
            for piece in (b"R|1\r", b"", b"L|1\r"):
                self.gives(error_of(lambda: list(reader.feed(piece))), fault)
            self.gives(error_of(reader.finish), fault)
        with Reader() as reader:
            self.gives(list(reader.letters(b"H*!+-\rP*1")), ["H"])
            row, = reader.feed(b"*a+b\r")
            self.gives((row.text, row.delimiters, row.fields), (b"P*1*a+b", b"*!+-", [[[b"1"]], [[b"a", b"b"]]]))

    def test_messages(self):
        stream = b"H|\\^&\rP|1\rO|1|S7||^^^GLU\\^^^NA\rR|1|^^^GLU|5&X0D&\rL|1|N\r"
        for size in (1, 3, len(stream)):
            pieces = [stream[at:at + size] for at in range(0, len(stream), size)]
            told = list(messages(pieces + pieces))
            self.gives([[row.letter for row in rows] for rows in told], [list("HPORL")] * 2)
            tests = [[b"", b"", b"", b"GLU"], [b"", b"", b"", b"NA"]]
            self.gives(told[1][2].fields, [[[b"1"]], [[b"S7"]], [[b""]], tests])
            self.gives((told[0][3].part(3, 0, 3), told[0][3].part(4), told[0][3].part(5)), (b"GLU", b"5\r", None))
        self.gives(read_error([b"H|\\^&\rR|1\r"]), (2, Reason.NO_PARENT, ord("R"), 0))
        self.gives(read_error([b"P|1\r"]), (1, Reason.NOT_HEADER, 0, 0))
        self.gives(read_error([b"H|\\^&\r", b"H|\\^&\r"]), (2, Reason.SECOND_HEADER, 0, 0))
        self.gives(read_error([b"H|\\^&\rP|1", b"\x02\r"]), (2, Reason.BAD_RECORD, Status.FORBIDDEN, 3))
        self.gives(read_error([b"H|\\^&\r\r"]), (2, Reason.BAD_RECORD, Status.NO_RECORD, 0))
        self.gives(read_error([b"H|\\^&\rP|"]), (2, Reason.UNFINISHED, 0, 0))
        self.gives(read_error([b"H|\\^&\rP|" + b"1" * 65536]), (2, Reason.TOO_LONG, 0, 0))
        self.gives(read_error([]), None)

    def test_columns(self):
        """Some parts of all records of a letter are what `part` says of each, and no more of them is asked for."""
        first = b"H|\\^&\rP|1\rO|1\rR|1|^^^GLU|5.4|mg&F&dL\rR|2|^^^NA\\a^b|139\rC|1\rL|1\r"
        other = b"h*!+-*x\rp*1*a!b+c\rO*1\rr*1*+++K*4.1-X20-\rL*1\r"
        text = (first + other) * 700
        wanted = [(3, 0, 3), 4, (5,), (3, 1, 0), (3, 1), 1]
        rows = [row for rows in messages(text) for row in rows if row.letter == "R"]
        given = [[row.part(*(one if isinstance(one, tuple) else (one,))) for row in rows] for one in wanted]
        self.gives(columns(text, "R", *wanted), given)
        self.gives(columns(text, "r", 4)[0][:3], [b"5.4", b"139", b"4.1 "])
        self.gives((columns(text, "P", (3, 1, 1))[0][:2], columns(text, "X", 2), columns(text, "R")),
                   ([None, b"c"], [[]], []))
        self.gives((columns(b"", "R", 3), columns(bytearray(first), "H", 3)), ([[]], [[None]]))
        for broken, wrong in ((b"H|\\^&\rR|1\r", Reason.NO_PARENT), (b"H|\\^&\rP|1", Reason.UNFINISHED),
                              (b"H|\\^&\rP|" + b"1" * 65536, Reason.TOO_LONG)):
            self.gives(error_of(lambda: columns(broken, "R", 3))[1], wrong)
        for words in ((1, "R"), (b"", "RR"), (b"", b"R"), (b"", "R", "3"), (b"", "R", True)):
            self.assertRaises(TypeError, columns, *words)
        for words in ((b"", "R", (3, 0, 3, 0)), (b"", "R", -1)):
            self.assertRaises(ValueError, columns, *words)

    def test_resume(self):
        """After a message that broke off, and after one that can't be read, the others are read: in pieces of any size,
        and the place of what can't be read is known."""
        whole = [b"H|\\^&\rP|%d\rL|1\r" % number for number in range(3)]
        parts = [whole[0], b"H|\\^&\rP|7\rO|1\r", whole[1], b"H|\\^&\rX|1\rL|1\rH||\r", whole[2], b"h|\\^&\rP|"]
        stream = b"".join(parts)
        faults = [Reason.SECOND_HEADER, Reason.BAD_RECORD, Reason.BAD_RECORD, Reason.UNFINISHED]
        for size in range(1, len(stream) + 1):
            pieces, found = [stream[at:at + size] for at in range(0, len(stream), size)], []
            told = messages(pieces, on_fault=lambda error: found.append(error.reason))
            joined = [b"".join(row.text + b"\r" for row in rows) for rows in told]
            self.gives((joined, found), (whole, faults))
        found = []
        told = message_places(stream, on_fault=lambda error: found.append(error.reason))
        self.gives(([stream[it.start:it.end] for it in told], found), (whole, faults))
        self.gives((next_header(b"H|\rh|\r", 0), next_header(b"H|\rP|\r", 3), next_header(b"", 0)), (3, 6, 0))
        self.gives(len(list(messages(whole[0]))) + len(list(read_all(whole))) + len(list(records(whole[0]))), 7)
        with Reader() as reader:
            self.gives(error_of(lambda: list(reader.feed(stream[:38])))[1], Reason.SECOND_HEADER)
            self.gives(reader.read, len(parts[0] + parts[1]))
            reader.resume()
            self.gives(([row.text for row in reader.feed(b"L|2\r")], reader.waiting), ([b"H|\\^&", b"P|1", b"L|2"], 0))
