"""The places of a message's records by the library for C and by Python: arrays that are too short, texts that have no
whole message, and what a view says. test_rows.py compares the places with the rows."""
import ctypes

from tests import kit

kit.library()
from lislink import MessageError, MessagePlaces, Reason, Status, _library, message_places, messages  # noqa: E402

TEXT = b"H|\\^&\rP|1||X\rC|1\rO|1|A^B\rR|1|^^^GLU|5&F&\rM|1\rC|2\rR|2|K\rQ|1\rL|1\r"
LETTERS, PARENTS = "HPCORMCRQL", [0, 0, 1, 1, 3, 4, 4, 3, 0, 0]
PLACE = 3  # numbers of 64 bits
GUARD = 0x5a5a5a5a5a5a5a5a


def placed(text, room):
    """The status, what is said of the message, the fault, and an array that has room and two places more, as
    numbers."""
    out = (ctypes.c_uint64 * (PLACE * (room + 2)))(*[GUARD] * (PLACE * (room + 2)))
    message, found = _library.MessageOut(), _library.Found()
    status = _library.calls()["message_places"](text, len(text), out, room, ctypes.byref(message), ctypes.byref(found))
    return status, message, found, list(out)


def starts():
    """Where each record begins, and how long it is."""
    at, found = 0, []
    for line in TEXT.split(b"\r")[:-1]:
        found.append((at, len(line)))
        at += len(line) + 1
    return found


class Places(kit.Test):
    def test_rooms(self):
        for room in range(len(LETTERS) + 2):
            status, message, found, out = placed(TEXT + b"H|", room)
            self.same(f"status, room {room}", status, Status.TOO_SHORT if room < len(LETTERS) else Status.OK)
            self.same(f"message, room {room}", (message.count, message.len, bytes(message.delimiters), found.kind),
                      (len(LETTERS), len(TEXT), b"|\\^&", 0))
            wanted = [(at, parent, size, ord(letter))
                      for (at, size), parent, letter in zip(starts(), PARENTS, LETTERS)][:room]
            seen = [(at, parent, last & 0xffffffff, last >> 32 & 0xff)
                    for at, parent, last in zip(out[0::3], out[1::3], out[2::3])]
            self.same(f"places, room {room}", seen[:len(wanted)], wanted)
            self.same(f"past them, room {room}", set(out[PLACE * len(wanted):]), {GUARD})

    def test_rows(self):
        """The records as rows, which the reader of streams gives too, and the texts of their fields."""
        rows = MessagePlaces(b"C" + TEXT, 1).rows
        self.same("as the reader's", rows, next(messages(TEXT)))
        self.same("how many fields", [row.count for row in rows], [row.count for row in next(messages(TEXT))])
        self.same("texts", [rows[3].texts("latin-1"), rows[4].texts("latin-1")[2:], rows[0].texts("latin-1")[:1]],
                  [["O", "1", None], [None, None], [""]])
        self.same("without blanks", MessagePlaces(TEXT.replace(b"X", b" \xe4 ")).rows[1].texts("latin-1")[-1], "\xe4")

    def test_faults(self):
        header = b"H|\\^&\r"
        for text, number, reason, put in ((TEXT[:-4], 10, Reason.UNFINISHED, 9), (b"P|1\r", 1, Reason.NOT_HEADER, 0),
                                          (header + b"R|1\rL|1\r", 2, Reason.NO_PARENT, 1),
                                          (header + header, 2, Reason.SECOND_HEADER, 1),
                                          (header + b"P" * 65537, 2, Reason.TOO_LONG, 1)):
            status, message, found, out = placed(text, 12)
            self.same(reason.name, (status, message.count, message.len, found.number, found.reason),
                      (Status.UNFINISHED, 0, 0, number, reason))
            self.check(GUARD not in out[:PLACE * put], f"{reason.name}: the records before it are put")
            self.same(f"{reason.name}: past them", set(out[PLACE * put:]), {GUARD})
        status, message, found, _ = placed(b"", 1)
        self.same("an empty text", (status, message.count, found.kind), (Status.NO_RECORD, 0, 0))

    def test_views(self):
        message = MessagePlaces(b"no" + TEXT, 2)
        self.same("letters", "".join(one.letter for one in message), LETTERS)
        self.same("parents", [one.parent.index for one in message], PARENTS)
        self.same("end", (message.end, len(message)), (len(TEXT) + 2, len(LETTERS)))
        self.same("results", [(one.patient.index, one.order.index, one.result.index) for one in message.results],
                  [(1, 3, 4), (1, 3, 7)])
        kinds = message.patients, message.orders, message.queries
        self.same("kinds", [[one.index for one in many] for many in kinds], [[1], [3], [8]])
        self.same("parts", (message[4].part(3, 0, 3), message[4].part(4), message[1].part(9)), (b"GLU", b"5|", None))
        self.same("parts of the ends", (message[0].part(3), message[-1].part(2)), (None, b"1"))
        self.check(message[3] == message[4].parent != message[4], "a view is that of its record")
        self.same("a view as text", repr(message[3]), "View(3, b'O|1|A^B')")
        self.same("many records", len(MessagePlaces(b"H|\\^&\r" + b"P|1\r" * 5000 + b"L|1\r")), 5002)
        self.same("two messages", [len(one) for one in message_places(TEXT + TEXT)], [10, 10])
        for text, start, kind in ((TEXT, len(TEXT), ValueError), (b"", 0, ValueError), (b"P|1\r", 0, MessageError)):
            self.raises(f"{text[:1]!r} from {start}", kind, lambda: MessagePlaces(text, start))
