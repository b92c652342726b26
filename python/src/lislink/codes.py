"""The families of constants of the library, with the numbers of lislink.h. Made by tools/codes."""
import enum


class Status(enum.IntEnum):
    """What a call that may fail returns."""

    #: The call did what it is for.
    OK = 0
    #: A session is going on.
    IN_SESSION = 1
    #: There is no text to send.
    NO_TEXT = 2
    #: There are more bytes than the limit allows.
    TOO_LONG = 3
    #: The text has a byte that no text may hold: in a frame and a session 1 to 6, 10 and 16 to 23; in a
    #: record any below 32 but 7, 9, 11 and 12, 127 and 255.
    FORBIDDEN = 4
    #: There are as many texts as a session may have.
    FULL = 5
    #: There is no memory for it.
    OUT_OF_MEMORY = 6
    #: The number is not one of those that are known.
    BAD_NUMBER = 7
    #: The buffer is too short.
    TOO_SHORT = 8
    #: The text has no byte; or no record is begun, or none was found last.
    NO_RECORD = 9
    #: The byte is no letter of such a record, or no field delimiter follows it.
    BAD_LETTER = 10
    #: The bytes are no four delimiters.
    BAD_DELIMITERS = 11
    #: There is no such part, frame or text.
    ABSENT = 12
    #: A message, a record or a field isn't ended; or a fault came before.
    UNFINISHED = 13
    #: Outside a message a header comes first.
    PUT_NOT_HEADER = 14
    #: An order belongs under a patient, a result under an order.
    PUT_NO_PARENT = 15
    #: The message already has its header.
    PUT_SECOND_HEADER = 16
    #: A session was started without a connection, or on one where a session failed.
    OLD_LINE = 17
    #: A session of a station was started while the other side has the line.
    LINE_OPEN = 18


class Kind(enum.IntEnum):
    """What a signal is."""

    #: No signal.
    NONE = 0
    #: ENQ.
    ENQ = 1
    #: EOT.
    EOT = 2
    #: A good frame.
    FRAME = 3
    #: A bad frame, for a FrameFault.
    BAD_FRAME = 4


class FrameFault(enum.IntEnum):
    """What is wrong with a frame: the first that applies."""

    #: Nothing.
    NONE = 0
    #: It has more bytes than a frame may have.
    TOO_LONG = 1
    #: There are no end byte, checksum, CR and LF in their places.
    SHAPE = 2
    #: Its number is no digit from 0 to 7.
    NUMBER = 3
    #: Its text has a byte that no text may hold.
    FORBIDDEN = 4
    #: Its checksum does not match.
    SUM = 5


class Phase(enum.IntEnum):
    """What a sender waits for, and the timer that runs meanwhile."""

    #: Nothing: no session goes on, and no timer runs.
    NEUTRAL = 0
    #: ENQ was sent, and its reply is awaited for REPLY.
    AWAIT_LINE = 1
    #: The computer is busy; ENQ is sent again after BUSY.
    BUSY = 2
    #: The computer sent ENQ too; ENQ is sent again after CONTENTION.
    CONTENTION = 3
    #: A frame was sent, and its reply is awaited for REPLY.
    AWAIT_REPLY = 4


class Outcome(enum.IntEnum):
    """How a session ended. Only DONE says that all texts were acknowledged."""

    #: There was no session yet, or one is going on.
    NONE = 0
    #: Each text was acknowledged.
    DONE = 1
    #: No reply came in time.
    TIMED_OUT = 2
    #: A frame was answered otherwise than by ACK or EOT six times.
    SIX_TRIES = 3
    #: It was restarted, for example by Sender.restart.
    RESTARTED = 4


class Note(enum.IntEnum):
    """What a byte or the timer meant."""

    #: Nothing yet.
    QUIET = 0
    #: ENQ: a session begins, and what was held of an earlier text is dropped.
    OPENED = 1
    #: ENQ came, and was answered as Receiver.set_ready set.
    NOT_READY = 2
    #: EOT: the session is over.
    ENDED = 3
    #: A frame was taken; detail: its number.
    ACCEPTED = 4
    #: A frame came again that was taken before; detail: its number.
    DUPLICATE = 5
    #: A frame came that isn't the next one; detail: its number.
    OUT_OF_TURN = 6
    #: A bad frame; detail: a FrameFault; place: the forbidden byte's.
    REFUSED = 7
    #: There is no room for a frame, as set by Receiver.set_room.
    NO_ROOM = 8
    #: The text would have over LIS_LIMIT_TEXT_BYTES, or over the receiver's limit.
    TEXT_TOO_LONG = 9
    TOO_LONG = TEXT_TOO_LONG
    #: 4,294,967,295 frames were accepted in this session.
    TOO_MANY = 10
    #: The frame is answered NAK and not taken.
    OUT_OF_MEMORY = 11
    REFUSED_MEMORY = OUT_OF_MEMORY
    #: The line is closed, and what was held is dropped.
    TIMED_OUT = 12


class Readiness(enum.IntEnum):
    """How ENQ is answered."""

    #: ACK.
    READY = 0
    #: NAK.
    BUSY = 1
    #: ENQ, as a computer does that wants to send first.
    CONTENDING = 2


class Role(enum.IntEnum):
    """Which side a station is. If both sides ask for the line at once, the computer waits for the analyzer's
    session."""

    #: The analyzer's.
    ANALYZER = 0
    #: The computer's.
    COMPUTER = 1


class Reason(enum.IntEnum):
    """Why a record can't be read."""

    #: It can be read.
    NONE = 0
    #: Its text is no record; detail: a Status; place: the forbidden byte's.
    BAD_RECORD = 1
    #: Outside a message a header comes first.
    NOT_HEADER = 2
    #: It has no parent in the message; detail: its letter.
    NO_PARENT = 3
    #: The message already has its header.
    SECOND_HEADER = 4
    #: The stream ended before the message or the record did.
    UNFINISHED = 5
    #: It has over LIS_LIMIT_RECORD_BYTES.
    TOO_LONG = 6
    #: There was no memory for bytes that are held.
    OUT_OF_MEMORY = 7
