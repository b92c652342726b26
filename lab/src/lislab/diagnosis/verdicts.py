"""What bytes of a line mean, and what is wrong with a line: each has its sentence here, once. `lislab ladder` and
`lislab watch` say the same, and nothing reads these sentences back."""
import enum
import re
from typing import Any, FrozenSet, Iterable, Optional

from lislink.codes import Note

GOOD, PLAIN, WARN, BAD = "good", "plain", "warn", "bad"
#: What to do about a rejected frame, if its verdict has no advice of its own; about a checksum that sums otherwise.
_SENDER_WRONG = "the sender is wrong: a receiver must not take such a frame"
_FIX_SUM = "fix the sender: a receiver must not take such a checksum"
_DAMAGED = "other frames of the sender are right: bytes were damaged on the way; look at cable, shield and speed"
_UNSURE = "the sender sums otherwise, or bytes were damaged on the way"
_PLAIN = "; a host's line with `link=plain` takes these, and notices no damage"
#: So many checksums that are right by one other way are no chance, also next to frames that are right.
_SURE = 3


@enum.unique
class Meaning(enum.Enum):
    """What a row of a ladder means: how good that is, and its sentence."""

    NOTHING = (PLAIN, "")
    # events
    TIMED_OUT = (WARN, "the receiver's 30 seconds are over: it closes the session")
    TIMER = (PLAIN, "the receiver's timer runs out: the line wasn't open")
    RESTARTED = (PLAIN, "the receiver is restarted")
    READY = (PLAIN, "the computer is ready")
    IS_BUSY = (PLAIN, "the computer is busy: ENQ is answered NAK")
    CONTENDING = (PLAIN, "the computer wants to send: ENQ is answered ENQ")
    SILENCE = (WARN, "a receiver closes the session after 30 (a line T here means that)")
    # what the analyzer sends
    OPENED = (GOOD, "the line is opened")
    NOT_READY = (WARN, "not ready: no line")
    ENDED = (GOOD, "the session is ended")
    EOT_IGNORED = (PLAIN, "the line isn't open")
    DELIVERED = (GOOD, "accepted, text of {size} bytes delivered")
    HELD = (GOOD, "accepted, {size} bytes held until the frame with ETX")
    LOST = (
        BAD,
        "duplicate of {number} by its number, but another text: acknowledged and lost ({due} is due)",
    )
    DUPLICATE = (WARN, "duplicate of {number}: acknowledged, not taken again")
    REJECTED = (BAD, "rejected: {why}")
    NOT_OPEN = (BAD, "the line isn't open (no ENQ before): no reply")
    NOT_OPEN_WRONG = (BAD, "the line isn't open: no reply (and rejected otherwise: {why})")
    DROPPED = (BAD, "dropped: no LF ended this frame, no reply")
    CUT_OFF = (BAD, "unfinished: the capture ends before its LF")
    ANSWERS = (PLAIN, "the analyzer answers the computer's own session")
    OUTSIDE = (WARN, "bytes outside frames: ignored")
    # what the computer sends
    ECHO = (BAD, "the bytes of the analyzer come back: an echo")
    AFTER_ECHO = (PLAIN, "the answer, after an echo")
    OWN_SESSION = (PLAIN, "the computer's own session: not part of what the analyzer sends")
    UNANSWERED = (PLAIN, "an earlier unit wasn't answered")
    OTHER = (BAD, "the receiver would answer {wanted}")
    BUSY = (BAD, "the receiver would answer {wanted}: the computer is busy (in version 2 a line S busy means that)")
    REJECTS_GOOD = (BAD, "the receiver would answer {wanted}: the computer rejects a good frame")
    TAKES_BAD = (BAD, "the receiver would answer {wanted}: the computer took what must be rejected")
    INTERRUPT = (WARN, "the computer acknowledges and asks to interrupt (EOT)")

    def __init__(self, level: str, sentence: str) -> None:
        self.level, self.sentence = level, sentence

    def says(self, **values: Any) -> str:
        """Its sentence with these values."""
        return self.sentence.format(**values)


@enum.unique
class Verdict(enum.Enum):
    """A verdict on a line: its name, how bad it is, the sentence of a ladder, what to do, and the sentence about a
    running line, which never has a byte of a record."""

    HL7 = (
        "hl7",
        BAD,
        "this is HL7 version 2 (MSH, or a block of VT .. FS CR), not this link",
        "set the analyzer to ASTM, or use an HL7 receiver",
        "HL7 version 2 comes, and not this link, since {since}",
    )
    PARITY = (
        "parity",
        BAD,
        "each byte carries an {parity} parity bit: the line has 7 data bits, and was read with 8",
        "set both ends alike, 8N1 or 7{letter}1",
        "each byte since {since} carries an {parity} parity bit: the line has 7 data bits, and is read with 8",
    )
    SWAPPED = (
        "swapped",
        BAD,
        "ENQ and frames come from the computer's side alone: the sides are swapped",
        "lislab ladder --swap",
        "",
    )
    NO_BYTES = (
        "no-bytes",
        BAD,
        "the capture has no bytes of the analyzer",
        "look whether the sides are swapped (lislab capture --swap), or the wire is",
        "",
    )
    NO_PROTOCOL = (
        "no-protocol",
        BAD,
        "no ENQ and no STX: another protocol, or the wrong speed or settings of the line",
        "compare speed, data bits and parity of both ends",
        "{bytes} since {since}, no ENQ and no STX: another protocol, or the wrong speed or settings of the line",
    )
    NO_UNIT = (
        "no-unit",
        BAD,
        "STX came, but no frame was ended by LF",
        "a frame ends in ETX or ETB, two digits, CR and LF{plain}",
        "ENQ acknowledged, no frame since {since}: no LF ended one",
    )
    NO_FRAME = (
        "no-frame",
        BAD,
        "ENQ came {times}, and never a frame",
        "see whether the computer answers ACK, and what the analyzer sends after it",
        "ENQ acknowledged, no frame since {since}: nothing came after it",
    )
    TELNET = (
        "telnet",
        BAD,
        "{times} NUL follows CR, and no CR is without: a terminal server speaks Telnet on this line",
        "set its port to raw TCP (no Telnet, or binary mode), or the line of the host to `telnet=yes`; "
        "the analyzer is not at fault",
        "a terminal server speaks Telnet on this line since {since}: NUL follows each CR",
    )
    TELNET_REQUESTS = (
        "telnet-requests",
        BAD,
        "{times} a request of Telnet (IAC with WILL, WONT, DO or DONT) is on the line: a terminal server speaks Telnet",
        "set its port to raw TCP, or the line of the host to `telnet=yes`",
        "",
    )
    NO_TEXT = (
        "no-text",
        BAD,
        "no text at all came through: every frame was rejected, dropped or repeated",
        "the rows say why for each frame",
        "",
    )
    NONE_ACCEPTED = (
        "none-accepted",
        BAD,
        "{where} was accepted ({reasons})",
        "all that was sent in it is lost, unless the analyzer sends it again in a later session",
        "all {frames} rejected since {since}: {why}",
    )
    SAME_NUMBER = (
        "same-number",
        BAD,
        "all {count} frames have number {number}: each after the first is a duplicate by the rules, so its text is "
        "acknowledged and lost",
        "the sender must count 1 to 7, then 0: no receiver can tell such frames from repeats",
        "",
    )
    BEGINS_WRONG = (
        "begins-wrong",
        BAD,
        "the first frame after ENQ has number {number}: 1 is due",
        "the sender must begin with 1 after each ENQ; a receiver must not take {number}",
        "",
    )
    LOST = (
        "lost",
        BAD,
        "{frames} with the number of the one before and another text: acknowledged, and lost",
        "the sender doesn't count its frames, or missed an acknowledgement",
        "{frames} since {since} with the number of the one before and another text: acknowledged, and lost",
    )
    ETB = (
        "etb",
        BAD,
        "{bytes} of text dropped: their last frame ended in ETB, and none with ETX came",
        "the last frame of a text must end in ETX",
        "",
    )
    # why frames are rejected
    LONG = (
        "long",
        BAD,
        "{share} rejected: {why}",
        "the standard has 240 bytes; up to 63,993 are taken by `frame=63993` of a host's line, `lislab ladder --long` "
        "and `lislink replay --long`",
        "they are longer than the line takes",
    )
    SHORT = ("short", BAD, "{share} rejected: {why}", "", "there are under five bytes between STX and LF")
    LF_IN_TEXT = (
        "lf-in-text",
        BAD,
        "{share} rejected: {why}",
        "the sender must put CR alone after a record; a host's line with `fix=crlf` or `fix=lf` takes LF",
        "LF is inside the text, and ends the frame",
    )
    NO_CR = (
        "no-cr",
        BAD,
        "{share} rejected: {why}",
        "the sender must end a frame in CR and LF",
        "no CR is before their LF",
    )
    NO_SUM = (
        "no-sum",
        BAD,
        "{share} rejected: {why}",
        "another dialect of the link: frames without a checksum aren't taken",
        "they have no checksum",
    )
    SUM_DIGITS = ("sum-digits", BAD, "{share} rejected: {why}", "", "their checksum has not two characters")
    SHAPE = ("shape", BAD, "{share} rejected: {why}", "", "ETX or ETB is not where it belongs")
    NUMBER_OVER_7 = (
        "number-over-7",
        BAD,
        "{share} rejected: {why}",
        "the sender must count modulo 8: after 7 comes 0",
        "they count to 8 or 9, and after 7 comes 0",
    )
    NUMBER = (
        "number",
        BAD,
        "{share} rejected: {why}",
        "another dialect of the link: frames need a number",
        "they have no frame number",
    )
    FLOW_CONTROL = (
        "flow-control",
        BAD,
        "{share} rejected: {why}",
        "turn XON/XOFF off at both ends",
        "XON or XOFF is in the text: software flow control is on",
    )
    FORBIDDEN = ("forbidden", BAD, "{share} rejected: {why}", "", "a forbidden byte is in their text")
    SUM = ("sum", BAD, "{share} rejected: {why}", "", "the checksum is wrong")
    SUM_NO_DIGITS = ("sum-no-digits", BAD, "{share} rejected: {why}", "", "the checksum has no hexadecimal digits")
    # other ways to sum: what is said of a running line is the way
    SUM_WITHOUT_END = ("sum-without-end", BAD, "{share} rejected: {why}", _FIX_SUM, "it leaves out ETX or ETB")
    SUM_WITH_STX = ("sum-with-stx", BAD, "{share} rejected: {why}", _FIX_SUM, "it counts STX")
    SUM_WITH_STX_WITHOUT_END = (
        "sum-with-stx-without-end",
        BAD,
        "{share} rejected: {why}",
        _FIX_SUM,
        "it counts STX and leaves out ETX or ETB",
    )
    SUM_WITHOUT_NUMBER = (
        "sum-without-number",
        BAD,
        "{share} rejected: {why}",
        _FIX_SUM,
        "it leaves out the frame number",
    )
    SUM_OF_TEXT = ("sum-of-text", BAD, "{share} rejected: {why}", _FIX_SUM, "it counts only the text")
    SUM_XOR = ("sum-xor", BAD, "{share} rejected: {why}", _FIX_SUM, "it is an exclusive or")
    SUM_XOR_TEXT = (
        "sum-xor-text",
        BAD,
        "{share} rejected: {why}",
        _FIX_SUM,
        "it is an exclusive or without the number",
    )
    SUM_COMPLEMENT = ("sum-complement", BAD, "{share} rejected: {why}", _FIX_SUM, "it is the two's complement")
    SUM_WITH_CR = ("sum-with-cr", BAD, "{share} rejected: {why}", _FIX_SUM, "it counts the CR after it")
    OUT_OF_TURN = (
        "out-of-turn",
        BAD,
        "{share} rejected: {why}",
        "the sender must begin with 1 after each ENQ, and count on by one after each ACK",
        "out of turn, {due} is due",
    )
    NO_ROOM = ("no-room", BAD, "{share} rejected: {why}", "", "no room")
    TEXT_TOO_LONG = ("text-too-long", BAD, "{share} rejected: {why}", "", "the text passes 1,048,576 bytes")
    TOO_MANY = ("too-many", BAD, "{share} rejected: {why}", "", "too many frames")
    MEMORY = ("memory", BAD, "{share} rejected: {why}", "", "out of memory")
    NOISE = (
        "noise",
        WARN,
        "{share} rejected: {why}; each came again and was accepted: noise on the line",
        "look at cable, shield and speed if there are many",
        "",
    )
    GIVES_UP = (
        "gives-up",
        BAD,
        "six rejections in a row: the sender gave the session up, and its texts are lost unless it begins again",
        "",
        "",
    )
    NOT_OPEN = (
        "not-open",
        BAD,
        "{frames} came while the line wasn't open: no ENQ before them, or it was given up",
        "begin the capture before ENQ; a sender must send ENQ first",
        "bytes of frames since {since}, and no ENQ before them",
        "a sender must send ENQ first",
    )
    DROPPED = (
        "dropped",
        BAD,
        "{frames} begun and dropped: no LF ended them{how}",
        "a frame ends in ETX or ETB, two digits, CR and LF{plain}",
        "",
    )
    NO_STX = (
        "no-stx",
        BAD,
        "frames without STX: their bytes are outside frames and ignored",
        "the sender must begin a frame with STX",
        "ENQ acknowledged, no frame since {since}: no STX began one",
    )
    REPLIES = (
        "replies",
        WARN,
        "the analyzer sends ACK or NAK outside frames: an answer, and no session of the computer is in the capture",
        "",
        "",
    )
    XON_OUTSIDE = (
        "flow-control",
        WARN,
        "XON or XOFF is on the line: software flow control is on",
        "turn XON/XOFF off at both ends",
        "",
    )
    OUTSIDE = ("outside", WARN, "{bytes} outside frames, ignored", "", "")
    REJECTS_GOOD = (
        "rejects-good",
        BAD,
        "{times} the computer answers NAK to good frames",
        "the computer's receiver counts or sums otherwise: the ladder has the checksum and the number that are due",
        "",
    )
    BUSY = (
        "busy",
        WARN,
        "{times} the computer answers NAK to ENQ: it is busy",
        "put `capture 2` first and `S busy` before that ENQ, and `replay` agrees",
        "",
    )
    TAKES_BAD = (
        "takes-bad",
        BAD,
        "{times} the computer acknowledges frames that must be rejected",
        "its receiver checks too little: data may be lost or wrong",
        "",
    )
    INTERRUPT = (
        "interrupt",
        PLAIN,
        "{times} the computer acknowledges by EOT: it asks the analyzer to end soon",
        "",
        "",
    )
    OTHER_ANSWER = ("other-answer", BAD, "{times} the computer answers otherwise than a receiver would", "", "")
    ECHO = (
        "echo",
        BAD,
        "{times} the bytes of the analyzer come back as they were sent: a loopback or an echo",
        "look for a loopback plug, a wire between both data pins, or an echo that is switched on; no host answers",
        "{times} what the host sent came back since {since}: a loopback or an echo",
    )
    COMPUTER_SESSION = (
        "computer-session",
        PLAIN,
        "the computer has sessions of its own (an order download): `replay` tells them as differences",
        "`lislab capture --swap` gives a capture of the other way",
        "",
    )
    NO_REPLIES = (
        "no-replies",
        WARN,
        "the capture has no bytes of the computer: what it answered isn't known",
        "record both directions",
        "",
    )
    NO_ANSWER = (
        "no-answer",
        BAD,
        "the computer didn't answer {times} where a receiver would",
        "look whether it was running, and whether its line is wired back",
        "",
    )
    LATE = (
        "late",
        BAD,
        "{answers} came over 15 seconds late: the sender has given up by then",
        "a late ACK may be taken for another frame's: the sender needs a new connection",
        "{times} no reply was sent since {since}: it would have been late",
        "keeping a text took too long: look at the disk or the database, and at the load of the machine",
    )
    SILENCE = (
        "silence",
        WARN,
        "{times} the analyzer was silent for over 30 seconds in a session",
        "`lislab capture --timer 30` puts the lines T",
        "",
    )
    TWO_BYTES = (
        "two-bytes",
        WARN,
        "bytes over 127 are followed by |, \\, ^ or ~: text of two bytes a character (GBK, Big5, Shift JIS) is split "
        "at its second bytes",
        "set the analyzer to UTF-8 or to plain letters",
        "",
    )
    NO_EOT = ("no-eot", PLAIN, "the capture ends within a session: no EOT came", "", "")
    NO_CR_IN_TEXTS = (
        "no-cr-in-texts",
        BAD,
        "no text ends in CR: the records run together, and none is ended",
        "the sender must put CR after each record, inside the frame",
        "",
    )
    INCOMPLETE = (
        "incomplete",
        BAD,
        "a message is incomplete at its record {number} ({code}): the rest was lost on the link",
        "",
        "",
    )
    RECORD = ("record", BAD, "record {number} of a message is rejected ({code}): {why}", "{fixes}", "")
    RECORDS = ("records", BAD, "{messages} rejected", "", "")
    SEQUENCE = (
        "sequence",
        WARN,
        "{numbers} of records isn't the position: not counted from 1, or not in order",
        "readers that rely on it may mix results up",
        "",
    )

    # of a line that runs alone
    DISK_FULL = (
        "disk-full",
        BAD,
        "",
        "make room: until then nothing is acknowledged, and nothing that was is lost",
        "{times} a text could not be stored since {since}: the disk is full",
    )
    STORE_GONE = (
        "store-gone",
        BAD,
        "",
        "look after the store: until it is there nothing is acknowledged, and nothing that was is lost",
        "{times} a text could not be stored since {since}: the store is gone ({why})",
    )
    TOO_BIG = (
        "too-big",
        BAD,
        "",
        "`lislab serve --message-bytes` sets how much a message may have",
        "{times} a text could not be stored since {since}: {why}",
    )
    NO_DEVICE = ("no-device", BAD, "", "look whether it is plugged in, and who may open it", "{why}")
    NO_CONNECTION = (
        "no-connection",
        BAD,
        "",
        "see whether what listens there is on, and whether address, port and firewall are right",
        "the host can't connect: {why}",
    )
    NOT_HEARD = (
        "not-heard",
        BAD,
        "",
        "look at the wire from the host to the analyzer, and at the analyzer's settings",
        "{times} ENQ was acknowledged since {since}, and ENQ came again: the replies aren't heard",
    )
    NO_REPLY = (
        "no-reply",
        BAD,
        "",
        "look whether the analyzer is on, and takes orders",
        "{times} a session of the host failed since {since}: {why}",
    )
    NOT_COMPLETE = (
        "not-complete",
        BAD,
        "",
        "`lislab export --state all` shows them; an analyzer may not send them again",
        "{messages} since {since} can't be delivered, the last one is {why}",
    )
    FAILED_ORDERS = (
        "failed-orders",
        BAD,
        "",
        "`lislab order list --state failed` shows them: `lislab order again` sends one again, `cancel` cancels it",
        "{orders} failed since {since}, the last one is order {why}",
    )
    NO_ORDERS = (
        "no-orders",
        BAD,
        "",
        "does the LIS hand over orders, for these samples? `lislab order list` shows them, `query-sample` of the line "
        "says where a query has its sample",
        "{times} in a row since {since} there was no order for a query",
    )
    DISTURBED = (
        "disturbed",
        BAD,
        "",
        "look at cable, shield and speed; if the analyzer begins sessions without EOT, set `careful = no` of its line",
        "noise on the line: {times} since {since} ENQ or STX came inside a session or a frame, and no message since",
    )
    HOST_DOWN = ("host-down", BAD, "", "start it: lislab serve", "the host isn't running")
    GOES_ON = ("goes-on", GOOD, "", "", "a session goes on, {frames} since {since}")
    COMPLETE = ("complete", GOOD, "", "", "last message {ago} ago")
    ONLINE = ("online", PLAIN, "", "", "connected, no message for {ago}")
    NEVER = ("never", PLAIN, "", "", "no message since the host started, {ago} ago{who}")
    AWAY = ("away", PLAIN, "", "", "nobody is connected, last message {ago} ago")

    def __init__(self, key: str, level: str, sentence: str, advice: str, live: str, live_advice: str = "") -> None:
        self.key, self.level, self.sentence, self.advice, self.live = key, level, sentence, advice, live
        #: What to do about a line that runs: another thing only where that can do something that a capture can't.
        self.live_advice = live_advice or advice


#: Why the receiver rejects a frame that is one.
REJECTED = {
    Note.OUT_OF_TURN: Verdict.OUT_OF_TURN,
    Note.NO_ROOM: Verdict.NO_ROOM,
    Note.TEXT_TOO_LONG: Verdict.TEXT_TOO_LONG,
    Note.TOO_MANY: Verdict.TOO_MANY,
    Note.OUT_OF_MEMORY: Verdict.MEMORY,
}
#: Why a frame is rejected if damage did it, next to frames that are right.
_BY_DAMAGE = (
    Verdict.SUM_NO_DIGITS,
    Verdict.SUM_DIGITS,
    Verdict.FORBIDDEN,
    Verdict.SHAPE,
    Verdict.SHORT,
)
Ways = FrozenSet[Verdict]


def way_of(frames: Iterable[Ways]) -> Optional[Verdict]:
    """The other way to sum by which the checksums of all frames are right, if there is one: each has the ways by which
    its own is."""
    found: Optional[Ways] = None
    for ways in frames:
        found = ways if found is None else found & ways
    return next((one for one in Verdict if one in found), None) if found else None


def is_way(way: Optional[Verdict], count: int, has_good: bool) -> bool:
    """Whether the sender sums by another way: so many checksums are right by it, and other frames of it are right or
    not."""
    return way is not None and (not has_good or count >= _SURE)


def advice_on(kind: Verdict, has_good: bool, way: Optional[Verdict] = None, count: int = 0) -> str:
    """What to do about frames that are rejected: of a ladder and of a line that runs, whose other frames are right or
    not. Of wrong checksums it is asked by which other way all of them are right, and how many they are."""
    if kind is Verdict.SUM:
        if way is not None and is_way(way, count, has_good):
            return way.advice
        return _DAMAGED if has_good else _UNSURE
    return kind.advice or (_DAMAGED if has_good and kind in _BY_DAMAGE else _SENDER_WRONG)


def plain_hint(data: bytes) -> str:
    """The protocol to which bytes fit that make no frame: they may be blocks from STX to ETX."""
    blocks = re.findall(rb"\x02[^\x02]*", data)
    return _PLAIN if blocks and all(one.rstrip(b"\x04\x05").endswith(b"\x03") for one in blocks) else ""
