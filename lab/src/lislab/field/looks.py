"""Finds what looks wrong in a session, even if it breaks no rule, and names the command that helps. A table has what to
look for, with the verdict on it; the sentences of the verdicts are in `diagnosis.verdicts`."""
import re
from collections import Counter
from typing import Any, Callable, Dict, Iterator, List, NamedTuple, Optional, Tuple, Union

from lislink.codes import Note, Reason
from lislink.message import Fault, Found
from ..diagnosis.faults import RecordCause, cause_of_record, code_of
from ..diagnosis.log import SECOND
from ..diagnosis.protocols import has_bare_frames, is_hl7, parity_of, telnet_in
from ..diagnosis.verdicts import BAD, WARN, Meaning, Verdict, advice_on, is_way, plain_hint, way_of
from ..model.said import many
from .ladder import Ladder, Look, Row


class Check(NamedTuple):
    """What is looked for in rows: the verdict, the rows that it is about, and what its sentence says besides how many
    they are."""

    verdict: Verdict
    rows: Callable[[Ladder], List[Row]]
    values: Callable[[Ladder, List[Row]], Dict[str, Any]] = lambda ladder, rows: {}

    def looks(self, ladder: Ladder) -> Iterator[Look]:
        """The look, if there are such rows; it names the first of them."""
        rows = self.rows(ladder)
        if rows:
            yield look_of(self.verdict, _lines(rows), len(rows), **self.values(ladder, rows))


def looks_of(ladder: Ladder) -> List[Look]:
    """All that looks wrong, the worst first."""
    found: List[Look] = []
    for one in _TABLE:
        found += one.looks(ladder) if isinstance(one, Check) else one(ladder)
    order = {"bad": 0, "warn": 1, "plain": 2}
    return sorted(found, key=lambda look: order[look.level])


def look_of(verdict: Verdict, lines: List[int], count: int = 0, **values: Any) -> Look:
    """What a verdict says of so many rows, with their first lines, or with the values that are given."""
    said: Dict[str, Any] = {"count": count, "times": _times(count), "fixes": "", "plain": ""}
    said.update({f"{name}s": many(count, name) for name in ("frame", "byte", "answer")})
    said.update(values)
    advice = verdict.advice.format(**said)
    return Look(verdict.key, verdict.level, verdict.sentence.format(**said), advice, lines[:5])


def meant(*meanings: Meaning) -> Callable[[Ladder], List[Row]]:
    """The rows with one of these meanings."""
    return lambda ladder: [row for row in ladder.rows if row.meaning in meanings]


def _times(count: int) -> str:
    return "once" if count == 1 else f"{count} times"


def _lines(rows: List[Row]) -> List[int]:
    return list(dict.fromkeys(row.line for row in rows))


def _no_protocol(ladder: Ladder) -> Iterator[Look]:
    data = ladder.analyzer
    if is_hl7(data):
        yield look_of(Verdict.HL7, [])
    elif parity := parity_of(data):
        yield look_of(Verdict.PARITY, [], parity=parity, letter=parity[0].upper())
    elif 5 not in data and 2 not in data and 5 in ladder.computer and 2 in ladder.computer:
        yield look_of(Verdict.SWAPPED, [])
    elif not data:
        yield look_of(Verdict.NO_BYTES, [])
    elif 5 not in data and 2 not in data:
        yield look_of(Verdict.NO_PROTOCOL, [])
    elif 2 in data and not any(True for _ in ladder.units()):
        yield look_of(Verdict.NO_UNIT, [], plain=plain_hint(data))
    elif 5 in data and 2 not in data:
        rows = [row for row in ladder.rows if row.kind == "ENQ"]
        is_acknowledged = all(row.raw == b"\x06" for row in ladder.rows if row.side == "<")
        look = look_of(Verdict.NO_FRAME, _lines(rows), len(rows))
        yield look._replace(level=WARN) if ladder.has_replies and is_acknowledged else look


def _telnet(ladder: Ladder) -> List[Row]:
    if not _is_telnet(ladder):
        return []
    return [row for row in ladder.rows if row.side == ">" and b"\r\0" in row.raw]


#: A request of Telnet: IAC, WILL to DONT, and an option as terminal servers have them.
_REQUEST = re.compile(rb"\xff[\xfb-\xfe][\x00-\x1f\x22-\x27\x2c]")


def _requests(ladder: Ladder) -> List[Row]:
    """Telnet's requests between the frames of either side."""
    return [row for row in ladder.rows if row.kind not in ("frame", "bad") and _REQUEST.search(row.raw)]


def _is_telnet(ladder: Ladder) -> bool:
    return telnet_in(ladder.analyzer) > 0


def _no_text(ladder: Ladder) -> Iterator[Look]:
    if not ladder.texts and any(row.kind in ("frame", "bad") for row in ladder.units()):
        yield look_of(Verdict.NO_TEXT, [])


def _sessions(ladder: Ladder) -> Iterator[List[Row]]:
    """The rows of each session, from the ENQ that opened it to the next one."""
    session: List[Row] = []
    for row in ladder.rows:
        if row.heard is Note.OPENED:
            if session:
                yield session
            session = [row]
        elif session:
            session.append(row)
    if session:
        yield session


def _none_accepted(ladder: Ladder) -> Iterator[Look]:
    """Sessions with frames of which none was accepted, whatever the other sessions gave."""
    count, rows, lost = 0, [], []  # type: int, List[Row], List[Row]
    for session in _sessions(ladder):
        count += 1
        frames = [row for row in session if row.kind == "dropped" or row.heard is not Note.QUIET and _is_frame(row)]
        if frames and not any(row.heard is Note.ACCEPTED for row in frames):
            rows.append(session[0])
            lost += frames
    if rows:
        why = {_key(row): row.cause.words if row.cause else "no LF ended it" for row in lost[::-1]}
        times = Counter(_key(row) for row in lost)
        reasons = "; ".join(f"{many(times[name], 'frame')}: {why[name]}" for name, _ in times.most_common(3))
        reasons += "; and others" if len(times) > 3 else ""
        where = "no frame of the session" if count == 1 else f"in {len(rows)} of {count} sessions no frame"
        yield look_of(Verdict.NONE_ACCEPTED, _lines(rows), where=where, reasons=reasons)


def _key(row: Row) -> str:
    return row.cause.kind.key if row.cause else ""


def _is_frame(row: Row) -> bool:
    """Whether a row is a frame, or what should be one."""
    return row.kind in ("frame", "bad")


def _frames(ladder: Ladder) -> List[Row]:
    return [row for row in ladder.units() if row.kind == "frame"]


def _same_number(ladder: Ladder) -> List[Row]:
    frames = _frames(ladder)
    is_one = len({row.text for row in frames}) > 1 and len({row.number for row in frames}) == 1
    return frames if is_one else []


def _begins_wrong(ladder: Ladder) -> List[Row]:
    before: Optional[Row] = None
    for row in ladder.units():
        if row.heard is Note.OUT_OF_TURN and before is not None and before.kind == "ENQ":
            return [row]
        before = row
    return []


def _never_ended(ladder: Ladder) -> Iterator[Look]:
    if ladder.dropped:
        yield look_of(Verdict.ETB, [line for line, _ in ladder.dropped], sum(count for _, count in ladder.dropped))


#: Causes that are no noise: what is wrong stays, though the frame is right when it comes again.
_KEPT = (Verdict.FLOW_CONTROL, Verdict.OUT_OF_TURN, Verdict.NO_ROOM, Verdict.MEMORY)


def _bad_frames(ladder: Ladder) -> Iterator[Look]:
    frames = [row for row in ladder.units() if _is_frame(row)]
    rows = [row for row in frames if row.cause is not None and row.cause.verdict is not Verdict.LOST]
    has_good = bool(_frames(ladder))
    for kind, count in Counter(_kind(row) for row in rows).most_common():
        mine = [row for row in rows if _kind(row) is kind]
        share = f"all {count} frames" if count == len(frames) > 1 else f"{count} of {many(len(frames), 'frame')}"
        why = mine[0].cause.words if mine[0].cause else ""
        if kind not in _KEPT and _is_noise(frames, mine):
            yield look_of(Verdict.NOISE, _lines(mine), share=share, why=why)
        elif kind is Verdict.SUM:
            yield _sums(mine, share, has_good)
        elif not (kind is Verdict.NO_CR and _is_telnet(ladder)):
            yield look_of(kind, _lines(mine), share=share, why=why)._replace(advice=advice_on(kind, has_good))


def _is_noise(frames: List[Row], rows: List[Row]) -> bool:
    """Whether each of these frames came again and was accepted."""
    again = [row for row, after in zip(frames, frames[1:]) if row in rows and after.heard is Note.ACCEPTED]
    return len(again) >= len(rows)


def _kind(row: Row) -> Verdict:
    """Why a frame is rejected; that its checksum is wrong, even if it is right by another way to sum."""
    assert row.cause is not None
    return row.cause.kind if row.checksum is not None else row.cause.verdict


def _sums(rows: List[Row], share: str, has_good: bool) -> Look:
    """Wrong checksums: by which other way all are right, or, if there are several ways, how often each."""
    causes = [row.cause for row in rows if row.cause is not None]
    way, why = way_of(cause.ways for cause in causes), causes[0].words
    advice = advice_on(Verdict.SUM, has_good, way, len(rows))
    if way is not None and is_way(way, len(rows), has_good):
        return look_of(way, _lines(rows), share=share, why=f"{why}; {way.live}")._replace(advice=advice)
    times = Counter(cause.verdict for cause in causes)
    if len(times) > 1 and not has_good:
        ways = {one: one.live if one is not Verdict.SUM else "by no way that is known" for one in times}
        words = [f"{_times(count)} {ways[one]}" for one, count in times.most_common(3)]
        why += "; " + ", ".join(words) + (" and others" if len(times) > 3 else "")
    return look_of(Verdict.SUM, _lines(rows), share=share, why=why)._replace(advice=advice)


def _gives_up(ladder: Ladder) -> List[Row]:
    count, rows = 0, []
    for row in ladder.units():
        if row.reply == b"\x15":
            count += 1
        elif row.kind == "EOT" and count >= 6:
            rows.append(row)
        count = count if row.reply == b"\x15" else 0
    return rows


def _how_dropped(ladder: Ladder, rows: List[Row]) -> Dict[str, Any]:
    ends = Counter("CR" if row.raw.rstrip(b"\x04").endswith(b"\r") else "other" for row in rows)
    how = " (they end in CR alone)" if ends["CR"] == len(rows) else ""
    plain = plain_hint(b"".join(row.raw for row in rows))
    return {"how": how + (" (they end in ETX: neither checksum nor CR LF)" if plain else ""), "plain": plain}


def _outside(ladder: Ladder) -> Iterator[Look]:
    rows = meant(Meaning.OUTSIDE)(ladder)
    data = _REQUEST.sub(b"", b"".join(row.raw for row in rows))
    if not data:
        return
    if has_bare_frames(data):
        yield look_of(Verdict.NO_STX, _lines(rows))
    elif parity_of(ladder.analyzer) or b"MSH|" in data:
        return
    elif set(data) <= {6, 0x15}:
        yield look_of(Verdict.REPLIES, _lines(rows))
    elif set(data) <= {17, 19}:
        yield look_of(Verdict.XON_OUTSIDE, _lines(rows))
    else:
        yield look_of(Verdict.OUTSIDE, _lines(rows), len(data))


def _no_replies(ladder: Ladder) -> Iterator[Look]:
    if not ladder.has_replies and any(True for _ in ladder.units()):
        yield look_of(Verdict.NO_REPLIES, [])


def _no_answer(ladder: Ladder) -> List[Row]:
    rows: List[Row] = []
    before: Optional[Row] = None
    for row in ladder.rows if ladder.has_replies else []:
        if row.side == ">" and row.kind in ("ENQ", "frame", "bad", "EOT"):
            if before is not None and before.reply:
                rows.append(before)
            before = row
        elif row.side == "<":
            before = None
    if before is not None and before.reply:
        rows.append(before)
    return rows


def _late(ladder: Ladder) -> List[Row]:
    rows = []
    before: Optional[Row] = None
    for row in ladder.rows:
        if row.side == "<" and before is not None and before.time is not None and row.time is not None:
            if row.time - before.time > 15 * SECOND:
                rows.append(row)
        if row.side in "<>":
            before = row if row.side == ">" else None
    return rows


#: Two or more characters of two bytes in a row, as GBK, Big5 and Shift JIS have them.
_PAIRS = re.compile(rb"(?:[\x81-\xfe][\x40-\x7e\x80-\xfe]){2,}")


def _is_split(text: bytes) -> bool:
    """Whether text of two bytes a character has a delimiter as a second byte. A first byte from C0 on is a letter of
    the code pages of one byte, as 1251 and Latin-1 are, with a delimiter after it."""
    runs = (found.group() for found in _PAIRS.finditer(text))
    return any(run[at] < 0xC0 and run[at + 1] in b"|\\^~" for run in runs for at in range(0, len(run), 2))


def _records(ladder: Ladder) -> Iterator[Look]:
    if _is_telnet(ladder):
        return
    faults = [one for one in ladder.messages if isinstance(one, Fault)]
    if len(ladder.texts) > 1 and not any(text.data.endswith(b"\r") for text in ladder.texts):
        yield look_of(Verdict.NO_CR_IN_TEXTS, [text.line for text in ladder.texts])
        return
    for fault in faults[:8]:
        yield _of_fault(ladder, fault)
    if len(faults) > 8:
        yield look_of(Verdict.RECORDS, [], messages=many(len(faults) - 8, "more message"))


def _of_fault(ladder: Ladder, fault: Fault) -> Look:
    """Why a message is rejected."""
    number, code = fault.error.number, code_of(fault.error)
    lines = [ladder.line_of(fault.place)]
    if fault.error.reason in (Reason.UNFINISHED, Reason.NOT_HEADER, Reason.SECOND_HEADER) and _was_lost(ladder):
        return look_of(Verdict.INCOMPLETE, lines, number=number, code=code)
    _, cause = rejected_at(ladder.stream, fault)
    look = look_of(Verdict.RECORD, lines, number=number, code=code, why=cause.words, fixes=_fixes(cause.options))
    return look._replace(name=f"{look.name}-{cause.name}")


def _fixes(options: List[str]) -> str:
    """The options that fix the records of a file, and the settings for a host's line."""
    if options == ["--long"]:
        return "`lislab normalize --long` leaves the record out, as a host does"
    names = " or ".join(f"`fix={one[2:]}`" for one in options)
    all_of_them = " or ".join(options)
    return f"`lislab normalize {all_of_them}` fixes the records, {names} those of a host's line" if options else ""


def _was_lost(ladder: Ladder) -> bool:
    """Whether a frame was rejected, dropped or lost, or a session was aborted."""
    return any(row.level == BAD and row.side == ">" for row in ladder.rows) or Note.TIMED_OUT in ladder.notes


def rejected_at(stream: bytes, fault: Fault) -> Tuple[bytes, RecordCause]:
    """The record at which a message is rejected, without its CR, and why."""
    end = stream.find(b"\r", fault.place)
    record = stream[fault.place : end if end >= 0 else len(stream)]
    return record, cause_of_record(fault.error, record, end < 0)


def _sequence(ladder: Ladder) -> Iterator[Look]:
    count = sum(len(one.message.findings()) for one in ladder.messages if isinstance(one, Found))
    if count:
        yield look_of(Verdict.SEQUENCE, [], numbers=many(count, "sequence number"))


#: What is looked for, in the order in which looks that are as bad are shown.
_TABLE: "tuple[Union[Check, Callable[[Ladder], Iterator[Look]]], ...]" = (
    _no_protocol,
    Check(Verdict.TELNET, _telnet, lambda ladder, rows: {"times": _times(telnet_in(ladder.analyzer))}),
    Check(
        Verdict.TELNET_REQUESTS,
        _requests,
        lambda _, rows: {"times": _times(sum(len(_REQUEST.findall(row.raw)) for row in rows))},
    ),
    _no_text,
    _none_accepted,
    Check(Verdict.SAME_NUMBER, _same_number, lambda _, rows: {"number": rows[0].number}),
    Check(Verdict.BEGINS_WRONG, _begins_wrong, lambda _, rows: {"number": rows[0].number}),
    Check(Verdict.LOST, meant(Meaning.LOST)),
    _never_ended,
    _bad_frames,
    Check(Verdict.GIVES_UP, _gives_up),
    Check(Verdict.NOT_OPEN, meant(Meaning.NOT_OPEN, Meaning.NOT_OPEN_WRONG)),
    Check(Verdict.DROPPED, meant(Meaning.DROPPED, Meaning.CUT_OFF), _how_dropped),
    _outside,
    Check(Verdict.REJECTS_GOOD, meant(Meaning.REJECTS_GOOD)),
    Check(Verdict.BUSY, meant(Meaning.BUSY)),
    # A host that speaks Telnet drops the NUL bytes of Telnet.
    Check(Verdict.TAKES_BAD, lambda ladder: [] if _is_telnet(ladder) else meant(Meaning.TAKES_BAD)(ladder)),
    Check(Verdict.INTERRUPT, meant(Meaning.INTERRUPT)),
    Check(Verdict.OTHER_ANSWER, lambda ladder: [row for row in meant(Meaning.OTHER)(ladder) if row.kind == "reply"]),
    Check(Verdict.ECHO, meant(Meaning.ECHO)),
    Check(Verdict.COMPUTER_SESSION, meant(Meaning.OWN_SESSION)),
    _no_replies,
    Check(Verdict.NO_ANSWER, _no_answer),
    Check(Verdict.LATE, _late),
    Check(Verdict.SILENCE, meant(Meaning.SILENCE)),
    Check(Verdict.TWO_BYTES, lambda ladder: [row for row in ladder.units() if _is_split(row.text)]),
    Check(Verdict.NO_EOT, lambda ladder: ladder.rows[-1:] if ladder.is_open else []),
    _records,
    _sequence,
)
