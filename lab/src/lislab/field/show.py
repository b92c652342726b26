"""A ladder as text."""
from typing import Iterator, List, Optional

from lislink.message import Entry, Fault, Found
from ..diagnosis.faults import code_of, words
from ..diagnosis.log import SECOND, time_text
from .ladder import Ladder, Look, Row
from .looks import looks_of, rejected_at

_WIDTH = 58
_MARKS = {"good": " ", "plain": " ", "warn": "!", "bad": "X"}


def summary(ladder: Ladder) -> str:
    """The counts of a session in one line."""
    told = ladder.counts()
    return ", ".join(
        f"{name} {count}" for name, count in told.items() if count or name in ("frames", "texts", "differences")
    )


def _clock(time: Optional[int]) -> str:
    return time_text(time).split("T")[-1][:12]


def row_text(row: Row) -> Iterator[str]:
    """The line of a row."""
    head = f"{row.line:6} {_clock(row.time):12} {_MARKS[row.level]} "
    title = row.title if len(row.title) <= _WIDTH - 6 else row.title[: _WIDTH - 7] + "…"
    if row.side == ">":
        line = f"├─ {title} ".ljust(_WIDTH, "─") + "▶│"
    elif row.side == "<":
        line = "│◀" + f" {title} ─┤".rjust(_WIDTH, "─")
    else:
        line = "│" + row.title[:_WIDTH].center(_WIDTH) + "│"
    note = row.note
    if row.checksum and row.checksum.found.upper() == row.checksum.wanted:
        note += f" (checksum {row.checksum.found})"
    if row.side == ">" and row.reply:
        note += f" -> {words(row.reply)}"
    yield (head + line + "  " + note).rstrip()


def ladder_lines(ladder: Ladder, only_wrong: bool = False) -> Iterator[str]:
    """The rows of the ladder, with the silences of over a second between them; or only the rows that look wrong."""
    yield f"{'line':>6} {'time':12}   {'analyzer'.ljust(_WIDTH - 7)} computer"
    before: Optional[int] = None
    for row in ladder.rows:
        if only_wrong:
            yield from row_text(row) if row.level in ("bad", "warn") else ()
            continue
        if row.time is not None and before is not None and row.time - before > SECOND:
            yield f"{'':19}   │" + f"{(row.time - before) / SECOND:.1f} s later".center(_WIDTH) + "│"
        before = row.time if row.time is not None else before
        yield from row_text(row)


def _tree(entry: Entry, depth: int) -> Iterator[str]:
    yield f"{'  ' * depth}{entry.number:>3} {entry.letter} {_fields(entry)}"
    for one in entry.notes + entry.children:
        yield from _tree(one, depth + 1)


def _fields(entry: Entry) -> str:
    return "|".join(entry.whole(entry.row.first + place) for place in range(entry.row.count))[:100]


def message_lines(ladder: Ladder) -> Iterator[str]:
    """The messages as trees, with findings and what is rejected."""
    for number, one in enumerate(ladder.messages, 1):
        if isinstance(one, Found):
            yield f"message {number}: {len(one.message.rows)} records, from line {ladder.line_of(one.start)}"
            for entry in one.message.entries:
                if entry.letter in "HPQL":
                    yield from _tree(entry, 1)
            for finding in one.message.findings():
                yield f"  finding: record {finding.number} ({finding.letter}) has another sequence number than {finding.position}"
        else:
            yield from _rejected(ladder, number, one)


def _rejected(ladder: Ladder, number: int, fault: Fault) -> Iterator[str]:
    record, cause = rejected_at(ladder.stream, fault)
    where = f"record {fault.error.number}, line {ladder.line_of(fault.place)} ({code_of(fault.error)})"
    yield f"message {number}: rejected at {where}: {cause.words}"
    if record:
        yield f"  {words(record, 60)}"


def look_lines(looks: List[Look]) -> Iterator[str]:
    """What looks wrong, each with its lines and what to do."""
    for look in looks:
        where = f" (line {', '.join(map(str, look.lines))})" if look.lines else ""
        yield f"{_MARKS[look.level]} {look.words}{where}"
        if look.advice:
            yield f"    {look.advice}"


def text_of(ladder: Ladder, only_wrong: bool = False) -> str:
    """The whole picture as text, or only what looks wrong."""
    looks = looks_of(ladder)
    parts = ["\n".join(ladder_lines(ladder, only_wrong))]
    if ladder.messages and not only_wrong:
        parts.append("\n".join(message_lines(ladder)))
    parts.append("summary: " + summary(ladder))
    parts.append(
        "What looks wrong:\n" + "\n".join(look_lines(looks))
        if any(one.level != "plain" for one in looks)
        else "Nothing looks wrong." + ("\n" + "\n".join(look_lines(looks)) if looks else "")
    )
    return "\n\n".join(parts) + "\n"
