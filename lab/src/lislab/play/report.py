"""What a laboratory keeps and signs: one page of HTML with each play as a ladder; and JUnit's XML for machines."""
import datetime
import re
from html import escape
from typing import Iterator, List, Sequence
from xml.sax.saxutils import quoteattr

from ..diagnosis.faults import words
from ..field.ladder import Row
from ..field.page import alone, rows_of, table, table_row
from .frames import WORDS, read_frame
from .player import Event, Played, ranges

_BAD = re.compile(r"[^\t\n\r\x20-\ud7ff\ue000-\ufffd]")


def _row(event: Event, own: str) -> Row:
    frame = read_frame(event.data)
    note = "; ".join(f"wanted {wanted}, got {got}" for wanted, got in event.differences)
    level = "bad" if event.differences else "plain" if event.mark in (own, "-") else "good"
    base = Row(event.line, event.time, event.mark, "event", event.words, note, level, event.data)
    if event.mark == "-":
        return base
    if frame is not None:
        title = f"frame {frame.number} {words(frame.text)}" + ("" if frame.is_last else "<ETB>")
        return base._replace(kind="frame", title=title, number=frame.number, last=frame.is_last, text=frame.text)
    title = WORDS.get(event.data[0], "") if len(event.data) == 1 else ""
    return base._replace(kind="unit", title=title or words(event.data) or "nothing")


def _section(one: Played, anchors: str) -> Iterator[str]:
    found, outcome = one.outcome.differences, one.outcome
    yield f'<section><h2 id="{escape(one.name)}">{escape(one.name)}</h2>'
    yield "".join(f'<p class="about">{escape(line)}</p>' for line in one.about)
    yield f'<div class="counts"><span><b>{outcome.steps}</b> steps</span><span data-count="differences">'
    end = "analyzer" if one.mark == ">" else "computer"
    yield f"<b>{len(found)}</b> differences</span><span>played as the {end} from {escape(one.own or '-')}</span>"
    yield f"<span>at the other end {escape(one.other or '-')}</span><span>{_clock(one.begun)}</span></div>"
    if outcome.failed:
        yield f'<p class="look bad">The play stopped: {escape(outcome.failed)}</p>'
    for line, (wanted, got) in found:
        where = f'<a href="#{anchors}{line}">line {line}</a>' if line else "the end"
        yield f'<div class="look bad" data-difference="{line}">At {where}: wanted <code>{escape(wanted)}</code>, '
        yield f"got <code>{escape(got)}</code></div>"
    if outcome.skipped:
        yield f'<p class="look">Not played: line {ranges(outcome.skipped)}.</p>'
    if not found and not outcome.failed:
        yield '<p class="look">No difference.</p>'
    yield '<table class="ladder"><colgroup><col class="n"><col class="t"><col class="p"><col class="q"><col>'
    yield "</colgroup>"
    yield "<thead><tr><th>line</th><th>time</th><th>analyzer</th><th style='text-align:right'>computer</th>"
    yield "<th>what differs</th></tr></thead><tbody>"
    yield from rows_of([_row(event, one.mark) for event in outcome.events], False, anchors)
    yield "</tbody></table></section>"


def _clock(seconds: float) -> str:
    return datetime.datetime.fromtimestamp(seconds).astimezone().isoformat(" ", "seconds")


def _sums(plays: Sequence[Played]) -> str:
    rows = []
    for one in plays:
        count, name = len(one.outcome.differences), escape(one.name)
        level = "bad" if count or one.outcome.failed else ""
        end = ", and the play stopped" if one.outcome.failed else ""
        link = f'<a href="#{name}">{name}</a>'
        rows.append(table_row(link, one.outcome.steps, f"{count}{end}", kind=f' class="{level}"'))
    return table(("play", "steps", "differences"), rows, ' class="ladder"')


def page_of(plays: Sequence[Played]) -> str:
    """The page, with a place for two signatures."""
    title = plays[0].name if len(plays) == 1 else f"{len(plays)} plays"
    wrong = sum(bool(one.outcome.differences or one.outcome.failed) for one in plays)
    sums = _sums(plays) if len(plays) > 1 else ""
    sections = "".join("".join(_section(one, f"p{place}l")) for place, one in enumerate(plays, 1))
    top = f"""<div class="counts"><span>{_clock(plays[0].begun)}</span><span><b>{len(plays)}</b> played</span>
<span><b>{wrong}</b> with differences</span></div>"""
    sign = """<table class="sign"><tr><td></td><td></td></tr>
<tr class="under"><td>for the laboratory: name, date, signature</td><td>for the maker: name, date, signature</td></tr>
</table>"""
    foot = "Made by lislab play, which is tested, and not proved."
    foot += " This page holds what was sent: keep it as patients' data."
    return alone(f"{title}: play", f"Acceptance test of a line: {title}", top, f"{sums}{sections}{sign}", foot)


def junit_of(plays: Sequence[Played]) -> str:
    """The same as JUnit's XML: a test for each play."""
    failures = sum(bool(one.outcome.differences) and not one.outcome.failed for one in plays)
    errors = sum(bool(one.outcome.failed) for one in plays)
    seconds = sum(one.seconds for one in plays)
    rows: List[str] = ['<?xml version="1.0" encoding="UTF-8"?>']
    counts = f'tests="{len(plays)}" failures="{failures}" errors="{errors}" time="{seconds:.3f}"'
    rows.append(f'<testsuite name="lislab play" {counts}>')
    for one in plays:
        name = quoteattr(_clean(one.name))
        rows.append(f'<testcase classname="lislab.play" name={name} time="{one.seconds:.3f}">')
        found = [f"difference {line or 'end'} {wanted} {got}" for line, (wanted, got) in one.outcome.differences]
        text = escape(_clean("\n".join(found)), quote=False)
        if one.outcome.failed:
            rows.append(f"<error message={quoteattr(_clean(one.outcome.failed))}>{text}</error>")
        elif found:
            rows.append(f'<failure message="{len(found)} differences">{text}</failure>')
        rows.append("</testcase>")
    return "\n".join([*rows, "</testsuite>"]) + "\n"


def _clean(text: str) -> str:
    """Text without what XML can't have."""
    return _BAD.sub("?", text)
