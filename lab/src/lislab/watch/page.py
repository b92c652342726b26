"""The pages of `lislab watch --http`. Whatever came from a line goes through `safe`: no byte of it is markup, and none
turns the text around it."""
import html
import time
import unicodedata
from typing import Any, Iterable, List, Mapping, NamedTuple, Optional, Sequence
from urllib.parse import urlencode

from lislink.message import KINDS, NAMES, Fault, Found, read_all
from ..diagnosis.faults import words
from ..diagnosis.pulse import PAST
from ..field.page import framed, rows_of, table, table_row, text_of
from ..model.book import Failed
from ..model.said import many
from ..model.store import COMPLETE, Head, Stored
from ..outbound.export import time_text
from . import plot
from .tally import DAYS, Tally, share

#: The most characters that are shown of a value; the most bytes of a message whose records are shown.
VALUE, RECORDS = 2000, 1 << 20
MARKS = {"good": "\u2713 good", "quiet": "\u2013 quiet", "bad": "\u2717 bad"}
#: Characters that turn the text around them, or are a space of no width.
_TURNS = {"\u061c", "\u200b", "\u200c", "\u200d", "\u200e", "\u200f", "\u2028", "\u2029", "\ufeff"}
_TURNS |= {chr(one) for one in [*range(0x202A, 0x202F), *range(0x2060, 0x2070)]}
STYLE = text_of("page.css", __package__)
#: Puts what a page's address gives now in the place of what it shows, if that is another.
SCRIPT = text_of("page.js", __package__)


def safe(text: object, most: int = VALUE) -> str:
    """Text as HTML. A character that no one sees, or that turns the text around it, is shown by its number."""
    whole = str(text)
    shown = "".join(f"<{ord(one):02X}>" if _is_odd(one) else one for one in whole[:most])
    rest = f" \u2026 ({len(whole) - most} more characters)" if len(whole) > most else ""
    return f"<bdi>{html.escape(shown, quote=True)}</bdi>{rest}"


def _is_odd(one: str) -> bool:
    return one in _TURNS or unicodedata.category(one) in ("Cc", "Cf", "Cs", "Co", "Cn")


def link(path: str, text: object, **given: str) -> str:
    """A link to another page."""
    address = path + ("?" + urlencode(given) if given else "")
    return f'<a href="{html.escape(address, quote=True)}">{safe(text, 200)}</a>'


def when(at: Optional[float]) -> str:
    """A time of the clock on the wall."""
    return time_text(at)[:19].replace("T", " ") if at else "never"


def page(title: str, body: str, is_live: bool = False) -> str:
    """A page."""
    again = '<script src="/live.js" defer></script><noscript><meta http-equiv="refresh" content="15"></noscript>'
    head = '<link rel="stylesheet" href="/style.css">' + (again if is_live else "")
    names = {"/": "all interfaces", "/trouble": "incomplete and invalid messages", "/metrics": "metrics"}
    top = f"<nav>{' &middot; '.join(link(path, name) for path, name in names.items())}</nav>"
    foot = f'<p class="note">Made by lislab at {when(time.time())}. It only reads.</p>'
    return framed(title, title, top, body, foot, head)


def state(one: Mapping[str, Any]) -> str:
    """The state of a line, in a word and a mark, so that no colour is needed."""
    return f'<span class="state {one["state"]}">{MARKS[one["state"]]}</span>'


def lines_page(data: Mapping[str, Any], tally: Tally, delivered: Mapping[str, Sequence[float]]) -> str:
    """All lines, the bad ones first; how long the last messages of each delivery took from when they were kept."""
    order = {"bad": 0, "quiet": 1, "good": 2}
    found = sorted(data["lines"].items(), key=lambda it: (order[it[1]["state"]], it[0]))
    rows = [_line_row(name, one, tally.last(name)) for name, one in found]
    head = "" if data["running"] else f'<p class="alarm"><b>{MARKS["bad"]}</b>: {safe(_down(data))}</p>'
    bad = sum(one["state"] == "bad" for one in data["lines"].values())
    total = f"{many(len(data['lines']), 'interface')}, {bad} bad"
    shown = table(("interface", "state", "why", "connected", "last message"), rows, ' class="lines"')
    rows = [table_row(safe(name), state(one), safe(one["says"])) for name, one in data.get("deliveries", {}).items()]
    shown += table(("delivery", "state", "why"), rows, ' class="lines"') if rows else ""
    why = f'<p class="alarm">The store can\'t be read: {safe(tally.why)}</p>' if tally.why else ""
    past = [(name, *each) for name, one in data["lines"].items() for each in one.get("past", [])]
    live = f'<section data-live="lines">{head}<p>{total}</p><div class="wide">{shown}</div>{past_table(past)}</section>'
    took = [f"<h2>Time from storing to delivery, {safe(name)}</h2>{_took(found)}" for name, found in delivered.items()]
    return page("Interfaces", live + why + _plots(tally, None) + "".join(took), True)


def no_line_page(names: Iterable[str]) -> str:
    """There is no line of the name that was asked for: those that there are."""
    rows = "".join(f"<p>{link('/line', name, name=name)}</p>" for name in names)
    return page("There is no such interface", rows)


def past_table(past: Sequence[Any]) -> str:
    """What was bad and is over, the last first: of which line, since when, until when, and why."""
    if not past:
        return ""
    last = sorted(past, key=lambda one: float(one[2]), reverse=True)[:PAST]
    rows = [
        table_row(link("/line", name, name=name), when(since), when(until), safe(text))
        for name, since, until, text in last
    ]
    shown = table(("interface", "bad since", "until", "why"), rows)
    return f'<h2>Earlier trouble since the host started</h2><div class="wide">{shown}</div>'


def _down(data: Mapping[str, Any]) -> str:
    return f"the host runs, and doesn't answer: {data['why']}" if data["held"] else "the host isn't running"


def _line_row(name: str, one: Mapping[str, Any], last: Optional[float]) -> str:
    advice = f'<br><span class="note">{safe(one["advice"])}</span>' if one["state"] == "bad" and one["advice"] else ""
    cells = (link("/line", name, name=name), state(one), safe(one["says"]) + advice, one["connected"])
    return table_row(*cells, when(one["last"] or last), kind=f' class="{one["state"]}"')


def _plots(tally: Tally, line: Optional[str]) -> str:
    counts, now = tally.counts(line), time.time()
    day = plot.svg("messages an hour, last day", plot.bars(counts, plot.hours(now, 24)), "%H:%M")
    month = plot.svg("messages a day, last month", plot.bars(counts, plot.days(now, DAYS)), "%m-%d")
    return f"<h2>Messages per hour, last day</h2>{day}<h2>Messages per day, last month</h2>{month}"


class LineData(NamedTuple):
    """What a page of a line shows besides its state."""

    heads: Sequence[Head]
    trouble: Sequence[Head]
    failed: Optional[Failed]
    rows: str


#: What is counted of a line, and its words.
_COUNTED = {
    "sessions": "sessions",
    "frames": "frames accepted",
    "duplicates": "repeated frames",
    "texts": "texts",
    "not_stored": "texts that could not be stored",
    "late": "replies that would have been late",
    "noise": "ENQ and STX inside a session or a frame (noise)",
    "timeouts": "sessions that timed out",
    "unknown_codes": "results with a code that the code mapping lacks",
}


def line_page(name: str, one: Mapping[str, Any], tally: Tally, more: LineData) -> str:
    """A line: its state, its counts, its last messages, and its last bytes."""
    counts = [(words, one.get(key, 0)) for key, words in _COUNTED.items()]
    causes = [(f"rejected: {key}", count) for key, count in sorted(one.get("causes", {}).items())]
    ended = [(f"messages {key}", count) for key, count in sorted(one.get("ended", {}).items())]
    cells = "".join(table_row(safe(key), value) for key, value in [*counts, *causes, *ended])
    advice = f'<p class="note">{safe(one["advice"])}</p>' if one["advice"] else ""
    body = f"""<section data-live="state"><p>{state(one)} {safe(one["says"])}</p>{advice}
{past_table([(name, *each) for each in one.get("past", [])])}
<h2>Counts since the host started</h2><table>{cells}</table></section>
<h2>Time from the first byte to storing</h2>{_took(tally.took(name))}{_plots(tally, name)}
{failed_table(more.failed)}<h2>Incomplete and invalid messages</h2>{heads_table(more.trouble)}
<h2>Last messages, the newest first</h2>{heads_table(more.heads)}
<h2>The last bytes, the oldest first</h2>
<section data-live="ladder"><div class="wide">{more.rows}</div></section>"""
    return page(name if name.isprintable() else repr(name), body, True)


def _took(found: Sequence[float]) -> str:
    if not found:
        return "<p>No message was counted.</p>"
    cells = table_row(*(f"{share(found, part):.3f} s" for part in (0.5, 0.9, 0.99, 1.0)))
    shown = table(("half within", "90 % within", "99 % within", "longest"), [cells])
    return f"{shown}<p class='note'>Of the last {len(found)} messages.</p>"


def ladder_table(rows: Iterable[Any]) -> str:
    """The rows of a ladder."""
    made = list(rows_of(rows))
    if not made:
        return "<p>No session was heard since the host started.</p>"
    return table(("row", "time", "analyzer", "computer", "what it means"), made, ' tabindex="0"')


def heads_table(found: Sequence[Head]) -> str:
    """A row for each message."""
    rows = []
    for one in found:
        message = link("/message", one.number if one.number is not None else one.key[-8:], key=one.key)
        at, line = when(one.ended or one.began), safe(one.line, 200)
        rows.append(table_row(message, at, line, safe(one.state), safe(one.reason), one.size))
    shown = table(("message", "time", "interface", "state", "reason", "bytes"), rows)
    return f'<div class="wide">{shown}</div>' if rows else "<p>There is none.</p>"


def failed_table(found: Optional[Failed]) -> str:
    """The last orders of a line that have failed, if some have."""
    if found is None:
        return ""
    rows = []
    for one in found.newest:
        what = safe(one.order.sample, 200), safe(" ".join(one.order.tests), 200)
        rows.append(table_row(one.number, when(one.changed), *what, one.tries, safe(one.reason)))
    shown = table(("order", "time", "sample", "tests", "tried", "reason"), rows)
    note = f'<p class="note">{many(found.many, "order")}; these are the last ones.</p>'
    return f'<h2>Failed orders</h2><div class="wide">{shown}</div>{note}'


def message_page(one: Stored) -> str:
    """A message: its records with the fields' names, or its bytes if they can't be read."""
    about = [("line", one.line), ("from", one.peer), ("began", when(one.began)), ("kept", when(one.ended))]
    about += [("key", one.key), ("state", one.state), ("reason", one.reason), ("again of", one.again_of or "")]
    told = "".join(f"<dt>{name}</dt><dd>{safe(text)}</dd>" for name, text in about if text)
    found: List[Any] = list(read_all(one.body, one.encoding)) if len(one.body) <= RECORDS else []
    parts = [_records(each) if isinstance(each, Found) else _fault(each) for each in found]
    if one.state != COMPLETE or not found:
        parts.append(f"<h2>Bytes</h2><p><code>{html.escape(words(one.body, 20 * VALUE))}</code></p>")
    return page(f"Message {one.number if one.number is not None else one.key}", f"<dl>{told}</dl>{''.join(parts)}")


def _records(found: Found) -> str:
    return "".join(
        f"<h2>{entry.number} {html.escape(KINDS.get(entry.letter, entry.letter))}</h2><div class='wide'><table>"
        + "".join(_field(entry, place) for place in range(entry.row.first, entry.row.first + entry.row.count))
        + "</table></div>"
        for entry in found.message.entries
    )


def _field(entry: Any, place: int) -> str:
    value = entry.whole(place)
    name = NAMES.get(entry.letter, {}).get(place, "").replace("_", " ")
    return table_row(place, name, f"<code>{safe(value)}</code>") if value else ""


def _fault(fault: Fault) -> str:
    return f'<p class="alarm">{safe(fault.error)}</p>'
