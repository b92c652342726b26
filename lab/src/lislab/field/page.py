"""A ladder as one page of HTML, for a browser without a network. It can be folded, filtered and printed, and says in
words what its colours say. The frame of each page of lislab is page.html."""
import importlib.resources
import string
from html import escape
from typing import Iterable, Iterator, List, Optional, Sequence

from lislink.message import KINDS, NAMES, Entry, Fault, Found
from ..diagnosis.faults import code_of, words
from ..diagnosis.log import SECOND, time_text
from .ladder import Ladder, Look, Row
from .looks import looks_of, rejected_at


def text_of(name: str, package: str = __package__) -> str:
    """The text of a file of a package."""
    return importlib.resources.files(package).joinpath(name).read_text("utf-8")


_PAGE = string.Template(text_of("page.html"))
_GUARD = "window.addEventListener('error',function(e){document.documentElement.dataset.failed=e.message;});"
_WORDS = {"good": "right", "plain": "", "warn": "look", "bad": "wrong"}


def framed(title: str, heading: str, top: str, main: str, foot: str, head: str) -> str:
    """A page: its title and its heading, which are text; and its other parts, which are HTML."""
    texts = {"title": escape(title), "heading": escape(heading)}
    return _PAGE.substitute(texts, top=top, main=main, foot=foot, head=head)


def alone(title: str, heading: str, top: str, main: str, foot: str, script: str = "") -> str:
    """A page that needs no other file, and may load none."""
    scripts = "script-src 'unsafe-inline'; " if script else ""
    policy = f"default-src 'none'; style-src 'unsafe-inline'; {scripts}img-src data:"
    head = f'<meta http-equiv="Content-Security-Policy" content="{policy}"><style>{text_of("page.css")}</style>'
    if script:
        head, foot = f"{head}<script>{_GUARD}</script>", f"{foot}<script>{script}</script>"
    return framed(title, heading, top, main, foot, head)


def table(heads: Sequence[str], rows: Sequence[str], kind: str = "") -> str:
    """A table of these rows, with a heading above each column; `kind` is an attribute, with a blank before it."""
    head = "".join(f"<th>{one}</th>" for one in heads)
    return f"<table{kind}><thead><tr>{head}</tr></thead><tbody>{''.join(rows)}</tbody></table>"


def table_row(*cells: object, kind: str = "") -> str:
    """A row of cells, which are HTML; `kind` is an attribute, as of a table."""
    return f"<tr{kind}>{''.join(f'<td>{one}</td>' for one in cells)}</tr>"


def _tag(level: str, text: Optional[str] = None) -> str:
    shown = _WORDS[level] if text is None else text
    return f'<span class="tag {level}">{escape(shown)}</span> ' if shown else ""


def _looks(looks: List[Look]) -> Iterator[str]:
    if not any(one.level != "plain" for one in looks):
        yield f'<p class="look">{_tag("good", "right")}Nothing looks wrong.</p>'
    for look in looks:
        where = ", ".join(f'<a href="#l{line}">line {line}</a>' for line in look.lines)
        advice = f'<p class="advice">{escape(look.advice)}</p>' if look.advice else ""
        tag = _tag(look.level, "note" if look.level == "plain" else None)
        yield f'<div class="look {look.level}" data-look="{escape(look.name)}"><p>{tag}{escape(look.words)}' f'{" (" + where + ")" if where else ""}</p>{advice}</div>'


def _details(row: Row, is_judged: bool) -> str:
    told = [("bytes", f"<code>{row.raw.hex(' ')}</code>"), ("as text", f"<code>{escape(words(row.raw))}</code>")]
    if row.kind == "frame":
        end = "last of its text (ETX)" if row.last else "intermediate (ETB)"
        told.insert(0, ("frame", f"number {row.number}, {end}, {len(row.text)} bytes of text"))
    if row.checksum is not None:
        found, wanted = row.checksum.found, row.checksum.wanted
        same = "the same" if found.upper() == wanted else "<b>another</b>"
        told.insert(1, ("checksum", f"{escape(found)} found, {wanted} wanted: {same}"))
    if row.side == ">" and is_judged:
        told.append(("reply", f"a receiver answers {escape(words(row.reply)) if row.reply else 'nothing'}"))
    return "<dl>" + "".join(f"<dt>{name}</dt><dd>{text}</dd>" for name, text in told) + "</dl>"


def rows_of(rows: Iterable[Row], is_judged: bool = True, anchors: str = "l") -> Iterator[str]:
    """The rows of a table, each with an anchor that begins so; with the receiver's replies, if one heard them."""
    before: Optional[int] = None
    seen = set()
    for row in rows:
        if row.time is not None and before is not None and row.time - before > SECOND:
            yield (
                f'<tr class="event" data-level="plain"><td class="n"></td><td class="t"></td><td class="a c" colspan="2">'
                f"{(row.time - before) / SECOND:.1f} s later</td><td></td></tr>"
            )
        before = row.time if row.time is not None else before
        anchor = "" if row.line in seen else f' id="{anchors}{row.line}"'
        seen.add(row.line)
        level = row.level if row.level in ("bad", "warn") else ""
        head = f'<td class="n">{row.line}</td><td class="t">{escape(time_text(row.time).split("T")[-1])}</td>'
        note = f"<td>{_tag(row.level)}{escape(row.note)}"
        if row.side == "-":
            yield (
                f'<tr class="event {level}" data-level="{row.level}"{anchor}>{head}<td class="a c" colspan="2">{escape(row.title)}</td>'
                f"{note}</td></tr>"
            )
            continue
        if row.side == ">":
            note += f' <span class="arrow">&rarr; {escape(words(row.reply))}</span>' if row.reply else ""
            title = (
                f'<details class="f"><summary><code>{escape(row.title[:110])}{"…" if len(row.title) > 110 else ""}</code></summary>'
                f"{_details(row, is_judged)}</details>"
            )
            cells = f'<td class="a">{title}</td><td class="c arrow">&#9654;</td>'
        else:
            cells = f'<td class="a arrow">&#9664;</td><td class="c"><code>{escape(row.title[:60])}</code></td>'
        yield f'<tr class="{level}" data-level="{row.level}"{anchor}>{head}{cells}{note}</td></tr>'


def _entry(entry: Entry, found: Found) -> Iterator[str]:
    wrong = [one for one in found.message.findings() if one.number == entry.number]
    mark = f' <span class="finding">finding: its number isn\'t {wrong[0].position}</span>' if wrong else ""
    cells = [(entry.row.first + at, entry.whole(entry.row.first + at)) for at in range(entry.row.count)]
    brief = escape("|".join(text for _, text in cells)[:140])
    names = {place: name.replace("_", " ") for place, name in NAMES.get(entry.letter, {}).items()}
    rows = (
        table_row(place, escape(names.get(place, "")), f"<code>{escape(text)}</code>") for place, text in cells if text
    )
    below = "".join("".join(_entry(one, found)) for one in entry.notes + entry.children)
    yield f"<li><details><summary>{entry.number} <b>{KINDS.get(entry.letter, entry.letter)}</b> <code>{brief}</code>"
    yield f'{mark}</summary><table class="fields">{"".join(rows)}</table></details>'
    yield f"<ul class=tree>{below}</ul></li>" if below else "</li>"


def _messages(ladder: Ladder) -> Iterator[str]:
    for number, one in enumerate(ladder.messages, 1):
        if isinstance(one, Fault):
            yield _rejected(ladder, number, one)
            continue
        findings, line = len(one.message.findings()), ladder.line_of(one.start)
        tag = _tag("warn", f"{findings} findings") if findings else _tag("good", "read")
        yield f'<details open data-message="read"><summary>{tag}message {number}: {len(one.message.rows)} records, '
        yield f'from <a href="#l{line}">line {line}</a></summary><ul class="tree">'
        for entry in one.message.entries:
            if entry.letter in "HPQL":
                yield from _entry(entry, one)
        yield "</ul></details>"


def _rejected(ladder: Ladder, number: int, fault: Fault) -> str:
    record, cause = rejected_at(ladder.stream, fault)
    line, options = ladder.line_of(fault.place), escape(" or ".join(cause.options))
    advice = f'<p class="advice">lislab normalize {options} fixes the records</p>' if options else ""
    return (
        f'<div class="look bad" data-message="rejected"><p>{_tag("bad", "rejected")}message {number}: record '
        f'{fault.error.number}, <a href="#l{line}">line {line}</a> ({code_of(fault.error)}): {escape(cause.words)}</p>'
        f"<p><code>{escape(words(record, 200))}</code></p>{advice}</div>"
    )


def page_of(ladder: Ladder, name: str) -> str:
    """The page."""
    looks = looks_of(ladder)
    counts = ladder.counts()
    shown = "".join(
        f'<span data-count="{escape(key)}"><b>{value}</b> {escape(key[:-1] if value == 1 and key.endswith("s") else key)}</span>'
        for key, value in counts.items()
        if value or key in ("frames", "texts", "differences")
    )
    main = f"""
<h2>What looks wrong</h2>{"".join(_looks(looks))}
<h2>The session</h2><div class="tools"><input type="search" id="find" placeholder="filter: NAK, frame 3, a sample .."
aria-label="filter"><label><input type="checkbox" id="wrong"> only what looks wrong</label>
<button type="button" id="open">unfold all</button><button type="button" id="close">fold all</button>
<button type="button" id="print">print</button><output id="shown"></output></div>
<table id="ladder"><colgroup><col class="n"><col class="t"><col class="a"><col class="c"><col></colgroup>
<thead><tr><th>line</th><th>time</th><th>analyzer</th><th style="text-align:right">computer</th>
<th>what it means to the proved receiver</th></tr></thead><tbody>{"".join(rows_of(ladder.rows))}</tbody></table>
<h2>The messages</h2>{"".join(_messages(ladder)) or "<p>No record came through.</p>"}"""
    foot = "Made by lislab. The receiver and the reader that judge are proved; this page and its advice are not."
    return alone(f"{name}: ladder", name, f'<div class="counts">{shown}</div>', main, foot, text_of("page.js"))
