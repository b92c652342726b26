"""The page build/docs/speed.md that bench/run writes, and its charts: what was measured in one run, and when, of what,
on what."""
import os
import statistics
import time
from dataclasses import dataclass, field

import measured
import plot
import programs

DOCUMENT = os.path.join(programs.ROOT, "build/docs/speed.md")
HEAD = """# Speed and memory

`bench/run` measures `lislink` and the peer, a second program in safe Rust over the standard library (`bench/peer`),
without proofs and without the crates of this repository. Both are compiled for the same processor. Their output is
compared first, byte for byte; then they run one after the other on the same file. Times are the processor's, those of
start-up and of the host from start to end. "Times the peer" is the peer's time divided by that of `lislink`, the median
of the rounds; the middle half of the rounds follows it. Instructions per byte are counted by callgrind, as the
difference of two runs, and don't vary with load. Memory is that of a stream of 256 MB: the most that was resident,
about 1,000 KiB of which are pages of the C library that all programs share, and the program's own. The inputs are
generated (`bench/inputs.py`), the same in every run.

"""
# The charts: the file, its unit, whether one scale is for all groups, and what is said of it.
CHARTS = {
    "speed.svg": ("MB/s", True, "Each command beside the peer, which does the same work in safe Rust. The input is "
                  "results for `check` and `results`, and short frames for the others. The table has all inputs."),
    "messages.svg": ("records a second", False, "Results as trees by the crates, beside two safe parsers of the peer; "
                     "then the Python package beside plain Python. `split` checks nothing and finds no order. Each "
                     "group has its own scale."),
    "host.svg": ("messages a second", True, "What `lislab serve` stores of 1, 20 and 200 analyzers that send at once, "
                 "all on this machine. Each sends its next message when the last one is acknowledged. No message is "
                 "acknowledged before the disk has it, so the disk decides the first bar."),
}
# The inputs of the first chart, and the ways of Python in the second one.
CHARTED = ("short frames", "results")
IN_PYTHON = {"package, records, all parts of all": "Python: package, all parts",
             "plain reader, messages with all parts": "Python: plain reader, all parts",
             "package, two parts of each result in one call": "Python: package, two parts in one call",
             "split, two parts of each result, nothing checked": "Python: split, two parts, nothing checked"}
# How many times the speed of the independent program a row is to make.
WANTED = 1.5
NONE = "–"


@dataclass
class Found:
    """What was measured."""
    conditions: str
    rows: list = field(default_factory=list)
    trees: list = field(default_factory=list)
    same_trees: int = 0
    heard: dict = field(default_factory=dict)
    played: float = None
    start_up: list = None
    package: dict = field(default_factory=dict)
    host: dict = field(default_factory=dict)


def processor():
    with open("/proc/cpuinfo", encoding="ascii", errors="replace") as lines:
        for line in lines:
            if line.startswith("model name"):
                return line.split(":", 1)[1].strip()
    return "unknown"


def conditions(program, asked):
    """What the figures are of."""
    kit = programs.printed_by("rt", "version").partition(" ")[0]
    lines = [f"One run, {time.strftime('%Y-%m-%d', time.gmtime())}, of the program that was built of commit "
             f"{programs.commit()} (SHA-256 {programs.sum_of(program)}..) with {kit}.",
             f"{processor()}, {os.cpu_count()} processors; load at the start {os.getloadavg()[0]:.1f}."]
    if asked.rounds:
        lines.append(f"Medians of {asked.rounds} rounds; inputs of {asked.size:.0f} MB.")
    else:
        lines.append("No times were measured in this run.")
    return " ".join(lines)


def number(value, digits=0):
    return NONE if value is None else f"{value:,.{digits}f}"


def table(heads, rows):
    """A table, of which 'command', 'input' and 'reader' are columns of words. It has no column in which nothing is
    known."""
    rows = list(rows)
    known = [place for place in range(len(heads)) if any(row[place] != NONE for row in rows)]
    heads, rows = [heads[place] for place in known], [[row[place] for place in known] for row in rows]
    yield "| " + " | ".join(heads) + " |"
    yield "|" + "|".join("---" if head in ("command", "input", "reader") else "--:" for head in heads) + "|"
    for row in rows:
        yield "| " + " | ".join(row) + " |"


def ratio_of(row):
    """How many times the speed of the peer lislink makes, where both were timed."""
    return measured.spread([one["peer"] / one["ours"] for one in row.times]) if row.times else None


def cells(row):
    """The cells of a command and an input."""
    ratio, speeds = ratio_of(row), (None, None)
    if ratio:
        speeds = [row.size / 1e6 / statistics.median(one[who] for one in row.times) for who in ("ours", "peer")]
    resident, own = row.kibibytes
    counts = row.instructions or {}
    return [f"`{row.command}`", row.made.name, number(speeds[0]), number(speeds[1]),
            f"{ratio.middle:.2f}" if ratio else NONE, f"{ratio.low:.2f} to {ratio.high:.2f}" if ratio else NONE,
            number(resident), number(own), number(counts.get("ours"), 2), number(counts.get("peer"), 2)]


def of_commands(found):
    """The table of commands, and how many rows make what is wanted."""
    heads = ["command", "input", "MB/s", "peer's", "times the peer", "middle half", "KiB resident", "its own",
             "instructions a byte", "peer's"]
    yield from ["### Commands", "", *table(heads, map(cells, found.rows)), ""]
    ratios = [(ratio_of(row).middle, row) for row in found.rows if ratio_of(row)]
    if ratios:
        least, row = min(ratios, key=lambda pair: pair[0])
        enough = sum(ratio >= WANTED for ratio, _ in ratios)
        yield (f"{enough} of {len(ratios)} rows make at least {WANTED} times the peer's speed; the least is "
               f"`{row.command}` of {row.made.name} with {least:.2f}.")
        yield ""


def of_sizes(found):
    """Start-up."""
    ours, peers, nothing = found.start_up
    yield from ["### Start-up", ""]
    yield (f"To read nothing takes `lislink` {ours:.2f} ms, the peer {peers:.2f} ms, and `/bin/true` {nothing:.2f} ms, "
           "start and end of the process included.")
    yield ""


def of_trees(found):
    """The table of messages as trees."""
    def three(known, digits=0):
        return [number(known.get(way), digits) for way in ("ours", "places", "vecs")]

    def times(row, way):
        it = row.ratios.get(way)
        return f"{it.middle:.2f} ({it.low:.2f} to {it.high:.2f})" if it else NONE
    yield from ["### Messages as trees", ""]
    yield ("`read_messages` and two safe parsers of the peer: places in one buffer, and `Vec`s of `Vec`s. "
           f"All three made the same {found.same_trees} trees of the samples and of the first messages of each input.")
    yield ""
    heads = ["input", "MB/s", "places", "Vecs", "times places", "times Vecs", "kept: MB/s", "places", "Vecs"]
    if any(row.again for row in found.trees):
        yield from table(heads, [[row.name, *three(row.again), times(row, "places"), times(row, "vecs"),
                                  *three(row.kept)] for row in found.trees])
        yield ""
    heads = ["input", "instructions a byte", "places", "Vecs", "heap bytes a byte", "places", "Vecs"]
    yield from table(heads, [[row.name, *three(row.instructions, 1), *three(row.heap, 1)] for row in found.trees])
    yield ""
    yield from of_tables(found)


def of_tables(found):
    """The table of messages where they are."""
    def two(known, digits=0):
        return [number(known.get(way), digits) for way in ("tables", "parts")]

    def times(row, way):
        it = row.tables.get(way)
        return f"{it.middle:.2f} ({it.low:.2f} to {it.high:.2f})" if it else NONE
    yield from ["### Messages where they are", ""]
    yield ("One `MessageTable` that reads the messages again and again, and with all components of each record "
           "(`put_parts`); times the peer's places, which copy the text and find the ends of all fields.")
    yield ""
    heads = ["input", "MB/s", "components", "times places", "components", "instructions a byte", "components",
             "bytes of table a byte"]
    yield from table(heads, [[row.name, *two(row.again), times(row, "tables"), times(row, "parts"),
                              *two(row.instructions, 1), number(row.size, 2)] for row in found.trees])
    yield ""


def of_calls(found):
    """The other calls."""
    yield from ["### Other calls", ""]
    speeds = ", ".join(f"{speed:,.0f} MB/s of {name}" for name, speed in found.heard.items())
    yield f"A receiver that gets a session's bytes at once (`ReceiverOf::bytes`) takes {speeds}."
    yield f"`play` of a session of 1,000 full frames takes {found.played:.2f} ms."
    yield ""


def of_others(found):
    """The tables of the package and of the host."""
    if found.package:
        yield from ["### The Python package", ""]
        yield from table(["reader", "records a second"], [[name, number(it)] for name, it in found.package.items()])
        yield ""
    if found.host:
        yield from ["### The host", ""]
        rows = [[str(many), number(it)] for many, it in found.host.items()]
        yield from table(["analyzers", "messages a second"], rows)
        yield ""


def groups(found):
    """The bars of each chart, in groups."""
    timed = [row for row in found.rows if row.times and row.made.name in CHARTED and " " not in row.command]
    speed = [[(f"{row.command}: {name}", row.size / 1e6 / statistics.median(one[who] for one in row.times))
              for who, name in (("ours", "lislink"), ("peer", "peer"))] for row in timed]
    messages = [[(f"trees: {name}", row.again[way] * 1e6 * row.records)
                 for way, name in (("ours", "the crates"), ("places", "peer, places"), ("vecs", "peer, Vecs"))]
                for row in found.trees if row.again and row.name == "results"]
    if found.package:
        of = list(IN_PYTHON)
        messages += [[(IN_PYTHON[name], found.package[name]) for name in pair] for pair in (of[:2], of[2:])]
    host = [[(f"{many} analyzers" if many > 1 else "1 analyzer", it)] for many, it in found.host.items()]
    return {"speed.svg": speed, "messages.svg": messages, "host.svg": host}


def charts(found):
    """The charts of what was measured, by the file."""
    return {name: plot.drawing(*CHARTS[name][:2], bars) for name, bars in groups(found).items() if bars}


def written(found):
    """The lines that are written."""
    lines = [found.conditions, ""]
    for name in charts(found):
        unit, _, said = CHARTS[name]
        lines += [f"![{unit}]({name})", "", said, ""]
    if found.rows:
        lines += of_commands(found)
    if found.start_up:
        lines += of_sizes(found)
    if found.trees:
        lines += of_trees(found)
    if found.heard:
        lines += of_calls(found)
    return [*lines, *of_others(found)]


def write(lines, drawings):
    """Writes the page, and its charts."""
    os.makedirs(os.path.dirname(DOCUMENT), exist_ok=True)
    with open(DOCUMENT, "w", encoding="utf-8") as file:
        file.write(HEAD + "\n".join(lines).rstrip("\n") + "\n")
    for name, drawing in drawings.items():
        with open(os.path.join(os.path.dirname(DOCUMENT), name), "w", encoding="ascii") as file:
            file.write(drawing)
