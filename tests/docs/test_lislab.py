"""The pages of lislab name each command, key, fix, format, column, metric and limit that the code has, and none that it
lacks; an option that a page names is one of its command."""
import argparse
import re

from lislab.cli import main
from lislab.diagnosis import notices
from lislab.field import sniffers, table
from lislab.model import asks, book, codes, options
from lislab.model.changes import CHANGES
from lislab.watch import status
from lislink import order
from tests import kit
from tests.docs.test_pages import blocks

PAGES = ("start", "operate", "orders", "deliver", "troubleshoot", "validate", "lislab")
#: Where a line is, and its name.
PLACES = {"listen", "connect", "serial", "name"}
#: What is in the place of an option, and an option of Python that a page names.
OTHERS = {"--NAME", "--no-build-isolation", "--system-site-packages"}
#: What a page may not say, and what it may: the page, its text, other text, and whether a fault is found.
CHANGED = (
    ("lislab", "| `careful` |", "| `careless` |", True),
    ("lislab", "| `--bom`", "| `--bomb`", True),
    ("lislab", "| `lislab_up` |", "| `lislab_is_up` |", True),
    ("lislab", "TCP connections at once (256)", "TCP connections at once (250)", True),
    ("lislab", "| `codes` | [checks a test code mapping]", "| `code` | [checks a test code mapping]", True),
    ("deliver", "| `ucum` |", "| `UCUM` |", True),
    ("orders", "`rack`, `position`", "`rack`", True),
    ("operate", "`lislab watch --once`", "`lislab watch --first`", True),
    ("validate", "--report lab.html", "--html lab.html", True),
    ("deliver", "lislab export --store lab.db --state incomplete", "lislab export --store lab.db --scale 2", True),
    ("troubleshoot", "With `fix = NAMES`", "With `mend = NAMES`", True),
    ("lislab", "| `careful` |", "|  `careful`  |", False),
    ("operate", "`lislab watch --once`", "`lislab watch --once --store lab.db`", False),
    ("deliver", "the LIS's unit;", "the unit of the LIS;", False),
)


def section(text, title):
    """A section of a page."""
    found = re.search(rf"(?ms)^##+ {re.escape(title)}\n(.*?)(?=^##+ |\Z)", text)
    return found[1] if found else ""


def firsts(text, title, head=""):
    """The words of code in the first column of a section's table whose head begins so."""
    rows = section(text, title).split("\n")
    found, is_in = [], False
    for before, row in zip(["", *rows], rows):
        is_in = row.startswith("|") and (is_in or not before.startswith("|") and row.startswith(f"| {head}"))
        if is_in:
            found += re.findall(r"`([^`]+)`", row.split(" | ")[0])
    return found


def heads(text):
    """The same of the table above a page's first section."""
    return re.findall(r"(?m)^\| `(\w+)` \|", text.split("\n## ")[0])


def parsers(parser, name=""):
    """The options of each command that its help lists, by its name; those of a group are those of its commands too."""
    below = [one for one in parser._actions if isinstance(one, argparse._SubParsersAction)]
    shown = [one for one in parser._actions if one.help != argparse.SUPPRESS]
    found = {name: {word for one in shown for word in one.option_strings}}
    for one in below:
        for word, inner in one.choices.items():
            more = parsers(inner, f"{name} {word}".strip())
            found[name] = found[name].union(*more.values())
            found.update(more)
    return found


def compared(what, found, wanted):
    """What one side has and the other lacks."""
    found, wanted = set(found), set(wanted)
    yield from (f"{what}: {one} is not in the code" for one in sorted(found - wanted))
    yield from (f"{what}: {one} is not on the page" for one in sorted(wanted - found))


def metrics():
    """The metrics' names."""
    text = kit.read("lab/src/lislab/watch/metrics.py")
    return {one for one in re.findall(r'"(lislab_\w+)"', text)}


def wrong_options(name, text, known):
    """Options that a page names, and their commands lack."""
    commands = "|".join(sorted((one for one in known if one), key=len, reverse=True))
    rows = [row for _, lines, _ in blocks(text) for row in lines]
    for one in [*re.findall(r"(?<!`)`([^`\n]+(?:\n[^`\n]+)?)`", text), *rows]:
        parts = re.split(rf"\b(?:tools/)?lislab ({commands})\b(?![-=])", one.replace("\n", " "))
        for command, words in zip(parts[1::2], parts[2::2]):
            words = re.split(r" -- |[;|#]| && ", words)[0]
            for option in re.findall(r"(?<![\w-])(--?[a-zA-Z][\w-]*)", words):
                if option not in known[command] and option not in OTHERS:
                    yield f"{name}: lislab {command} has no {option}"
    for option in re.findall(r"`(--[a-z][\w-]*)", text):
        if not any(option in found for found in known.values()) and option not in OTHERS:
            yield f"{name}: there is no {option}"


def wrong_keys(name, text, keys):
    """Settings that a page names in code, and a line lacks."""
    for key in re.findall(r"`([a-z][a-z-]*) = [^`]*`", text):
        if key not in keys:
            yield f"{name}: a line has no {key}"


def faults(pages):
    """What is wrong with the pages."""
    known = parsers(main.parser())
    page = pages["lislab"]
    names = [name for group in main.GROUPS.values() for name in group]
    keys = PLACES | set(options.READS) | set(asks.READS)
    yield from compared("commands", heads(page), names)
    yield from compared("commands in the groups of --help", names, {name for name in known if name and " " not in name})
    yield from compared("keys", firsts(page, "Lines file", "Key"), keys)
    yield from compared("fixes", firsts(page, "Fixes", "Name"), [f"--{one}" for one in (*CHANGES, *options.SAME)])
    yield from compared("log formats", firsts(page, "Log formats"), {"--form", "pcap", "raw", *sniffers.FORMS})
    yield from compared("columns of status", firsts(page, "Status", "Column"), set(status._COLUMNS) - {"line"})
    yield from compared("metrics", firsts(page, "Metrics", "Metric"), metrics())
    found = re.findall(r"`(\w+)`", section(page, "Columns of results").split("\n\n")[0])
    yield from compared("columns of results", found, table.USUAL)
    found = firsts(pages["deliver"], "Map test codes and units", "Column")
    yield from compared("columns of a code table", found, codes.COLUMNS)
    found = [one for one in firsts(pages["orders"], "Give orders to the host", "Column") if "." not in one]
    yield from compared("columns of orders", found, (*order.COLUMNS, *order.MORE))
    yield from compared("states of orders", heads(pages["orders"]), book.STATES)
    kinds = {value for name, value in vars(notices).items() if name.isupper() and isinstance(value, str)}
    yield from compared("kinds of log events", firsts(pages["operate"], "Read the log", "Kind"), kinds)
    usual = vars(main.parser().parse_args(["serve", "--store", "lab.db"]))
    for option, value in re.findall(r"(?m)^\| `--([\w-]+)` \| [^|(]*\(([\d.]+)\)", section(page, "Limits of a host")):
        if usual.get(option.replace("-", "_")) != float(value):
            yield f"limits: --{option} is {usual.get(option.replace('-', '_'))}, not {value}"
    for name, text in pages.items():
        yield from wrong_options(name, text, known)
        yield from wrong_keys(name, text, keys)


class Lislab(kit.Test):
    """The pages of lislab."""

    def test_pages(self):
        """Nothing is stale; what would be is noticed, and what is the same in other words passes."""
        pages = {name: kit.read(f"docs/{name}.md") for name in PAGES}
        self.same("faults", sorted(faults(pages)), [])
        for name, old, new, is_wrong in CHANGED:
            self.check(pages[name].count(old) > 0, f"{name} has {old}")
            found = list(faults({**pages, name: pages[name].replace(old, new)}))
            self.check(bool(found) == is_wrong, f"{name}: {new}: noticed if it is wrong, and only then", str(found))
