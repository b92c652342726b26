"""The command `lislab normalize`."""
import argparse
from typing import Set

from ..field import normalize
from ..model.changes import CHANGES
from .common import GOOD, LOOKS_WRONG, read_input, say, write_output


def add_options(one: argparse.ArgumentParser) -> None:
    """Adds the options of `lislab normalize`."""
    one.add_argument("records", nargs="?", default="-", help="a file of records (standard input)")
    one.add_argument("-o", "--output", metavar="FILE", help="write to FILE, readable only by its owner")
    one.add_argument(
        "--explain", action="store_true", help="report faults and the options that fix them; change nothing"
    )
    one.add_argument("--all", action="store_true", help="make all changes except --orders and --long")
    for name, what in CHANGES.items():
        flags = [f"--{name}", *(["--escape"] if name == "bytes" else [])]  # as it was called first
        one.add_argument(*flags, action="store_true", help=what)


def run(ask: argparse.Namespace) -> int:
    """Makes record files of dialects readable, by the changes that are asked for."""
    data = read_input(ask.records)
    if ask.explain:
        for row in normalize.explain(data):
            print(row)
        is_good = not any(normalize.rejected_lines(data)) and not any(normalize.changed_lines(data, data))
        return GOOD if is_good else LOOKS_WRONG
    asked: Set[str] = {name for name in CHANGES if getattr(ask, name.replace("-", "_"))}
    asked |= set(normalize.ALL) if ask.all else set()
    out, told, needed = normalize.normalize(data, asked)
    write_output(ask.output, out)
    for one in told:
        say(f"line {one.line}: {one.what}")
    left = list(normalize.rejected_lines(out)) + list(normalize.changed_lines(data, out))
    for row in left:
        say(row)
    if left:
        for name in CHANGES:
            if name in needed:
                say(f"line {needed[name]}: --{name} wasn't asked for: {CHANGES[name]}")
    return LOOKS_WRONG if left else GOOD
