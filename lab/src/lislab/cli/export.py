"""The command `lislab export`."""
import argparse
import contextlib
import sys
from collections import Counter
from typing import Callable, ContextManager, Optional

from ..field import table
from ..field.table import form_of
from ..model import options, renamed
from ..model.failures import Quarantined
from ..model.files import Output, writing
from ..model.options import OptionError
from ..model.said import counted, say
from ..model.store import COMPLETE, INCOMPLETE, INVALID
from ..model.stores import open_store
from ..model.unix import shown
from ..outbound import export
from ..outbound.oru import wishes_of
from ..outbound.tables import tables_of
from .common import GOOD, LOOKS_WRONG
from .words import PLACE, add_each, add_store


def add_options(one: argparse.ArgumentParser) -> None:
    """Adds the options of `lislab export`."""
    add_store(one)
    one.add_argument(
        "--format", type=form_of, choices=export.FORMATS, default="json", help="write this format (%(default)s)"
    )
    one.add_argument("--since", metavar="TIME", help="only messages since 2026-11-27 or 2026-11-27T10:30")
    one.add_argument(
        "--after", type=PLACE, default=0, metavar="NUMBER", help="only complete messages with a greater number"
    )
    states, only = (COMPLETE, INCOMPLETE, INVALID, "all"), "only messages in this state (%(default)s)"
    one.add_argument("--state", type=renamed.state_of, choices=states, default=COMPLETE, help=only)
    add_forms(one)
    one.add_argument("-o", "--output", metavar="FILE", help="write to FILE, readable only by its owner")


def add_forms(one: argparse.ArgumentParser) -> None:
    """The options that say which messages are written, and how."""
    one.add_argument("--line", metavar="NAME", help="only messages of this line")
    one.add_argument("--without-repeats", action="store_true", help="leave out repeated messages")
    what = "map test codes and units by this file, for lines without a mapping of their own"
    one.add_argument("--codes", metavar="FILE", help=what)
    file = "read every line's settings and code mapping from a lines file"
    one.add_argument("--lines", metavar="FILE", help=file)
    one.add_argument(
        "--controls",
        choices=("with", "without", "only"),
        default="with",
        help="write quality controls: with, without, only (%(default)s)",
    )
    one.add_argument("--fields", metavar="NAMES", help="columns of csv and tsv, as in lislab table")
    one.add_argument("--safe-cells", action="store_true", help="put an apostrophe before cells that look like formulas")
    names = "set what the receiver needs, for example MSH-5=LIS or obr=test; may be repeated"
    add_each(one, "--set", "NAME=VALUE", names)


def form_asked(ask: argparse.Namespace, form: str, said: Optional[Callable[[str], None]] = None) -> export.Form:
    """How messages are written, as these options have it."""
    fields = tuple(ask.fields.split(",")) if ask.fields else table.USUAL
    if ask.fields and form not in ("csv", "tsv"):
        raise OptionError(f"--fields are the columns of csv and tsv, and not of {form}")
    try:
        table.columns_of(list(fields))
    except table.TableError as error:
        raise OptionError(str(error)) from None
    tables = tables_of(ask.codes, ask.lines, said)
    return export.Form(form, tables, fields, ask.safe_cells, ask.controls, wishes_of(ask.set), counts=Counter())


def run(ask: argparse.Namespace) -> int:
    """Writes messages from a store. It reports and leaves out a message that can't be written with certainty."""
    try:
        since = None if ask.since is None else export.time_of(ask.since)
    except ValueError:
        raise OptionError(f"--since {ask.since}: a time is 2026-11-27 or 2026-11-27T10:30") from None
    states = [COMPLETE, INCOMPLETE, INVALID] if ask.state == "all" else [ask.state]
    wanted = export.Wanted(states, ask.after, since, ask.line, not ask.without_repeats)
    form = form_asked(ask, ask.format)._replace(is_strict=False)
    write = export.writer_of(form)
    status = GOOD
    with contextlib.closing(open_store(ask.store)) as store:
        with output_to(ask.output) as out:
            out.write(write(None))
            is_named = ask.line is None
            for one in export.wanted_of(store, wanted):
                is_named = True
                try:
                    out.write(write(one))
                except Quarantined as error:
                    say(f"message {one.number} {one.key} is left out: {error}")
                    status = LOOKS_WRONG
        names = [] if is_named else [one.line for one in store.counts()]
    for text in counted(form.counts):
        say(text)
    if is_named or ask.line in names:
        return status
    say(f"{ask.store}: {shown(options.no_line(ask.line, names))}")
    return LOOKS_WRONG


def output_to(path: Optional[str]) -> ContextManager[Output]:
    if path is None or path == "-":
        return contextlib.nullcontext(Output(sys.stdout.fileno()))
    return writing(path)
