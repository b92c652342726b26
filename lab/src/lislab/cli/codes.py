"""The command `lislab codes`."""
import argparse
import contextlib

from ..model import codes, lines
from ..model.stores import open_store
from ..outbound.tables import tables_of
from .common import GOOD, LOOKS_WRONG


def add_options(one: argparse.ArgumentParser) -> None:
    """Adds the options of `lislab codes`."""
    one.add_argument("--store", metavar="STORE", help="list the codes of this store that the mapping lacks")
    one.add_argument("--line", metavar="NAME", help="only results of this line")
    one.add_argument("--lines", metavar="FILE", help="a lines file, for each line's setting `test`")
    one.add_argument("file", metavar="FILE", help=f"the mapping, CSV with the columns {', '.join(codes.COLUMNS)}")


def run(ask: argparse.Namespace) -> int:
    """Prints the faults of a table and the codes that it lacks; status 1 if there are some."""
    read = codes.read_codes(ask.file)
    for fault in read.faults:
        print(fault)
    unknown = {}
    if ask.store:
        with contextlib.closing(open_store(ask.store)) as store:
            found = (one for one in store.messages() if ask.line in (None, one.line))
            lines = tables_of(None, ask.lines)
            test_of = (lambda line: lines.reading(line).test) if lines else (lambda line: "")
            unknown = codes.unknown_of(read.codes, test_of, found)
    for name in sorted(unknown):
        print(f"unknown {name} {unknown[name]}")
    print(f"codes {len(read.codes)} unknown {len(unknown)}", flush=True)
    return LOOKS_WRONG if read.faults or unknown else GOOD
