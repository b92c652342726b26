"""The command `lislab`: what a laboratory runs besides the proved program `lislink`."""
import argparse
import os
import sys
from typing import List, Optional

from lislink import LibraryMissing, __version__
from lislink.capture import CaptureError
from ..diagnosis.log import LogError
from ..field.table import TableError
from ..model.failures import Refused
from ..model.options import OptionError
from ..model.store import StoreError
from ..model.unix import WatchError
from ..outbound.deliver import WrongStore
from . import capture, codes, deliver, export, ladder, lines, normalize, order, play, replay, send, serve, status
from . import store, table, watch
from .common import STOPPED, USAGE, say

#: The commands by their purpose, in the order of `lislab --help`: the module of each, and what it does, in the
#: imperative and without a full stop.
GROUPS = {
    "Look at a connection": {
        "ladder": (ladder, "show a recorded session step by step, and what looks wrong"),
        "capture": (capture, "convert the log of a sniffer to a capture"),
        "replay": (replay, "compare the computer's replies in a capture with the standard's"),
        "normalize": (normalize, "fix files of records that break the standard"),
        "table": (table, "write results as CSV, TSV or JSON lines"),
    },
    "Run a host": {
        "serve": (serve, "run a host: store what analyzers send, then acknowledge it"),
        "lines": (lines, "check a lines file: print every line, its settings and its faults"),
        "status": (status, "show the lines of a host and what its store holds"),
        "watch": (watch, "show whether every line is good, quiet or bad, and why"),
        "order": (order, "add, list, cancel or resend orders"),
        "store": (store, "back up, restore, check or upgrade a store"),
    },
    "Forward results": {
        "deliver": (deliver, "send every complete message to a command, a directory, MLLP or HTTPS"),
        "export": (export, "write stored messages as JSON, CSV, records, HL7 or FHIR"),
        "codes": (codes, "check a test code mapping, and list the codes of a store that it lacks"),
    },
    "Validate an interface": {
        "play": (play, "run test scripts against a host or an analyzer"),
        "send": (send, "simulate an analyzer: send records to a host, or query it"),
    },
}


def parser() -> argparse.ArgumentParser:
    """The parser of the command."""
    top = argparse.ArgumentParser(
        prog="lislab",
        usage="lislab COMMAND ..",
        description="Connect laboratory analyzers: a host, a protocol analyzer, and a tester of interfaces.",
        formatter_class=argparse.RawDescriptionHelpFormatter,
    )
    top.add_argument("--version", action="version", version=f"lislab {__version__}", help="print the version")
    parsers = top.add_subparsers(
        dest="command", required=True, metavar="COMMAND", prog="lislab", help=argparse.SUPPRESS
    )
    rows = []
    for title, commands in GROUPS.items():
        rows += [f"{title}:"]
        for name, (module, does) in commands.items():
            one = parsers.add_parser(name, description=f"{does[0].upper()}{does[1:]}.")
            module.add_options(one)
            one.set_defaults(run=getattr(module, "run", None))  # the commands of `order` and `store` have their own
            rows += [f"  {name:11}{does}"]
        rows += [""]
    top.epilog = "\n".join([*rows, "`lislab COMMAND --help` lists the options of a command."])
    return top


def main(words: Optional[List[str]] = None) -> int:
    """Runs the command; returns its exit status."""
    ask = parser().parse_args(words)
    try:
        return int(ask.run(ask))
    except KeyboardInterrupt:
        return 130
    except BrokenPipeError:
        os.dup2(os.open(os.devnull, os.O_WRONLY), 1)
        return STOPPED
    except (LogError, CaptureError, LibraryMissing, StoreError, WrongStore, Refused, WatchError, OSError) as error:
        say(str(error))
        return STOPPED
    except (TableError, OptionError) as error:
        say(str(error))
        return USAGE
