"""The command `lislab status`."""
import argparse
import contextlib
import json
import sys

from ..model.stores import open_store
from ..watch import status
from .common import GOOD, LOOKS_WRONG
from .serve import state_file
from .words import add_each, add_store


def add_options(one: argparse.ArgumentParser) -> None:
    """Adds the options of `lislab status`."""
    add_store(one)
    one.add_argument("--status", metavar="FILE", help="read the host's state from FILE (STORE.status)")
    add_each(one, "--cursor", "FILE", "also show the delivery with this cursor")
    one.add_argument("--json", action="store_true", help="print JSON")


def run(ask: argparse.Namespace) -> int:
    """Shows a host and its store; status 1 if the host isn't running, its state is old, or a delivery fails."""
    with contextlib.closing(open_store(ask.store)) as store:
        data = status.data_of(store, status.read_state(state_file(ask.store, ask.status)), ask.cursor)
    sys.stdout.write(json.dumps(data) + "\n" if ask.json else status.text_of(data))
    is_wrong = any(one["why"] for one in data["undelivered"])
    return GOOD if data["running"] and status.is_fresh(data["state_age"]) and not is_wrong else LOOKS_WRONG
