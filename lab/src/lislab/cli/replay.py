"""The command `lislab replay`."""
import argparse

from ..field.replay import replayed
from .common import GOOD, LOOKS_WRONG
from .inputs import add_import_options, add_long, frame_limit, load


def add_options(one: argparse.ArgumentParser) -> None:
    """Adds the options of `lislab replay`."""
    one.add_argument("capture", help="a capture or a log (pcap, socat, ..); - is standard input")
    add_long(one)
    add_import_options(one)


def run(ask: argparse.Namespace) -> int:
    """Compares a capture with a station of the computer, in both directions."""
    capture = load(ask.capture, ask)
    told, last = replayed(capture, frame_limit(ask))
    for one in told:
        print(one)
    print(last, flush=True)
    return LOOKS_WRONG if any(one.text is None for one in told) else GOOD
