"""The command `lislab ladder`."""
import argparse
import os

from ..field.ladder import Ladder
from ..field.looks import looks_of
from ..field.page import page_of
from ..field.show import text_of
from .common import GOOD, LOOKS_WRONG, say, write_output
from .inputs import add_encoding, add_import_options, add_long, frame_limit, load
from .table import _say_letters


def add_options(one: argparse.ArgumentParser) -> None:
    """Adds the options of `lislab ladder`."""
    one.add_argument("capture", help="a capture or a log (pcap, socat, ..); - is standard input")
    one.add_argument("--html", metavar="FILE", help="write a page for a browser")
    add_long(one)
    one.add_argument("--wrong", action="store_true", help="print only what looks wrong, and the summary")
    one.add_argument("--times", metavar="FILE", help="times of the capture's lines (CAPTURE.times)")
    add_encoding(one)
    add_import_options(one)


def run(ask: argparse.Namespace) -> int:
    """Shows a capture or a log as a ladder."""
    capture = load(ask.capture, ask)
    ladder = Ladder(capture, ask.encoding, frame_limit(ask))
    _say_letters("", ladder.stream, ask)
    if ask.html:
        name = os.path.basename(ask.capture) if ask.capture != "-" else "standard input"
        write_output(ask.html, page_of(ladder, name).encode("utf-8"))
        if ask.html != "-":
            say(f"page: {ask.html}")
    else:
        write_output(None, text_of(ladder, ask.wrong).encode("utf-8"))
    return LOOKS_WRONG if any(look.level == "bad" for look in looks_of(ladder)) else GOOD
