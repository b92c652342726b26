"""The captures, logs and records that commands read."""
import argparse
import codecs
import os
import re
from typing import List, Tuple

from lislink.capture import Capture, looks_like_capture, read_capture
from lislink.letters import LATIN
from lislink.link import FRAME_TEXT, LONG_FRAME_TEXT
from ..diagnosis.log import LogError, times_beside
from ..field import sniffers
from ..field.ladder import Ladder
from .common import read_input, say


def add_import_options(parser: argparse.ArgumentParser) -> None:
    """Adds the options that say how a log is read."""
    forms = sorted([*sniffers.FORMS, "pcap", "raw"])
    parser.add_argument("--form", choices=forms, metavar="FORMAT", help="format of the log, if it is not recognized")
    parser.add_argument("--analyzer-side", metavar="NAME", help="name of the analyzer's side in the log")
    parser.add_argument("--swap", action="store_true", help="treat the other side as the analyzer")
    parser.add_argument("--port", type=int, help="only this TCP port")
    parser.add_argument("--stream", type=int, metavar="N", help="only this TCP connection, counted from 1")
    parser.add_argument("--fd", type=int, metavar="N", help="only this file descriptor of an strace")
    parser.add_argument(
        "--timer", type=float, metavar="SECONDS", help="write a line T where the analyzer is silent for longer"
    )
    parser.add_argument("--mixed", action="store_true", help="one stream holds both sides: separate ACK and NAK")
    parser.add_argument(
        "--skip-missing", action="store_true", help="continue where bytes of a TCP connection are missing"
    )
    parser.add_argument("--units", action="store_true", help="write one line per ENQ, frame, reply or EOT")


def imported(data: bytes, ask: argparse.Namespace) -> Tuple[Capture, List[str]]:
    """The capture of a log, and remarks about it."""
    options = sniffers.Options(**{name: getattr(ask, name) for name in sniffers.Options._fields})
    return sniffers.capture_of(sniffers.read_log(data, options), options)


def load(path: str, ask: argparse.Namespace) -> Capture:
    """A capture with the times in the file next to it, or the capture of a log, on which remarks are printed."""
    data = read_input(path)
    if ask.form is None and looks_like_capture(data):
        capture = read_capture(data)
        beside = getattr(ask, "times", None) or (path + ".times" if path != "-" else "")
        if beside and os.path.exists(beside):
            capture = capture._replace(times=times_beside([number for number, _ in capture.lines], beside))
        return sniffers.swapped(capture) if ask.swap else capture
    if ask.form is None and looks_like_records(data):
        raise LogError("these are records, and no line: see lislab normalize --explain, and lislab table")
    return _remarked(data, ask)


def _remarked(data: bytes, ask: argparse.Namespace) -> Capture:
    capture, remarks = imported(data, ask)
    for remark in remarks:
        say(remark)
    return capture


def looks_like_records(data: bytes) -> bool:
    """Whether a file begins with a header: H and punctuation."""
    return re.match(rb"(?:\xef\xbb\xbf)?[\r\n ]*[Hh][!-/:-@\[-`{-~]{3}", data[:40]) is not None


def frame_limit(ask: argparse.Namespace) -> int:
    """The most bytes of a frame's text."""
    return LONG_FRAME_TEXT if ask.long else FRAME_TEXT


def add_long(parser: argparse.ArgumentParser) -> None:
    """Adds `--long`."""
    parser.add_argument("--long", action="store_true", help="accept frames of up to 63,993 bytes of text")


def records_of(path: str, ask: argparse.Namespace) -> bytes:
    """The records of a file: record text as it is, and those that the receiver delivers of a capture or a log."""
    data = read_input(path)
    if ask.form is None and (looks_like_records(data) or not data.strip()):
        return data
    capture = read_capture(data) if looks_like_capture(data) else _remarked(data, ask)
    return Ladder(capture, frame_limit=frame_limit(ask)).stream


def _encoding(name: str) -> str:
    try:
        return codecs.lookup(name).name
    except LookupError:
        raise argparse.ArgumentTypeError(f"there is no encoding {name}") from None


def add_encoding(one: argparse.ArgumentParser) -> None:
    """Adds `--encoding`."""
    one.add_argument("--encoding", type=_encoding, default=LATIN, help="encoding of the records (latin-1)")
