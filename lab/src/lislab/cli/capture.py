"""The command `lislab capture`."""
import argparse

from lislink.capture import Capture, looks_like_capture, read_capture, write_lines
from ..diagnosis.log import LogError, time_text
from ..field import sniffers
from ..model.files import write_whole
from .common import GOOD, USAGE, read_input, say, write_output
from .inputs import add_import_options, imported


def add_options(one: argparse.ArgumentParser) -> None:
    """Adds the options of `lislab capture`."""
    one.add_argument("log", nargs="?", default="-", help="the log (standard input)")
    one.add_argument("-o", "--output", metavar="FILE", help="write the capture to FILE and its times to FILE.times")
    one.add_argument("--times", metavar="FILE", help="write the times to FILE")
    one.add_argument("--analyzer", metavar="FILE", help="a dump of the analyzer's bytes")
    one.add_argument("--computer", metavar="FILE", help="a dump of the computer's bytes")
    add_import_options(one)


def run(ask: argparse.Namespace) -> int:
    """Makes a capture of a log, or of two dumps."""
    if bool(ask.analyzer) != bool(ask.computer) or (ask.analyzer and ask.log != "-"):
        say("--analyzer FILE and --computer FILE belong together, without a log")
        return USAGE
    if ask.analyzer:
        capture, remarks = sniffers.of_two_dumps(read_input(ask.analyzer), read_input(ask.computer))
    else:
        data = read_input(ask.log)
        if ask.form is None and looks_like_capture(data):
            if not ask.swap:
                raise LogError("this is a capture already (--swap swaps its sides)")
            capture, remarks = sniffers.swapped(read_capture(data)), ["the sides are swapped"]
        else:
            capture, remarks = imported(data, ask)
    write_output(ask.output, write_lines(line for _, line in capture.lines).encode())
    times = ask.times or (ask.output + ".times" if ask.output not in (None, "-") else None)
    if times and any(time is not None for time in capture.times):
        write_whole(times, times_text(capture).encode())
        remarks.append(f"times: {times}")
    for remark in remarks:
        say(remark)
    return GOOD


def times_text(capture: Capture) -> str:
    """The file of times next to a capture: a line for each of its lines."""
    head = ["" for _ in range(capture.lines[0][0] - 1)] if capture.lines else []
    return "".join(row + "\n" for row in head + [time_text(time) for time in capture.times])
