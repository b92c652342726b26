"""The command `lislab lines`."""
import argparse
from typing import List, Sequence

from ..model import lines, options
from ..model.options import Network, OptionError, Place
from .common import GOOD, LOOKS_WRONG
from .words import add_allow


def add_options(one: argparse.ArgumentParser) -> None:
    """Adds the options of `lislab lines`."""
    one.add_argument("file", metavar="FILE", help="a lines file: [NAME], then listen, connect or serial, and settings")
    add_allow(one)


def run(ask: argparse.Namespace) -> int:
    """Prints the lines of a file and its faults; status 1 if it has some."""
    found = lines.read_lines(ask.file, options.networks_of(ask.allow))
    for row in [*map(lines.text_of, found.places), *found.faults]:
        print(row)
    print(f"lines {len(found.places)} faults {len(found.faults)}")
    return LOOKS_WRONG if found.faults else GOOD


def lines_of(ask: argparse.Namespace, files: Sequence[str], networks: Sequence[Network]) -> lines.Lines:
    """The lines of the options and of the lines file."""
    listens = [options.listen_of(word) for word in ask.listen]
    options.check_allowed(listens, networks)
    named: List[Place] = [
        *listens,
        *map(options.connect_of, ask.connect),
        *map(options.serial_of, ask.serial),
    ]
    read = lines.lines_of(files[0], networks) if files else lines.Lines([], [], {}, [])
    if not named and not read.places:
        raise OptionError("name a line by --listen, --connect or --serial, or a lines file by --lines")
    twice = {place.name for place in named} & {place.name for place in read.places}
    if twice:
        raise OptionError(f"{files[0]}: {min(twice)} is the name of a line that an option names too")
    return read._replace(places=[*named, *read.places])
