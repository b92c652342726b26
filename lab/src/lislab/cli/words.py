"""Options that several commands have."""
import argparse
import math
from typing import Callable


def add_store(parser: argparse.ArgumentParser) -> None:
    """Adds `--store`."""
    parser.add_argument(
        "--store",
        required=True,
        metavar="STORE",
        help="use this store: an SQLite file, postgresql://.., or spool:DIRECTORY",
    )


def number_from(kind: Callable[[str], float], least: float) -> Callable[[str], float]:
    """A function that reads a number of at least so much."""

    def read(word: str) -> float:
        try:
            value = kind(word)
        except ValueError:
            value = math.nan
        if not value >= least:
            raise argparse.ArgumentTypeError(f"expected a number at least {least}, not {word}")
        return value

    return read


#: Numbers of one and of zero or more; seconds that may be none, and others.
COUNT, PLACE = number_from(int, 1), number_from(int, 0)
SECONDS, FACTOR = number_from(float, 0), number_from(float, 0.001)


def add_each(parser: argparse.ArgumentParser, name: str, metavar: str, what: str) -> None:
    """Adds an option that may be given several times."""
    parser.add_argument(name, action="append", default=[], metavar=metavar, help=what)


def add_allow(
    parser: argparse.ArgumentParser, what: str = "let this network connect too, for example 10.0.5.0/24"
) -> None:
    """Adds `--allow`."""
    add_each(parser, "--allow", "NETWORK", f"{what}; may be repeated")


def add_scale(parser: argparse.ArgumentParser) -> None:
    """The length of each timer, for tests."""
    parser.add_argument("--scale", type=FACTOR, default=1.0, metavar="S", help=argparse.SUPPRESS)
