"""Shared by the commands: exit statuses, standard error, files, options under old names."""
import argparse
import sys
from typing import Any, Optional

from ..model import renamed
from ..model.files import write_whole
from ..model.said import shown

#: Exit statuses, the same as of lislink.
GOOD, LOOKS_WRONG, USAGE, STOPPED = 0, 1, 2, 3


def say(text: str) -> None:
    """Lines on standard error."""
    print("lislab: " + "\n".join(map(shown, text.split("\n"))), file=sys.stderr)


class Renamed(argparse.Action):
    """An option under its old name, which this version accepts and reports; `const` is the new one."""

    def __call__(
        self, parser: Any, namespace: argparse.Namespace, values: Any, option_string: Optional[str] = None
    ) -> None:
        renamed.report(str(option_string), str(self.const))
        before = getattr(namespace, self.dest)
        setattr(namespace, self.dest, [*before, values] if isinstance(before, list) else values)


def add_renamed(parser: argparse.ArgumentParser, command: str, old: str, **how: Any) -> None:
    """Adds an option of a command under its old name."""
    new = renamed.OPTIONS[command, old]
    parser.add_argument(old, action=Renamed, const=new, dest=new[2:].replace("-", "_"), help=argparse.SUPPRESS, **how)


def read_input(path: str) -> bytes:
    """The bytes of a file, or of standard input for `-`."""
    if path == "-":
        return sys.stdin.buffer.read()
    with open(path, "rb") as file:
        return file.read()


def write_output(path: Optional[str], data: bytes) -> None:
    """Writes to a file, or to standard output."""
    if path is None or path == "-":
        sys.stdout.buffer.write(data)
        sys.stdout.buffer.flush()
    else:
        write_whole(path, data)
