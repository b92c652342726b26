"""The command `lislab table`."""
import argparse
from typing import List

from lislink.letters import UTF_8, looks_like
from ..field import table
from .common import GOOD, LOOKS_WRONG, say, write_output
from .inputs import add_encoding, add_import_options, add_long, records_of


def add_options(one: argparse.ArgumentParser) -> None:
    """Adds the options of `lislab table`."""
    one.add_argument("records", nargs="*", help="files of records, captures or logs (standard input)")
    one.add_argument("-o", "--output", metavar="FILE", help="write to FILE, readable only by its owner")
    one.add_argument(
        "--format", type=table.form_of, choices=table.FORMS, default="csv", help="write this format (%(default)s)"
    )
    one.add_argument(
        "--fields",
        metavar="NAMES",
        help=f"columns: {','.join(table.USUAL)}, R.4, R.3.4, HEADING=O.5, result.operator",
    )
    one.add_argument(
        "--sample-from", type=int, choices=(3, 4), default=3, help="take the sample from this field of the order (3)"
    )
    add_encoding(one)
    one.add_argument("--no-header", action="store_true", help="leave out the row of names")
    one.add_argument("--orders", action="store_true", help="write orders instead of results")
    nested = "with --format json: write components and repeats as lists"
    one.add_argument("--nested", action="store_true", help=nested)
    add_long(one)
    add_import_options(one)


def run(ask: argparse.Namespace) -> int:
    """Writes results as a table."""
    usual = table.OF_ORDERS if ask.orders else table.USUAL
    names = [name.strip() for name in ask.fields.split(",")] if ask.fields else list(usual)
    if ask.nested and ask.format != "json":
        raise table.TableError("--nested is for --format json")
    columns = table.columns_of(names, ask.sample_from, ask.nested, ask.orders)
    line = table.line_writer(ask.format, columns)
    out: List[str] = [] if ask.no_header else [line(None)]
    status, odd = GOOD, 0
    for path in ask.records or ["-"]:
        where = f"{path}: " if len(ask.records) > 1 else ""
        records = records_of(path, ask)
        status = LOOKS_WRONG if _say_letters(where, records, ask) else status
        for row, why in table.rows_of(records, columns, ask.encoding, ask.orders):
            if row is None:
                say(where + why)
                status = LOOKS_WRONG
            else:
                odd += any("\ufffd" in str(cell) for cell in row)
                out.append(line(row))
    write_output(ask.output, "".join(out).encode("utf-8"))
    if odd:
        what = "orders" if ask.orders else "results"
        say(f"{odd} {what} hold bytes that aren't {ask.encoding}: name the encoding, as --encoding latin-1 or gbk")
        status = LOOKS_WRONG
    return status


def _say_letters(where: str, records: bytes, ask: argparse.Namespace) -> bool:
    """Warns if the letters of records look like another encoding."""
    look = looks_like(records, ask.encoding)
    if look:
        name = "utf-8" if look == UTF_8 else "gbk"
        say(f"{where}the letters are {look}: name the encoding, as --encoding {name}")
    return bool(look)
