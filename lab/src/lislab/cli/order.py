"""`lislab order`: the orders of a store are added, listed, cancelled, and sent again."""
import argparse
import contextlib
import time
from typing import Any, List

from lislink.order import Order, orders_of
from ..model.book import FAILED, SENT, STATES, OrderBook, Placed
from ..model.books import open_book
from ..model.options import OptionError
from ..model.said import say, shown
from .common import GOOD, LOOKS_WRONG, read_input
from .words import add_store

#: The end of `order list --help`.
_STATES = (
    "An order is waiting until it is sent, also after a try that failed. It is sent when the analyzer has "
    "acknowledged every frame of it, and done when a result of each of its tests has come. It is failed, with the "
    "reason, after the last try of `serve --tries`, or if it can't be written in the line's encoding. `lislab "
    "order again NUMBER` sends a failed order again, `lislab order cancel NUMBER` gives it up: it is then "
    "cancelled and not sent."
)


def add_options(top: argparse.ArgumentParser) -> None:
    """Adds the commands of `lislab order`."""
    whats = top.add_subparsers(dest="what", required=True, metavar="COMMAND")
    for name, add, run, what in (
        ("add", _add_add, run_add, "add the orders of a file"),
        ("list", _add_list, run_list, "list orders with their states"),
        ("cancel", _add_change, run_cancel, "cancel orders that are not sent"),
        ("again", _add_change, run_again, "let orders wait again"),
    ):
        epilog = _STATES if name == "list" else None
        one = whats.add_parser(name, help=what, description=f"{what[0].upper()}{what[1:]}.", epilog=epilog)
        add_store(one)
        add(one)
        one.set_defaults(run=run)


def _add_add(one: argparse.ArgumentParser) -> None:
    one.add_argument("orders", nargs="?", default="-", help="CSV, JSON lines or records (standard input)")
    one.add_argument("--line", default="", metavar="NAME", help="the line of rows that name none")
    one.add_argument("--some", action="store_true", help="add the valid orders of a file that has faults")
    one.add_argument("--encoding", default="utf-8", help="encoding of the file (utf-8)")


def _add_list(one: argparse.ArgumentParser) -> None:
    one.add_argument("--sample", metavar="SAMPLE", help="only orders of this sample")
    one.add_argument("--state", choices=STATES, help="only orders in this state")
    one.add_argument("--owed", action="store_true", help="only sent orders that lack a result, with the missing tests")


def _add_change(one: argparse.ArgumentParser) -> None:
    one.add_argument(
        "numbers", nargs="+", type=int, metavar="NUMBER", help="number of an order, from lislab order list"
    )


def _words(placed: Placed) -> str:
    """An order in a line: its number, sample, line and tests."""
    order = placed.order
    return f"order {placed.number} {order.sample} {order.line or '-'} {','.join(order.tests)}"


def told(placed: Placed) -> str:
    """The same, then its state."""
    order, words = placed.order, _words(placed)
    at = time.strftime("%Y-%m-%d %H:%M:%S", time.localtime(placed.changed))
    where = f" on {placed.asked}:" if placed.state == FAILED and placed.asked not in ("", order.line) else ""
    why = f"{where} {placed.reason}" if placed.reason else ""
    return f"{words} {placed.state} {at}{why}" + (f", tried {placed.tries}" if placed.tries else "")


def run_add(ask: argparse.Namespace) -> int:
    """Adds the orders of a file. If one of its rows is no order, nothing is added, unless `--some` is given."""
    good: List[Order] = []
    rejected = 0
    try:
        for number, found in orders_of(read_input(ask.orders), ask.encoding):
            if isinstance(found, str):
                rejected += 1
                say(f"line {number}: {found}")
            else:
                good.append(found._replace(line=found.line or ask.line))
    except LookupError:
        raise OptionError(f"there is no encoding {ask.encoding}") from None
    if good and (ask.some or not rejected):
        with contextlib.closing(open_book(ask.store)) as book:
            for placed in book.add(good):
                print(shown(_words(placed)))
    else:
        good = []
    print(f"orders {len(good)} rejected {rejected}", flush=True)
    return LOOKS_WRONG if rejected or not good else GOOD


def run_list(ask: argparse.Namespace) -> int:
    """Lists orders."""
    with contextlib.closing(open_book(ask.store, reading=True)) as book:
        for placed in book.listed(ask.sample, SENT if ask.owed else ask.state):
            lacks = [test for test in placed.order.tests if test not in placed.came]
            print(shown(told(placed) + (f", no result of {','.join(lacks)}" if ask.owed else "")))
    return GOOD


def _change(ask: argparse.Namespace, change: Any, state: str, why_not: str) -> int:
    status = GOOD
    with contextlib.closing(open_book(ask.store)) as book:
        for number in ask.numbers:
            if change(book, number):
                print(f"order {number} {state}", flush=True)
            else:
                say(f"order {number}: {why_not}")
                status = LOOKS_WRONG
    return status


def run_cancel(ask: argparse.Namespace) -> int:
    """Cancels orders."""
    return _change(ask, OrderBook.cancel, "cancelled", "there is none that waits or has failed, or it is being sent")


def run_again(ask: argparse.Namespace) -> int:
    """Lets orders wait again."""
    return _change(ask, OrderBook.again, "waiting", "there is none that is sent, failed or cancelled")
