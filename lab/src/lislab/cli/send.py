"""The command `lislab send`."""
import argparse
import asyncio
from typing import Callable, Iterator, List

from ..analyzer import asker, send
from ..model import options
from ..model.options import OptionError
from ..model.said import many, say
from .common import GOOD, LOOKS_WRONG, add_renamed, read_input, write_output
from .words import COUNT, FACTOR, PLACE, SECONDS, add_each, add_scale


def add_options(one: argparse.ArgumentParser) -> None:
    """Adds the options of `lislab send`."""
    one.add_argument("records", nargs="?", default="-", help="a file of records (standard input)")
    one.add_argument("--to", metavar="HOST:PORT", help="connect to a host's TCP port")
    one.add_argument("--serial", metavar="DEVICE:SPEED[,mode=8N1][,flow=..]", help="open a serial port")
    one.add_argument(
        "--tries",
        type=PLACE,
        default=10,
        metavar="N",
        help="try N times to send a message; 0 is no limit (%(default)s)",
    )
    one.add_argument(
        "--rate", type=SECONDS, default=0.0, metavar="N", help="send at most N messages per second and analyzer"
    )
    one.add_argument(
        "--analyzers", type=COUNT, default=1, metavar="N", help="simulate N analyzers, each of which sends everything"
    )
    one.add_argument("--made", type=COUNT, metavar="N", help="send N generated messages per analyzer, and no file")
    one.add_argument("--seconds", type=FACTOR, metavar="S", help="stop after S seconds")
    add_each(one, "--query", "SAMPLE", "query the orders of a sample, or of ALL; may be repeated")
    add_renamed(one, "send", "--ask", metavar="SAMPLE")
    one.add_argument("--results", metavar="FILE", help="with --query: send results, from rows TEST,VALUE,UNIT")
    one.add_argument("--log", metavar="FILE", help="write a JSON line for every message that is done")
    one.add_argument("--quiet", action="store_true", help="print no line per message")
    add_scale(one)


def _texts_of(ask: argparse.Namespace, bad: List[str]) -> Callable[[str], Iterator[send.Texts]]:
    if ask.made is not None:
        return lambda name: (send.made_message(name, number) for number in range(1, ask.made + 1))
    found = list(send.messages_of(read_input(ask.records)))
    bad.extend(one for one in found if isinstance(one, str))
    return lambda name: (one for one in found if not isinstance(one, str))


def run(ask: argparse.Namespace) -> int:
    """Sends messages, and reports how each one went."""
    if bool(ask.to) == bool(ask.serial):
        raise OptionError("name the host by --to or the line by --serial")
    target: send.Target = options.split_address(ask.to) if ask.to else options.serial_of(ask.serial)
    if ask.serial and ask.analyzers != 1:
        raise OptionError("a serial line has one analyzer")
    if ask.query:
        return _run_query(ask, target)
    bad: List[str] = []
    texts = _texts_of(ask, bad)
    for why in bad:
        say(why)
    many = ask.analyzers > 1 or ask.made is not None
    names = [f"A{number}" if many else "" for number in range(1, ask.analyzers + 1)]
    plan = send.Plan(target, texts, names, ask.rate, ask.scale, ask.tries, ask.log, ask.seconds)

    def report(name: str, number: int, sent: send.Sent) -> None:
        if not ask.quiet:
            send.print_sent(f"{name}: " if name else "", number, sent)

    summary = asyncio.run(send.send_all(plan, report))
    send.print_summary(summary)
    return LOOKS_WRONG if bad or summary.failed else GOOD


def _run_query(ask: argparse.Namespace, target: send.Target) -> int:
    """Queries orders, prints the records that came, and sends results for them."""
    values = None
    if ask.results:
        values = asker.values_of(read_input(ask.results))
    samples = [] if ask.query == ["ALL"] else ask.query

    async def run() -> asker.Round:
        channel = await asker.connected(target, ask.tries)
        try:
            return await asker.ask(channel, samples, values, ask.scale)
        except EOFError as error:
            return asker.Round([], str(error))
        finally:
            channel.close()

    told = asyncio.run(run())
    write_output(None, b"".join(told.texts).replace(b"\r", b"\n"))
    if told.why:
        say(told.why)
    return LOOKS_WRONG if told.why else GOOD
