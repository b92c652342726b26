"""The command `lislab deliver`."""
import argparse
import os
import signal
from types import FrameType
from typing import Callable, Iterator, List, NamedTuple, Optional

from lislink._library import calls
from ..field.table import form_of
from ..model import options
from ..model.failures import Refused
from ..model.files import is_locked
from ..model.options import OptionError, split_peer
from ..model.results import Reading
from ..model.said import counted, many, say
from ..model.store import Store, Stored, StoreError
from ..model.stores import open_store
from ..model.unix import shown
from ..outbound import deliver, export, https, mllp, quarantine
from ..outbound.ahead import Ahead
from ..outbound.corrected import Corrections, without
from .common import GOOD, LOOKS_WRONG, add_renamed
from .export import add_forms, form_asked
from .words import COUNT, FACTOR, add_store

#: Where messages go, and the form that they have there if none is named.
_SCHEMES = {"mllp": "oru", "mllps": "oru", "https": "fhir", "http": "fhir"}


def add_options(one: argparse.ArgumentParser) -> None:
    """Adds the options of `lislab deliver`."""
    add_store(one)
    one.add_argument("--cursor", required=True, metavar="FILE", help="remember here which message was delivered last")
    one.add_argument(
        "--to",
        metavar="WHERE",
        help="send to mllp://HOST:PORT, mllps://HOST:PORT (TLS), https://.., or a directory",
    )
    one.add_argument("--directory", metavar="DIR", help="the same as --to DIR")
    one.add_argument(
        "--format",
        type=form_of,
        choices=export.FORMATS,
        help="write this format (oru over MLLP, fhir over HTTPS, else records)",
    )
    add_forms(one)
    one.add_argument(
        "--ca", metavar="FILE", help="trust the certificate authorities of this PEM file, not the system's"
    )
    one.add_argument("--headers", metavar="FILE", help="send these HTTP headers, rows of Name: value")
    one.add_argument(
        "--seconds", type=FACTOR, default=60.0, help="wait SECONDS for a command or an answer (%(default)s)"
    )
    one.add_argument("--once", action="store_true", help="deliver what there is, then exit")
    one.add_argument(
        "--quarantine",
        type=COUNT,
        default=0,
        metavar="N",
        help="quarantine a message after N failures, with later messages of its samples",
    )
    one.add_argument(
        "--resend", metavar="KEY", help="send this quarantined message and those that share its samples; all: every one"
    )
    add_renamed(one, "deliver", "--aside", type=COUNT, metavar="N")
    add_renamed(one, "deliver", "--again", metavar="KEY")
    one.add_argument(
        "words", nargs="*", metavar="COMMAND", help="after --: a command that reads one message from standard input"
    )


def _form_of(ask: argparse.Namespace) -> export.Form:
    """How messages are written, and that where they go fits it."""
    where: str = ask.to or ask.directory or ""
    if [bool(ask.to), bool(ask.directory), bool(ask.words)].count(True) != 1:
        raise OptionError("name the receiver by --to or --directory, or a command after --")
    scheme, slashes, _ = where.partition("://")
    scheme = scheme if slashes else ""
    if scheme not in ("", *_SCHEMES):
        raise OptionError(f"{where}: expected {', '.join(f'{one}://' for one in _SCHEMES)} or a directory")
    if (ask.ca and scheme not in ("mllps", "https")) or (ask.headers and scheme not in ("https", "http")):
        raise OptionError("--ca is for mllps:// and https://, --headers for https://")
    form: str = ask.format or _SCHEMES.get(scheme, "records")
    if scheme in ("mllp", "mllps") and form != "oru":
        raise OptionError(f"MLLP carries messages of HL7, --format oru, and not {form}")
    return form_asked(ask, form, say)._replace(written={})


class _Outbound(NamedTuple):
    """What delivers a message, by the options; and the messages of a store, in turn."""

    target: deliver.Target
    over: Callable[[Iterator[Stored]], Iterator[Stored]]


def _outbound_of(ask: argparse.Namespace, form: export.Form, store: Store, lock: int) -> _Outbound:
    """All but `records` and `json` leave out what would undo a correction."""
    if form.form in ("records", "json"):
        ahead = Ahead(export.writer_of(form))
        return _Outbound(_receiver_of(ask, form, lock, ahead), ahead.over)
    reading = form.tables.reading if form.tables else lambda line: Reading()
    corrections = Corrections(store, reading, form.wishes.header_time if form.wishes else None)
    ahead = Ahead(corrections.writer(form))
    target = without(_receiver_of(ask, form, lock, ahead), corrections, form.counts, say)
    return _Outbound(target, lambda messages: ahead.over(corrections.over(messages)))


def _receiver_of(ask: argparse.Namespace, form: export.Form, lock: int, ahead: Ahead) -> deliver.Target:
    """A function that delivers a message to whom the options name, and then counts what was left out of it."""
    target = _target_of(ask, form, lock, ahead)

    def take(one: Stored) -> bool:
        is_handed = target(one)
        form.counts.update((form.written or {}).pop(one.key, {}))
        return is_handed

    return take


def _target_of(ask: argparse.Namespace, form: export.Form, lock: int, ahead: Ahead) -> deliver.Target:
    """A function that delivers a message to whom the options name."""
    where: str = ask.to or ask.directory or ""
    scheme, slashes, rest = where.partition("://")
    scheme = scheme if slashes else ""
    write = ahead.write
    if scheme in ("mllp", "mllps"):
        host, port = split_peer(rest.rstrip("/"))
        context = https.context_of(ask.ca) if scheme == "mllps" else None
        return mllp.to_mllp(mllp.Mllp(host, port, ask.seconds, context), ahead)
    if scheme in ("https", "http"):
        if ask.headers:
            https.headers_of(ask.headers)
        server = https.Https(where, ask.seconds, https.context_of(ask.ca), ask.headers)
        return https.to_https(server, write, form.form)
    if where:
        return deliver.to_directory(where, form.form, write)
    words: List[str] = ask.words
    return deliver.to_command(words, write, ask.seconds, lock)


def run(ask: argparse.Namespace) -> int:
    """Delivers until it is stopped, or what there is, or what is in quarantine."""
    if ask.resend is not None:
        return _run_again(ask)
    form = _form_of(ask)
    store = open_store(ask.store)
    cursor = deliver.Cursor(ask.cursor, say)
    try:
        kept = _quarantine_of(ask, form)
        outbound = _outbound_of(ask, form, store, cursor.lock)
        one = deliver.Delivery(
            store,
            cursor,
            outbound.target,
            say,
            quarantine=kept,
            wants=_wants(ask, store),
            counts=lambda: dict(form.counts),
            over=outbound.over,
        )
        signal.signal(signal.SIGTERM, _stop)
        count = deliver.run(one, ask.once)
        say(f"{many(count.delivered, 'message')} delivered")
        if count.empty:
            say(f"{many(count.empty, 'message')} had nothing to deliver")
        for text in counted(form.counts):
            say(text)
        if kept.held:
            say(f"{many(len(kept.held), 'message is', 'messages are')} in quarantine")
        return LOOKS_WRONG if kept.held else GOOD
    except Refused:
        return LOOKS_WRONG
    except deliver.Stopped:
        return 128 + signal.SIGTERM
    finally:
        cursor.close()
        store.close()


def _stop(number: int, frame: Optional[FrameType]) -> None:
    """Ends the delivery at SIGTERM: the try that goes on isn't counted."""
    raise deliver.Stopped


def _wants(ask: argparse.Namespace, store: Store) -> "deliver.Wants":
    """Which messages are delivered at all. A line that no message came from is said: its name may be wrong."""
    line, repeats = ask.line, not ask.without_repeats
    names = [one.line for one in store.counts()] if line is not None else []
    if names and line not in names:
        say(f"{ask.store}: {shown(options.no_line(line, names))}")
    return lambda one: (line is None or one.line == line) and (repeats or one.again_of is None)


def _quarantine_of(ask: argparse.Namespace, form: export.Form) -> quarantine.Quarantine:
    kept = quarantine.Quarantine(ask.cursor, int(ask.quarantine), *([form.tables.reading] if form.tables else []))
    if kept.most or kept.held:
        calls()  # without the library no sample could be read
    return kept


def _run_again(ask: argparse.Namespace) -> int:
    """Sends quarantined messages; if another process delivers with this cursor, asks that one to do it."""
    if not quarantine.is_key(ask.resend):
        raise OptionError(f"--resend {ask.resend}: expected the key of a message, or all")
    named = quarantine.Quarantine(ask.cursor).together(ask.resend)
    if not named:
        which = "" if ask.resend == quarantine.ALL else f" under the key {ask.resend}"
        say(f"{ask.cursor}: nothing is in quarantine{which}")
        return LOOKS_WRONG
    if _is_taken(ask.cursor):
        quarantine.wish(ask.cursor, ask.resend)
        say(f"{many(len(named), 'message is', 'messages are')} sent by the delivery that has {ask.cursor}")
        return GOOD
    form = _form_of(ask)
    store = open_store(ask.store)
    cursor = deliver.Cursor(ask.cursor, say)
    try:
        target = _outbound_of(ask, form, store, cursor.lock).target
        one = deliver.Delivery(store, cursor, target, say, quarantine=_quarantine_of(ask, form))
        return GOOD if deliver.run_again(one, ask.resend) else LOOKS_WRONG
    finally:
        cursor.close()
        store.close()


def _is_taken(cursor: str) -> bool:
    """Whether a delivery has this cursor."""
    try:
        return os.path.exists(cursor + ".lock") and is_locked(cursor + ".lock")
    except OSError as error:
        raise StoreError(f"{cursor}.lock: {error.strerror or error}") from None
