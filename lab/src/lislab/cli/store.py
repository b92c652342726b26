"""`lislab store`: copies an SQLite store into one file while a host runs, with the cursors and the quarantine of its
deliveries, and makes a store from such a copy. It prints the version of a store's tables, and upgrades them."""
import argparse
import contextlib
import os
import sqlite3
from typing import Any, Dict, Iterator, List, Optional, Sequence

from ..model.files import sync_folder, write_synced
from ..model.options import OptionError
from ..model.said import say
from ..model.schema import SCHEMA
from ..model.sql import SqlStore
from ..model.store import StoreError
from ..model.stores import open_store
from ..outbound.quarantine import EARLIER, QUARANTINE
from .words import add_each

#: The table of a copy that has its cursors, and the ends of the names of a cursor's files.
_FILES, _ENDS = "backup_file", ("", QUARANTINE, EARLIER)
#: The ends of the names of a store's files, while a host runs and after it was killed.
_BESIDE = ("", "-wal", "-shm")


def add_options(top: argparse.ArgumentParser) -> None:
    """Adds the commands of `lislab store`."""
    deeds = top.add_subparsers(dest="deed", metavar="COMMAND", required=True)
    for name, run, what in (
        ("backup", run_backup, "copy a store while its host runs, with the cursors and quarantine of its deliveries"),
        ("restore", run_restore, "make a store from a copy; no file of a store may exist there"),
        ("check", run_check, "print the version of the tables and every fault of the database"),
        ("upgrade", run_upgrade, "upgrade the tables to this version; back up first, and stop the host"),
    ):
        one = deeds.add_parser(name, help=what, description=f"{what[0].upper()}{what[1:]}.")
        one.set_defaults(run=run)
        if run in (run_check, run_upgrade):
            one.add_argument("--store", required=True, metavar="STORE", help="an SQLite file or postgresql://..")
            continue
        one.add_argument("--store", required=True, metavar="FILE", help="an SQLite file")
        add_each(one, "--cursor", "FILE", "the cursor of a delivery; may be repeated")
        one.add_argument("copy", metavar="COPY", help="the file of the copy")


def run_check(ask: argparse.Namespace) -> int:
    """Prints what there is to say of the tables."""
    with contextlib.closing(_tables_of(ask.store)) as store:
        version, faults = store.version(), store.faults()
    print(f"version {version} of {SCHEMA}")
    for fault in faults:
        print(fault)
    if version < SCHEMA:
        say(f"`lislab store upgrade --store {ask.store}` takes it to version {SCHEMA}, as the host does when it starts")
    return int(version != SCHEMA or bool(faults))


def run_upgrade(ask: argparse.Namespace) -> int:
    """Takes the tables to this program's version."""
    with contextlib.closing(_tables_of(ask.store)) as store:
        before = store.version()
        if not before:
            raise StoreError(f"{ask.store}: there are no tables")
        if store.is_held():
            raise StoreError(f"{ask.store}: a host has it: stop it first")
        store.close()
        store.join()
        say(f"{ask.store}: version {store.version()} of the tables; it was version {before}")
    return 0


def _tables_of(name: str) -> SqlStore:
    """A store in a database."""
    store = open_store(name)
    if not isinstance(store, SqlStore):
        raise OptionError(f"{name} is a spool: it has no tables")
    return store


def run_backup(ask: argparse.Namespace) -> int:
    """Makes a copy."""
    names = _names(ask.cursor)
    backup(_sqlite(ask.store), names, ask.copy)
    say(f"{ask.copy}: a copy of {ask.store}" + (f" with {', '.join(names)}" if names else ""))
    return 0


def run_restore(ask: argparse.Namespace) -> int:
    """Makes a store of a copy."""
    names = _names(ask.cursor)
    restore(ask.copy, _sqlite(ask.store), names)
    say(f"{ask.store}: the store of {ask.copy}" + (f" with {', '.join(names)}" if names else ""))
    return 0


def _sqlite(store: str) -> str:
    if store.startswith("spool:") or "://" in store:
        raise OptionError(f"{store} is no SQLite file: docs/operate.md has how to back up a spool or PostgreSQL")
    return store


def _names(cursors: Sequence[str]) -> Dict[str, str]:
    """The cursors by their names in a copy."""
    names = {os.path.basename(path): path for path in cursors}
    if len(names) < len(cursors):
        raise OptionError("two cursors have one name: a copy can't tell them apart")
    return names


def backup(store: str, cursors: Dict[str, str], copy: str) -> None:
    """Copies a store as it is at one moment, and its cursors as they were before it: a delivery that goes on after a
    restore may send a message again, and leaves none out. StoreError; the copy is there whole, or not at all."""
    if os.path.exists(copy):
        raise StoreError(f"{copy} is there already")
    if not os.path.exists(store):
        raise StoreError(f"{store}: there is no such store")
    files = [(name + end, _read(path + end)) for name, path in cursors.items() for end in _ENDS]
    for name, data in files:
        if data is None and name in cursors:
            raise StoreError(f"{cursors[name]}: there is no such cursor")
    with _made(copy) as db:
        _copied(store, db)
        db.execute(f"CREATE TABLE {_FILES} (name TEXT PRIMARY KEY, data BLOB)")
        db.executemany(f"INSERT INTO {_FILES} VALUES (?, ?)", [row for row in files if row[1] is not None])


def restore(copy: str, store: str, cursors: Dict[str, str]) -> None:
    """Makes a store of a copy, and the files of its cursors. StoreError if a file of one is there already, or the copy
    has a cursor that isn't named, or hasn't one that is."""
    if not os.path.exists(copy):
        raise StoreError(f"{copy}: there is no such copy")
    targets = [store + end for end in _BESIDE] + [path + end for path in cursors.values() for end in _ENDS]
    there = [path for path in targets if os.path.exists(path)]
    if there:
        raise StoreError(f"{', '.join(there)}: move it away first")
    with _made(store) as db:
        _copied(copy, db)
        try:
            files: List[Any] = db.execute(f"SELECT name, data FROM {_FILES}").fetchall()
        except sqlite3.OperationalError:
            raise StoreError(f"{copy} is no copy that `lislab store backup` made") from None
        kept = {name + end: path + end for name, path in cursors.items() for end in _ENDS}
        unnamed = [name for name, _ in files if name not in kept]
        if unnamed:
            raise StoreError(f"the copy has {', '.join(unnamed)}: name the file of its delivery by --cursor")
        for name in set(cursors) - {name for name, _ in files}:
            raise StoreError(f"{copy} has no cursor {name}")
        db.execute(f"DROP TABLE {_FILES}")
        for name, data in files:
            write_synced(kept[name], data)


@contextlib.contextmanager
def _made(path: str) -> Iterator[sqlite3.Connection]:
    """A database that gets its name once it is completely on the disk; only its owner can read it."""
    made = path + ".new"
    try:
        os.close(os.open(made, os.O_WRONLY | os.O_CREAT | os.O_TRUNC | os.O_CLOEXEC, 0o600))
        db = sqlite3.connect(made)
        try:
            yield db
            db.commit()
            if db.execute("PRAGMA journal_mode=DELETE").fetchone()[0] != "delete":
                raise StoreError(f"{made}: the copy isn't closed")
            found = db.execute("PRAGMA quick_check").fetchone()[0]
            if found != "ok":
                raise StoreError(f"{made}: {found}")
        finally:
            db.close()
        with open(made, "rb") as file:
            os.fsync(file.fileno())
        os.rename(made, path)
        sync_folder(os.path.dirname(os.path.abspath(path)))
    except (sqlite3.Error, OSError) as error:
        raise StoreError(f"{path}: {error}") from None
    finally:
        with contextlib.suppress(OSError):
            os.unlink(made)


def _copied(source: str, target: sqlite3.Connection) -> None:
    one = sqlite3.connect(source, timeout=5.0)
    try:
        one.backup(target)
    finally:
        one.close()


def _read(path: str) -> Optional[bytes]:
    try:
        with open(path, "rb") as file:
            return file.read()
    except FileNotFoundError:
        return None
