"""The store in an SQLite file: one host, on a local disk. A write-ahead log, and a sync at every commit."""
import contextlib
import os
import sqlite3
from typing import Any, Iterator, List, Optional, Sequence, Tuple

from .files import is_locked, take_lock
from .schema import STATES_OF_SQLITE
from .sql import ROWS, TEXT, SqlStore, insert, rows_of
from .store import Stored, StoreError, Unit

#: How long another program's short transaction is waited for, in seconds.
PATIENCE = 5.0


class SqliteStore(SqlStore):
    """A store in a file. Next to it are its log (`-wal`), its index (`-shm`) and the host's lock (`-host`)."""

    tail, states = " WITHOUT ROWID", STATES_OF_SQLITE

    def __init__(self, path: str) -> None:
        super().__init__()
        self.path = self.label = path
        self._lock: Optional[int] = None
        self._db: Optional[sqlite3.Connection] = None

    def start(self, host: str) -> List[Stored]:
        self.host = host
        self._take()
        self._open()
        with self.changing():
            return self.take_left()

    def join(self) -> None:
        self._open()

    def _open(self) -> None:
        """Opens the file to change it, with the tables of this version."""
        try:
            private(self.path)
            self._db = self._connect()
            self.refuse_later()
            if self._db.execute("PRAGMA journal_mode=WAL").fetchone()[0] != "wal":
                raise StoreError(f"{self.path}: SQLite can't keep a write-ahead log here")
            self._db.execute("PRAGMA foreign_keys=OFF")
            with self.changing():
                self.make_tables()
            self._prepare(self._db)
        except (sqlite3.Error, OSError) as error:
            raise StoreError(f"{self.path}: {error}") from None

    @staticmethod
    def _prepare(db: sqlite3.Connection) -> None:
        """Sets a connection so that commits are durable."""
        db.execute("PRAGMA synchronous=FULL")
        db.execute("PRAGMA foreign_keys=ON")

    def _take(self) -> None:
        """Takes the host's lock: it goes with the process, however that ends."""
        try:
            self._lock = take_lock(self.path + "-host")
        except OSError as error:
            raise StoreError(f"{self.path}: {error}") from None
        if self._lock is None:
            raise StoreError(f"{self.path}: another host has this store")

    def _connect(self) -> sqlite3.Connection:
        return sqlite3.connect(self.path, timeout=PATIENCE, isolation_level=None, check_same_thread=False)

    def run(self, statement: str, values: Sequence[Any] = ()) -> Any:
        if self._db is None:
            if not os.path.exists(self.path):
                raise StoreError(f"{self.path}: there is no such store")
            self._db = self._connect()
            self.refuse_later()
            self.read_as_earlier()
            self._db.execute("PRAGMA query_only=ON")
        return self._db.execute(statement, values)

    def read(self, statement: str, values: Sequence[Any] = ()) -> List[Tuple[Any, ...]]:
        try:
            return super().read(statement, values)
        except sqlite3.Error as error:
            raise StoreError(f"{self.path}: {error}") from None

    def has(self, name: str) -> bool:
        return bool(self.read("SELECT count(*) FROM sqlite_master WHERE name = ?", (name,))[0][0])

    def version(self) -> int:
        """Programs before version 2 noted it only in a table."""
        return int(self.read("PRAGMA user_version")[0][0]) or super().version()

    def set_version(self, version: int) -> None:
        super().set_version(version)
        self.run(f"PRAGMA user_version = {version}")

    def faults(self) -> List[str]:
        return [str(row[0]) for row in self.read("PRAGMA integrity_check") if row[0] != "ok"]

    def commit(self, units: Sequence[Unit]) -> None:
        """Stores units. If they are a few texts, one statement does it, which is a transaction by itself."""
        begins, texts, ends = rows = rows_of(units, self.host)
        if begins or ends or not 0 < len(texts) <= 4 * ROWS or self._db is None or self._db.in_transaction:
            with self.changing():
                self.apply(rows)
            return
        try:
            self._db.execute(insert(TEXT, len(texts), 4), texts)
        except Exception as error:
            raise self._undone(error) from None

    def lock_numbers(self) -> None:
        """Needs nothing: SQLite lets only one transaction write."""

    @contextlib.contextmanager
    def changing(self) -> Iterator[None]:
        try:
            self.run("BEGIN IMMEDIATE")
            yield
            self.run("COMMIT")
        except Exception as error:  # whatever it is, nothing of it may stay in the transaction
            raise self._undone(error) from None

    def _undone(self, error: Exception) -> StoreError:
        """What a transaction failed with is told once nothing of it is left."""
        assert self._db is not None
        try:
            if self._db.in_transaction:
                self._db.execute("ROLLBACK")
        except sqlite3.Error:  # a connection that can't roll back is replaced
            self._db.close()
            self._db = self._connect()
            self._prepare(self._db)
        return StoreError(f"{self.path}: {error}")

    def is_gone(self, host: str) -> bool:
        """A store in a file has one host, which is this one."""
        return True

    def table_of_messages(self) -> str:
        return "main.message"

    def is_held_by_another(self) -> bool:
        return self._lock is None and self.is_held()

    def is_held(self, host: str = "") -> bool:
        try:
            return is_locked(self.path + "-host")
        except OSError as error:
            raise StoreError(f"{self.path}: {error}") from None

    def close(self) -> None:
        if self._db is not None:
            self._db.close()
            self._db = None
        if self._lock is not None:
            os.close(self._lock)
            self._lock = None


def private(path: str) -> None:
    """Makes a file that only its owner can read, or makes it so; its log and index get the same mode from SQLite.

    A file that is there is not opened: to close it would give up the locks that this process has on it, and with them
    the log into which it commits."""
    with contextlib.suppress(FileExistsError):
        os.close(os.open(path, os.O_RDWR | os.O_CREAT | os.O_EXCL | os.O_CLOEXEC, 0o600))
    os.chmod(path, 0o600)
