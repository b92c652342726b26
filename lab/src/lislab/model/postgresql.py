"""The store in a PostgreSQL database, which many hosts share. Replication and failover are PostgreSQL's own.

It needs psycopg 3 or psycopg2 (Debian: python3-psycopg, python3-psycopg2).
"""
import contextlib
import importlib
import re
import time
from typing import Any, Iterator, List, Optional, Sequence, Set
from urllib.parse import urlsplit

from .schema import STATES_OF_POSTGRESQL
from .sql import SqlStore
from .store import Stored, StoreError

#: The advisory locks: one for the numbers of messages and the tables, one for each host by its name.
_NUMBERS, _HOSTS = 5401, 5402
#: A host that was killed has its name until the server notices: a start waits so long for it.
_NAME_SECONDS = 3.0
#: A server that doesn't answer, or a host that stops inside a transaction, holds nobody for longer than this.
_SESSION = (
    "SET lock_timeout = '5s'",
    "SET statement_timeout = '10s'",
    "SET idle_in_transaction_session_timeout = '10s'",
    "SET default_transaction_isolation = 'read committed'",
    "SET tcp_keepalives_idle = 10",
    "SET tcp_keepalives_interval = 5",
    "SET tcp_keepalives_count = 3",
)
_CONNECTION = {"connect_timeout": 5, "keepalives_idle": 5, "keepalives_interval": 2, "tcp_user_timeout": 10000}


def _driver() -> Any:
    for name in ("psycopg", "psycopg2"):
        try:
            return importlib.import_module(name)
        except ImportError:
            continue
    raise StoreError("a PostgreSQL store needs psycopg (Debian: python3-psycopg or python3-psycopg2)")


class PostgresStore(SqlStore):
    """A store in a database. A connection that fails is closed, and the next commit opens a new one."""

    blob, held_to_the_end, skip_locked, states = "BYTEA", False, " FOR UPDATE SKIP LOCKED", STATES_OF_POSTGRESQL

    def __init__(self, address: str) -> None:
        super().__init__()
        self.address, self._driver = address, _driver()
        self._db: Optional[Any] = None

    def start(self, host: str) -> List[Stored]:
        self._give_up()  # a connection that only read has no host's name
        self.host = host
        with self.changing():
            self.lock_numbers()
            self.make_tables()
            return self.take_left()

    def join(self) -> None:
        with self.changing():
            self.lock_numbers()
            self.make_tables()

    def _connect(self) -> None:
        try:
            self._db = self._driver.connect(self.address, **_CONNECTION)
        except self._driver.Error as error:
            raise StoreError(_without_secrets(_first_line(error), self.address)) from None
        try:
            self._prepare()
        except Exception:
            self._give_up()
            raise

    def _prepare(self) -> None:
        """Sets a connection so that commits are durable, and locks the host's name."""
        assert self._db is not None
        self._db.autocommit = True
        for statement in _SESSION:
            self.run(statement)
        if self.run("SELECT current_setting('fsync')").fetchone()[0] == "off":
            raise StoreError("the server stores nothing durably: fsync is off")
        if self.run("SELECT current_setting('synchronous_commit')").fetchone()[0] == "off":
            self.run("SET synchronous_commit = on")
        self.refuse_later()
        if self.host:
            self._take_name()
        else:
            self.read_as_earlier()

    def _take_name(self) -> None:
        """Locks the host's name. The server releases it when the connection ends."""
        until = time.monotonic() + _NAME_SECONDS
        while not self.run("SELECT pg_try_advisory_lock(?, hashtext(?))", (_HOSTS, self.host)).fetchone()[0]:
            if time.monotonic() >= until:
                raise StoreError(f"another host has the name {self.host}")
            time.sleep(0.1)

    def is_gone(self, host: str) -> bool:
        """Whether no host has this name: then the name is locked until this transaction ends."""
        if host == self.host:
            return True
        return bool(self.run("SELECT pg_try_advisory_xact_lock(?, hashtext(?))", (_HOSTS, host)).fetchone()[0])

    def table_of_messages(self) -> str:
        schema = self.read("SELECT relnamespace::regnamespace::text FROM pg_class WHERE oid = 'message'::regclass")
        return f"{schema[0][0]}.message"

    def make_tables(self) -> None:
        self.run("DROP VIEW IF EXISTS pg_temp.message")
        super().make_tables()

    def is_held_by_another(self) -> bool:
        return self._is_held(" AND pid <> pg_backend_pid()")

    def is_held(self, host: str = "") -> bool:
        which = " AND objid = (hashtext(?)::bigint & 4294967295)::oid" if host else ""
        return self._is_held(which, [host] if host else [])

    def _is_held(self, which: str, values: Sequence[Any] = ()) -> bool:
        """Whether a host's name is locked for which this condition holds."""
        database = "(SELECT oid FROM pg_database WHERE datname = current_database())"
        where = f"locktype = 'advisory' AND granted AND objsubid = 2 AND classid = {_HOSTS} AND database = {database}"
        return int(self.read(f"SELECT count(*) FROM pg_locks WHERE {where}{which}", values)[0][0]) > 0

    def run(self, statement: str, values: Sequence[Any] = ()) -> Any:
        if self._db is None:
            self._connect()
        assert self._db is not None
        cursor = self._db.cursor()
        cursor.execute(statement.replace("?", "%s"), tuple(values))
        return cursor

    def read(self, statement: str, values: Sequence[Any] = ()) -> Any:
        try:
            return super().read(statement, values)
        except (self._driver.Error, StoreError) as error:
            self._give_up()
            raise StoreError(f"PostgreSQL: {_first_line(error)}") from None

    def has(self, name: str) -> bool:
        return self.read("SELECT to_regclass(?)::text", (name,))[0][0] is not None

    def lock_numbers(self) -> None:
        """Numbers are given one host after another, so that they follow the order of the commits."""
        self.run("SELECT pg_advisory_xact_lock(?, 0)", (_NUMBERS,))

    @contextlib.contextmanager
    def changing(self) -> Iterator[None]:
        try:
            self.run("BEGIN")
            yield
            self._committed()
        except Exception as error:  # whatever it is, nothing of it may stay in the transaction
            self._undo(isinstance(error, (StoreError, self._driver.DataError, self._driver.IntegrityError)))
            raise StoreError(f"PostgreSQL: {_first_line(error)}") from None

    def _undo(self, is_answered: bool) -> None:
        """Undoes a transaction; on a connection that is good still, since it was answered, by a statement."""
        if is_answered and self._db is not None:
            with contextlib.suppress(self._driver.Error):
                self.run("ROLLBACK")
                return
        self._give_up()

    def _committed(self) -> None:
        done = self.run("COMMIT")
        if done.statusmessage != "COMMIT":
            raise StoreError(f"the server answered {done.statusmessage} to COMMIT")

    def _give_up(self) -> None:
        """Closes the connection: what isn't committed is undone by the server."""
        db, self._db = self._db, None
        if db is not None:
            try:
                db.close()
            except self._driver.Error:
                pass

    def close(self) -> None:
        self._give_up()


def _first_line(error: Exception) -> str:
    return (str(error).strip() or type(error).__name__).splitlines()[0]


def _without_secrets(text: str, address: str) -> str:
    """Why nobody could connect, without what libpq quotes of an address that it can't read as it was meant: that may be
    a part of the password."""
    known: Set[str] = set()
    with contextlib.suppress(ValueError):
        one = urlsplit(address)
        if one.netloc.count("@") == address.count("@") < 2:
            known = {one.hostname or "", one.username or "", one.path[1:]}
    return re.sub(r'"([^"]*)"', lambda found: found[0] if found[1] in known else '".."', text)
