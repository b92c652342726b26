"""The stores by their paths and addresses."""
from .postgresql import PostgresStore
from .spool import SpoolStore
from .sqlite import SqliteStore
from .store import Store


def open_store(where: str) -> Store:
    """The store of a path or an address: an SQLite file, `spool:DIRECTORY`, or `postgresql://..`."""
    if where.startswith(("postgresql://", "postgres://")):
        return PostgresStore(where)
    if where.startswith("spool:"):
        return SpoolStore(where[len("spool:") :])
    return SqliteStore(where)
