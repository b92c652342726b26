"""The orders of stores."""
import contextlib
from typing import Iterator

from .book import OrderBook
from .folder import FolderBook
from .spool import SpoolStore
from .sql import SqlStore
from .store import Store
from .stores import open_store


def open_book(where: str, host: str = "", reading: bool = False) -> OrderBook:
    """The orders of a store, to be changed or only read; StoreError if that can't be."""
    book = book_of(open_store(where), host)
    if not reading:
        book.start()
    return book


def book_of(store: Store, host: str = "") -> OrderBook:
    """The orders of a store that is not opened, or is opened to be read."""
    if isinstance(store, SqlStore):
        return OrderBook(store, host)
    assert isinstance(store, SpoolStore)
    return FolderBook(store.folder, host)


@contextlib.contextmanager
def reading_book(store: Store) -> Iterator[OrderBook]:
    """The orders of a store that somebody reads, and closes himself."""
    book = book_of(store)
    try:
        yield book
    finally:
        if not isinstance(store, SqlStore):
            book.close()
