"""The orders of a spool. They are kept in its file `orders.db`. Other programs leave them as files `NAME.orders` in its
folder `orders`: whole ones, so they are written under another name first. What is in a file is kept, and then the file
goes; one with a fault becomes `NAME.rejected`, and `NAME.why` says what is wrong with it."""
import os
from typing import List, Tuple

from lislink.order import Order, orders_of
from .book import OrderBook
from .files import sync_folder, write_synced
from .sqlite import SqliteStore
from .store import StoreError

#: The most bytes of a file of orders.
MOST = 16 << 20
_END = ".orders"


class FolderBook(OrderBook):
    """The orders of a spool, and those that are left for it."""

    def __init__(self, folder: str, host: str = "") -> None:
        self._path, self._files = os.path.join(folder, "orders.db"), os.path.join(folder, "orders")
        super().__init__(SqliteStore(self._path), host)

    def start(self) -> None:
        try:
            os.makedirs(self._files, 0o700, exist_ok=True)
        except OSError as error:
            raise StoreError(f"{self._files}: {error}") from None
        super().start()
        with self._store.changing():
            self._store.run("CREATE TABLE IF NOT EXISTS order_files (file TEXT PRIMARY KEY)")

    def is_there(self) -> bool:
        return os.path.exists(self._path) and super().is_there()

    def take_in(self) -> List[str]:
        try:
            names = sorted(name for name in os.listdir(self._files) if name.endswith(_END) and name[0] != ".")
        except OSError as error:
            raise StoreError(f"{self._files}: {error}") from None
        said = []
        for name in names:  # a file that can't be read, nor renamed, stops no other
            try:
                said.append(self._take_file(name))
            except OSError as error:
                said.append(f"orders of {shown(name)}: {error.strerror}")
        return said

    def _take_file(self, name: str) -> str:
        path = os.path.join(self._files, name)
        file, orders, faults = _read(path)
        if faults:
            start = path[: -len(_END)]
            write_synced(start + ".why", "".join(f"{fault}\n" for fault in faults).encode("utf-8", "backslashreplace"))
            os.rename(path, start + ".rejected")
            sync_folder(self._files)
            return f"orders of {shown(name)}: none is taken, {faults[0]}"
        # A host that dies before the file is gone finds it again: the store knows then that it has its orders.
        with self._store.changing():
            if not self._store.run("SELECT file FROM order_files WHERE file = ?", (file,)).fetchone():
                self._add(orders)
                self._store.run("INSERT INTO order_files (file) VALUES (?)", (file,))
        os.unlink(path)
        sync_folder(self._files)
        with self._store.changing():
            self._store.run("DELETE FROM order_files WHERE file = ?", (file,))
        return f"orders of {shown(name)}: {len(orders)}"


def shown(name: str) -> str:
    """A file's name as text: bytes that aren't UTF-8 are shown as they are written in Python."""
    return name.encode("utf-8", "backslashreplace").decode()


def _read(path: str) -> Tuple[str, List[Order], List[str]]:
    """What makes a file differ from others, its orders, and what is wrong with it."""
    try:
        with open(path, "rb") as file:
            about, data = os.fstat(file.fileno()), file.read(MOST + 1)
    except OSError as error:
        return "", [], [f"it can't be read: {error.strerror}"]
    mark = f"{shown(os.path.basename(path))} {about.st_ino} {about.st_mtime_ns} {about.st_size}"
    if len(data) > MOST:
        return mark, [], [f"it has over {MOST} bytes"]
    try:
        rows = list(orders_of(data))
    except Exception as error:  # whatever a file holds, it stops no other
        return mark, [], [f"it can't be read: {type(error).__name__}: {error}"]
    faults = [f"line {line}: {found}" for line, found in rows if isinstance(found, str)]
    if not rows:
        faults = ["it has no order"]
    return mark, [found for _, found in rows if isinstance(found, Order)], faults
