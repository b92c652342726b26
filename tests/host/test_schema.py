"""The versions of a store: a store of each version is read as it is, and upgraded to this program's version, whenever
that is broken off. Programs of these versions made `stores/version-1.sql`, `stores/version-2.sql` and the spool of
`stores/spool-2.json`."""
import contextlib
import hashlib
import json
import os
import sqlite3

from lislab.model import spool
from lislab.model.books import reading_book
from lislab.model.files import take_lock
from lislab.model.schema import LATER, SCHEMA
from lislab.model.sqlite import SqliteStore
from lislab.model.stores import open_store
from tests import kit
from tests.host.hosts import Found, Host, HostTest, lislab
from tests.host.test_lines import Client, TEXTS

#: What stores of version 1 lack: nothing, the table of orders, columns of it.
LACKS = {"nothing": "", "orders": "DROP TABLE orders;",
         "columns": "".join(f"ALTER TABLE orders DROP COLUMN {name};" for name in LATER)}


#: The messages of a store of version 2, in the words of this version: key, number, state, reason, and which they
#: repeat.
MESSAGES = [
    ("a", 1, "complete", "", None),
    ("d", 2, "complete", "", "a" * 24),
    ("e", 3, "complete", f"fixed from {'f' * 24}: record 1, from byte 0: NUL was left out", None),
    ("b", None, "incomplete", "the session ended before its L record", None),
    ("c", None, "invalid", "record 2, from byte 6: no record above it", None),
    ("f", None, "invalid", f"fixed: delivered as {'e' * 24}; record 1, from byte 0", None),
    ("g", None, "incomplete", "the host was stopped", None),
]


def words_of(store):
    """The messages of a store as MESSAGES has them; the numbers of a spool are times."""
    found = [*store.messages(), *store.others()]
    rows = [(one.key[0], one.number, one.state, one.reason, one.again_of) for one in found]
    return [(key, number and min(number, at), *more) for at, (key, number, *more) in enumerate(rows, 1)]


class Versions(HostTest):
    """`lislab store check` and `upgrade`, and what a host does by itself."""

    def store(self, name, more="", version=1):
        """A store of an earlier version, changed by these statements."""
        path = self.path(f"{name}.db")
        with contextlib.closing(sqlite3.connect(path)) as db:
            db.execute("PRAGMA journal_mode=WAL")
            db.executescript(kit.read(f"tests/host/stores/version-{version}.sql") + more)
        return path

    def spool(self, name):
        """A spool of version 2."""
        folder = self.path(name)
        for path, text in json.loads(kit.read("tests/host/stores/spool-2.json")).items():
            os.makedirs(os.path.dirname(os.path.join(folder, path)), exist_ok=True)
            with open(os.path.join(folder, path), "wb") as file:
                file.write(text.encode("latin-1"))
        return folder

    def read(self, path):
        """What a store has: messages, and orders by their numbers, samples and states."""
        store = open_store(path)
        with contextlib.closing(store), reading_book(store) as book:
            orders = [(one.number, one.order.sample, one.state) for one in book.listed()]
            return [*store.messages(), *store.others()], orders

    def test_version_1(self):
        """A store of an earlier program is read, taken to this version, and reads the same then; a host goes on with
        it."""
        for name, more in LACKS.items():
            path = self.store(name, more)
            before = self.read(path)
            self.same(f"{name}: messages, orders", (len(before[0]), before[1][:1]),
                      (4, [] if name == "orders" else [(1, "S1", "sent")]))
            done = lislab("store", "check", "--store", path)
            self.same(f"{name}: before", (done.returncode, done.stdout), (1, f"version 1 of {SCHEMA}\n"))
            self.has(f"{name}: advice", done.stderr, f"lislab store upgrade --store {path}")
            done = lislab("store", "upgrade", "--store", path)
            self.same(f"{name}: upgrade", (done.returncode, done.stderr),
                      (0, f"lislab: {path}: version {SCHEMA} of the tables; it was version 1\n"))
            done = lislab("store", "check", "--store", path)
            self.same(f"{name}: after", (done.returncode, done.stdout), (0, f"version {SCHEMA} of {SCHEMA}\n"))
            self.same(f"{name}: what is there", self.read(path), before)
            with contextlib.closing(sqlite3.connect(path)) as db:
                columns = {one[0] for one in db.execute("SELECT * FROM orders LIMIT 0").description}
            self.same(f"{name}: columns that are missing", set(LATER) - columns, set())
        path = self.store("served")
        host = Host(path, scale=1.0)
        with Client(host.port) as client:
            self.true("a message", client.whole(TEXTS))
        done = lislab("store", "upgrade", "--store", path)
        self.true("while a host runs", done.returncode == 3 and "stop it first" in done.stderr, done.stderr)
        self.same("the host's status", host.stop(), 0)
        self.same("numbers", [one.number for one in Found(path).whole], [1, 2, 3])
        self.same("the host took it", open_store(path).version(), SCHEMA)

    def test_version_2(self):
        """The words for the states change: a store of version 2 is read in those of now, before it is upgraded and
        after it. An earlier host that is running keeps its store."""
        path = self.store("two", version=2)
        self.same("before", words_of(open_store(path)), MESSAGES)
        counts = [one[:7] for one in open_store(path).counts()]
        self.same("counts", counts, [("chemistry", 3, 1, 2, 1, 0, 1005.0)])
        held = take_lock(path + "-host")
        done = lislab("order", "cancel", "2", "--store", path)
        self.true("a host has it", done.returncode == 3 and "stop that first" in done.stderr, done.stderr)
        self.same("it stays", open_store(path).version(), 2)
        os.close(held)
        done = lislab("order", "cancel", "2", "--store", path)
        self.same(f"an order {done.stderr}", (done.returncode, open_store(path).version()), (0, SCHEMA))
        self.same("after", words_of(open_store(path)), MESSAGES)
        with contextlib.closing(sqlite3.connect(path)) as db:
            states = {one[0] for one in db.execute("SELECT state FROM message")}
            self.same("in the table", states, {"open", "complete", "incomplete", "invalid"})
            self.same("foreign keys", db.execute("PRAGMA foreign_key_check").fetchall(), [])
            names = {one[0] for one in db.execute("SELECT name FROM sqlite_master WHERE sql IS NOT NULL")}
        with contextlib.closing(open_store(self.path("fresh.db"))) as fresh:
            fresh.join()
            made = {one[0] for one in fresh.read("SELECT name FROM sqlite_master WHERE sql IS NOT NULL")}
        self.same("tables and indexes", names, made)
        host = Host(path, scale=1.0)
        with Client(host.port) as client:
            self.true("a message", client.whole(TEXTS))
        self.same("the host's status", host.stop(), 0)
        self.same("its number", [one.number for one in Found(path).whole], [1, 2, 3, 4])

    def test_spool(self):
        """A spool of version 2 is read as it is. A host gives its folders their names, whenever that is broken off, and
        also if an earlier host has used the spool since."""
        names = ("complete", "incomplete", "invalid")
        for count in range(4):
            folder = self.spool(f"spool {count}")
            for new, old in list(zip(names, ("whole", "unfinished", "unreadable")))[:count]:
                os.rename(os.path.join(folder, old), os.path.join(folder, new))
            self.same(f"after {count} folders: before", words_of(spool.SpoolStore(folder)), MESSAGES)
            with contextlib.closing(spool.SpoolStore(folder)) as store:
                self.same(f"after {count} folders: left open", [one.key[0] for one in store.start("fire")], ["g"])
            self.same(f"after {count} folders: after", words_of(spool.SpoolStore(folder)), MESSAGES)
            self.same(f"after {count} folders: names", {one for one in os.listdir(folder) if one[0] in "ciwu"}, set(names))
        first = sorted(os.listdir(os.path.join(folder, "complete")))[:2]
        os.mkdir(os.path.join(folder, "whole"))
        for name in first:
            os.rename(os.path.join(folder, "complete", name), os.path.join(folder, "whole", name))
        with contextlib.closing(spool.SpoolStore(folder)) as store:
            store.start("fire")
        self.same("an earlier host ran meanwhile", words_of(spool.SpoolStore(folder)), MESSAGES)

    def test_later(self):
        """A store of a later program: each command says so, and the file stays as it is."""
        path = self.store("later", "PRAGMA user_version=99;")
        digest = hashlib.sha256(open(path, "rb").read()).hexdigest()
        for words in (["serve", "--listen", "0"], ["export"], ["order", "list"], ["order", "cancel", "2"],
                      ["status"], ["store", "check"], ["store", "upgrade"],
                      ["deliver", "--once", "--cursor", self.path("c"), "--directory", self.path("d")]):
            done = lislab(*words, "--store", path)
            self.true(f"{words[:2]}: is named", done.returncode in (1, 3) and "version 99 of the tables" in done.stderr,
                      f"{done.returncode} {done.stderr}")
        self.same("the file", hashlib.sha256(open(path, "rb").read()).hexdigest(), digest)
        done = lislab("store", "check", "--store", "spool:" + self.path("spool"))
        self.true("a spool", done.returncode == 2 and "no tables" in done.stderr, done.stderr)

    def test_kills(self):
        """A program that is killed within a step leaves the version before it, with all that was there."""
        for version, more, least in ((1, LACKS["columns"], len(LATER) + 9), (2, "", 8)):
            before, count = self.read(self.store(f"from {version}", more, version)), 0
            while True:
                path = self.store(f"from {version} killed {count}", more, version)
                child = os.fork()
                if not child:
                    _join_until(path, count)
                _, status = os.waitpid(child, 0)
                found = open_store(path).version()
                self.same(f"from {version}, after {count} statements: what is there", self.read(path), before)
                if os.waitstatus_to_exitcode(status) == 0:
                    break
                self.same(f"from {version}, after {count} statements: the version", found, version)
                with contextlib.closing(open_store(path)) as again:
                    again.join()
                    self.same(f"from {version}, after {count} statements: once more", again.version(), SCHEMA)
                self.same(f"from {version}, after {count} statements: then", self.read(path), before)
                count += 1
            self.same(f"from {version}: at the end", found, SCHEMA)
            self.true(f"from {version}: statements", count > least, count)


def _join_until(path, count):
    """Takes the tables of a store to this version, and ends this process before the statement of this number."""
    class Dies(SqliteStore):
        left = count

        def run(self, statement, values=()):
            if self._db is not None and not statement.startswith(("PRAGMA user_version=", "SELECT")):
                if not self.left:
                    os._exit(9)
                self.left -= 1
            return super().run(statement, values)

    Dies(path).join()
    os._exit(0)
