"""The store in PostgreSQL, with a server that the test starts itself and kills in mid-session."""
import contextlib
import glob
import importlib.util
import itertools
import os
import pwd
import random
import re
import shutil
import subprocess
import sys
import tempfile
import time
import unittest
import unittest.mock

from lislab.watch import status
from lislab.model.schema import SCHEMA
from lislab.model.store import StoreError
from lislab.model.stores import open_store
from tests import kit
from tests.host import hosts, test_schema
from tests.host.hosts import ENV, Found, Host, HostTest, acknowledged, lislab, sending, wait_for
from tests.host.test_corrected import EachStore
from tests.host.test_kills import TROUBLE
from tests.host.test_lines import TEXTS, Client, keeps_each_text
from tests.host.test_fixes import fixes_again
from tests.host.test_out import OutOf
from tests.host.test_repeats import EachWrite, Left, begun, ended

#: Where Debian's packages for Python are.
DEBIAN = "/usr/lib/python3/dist-packages"


def programs():
    """The folder of initdb and pg_ctl; None if PostgreSQL isn't installed."""
    for folder in [*sorted(glob.glob("/usr/lib/postgresql/*/bin"), reverse=True), "/usr/bin", "/usr/local/bin"]:
        if os.path.exists(os.path.join(folder, "initdb")):
            return folder
    return None


#: A statement that is done once another session has tried to lock a name, or after a minute.
UNTIL_TRIED = """
DO $$ BEGIN
  FOR turn IN 1..600 LOOP
    PERFORM pg_sleep(0.1), pg_stat_clear_snapshot();
    EXIT WHEN EXISTS (SELECT FROM pg_stat_activity WHERE pid <> pg_backend_pid() AND query LIKE '%try_advisory_lock%');
  END LOOP;
END $$
"""


class Server:
    """A server of its own, on loopback, with its files in a folder of its own."""

    def __init__(self):
        self.programs = programs()
        self.folder = tempfile.mkdtemp(prefix="lis-host-")
        self.data, self.port = os.path.join(self.folder, "data"), kit.free_port()
        self.account = []
        if os.getuid() == 0:
            owner = pwd.getpwnam("postgres")
            os.chown(self.folder, owner.pw_uid, owner.pw_gid)
            self.account = ["setpriv", f"--reuid={owner.pw_uid}", f"--regid={owner.pw_gid}", "--clear-groups"]
        self._run("initdb", "-D", self.data, "-U", "lis", "-A", "trust", "-E", "UTF8", "--no-instructions")
        self.start()

    def _run(self, program, *words):
        done = subprocess.run(
            [*self.account, os.path.join(self.programs, program), *words],
            stdin=subprocess.DEVNULL,
            stdout=subprocess.DEVNULL,
            stderr=subprocess.PIPE,
            text=True,
            cwd=self.folder,
            check=False,
        )
        if done.returncode:
            raise RuntimeError(f"{program}: {done.stderr}")

    def start(self):
        """Starts it, and waits until it answers."""
        words = f"-p {self.port} -c listen_addresses=127.0.0.1 -c unix_socket_directories={self.folder}"
        self._run("pg_ctl", "-D", self.data, "-w", "-l", os.path.join(self.folder, "log"), "-o", words, "start")

    def stop(self, how="fast"):
        """Stops it: `immediate` is as if it was killed."""
        self._run("pg_ctl", "-D", self.data, "-m", how, "-w", "stop")

    def address(self, database):
        """A new database's address."""
        self._run("createdb", "-h", "127.0.0.1", "-p", str(self.port), "-U", "lis", database)
        return f"postgresql://lis@127.0.0.1:{self.port}/{database}"

    def psql(self, database, *words, **how):
        """A psql that runs."""
        address = ["-h", "127.0.0.1", "-p", str(self.port), "-U", "lis", database]
        how = {"stdout": subprocess.PIPE, "text": True, **how}
        return subprocess.Popen([os.path.join(self.programs, "psql"), *words, *address], **how)

    def asks(self, database, statement):
        """What is answered to a statement."""
        with self.psql(database, "-Atc", statement) as one:
            return one.communicate()[0].strip()

    def end(self):
        """Stops it, and takes its files away."""
        try:
            self.stop("immediate")
        except RuntimeError:
            pass
        shutil.rmtree(self.folder, ignore_errors=True)


def has_driver():
    """Whether psycopg is there, perhaps Debian's for a Python of the same version."""
    if any(importlib.util.find_spec(name) for name in ("psycopg", "psycopg2")):
        return True
    if not glob.glob(f"{DEBIAN}/psycopg*/_psycopg.cpython-{sys.version_info[0]}{sys.version_info[1]}-*"):
        return False
    sys.path.append(DEBIAN)
    ENV["PYTHONPATH"] += ":" + DEBIAN
    return True


_SERVERS = []


def the_server():
    """The server of this run, which ends with it; SkipTest if there can't be one."""
    if not _SERVERS:
        if programs() is None or not has_driver():
            what = "PostgreSQL" if programs() is None else "psycopg (Debian: python3-psycopg2)"
            raise unittest.SkipTest(f"{what} is not installed")
        _SERVERS.append(Server())
        unittest.addModuleCleanup(lambda: _SERVERS.pop().end())
    return _SERVERS[0]


class OutOfPostgres(OutOf, HostTest):
    """Out of a database."""

    @classmethod
    def where(cls):
        """The store."""
        return the_server().address("out")


class Emptied:
    """One database, whose tables are emptied for each store."""

    @classmethod
    def setUpClass(cls):
        super().setUpClass()
        cls.address = the_server().address(cls.__name__.lower())

    def where(self):
        """The store."""
        store = open_store(self.address)
        store.start("h")
        store.commit([])
        for table in ("text", "message"):  # without a file to make anew and to sync, as with TRUNCATE
            store.run(f"DELETE FROM {table}")
        store.close()
        return self.address


class RepeatsOfPostgres(Emptied, EachWrite, Left, HostTest):
    """In a database, whose tables are emptied for each fault."""

    ways = (("full", True), ("after", False), ("killed", False))


class CorrectedOfPostgres(Emptied, EachStore, HostTest):
    """Out of a database."""


def started(store, name):
    """The status of a host that starts and is stopped, and why it doesn't start."""
    try:
        return Host(store, "--host-name", name).stop(), ""
    except RuntimeError as error:
        return None, str(error)


class Postgres(HostTest):
    """Hosts that share a database."""

    @classmethod
    def setUpClass(cls):
        super().setUpClass()
        cls.server = the_server()

    def test_kills(self):
        """Two hosts on one database; either host, or the server, is killed again and again."""
        kills, store = hosts.size("postgres"), self.server.address("kills")
        both = [Host(store, "--host-name", f"h{number}") for number in range(2)]
        logs = [self.path(f"postgres{number}.log") for number in range(2)]
        many = ["--analyzers", "10", "--made", "1000000", "--tries", "0", *TROUBLE]
        ones = [
            sending(host.port, *many, "--name", f"P{number}x", "--log", log)
            for number, (host, log) in enumerate(zip(both, logs))
        ]
        self.kill(both, kills, logs)
        for one in ones:
            one.terminate()
            one.communicate()
        self.same("the hosts' status", [host.stop() for host in both], [0, 0])
        found, done = Found(store), sum(len(acknowledged(log)) for log in logs)
        lost = [one for log in logs for one in found.lost(log)]
        self.true("messages are acknowledged", done >= kills, str(done))
        self.same("acknowledged and lost", lost, [])
        self.same("repeats without a mark", found.unmarked(), [])
        numbers = [one.number for one in found.whole]
        self.same("numbers without a gap", numbers, list(range(1, len(numbers) + 1)))
        self.same("no message stays open", sum(one.open for one in found.counts), 0)
        hosts.say(
            f"postgresql: {kills} kills of two hosts and the server, {done} messages acknowledged, "
            f"{len(found.whole)} kept, {len(lost)} lost, {found.again()} repeats marked, {len(found.unmarked())} not"
        )

    def kill(self, both, kills, logs):
        """Kills a host and the server in turn, each some time after another message was acknowledged."""
        rng = random.Random(3)
        for number in range(kills):
            wait_for(lambda: sum(len(acknowledged(log)) for log in logs) > number)
            time.sleep(0.3 + rng.random())
            if number % 2:
                one = rng.choice(both)
                one.kill()
                one.start()
            else:
                self.server.stop("immediate")
                time.sleep(rng.random() * 0.3)
                self.server.start()
            if number % 50 == 49:
                hosts.say(f"{number + 1} of {kills} kills")
        time.sleep(1)

    def test_keeping(self):
        """Killed after each acknowledgement, the host has kept what it acknowledged."""
        keeps_each_text(self, self.server.address("keeping"))

    def test_a_unit_that_fails(self):
        """A unit that can't be kept costs no connection, and one whose COMMIT was lost can be put again."""
        store = open_store(self.server.address("unit"))
        store.start("h")
        before = store._db
        with self.assertRaises(StoreError):
            store.commit([[*begun("1"), *ended("1")], ended("never begun")])
        self.true("the same connection", store._db is before)
        lost = unittest.mock.patch.object(store, "_committed", self.lost(store))
        with lost, self.assertRaises(StoreError):
            store.commit([[*begun("1"), *ended("1")]])
        self.true("another connection", store._db is not before)
        store.commit([[*begun("1"), *ended("1")], [*begun("2"), *ended("2")]])
        found = [(one.number, one.key, one.again_of) for one in store.messages()]
        self.same("kept once", found, [(1, "1", None), (2, "2", "1")])
        store.close()

    @staticmethod
    def lost(store):
        """A COMMIT whose answer doesn't come."""
        commit = store._committed

        def call():
            commit()
            raise store._driver.OperationalError("the connection is lost")

        return call

    def test_fixes(self):
        """A message that is fixed is marked, delivered and counted."""
        fixes_again(self, self.server.address("fixes"))

    def test_names(self):
        """Two hosts of one name are rejected."""
        store = self.server.address("names")
        host = Host(store, "--host-name", "same", scale=1.0)
        second = lislab("serve", "--store", store, "--listen", "0", "--host-name", "same")
        said = second.returncode == 3 and "another host has the name same" in second.stderr
        self.true("two hosts of one name", said, second.stderr)
        sending(host.port, "--made", "3", scale=1.0).communicate()
        self.same("the first goes on", len(Found(store).whole), 3)
        self.same("the host's status", host.stop(), 0)

    def test_who_has_it(self):
        """Whether a host has the database, by its name, and whether one runs that lost its connection."""
        address = self.server.address("held")
        one, other = open_store(address), open_store(address)
        one.start("h")
        self.same("a host, by its name", [other.is_held(name) for name in ("h", "", "another")], [True, True, False])
        one.close()
        self.true("none", hosts.wait_for(lambda: not other.is_held("h") and not other.is_held("")))
        for age, stopped, wanted in ((1, False, True), (60, False, False), (-60, False, False), (1, True, False)):
            state = {"at": time.time() - age, "host": "h", "stopped": stopped}
            self.same(f"it wrote its state {age} s ago, stopped: {stopped}", status.runs(other, state), wanted)
        other.close()

    def test_open_messages_of_another_host(self):
        """A host that starts leaves alone what another one that runs has open."""
        address = self.server.address("others")
        one, other = open_store(address), open_store(address)
        one.start("one")
        one.commit([begun("1")])
        self.same("what it takes over", other.start("other"), [])
        self.same("open", [each.open for each in other.counts()], [1])
        for store in (one, other):
            store.close()

    def test_name_of_a_killed_host(self):
        """A host that was killed has its name for another moment: the next one waits for it."""
        store = self.server.address("killed")
        Host(store).stop()
        held = "SELECT pg_advisory_lock(5402, hashtext('killed'))"
        with self.server.psql("killed", "-c", held, "-c", UNTIL_TRIED):
            asked = "SELECT count(*) FROM pg_locks WHERE locktype = 'advisory' AND classid = 5402"
            there = hosts.wait_for(lambda: self.server.asks("killed", asked) == "1")
            status, why = started(store, "killed")
        self.same(f"a start while the name is still taken {why}", (there, status), (True, 0))

    def test_start_while_another_commits(self):
        """A host starts while another holds the table as a commit does, and waits for none: each would wait for the
        other."""
        store = self.server.address("commits")
        Host(store).stop()
        lock = "LOCK TABLE message IN ROW EXCLUSIVE MODE; SELECT pg_sleep(60)"
        with self.server.psql("commits", "-c", lock) as other:
            asked = "SELECT count(*) FROM pg_locks WHERE mode = 'RowExclusiveLock' AND relation = 'message'::regclass"
            held = hosts.wait_for(lambda: self.server.asks("commits", asked) == "1")
            status, why = started(store, "second")
            other.terminate()
        self.same(f"a start while another host commits {why}", (held, status), (True, 0))

    def test_earlier_tables(self):
        """Tables of version 2: they are read as they are. A host upgrades them, whenever that is broken off, and unless
        an earlier host is running."""
        text = re.sub(r"X'(\w*)'", r"'\\x\1'", kit.read("tests/host/stores/version-2.sql").split("PRAGMA")[0])
        text = text.replace("BLOB", "BYTEA").replace(" WITHOUT ROWID", "").replace("BEGIN TRANSACTION;", "").replace("COMMIT;", "")
        store = self.server.address("earlier")
        with self.server.psql("earlier", "-1", "-c", text) as done:
            self.same("made", done.wait(), 0)
        self.same("before", test_schema.words_of(open_store(store)), test_schema.MESSAGES)
        lock = "SELECT pg_advisory_lock(5402, hashtext('ice')), pg_sleep(60)"
        with self.server.psql("earlier", "-c", lock) as other:
            held = "SELECT count(*) FROM pg_locks WHERE locktype = 'advisory' AND classid = 5402"
            wait_for(lambda: self.server.asks("earlier", held) == "1")
            status, why = started(store, "fire")
            self.true("an earlier host is running", status != 0 and "stop that first" in why, why)
            self.server.asks("earlier", held.replace("count(*)", "count(pg_terminate_backend(pid))"))
            other.wait()
        self.true("it is gone", wait_for(lambda: self.server.asks("earlier", held) == "0"))
        for count in itertools.count():
            one = open_store(store)
            left, run = [count], one.run

            def breaks(statement, values=(), left=left, run=run):
                if statement.startswith(("ALTER", "UPDATE", "DROP", "CREATE INDEX", "INSERT", "SET LOCAL", "COMMIT")):
                    left[0] -= 1
                    if left[0] < 0:
                        raise StoreError("the connection is gone")
                return run(statement, values)

            with contextlib.closing(one), unittest.mock.patch.object(one, "run", breaks):
                with contextlib.suppress(StoreError):
                    one.join()
            if left[0] >= 0:
                break
            self.same(f"after {count} statements", open_store(store).version(), 2)
            self.same(f"after {count} statements: messages", test_schema.words_of(open_store(store)), test_schema.MESSAGES)
        self.true("statements", count > 6, count)
        self.same("upgraded", open_store(store).version(), SCHEMA)
        self.same("after", test_schema.words_of(open_store(store)), test_schema.MESSAGES)
        host = Host(store, scale=1.0)
        with Client(host.port) as client:
            self.true("a message", client.whole(TEXTS))
        self.same("the host's status", host.stop(), 0)
        self.same("its number", [one.number for one in Found(store).whole], [1, 2, 3, 4])

    def test_later_tables(self):
        """Tables of a later program, and a server that isn't there."""
        store = self.server.address("tables")
        Host(store).stop()
        self.server.asks("tables", "UPDATE about SET value = '99' WHERE name = 'schema'")
        done = lislab("serve", "--store", store, "--listen", "0")
        self.true("later tables", done.returncode == 3 and "version 99" in done.stderr, done.stderr)
        done = lislab("serve", "--store", "postgresql://lis@127.0.0.1:1/x", "--listen", "0")
        self.true("no server", done.returncode == 3, done.stderr)
