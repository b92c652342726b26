"""Copies of a store: made while a host receives and a delivery goes on, and a store made of one."""
import glob
import os
import sqlite3
import subprocess

from lislab.cli import store as copies
from tests.host.hosts import Found, Host, HostTest, acknowledged, lislab, process, sending, wait_for


class Copies(HostTest):
    """`lislab store backup` and `lislab store restore`."""

    def delivered(self, folder):
        """The keys of delivered files."""
        return {os.path.basename(path).split("-")[1].split(".")[0] for path in glob.glob(f"{folder}/*")}

    def test_under_load(self):
        """A copy has all that was acknowledged before it was begun; a store of it is served, and its delivery goes on
        where the copy's cursor is."""
        store, log, cursor = self.path("load.db"), self.path("load.log"), self.path("lis.cursor")
        host, first = Host(store), self.path("first")
        one = sending(host.port, "--analyzers", "10", "--made", "100000", "--log", log)
        self.true("messages come", wait_for(lambda: len(acknowledged(log)) > 30))
        words = ["-m", "lislab", "deliver", "--store", store, "--cursor", cursor, "--directory", first]
        delivery = process(words, stderr=subprocess.DEVNULL)
        self.true("delivered", wait_for(lambda: len(glob.glob(f"{first}/*")) > 10))
        delivery.terminate()
        delivery.wait()
        with open(cursor + ".quarantine", "w", encoding="ascii") as file:
            file.write("[]\n")
        before, copy = acknowledged(log), self.path("load.copy")
        done = lislab("store", "backup", "--store", store, "--cursor", cursor, copy)
        self.same("a copy", (done.returncode, os.stat(copy).st_mode & 0o777), (0, 0o600))
        one.terminate()
        one.communicate()
        host.kill()
        again, mine = self.path("again.db"), self.path("again/lis.cursor")
        os.mkdir(self.path("again"))
        done = lislab("store", "restore", "--store", again, "--cursor", mine, copy)
        self.same("a store", (done.returncode, done.stderr), (0, f"lislab: {again}: the store of {copy} with lis.cursor\n"))
        host = Host(again)
        found = Found(again)
        self.same("acknowledged before, and not there", [row for row in before if row[2] not in found.digests], [])
        with open(mine + ".quarantine", encoding="ascii") as file:
            self.same("what was in quarantine", file.read(), "[]\n")
        second = self.path("second")
        done = lislab("deliver", "--store", again, "--cursor", mine, "--once", "--directory", second)
        self.same("delivered on", done.returncode, 0)
        twice = self.delivered(first) & self.delivered(second)
        self.true("at most the one that went out before its note is kept comes twice", len(twice) <= 1, twice)
        self.same("all", self.delivered(first) | self.delivered(second), {one.key for one in Found(again).whole})
        self.same("the host's status", host.stop(), 0)

    def test_refusals(self):
        """Nothing that is there is overwritten, no cursor is left out, and a copy that fails leaves no file."""
        store, copy, cursor = self.path("few.db"), self.path("few.copy"), self.path("few.cursor")
        Host(store).stop()
        with open(cursor, "w", encoding="ascii") as file:
            file.write('{"number": 0}')
        copies.backup(store, {"few.cursor": cursor}, copy)
        new = self.path("new.db")
        for words, status, why in (
            (["backup", "--store", store, copy], 3, "is there already"),
            (["backup", "--store", self.path("none.db"), self.path("none")], 3, "there is no such store"),
            (["backup", "--store", "spool:x", self.path("none")], 2, "is no SQLite file"),
            (["restore", "--store", store, "--cursor", cursor, copy], 3, "move it away first"),
            (["restore", "--store", new, copy], 3, "name the file of its delivery by --cursor"),
            (["restore", "--store", new, store], 3, "is no copy that"),
            (["restore", "--store", new, self.path("no copy")], 3, "there is no such copy"),
            (["backup", "--store", store, "--cursor", self.path("nosuch"), self.path("new")], 3, "nosuch: there is no"),
            (["restore", "--store", new, "--cursor", self.path("new/few.cursor"), "--cursor", self.path("no"), copy], 3,
             "has no cursor no\n"),
        ):
            done = lislab("store", *words)
            self.same(f"{words}: status", done.returncode, status)
            self.has(f"{words}", done.stderr, why)
        self.same("no file is left", [name for name in os.listdir(self.folder.name) if "new" in name], [])
        db = sqlite3.connect(store)
        with db:
            db.execute("DELETE FROM about")
        db.close()
        self.same("the copy is another file", lislab("store", "restore", "--store", new, "--cursor",
                                                     self.path("other/../few.cursor") + "x", copy).returncode, 3)
