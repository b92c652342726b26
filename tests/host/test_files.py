"""The files that the host writes: whole, or said not to be. No test here needs the library."""
import errno
import json
import os
import unittest.mock

from lislab.cli import main as cli
from lislab.outbound import deliver, export
from lislab.host import state
from lislab.watch import status
from lislab.diagnosis import tape
from lislab.model.store import COMPLETE, INCOMPLETE, Add, Begin, End, StoreError
from lislab.model.stores import open_store
from tests.host.hosts import HostTest

BODY = b"H|\\^&|||A\rL|1|N\r"
FULL = OSError(errno.ENOSPC, os.strerror(errno.ENOSPC))


def unit(key, state=COMPLETE, body=BODY, digest="d"):
    """All changes of a message."""
    line = Begin(key, "fire", "192.0.2.7", "latin-1", 1.0)
    return [line, Add(key, 0, 1.0, body), End(key, "fire", state, "", digest, len(body), 2.0)]


class Disk:
    """A disk that takes some bytes of a write, or so many writes and half of the next one."""

    def __init__(self, most=1 << 30, writes=1 << 30):
        self.most, self.writes, self.write = most, writes, os.write
        self.count = 0

    def __call__(self, descriptor, data):
        self.count += 1
        if self.count > self.writes + 1:
            raise FULL
        most = len(data) // 2 if self.count == self.writes + 1 else self.most
        return self.write(descriptor, bytes(data)[:most])

    def __enter__(self):
        self.patch = unittest.mock.patch.object(os, "write", self)
        self.patch.__enter__()
        return self

    def __exit__(self, *why):
        self.patch.__exit__(*why)


def spool_of(path):
    """A spool that a host has."""
    store = open_store("spool:" + path)
    store.start("h")
    return store


def exported(folder, path):
    """The status of an export out of a spool to a file."""
    return cli.main(["export", "--store", "spool:" + folder, "-o", path, "--format", "records"])


class Whole(HostTest):
    """Files that are written whole."""

    def test_short_writes(self):
        """A disk that takes seven bytes of each write: every file is whole."""
        folder = self.path("short")
        with Disk(most=7):
            store = spool_of(folder)
            store.commit([unit("1"), unit("2"), unit("3", INCOMPLETE, digest="e")])
            found = list(store.messages())
            self.same("messages", [(one.line, one.again_of, one.body) for one in found],
                      [("fire", None, BODY), ("fire", "1", BODY)])
            self.same("one that isn't whole", [one.reason for one in store.others()], [""])
            cursor = deliver.Cursor(self.path("short.cursor"))
            deliver.to_directory(self.path("short.d"), "records", export.writer_of(export.Form("records")))(found[0])
            cursor.move(found[0])
            state.write_state(self.path("short.status"), {"at": 1.0, "begun": 1.0})
            one = tape.Tape(self.path("short.capture"))
            one.event("T")
            one.close()
            store.close()
            out = exported(folder, self.path("short.out"))
        name = f"{found[0].number:016}-1.records"
        for path, wanted in ((os.path.join("short.d", name), BODY), ("short.out", BODY * 2),
                             ("short.capture", b"capture 2\nT\n")):
            with open(self.path(path), "rb") as file:
                self.same(path, file.read(), wanted)
        self.same("the export's status", out, 0)
        self.same("the cursor", deliver.read_cursor(self.path("short.cursor")), (found[0].number, "1"))
        self.same("the state", status.read_state(self.path("short.status")).get("at"), 1.0)

    def test_half_writes(self):
        """A disk that takes some writes, and half of the next one: no half file counts, and what was there stays."""
        with Disk() as disk:
            self.kept(self.path("all"))
        self.true("there are writes", disk.count > 5, str(disk.count))
        for writes in range(disk.count):
            folder = self.path(f"half{writes}")
            with Disk(writes=writes):
                good, words = self.kept(folder)
            self.true(f"after {writes} writes: it is said", not good)
            store = open_store("spool:" + folder)
            found = [*store.messages(), *store.others()]
            self.same(f"after {writes} writes: what counts is whole", {one.body for one in found} - {BODY}, set())
            self.same(f"after {writes} writes: a cursor", json.loads(words)["number"], 7)

    def kept(self, folder):
        """Keeps two messages and moves a cursor: whether nothing failed, and what the cursor's file has."""
        cursor = deliver.Cursor(folder + ".cursor")
        if not cursor.number:
            with open(cursor.path, "w", encoding="ascii") as file:
                file.write('{"number": 7, "key": "k"}\n')
        good, store = True, spool_of(folder)
        try:
            store.commit([unit("1"), unit("2")])
            cursor.move(unittest.mock.Mock(number=7, key="another key", ended=1.0))
        except (StoreError, OSError):
            good = False
        store.close()
        cursor.close()
        with open(cursor.path, encoding="utf-8") as file:
            return good, file.read()

    def test_damaged(self):
        """A spool with half an .about, as an earlier host could leave it: it is said which file, and an export leaves
        what was there."""
        folder, out = self.path("damaged"), self.path("damaged.out")
        store = spool_of(folder)
        store.commit([unit("1"), unit("2")])
        store.close()
        self.same("an export", exported(folder, out), 0)
        name = sorted(name for name in os.listdir(os.path.join(folder, "complete")) if name.endswith("-2.about"))[0]
        os.truncate(os.path.join(folder, "complete", name), 9)
        with open(out, "rb") as file:
            before = file.read()
        self.raises("it is said", StoreError, lambda: list(open_store("spool:" + folder).messages()))
        with unittest.mock.patch.object(cli, "say") as said:
            self.same("an export that fails", exported(folder, out), 3)
        self.has("it names the file", str(said.call_args), name)
        with open(out, "rb") as file:
            self.same("what was there stays", file.read(), before)
