"""A message may be named as the first of its repeats once it is kept, and not before: by a fault at each write of the
commit that makes it whole. No test here needs the library."""
import contextlib
import errno
import hashlib
import itertools
import os
import tempfile
import unittest.mock

from lislab.host.fixers import left_of
from lislab.model.store import COMPLETE, INCOMPLETE, Add, Begin, End, StoreError
from lislab.model.stores import open_store
from tests.host.hosts import HostTest, wait_for

BODY = b"H|\\^&|||A\rP|1\rL|1|N\r"
DIGEST = hashlib.sha256(BODY).hexdigest()
#: Where a sync takes no time; None if there is no such place.
MEMORY = "/dev/shm" if os.access("/dev/shm", os.W_OK) else None
#: What a spool does to its files.
CALLS = ("open", "write", "fsync", "rename", "replace", "unlink")


class Killed(BaseException):
    """The process is gone."""


class Fault:
    """The call of this number fails: `once`, `full` (and all that follow), `after` it was done, or the process is
    `killed` there."""

    def __init__(self, number, how):
        self.number, self.how, self.count, self.dead = number, how, 0, False

    def call(self, done, name):
        """Does a call, or fails."""
        self.count += 1
        if self.dead:
            raise Killed
        if self.count < self.number or (self.count > self.number and self.how != "full"):
            return done()
        if self.how == "killed":
            self.dead = True
            raise Killed
        if self.how == "after" and name != "rename":
            done()
        raise OSError(errno.ENOSPC, os.strerror(errno.ENOSPC))


def begun(key):
    """The first text of a message."""
    return [Begin(key, "fire", "192.0.2.7", "latin-1", 1.0), Add(key, 0, 1.0, BODY[:10])]


def ended(key, state=COMPLETE):
    """Its second text, and its end."""
    end = End(key, "fire", state, "", DIGEST, len(BODY), 2.0)
    return [Add(key, 1, 2.0, BODY[10:]), end] if state == COMPLETE else [end]


class EachWrite:
    """A message becomes whole, a write fails, and the message comes again."""

    #: How a write fails, and whether the message is undone before it comes again.
    ways = tuple(itertools.product(("once", "full", "after", "killed"), (True, False)))
    #: Whether all may be kept and the host not know it.
    loses_answers = True

    @classmethod
    def setUpClass(cls):
        cls.folder = tempfile.TemporaryDirectory(prefix="lis-host-", dir=MEMORY)
        cls.addClassCleanup(cls.folder.cleanup)

    def test_each_write(self):
        """Whatever write fails: what is acknowledged is whole, and each repeat names a first one that is whole."""
        counted = Fault(1 << 30, "once")
        self.found(counted, True)
        self.true("there are writes", counted.count >= 5, str(counted.count))
        for how, undo_first in self.ways:
            for number in range(1, counted.count + 1):
                whole = self.found(Fault(number, how), undo_first)
                named = {one.again_of for one in whole} - {None}
                firsts = [one.key for one in whole if one.again_of is None]
                good = len(firsts) == 1 and named == set(firsts) and {"2", "3"} <= {one.key for one in whole}
                good = good and {one.body for one in whole} == {BODY}
                self.true(f"write {number} fails, {how}, undone first: {undo_first}", good, self.shown(whole))

    def test_what_is_owed(self):
        """What is made of a message is put again after a write that failed, and after an answer that was lost: it is
        kept once, whatever was kept of it before."""
        counted = Fault(1 << 30, "once")
        self.owed(counted)
        for how in ("once", "full", "after"):
            for number in range(1, counted.count + 1):
                found = self.owed(Fault(number, how))
                self.same(f"write {number} fails, {how}", found, ([("m", BODY)], [("1", "fixed: delivered as m")]))

    def owed(self, fault):
        """The complete messages, and the others, after a commit with a fault that is made again twice."""
        store = open_store(self.where())
        store.start("h")
        store.commit([begun("1")])
        end = End("1", "fire", INCOMPLETE, "fixed: delivered as m", DIGEST, 10, 2.0)
        units = [[*begun("m"), *ended("m"), end]]
        try:
            with self.failing(store, fault):
                store.commit(units)
        except StoreError:
            store.commit(units)
        if self.loses_answers:
            store.commit(units)
        found = [(one.key, one.body) for one in store.messages()], [(one.key, one.reason) for one in store.others()]
        store.close()
        return found

    def shown(self, whole):
        """Messages, for a reader."""
        return repr([(one.key, one.again_of, one.body == BODY) for one in whole])

    def found(self, fault, undo_first):
        """The complete messages after a commit with a fault, and two repeats."""
        where = self.where()
        store = open_store(where)
        store.start("h")
        store.commit([begun("1")])
        later = [ended("1", INCOMPLETE)]
        try:
            with self.failing(store, fault):
                store.commit([ended("1")])
        except StoreError:
            pass
        except Killed:
            store.close()
            store, later = open_store(where), []
            store.start("h")
        else:
            later = []
        if undo_first:
            store.commit(later)
        store.commit([[*begun("2"), *ended("2")]])
        store.commit(later)
        store.commit([[*begun("3"), *ended("3")]])
        whole = list(store.messages())
        store.close()
        return whole

    @contextlib.contextmanager
    def failing(self, store, fault):
        """The statements of a store in a database go through the fault."""
        run = store.run
        store.run = lambda statement, values=(): fault.call(lambda: run(statement, values), statement)
        try:
            yield
        finally:
            del store.run


class Left:
    """What a host leaves open that dies."""

    def test_left_open(self):
        """It is open as long as the host runs, then incomplete; so it is for a host of another name that starts."""
        where = self.where()
        one = open_store(where)
        one.start("one")
        one.commit([begun("1"), [*begun("2"), *ended("2")]])
        self.same("the host runs", self.of_all(where), ([], (1, 0, 1)))
        one.close()
        other = open_store(where)
        self.true("its lock is free", wait_for(lambda: not other.is_held()))
        left = [("1", INCOMPLETE, "the host was stopped", BODY[:10])]
        self.same("it is dead", self.of_all(where), (left, (1, 1, 0)))
        found = other.start("other")
        self.same("a host of another name starts: what was left", [one.key for one in found], ["1"])
        self.same("it has it now", self.of_all(where), ([], (1, 0, 1)))
        ends = left_of(other, found, {})
        self.same("nothing is fixed of it", ends.to_fix, [])
        other.commit([ends.ends])
        self.same("it runs", self.of_all(where), (left, (1, 1, 0)))
        other.close()

    def of_all(self, where):
        """What a reader finds: messages that aren't whole; how many are complete, incomplete and open."""
        store = open_store(where)
        others = [(one.key, one.state, one.reason, one.body) for one in store.others()]
        counts = [(one.complete, one.incomplete, one.open) for one in store.counts()]
        store.close()
        return others, counts[0]


class RepeatsOfSqlite(EachWrite, Left, HostTest):
    """In an SQLite file."""

    places = itertools.count()

    def where(self):
        """A new store."""
        return self.path(f"{next(self.places)}.db")


class RepeatsOfSpool(EachWrite, Left, HostTest):
    """In a spool."""

    places, loses_answers = itertools.count(), False

    def where(self):
        """A new store."""
        return "spool:" + self.path(f"{next(self.places)}.spool")

    @contextlib.contextmanager
    def failing(self, store, fault):
        """What is done to files goes through the fault."""
        with contextlib.ExitStack() as stack:
            for name in CALLS:
                stack.enter_context(unittest.mock.patch.object(os, name, self.faulty(name, fault)))
            yield

    def faulty(self, name, fault):
        """A call of the system, with a fault."""
        right = getattr(os, name)

        def call(*words, **more):
            return fault.call(lambda: right(*words, **more), name)

        return call

    def test_early_mark(self):
        """A mark that an earlier host wrote for a message that it then didn't keep: a repeat doesn't name it."""
        for is_open in (True, False):
            where = self.where()
            store = open_store(where)
            store.start("h")
            store.commit([[*begun("0"), *ended("0")]])
            folder = os.path.join(where[len("spool:") :], "digests")
            with open(os.path.join(folder, *os.listdir(folder)), "w", encoding="ascii") as file:
                file.write('{"key": "1"}\n')
            store.commit([begun("1"), [] if is_open else ended("1", INCOMPLETE)])
            store.commit([[*begun("2"), *ended("2")]])
            store.commit([[*begun("3"), *ended("3")]])
            found = {one.key: one.again_of for one in store.messages()}
            self.same(f"still open: {is_open}", (found["2"], found["3"]), (None, "2"))
            store.close()

    def test_no_mark(self):
        """A host that died before it marked its last message, and one that marked a message before it kept it."""
        for marks, killed in ((1, False), (0, True)):
            where = self.where()
            store = open_store(where)
            store.start("h")
            store.commit([[*begun("1"), *(ended("1") if not killed else [])]])
            store.close()
            digests = os.path.join(where[len("spool:") :], "digests")
            names = os.listdir(digests)
            self.same("marks", len(names), marks)
            for name in names:
                os.unlink(os.path.join(digests, name))
            store = open_store(where)
            store.start("h")
            store.commit([[*begun("2"), *ended("2")]])
            first = None if killed else store.messages().__next__().key
            self.same("the repeat", [one.again_of for one in store.messages() if one.key == "2"], [first])
            store.close()
