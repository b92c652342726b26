"""What is owed: units that no reply waits for, and that could not be kept at once."""
import asyncio
import time
import unittest.mock
from collections import Counter

from lislab.diagnosis.events import Observers
from lislab.host import line
from lislab.host.storing import Committer
from lislab.host.intake import Intake
from lislab.host.storing import Keeper
from lislab.model.store import INCOMPLETE, End, StoreError
from lislab.model.stores import open_store
from tests.host.hosts import HostTest
from tests.host.test_repeats import begun, ended


class FailingStore:
    """A store that is away for its first commits, and that never keeps a message `bad`."""

    part = 60

    def __init__(self, away):
        self.away, self.kept, self.tries = away, [], 0

    def commit(self, units):
        """Keeps units, or not."""
        self.tries += any(unit[0].key == "bad" for unit in units)
        self.away -= 1
        if self.away >= 0 or any(unit[0].key == "bad" for unit in units):
            raise StoreError("as the test has it")
        self.kept += [unit[0].key for unit in units]


class Owed(HostTest):
    """Units that are owed."""

    def test_one_that_fails(self):
        """One unit that can't be kept holds up no other; the others are kept without anything else that is put, and
        their futures are done then and not before."""
        store, keys = FailingStore(2), ["bad", *map(str, range(20))]

        async def runs():
            committer = Committer(store, print)
            done = {key: committer.put_later([*begun(key), *ended(key)]) for key in keys}
            others = [done[key] for key in keys[1:]]
            await asyncio.wait_for(asyncio.wait(others), 60)
            early = [key for key in keys if done[key].done() and key not in store.kept]
            await asyncio.wait_for(asyncio.wait([committer.put([*begun("more"), *ended("more")])]), 60)
            self.true("the one that fails isn't done", not done["bad"].done())
            await committer.stop()
            return early

        self.same("done and not kept", asyncio.run(runs()), [])
        self.same("each is kept once", sorted(store.kept), sorted([*keys[1:], "more"]))

    def test_said_once_kept(self):
        """That a message is delivered is said and counted once it is kept."""
        said, kept = [], []

        async def runs():
            given = [unittest.mock.Mock(names=frozenset(), bodies={}) for _ in range(5)]
            wire, intake, committer, observers, fixer = given
            kept.append(asyncio.get_running_loop().create_future())
            committer.put_later.return_value = kept[0]
            turns, counts = line.Turns(), Counter()
            say = lambda *row: said.append(row)  # noqa: E731
            one = line.Line(line.Parts(wire, intake, observers, say, counts, fixer, committer, turns))
            one.keeper.put_later(ended("1"))
            await asyncio.sleep(0)
            before = counts["messages"], one.keeper.last
            kept[0].set_result(None)
            await asyncio.sleep(0.01)
            return before, (counts["messages"], one.keeper.last)

        self.same("before and after", asyncio.run(runs()), ((0, None), (1, 2.0)))

    def test_a_part_that_fails(self):
        """A part of a long text can't be stored: each message that ended since the last part ends as incomplete."""
        later = []

        async def runs():
            committer, fixer = unittest.mock.Mock(part=2), unittest.mock.Mock(names=frozenset())
            committer.put = unittest.mock.AsyncMock(side_effect=fails)
            committer.put_later.side_effect = lambda unit, _: (later.extend(unit), unittest.mock.Mock())[1]
            fixer.order.over = unittest.mock.AsyncMock()
            intake = Intake("fire", "x", "latin-1", 1 << 20, time.time)
            shared = committer, fixer, line.Share(line.Turns(), "x"), Observers([], print), Counter(), print
            keeper = Keeper(intake, *shared, print)
            with self.assertRaises(StoreError):
                await keeper.keep(b"H|\\^&\r" + b"C|1\r" * 700 + b"L|1\r")
            keeper.undo("as the test has it")

        def fails(unit, _):
            if any(isinstance(one, End) for one in unit):
                raise StoreError("as the test has it")

        asyncio.run(runs())
        self.same("ends", [(one.state, one.reason) for one in later], [(INCOMPLETE, "as the test has it")])


class Rows:
    """A cursor that notes each row that is read."""

    def __init__(self, cursor, steps):
        self._cursor, self._steps = cursor, steps

    def fetchone(self):
        """A row."""
        self._steps.append("row")
        return self._cursor.fetchone()

    def fetchall(self):
        """All rows."""
        rows = self._cursor.fetchall()
        self._steps.extend(["row"] * len(rows))
        return rows


class Steps(HostTest):
    """What a commit asks of SQLite. The thread that commits waits for its turn after each statement and each row."""

    def test_a_commit_of_many(self):
        """A commit of the messages of many lines takes few steps: of other bytes each, and all of the same."""
        store, steps = open_store(self.path("steps.db")), []
        store.start("steps")
        run = store.run
        for name, many in (("other bytes", 100), ("the same bytes", 1), ("the same bytes again", 1)):
            units = [[*begun(f"{name} {at}"), *ended(f"{name} {at}")] for at in range(100)]
            units = [[*rest, end._replace(digest=f"{many} {at % many}")] for at, (*rest, end) in enumerate(units)]
            steps.clear()
            with unittest.mock.patch.object(
                store, "run", lambda words, values=(): (steps.append(words), Rows(run(words, values), steps))[1]
            ):
                store.commit(units)
            self.true(f"few steps for messages of {name}", len(steps) <= 15, f"{len(steps)}: {steps}")
        store.close()
