"""Whether a host runs: its lock says so, and its state how it does. No test here needs the library."""
import asyncio
import contextlib
import io
import json
import os
import re
import time
import unittest.mock

from lislab.cli import main as cli
from lislab.model import options
from lislab.host import serials, serve, state
from lislab.model.stores import open_store
from tests.host.hosts import HostTest


class Status(HostTest):
    """`lislab status` of a host that can't write its state, and of one that is dead."""

    def test_running(self):
        """A host runs as long as it has its lock, whatever its state says."""
        for store in (self.path("lock.db"), "spool:" + self.path("lock.spool")):
            one = open_store(store)
            one.start("h")
            for age, held, wanted, words in (
                (None, True, (1, True, None), "the host is running; there is no state that it wrote"),
                (0, True, (0, True, 0), "the host has been running since"),
                (60, True, (1, True, 60), "the host is running; its state is 60 seconds old"),
                (-3600, True, (1, True, -3600), "its state is 3600 seconds ahead of the clock"),
                (0, False, (1, False, 0), "the host isn't running"),
                (-3600, False, (1, False, -3600), "the host isn't running"),
            ):
                if not held:
                    one.close()
                with self.subTest(f"{store[:5]}: state of {age} s, lock {held}"):
                    self.same("status, running, age", self.shown(store, age, "--json"), wanted)
                    shown = self.shown(store, age)
                    self.true("for a reader", re.search(words, shown), shown)

    def shown(self, store, age, *words):
        """What `lislab status` shows when the state has this age; its clock stands still meanwhile."""
        path, now = self.path("the state"), time.time()
        data = {} if age is None else {"at": now - age, "begun": 1.0, "process": 1}
        with open(path, "w", encoding="ascii") as file:
            json.dump(data, file)
        with contextlib.redirect_stdout(io.StringIO()) as out, unittest.mock.patch("time.time", lambda: now):
            status = cli.main(["status", "--store", store, "--status", path, *words])
        if not words:
            return out.getvalue()
        found = json.loads(out.getvalue())
        age = found.get("state_age")
        return status, found["running"], None if age is None else round(age)

    def test_a_state_that_cannot_be_written(self):
        """It is said once, and again after it could be written."""
        folder, away = self.path("folder"), self.path("away")
        asked = serve.Asked([], [], [], options.Limits(), None, os.path.join(folder, "state"))
        tried = []

        def write(path, state):
            """Writes the state, and notes how it went."""
            tried.append(write_state(path, state))
            return tried[-1]

        async def in_vain(is_it, times):
            """Done when the last so many tries were in vain, or weren't."""
            over = time.monotonic() + 60
            while [bool(one) for one in tried[-times:]] != [is_it] * times and time.monotonic() < over:
                await asyncio.sleep(0.01)

        async def serve_it():
            os.mkdir(away)
            host = serve.Host(asked, open_store(self.path("state.db")))
            await host.start()
            for is_it, *names in ((True, away, folder), (False, folder, away), (True, away, folder)):
                await in_vain(is_it, 4)
                os.rename(*names)
            await host.stop()

        write_state = state.write_state
        with contextlib.ExitStack() as stack:
            for module, name, one in ((serve, "STATUS", 0.02), (state, "write_state", write), (serials, "announce", print)):
                stack.enter_context(unittest.mock.patch.object(module, name, one))
            say = stack.enter_context(unittest.mock.patch.object(state, "say"))
            asyncio.run(serve_it())
        said = [call.args[0].partition(":")[0] for call in say.call_args_list]
        self.same("what is said", said, ["the status file can't be written"] * 2)
        with open(asked.status, encoding="ascii") as file:
            self.true("the last state", json.load(file)["stopped"])
