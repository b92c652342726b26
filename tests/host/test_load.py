"""Many analyzers at once, and memory that doesn't grow."""
import os
import re
import subprocess
import sys
import time

from lislab.model.stores import open_store
from tests.host import hosts
from tests.host.hosts import NEVER, Found, Host, HostTest, acknowledged, sending

LOADER = os.path.join(os.path.dirname(os.path.abspath(__file__)), "loader.py")


class Load(HostTest):
    """Load, and memory under it."""

    def test_200_analyzers(self):
        """200 analyzers at once, each with a message a second if the machine can: they get their replies; how soon is
        said."""
        store, log, each = self.path("many.db"), self.path("many.log"), hosts.size("analyzers")
        host = Host(store, "--max-lines", "250", scale=NEVER)
        many = ["--analyzers", "200", "--made", str(each), "--rate", "1"]
        said = sending(host.port, *many, "--log", log, scale=NEVER).communicate()[1]
        self.same("the host's status", host.stop(), 0)
        done, found = acknowledged(log), Found(store)
        self.same("all are served", (len({name for name, *_ in done}), len(done)), (200, 200 * each))
        self.same("acknowledged and lost", found.lost(log), [])
        self.same("repeats", (found.again(), found.unmarked()), (0, []))
        summary = re.search(r"done .*", said)
        good = summary is not None and "CLOSED" not in said and "TIMED" not in said
        self.true("no session fails", good, said)
        hosts.say(f"200 analyzers, {each} messages of each: {summary[0] if summary else said}")

    def test_memory(self):
        """A host that has taken many messages has no more memory than one that has taken few."""
        messages = hosts.size("messages")
        used = self.used(None, messages)
        few, most = used[0], max(used)
        self.true("memory stays the same", most < few + 4096, f"{used} KiB")
        hosts.say(f"memory after each part of {messages} messages, in KiB: {used}")

    def test_a_host_that_grows(self):
        """A host that forgets nothing is noticed."""
        used = self.used("growing", 2000)
        self.true("a host whose memory grows is noticed", max(used) >= used[0] + 4096, f"{used} KiB")

    def used(self, fault, messages):
        """The host's memory after each part of the messages, in KiB. A text of each has a complete message."""
        store, used, begun = self.path(f"memory{fault}.db"), [], time.monotonic()
        host, parts = Host(store, fault=fault, scale=1.0), 20 if messages >= 100000 else 4
        for part in range(1, parts + 1):
            words = [str(host.port), f"M{part}x", str(messages // parts)]
            done = subprocess.run([sys.executable, LOADER, *words], env=hosts.ENV, check=False)
            self.same(f"part {part}: all are acknowledged", done.returncode, 0)
            used.append(host.memory())
            if messages >= 100000:
                hosts.say(f"{part * messages // parts} messages, {time.monotonic() - begun:.0f} s, {used[-1]} KiB")
        self.same("the host's status", host.stop(), 0)
        one = open_store(store)
        counts = [(each.complete, each.again, each.incomplete, each.invalid) for each in one.counts()]
        one.close()
        self.same("all are kept", counts, [(messages // parts * parts, 0, 0, 0)])
        return used
