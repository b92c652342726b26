"""Hosts that are killed at random moments, and stores that fail: what was acknowledged is kept, repeats are marked."""
import functools
import random
import resource
import subprocess
import time

from tests.host import hosts
from tests.host.hosts import Found, Host, HostTest, acknowledged, sending, wait_for

TROUBLE = ["--noise", "0.0005", "--late", "0.005", "--reset", "0.002", "--cut"]


class Kills(HostTest):
    """Kills, commits that fail, a full disk, and hosts with a fault."""

    def test_sqlite(self):
        """Killed at random under 20 analyzers with trouble."""
        self.is_killed("sqlite", self.path("kills.db"), hosts.size("kills"), {})

    def test_spool(self):
        """The same with a spool, under 5 analyzers."""
        how = {"analyzers": 5, "between": 2.0}
        self.is_killed("spool", "spool:" + self.path("kills.spool"), hosts.size("spool"), how)

    def is_killed(self, name, store, kills, how):
        """Kills a host, and compares what is kept with what was acknowledged."""
        log = self.path(f"{name}.log")
        done = attack(store, log, kills, **how)
        found = Found(store)
        lost, unmarked = found.lost(log), found.unmarked()
        self.true("messages are acknowledged", done > 0, str(done))
        self.same("acknowledged and lost", lost, [])
        self.same("repeats without a mark", unmarked, [])
        hosts.say(
            f"{name}: {kills} kills, {done} messages acknowledged, {len(found.whole)} kept, {len(lost)} lost, "
            f"{found.again()} repeats marked, {len(unmarked)} not, {len(found.others)} unfinished"
        )

    def test_failing_store(self):
        """A store that fails one commit of ten: the lines go on, and nothing that is acknowledged is lost."""
        store, log = self.path("failing.db"), self.path("failing.log")
        host = Host(store, fault="commit")
        one = sending(host.port, "--analyzers", "20", "--made", "1000000", "--tries", "0", "--log", log)
        time.sleep(hosts.size("failing"))
        wait_for(lambda: len(acknowledged(log)) > 20, 60)
        one.terminate()
        one.communicate()
        status, found, done = host.stop(), Found(store), len(acknowledged(log))
        self.same("the host's status", status, 0)
        self.true("messages are acknowledged", done > 20, str(done))
        self.true("some could not be kept", "not stored: the disk is full" in host.errors[-1])
        self.same("acknowledged and lost", found.lost(log), [])
        self.same("repeats without a mark", found.unmarked(), [])
        self.same("no message stays open", sum(one.open for one in found.counts), 0)
        hosts.say(f"failing store: {hosts.size('failing')} s, {done} messages acknowledged, {found.again()} repeats")

    def test_full_disk_of_sqlite(self):
        """No file may grow past a size."""
        self.gets_full(self.path("full.db"), 400000)

    def test_full_disk_of_spool(self):
        """The same with a spool, whose files are small."""
        self.gets_full("spool:" + self.path("full.spool"), 300)

    def gets_full(self, store, room):
        """Without room no acknowledgement goes out; once there is room the line goes on."""
        log, unlimited = self.path(f"full{room}.log"), (resource.RLIM_INFINITY, resource.RLIM_INFINITY)
        # What a host says goes to a file in other tests, which would be as full.
        limit = functools.partial(resource.setrlimit, resource.RLIMIT_FSIZE, (room, resource.RLIM_INFINITY))
        host = Host(store, piped=True, preexec_fn=limit)
        one = sending(host.port, "--analyzers", "5", "--made", "40", "--tries", "0", "--log", log)
        full = wait_for(lambda: "not stored" in host.says() or len(acknowledged(log)) == 200, 60)
        self.true("it gets full", full and wait_for(lambda: stuck(log)))
        before = acknowledged(log)
        self.same("full: acknowledged and lost", Found(store).lost(log), [])
        self.true("full: not all was taken", len(before) < 200, str(len(before)))
        resource.prlimit(host.process.pid, resource.RLIMIT_FSIZE, unlimited)
        try:
            one.communicate(timeout=300)
        except subprocess.TimeoutExpired:
            one.kill()
            one.communicate()
        self.same("with room again: all is acknowledged", len(acknowledged(log)), 200)
        self.same("with room again: the host's status", host.stop(), 0)
        found = Found(store)
        self.same("with room again: acknowledged and lost", found.lost(log), [])
        self.same("with room again: repeats without a mark", found.unmarked(), [])

    def test_host_that_marks_nothing(self):
        """A host that marks no repeat is noticed."""
        host = Host(self.path("unmarked.db"), fault="unmarked", scale=1.0)
        for _ in range(2):
            sending(host.port, "--made", "3", scale=1.0).communicate()
        host.stop()
        self.same("a host that marks no repeat is noticed", len(Found(host.store).unmarked()), 3)

    def test_hosts_that_lose(self):
        """Hosts that acknowledge before they keep, or don't keep, are noticed: a few kills show it, or a few more."""
        for fault in ("early", "careless", "dropped"):
            lost = []
            for seed in range(7, 17):
                store, log = self.path(f"{fault}{seed}.db"), self.path(f"{fault}{seed}.log")
                attack(store, log, 5, fault=fault, seed=seed)
                lost = Found(store).lost(log)
                if lost:
                    break
            self.true(f"a host with the fault {fault!r} is noticed", lost)


def attack(store, log, kills, fault=None, analyzers=20, seed=7, between=1.0):
    """Kills a host at random under analyzers with trouble; how many messages are acknowledged."""
    rng = random.Random(seed)
    host = Host(store, fault=fault)
    one = sending(
        host.port, "--analyzers", str(analyzers), "--made", "1000000", "--tries", "0", "--log", log, *TROUBLE
    )
    try:
        for number in range(1, kills + 1):
            time.sleep((0.2 + rng.random()) * between)
            host.kill()
            host.start()
            if number % 50 == 0:
                hosts.say(f"{number} of {kills} kills")
        time.sleep(0.5)
    finally:
        one.terminate()
        one.communicate()
        host.kill()
    return len(acknowledged(log))


def stuck(log, seconds=1.0):
    """Whether no message is acknowledged for a while."""
    before = len(acknowledged(log))
    time.sleep(seconds)
    return len(acknowledged(log)) == before
