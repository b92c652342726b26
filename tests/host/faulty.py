"""A wrong host, for the tests of the host: faulty.py FAULT serve ..

    commit        one commit of ten fails
    full          each commit fails
    slow          a commit takes up to a twentieth of a second longer
    stalled       each commit takes two seconds
    gone          each commit fails, since nobody answers
    early         a text is acknowledged before it is kept (and commits are slow)
    careless      three commits of ten fail, and its texts are acknowledged all the same
    forgetful     what can't be read isn't kept
    hasty         a delivery notes a message before it delivers it
    dropped       three complete messages of ten are not put into the store
    unmarked      a repeat isn't marked
    late          a reply goes out however old it is
    growing       each text stays in memory
    open          the store can be read by everybody
    asleep        the machine was suspended for as many seconds as the file LISLAB_ASLEEP says
"""
import os
import random
import sys
import time

from lislab.cli import main as cli
from lislab.host import intake, line, wires
from lislab.outbound import deliver
from lislab.model import sql, sqlite, store


def failing_commits(share, why="the disk is full, as the test has it"):
    """A store that fails now and then."""
    whole = sqlite.SqliteStore.commit

    def commit(self, units):
        if random.random() < share:
            raise store.StoreError(why)
        whole(self, units)

    sqlite.SqliteStore.commit = commit


def slow_commits(most, least=0.0):
    """A store that takes its time, in seconds."""
    whole = sqlite.SqliteStore.commit

    def commit(self, units):
        time.sleep(random.uniform(least, most))
        whole(self, units)

    sqlite.SqliteStore.commit = commit


def early():
    """Replies before it keeps."""
    slow_commits(0.05)
    step = line.Line._step

    async def wrong(self, one, *more):
        if one.text is not None:
            self._wire.write(one.reply)
            one = one._replace(reply=b"")
        await step(self, one, *more)

    line.Line._step = wrong


def careless():
    """Replies whether it could keep or not."""
    failing_commits(0.3)
    keep = line.Line._keep

    async def wrong(self, text):
        restart, self._restart = self._restart, lambda reason: None
        await keep(self, text)
        self._restart = restart
        return True

    line.Line._keep = wrong


def forgetful():
    """Keeps nothing of what can't be read."""
    intake.Intake._pass_over = lambda self, one, text, start, changes: len(text)


def hasty():
    """Moves the cursor first."""

    def run(delivery, once):
        def both(one):
            delivery.cursor.move(one)
            delivery.deliver(one)

        return right(delivery._replace(deliver=both), once)

    right, deliver.run = deliver.run, run


def dropped():
    """Loses messages."""
    number = sql.SqlStore._number
    sql.SqlStore._number = lambda self, ends: number(self, [one for one in ends if random.random() > 0.3])


def unmarked():
    """Marks no repeat."""
    number = sql.SqlStore._number

    def wrong(self, ends):
        number(self, [one._replace(digest=os.urandom(8).hex()) for one in ends])

    sql.SqlStore._number = wrong


def late():
    """Has no limit on the age of a reply."""
    line.Line._answer_was = line.Line._answer
    line.Line._answer = lambda self, reply, arrived, now, is_kept: self._answer_was(reply, now, now, is_kept)


def growing():
    """Forgets nothing."""
    kept, keep = [], line.Line._keep

    async def wrong(self, text):
        kept.append(text + bytes(10000))
        return await keep(self, text)

    line.Line._keep = wrong


def is_open():
    """Leaves the store to everybody."""
    os.umask = lambda mask: 0
    sqlite.private = lambda path: None


def suspended():
    """Has a clock that a test sets."""

    def drift():
        try:
            with open(os.environ["LISLAB_ASLEEP"], encoding="ascii") as file:
                return float(file.read() or 0)
        except FileNotFoundError:
            return 0.0

    wires.Asleep.__init__.__defaults__ = (lambda: wires.clock() + drift(),)


FAULTS = {
    "commit": lambda: failing_commits(0.1),
    "full": lambda: failing_commits(1.0),
    "slow": lambda: slow_commits(0.05),
    "stalled": lambda: slow_commits(2.0, 2.0),
    "gone": lambda: failing_commits(1.0, "PostgreSQL: server closed the connection unexpectedly"),
    "early": early,
    "careless": careless,
    "forgetful": forgetful,
    "hasty": hasty,
    "dropped": dropped,
    "unmarked": unmarked,
    "late": late,
    "growing": growing,
    "open": is_open,
    "asleep": suspended,
}

if __name__ == "__main__":
    FAULTS[sys.argv[1]]()
    sys.exit(cli.main(sys.argv[2:]))
