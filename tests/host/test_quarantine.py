"""Deliveries that quarantine messages: those that fail too often, with later ones of the same samples; all others go
on, and the order of a sample's messages is kept."""
import json
import os
import random
import shutil
import sys
import time
import unittest.mock

from lislab.outbound import deliver
from lislab.model import files
from lislab.watch import status
from lislab.model.store import COMPLETE, Add, Begin, End, StoreError
from lislab.model.stores import open_store
from lislab.outbound import quarantine
from tests.host.hosts import HostTest, lislab, process, wait_for


def records(samples, value="5.4"):
    """A message with an order for each of these samples."""
    orders = "".join(f"O|{at}|{one}||^^^GLU\rR|1|^^^GLU|{value}|mmol/L\r" for at, one in enumerate(samples, 1))
    return f"H|\\^&|||A\rP|1\r{orders}L|1|N\r".encode()


def keep(store, bodies, line="fire"):
    """Puts complete messages into a store: their keys."""
    bodies = list(bodies)
    keys = [f"{at:016x}" for at in range(1, len(bodies) + 1)]
    one = open_store(store)
    one.start("h")
    one.commit([
        [
            Begin(key, line, "10.0.0.7", "latin-1", 1767225600.0 + at),
            Add(key, 0, 1767225600.0 + at, body),
            End(key, line, COMPLETE, "", key, len(body), 1767225601.0 + at),
        ]
        for at, (key, body) in enumerate(zip(keys, bodies))
    ])
    one.close()
    return keys


#: A command that takes a message, and fails for those whose keys a file names: NAME TAKEN BAD.
TAKER = """
import os, sys
key = os.environ["LISLAB_KEY"]
sys.stdin.buffer.read()
if os.path.exists(sys.argv[2]) and key in open(sys.argv[2]).read().split():
    sys.exit(7)
with open(sys.argv[1], "a") as file:
    file.write(key + "\\n")
"""


class Taker:
    """A delivery to a command that fails for some messages."""

    def __init__(self, test, name, bodies, spool=""):
        self.store, self.cursor = spool + test.path(f"{name}.db"), test.path(f"{name}.cursor")
        self.path, self.bad = test.path(f"{name}.taken"), test.path(f"{name}.bad")
        self.keys = keep(self.store, bodies)

    def fails(self, *places):
        """From now on it fails for these messages, by their places."""
        with open(self.bad, "w", encoding="ascii") as file:
            file.write(" ".join(self.keys[at] for at in places))

    def words(self, *words):
        """The words of the command."""
        named = ["--store", self.store, "--cursor", self.cursor, *words]
        return ["deliver", *named, "--", sys.executable, "-c", TAKER, self.path, self.bad]

    def taken(self):
        """The places of the messages that were taken, in turn."""
        if not os.path.exists(self.path):
            return []
        with open(self.path, encoding="ascii") as file:
            return [self.keys.index(row.strip()) for row in file]


class Stopped(Exception):
    """The delivery of a test is over."""


class Dying:
    """Ends a delivery before or after one of the writes of its cursor and of its quarantine."""

    def __init__(self, place, is_late):
        self.place, self.is_late, self.count, self.died = place, is_late, 0, False

    def __enter__(self):
        self.patched = [unittest.mock.patch.object(one, "write_synced", self.write) for one in (deliver, quarantine)]
        self.patched.append(unittest.mock.patch.object(deliver, "SYNC", 0.0))
        for one in self.patched:
            one.start()
        return self

    def __exit__(self, *_):
        for one in self.patched:
            one.stop()

    def write(self, path, data):
        """A write, at which the delivery may die."""
        self.count += 1
        dies = self.count == self.place + 1
        self.died = self.died or dies
        if dies and not self.is_late:
            raise Stopped
        files.write_synced(path, data)
        if dies:
            raise Stopped


class Quarantines(HostTest):
    """`lislab deliver --quarantine` and `--resend`."""

    def test_quarantine(self):
        """A message that fails twice is quarantined with later ones of its sample, and sent again with them."""
        samples = (["A"], ["B"], ["A"], ["C"], ["B", "A"], ["B"], ["D"])
        self.goes_into_quarantine(Taker(self, "held", map(records, samples)))

    def test_quarantine_of_a_spool(self):
        """The same out of a spool."""
        samples = (["A"], ["B"], ["A"], ["C"], ["B", "A"], ["B"], ["D"])
        self.goes_into_quarantine(Taker(self, "held of a spool", map(records, samples), "spool:"))

    def goes_into_quarantine(self, one):
        """The first message fails."""
        one.fails(0)
        first = lislab(*one.words("--quarantine", "2", "--once"))
        self.same("it fails once", (first.returncode, one.taken()), (1, []))
        second = lislab(*one.words("--quarantine", "2", "--once"))
        self.same("others go on, and those of its samples wait", (second.returncode, one.taken()), (1, [1, 3, 6]))
        self.has("it is said which", second.stderr, f"{one.keys[0]} is quarantined: {sys.executable} ended with status 7")
        self.has("and how many", second.stderr, "4 messages are in quarantine")
        shown = ["status", "--store", one.store, "--cursor", one.cursor]
        self.has("the status counts them", lislab(*shown).stdout, ": 0 messages not delivered; 4 in quarantine")
        held = json.loads(lislab(*shown, "--json").stdout)["undelivered"][0]["quarantined"]
        self.same("and why", [(it["tries"], it["why"][:9]) for it in held], [
            (2, sys.executable[:9]), (0, "waits for"), (0, "waits for"), (0, "waits for")])
        self.same("without --quarantine they wait too", lislab(*one.words("--once")).returncode, 1)
        bad = lislab(*one.words("--resend", one.keys[4]))
        self.same("it fails again", (bad.returncode, one.taken()), (1, [1, 3, 6]))
        one.fails()
        good = lislab(*one.words("--resend", one.keys[4]))
        self.same("all of them go, in order", (good.returncode, one.taken()), (0, [1, 3, 6, 0, 2, 4, 5]))
        self.same("nothing is left", lislab(*shown).stdout.count("in quarantine"), 0)
        self.same("there is none to send", lislab(*one.words("--resend", "all")).returncode, 1)
        self.same("a key that is none", lislab(*one.words("--resend", "../x")).returncode, 2)
        old = lislab(*one.words("--aside", "1", "--again", "all"))
        for words in ("--aside is now --quarantine", "--again is now --resend"):
            self.has(f"an old name: {words}", old.stderr, words)

    def test_again_of_one_that_runs(self):
        """A delivery that runs takes up what is asked for."""
        one = Taker(self, "running", [records(["A"]), records(["A"]), records(["B"])])
        one.fails(0)
        process(["-m", "lislab", *one.words("--quarantine", "1")])
        self.true("others go on", wait_for(lambda: one.taken() == [2], 60), str(one.taken()))
        self.true("it is noted", wait_for(lambda: len(quarantine.held_of(one.cursor)) == 2, 60))
        one.fails()
        words = ["deliver", "--store", one.store, "--cursor", one.cursor, "--resend", one.keys[0]]
        done = lislab(*words)
        self.same("it is asked to", (done.returncode, "2 messages are sent by the" in done.stderr), (0, True))
        self.true("it sends them", wait_for(lambda: one.taken() == [2, 0, 1], 60), str(one.taken()))
        self.true("the wish is gone", wait_for(lambda: not quarantine.wishes(one.cursor), 60))

    def test_what_is_not_counted(self):
        """A command that isn't there is no failure of the message."""
        one = Taker(self, "there", [records(["A"])])
        words = one.words("--quarantine", "1", "--once")
        done = lislab(*words[: words.index("--") + 1], self.path("no command"))
        self.same("the status", done.returncode, 1)
        self.same("nothing is in quarantine", quarantine.held_of(one.cursor), [])
        lislab(*one.words("--once"))
        self.same("it is delivered", one.taken(), [0])
        store, cursor, fails = one.store, self.path("failing store.cursor"), [StoreError("the server is gone")] * 3

        def take(_):
            if fails:
                raise fails.pop()
            return True

        for _ in range(4):
            self.one_run(store, cursor, take, 1, False)
        self.same("a store that fails: nothing is in quarantine", (fails, quarantine.held_of(cursor)), ([], []))

    def test_random(self):
        """Random messages and failures: in the end each was delivered once, those of a sample in order."""
        for seed in range(6):
            rng = random.Random(seed)
            samples = [rng.sample("ABCDE", rng.choice((1, 1, 1, 2, 0))) for _ in range(30)]
            store, cursor = self.path(f"random{seed}.db"), self.path(f"random{seed}.cursor")
            keys, taken = keep(store, [records(it) for it in samples]), []

            def take(one, rng=rng, taken=taken, chances=[0.3]):
                if rng.random() < chances[0]:
                    raise deliver.Refused("by chance")
                taken.append(one.key)
                chances[0] *= 0.98
                return True

            for _ in range(300):
                if len(taken) == len(keys):
                    break
                self.one_run(store, cursor, take, rng.choice((0, 1, 2)), rng.random() < 0.3)
            self.same(f"{seed}: each once", sorted(taken), keys)
            for sample in "ABCDE":
                mine = [key for key, it in zip(keys, samples) if sample in it]
                found = [key for key in taken if key in mine]
                self.need(found == mine, lambda: f"{seed}: {sample}: {found}")

    def test_each_write(self):
        """A delivery that dies before or after each of its writes, and is started again: no message is lost, those of a
        sample stay in order."""
        samples = (["A"], ["B"], ["A"], ["C"], ["B", "A"], ["D"])
        store = self.path("each.db")
        keys = keep(store, map(records, samples))
        for is_late in (False, True):
            for place in range(100):
                cursor, taken = self.path(f"each{is_late}{place}.cursor"), []
                with Dying(place, is_late) as dying:
                    for fixed in (False, False, True, True):
                        self.rounds(store, cursor, keys, taken, fixed)
                where = f"{'after' if is_late else 'before'} write {place}"
                self.same(f"{where}: none is lost", sorted(set(taken)), keys)
                for sample in "ABCD":
                    mine = [key for key, it in zip(keys, samples) if sample in it]
                    self.same(f"{where}: {sample}", list(dict.fromkeys(key for key in taken if key in mine)), mine)
                if not dying.died:
                    break
        self.true("there are writes", place > 10, str(place))

    def rounds(self, store, cursor, keys, taken, fixed):
        """A delivery that fails for the first message until that is fixed; then what was in quarantine."""

        def take(one):
            if one.key == keys[0] and not fixed:
                raise deliver.Refused("as the test has it")
            return not taken.append(one.key)

        for again in (False, True):
            try:
                self.one_run(store, cursor, take, 1, again)
            except Stopped:
                pass

    def one_run(self, store, cursor, take, most, again):
        """A delivery of what there is, or of what was in quarantine."""
        opened, place = open_store(store), deliver.Cursor(cursor)
        one = deliver.Delivery(opened, place, take, lambda text: None, quarantine=quarantine.Quarantine(cursor, most))
        try:
            if again:
                deliver.run_again(one, quarantine.ALL)
            else:
                deliver.run(one, True)
        except deliver.Refused:
            pass
        finally:
            place.close()
            opened.close()


class Cursors(HostTest):
    """A cursor that can't be written."""

    def test_service(self):
        """A delivery that can't note what it delivered says so once and again, delivers nothing twice, and goes on."""
        store, folder = self.path("service.db"), self.path("service")
        keys, taken, said = keep(store, [records(["A"]), records(["B"])]), [], []
        os.mkdir(folder)
        place = deliver.Cursor(os.path.join(folder, "cursor"))
        shutil.move(folder, folder + ".away")

        def sleep(_):
            if taken == keys:
                raise Stopped
            if len(said) == 3:
                shutil.move(folder + ".away", folder)

        opened = open_store(store)
        one = deliver.Delivery(opened, place, lambda it: not taken.append(it.key), said.append, sleep)
        self.raises("it is stopped by the test", Stopped, lambda: deliver.run(one, False))
        self.same("each once", taken, keys)
        self.same("it says so", len(said), 3)
        self.has("and which", said[0], f"cursor: No such file or directory: message 1 {keys[0]} is done, and the")
        self.same("the cursor", place.key, keys[1])
        opened.close()

    def test_quarantine_that_cannot_be_written(self):
        """What is sent again, and can't be noted as sent, is sent once as long as the delivery runs."""
        store, cursor, taken, said = self.path("full.db"), self.path("full.cursor"), [], []
        keys = keep(store, [records(["A"]), records(["A"])])
        with open(cursor + ".quarantine", "w", encoding="ascii") as file:
            held = [quarantine.Held(at, key, ["A"], 1, "x", 0.0)._asdict() for at, key in enumerate(keys, 1)]
            json.dump({"held": held}, file)
        with open(cursor, "w", encoding="ascii") as file:
            json.dump({"number": 2, "key": keys[1]}, file)
        quarantine.wish(cursor, "all")

        def write(path, data):
            if len(said) < 2:
                raise OSError(28, "No space left on device")
            files.write_synced(path, data)

        def sleep(_):
            if not quarantine.held_of(cursor) or len(said) > 9:
                raise Stopped

        opened, place = open_store(store), deliver.Cursor(cursor)
        kept = quarantine.Quarantine(cursor)
        one = deliver.Delivery(opened, place, lambda it: not taken.append(it.key), said.append, sleep, kept)
        with unittest.mock.patch.object(quarantine, "write_synced", write):
            self.raises("it is stopped by the test", Stopped, lambda: deliver.run(one, False))
        self.same("each once, in order", taken, keys)
        self.has("it is said", said[0], ".quarantine: No space left on device")
        self.same("nothing is left", (quarantine.held_of(cursor), quarantine.wishes(cursor)), ([], []))
        place.close()
        opened.close()

    def test_version_before(self):
        """The file of the version before is read, and the first change gives it its name."""
        store, cursor = self.path("before.db"), self.path("before.cursor")
        keys = keep(store, [records(["A"]), records(["B"])])
        rows = [quarantine.Held(at, key, [name], 1, "x", 0.0)._asdict() for at, (key, name) in enumerate(zip(keys, "AB"), 1)]
        with open(cursor + ".aside", "w", encoding="ascii") as file:
            json.dump({"held": rows}, file)
        with open(cursor, "w", encoding="ascii") as file:
            json.dump({"number": 2, "key": keys[1]}, file)
        self.same("before", [one.key for one in quarantine.held_of(cursor)], keys)
        words = ["--store", store, "--cursor", cursor, "--directory", self.path("before")]
        self.same("one is sent", lislab("deliver", *words, "--resend", keys[0]).returncode, 0)
        self.same("after", [one.key for one in quarantine.held_of(cursor)], keys[1:])
        there = [os.path.exists(cursor + end) for end in (quarantine.QUARANTINE, quarantine.EARLIER)]
        self.same("the files", there, [True, False])

    def test_once(self):
        """With --once it ends with status 3."""
        store, folder = self.path("once.db"), self.path("once")
        keep(store, [records(["A"])])
        os.mkdir(folder)
        taker = "import os, sys; os.rename(sys.argv[1], sys.argv[1] + '.away')"
        words = ["--store", store, "--cursor", os.path.join(folder, "cursor"), "--once"]
        done = lislab("deliver", *words, "--", sys.executable, "-c", taker, folder)
        self.same("the status", done.returncode, 3)
        self.has("it says why", done.stderr, "cursor: No such file or directory: message 1 ")

    def test_damaged(self):
        """A file of what is in quarantine that is damaged is named."""
        store, cursor = self.path("damaged.db"), self.path("damaged.cursor")
        keep(store, [records(["A"])])
        with open(cursor + ".quarantine", "w", encoding="ascii") as file:
            file.write("{")
        done = lislab("deliver", "--store", store, "--cursor", cursor, "--once", "--", "true")
        self.same("the status, and the file", (done.returncode, f"{cursor}.quarantine: " in done.stderr), (3, True))
        self.raises("for the status too", StoreError, lambda: status.waiting_of(open_store(store), cursor))
        self.true("nothing was delivered", not os.path.exists(cursor), str(time.time()))
