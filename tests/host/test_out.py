"""What comes out of a store: exports, deliveries, the status; who may read it, and that it has one host."""
import csv
import io
import json
import os
import stat
import subprocess
import sys
import time

from lislink import Message, Row
from lislab.cli import main as cli
from lislab.model.stores import open_store
from lislink.message import NAMES
from lislink.rows import marks_of
from tests import ROOT, kit
from tests.host.hosts import ENV, FAULTY, Host, HostTest, lislab, sending, wait_for

SAMPLE, BAD = "samples/panel.records", "samples/no-order.records"


def good_part():
    """The first message of the bad sample, which can be read."""
    return kit.bytes_of(BAD).split(b"L|1|N\r")[0] + b"L|1|N\r"


def messages_of(store):
    """The complete messages of a store."""
    one = open_store(store)
    try:
        return list(one.messages())
    finally:
        one.close()


TAKER = """
import os, sys
turn = sys.argv[1] + ".turn"
if os.path.exists(turn):
    os.unlink(turn)
else:
    open(turn, "w").close()
    sys.exit(1)
data = sys.stdin.buffer.read()
with open(sys.argv[1], "ab") as file:
    file.write(os.environ["LISLAB_NUMBER"].encode() + b" " + str(len(data)).encode() + b"\\n")
"""


def taken(words, path, fault=None):
    """What a command that fails each other time has taken, without repeats."""
    taker = ["--once", "--", sys.executable, "-c", TAKER, path]
    program = [FAULTY, fault] if fault else ["-m", "lislab"]
    for _ in range(20):
        done = subprocess.run([sys.executable, *program, *words, *taker], capture_output=True, env=ENV, check=False)
        if done.returncode == 0:
            break
    if not os.path.exists(path):
        return []
    with open(path, encoding="ascii") as file:
        return list(dict.fromkeys(tuple(int(word) for word in row.split()) for row in file))


def open_to_others(path):
    """The files of a folder that others than their owner can use."""
    found = []
    for folder, _, names in os.walk(path):
        found += [os.path.join(folder, name) for name in names]
    return [one for one in found if stat.S_IMODE(os.stat(one).st_mode) & 0o077]


class OutOf:
    """Out of a store, with three messages: the sample, the good part of the bad one, the sample again."""

    @classmethod
    def setUpClass(cls):
        super().setUpClass()
        cls.store, cls.state = cls.where(), ["--status", os.path.join(cls.folder.name, "state")]
        host = Host(cls.store, *cls.state, scale=1.0)
        to = ["--to", f"127.0.0.1:{host.port}"]
        cls.sent = [lislab("send", path, *to) for path in (SAMPLE, BAD, SAMPLE)]
        time.sleep(0.1)
        cls.shown = [lislab("status", "--store", cls.store, *cls.state, *words) for words in ([], ["--json"])]
        cls.status = host.stop()
        cls.lost = lislab("send", SAMPLE, *to, "--tries", "2")

    def test_sending(self):
        """`lislab send` to `lislab serve`, and what it says."""
        good, bad, _ = self.sent
        rows = [row.split(",")[0] for row in good.stdout.splitlines()]
        wanted = [f"message {number} done" for number in range(1, kit.bytes_of(SAMPLE).count(b"L|1|N\r") + 1)]
        self.same("each message is done", (good.returncode, rows), (0, wanted))
        self.same("what can't be read isn't sent", bad.returncode, 1)
        self.has("and it is said", bad.stderr, "record 3 can't be read: NO_PARENT")
        self.same("the host's status", self.status, 0)
        capture = lislab("send", os.path.join(ROOT, "samples", "session.capture"), "--to", "127.0.0.1:1")
        self.same("a capture isn't sent", (capture.returncode, capture.stdout), (1, ""))
        self.has("and it is said what it is", capture.stderr, "this is a capture, no file of records")
        self.same("no host", (self.lost.returncode, "failed" in self.lost.stdout), (1, True))

    def test_status(self):
        """`lislab status` of a host that runs, and of one that is stopped."""
        shown, data = self.shown
        self.same("the host runs", (shown.returncode, "the host has been running since" in shown.stdout), (0, True))
        line = json.loads(data.stdout)["lines"][0]
        self.same("counts", (line["line"], line["complete"], line["again"]), ("fire", 3, 1))
        shown = lislab("status", "--store", self.store, *self.state)
        self.same("the host is stopped", (shown.returncode, "isn't running" in shown.stdout), (1, True))

    def test_export(self):
        """Exports in each format, against the file that was sent and the table of the same file."""
        words = ["--format", "records", "--without-repeats", "-o", self.path("out.records")]
        self.same("the status", lislab("export", "--store", self.store, *words).returncode, 0)
        good = kit.bytes_of(SAMPLE) + good_part()
        self.same("records are those that were sent", kit.bytes_of(self.path("out.records")), good)
        rows = list(csv.reader(io.StringIO(self.export("--format", "csv"))))
        plain = list(csv.reader(io.StringIO(lislab("table", SAMPLE).stdout)))
        self.same("the heading", rows[0], ["number", "line", "received", "again_of", *plain[0], "fixed", "control"])
        self.same("the results", [row[4:] for row in rows[1 : len(plain)]], [[*row, "", ""] for row in plain[1:]])
        self.same("tsv has as many rows", len(self.export("--format", "tsv").splitlines()), len(rows))
        data = [json.loads(row) for row in self.export().splitlines()]
        self.same("messages as JSON", len(data), 3)
        value = data[0]["message"]["patients"][0]["orders"][0]["results"][0]["value"]
        self.same("a value in JSON", value, "5.4")
        self.same("repeats name the first", [one["again_of"] for one in data], [None, None, data[0]["key"]])

    def test_wanted(self):
        """Which messages an export has."""
        first = str(messages_of(self.store)[0].number)
        for words, wanted in (
            (["--since", "2999-01-01"], 0),
            (["--since", "2001-01-01"], 3),
            (["--after", first], 2),
            (["--line", "fire"], 3),
            (["--state", "incomplete"], 0),
            (["--state", "all"], 3),
            (["--without-repeats"], 2),
        ):
            self.same(f"export {' '.join(words[:2])}", len(self.export(*words).splitlines()), wanted)
        bad = lislab("export", "--store", self.store, "--since", "x")
        self.same("a time that is none", bad.returncode, 2)
        bad = lislab("export", "--store", self.store, "--line", "other")
        self.same("a line that isn't there", (bad.returncode, bad.stdout), (1, ""))
        self.has("those that there are", bad.stderr, "there is no line other, but fire\n")

    def export(self, *words):
        """What an export writes."""
        path = self.path("an export")
        status = cli.main(["export", "--store", self.store, "-o", path, *words])
        self.same(f"export {' '.join(words)}: the status", status, 0)
        return kit.bytes_of(path).decode()

    def test_delivery_to_a_command(self):
        """A command that fails each other time: in order, each at least once."""
        path, cursor = self.path("taken"), self.path("cursor")
        words = ["deliver", "--store", self.store, "--cursor", cursor]
        wanted = [(one.number, len(one.body)) for one in messages_of(self.store)]
        self.same("in order, each once at least", taken(words, path), wanted)
        done = lislab(*words, "--once", "--directory", path + ".d")
        self.has("nothing is left", done.stderr, "lislab: 0 messages delivered")
        shown = lislab("status", "--store", self.store, "--cursor", cursor).stdout
        self.has("the status has it", shown, "0 messages not delivered")

    def test_delivery_to_a_directory(self):
        """A delivery that is killed goes on where it was."""
        folder, cursor = self.path("directory"), self.path("cursor of a directory")
        words = ["deliver", "--store", self.store, "--cursor", cursor, "--directory", folder]
        shown = lislab("status", "--store", self.store, "--cursor", cursor).stdout
        self.has("the status before it", shown, "3 messages not delivered, the oldest of 2")
        going = subprocess.Popen([sys.executable, "-m", "lislab", *words], stderr=subprocess.DEVNULL, env=ENV)
        self.true("it begins", wait_for(lambda: os.path.exists(cursor)))
        second = lislab(*words, "--once")
        self.same("one at a time", (second.returncode, "another delivery" in second.stderr), (3, True))
        going.kill()
        going.wait()
        self.same("it goes on", lislab(*words, "--once").returncode, 0)
        names = sorted(name for name in os.listdir(folder) if not name.startswith("."))
        found = messages_of(self.store)
        self.same("a file for each", [int(name.split("-")[0]) for name in names], [one.number for one in found])
        bodies = [kit.bytes_of(os.path.join(folder, name)) for name in names]
        self.same("with its records", bodies, [kit.bytes_of(SAMPLE), good_part(), kit.bytes_of(SAMPLE)])

    def test_hasty_delivery(self):
        """A delivery that notes a message before it delivers it is noticed."""
        words = ["deliver", "--store", self.store, "--cursor", self.path("hasty cursor")]
        found = [number for number, _ in taken(words, self.path("hasty"), "hasty")]
        self.true("it is noticed", found != [one.number for one in messages_of(self.store)], str(found))


class OneHost:
    """A store in files has one host."""

    def test_one_host(self):
        """Another host is rejected as long as there is one."""
        host = Host(self.store)
        second = lislab("serve", "--store", self.store, "--listen", "0")
        said = second.returncode == 3 and "another host has this" in second.stderr
        self.true("the second is refused", said, second.stderr)
        host.kill()
        self.same("one that was killed holds nothing", Host(self.store).stop(), 0)


class OutOfSqlite(OutOf, OneHost, HostTest):
    """Out of an SQLite file."""

    @classmethod
    def where(cls):
        """The store."""
        return os.path.join(cls.folder.name, "out.db")


class OutOfSpool(OutOf, OneHost, HostTest):
    """Out of a spool."""

    @classmethod
    def where(cls):
        """The store."""
        return "spool:" + os.path.join(cls.folder.name, "out.spool")


class Names(HostTest):
    """Fields by the standard's names."""

    def test_names(self):
        """Each field that has a name is found by it."""
        for letter, names in NAMES.items():
            first, last = min(names), max(names)
            front = b"H|\\^&|" if letter == "H" else letter.encode() + b"|"
            text = front + b"|".join(b"%d" % number for number in range(first, last + 1))
            entry = Message([Row(letter, text, marks_of(b"|\\^&"), last - first + 1, None)]).entries[0]
            found = [getattr(entry, name) for name in names.values()]
            self.same(f"of {letter}", found, [str(number) for number in names])


class Files(HostTest):
    """Files of a store, and what it needs."""

    def test_modes(self):
        """What is kept can be read by its owner alone."""
        for fault in (None, "open"):
            folder = self.path(f"modes{fault}")
            os.mkdir(folder)
            host = Host(os.path.join(folder, "db"), "--capture", os.path.join(folder, "tape"), fault=fault)
            sending(host.port, "--made", "2").communicate()
            wait_for(lambda: os.path.exists(os.path.join(folder, "db.status")))
            found = open_to_others(folder)
            host.kill()
            if fault:
                self.true("a store that all can read is noticed", found)
            else:
                self.same("of the files next to a store", found, [])

    def test_modes_of_a_spool(self):
        """So can what a spool has, and what is delivered and exported."""
        host = Host("spool:" + self.path("modes.spool"))
        sending(host.port, "--made", "2").communicate()
        host.stop()
        words = ["--cursor", self.path("modes.cursor"), "--once", "--directory", self.path("modes.spool/delivered")]
        lislab("deliver", "--store", host.store, *words)
        lislab("export", "--store", host.store, "-o", self.path("modes.spool/exported"))
        names = [name for _, _, names in os.walk(self.path("modes.spool")) for name in names]
        self.true("there are files", len(names) >= 8, str(names))
        self.same("of a spool, of what is delivered and exported", open_to_others(self.path("modes.spool")), [])

    def test_restored(self):
        """A store that isn't the one of the cursor any more is noticed."""
        first, second, cursor = self.path("first.db"), self.path("second.db"), self.path("both.cursor")
        for store in (first, second):
            host = Host(store)
            sending(host.port, "--made", "2").communicate()
            host.stop()
        words = ["--cursor", cursor, "--once", "--directory", self.path("restored")]
        self.same("delivered", lislab("deliver", "--store", first, *words).returncode, 0)
        done = lislab("deliver", "--store", second, *words)
        self.true("another store is refused", done.returncode == 3 and "restored" in done.stderr, done.stderr)

    def test_no_library(self):
        """Without the library a host doesn't start, since it could answer nobody."""
        nowhere = ["--listen", "203.0.113.1:1", "--allow", "203.0.113.0/24"]  # so that one that starts ends too
        done = subprocess.run(
            [sys.executable, "-m", "lislab", "serve", "--store", self.path("none.db"), *nowhere],
            env={**ENV, "LISLINK_LIBRARY": self.path("none.so")},
            capture_output=True,
            text=True,
            check=False,
        )
        self.same("the status, and what is printed", (done.returncode, done.stdout), (3, ""))
        self.has("what is said", done.stderr, "none.so: cannot open shared object file")
