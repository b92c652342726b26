"""The code mappings that lines name: what a file of lines says of them, what a delivery makes by them, and what a
host says of codes that they lack."""
import contextlib
import glob
import io
import os
import random
import signal
import subprocess
import unittest.mock

from lislab.cli import main as cli
from lislab.model import codes
from lislab.outbound.tables import Tables
from lislab.model import lines, options
from lislab.host.intake import Held, Intake
from lislab.model.options import OptionError
from lislab.model.store import COMPLETE, Add, Begin, End
from lislab.model.stores import open_store
from lislab.host.unknown import Unknown
from lislink.message import Found, read_all
from tests.host.hosts import HostTest, Host, lislab, process, wait_for
from tests.host.test_quarantine import keep
from tests.host.test_codes import HEAD, random_body, results
from tests.host.test_intake import random_texts
from tests.host.test_lines import Client
from tests.host.test_mllp import message, stored

BODY = message("P|1|4711", "O|1|S7||^^^GLU\\^^^K", "R|1|^^^GLU|5.4|mmol/L", "R|2|^^^K|4.1|mmol/L")
#: What is wanted of a table that isn't there; the end of a row of `lislab watch`.
WANTED, END = "codes names the file of a test code mapping", "; 2 results with a code that its code mapping lacks"
TEXTS = [row + b"\r" for row in BODY.split(b"\r")[:-1]]


class LineCodes(HostTest):
    """Files of lines that name tables."""

    def written(self, name, text):
        """A file of this test."""
        path = self.path(name)
        os.makedirs(os.path.dirname(path), exist_ok=True)
        with open(f"{path}.new", "wb") as file:
            file.write(text if isinstance(text, bytes) else text.encode())
        os.rename(f"{path}.new", path)
        return path

    def test_faults(self):
        """The faults of a table are those of the file of lines, each once, with the table's file and row."""
        good, bad = self.written("sub/good.codes", HEAD + "A,B\n"), self.written("sub/bad.codes", HEAD + "A,\n,B\n")
        wrong = self.written("wrong.codes", b"analyzer,laboratory\nA,\xff\n")
        quote = self.written("quote.codes", 'analyzer,laboratory\nA,"' + "x" * 140000)
        a, b = (f"[{name}]\nlisten = {port}\ncodes = " for name, port in (("a", 1), ("b", 2)))
        file = self.path("faults.lines")
        for rows, places, faults in (
            (f"{a}sub/good.codes\n{b}{good}\n", ["a", "b"], []),
            (f"{a}sub/bad.codes\n{b}sub/bad.codes\n[c]\nlisten = x\n", [],
             [f"{bad}:2: the laboratory's code is missing", f"{bad}:3: the analyzer's code is missing",
              f"{file}:8: x: expected HOST:PORT"]),
            (f"{a}wrong.codes\n{b}sub/good.codes\n", ["b"], [f"{wrong}:2: a test code mapping is written in UTF-8"]),
            (f"{a}quote.codes\n", [], [f"{quote}:2: field larger than field limit (131072): a test code mapping is CSV"]),
            (f"{a}none.codes\n{b}none.codes\n", [],
             [f"{file}:3: {self.path('none.codes')}: No such file or directory: {WANTED}"]),
            (f"{a}sub\n", [],
             [f"{file}:3: {self.path('sub')}: Is a directory: {WANTED}"]),
            ("[a]\nserial = /dev/x:9600\ncodes = sub/good.codes\n[b]\nconnect = h:1\ncodes = sub/good.codes\n",
             ["a", "b"], []),
        ):
            found = lines.read_lines(self.written("faults.lines", rows), [])
            self.same(rows, ([one.name for one in found.places], found.faults), (places, faults))
            self.same(f"{rows}: tables", sorted(found.tables), places)
        done = lislab("lines", self.written("faults.lines", f"{a}sub/good.codes\n{b}sub/bad.codes\n"))
        shown = f"a: listen=127.0.0.1:1 frame=240 encoding=iso8859-1 codes={good}"
        self.same("the command", (done.returncode, done.stdout.splitlines()[0], done.stdout.splitlines()[-1]),
                  (1, shown, "lines 1 faults 2"))
        self.raises("the words of a line name none", OptionError, lambda: options.listen_of(f"0,codes={good}"))

    def test_applied(self):
        """A message goes out by its line's own table alone, and by that of --codes if its line has none."""
        file = self.written("applied.lines", "[a]\nlisten = 1\ncodes = a.codes\n[b]\nlisten = 10.0.5.2:2\n")
        self.written("a.codes", HEAD + "GLU,GA,mg/dL,18,,\n")
        others = self.written("others.codes", HEAD + "GLU,GO,,,,\nK,KO,,,,\n")
        marked = "C|1|L|lislab: unknown code K|G"
        own, plain = ["R|1|^^^GA|97.2|mg/dL", "R|2|^^^K|4.1|mmol/L", marked], results(BODY)
        other = ["R|1|^^^GO|5.4|mmol/L", "R|2|^^^KO|4.1|mmol/L"]
        for words, wanted in (
            ((None, file), {"a": own, "b": plain, "c": plain}),
            ((others, file), {"a": own, "b": other, "c": other}),
            ((others, None), {"a": other, "b": other}),
        ):
            tables = Tables(*words)
            for line, rows in wanted.items():
                found = tables.applied(stored(BODY, line=line)).one.body
                self.same(f"{words}: line {line}", results(found), rows)
        unread = stored(BODY, line="a", state="invalid", number=None)
        self.same("what isn't whole stays as it is", Tables(None, file).applied(unread).one, unread)
        store = self.path("applied.db")
        keep(store, [BODY], "a")
        words = ["--store", store, "--lines", file]
        more = {"export": ["--format", "records"],
                "deliver": ["--cursor", self.path("applied.cursor"), "--once", "--", "cat"]}
        for name in more:
            shown = lislab(name, *words, *more[name]).stdout.replace("\n", "\r").encode()
            self.same(f"{name} sends by it", results(shown), own)
        fault = f"{self.written('a.codes', HEAD + 'GLU,')}:2: "
        for name in more:
            done = lislab(name, *words, *more[name])
            self.same(f"{name} with a fault", (done.returncode, fault in done.stderr), (2, True))

    def test_read_again(self):
        """A delivery reads the tables again when a file changed. A fault then is said, and changes nothing."""
        rows, said = "[a]\nlisten = 1\ncodes = {}.codes\n", []
        file = self.written("again.lines", rows.format("one"))
        self.written("one.codes", HEAD + "GLU,G1\nK,K1\n")
        tables = Tables(None, file, said.append)
        taken, left = "the code mappings are read again", "the code mappings stay as they were"
        missing = f"{self.path('one.codes')}:2: the laboratory's code is missing"
        for step, (name, text, wanted, words) in enumerate((
            ("one.codes", HEAD + "GLU,G2\nK,K2\n", "G2", [taken]),
            ("one.codes", HEAD + "GLU,\n", "G2", [missing, left]),
            (None, None, "G2", []),
            ("again.lines", rows.format("two"), "G2", [
                f"{file}:3: {self.path('two.codes')}: No such file or directory: {WANTED}", left]),
            ("two.codes", HEAD + "GLU,G3\nK,K3\n", "G3", [taken]),
            ("one.codes", HEAD + "GLU,G4\nK,K4\n", "G3", []),
            ("again.lines", None, "G3", [f"[Errno 2] No such file or directory: '{file}'", left]),
            ("again.lines", "[b]\nlisten = 1\n", "GLU", [taken]),
        )):
            said.clear()
            if name and text is None:
                os.unlink(self.path(name))
            elif name:
                self.written(name, text)
            found = results(tables.applied(stored(BODY, line="a")).one.body)
            self.same(f"{step}: {name}", (found[0].split("|")[2][3:], said), (wanted, words))
        once = Tables(None, file)
        self.written("again.lines", rows.format("two"))
        found = results(once.applied(stored(BODY, line="a")).one.body)
        self.same("a command that ends reads them once", found, results(BODY))

    def test_a_delivery(self):
        """A delivery that runs sends by the table as it is now."""
        file = self.written("runs.lines", "[a]\nlisten = 1\ncodes = runs.codes\n")
        table = self.written("runs.codes", HEAD + "GLU,G1\nK,K\n")
        store, folder = self.path("runs.db"), self.path("out")
        keep(store, [BODY], "a")
        words = ["--store", store, "--cursor", self.path("runs.cursor"), "--lines", file, "--to", folder]
        one = process(["-m", "lislab", "deliver", *words], stderr=subprocess.DEVNULL)

        def names():
            """The files that are whole."""
            return sorted(glob.glob(os.path.join(folder, "0*.records")))

        self.true("the first", wait_for(lambda: len(names()) == 1))
        self.written(os.path.basename(table), HEAD + "GLU,G2\nK,K\n")
        more = open_store(store)
        more.start("h")
        more.commit([[Begin("k2", "a", "p", "latin-1", 1.0), Add("k2", 0, 1.0, BODY),
                      End("k2", "a", COMPLETE, "", "k2", len(BODY), 1.0)]])
        more.close()
        self.true("the second", wait_for(lambda: len(names()) == 2))
        one.kill()
        one.wait()
        found = []
        for name in names():
            with open(name, "rb") as out:
                found.append(results(out.read())[0])
        self.same("by its table", found, ["R|1|^^^G1|5.4|mmol/L", "R|1|^^^G2|5.4|mmol/L"])

    def test_said(self):
        """A host says which codes of a message the line's table lacks, and counts them; it reads the table again."""
        rows = "[a]\nlisten = 127.0.0.1:0\ncodes = said.codes\nfix = nul\n[b]\nlisten = 127.0.0.1:0\n"
        file = self.written("said.lines", rows)
        table = self.written("said.codes", HEAD + "GLU,GLUC,,,,\n")
        host = Host(self.path("said.db"), "--lines", file, scale=1.0, listen=False)
        self.ports = {row.split()[2]: int(row.split()[1].rsplit(":", 1)[1]) for row in host.rows[:-1]}
        lacks = " has codes that the line's code mapping lacks: "
        with self.sends("a", TEXTS), self.sends("b", TEXTS), self.sends("a", TEXTS[:-1]):
            self.true("a message", wait_for(lambda: f"{lacks}K 1\n" in host.says()), host.says())
        with self.sends("a", [TEXTS[0], b"P|1\0\0\r", *TEXTS[2:]]):
            self.true("one that is fixed", wait_for(lambda: host.says().count(f"{lacks}K 1\n") == 2), host.says())
        self.same("no other one", host.says().count(lacks), 2)
        self.shows(host, "a: codes that its code mapping lacks: K 2\n", END, 2)
        self.reload(host, table, HEAD + "GLU,\n", f"{table}:2: the laboratory's code is missing\n")
        self.says("it is left", host, "the lines file has faults")
        self.shows(host, "a: codes that its code mapping lacks: K 2\n", END, 2)
        again = "the lines are read again: 0 closed, 0 opened, 2 as they were"
        self.reload(host, table, HEAD + "K,K,,,,mg\nGLU,GLUC,,,,\n", f"{again}; 1 with another code mapping\n")
        self.shows(host, "a: codes that its code mapping lacks: K mmol/L 2\n", END, 2)
        self.reload(host, table, HEAD + "K,K,,,,\n", f"{again}; 1 with another code mapping\n", 2)
        self.shows(host, None, "", 2)
        with self.sends("a", TEXTS):
            self.true("the new table is in force", wait_for(lambda: f"{lacks}GLU 1\n" in host.says()), host.says())
        self.reload(host, table, HEAD + "K,K,,,,\n", f"{again}\n")
        self.same("the host's status", host.stop(), 0)

    @contextlib.contextmanager
    def sends(self, line, texts):
        """A session on a line, which is closed then."""
        with Client(self.ports[line]) as client:
            self.true(f"{texts} are acknowledged", client.whole(texts))
            yield

    def reload(self, host, table, text, said, times=1):
        """Has a host read its files again, of which the table is another one now."""
        self.written(os.path.basename(table), text)
        os.kill(host.process.pid, signal.SIGHUP)
        self.true(f"it says {said}", wait_for(lambda: host.says().count(said) >= times), host.says()[-500:])

    def shows(self, host, status, watch, count):
        """Whether status and watch have what the table lacks, and the metrics all results that had such a code."""
        def shown():
            return lislab("status", "--store", host.store).stdout
        wanted = (lambda: status in shown()) if status else (lambda: "its code mapping lacks" not in shown())
        self.true(f"the status has {status}", wait_for(wanted), shown())
        row = lislab("watch", "--store", host.store, "--once").stdout.splitlines()[0]
        self.true(f"the row ends with {watch}", row.endswith(watch) and ("lacks" in row) == bool(watch), row)
        from lislab.watch.client import Host as Looks
        from lislab.watch.metrics import metrics_of
        from lislab.model.unix import socket_of
        found = metrics_of(Looks(host.store, socket_of(f"{host.store}.status")).look(), {}, {})
        self.has("metrics", found, f'lislab_unknown_codes_total{{line="a"}} {count}\n')

    def test_as_delivered(self):
        """Over random messages, texts and tables a host names the codes that a delivery marks, and no others."""
        rng, named = random.Random(5), 0
        for turn in range(400):
            known = [one for one in ("A", "GLU", "5.4", "-", "neg", "mmol/L") if rng.random() < 0.4]
            rows = [f"{one},L{one},,,{rng.choice(('', 'fire'))},{rng.choice(('', 'mmol/L'))}\n" for one in known]
            read = codes.read_codes(self.written("random.codes", HEAD + "".join(rows))).codes
            table = codes.Codes(read)
            body, encoding = random_body(rng), rng.choice(("latin-1", "utf-8", "gbk"))
            unknown = Unknown("fire")
            unknown.take(table)
            intake = Intake("line", "peer", encoding, 1 << 20, lambda: 0.0, Held(1 << 20), unknown)
            ends = [one for text in random_texts(rng, body) for part in intake.take(text) for one in part
                    if isinstance(one, End)]
            found = [each for each in read_all(body, encoding) if isinstance(each, Found)]
            counts = [unknown.ended(one.key, one.state == COMPLETE) for one in ends]
            messages = [stored(body, line="fire", encoding=encoding)] if found else []
            wanted = codes.unknown_of(read, lambda line: "", iter(messages))
            count = sum(one[0] for one in counts)
            self.need(count == sum(wanted.values()), lambda: f"{turn}: {counts}, {wanted}: {body}")
            shorter = {name for name in unknown.names() if len(name) < 20 and "?" not in name}
            self.need(shorter <= set(wanted), lambda: f"{turn}: {unknown.names()}, {wanted}: {body}")
            named += bool(wanted)
        self.true("some lack codes", named > 50, str(named))

    def test_many(self):
        """A message with very many codes: a few are named, and not more is held than that many."""
        unknown = Unknown("a")
        unknown.take(codes.Codes([]))
        rows = [f"R|{at}|^^^C{at % 999:03}\\X0A\\{'y' * 99}|1|u" for at in range(5000)]
        body = message("P|1", "O|1|S7", *rows, header="H|~^\\")
        self.same("it can be read", len([one for one in read_all(body) if isinstance(one, Found)]), 1)
        for turn in range(3):
            unknown.look_at_all(f"k{turn}", body, "latin-1")
            count, names = unknown.ended(f"k{turn}", True)
            self.same(f"{turn}: how many", count, 5000)
            self.true(f"{turn}: a few are named", len(names) < 200 and names.endswith(", and 46 others"), names)
            self.true(f"{turn}: in one line", "C000?yyyyyyyyyyyyyyy.. " in names and names.isprintable(), names)
        self.same("so many are told apart", (len(unknown.names()), sum(unknown.names().values())), (51, 15000))
        unknown.look_at_all("k", body, "latin-1")
        self.same("one that isn't whole", unknown.ended("k", False), (0, ""))
        self.same("isn't counted", sum(unknown.names().values()), 15000)
        out = io.StringIO()
        with contextlib.redirect_stdout(out), unittest.mock.patch("sys.stderr", io.StringIO()):
            store, path = self.path("many.db"), self.written("many.codes", HEAD + "GLU,G\n")
            keep(store, [BODY], "a")
            status = [cli.main(["codes", "--store", store, "--line", line, path]) for line in ("a", "b")]
        self.same("of one line", (status, out.getvalue()),
                  ([1, 0], "unknown K 1\ncodes 1 unknown 1\ncodes 1 unknown 0\n"))
