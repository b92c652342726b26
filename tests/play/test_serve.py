"""Plays against this repository's own host and analyzer: all of `samples/plays/results` and ten captures against
`lislab serve`, those of the computer against `lislab send`."""
import os
import subprocess
from concurrent.futures import ThreadPoolExecutor

from lislab.model.books import open_book
from lislink.order import Order
from tests import ROOT, kit
from tests.field.lab import lislab
from tests.host.hosts import Found, Host, HostTest, lislab as run_lislab, process
from tests.play.hosts import PATIENT, PLAYS, Restarts, SCALE, SHORT, UNASKED, play, scripts, short

#: The scale of the timers where they run out: 15 seconds are 7.5.
SILENT = 0.5
#: Logs of ten tools, whose captures are played.
LOGS = ("docklight.txt", "pcap.pcap", "socat-x.txt", "strace.txt", "portmon.txt", "tshark-x.txt", "words-page.htm",
        "serialport-monitor.txt", "moxa.txt", "ngrep.txt")


class Serve(HostTest):
    def host(self, store, scale=PATIENT, **how):
        """A host with this store, and the words that play against it."""
        host = Host(store, scale=scale, **how)
        return host, ["--to", f"127.0.0.1:{host.port}", "--store", host.store]

    def test_results(self):
        """All plays of results, on each kind of store; what the store then has."""
        for name, store in (("SQLite", self.path("results.db")), ("spool", "spool:" + self.path("results"))):
            host, words = self.host(store)
            ran = play(short(self), *words, scale=PATIENT)
            self.same(f"{name}: status", (ran.status, ran.lines[-1].split(" steps")[0]), (0, "plays 16 failed 0"))
            self.check(not any(row.startswith("difference") for row in ran.lines), f"{name}: differences", ran.text)
            found = Found(host.store)
            self.same(f"{name}: marked repeats", found.again(), 1)
            self.same(f"{name}: complete messages", len(found.whole), 19)
            self.same(f"{name}: stop", host.stop(), 0)

    def test_silence(self):
        """The play that is silent for 30 seconds."""
        _, words = self.host(self.path("silence.db"), scale=SILENT)
        ran = play(os.path.join(PLAYS, "results", "silent-analyzer.play"), *words, scale=SILENT)
        self.check(ran.status == 0, "the play", ran.text + ran.error)

    def test_faults(self):
        """A host that acknowledges a text before it has kept it is noticed."""
        host, words = self.host(self.path("early.db"), fault="early")
        ran = play(short(self), *words, scale=PATIENT)
        self.check(ran.status == 1 and 'kept:"L|1|N"*0' in ran.text, "a host that replies early", ran.text + ran.error)
        host.kill()

    def test_restart(self):
        """A host that is killed after the last record was acknowledged."""
        host, words = self.host(self.path("restart.db"))
        path = os.path.join(PLAYS, "results", "restarted-host.play")
        restarts = Restarts(self, host).command
        ran = play(path, *words, "--within", "20", "--restart", restarts, scale=PATIENT)
        self.check(ran.status == 0, "what a kill hasn't lost", ran.text + ran.error)

    def test_captures(self):
        """A capture of each of ten logs is a script as it is."""
        host, words = self.host(self.path("captures.db"))
        for name in LOGS:
            path = self.path(f"{name}.capture")
            made = lislab("capture", os.path.join(ROOT, "samples", "logs", name), "-o", path)
            self.same(f"{name}: capture", made.status, 0)
            ran = play(path, "--fast", *words, scale=PATIENT)
            self.check(ran.status == 0 and ran.text.endswith("differences 0\n"), name, ran.text + ran.error)
        self.same("complete messages", len(Found(host.store).whole), len(LOGS))

    def test_queries(self):
        """The plays of queries and of contention, against a host that has orders for S1, S2 and S3."""
        for path in scripts("queries"):
            name = os.path.basename(path)[:-5]
            store = self.path(f"{name}.db")
            book = open_book(store)
            book.add(Order(sample, (test,)) for sample, test in (("S1", "GLU"), ("S2", "K"), ("S3", "NA")))
            book.close()
            way = "send" if name in UNASKED else "ask"
            scale = SCALE if b"\nT" in kit.bytes_of(path) else PATIENT  # a timer is waited for
            host = Host(store, "--listen", f"127.0.0.1:0,name=both,orders={way}", scale=scale, listen=False)
            port = next(row.split()[1].rsplit(":", 1)[1] for row in host.rows if row.endswith(" both\n"))
            ran = play(path, "--to", f"127.0.0.1:{port}", "--fast", scale=scale)
            self.check(ran.status == 0 and ran.text.endswith(" differences 0\n"), name, ran.text + ran.error)
            host.kill()

    def test_computer(self):
        """The plays of the computer against `lislab send`."""
        with ThreadPoolExecutor(8) as pool:
            for found in pool.map(against_send, scripts("computer")):
                self.check(*found)


def against_send(path):
    """Whether a play of the computer against `lislab send` has no difference, its name, and what was printed."""
    words = ["-m", "lislab", "play", path, "--listen", "0", "--scale", str(3 * SHORT), "--within", "120"]
    one = process(words, stdout=subprocess.PIPE, stderr=subprocess.PIPE)
    port = one.stdout.readline().strip().rpartition(":")[2]
    records = os.path.join(ROOT, "samples", "panel.records")
    sent = run_lislab("send", "--to", f"127.0.0.1:{port}", "--scale", str(3 * SHORT), records)
    out, error = one.communicate(timeout=300)
    good = one.returncode == 0 and sent.returncode == 0 and "message 1 done" in sent.stdout
    return good, os.path.basename(path), out + error + sent.stdout + sent.stderr
