"""The built program: what it prints, its line on standard error and its exit status."""
import os
import subprocess
import time

from tests import kit

USAGE = (2, "", "usage: lislink COMMAND\n")
LINES = "ENQ\nframe 1 end 6 487c5c5e260d\nframe 2 end 6 4c7c317c4e0d\nEOT\n"
REPLAYED = "text 9 17\ntext 11 6\ntext 17 6\ntexts 3 differences 0\n"
DIFFERING = "text 14 17\ntext 16 6\ntext 22 6\ndifference 23 15 06\ntexts 3 differences 1\n"
RECORDS = "H|\\^&|||Analyzer\rL|1|N\rH|\\^&\r"
PANEL = ("S7|^^^GLU|5.4|mmol/L|3.9 to 6.1|N|F\nS7|^^^NA|139|mmol/L|136 to 145|N|F\n"
         "S7|^^^K|5.6|mmol/L|3.5 to 5.1|H|F\nS8|^^^GLU|4.8|mmol/L|3.9 to 6.1|N|P\n")
CHECKED = ("message 1\n1 H 3\n2 P 3\n3 O 4\n4 R 8\n5 R 8\n6 R 8\n7 C 3\n8 P 3\n9 O 4\n10 R 8\n11 L 2\n"
           "messages 1 findings 0\n")
ESCAPES = "A&F&1|^^^NOTE|Smith &E& Sons|&X0d&&X0a&|&H&high&N&|a\\b^c|F\nA&F&1|^^^GLU|5.4||||\n"
FINDING = "message 1\n1 H 0\n2 P 1\n3 O 2\n4 R 8\n5 R 3\n6 L 2\nfinding 5 R 2\nmessages 1 findings 1\n"
NO_ORDER = "message 1\n1 H 0\n2 P 1\n3 O 2\n4 R 7\n5 L 2\nrefused 2 3 G3\nmessages 1 findings 0\n"
LINE_2 = "lislink: K1 line 2\n"

#: Runs by their words: (name, words, input, status, output, line on standard error). An input is bytes or the name of a
#: sample.
RUNS = (
    ("no word", "", b"", *USAGE),
    ("an unknown word", "frob", b"", *USAGE),
    ("a word too many", "show x", b"", *USAGE),
    ("a flag twice", "show --long --long", b"", *USAGE),
    ("a flag first", "--long show", b"", *USAGE),
    ("no input", "show", b"", 0, "", ""),
    ("a session", "show", "session.link", 0, LINES, ""),
    ("a session of longer frames", "show --long", "session.link", 0, LINES, ""),
    ("more lines than are buffered", "show", b"\x021A\x0375\r\n" * 2000, 0, "frame 1 end 1 41\n" * 2000, ""),
    ("a bad frame and a torn one", "show", b"\x02\n\x021A\x17", 0, "bad F2\n", ""),
    ("a replay", "replay", "two-sessions.capture", 0, REPLAYED, ""),
    ("a replay of longer frames", "replay --long", "two-sessions.capture", 0, REPLAYED, ""),
    ("a replay with a difference", "replay", "version-2.capture", 1, DIFFERING, ""),
    ("the texts of a capture", "texts", "two-sessions.capture", 0, RECORDS, ""),
    ("the texts of version 2", "texts --long", "version-2.capture", 0, RECORDS, ""),
    ("an upgrade", "upgrade", b"> 05\r\n< 06\n\n> 02310341", 0, "capture 2\n> 05\n< 06\n\n> 02310341\n", ""),
    ("an upgrade of nothing", "upgrade", b"", 0, "capture 2\n", ""),
    ("an upgrade of longer frames", "upgrade --long", b"", *USAGE),
    ("a malformed line", "replay", b"> 05\nhello\n< 06\n", 3, "", LINE_2),
    ("an upgrade up to such a line", "upgrade", b"> 05\nhello\n< 06\n", 3, "capture 2\n> 05\n", LINE_2),
    ("the results of a panel", "results", "panel.records", 0, PANEL, ""),
    ("a panel", "check", "panel.records", 0, CHECKED, ""),
    ("a query", "check", "query.records", 0, "message 1\n1 H 3\n2 Q 4\n3 L 2\nmessages 1 findings 0\n", ""),
    ("the results of a query", "results", "query.records", 0, "", ""),
    ("escapes", "results", "escapes.records", 0, ESCAPES, ""),
    ("a finding", "check", "escapes.records", 1, FINDING, ""),
    ("a result without an order", "check", "no-order.records", 1, NO_ORDER, ""),
    ("results before a refusal", "results", "no-order.records", 1, "S7|^^^GLU|5.4|mmol/L|||\n",
     "lislink: refused 2 3 G3\n"),
    ("an unfinished message", "check", "unfinished.records", 1, "refused 1 5 G5\nmessages 0 findings 0\n", ""),
    ("its results", "results", "unfinished.records", 1, "", "lislink: refused 1 5 G5\n"),
    ("no record", "check", b"", 0, "messages 0 findings 0\n", ""),
    ("a check of longer frames", "check --long", b"", *USAGE),
)
#: Runs over input that comes in two pieces, the first of so many bytes.
IN_PIECES = (("show", "session.link", 7, LINES), ("results", "panel.records", 150, PANEL))
#: Commands with a source that fails, a folder, and with a sink that fails, each over a sample.
FAILING_SOURCES = ("show", "replay", "results")
FAILING_SINKS = (("show", "session.link"), ("texts", "two-sessions.capture"), ("check", "panel.records"))


def sample(name):
    return kit.bytes_of(f"samples/{name}")


class Program(kit.Test):
    @classmethod
    def setUpClass(cls):
        cls.program = kit.built("lislink")

    def ran(self, words, data):
        """What a run over these bytes gave: status, output, line on standard error."""
        ran = subprocess.run([self.program, *words], input=data, capture_output=True, timeout=300)
        return ran.returncode, ran.stdout.decode("latin-1"), ran.stderr.decode("latin-1")

    def test_runs(self):
        for name, words, given, *wanted in RUNS:
            data = sample(given) if isinstance(given, str) else given
            self.same(name, self.ran(words.split(), data), tuple(wanted))

    def test_a_word_that_is_no_text(self):
        self.same("a byte over 127", self.ran(["show", b"\xff"], b""), (3, "", "lislink: K4\n"))

    def test_upgrade_is_upgraded_to_itself(self):
        _, upgraded, _ = self.ran(["upgrade"], sample("two-sessions.capture"))
        self.same("an upgrade of version 2", self.ran(["upgrade"], upgraded.encode()), (0, upgraded, ""))
        self.same("the texts of an upgrade", self.ran(["texts"], upgraded.encode()), (0, RECORDS, ""))

    def test_records_of_a_capture(self):
        _, records, _ = self.ran(["texts"], sample("version-2.capture"))
        wanted = "message 1\n1 H 3\n2 L 2\nrefused 2 2 G5\nmessages 1 findings 0\n"
        self.same("the records of a capture", self.ran(["check"], records.encode()), (1, wanted, ""))

    def test_input_in_pieces(self):
        for command, name, length, wanted in IN_PIECES:
            process = subprocess.Popen([self.program, command], stdin=subprocess.PIPE, stdout=subprocess.PIPE,
                                       stderr=subprocess.PIPE)
            process.stdin.write(sample(name)[:length])
            process.stdin.flush()
            time.sleep(0.2)
            printed, said = process.communicate(sample(name)[length:], timeout=300)
            self.same(f"{command} in pieces", (process.returncode, printed.decode(), said), (0, wanted, b""))

    def test_a_source_that_fails(self):
        for command in FAILING_SOURCES:
            source = os.open("/", os.O_RDONLY)
            ran = subprocess.run([self.program, command], stdin=source, capture_output=True, timeout=300)
            os.close(source)
            self.same(command, (ran.returncode, ran.stdout, ran.stderr), (3, b"", b"lislink: K2\n"))

    def test_a_sink_that_fails(self):
        for command, name in FAILING_SINKS:
            with open("/dev/full", "wb") as full:
                ran = subprocess.run([self.program, command], input=sample(name), stdout=full, stderr=subprocess.PIPE,
                                     timeout=300)
            self.same(command, (ran.returncode, ran.stderr), (3, b"lislink: K3\n"))

    def test_a_line_is_seen_while_the_input_is_open(self):
        process = subprocess.Popen([self.program, "show"], stdin=subprocess.PIPE, stdout=subprocess.PIPE,
                                   stderr=subprocess.PIPE)
        process.stdin.write(b"\x05")
        process.stdin.flush()
        os.set_blocking(process.stdout.fileno(), False)
        seen, until = b"", time.monotonic() + 60
        while not seen and time.monotonic() < until:
            time.sleep(0.02)
            seen = process.stdout.read() or b""
        self.same("a line of a live stream", (seen, process.poll()), (b"ENQ\n", None))
        os.set_blocking(process.stdout.fileno(), True)
        printed, said = process.communicate(timeout=300)
        self.same("the end of a live stream", (process.returncode, printed, said), (0, b"", b""))
