"""The samples that answer a query, in C, C++, Rust and Python: an analyzer asks for samples, in each form that a query
may have, and takes their orders; both ask for the line at once; and nobody takes the orders. The bytes are those of
LIS01-A2, 6.2 to 6.5. What they keep is tried in test_keeps.py."""
import os
import shutil
import subprocess
import sys
import time

from tests import ROOT, kit
from tests.ffi.c import C11, IN_C, SANITIZERS, python_over
from tests.ffi.test_samples import ACK, CPP, ENQ, EOT, PATIENCE, InC, InPython, ask, frame, kept, told

NAK = b"\x15"
RUST = os.path.join(ROOT, "bindings/rust")


def query(sample):
    """The texts of a message that asks for a sample."""
    return [b"H|\\^&\r", b"Q|1|^%s||ALL\r" % sample, b"L|1|N\r"]


#: Forms of a query: its session's texts, and the samples that it asks for.
FORMS = {"all records in one text": ([b"".join(query(b"S7"))], [b"S7"]),
         "other delimiters": ([b"H!\\~&\r", b"Q!1!~S7!!ALL\r", b"L!1!N\r"], [b"S7"]),
         "two queries": ([b"H|\\^&\r", b"Q|1|^S7\rQ|2|^S8\r", b"L|1|N\r"], [b"S7", b"S8"]),
         "a sample with an escape": (query(b"S&S&7"), [b"S&S&7"]),
         "a record after it that can't be read": ([*query(b"S7")[:2], b"X|1\r", b"L|1|N\r"], [b"S7"]),
         "a long sample": (query(b"7" * 100), [b"7" * 100])}


def orders(*samples):
    """The texts of the answer."""
    each = [text for number, sample in enumerate(samples, 1)
            for text in (b"P|%d\r" % number, b"O|1|%s||^^^GLU\r" % sample)]
    return [b"H|\\^&\r", *each, b"L|1|F\r"]


def asks(line, texts):
    """Whether a session of the analyzer is taken."""
    good = ask(line, ENQ, ACK)
    for number, text in enumerate(texts, 1):
        good = good and ask(line, frame(number, text), ACK)
    line.sendall(EOT)
    return good


def takes(line, texts):
    """Whether the sample, whose ENQ came, sends these texts, and ends its session."""
    good, reply = True, ACK
    for number, text in enumerate(texts, 1):
        good = good and ask(line, reply, frame(number, text))
    return good and ask(line, ACK, EOT)


def of_queries(test, name, start, path):
    """Two queries, one after the other, each answered in a session of its own."""
    sample = start(f"{path}-answered")
    for asked in (b"S7", b"S8"):
        test.check(asks(sample.line, query(asked)) and told(sample.line, 1) == ENQ, f"{name}: no ENQ after a query")
        test.check(takes(sample.line, orders(asked)), f"{name}: the orders for {asked.decode()}")
    test.check(ask(sample.line, ENQ, ACK) and ask(sample.line, EOT, b""), f"{name}: a session without a query")
    sample.end()
    test.check(kept(f"{path}-answered") == b"".join(query(b"S7") + query(b"S8")), f"{name}: what it keeps")


def of_forms(test, name, start, path):
    """Each form of a query is answered."""
    sample = start(f"{path}-forms")
    for form, (texts, samples) in FORMS.items():
        good = asks(sample.line, texts) and told(sample.line, 1) == ENQ and takes(sample.line, orders(*samples))
        test.check(good, f"{name}: a query as {form}")
    sample.end()


def of_contention(test, name, start, path):
    """Both ask at once: the computer waits, takes the analyzer's session, and asks again at once when that is over."""
    sample = start(f"{path}-contention")
    good = asks(sample.line, query(b"S7")) and told(sample.line, 1) == ENQ
    test.check(good and ask(sample.line, ENQ, b""), f"{name}: ENQ in reply to ENQ isn't answered")
    good = asks(sample.line, query(b"S8"))
    since = time.monotonic()
    test.check(good and told(sample.line, 1) == ENQ and time.monotonic() - since < 19, f"{name}: ENQ after contention")
    test.check(takes(sample.line, orders(b"S7")), f"{name}: the orders that contention put off")
    test.check(told(sample.line, 1) == ENQ and takes(sample.line, orders(b"S8")), f"{name}: those of the second query")
    sample.end()


def of_turns(test, name, start, path):
    """EOT in reply to a frame is no acknowledgement: the frame comes again, and the line is left to the analyzer."""
    sample = start(f"{path}-turn")
    good = asks(sample.line, query(b"S7")) and told(sample.line, 1) == ENQ
    first = frame(1, orders(b"S7")[0])
    good = good and ask(sample.line, ACK, first) and ask(sample.line, EOT, first)
    test.check(good and takes_rest(sample.line, orders(b"S7")), f"{name}: EOT in reply to a frame")
    test.check(asks(sample.line, query(b"S8")) and told(sample.line, 1) == ENQ and takes(sample.line, orders(b"S8")),
               f"{name}: after the turn that was asked for")
    sample.end()


def takes_rest(line, texts):
    """The same from the second text on: the first frame came, and is acknowledged here."""
    good = True
    for number, text in enumerate(texts[1:], 2):
        good = good and ask(line, ACK, frame(number, text))
    return good and ask(line, ACK, EOT)


def of_failures(test, name, start, path):
    """A frame that is rejected six times: the line is given up, and nothing more is sent."""
    sample, first = start(f"{path}-failed"), frame(1, orders(b"S7")[0])
    good = asks(sample.line, query(b"S7")) and told(sample.line, 1) == ENQ and ask(sample.line, ACK, first)
    for _ in range(5):
        good = good and ask(sample.line, NAK, first)
    good = good and ask(sample.line, NAK, EOT) and told(sample.line, 1) == b""
    test.check(gives_up(sample) and good, f"{name}: six tries")


def gives_up(sample):
    """Whether it ends by itself."""
    try:
        sample.process.wait(PATIENCE)
    except subprocess.TimeoutExpired:
        sample.process.kill()
        return False
    finally:
        sample.end()
    return True


class Queries(kit.Test):
    @classmethod
    def setUpClass(cls):
        cls.build = kit.built("build")
        cls.archive = os.path.join(cls.build, "liblislink.a")

    def tried(self, name, start):
        """All of it with one sample."""
        path = f"{kit.folder_of(self)}/kept"
        for part in (of_queries, of_forms, of_contention, of_turns, of_failures):
            part(self, name, start, path)

    def over_tcp(self, program):
        """How a program over the shared library is started."""
        return lambda to: InPython([*program, "0", to], **python_over(os.path.join(self.build, "liblislink.so.1")))

    def test_c(self):
        work = kit.folder_of(self)
        words = [*C11, *SANITIZERS, os.path.join(IN_C, "answer_query.c"), self.archive, "-o", f"{work}/answer_query"]
        if self.runs(words):
            self.tried("answer_query.c", lambda to: InC([f"{work}/answer_query", to]))

    def test_python(self):
        self.tried("answer_query.py", self.over_tcp([sys.executable, f"{ROOT}/examples/python/answer_query.py"]))

    def test_cpp(self):
        if not shutil.which("g++"):
            self.skipTest("examples/cpp/answer_query.cpp, since there is no g++")
        work = kit.folder_of(self)
        if self.runs([*CPP, f"{ROOT}/examples/cpp/answer_query.cpp", self.archive, "-o", f"{work}/answer_query"]):
            self.tried("answer_query.cpp", self.over_tcp([f"{work}/answer_query"]))

    def test_rust(self):
        if not shutil.which("cargo"):
            self.skipTest("answer_query.rs, since there is no cargo")
        work = kit.folder_of(self)
        env = {**os.environ, "CARGO_TARGET_DIR": f"{work}/rust", "LISLINK_LIB_DIR": self.build,
               "CARGO_NET_OFFLINE": "true", "RUSTFLAGS": "-D warnings"}
        words = ["cargo", "build", "--quiet", "--offline", "--locked", "--example", "answer_query"]
        self.runs(words, cwd=RUST, env=env)
        program, where = f"{work}/rust/debug/examples/answer_query", {**os.environ, "LD_LIBRARY_PATH": self.build}
        self.tried("answer_query.rs", lambda to: InPython([program, "0", to], env=where))
