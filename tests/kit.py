"""What all tests share: checks that count one by one, what is tested, and runs of commands."""
import contextlib
import html.parser
import os
import random
import re
import socket
import subprocess
import tempfile
import unittest

from tests import ROOT

#: What is tested: what `make` builds, and what `rt ci` leaves of the crates, which tests/proofs asks alone. TESTED_NAME
#: in the environment names another place.
BUILT = {
    "build": "build",
    "lislink": "{build}/lislink",
    "archive": "{build}/liblis_c.a",
    "lislink_by_rattle": "crates/lislink/out/lislink.by-rattle",
    "vectors": "crates/vectors/out/vectors",
    "vectors_by_rattle": "crates/vectors/out/vectors.by-rattle",
    "record_tests": "crates/record_tests/out/record_tests_tests",
    "link_tests": "crates/link_tests/out/link_tests_tests",
}
#: Which ports the system gives to connections.
GIVEN = "/proc/sys/net/ipv4/ip_local_port_range"
#: The most characters that are printed of a failure.
SHOWN = 600
LAST = re.compile(r"^\w+: (\d+) passed, (\d+) failed$", re.M)


def place(name):
    """Where something is that is tested."""
    path = os.environ.get(f"TESTED_{name.upper()}") or BUILT[name]
    return os.path.join(ROOT, path.replace("{build}", os.environ.get("TESTED_BUILD", BUILT["build"])))


def built(name):
    """The same; what isn't there fails the test."""
    path = place(name)
    if not os.path.exists(path):
        raise AssertionError(f"{path} is not built")
    return path


def library():
    """The shared library, which the Python package is to load."""
    path = os.path.join(place("build"), "liblislink.so")
    os.environ["LISLINK_LIBRARY"] = path
    return path


def free_port():
    """A port that is free, and that the system gives to no connection, so that a server can also start on it again.
    Where there is none, one that the system gives."""
    with open(GIVEN, encoding="ascii") as file:
        first = int(file.read().split()[0])
    below = range(max(first // 2, 1024), first)
    for port in random.sample(below, min(len(below), 100)):
        with contextlib.suppress(OSError), socket.create_server(("127.0.0.1", port)):
            return port
    with socket.create_server(("127.0.0.1", 0)) as server:
        return server.getsockname()[1]


def read(path):
    """The text of a file of the repository."""
    with open(os.path.join(ROOT, path), encoding="utf-8") as file:
        return file.read()


def bytes_of(path):
    """The bytes of a file: of the repository, if the path doesn't begin at the root."""
    with open(os.path.join(ROOT, path), "rb") as file:
        return file.read()


def folder_of(test):
    """A folder that is removed after the test."""
    made = tempfile.TemporaryDirectory(prefix="lis-test-")
    test.addCleanup(made.cleanup)
    return made.name


def file_of(test, name, data):
    """A file with these bytes or this text, in a folder that is removed after the test."""
    path = os.path.join(folder_of(test), name)
    with open(path, "wb") as file:
        file.write(data if isinstance(data, bytes) else data.encode())
    return path


def without_library(**more):
    """The environment of a user whose library and package are installed."""
    left_out = ("LISLINK_LIBRARY", "PYTHONPATH")
    return {**{name: value for name, value in os.environ.items() if name not in left_out}, **more}


class Page(html.parser.HTMLParser):
    """A page of HTML: its tags, attributes, anchors, links and text, and whether its elements nest."""

    def __init__(self, text):
        super().__init__()
        self.tags, self.attributes, self.text, self.is_good = set(), set(), "", True
        self.open, self.ids, self.links = [], [], []
        self.feed(text)
        self.is_good &= not self.open

    def handle_starttag(self, tag, attrs):
        given = dict(attrs)
        self.tags.add(tag)
        self.attributes |= given.keys()
        self.ids += [given["id"]] if "id" in given else []
        self.links += [given["href"]] if "href" in given else []
        if tag not in ("meta", "link", "col", "br"):
            self.open.append(tag)

    def handle_endtag(self, tag):
        self.is_good &= bool(self.open) and self.open.pop() == tag

    def handle_data(self, data):
        self.text += data


class Test(unittest.TestCase):
    """A test whose checks count one by one: after one that failed the next ones are made too."""

    #: How many checks the test has made, and whether one failed.
    made, is_wrong = 0, False

    def needs(self, tool, is_here, checks, what):
        """The rest of the test needs a tool, and makes so many checks by it, which are left out where it isn't here."""
        if not is_here:
            self.skipTest(f"{tool}: {checks} checks: {what}")
        before = self.made
        self.addCleanup(lambda: self.is_wrong or self.assertEqual(self.made - before, checks, f"checks by {tool}"))

    def check(self, holds, what, why=""):
        """One check, with its name, or what makes the name if it fails."""
        if isinstance(holds, str):
            raise TypeError("what holds comes first, the name second")
        self.made, self.is_wrong = self.made + 1, self.is_wrong or not holds
        if holds:
            with self.subTest():
                return True
        with self.subTest(what() if callable(what) else what):
            self.fail(why)
        return False

    def same(self, name, found, wanted):
        """Whether what was found is what is wanted."""
        return self.check(found == wanted, name, f"{found!r}, wanted {wanted!r}")

    def has(self, name, text, part):
        """Whether a text has a part."""
        return self.check(part in text, name, f"{part!r} isn't in {text[-1500:]!r}")

    def raises(self, name, kind, call):
        """Whether a call raises an error of this kind."""
        try:
            call()
        except kind:
            return self.check(True, name)
        except Exception as error:  # the wrong one
            return self.check(False, name, f"{type(error).__name__}: {error}")
        return self.check(False, name, f"no {kind.__name__}")

    def need(self, holds, why):
        """A part of a check: if it fails, the check does, and `why` makes the reason."""
        if not holds:
            self.fail(why())

    def runs(self, words, said=None, seconds=1800, **how):
        """Runs a command, which is to end with 0 and to print what is said, a text or a pattern; None if it doesn't."""
        try:
            ran = subprocess.run(words, capture_output=True, text=True, timeout=seconds, **how)
        except (OSError, subprocess.TimeoutExpired) as error:
            self.check(False, " ".join(words), str(error))
            return None
        printed = said is None or (said == ran.stdout if isinstance(said, str) else said.fullmatch(ran.stdout))
        good = ran.returncode == 0 and printed
        self.check(good, " ".join(words), f"status {ran.returncode}\n{ran.stdout}{ran.stderr}")
        return ran if good else None

    def counts(self, *words):
        """Runs a script of the repository, whose last line is 'NAME: N passed, M failed', and counts its checks."""
        ran = subprocess.run(words, cwd=ROOT, capture_output=True, text=True, errors="replace")
        last = LAST.findall(ran.stdout)[-1:]
        passed, failed = map(int, last[0]) if last else (0, 1)
        COUNTED.passed += passed
        if failed or ran.returncode or not passed:
            COUNTED.failed += max(failed, 1) - 1
            self.fail(f"{' '.join(words)}\n{(ran.stdout + ran.stderr)[-2000:]}")


class Counted:
    """How many checks other scripts made for a test, besides the test's own."""

    passed = failed = 0


COUNTED = Counted()


class Result(unittest.TestResult):
    """Counts the checks: those of a test that has some, else the test itself. Prints each failure with its name."""

    def __init__(self):
        super().__init__()
        self.passed = self.failed = self.before = 0

    def startTest(self, test):
        super().startTest(test)
        self.before = self.total()

    def total(self):
        return self.passed + self.failed + COUNTED.passed + COUNTED.failed

    def add(self, test, error):
        if error is None:
            self.passed += 1
            return
        self.failed += 1
        kind, value, _ = error
        if issubclass(kind, AssertionError):
            why = str(value)
        else:
            why = self._exc_info_to_string(error, test)
            why = why if len(why) <= SHOWN else "... " + why[-SHOWN:]
        print(f"FAILED: {name_of(test)}: {why[:SHOWN]}", flush=True)

    def addSubTest(self, test, subtest, error):
        super().addSubTest(test, subtest, error)
        self.add(subtest, error)

    def addSuccess(self, test):
        super().addSuccess(test)
        if self.total() == self.before:
            self.add(test, None)

    def addFailure(self, test, error):
        super().addFailure(test, error)
        self.add(test, error)

    def addError(self, test, error):
        super().addError(test, error)
        self.add(test, error)

    def addSkip(self, test, reason):
        super().addSkip(test, reason)
        print(f"skipped: {reason}", flush=True)


def name_of(test):
    """A test's name: folder, file, test, and the row or the check in brackets."""
    return test.id().removeprefix("tests.").replace(".test_", "/", 1)


def left_out(lines):
    """What lines 'skipped: TOOL: N checks: WHAT' leave out, a line for each tool. Of a line without a number the checks
    aren't known."""
    tools = {}
    for line in lines:
        tool, count, what = re.fullmatch(r"skipped: (?:(.*?): (\d+|some) checks: )?(.*)\n?", line).groups()
        tools.setdefault(tool or what, []).append((count, what))
    for tool, rows in tools.items():
        numbers = [int(count) for count, _ in rows if count and count.isdigit()]
        told = " and ".join([str(sum(numbers))] * bool(numbers) + ["some"] * (len(numbers) < len(rows)))
        whats = ", ".join(dict.fromkeys(what for count, what in rows if count))
        yield f"left out, {tool}: {told} checks" + (f" ({whats})" if whats else "")
