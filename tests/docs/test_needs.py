"""What a machine lacks: the lines that say it, and whether tests/needs installs it."""
import glob
import os
import re
import subprocess
import tempfile

from tests import ROOT, kit

#: What README asks for, what belongs to Python or to any Debian, another name of what is installed; and cargo and
#: rustc, since those of Debian 12 are too old for Cargo.lock and for the programs of the benchmark.
ASKED = {"gcc", "g++", "pip", "rt", "dpkg-deb", "chromium-browser", "cargo", "rustc",
         "cargo-clippy", "mount"}
#: Tests that need a tool: in a call of `needs`, of install's `has`, or of `which`.
USES = re.compile(r'(?:self\.needs\(|\bif (?:not )?has\(|shutil\.which\()"([\w+-]+)"')


class Needs(kit.Test):
    def test_left_out(self):
        """A line for each tool, with the number of its checks."""
        lines = ["skipped: g++: 4 checks: a\n", "skipped: mypy: 1 checks: hints\n", "skipped: g++: 2 checks: b\n",
                 "skipped: lintian: some checks: c\n", "skipped: too much to do\n"]
        self.same("left out", list(kit.left_out(lines)), [
            "left out, g++: 6 checks (a, b)", "left out, mypy: 1 checks (hints)", "left out, lintian: some checks (c)",
            "left out, too much to do: some checks",
        ])
        self.same("nothing is left out", list(kit.left_out([])), [])

    def test_counts(self):
        """A test that makes another number of checks by a tool than it says fails; one without the tool is skipped."""
        class Trial(kit.Test):
            def right(self):
                self.needs("tool", True, 1, "a trial")
                self.check(True, "one")

            def wrong(self):
                self.needs("tool", True, 2, "a trial")
                self.check(True, "one")

            def missing(self):
                self.needs("tool", False, 2, "a trial")

        for name, failed, skipped in (("right", 0, 0), ("wrong", 1, 0), ("missing", 0, 1)):
            result = kit.unittest.TestResult()
            Trial(name).run(result)
            self.same(f"a trial that is {name}", (len(result.failures), len(result.skipped)), (failed, skipped))

    def test_needs(self):
        """tests/needs installs each tool whose lack leaves checks out."""
        listed = re.search(r"tools='(.*?)'", kit.read("tests/needs"), re.S)[1]
        installed = {line.split()[0] for line in listed.split("\n")}
        for path in glob.glob("tests/*/test_*.py", root_dir=ROOT):
            text = kit.read(path)
            for tool in set(USES.findall(text)) - {"tool"}:
                self.check(tool in installed | ASKED, f"{path}: tests/needs installs {tool}")

    def test_needed(self):
        """A make target names what it needs and the machine lacks, in one line, before it does anything."""
        good, shell = "#!/bin/sh\nexit 0\n", {"dirname": "/usr/bin/dirname", "head": "/usr/bin/head"}
        kits = {"rt": "#!/bin/sh\necho rattle-kit-1 logic 2\n", "python3": good, "gcc": good, "df": "#!/bin/sh\necho 9999999\n",
                "tail": "#!/bin/sh\nread size; echo $size\n"}
        rows = {
            "all there": ({}, 0, ""),
            "no kit": ({"rt": None}, 2, "no command rt on the path"),
            "another rt": ({"rt": "#!/bin/sh\necho 1.0\n"}, 2, "rt version says '1.0'"),
            "no gcc": ({"gcc": None}, 2, "the C compiler gcc is missing"),
            "no Python": ({"python3": None}, 2, "Python 3.9 or later is missing"),
            "an old Python": ({"python3": "#!/bin/sh\nexit 1\n"}, 2, "Python 3.9 or later is missing"),
            "a full disk": ({"df": "#!/bin/sh\necho 1024\n"}, 2, "this disk has 1 MB free"),
        }
        for name, (changed, status, said) in rows.items():
            with tempfile.TemporaryDirectory() as folder:
                for tool, text in {**kits, **changed}.items():
                    if text is not None:
                        with open(os.path.join(folder, tool), "w", encoding="ascii") as file:
                            file.write(text)
                        os.chmod(file.name, 0o755)
                for tool, place in shell.items():
                    os.symlink(place, os.path.join(folder, tool))
                words = ["/bin/bash", os.path.join(ROOT, "tools", "needed"), "python", "rt", "gcc", "room"]
                done = subprocess.run(words, env={"PATH": folder}, capture_output=True, text=True, check=False)
            self.same(f"{name}: status", done.returncode, status)
            good = len(done.stderr.splitlines()) == 1 and said in done.stderr if said else not done.stderr
            self.check(good, f"{name}: what is said", done.stderr)
