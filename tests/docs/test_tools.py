"""What tools/ makes of the sources is up to date, and what it is made of is right; its scripts notice what is wrong."""
import contextlib
import glob
import io
import os
import re
import shutil
import socket
import subprocess
import sys
import tempfile
import time
import unittest.mock
from contextlib import redirect_stdout

from tests import kit, side_by_side

# What tools/trust must say of a wrong change: the file, its text, the wrong one, and a part of what is said.
WRONG = [
    ("docs/proof.md", "`laws::safe_of` of `lis_world`", "`laws::safe_of` of `lis_link`",
     "laws::safe_of, which lis_link has not"),
    ("docs/proof.md", "`failed`; `split`, `next_place`", "`failed`; `cut`, `next_place`",
     "cut, which is no public function"),
    ("docs/proof.md", "`read_sent`: `sent`", "`read_sent`: `empty`", "empty, which is no clause"),
    ("docs/proof.md", "always answers ENQ with ACK.\n", "always answers ENQ with ACK\n",
     "promises without a contract: - Two timers, or a restart"),
    ("docs/proof.md", "### `Steps`:", "### `LeadsTo`:", "LeadsTo, which no public contract cites"),
    ("crates/lis_engine/src/print.rt", "use Rattle.lis_engine.specs.Output.{IsPut, IsWorking};",
     "use Rattle.lis_engine.specs.Output.{IsPut, IsWorking};\nghost use Rattle.lis_run.specs.inside.Show.{heard_line};",
     "heard_line is cited by a public contract"),
    ("crates/lis_engine/src/print.rt", "    ghost text = { part_text };",
     "    ghost text = { λ part. heard_line part };", "heard_line is cited by a public contract"),
    ("crates/lis_bytes/src/list.rt", "        ensures { result ≡ pointwise T.eq self.now other.now }\n", "",
     "no public clause pins eq of PartialEq for List<T>"),
    ("docs/pinned.table", "lis_report | Print for Refused | text | `run_check`",
     "lis_report | Print for Refused | text | `run_checks`", "run_checks, which is no public function"),
    ("docs/pinned.table", "lis_port | Sink for Discard | taken, sent, failed", "lis_port | Sink for Discard | taken, sent",
     "no public clause pins failed of Sink for Discard"),
    ("crates/lis_message_table/specs/Put.antt", "use Rattle.lis_bytes.specs.Capped.{capped}",
     "use Rattle.lis_bytes.specs.Marks.{capped}", "capped is taken from lis_bytes.specs.Marks"),
]
# What tools/codes must say of a change: the file, its text, another one, and a part of what is said. Nothing is said of
# a change of what is not made.
CODES = [
    ("bindings/codes.table", "LIS_PHASE_BUSY = 2", "LIS_PHASE_BUSY = 5", "LIS_PHASE_BUSY is 5, and 2 in crates/lis_c"),
    ("bindings/codes.table", "LIS_NOTE_TIMED_OUT = 12 | ", "LIS_NOTE_LATE = 12 | ", "LIS_NOTE_LATE is not in crates"),
    ("bindings/codes.table", "| no room |", "| no more room |", "src/c/names.c is not what"),
    ("include/lislink.h", "LIS_ROLE_COMPUTER = 1 ", "LIS_ROLE_COMPUTER = 2 ", "include/lislink.h is not what"),
    ("python/src/lislink/codes.py", "    READY = 0", "    YES = 0", "python/src/lislink/codes.py is not what"),
    ("bindings/rust/lislink/src/codes.rs", "    Sum = LIS", "    Total = LIS", "lislink/src/codes.rs is not what"),
    ("bindings/rust/lislink/src/codes.rs", "//! The families of", "//! All families of", ""),
    ("bindings/codes.table", "# The families of", "# All families of", ""),
]
# A call in show.rt, and others in its place: how many functions more each is on the way.
WAY_CALL = "    scanner.take(byte);\n"
WAYS = [
    (WAY_CALL + "    crate::playing::count_of(&None);\n", 1),
    ("", -1),
    (WAY_CALL + "    scanner.take(byte);\n", 0),
    (WAY_CALL + "    // count_of(&None);\n", 0),
]
# What changes nothing that is promised.
HARMLESS = [
    ("docs/proof.md", "`lis_port`: `ok`, `err`", "`lis_port`: `err`, `ok`"),
    ("crates/lis_report/src/refused.rt", "    ghost text = { λ it. refused_line it.message it.fault };",
     "    ghost text = { λ one. refused_line one.message one.fault };"),
    ("docs/pinned.table", "| Sink for Discard | taken, sent, failed |", "| Sink for Discard | failed, sent, taken |"),
]


class Tools(kit.Test):
    def test_rules(self):
        self.counts("tools/rules")

    def test_trust(self):
        self.counts("tools/trust")

    def test_trust_sees_what_is_wrong(self):
        """A promise that names what its crate has not, and a ghost member that makes a definition public."""
        with tempfile.TemporaryDirectory() as folder:
            for it in ("tools", "docs", "crates", "tests/proofs"):
                shutil.copytree(os.path.join(kit.ROOT, it), os.path.join(folder, it),
                                ignore=shutil.ignore_patterns("out", "must-fail", "mutants", "harmless"))
            shutil.copy(os.path.join(kit.ROOT, "crates.txt"), folder)
            told = self.said_of(folder, [it[:3] for it in WRONG])
            for *_, new, said in WRONG:
                self.check(any(said in line for line in told), f"{new}: {told}")
            told = self.said_of(folder, HARMLESS)
            wrong = ("without a contract", "cites", "is cited", "pins", "is taken from")
            self.check(not any(word in line for line in told for word in wrong), told)

    def said_of(self, folder, changes, tool="tools/trust"):
        """What a tool says of a copy of the repository with some texts changed."""
        before = {}
        for file, old, new in changes:
            path = os.path.join(folder, file)
            with open(path, encoding="utf-8") as it:
                text = it.read()
            before.setdefault(path, text)
            self.check(text.count(old) == 1, f"{file} has {old!r} {text.count(old)} times")
            with open(path, "w", encoding="utf-8") as it:
                it.write(text.replace(old, new))
        ran = subprocess.run([sys.executable, tool], cwd=folder, capture_output=True, text=True)
        for path, text in before.items():
            with open(path, "w", encoding="utf-8") as it:
                it.write(text)
        return ran.stdout.splitlines()

    def test_api(self):
        self.counts("tools/api")

    def test_pages_of_the_crates(self):
        """Each link of the pages that `make docs` makes of the crates leads to a file; one to a file that is gone fails."""
        with tempfile.TemporaryDirectory() as folder:
            words = ["tools/docs", folder, "crates"]
            ran = subprocess.run([sys.executable, *words], cwd=kit.ROOT, capture_output=True, text=True)
            self.check(ran.returncode == 0 and not ran.stderr, "tools/docs crates", ran.stderr)
            for name in ("api", "rules", "reading"):
                with open(f"{folder}/crates/{name}.md", encoding="utf-8") as file:
                    links = set(re.findall(r"\]\(([^)#]+)\)", file.read()))
                gone = [it for it in links if not os.path.exists(os.path.join(f"{folder}/crates", it))]
                self.check(len(links) > 30 and not gone, f"links of {name}.md", gone[:5])

    def test_crates(self):
        self.counts("tools/crates")

    def test_crates_sees_what_is_wrong(self):
        """A picture without an arrow that crates.txt has."""
        with tempfile.TemporaryDirectory() as folder:
            shutil.copytree(os.path.join(kit.ROOT, "tools"), f"{folder}/tools")
            shutil.copytree(os.path.join(kit.ROOT, "docs/pictures"), f"{folder}/docs/pictures")
            wrong = kit.read("crates.txt").replace("lis_careful lis_careful_station lis_record", "lis_careful lis_record")
            with open(f"{folder}/crates.txt", "w", encoding="utf-8") as file:
                file.write(wrong)
            ran = subprocess.run([sys.executable, "tools/crates"], cwd=folder, capture_output=True, text=True)
        good = "lis_c -> lis_careful_station: one has it" in ran.stdout and ran.returncode == 1
        self.check(good, "a missing arrow", ran.stdout)

    def test_gate(self):
        """A line for each crate, what failed again at the end, and the seconds of the kit's processes by their words."""
        with tempfile.TemporaryDirectory() as folder:
            shutil.copytree(os.path.join(kit.ROOT, "tools"), f"{folder}/tools")
            for name, text in (("crates.txt", "lis_port:\nlis_text: lis_port\nlis_frame: lis_text\n"), ("busy", BUSY),
                               ("rt", GATE), ("end", "rt: lis_frame NOT PROVED\n1 passed, 2 failed\n")):
                with open(f"{folder}/{name}", "w", encoding="utf-8") as file:
                    file.write(text)
            os.chmod(f"{folder}/rt", 0o755)
            os.makedirs(f"{folder}/rt-edit-1")
            os.makedirs(f"{folder}/build")
            with open(f"{folder}/build/proofs.table", "w", encoding="utf-8") as file:
                file.write("# seconds\nlis_text 6000 0\nlis_frame 6000 0\n")
            env = {**os.environ, "PATH": f"{folder}:{os.environ['PATH']}"}
            ran = subprocess.run([f"{folder}/tools/gate", "build"], cwd=folder, env=env, capture_output=True, text=True)
            told = re.sub(r"after \d+ s|about \d+ min", "later", ran.stdout)
            self.same("what is printed", (told, ran.returncode), (TOLD, 3))
            with open(f"{folder}/build/proofs.log", encoding="utf-8") as file:
                self.has("all of it is in the log", file.read(), "impl lis_port::Sink: proved")
            ran = subprocess.run([sys.executable, "tools/crates"], cwd=folder, capture_output=True, text=True)
            with open(f"{folder}/build/proofs.table", encoding="utf-8") as file:
                rows = {name: list(map(int, rest)) for name, *rest in map(str.split, file) if name != "#"}
            proof, edits = rows["lis_port"]
            self.check(1 <= proof < edits, "the seconds of a proof and, twice as many, of its mutants", rows)
            self.same("a crate that was not looked at", rows["lis_text"], [6000, 0])
            said = [line.split(", ")[-1] for line in ran.stdout.splitlines()[1:3]]
            self.same("minutes of a crate and all above it", said, ["200 minutes", "100 minutes"])

    def test_codes(self):
        self.counts("tools/codes")

    def test_codes_sees_what_is_wrong(self):
        """A number, a name or words of a constant in one place only; other words in what is written by hand are fine."""
        with tempfile.TemporaryDirectory() as folder:
            for it in ("tools", "include", "bindings", "src/c", "python/src/lislink", "crates/lis_c/specs"):
                shutil.copytree(os.path.join(kit.ROOT, it), os.path.join(folder, it),
                                ignore=shutil.ignore_patterns("target", "__pycache__"))
            for *change, said in CODES:
                told = self.said_of(folder, [change], "tools/codes")
                good = any(said in line for line in told[:-1]) if said else told[-1].endswith(" 0 failed")
                self.check(good, f"{change[0]}: {change[2]}", "\n".join(told))

    def test_way_sees_what_is_wrong(self):
        """A new call on the way of a byte is a function more, and one that is gone is a function less; the same call
        twice changes nothing, nor does one in a comment."""
        with tempfile.TemporaryDirectory() as folder:
            for it in ("tools", "docs", "crates"):
                shutil.copytree(os.path.join(kit.ROOT, it), os.path.join(folder, it),
                                ignore=shutil.ignore_patterns("out", "must-fail", "mutants", "harmless", "proofs"))
            shutil.copy(os.path.join(kit.ROOT, "crates.txt"), folder)
            first, *others = self.said_of(folder, [], "tools/way")
            self.check(len(others) == 2, "a line for each command", [first, *others])
            count = int(first.split()[1])
            for new, more in WAYS:
                told = self.said_of(folder, [("crates/lis_run/src/show.rt", WAY_CALL, new)], "tools/way")
                self.same(new, told, [f"show    {count + more} functions", *others])

    def test_man(self):
        self.counts("tools/man")

    def test_version(self):
        self.counts("tools/version")


# A process that takes two seconds of a processor, as a proof, as two edits of a crate, and as something else.
BUSY = "import time\nwhile time.process_time() < 2:\n    pass\n"
BUSY_EDIT = "python3 ../busy check --crate-name lis_port"
BUSY_WORDS = ("python3 busy build --crate-name lis_port", f"(cd rt-edit-1; {BUSY_EDIT}; {BUSY_EDIT})",
              "python3 busy check lis_text")
# A kit whose `rt ci` proves one crate and tries an edit of it; another one is kept, and the third fails.
GATE = f"""#!/bin/sh
[ "$1" = ci ] || exit
printf '== lis_port\\nimpl lis_port::Sink: proved\\n'
{" & ".join(BUSY_WORDS)} & wait
printf 'rt: lis_port proved\\nrt: lis_text is kept: an earlier run proved it\\nrt: lis_text: its tests are proved\\n'
printf 'crates/lis_port/must-fail/one.edit: NOT REFUSED: the crate is still proved\\n'
printf 'rt: lis_text: its tests FAILED\\n== lis_frame\\nfn lis_frame::scan: an open goal\\n'
cat end
exit 3
"""
TOLD = """lis_port proved later; 2 left, later
lis_text is kept; 1 left, later
lis_text: its tests are proved later
lis_frame NOT PROVED later
crates/lis_port/must-fail/one.edit: NOT REFUSED: the crate is still proved
repeat: rt must-fail lis_port
impl lis_port::Sink: proved
rt: lis_port proved
rt: lis_text is kept: an earlier run proved it
rt: lis_text: its tests are proved
crates/lis_port/must-fail/one.edit: NOT REFUSED: the crate is still proved
rt: lis_text: its tests FAILED
repeat: (cd crates/lis_text && rt test && rt run)
fn lis_frame::scan: an open goal
rt: lis_frame NOT PROVED
repeat: (cd crates/lis_frame && rt check)
1 passed, 2 failed
"""
# A kit that proves in no time: its `rt ci` makes a program of the crates' names.
RT = """#!/bin/sh
[ "$1" = ci ] || { echo a kit; exit; }
echo 'rt: lis_port proved'
mkdir -p crates/lislink/out
ls crates > crates/lislink/out/lislink
"""


class Prove(kit.Test):
    """tools/prove, over a kit that only says that it proves."""

    def test_what_is_built_is_known(self):
        with tempfile.TemporaryDirectory() as folder:
            for it in ("tools", "crates"):
                out = shutil.ignore_patterns("out")
                shutil.copytree(os.path.join(kit.ROOT, it), os.path.join(folder, it), ignore=out)
            for it in ("crates.txt", "HANDLES"):
                shutil.copy(os.path.join(kit.ROOT, it), folder)
            os.mkdir(f"{folder}/bin")
            self.write(f"{folder}/bin/rt", RT)
            os.chmod(f"{folder}/bin/rt", 0o755)
            self.builds(folder, True, "the first time")
            self.builds(folder, False, "nothing has changed")
            self.write(f"{folder}/crates/lis_link/must-fail/another.edit", "file: src/lib.rt\n")
            self.builds(folder, False, "only a mutant is new")
            self.write(f"{folder}/crates/lis_c/src/lib.rt", "// a crate that the program doesn't use\n")
            self.builds(folder, False, "only another crate has changed")
            self.write(f"{folder}/crates/lis_text/src/lib.rt", "// a change\n")
            self.builds(folder, True, "a crate has changed")
            self.write(f"{folder}/build/lislink", "another program")
            self.builds(folder, True, "the program is another")
            self.write(f"{folder}/bin/rt", RT.replace("a kit", "another kit"))
            self.builds(folder, True, "the kit is another")

    @staticmethod
    def write(path, text):
        with open(path, "w", encoding="utf-8") as file:
            file.write(text)

    def builds(self, folder, wanted, why):
        """Whether a call of tools/prove proves and builds, or finds what it built before."""
        env = {**os.environ, "PATH": f"{folder}/bin:{os.environ['PATH']}"}
        ran = subprocess.run([sys.executable, "tools/prove", "lislink", "build/lislink"], cwd=folder, env=env,
                             capture_output=True, text=True)
        self.check(ran.returncode == 0 and ("1 of " in ran.stdout) == wanted, f"{why}: {ran.stdout}{ran.stderr}")


def folders_run(script):
    """The folders whose tests a script runs, as it names them."""
    found = re.findall(r"(?m)^.*tests/run (\w+(?: \w+)*)(?= |$)", kit.read(script))
    return [it for names in found for it in names.split()]


class Ports(kit.Test):
    def test_free_port(self):
        """It is below those that the system gives; where each of these is taken, or there is none, the system's."""
        with contextlib.suppress(OSError):  # another program's, perhaps
            self.addCleanup(socket.create_server(("127.0.0.1", 1024)).close)
        for given, least, most in (("32768\t60999\n", 16384, 32767), ("1025\t60999\n", 1025, 65535),
                                   ("1024\t65535\n", 1025, 65535), ("15\t65535\n", 1025, 65535)):
            with unittest.mock.patch.object(kit, "GIVEN", kit.file_of(self, "range", given)):
                port = kit.free_port()
            self.check(least <= port <= most, f"of {given}", str(port))


class Targets(kit.Test):
    def test_each_runs_once(self):
        """The tests of each folder are run by one of tests/all, tests/prove and `make roots`, and once there."""
        folders = {os.path.dirname(it) for it in glob.glob("*/test_*.py", root_dir=os.path.join(kit.ROOT, "tests"))}
        found = [it for script in ("tests/all", "tests/prove", "Makefile") for it in folders_run(script)]
        self.same("what is run", sorted(found), sorted(folders))

    def test_sums(self):
        """What a script of tests prints is added up; one that prints no last line is a failure."""
        with tempfile.TemporaryDirectory() as folder:
            for said, wanted in (
                    ("a: 2 passed, 0 failed", "2 passed, 0 failed"), ("a: 2 passed, 3 failed", "2 passed, 3 failed"),
                    ("arm64: 4 passed, 0 failed", "4 passed, 0 failed"), ("a: 2 passed", "0 passed, 1 failed"),
                    ("skipped: x: 3 checks: y\na: 1 passed, 0 failed", "left out, x: 3 checks (y)\n1 passed, 0 failed")):
                script = f"{folder}/said"
                with open(script, "w", encoding="utf-8") as file:
                    file.write(f"#!/bin/sh\ncat << 'END'\n{said}\nEND\n")
                os.chmod(script, 0o755)
                words = ["bash", "-uc", f". tests/counted; count {script} > /dev/null; ends"]
                ran = subprocess.run(words, cwd=kit.ROOT, capture_output=True, text=True)
                self.same(said, (ran.stdout, ran.returncode), (f"{wanted}\n", int(" 0 failed" not in wanted)))

    def test_side_by_side(self):
        """Files that run side by side: what each prints comes as a whole, and a file that ends without its last line is
        a failure. The longest of the last run begins."""
        ends = "echo 'a/%s: %s in 1 s'; echo 'a: 2 passed'"
        scripts = {"good": ends % ("good", "2 passed, 0 failed"), "died": "echo one; kill -9 $$",
                   "bad": "echo FAILED: a/bad.T: x;" + ends % ("bad", "1 passed, 1 failed")}
        begun = []

        def begin(name):
            begun.append(name)
            printed = tempfile.TemporaryFile("w+", encoding="utf-8")
            process = subprocess.Popen(["sh", "-c", scripts[name[2:]]], stdout=printed)
            return side_by_side.Running(name, process, printed, time.monotonic())

        build, said = kit.folder_of(self), io.StringIO()
        with open(f"{build}/times", "w", encoding="ascii") as file:
            file.write("a/bad 3.0 1.0\na/good 5.0 1.0\na/died 4.0 1.0\n")
        with (unittest.mock.patch.object(side_by_side, "begin", begin), redirect_stdout(said),
              unittest.mock.patch.dict(os.environ, TESTED_BUILD=build, JOBS="1")):
            found = side_by_side.run([("a", name) for name in scripts])
        self.same("passed and failed", found, (3, 2))
        self.same("the longest begins", begun, ["a/good", "a/died", "a/bad"])
        rows = said.getvalue().splitlines()
        self.same("what is printed", rows, [
            "a/good: 2 passed, 0 failed in 1 s; 2 left, about 7 s", "one",
            "FAILED: a/died ended with -9 before it said how many passed",
            "a/died: 0 passed, 1 failed; 1 left, about 3 s",
            "FAILED: a/bad.T: x", "a/bad: 1 passed, 1 failed in 1 s"])
        with open(f"{build}/times", encoding="ascii") as file:
            self.same("how long they took", sorted(row.split()[0] for row in file), ["a/bad", "a/died", "a/good"])

    def test_gate(self):
        """.ci/run adds up both targets; one that fails or prints no last line is a failure. Where dist/ is not what the
        proofs give, the tests are over what they give."""
        make = ('#!/bin/sh\necho "$*" >> ../calls\ncase $* in *prove*) echo "$PROVED"; exit "$STATUS" ;; esac\n'
                'echo "4 passed, 0 failed"\n')
        rows = (("3 passed, 0 failed", 0, "7 passed, 0 failed", "dist"),
                ("3 passed, 2 failed", 1, "7 passed, 2 failed", "build/dist"),
                ("3 passed, 0 failed", 2, "7 passed, 1 failed", "build/dist"),
                ("", 2, "4 passed, 1 failed", "build/dist"))
        with tempfile.TemporaryDirectory() as folder:
            for it in ("bin", "copy/.ci", "copy/build/dist"):
                os.makedirs(f"{folder}/{it}")
            shutil.copy(os.path.join(kit.ROOT, ".ci/run"), f"{folder}/copy/.ci/run")
            for path, text in ((f"{folder}/copy/build/dist/SUMS", ""), (f"{folder}/bin/make", make)):
                with open(path, "w", encoding="utf-8") as file:
                    file.write(text)
            os.chmod(f"{folder}/bin/make", 0o755)
            for proved, status, wanted, dist in rows:
                path = f"{folder}/bin:{os.environ['PATH']}"
                env = {**os.environ, "PATH": path, "PROVED": proved, "STATUS": str(status)}
                ran = subprocess.run([f"{folder}/copy/.ci/run"], capture_output=True, text=True, env=env)
                with open(f"{folder}/calls", encoding="utf-8") as file:
                    last = file.read().splitlines()[-1]
                found = (ran.stdout.splitlines()[-1], ran.returncode, last)
                due = (wanted, int(" 0 failed" not in wanted), f"-s test DIST={dist}")
                self.same(f"{proved!r} with {status}", found, due)
