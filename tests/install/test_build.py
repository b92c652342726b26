"""`make` builds all of dist/ by a C compiler alone, and says what it builds.

Over a copy of the repository whose SUMS says that dist/ is of the crates there: a changed crate, a damaged file,
another processor, other flags; and what tools/dist compares. No kit is asked.
"""
import importlib.machinery
import importlib.util
import io
import os
import re
import shutil
import subprocess
import sys
from contextlib import redirect_stdout

from tests import ROOT, kit

USED = ("Makefile", "VERSION", "crates.txt", "tools", "src", "include", "samples")
HERE = "of the proofs of crates/ as they are here"
#: A compiler for another processor, and one of 32 bits.
OTHER = "#!/bin/sh\ncase $* in *-dumpmachine*) echo riscv64-linux-gnu;; *) echo '#define __linux__ 1';; esac\n"


def dist_of(build):
    """The folder of dist/ that a build is of, as `make` has noted it."""
    if not os.path.exists(f"{build}/how"):
        return os.path.join(ROOT, "dist")
    with open(f"{build}/how", encoding="utf-8") as file:
        return os.path.join(ROOT, os.path.dirname(file.readline().rstrip("\n")))


def made_of(folder):
    """What tools/made-of prints of the crates there."""
    words = [f"{folder}/tools/made-of", "lis_c", "lislink"]
    return subprocess.run(words, capture_output=True, text=True, check=True).stdout


def says_so(folder):
    """Has SUMS of a copy say that dist/ is of the crates there."""
    others = re.sub(r"(?m)^# crates: .*\n", "", kit.read(f"{folder}/dist/SUMS"))
    write(f"{folder}/dist/SUMS", "".join(f"# crates: {line}\n" for line in made_of(folder).splitlines()) + others)


def write(path, text, mode="w"):
    with open(path, mode, encoding="utf-8") as file:
        file.write(text)


def tool(name):
    """A script of tools/ as a module."""
    sys.path.insert(0, os.path.join(ROOT, "tools"))
    loader = importlib.machinery.SourceFileLoader(f"tools_{name}", os.path.join(ROOT, "tools", name))
    made = importlib.util.module_from_spec(importlib.util.spec_from_loader(loader.name, loader))
    loader.exec_module(made)
    return made


class Build(kit.Test):
    def setUp(self):
        self.folder = kit.folder_of(self)
        for name in USED:
            path = os.path.join(ROOT, name)
            (shutil.copytree if os.path.isdir(path) else shutil.copy)(path, f"{self.folder}/{name}")
        for name in os.listdir(os.path.join(ROOT, "crates")):
            for part in ("src", "specs", "proofs"):
                if os.path.isdir(os.path.join(ROOT, "crates", name, part)):
                    shutil.copytree(os.path.join(ROOT, "crates", name, part), f"{self.folder}/crates/{name}/{part}")
        shutil.copytree(dist_of(kit.built("build")), f"{self.folder}/dist")
        says_so(self.folder)

    def make(self, *words, **more):
        """What make prints, and its status; there is no kit."""
        lacking = f"{self.folder}/lacking"
        os.makedirs(lacking, exist_ok=True)
        write(f"{lacking}/rt", "#!/bin/sh\necho THE KIT WAS ASKED\nexit 3\n")
        os.chmod(f"{lacking}/rt", 0o755)
        env = {name: value for name, value in os.environ.items() if name not in ("MAKEFLAGS", "MAKELEVEL", "OLD", "CI")}
        env.update(more, PATH=f"{lacking}:{os.environ['PATH']}")
        ran = subprocess.run(["make", *words], cwd=self.folder, capture_output=True, text=True, env=env)
        return ran.stdout + ran.stderr, ran.returncode

    def says(self, name, said, status, *words):
        """Whether make prints this and ends so."""
        text, ended = self.make(*words)
        self.check(said in text and ended == status and "THE KIT" not in text, name, f"status {ended}: {text[-1500:]}")
        return text

    def test_age(self):
        self.says("dist/ is of these crates", HERE, 0)
        shown = subprocess.run([f"{self.folder}/build/lislink", "show"], capture_output=True,
                               stdin=open(os.path.join(ROOT, "samples/session.link"), "rb"))
        self.check(shown.returncode == 0 and shown.stdout.startswith(b"ENQ\n"), "the program that was built")
        text = self.says("again", HERE, 0)
        self.check("-c -o" not in text, "nothing is built again", text)
        self.says("other flags", "-O1 -c -o", 0, "CFLAGS=-O1")
        os.makedirs(f"{self.folder}/crates/lis_text/must-fail")
        write(f"{self.folder}/crates/lis_text/must-fail/new.edit", "file: src/lib.rt\n")
        write(f"{self.folder}/crates/vectors/src/main.rt", "// a crate that neither is of\n", "a")
        self.says("a mutant, and a crate that neither is of", HERE, 0)
        self.says("what a demo shows", "ENQ\n", 0, "-s", "demo")

    def test_older(self):
        write(f"{self.folder}/crates/lis_commands/src/lib.rt", "// a change\n", "a")
        text = self.says("a crate of the program is changed", "is older than crates/ (lislink): `make prove`", 2)
        self.check(not os.path.exists(f"{self.folder}/build"), "nothing is built", text)
        write(f"{self.folder}/crates/lis_text/src/lib.rt", "// a change\n", "a")
        self.says("a crate of both is changed", "is older than crates/ (lis_c lislink): `make prove`", 2, "install")
        self.says("old code by name", "and built by OLD=1", 0, "OLD=1")

    def test_damaged(self):
        write(f"{self.folder}/dist/x86_64-linux/lis_c.s", "\n", "a")
        self.says("a byte of the assembler more", "a file of dist is not what dist/SUMS says", 2, "OLD=1")
        shutil.rmtree(f"{self.folder}/dist")
        self.says("there is no dist/", "there is no dist/SUMS: `make dist` makes it", 2)

    def test_other_machines(self):
        write(f"{self.folder}/other", OTHER)
        os.chmod(f"{self.folder}/other", 0o755)
        self.says("another processor", "there is no code for riscv64-linux-gnu in dist: it has x86_64", 2, "CC=./other")
        self.says("32 bits", "64 bits", 2, "CC=cc -m32")
        self.says("no compiler", "the C compiler nothing is missing", 2, "CC=nothing")
        self.says("a wrong flag", "the C compiler doesn't take these words", 2, "CFLAGS=-fno-such-flag")

    def test_sums_of_crates(self):
        """The sum is of names, texts and lines of crates.txt, and of nothing else."""
        before = made_of(self.folder)
        os.utime(f"{self.folder}/crates/lis_text/src/lib.rt", (1, 1))
        self.same("the time of a file", made_of(self.folder), before)
        os.rename(f"{self.folder}/crates/lis_c/src/out.rt", f"{self.folder}/crates/lis_c/src/into.rt")
        changed = [one != other for one, other in zip(made_of(self.folder).splitlines(), before.splitlines())]
        self.same("the name of a file of lis_c", changed, [True, False])
        lines = kit.read("crates.txt").replace("lislink: lis_commands", "lislink: std lis_commands")
        write(f"{self.folder}/crates.txt", lines)
        self.check(made_of(self.folder).split()[3] != before.split()[3], "a line of crates.txt")
        ran = subprocess.run([f"{self.folder}/tools/made-of", "lis"], capture_output=True, text=True)
        self.check(ran.returncode == 2 and "has no crate lis\n" in ran.stderr, "a crate that there isn't")


class Compared(kit.Test):
    def test_folders(self):
        """What tools/dist --check compares: the same files; one byte, one file more, one less; another kit's files."""
        dist, folder = tool("dist"), kit.folder_of(self)
        again = lambda: dist.put(f"{folder}/one", f"{folder}/two")

        def sums(kit, text):
            """SUMS of a kit on the one side, and of this kit and text on the other."""
            return lambda: [write(f"{folder}/{side}/SUMS", f"# kit: {it}\n{rest}\n" if it else f"{rest}\n")
                            for side, it, rest in (("one", "kit 1", "a"), ("two", kit, text))]

        for name, text in (("one/SUMS", "a"), ("one/x/a.s", "b\n")):
            os.makedirs(os.path.dirname(f"{folder}/{name}"), exist_ok=True)
            write(f"{folder}/{name}", text)
        again()
        for name, change, said, status in (
                ("the same", lambda: None, "dist: 2 passed, 0 failed\n", 0),
                ("a byte", lambda: write(f"{folder}/two/x/a.s", "c\n"), "FAILED: dist/x/a.s is not", 1),
                ("made as the other", again, "dist: 2 passed, 0 failed\n", 0),
                ("a file more", lambda: write(f"{folder}/two/b.s", ""), "FAILED: dist/b.s is not", 1),
                ("put away", again, "dist: 2 passed, 0 failed\n", 0),
                ("a file less", lambda: os.remove(f"{folder}/two/SUMS"), "FAILED: dist/SUMS is not", 1),
                ("of a kit", sums("kit 1", "a"), "dist: 2 passed, 0 failed\n", 0),
                ("of another kit", sums("kit 2", "a"), "this is kit 1: all is the same\ndist: 2 passed", 0),
                ("and a sum", sums("kit 2", "b"), "kit 1: not all is the same\nFAILED: dist/SUMS is not", 1),
                ("of a kit, and a sum", sums("kit 1", "b"), "FAILED: dist/SUMS is not", 1),
                ("of no kit", sums("", "a"), "FAILED: dist/SUMS is not", 1)):
            change()
            with redirect_stdout(io.StringIO()) as out:
                ended = dist.compare(f"{folder}/one", f"{folder}/two")
            self.check(said in out.getvalue() and ended == status, name, out.getvalue())

    def test_objects(self):
        """Whether two objects are the same code: other comments and the order of sections are fine; an instruction, a
        target and a byte of a table are not."""
        elf, folder = tool("elf.py"), kit.folder_of(self)
        text = ('.section .text.a,"ax",@progbits\na: call b@PLT\n ret\n.section .text.c,"ax",@progbits\nc: nop\n ret\n'
                '.section .rodata.t,"a",@progbits\nt: .quad a, 7\n')
        parts = re.split(r"(?=\.section)", text)[1:]
        others = {"a comment": (f"# x\n{text}", True), "another order": ("".join(reversed(parts)), True),
                  "an instruction": (text.replace("nop", "hlt"), False), "a target": (text.replace("b@", "d@"), False),
                  "a place": (text.replace("quad a,", "quad c,"), False), "a table": (text.replace("7", "8"), False)}
        found = {}
        for name, words in (("first", text), *((name, it[0]) for name, it in others.items())):
            write(f"{folder}/a.s", words)
            if self.runs(["gcc", "-c", f"{folder}/a.s", "-o", f"{folder}/a.o"]):
                found[name] = sorted(elf.sections(f"{folder}/a.o"))
        for name, (_, same) in others.items():
            self.same(name, found[name] == found["first"], same)
        self.raises("a file that is no object", ValueError, lambda: elf.sections(f"{folder}/a.s"))
