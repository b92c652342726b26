"""The wheels of the Python packages: `pip install ./python ./lab`, and from the sdist alone, by a C compiler and no kit.

It is installed in a folder of its own and found from anywhere; its tag is that of the compiler's platform. What is
older than crates/ isn't built. It asks no network: pip takes Debian's setuptools.
"""
import glob
import os
import shutil
import subprocess
import sys
import sysconfig
import venv
import zipfile

from tests import ROOT, kit
from tests.install.test_build import dist_of, says_so, write
from tests.install.test_install import files, version

PARTS = ("setuptools", "wheel", "pip")
#: What is needed next to python/ to build the library.
USED = ("crates.txt", "crates", "tools", "src", "include")


def builder():
    """A Python that has pip and what the package's backend needs; None if there is none."""
    for path in dict.fromkeys((sys.executable, "/usr/bin/python3")):
        words = [path, "-W", "ignore", "-c", f"import {', '.join(PARTS)}"]
        if shutil.which(path) and subprocess.run(words, capture_output=True).returncode == 0:
            return path
    return None


def environment(**more):
    """That of a user who has no kit on the path, no installed library, and no make above."""
    left_out = ("MAKEFLAGS", "MAKELEVEL", "OLD", "CC", "CFLAGS")
    return {name: value for name, value in kit.without_library(**more).items() if name not in left_out or name in more}


def pip_wheel(python, source, to, **more):
    """Builds a wheel; what pip printed, and the wheels that there are then."""
    words = [python, "-m", "pip", "wheel", "--quiet", "--no-index", "--no-build-isolation", "--no-deps", "-w", to]
    ran = subprocess.run([*words, source], capture_output=True, text=True, env=environment(**more))
    return ran.stdout + ran.stderr, glob.glob(f"{to}/*.whl")


def tag():
    """This platform's, as the compiler names it."""
    machine = subprocess.run(["cc", "-dumpmachine"], capture_output=True, text=True, check=True).stdout
    return f"py3-none-linux_{machine.split('-')[0]}"


class Wheel(kit.Test):
    def setUp(self):
        """A copy of the repository whose SUMS says that dist/ is of the crates there."""
        self.work = kit.folder_of(self)
        self.needs("pip", builder(), 13, "the wheels")
        self.copy = f"{self.work}/copy"
        os.mkdir(self.copy)
        left_out = shutil.ignore_patterns("out", "must-fail", "mutants", "harmless")
        for name in (*USED, "python"):
            path = os.path.join(ROOT, name)
            if os.path.isdir(path):
                shutil.copytree(path, f"{self.copy}/{name}", ignore=left_out)
            else:
                shutil.copy(path, f"{self.copy}/{name}")
        for name, path in (("lab", f"{ROOT}/lab"), ("dist", dist_of(kit.built("build")))):
            shutil.copytree(path, f"{self.copy}/{name}", ignore=shutil.ignore_patterns("__pycache__", ".mypy_cache"))
        says_so(self.copy)

    def sdist(self):
        """The sdist's path, in a folder of its own."""
        to = f"{self.work}/sdist"
        words = [builder(), "-W", "ignore", "-c", f"import setuptools.build_meta as it; it.build_sdist({to!r})"]
        subprocess.run(words, cwd=f"{self.copy}/python", check=True, capture_output=True, env=environment())
        return glob.glob(f"{to}/*.tar.gz")[0]

    def test_wheel(self):
        name = f"lislink-{version()}-{tag()}.whl"
        here = sorted(os.listdir(f"{self.copy}/python"))
        said, wheels = pip_wheel(builder(), f"{self.copy}/python", f"{self.work}/wheel")
        self.same("the wheel of the folder", [os.path.basename(it) for it in wheels], [name])
        self.same("what is left in the folder", sorted(os.listdir(f"{self.copy}/python")), here)
        there = files(f"{self.copy}/lab")
        said, lab = pip_wheel(builder(), f"{self.copy}/lab", f"{self.work}/lab")
        self.same("that of lislab", [os.path.basename(it) for it in lab], [f"lislab-{version()}-py3-none-any.whl"])
        self.same("what is left in its folder", files(f"{self.copy}/lab"), there)
        sdist = self.sdist()
        write(f"{self.copy}/crates/lis_text/src/lib.rt", "// a change\n", "a")
        said, none = pip_wheel(builder(), f"{self.copy}/python", f"{self.work}/old")
        self.check(none == [] and "is older than crates/ (lis_c lislink)" in said, "older than crates/", said)
        _, old = pip_wheel(builder(), f"{self.copy}/python", f"{self.work}/old", OLD="1")
        self.same("by OLD=1", len(old), 1)
        shutil.rmtree(self.copy)
        said, alone = pip_wheel(builder(), sdist, f"{self.work}/alone")
        if not self.check(len(alone) == 1, "the wheel of the sdist alone", said):
            return
        with zipfile.ZipFile(wheels[0]) as one, zipfile.ZipFile(alone[0]) as other:
            self.same("its files", {it: one.read(it) for it in one.namelist()},
                      {it: other.read(it) for it in other.namelist()})
        self.is_installed([alone[0], *lab])

    def is_installed(self, wheels):
        """The wheels in a folder of their own: the packages, the library, the command and its extras."""
        home = f"{self.work}/home"
        venv.create(home, with_pip=False, symlinks=True)
        scheme = "venv" if "venv" in sysconfig.get_scheme_names() else "posix_prefix"
        target = sysconfig.get_path("purelib", scheme, vars={"base": home, "platbase": home})
        words = [builder(), "-m", "pip", "install", "-q", "--no-index", "--no-deps", "--target", target, *wheels]
        self.runs(words, env=environment())
        how = {"env": environment(), "cwd": self.work}
        sample = os.path.join(ROOT, "samples", "session.capture")
        ran = self.runs([f"{home}/bin/python", "-m", "lislab", "ladder", sample], **how)
        self.has("the package finds its library", ran.stdout + ran.stderr if ran else "", "texts 2, differences 0")
        code = ("import lislink; from importlib.metadata import metadata\n"
                "print(lislink.__version__, metadata('lislab').get_all('Provides-Extra'))")
        self.runs([f"{home}/bin/python", "-c", code], f"{version()} ['hl7', 'postgres', 'serial']\n", **how)
        self.runs([f"{target}/bin/lislab", "--help"], env=environment(PYTHONPATH=target), cwd=self.work)
