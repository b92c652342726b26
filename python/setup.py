"""Builds the shared library of the proved code into the wheel, by a C compiler alone: CC and CFLAGS name another one.

The assembler and the plain C are those of the repository that this folder is in; an sdist has them in native/.
"""
import os
import shlex
import shutil
import subprocess
import tempfile
from pathlib import Path
from typing import List, Tuple

from setuptools import setup
from setuptools.command.build_py import build_py
from setuptools.command.sdist import sdist
from wheel.bdist_wheel import bdist_wheel

HERE = Path(__file__).resolve().parent
#: What the library is built of, by its paths in the repository.
NATIVE = ("include/lislink.h", "src/c/*.[ch]", "src/c/lislink.map", "dist/SUMS", "dist/*/*.s", "tools/code",
          "tools/made-of", "tools/needed")
LIBRARY = "liblislink.so"


def native() -> Path:
    """The folder in which the files of NATIVE are."""
    return HERE / "native" if (HERE / "native").is_dir() else HERE.parent


def compiler() -> List[str]:
    """The C compiler and its flags."""
    return [*shlex.split(os.environ.get("CC", "cc")), *shlex.split(os.environ.get("CFLAGS", "-O2"))]


def build_library(path: Path) -> None:
    """Builds the library of dist/ for the processor of the compiler; tools/code says what it is of."""
    with tempfile.TemporaryDirectory() as work:
        how = Path(work, "how")
        subprocess.run(["tools/code", "dist", how, *compiler()], cwd=native(), check=True)
        code = how.read_text(encoding="utf-8").split("\n")[0]
        plain = sorted(str(it) for it in native().glob("src/c/*.c"))
        words = ["-shared", "-fPIC", "-Iinclude", "-o", str(path), "-Wl,-soname,liblislink.so.1", "-Wl,-z,now", "-s",
                 "-Wl,--version-script=src/c/lislink.map", f"{code}/lis_c.s", *plain]
        subprocess.run([*compiler(), *words], cwd=native(), check=True)


class BuildWithLibrary(build_py):
    """The package's files, and the library next to them. An editable install takes the repository's build/."""

    def run(self) -> None:
        super().run()
        if not getattr(self, "editable_mode", False):
            build_library(Path(self.build_lib).resolve() / "lislink" / LIBRARY)


class PlatformWheel(bdist_wheel):
    """A wheel for any Python 3 on the compiler's platform: the library is called by ctypes."""

    def finalize_options(self) -> None:
        super().finalize_options()
        self.root_is_pure = False

    def get_tag(self) -> Tuple[str, str, str]:
        machine = subprocess.run([*compiler(), "-dumpmachine"], capture_output=True, text=True, check=True).stdout
        return "py3", "none", f"linux_{machine.split('-')[0]}"


class SourceWithNative(sdist):
    """The sdist, which alone builds the wheel."""

    def make_release_tree(self, base_dir: str, files: List[str]) -> None:
        super().make_release_tree(base_dir, files)
        for form in NATIVE:
            for path in sorted(native().glob(form)):
                to = Path(base_dir, "native", path.relative_to(native()))
                to.parent.mkdir(parents=True, exist_ok=True)
                shutil.copy(path, to)


# What is built goes to a folder of its own: setuptools would put what an earlier build left there into the wheel too.
with tempfile.TemporaryDirectory() as base:
    setup(
        cmdclass={"build_py": BuildWithLibrary, "bdist_wheel": PlatformWheel, "sdist": SourceWithNative},
        options={"build": {"build_base": base}, "egg_info": {"egg_base": base}},
    )
