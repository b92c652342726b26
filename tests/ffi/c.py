"""What the tests of the library share: the header, the folders of the samples, and the words of the compilers."""
import glob
import os
import re
import shutil

from tests import ROOT

HEADER = os.path.join(ROOT, "include/lislink.h")
IN_C, IN_PYTHON, HERE = (os.path.join(ROOT, folder) for folder in ("examples/c", "examples/python", "tests/ffi"))
OURS = os.path.join(ROOT, "src/c")  # the library's files in plain C
WARNINGS = ["-Wall", "-Wextra", "-Werror", f"-I{ROOT}/include"]
C11 = ["gcc", "-std=c11", "-D_POSIX_C_SOURCE=200809L", *WARNINGS, "-g", "-O1"]
SANITIZERS = ["-fsanitize=address,undefined", "-fno-sanitize-recover=all"]
BARE = ["gcc", "-std=c11", *WARNINGS, "-Os", "-ffreestanding", "-fno-stack-protector", "-nostdlib", "-static",
        "-fno-asynchronous-unwind-tables", "-Wl,--gc-sections", "-DLIS_NO_MALLOC", f"{OURS}/heap.c", f"{OURS}/lent.c"]
RESULTS = "GLU 5.4 mmol/L\nNA 139 mmol/L\nK 5.6 mmol/L\nGLU 4.8 mmol/L\n"


def source(name):
    """A file in C by its name: of the library, or of the samples."""
    ours = os.path.join(OURS, name)
    return ours if os.path.exists(ours) else os.path.join(IN_C, name)


def families(text):
    """The header's families, each as its constants with their numbers."""
    found = re.findall(r"^LIS_ENUM\((\w+)\) \{(.*?)\} LIS_ENUM_END\(\1\);$", text, re.S | re.M)
    return {name: {word: int(number) for word, number in re.findall(r"(LIS_\w+) = (\d+)", words)}
            for name, words in found}


def compilers(test):
    """Whether both compilers are here; a missing one fails the test."""
    for compiler in ("gcc", "g++"):
        test.check(shutil.which(compiler) is not None, f"{compiler} is not here: install its package")
    return all(map(shutil.which, ("gcc", "g++")))


def python_over(library):
    """How a program in Python runs over the package and this library."""
    return {"env": {**os.environ, "LISLINK_LIBRARY": library,
                    "PYTHONPATH": f"{ROOT}/python/src:{ROOT}/lab/src"}}


def shared(test, archive, work):
    """The shared library of the archive and the files in plain C, compiled without a warning; None if it can't be."""
    library = f"{work}/liblislink.so"
    whole = ["-Wl,--whole-archive", archive, "-Wl,--no-whole-archive"]
    ours = sorted(glob.glob(f"{OURS}/*.c"))
    return library if test.runs(["gcc", "-shared", "-fPIC", *WARNINGS, *ours, *whole, "-o", library]) else None
