"""One scripted session over the library from C, C++ and Rust.

Each prints what session.txt has, and compares the rest itself: C99 and C++17 with gcc and, if it is there, clang, over
the archive with the sanitizers and over the shared library; lislink.hpp without exceptions; the crates of bindings/rust
with their tests, by cargo without a network. What a machine has no compiler for is skipped.
"""
import os
import shutil
import sys

from tests import ROOT, kit
from tests.ffi.c import HERE

RUST = os.path.join(ROOT, "bindings/rust")
WARNINGS = ["-Wall", "-Wextra", "-Werror", "-pedantic", f"-I{ROOT}/include"]
SANITIZERS = ["-g", "-O1", "-fsanitize=address,undefined", "-fno-sanitize-recover=all"]
LANGUAGES = {"C": (("gcc", "clang"), ["-std=c99"], "session.c"),
             "C++": (("g++", "clang++"), ["-std=c++17"], "session.cpp")}


class Session(kit.Test):
    @classmethod
    def setUpClass(cls):
        cls.build = kit.built("build")
        with open(os.path.join(HERE, "session.txt")) as file:
            cls.said = file.read()

    def test_c(self):
        self.compiled("C")

    def test_cpp(self):
        self.compiled("C++")

    def compiled(self, language):
        """The session by each compiler that is here."""
        compilers, standard, file = LANGUAGES[language]
        work, here = kit.folder_of(self), [it for it in compilers if shutil.which(it)]
        self.needs(compilers[0], here, 4 * max(len(here), 1), f"the session in {language}")
        for compiler in here:
            words = [compiler, *standard, *WARNINGS, os.path.join(HERE, file), "-o", f"{work}/session"]
            if self.runs([*words, *SANITIZERS, os.path.join(self.build, "liblislink.a")]):
                self.runs([f"{work}/session"], self.said)
            if self.runs([*words, "-O2", f"-L{self.build}", "-llislink", f"-Wl,-rpath,{self.build}"]):
                self.runs([f"{work}/session"], self.said)

    def test_status(self):
        """lislink.hpp without exceptions: a call answers its status."""
        self.needs("g++", shutil.which("g++"), 2, "lislink.hpp without exceptions")
        work = kit.folder_of(self)
        words = ["g++", "-std=c++17", "-fno-exceptions", *WARNINGS, os.path.join(HERE, "status.cpp"),
                 os.path.join(self.build, "liblislink.a"), "-o", f"{work}/status"]
        if self.runs(words):
            self.runs([f"{work}/status"], "")

    def test_rust_is_up_to_date(self):
        self.assertTrue(self.runs([sys.executable, os.path.join(RUST, "generate"), "--check"]))

    def test_rust(self):
        """The crates for Rust: their tests, and the session."""
        if not shutil.which("cargo"):
            self.skipTest("the crates of bindings/rust, since there is no cargo")
        work = kit.folder_of(self)
        how = {"cwd": RUST, "env": {**os.environ, "CARGO_TARGET_DIR": f"{work}/rust", "LISLINK_LIB_DIR": self.build,
                                    "CARGO_NET_OFFLINE": "true", "RUSTFLAGS": "-D warnings"}}
        self.runs(["cargo", "test", "--quiet", "--offline", "--locked"], **how)
        if shutil.which("cargo-clippy"):
            self.runs(["cargo", "clippy", "--quiet", "--offline", "--locked", "--lib", "--", "-D", "warnings"], **how)
        self.runs(["cargo", "package", "--quiet", "--offline", "--allow-dirty", "--workspace"], **how)
        self.runs(["cargo", "run", "--quiet", "--offline", "--locked", "--example", "session"], self.said, **how)
