"""What is installed, and the package of Debian.

`make install` into a prefix of its own, of dist/ and without rt; programs in C and C++ built by pkg-config, also
--static, and by CMake, and Python, as a user would with what the end of `make install` says; `make uninstall`, which
leaves nothing.
`make deb`: lintian reports no error, and dpkg installs the package into a root of its own, where it works, and removes
it. What a machine has no tool for is skipped.
"""
import glob
import os
import re
import shutil
import sys

from tests import ROOT, kit
from tests.install.test_build import dist_of

PROGRAM = '#include <{}>\n#include <stdio.h>\nint main(void) {{ return puts(lis_version()) < 0; }}\n'
CMAKE = """cmake_minimum_required(VERSION 3.13)
project(try C CXX)
find_package(lislink {version} REQUIRED)
add_executable(shared try.c)
target_link_libraries(shared lislink::lislink)
add_executable(archive try.cpp)
target_compile_features(archive PRIVATE cxx_std_17)
target_link_libraries(archive lislink::static)
"""
LATER = """cmake_minimum_required(VERSION 3.13)
project(try)
find_package(lislink {major} QUIET)
if(lislink_FOUND)
  message(FATAL_ERROR "a later version is found")
endif()
"""
PYTHON = "import lislink; print(lislink.frame_bytes(1, True, b'').hex())"
DPKG = ["--force-not-root", "--force-depends", "--force-script-chrootless"]


def version():
    return kit.read("VERSION").strip()


def has(*tools):
    """Whether tools are here; what is missing is skipped."""
    missing = [it for it in tools if not shutil.which(it)]
    if missing:
        print(f"skipped: {missing[0]}: some checks: what is installed")
    return not missing


def printed(test, words, **how):
    """What a command prints, which is to end with 0."""
    ran = test.runs(words, **how)
    return ran.stdout if ran else ""


def files(folder):
    return sorted(os.path.relpath(os.path.join(at, name), folder) for at, _, names in os.walk(folder) for name in names)


def without_rt(work):
    """An environment in which rt, if it is called, fails."""
    os.makedirs(f"{work}/tools")
    with open(f"{work}/tools/rt", "w") as file:
        file.write("#!/bin/sh\nexit 3\n")
    os.chmod(f"{work}/tools/rt", 0o755)
    return kit.without_library(PATH=f"{work}/tools:{os.environ['PATH']}")


def advice(said):
    """The environment that the end of `make install` names."""
    return dict(re.findall(r"(\w+_?PATH)=(\S+)", said))


def by_pkg_config(test, work, how):
    """A program in C over the shared library, over the archive, and static as a whole; the library by its soname."""
    if not has("pkg-config", "gcc"):
        return
    with open(f"{work}/try.c", "w") as file:
        file.write(PROGRAM.format("lislink.h"))
    words = ["gcc", "-Wall", "-Werror", f"{work}/try.c", "-o", f"{work}/try"]
    flags = printed(test, ["pkg-config", "--cflags", "--libs", "lislink"], **how).split()
    test.runs([*words, *flags])
    test.runs([f"{work}/try"], f"{version()}\n", **how)
    needed = printed(test, ["readelf", "-d", f"{work}/try"])
    test.check("[liblislink.so.1]" in needed, f"a program needs another name: {needed}")
    flags = printed(test, ["pkg-config", "--static", "--cflags", "--libs", "lislink"], **how).split()
    test.runs([*words, "-static", *flags])
    test.runs([f"{work}/try"], f"{version()}\n")
    archive = printed(test, ["pkg-config", "--variable=archive", "lislink"], **how).strip()
    test.runs([*words, *printed(test, ["pkg-config", "--cflags", "lislink"], **how).split(), archive])
    test.runs([f"{work}/try"], f"{version()}\n")
    test.runs(["pkg-config", "--modversion", "lislink"], f"{version()}\n", **how)


def by_cmake(test, work, prefix, how):
    if not has("cmake", "g++"):
        return
    os.makedirs(f"{work}/cmake")
    for name, text in (("CMakeLists.txt", CMAKE.format(version=version())), ("try.c", PROGRAM.format("lislink.h")),
                       ("try.cpp", PROGRAM.format("lislink.hpp"))):
        with open(f"{work}/cmake/{name}", "w") as file:
            file.write(text)
    test.runs(["cmake", "-S", f"{work}/cmake", "-B", f"{work}/cmake/out", f"-DCMAKE_PREFIX_PATH={prefix}"], **how)
    test.runs(["cmake", "--build", f"{work}/cmake/out"], **how)
    for name in ("shared", "archive"):
        test.runs([f"{work}/cmake/out/{name}"], f"{version()}\n")
    with open(f"{work}/cmake/CMakeLists.txt", "w") as file:
        file.write(LATER.format(major=int(version().split(".")[0]) + 1))
    test.runs(["cmake", "-S", f"{work}/cmake", "-B", f"{work}/cmake/later", f"-DCMAKE_PREFIX_PATH={prefix}"], **how)


def in_its_root(test, package, work):
    """dpkg installs it, the program and the library work there, and dpkg removes it without a rest."""
    root = f"{work}/root"
    for folder in ("info", "updates", "triggers"):
        os.makedirs(f"{root}/var/lib/dpkg/{folder}")
    for name in ("status", "available"):
        open(f"{root}/var/lib/dpkg/{name}", "w").close()
    dpkg = ["dpkg", f"--root={root}", f"--log={work}/dpkg.log", *DPKG]
    test.runs([*dpkg, "--install", package])
    lib = f"{root}/usr/lib/x86_64-linux-gnu"
    with open(os.path.join(ROOT, "samples/session.link"), "rb") as link:
        test.runs([f"{root}/usr/bin/lislink", "show"], stdin=link)
    with open(f"{work}/deb.c", "w") as file:
        file.write(PROGRAM.format("lislink.h"))
    test.runs(["gcc", f"-I{root}/usr/include", f"{work}/deb.c", f"-L{lib}", "-llislink", "-o", f"{work}/deb"])
    test.runs([f"{work}/deb"], f"{version()}\n", env=kit.without_library(LD_LIBRARY_PATH=lib))
    test.runs([sys.executable, "-c", PYTHON], "02310333340d0a\n",
              env=kit.without_library(PYTHONPATH=f"{root}/usr/lib/python3/dist-packages", LD_LIBRARY_PATH=lib,
                                      PYTHONDONTWRITEBYTECODE="1"))
    for name in ("lib/systemd/system/lislab@.service", "lib/systemd/system/lislab-watch@.service",
                 "usr/lib/sysusers.d/lislab.conf", "usr/share/doc/lislink/examples/alerts.yml",
                 "usr/share/doc/lislink/examples/plays/results/noise.play", "usr/share/doc/lislink/operate.md",
                 "usr/share/man/man5/lislab.lines.5.gz"):
        test.check(os.path.exists(f"{root}/{name}"), f"the package has {name}")
    test.runs([*dpkg, "--verify", "lislink"], "")
    test.runs([*dpkg, "--purge", "lislink"])
    rest = [it for it in files(root) if not it.startswith("var/lib/dpkg/")]
    test.check(rest == [], f"left by dpkg: {rest}")


class Install(kit.Test):
    def setUp(self):
        self.work = kit.folder_of(self)
        # Also while dist/ is older than crates/.
        dist = dist_of(kit.built("build"))
        self.make = ["make", "-s", "-C", ROOT, "OLD=1", f"DIST={dist}", f"BUILD={self.work}/build"]

    def test_prefix(self):
        work, prefix = self.work, f"{self.work}/prefix"
        words = [*self.make, f"PREFIX={prefix}"]
        env = without_rt(work)
        said = printed(self, [*words, "install"], env=env)
        how = {"env": {**env, **advice(said)}}
        advised = advice(said).keys()
        self.check({"LD_LIBRARY_PATH", "PKG_CONFIG_PATH", "PYTHONPATH"} <= advised, f"the last words: {said}")
        by_pkg_config(self, work, how)
        by_cmake(self, work, prefix, how)
        self.runs([sys.executable, "-c", PYTHON], "02310333340d0a\n", **how)
        with open(os.path.join(ROOT, "samples/session.link"), "rb") as link:
            self.runs([f"{prefix}/bin/lislink", "show"], stdin=link)
        self.runs([f"{prefix}/bin/lislab", "--help"], **how)
        calls = set(re.findall(r"^(?:const char \*|\w+ )(lis_\w+)\(", kit.read("include/lislink.h"), re.M))
        pages = {name[:-2] for name in os.listdir(f"{prefix}/share/man/man3")}
        self.same("calls with a manual page", pages, calls | {"lislink"})
        with open(f"{prefix}/lib/another", "w"):
            pass
        self.runs([*words, "uninstall"], env=env)
        self.check(files(prefix) == ["lib/another"], f"left by make uninstall: {files(prefix)}")
        shutil.rmtree(prefix)
        self.runs([*words, "DESTDIR=" + f"{work}/stage", "install"], env=env)
        with open(f"{work}/stage{prefix}/lib/pkgconfig/lislink.pc") as file:
            self.check(f"prefix={prefix}\n" in file.read(), "the prefix of a staged installation")

    def test_package(self):
        work = self.work
        if not has("dpkg-deb", "dpkg", "strip", "objdump"):
            return
        self.runs([*self.make, "deb"], env=without_rt(f"{work}/deb-tools"))
        package = f"{work}/build/lislink_{version()}_amd64.deb"
        if not self.check(os.path.exists(package), f"{package} is not there"):
            return
        in_its_root(self, package, work)
        packages = [package]
        if has("aarch64-linux-gnu-gcc"):
            packages.append(f"{work}/build/aarch64-linux-gnu-gcc/lislink_{version()}_arm64.deb")
            self.for_arm64(packages[1])
        if has("lintian"):
            for it in packages:
                self.runs(["lintian", "--allow-root", "--fail-on", "error", it])

    def for_arm64(self, package):
        """The other package has the other processor's program and library, in its folder, and says so."""
        self.same("what it is for", printed(self, ["dpkg-deb", "--field", package, "Architecture"]), "arm64\n")
        root = f"{self.work}/arm64"
        self.runs(["dpkg-deb", "--extract", package, root])
        for path in ("usr/bin/lislink", "usr/lib/aarch64-linux-gnu/liblislink.so.1"):
            self.has(path, printed(self, ["readelf", "-h", f"{root}/{path}"]), "AArch64")
        self.same("libraries of the other processor", glob.glob(f"{root}/usr/lib/x86_64*"), [])
