"""Each thing that `make release` made, in a bare root in which README's tour is run; and a fresh clone in one, with
`make` and `make test`.

The packages and the wheel for ARM64 are in a root for ARM64 whose programs qemu runs, one at a time.
"""
import glob
import os
import re
import shutil
import subprocess
import time

from tests import ROOT, kit
from tests.docs import test_pages
from tests.install.test_build import HERE, dist_of
from tests.roots import root

SAMPLES = ("tour.socat", "panel.records")
#: README's commands are written for a checkout after `make`: what is installed is on the path.
INSTALLED = (("tools/lislab", "lislab"), ("build/lislink", "lislink"))
QEMU = "qemu-aarch64"


def tour():
    """The commands of README's tour, each with its line and with what it prints."""
    text = kit.read("README.md")
    begun = text.index("\n## Try it\n")
    part = text[begun:text.index("\n## ", begun + 1)]
    above = text[:begun].count("\n")
    return [(line + above, command, wanted) for _, lines, line in test_pages.blocks(part)
            for command, wanted in test_pages.commands(lines)]


def released(name):
    """A file of the release."""
    found = glob.glob(os.path.join(kit.place("build"), "release", name))
    if len(found) != 1:
        raise AssertionError(f"`make release` made {len(found)} files {name}")
    return found[0]


class Roots(kit.Test):
    """Tests in roots."""

    def setUp(self):
        lacking = root.lacks()
        if lacking:
            self.skipTest(f"{lacking}: some checks: what is released, in bare roots")

    def bare(self, kind):
        """A root of a kind, which has no kit and no checkout."""
        made = root.Root(self, kind)
        self.ran("no kit and no checkout", made, "! command -v rt && ! find / -xdev -name crates.txt | grep .")
        return made

    def ran(self, name, made, command, folder="/", path=root.PATH):
        """Whether a line of a shell ends with 0 in a root; what it prints."""
        ran = subprocess.run(made.words(command, folder, path), stdout=subprocess.PIPE, stderr=subprocess.STDOUT,
                             text=True, errors="replace", stdin=subprocess.DEVNULL)
        self.check(ran.returncode == 0, name, f"{command}: status {ran.returncode}: {ran.stdout[-1500:]}")
        return ran.stdout

    def tours(self, words, folder, others=(), leave=None):
        """README's tour by `words`, which give the words that run a command: how many commands were run."""
        port, groups, count = test_pages.free_port(), [], 0
        self.addCleanup(test_pages.end_all, groups)
        for line, command, wanted in tour():
            if leave and leave in command:
                continue
            for old, new in others:
                command = command.replace(old, new)
            command, count = test_pages.PORT.sub(port, command), count + 1
            got = test_pages.output_of(command, folder, dict(os.environ), groups, words)
            self.check(test_pages.fits(got, wanted), f"README.md:{line}: {command}", f"wanted {wanted}, printed {got}")
        test_pages.end_all(groups)
        return count

    def tours_in(self, made, folder="/tour", others=INSTALLED, path=root.PATH, leave=None):
        """The tour in a root, over samples alone."""
        for name in SAMPLES:
            if not os.path.exists(f"{made.path}{folder}/samples/{name}"):
                made.put(os.path.join(ROOT, "samples", name), f"{folder}/samples/{name}")
        return self.tours(lambda command: made.words(command, folder, path), "/", others, leave)


class Released(Roots):
    """What is released."""

    def test_sums(self):
        """Each file has its sum, and is named there."""
        folder = os.path.dirname(released("SHA256SUMS"))
        self.runs(["sha256sum", "--quiet", "--strict", "-c", "SHA256SUMS"], "", cwd=folder)
        named = re.findall(r"(?m)^\w+  (.*)$", kit.read(f"{folder}/SHA256SUMS"))
        self.same("the files", sorted([*named, "SHA256SUMS"]), sorted(os.listdir(folder)))

    def test_package(self):
        """The package of Debian, with what it depends on."""
        made = self.bare("bare")
        made.put(released("lislink_*_amd64.deb"), "/tmp/lislink.deb")
        self.ran("apt-get installs it", made, "apt-get -q -y --no-install-recommends install /tmp/lislink.deb")
        self.same("commands of the tour", self.tours_in(made), 7)
        self.ran("the library for C is there", made, "ldconfig -p | grep -q liblislink.so.1")
        self.ran("dpkg removes it", made, "dpkg --remove lislink && ! command -v lislab && ! command -v lislink")

    def test_wheel(self):
        """The wheels, by pip in an environment of its own, without a network. They have no program `lislink`."""
        made = self.bare("python")
        for wheel in (released("lislink-*x86_64.whl"), released("lislab-*.whl")):
            made.put(wheel, f"/tmp/{os.path.basename(wheel)}")
        self.ran("pip installs it", made, "python3 -m venv /venv && /venv/bin/pip install -q --no-index /tmp/*.whl")
        path = f"/venv/bin:{root.PATH}"
        self.same("commands of the tour", self.tours_in(made, path=path, leave="build/lislink"), 4)
        said = self.ran("a ladder", made, "lislab ladder session.capture", "/tour", path)
        self.has("its library", said, "differences 0")

    def test_archive(self):
        """The source archive: built by a C compiler, tried in its folder, installed, and tried without its folder."""
        made, archive = self.bare("compiler"), released("lislink-*.tar.gz")
        made.put(archive, "/tmp/source.tar.gz")
        name = os.path.basename(archive)[:-len(".tar.gz")]
        self.ran("unpacked", made, "tar -xzf /tmp/source.tar.gz")
        self.has("make says of what it is", self.ran("make", made, "make", f"/{name}"), HERE)
        self.same("commands of the tour", self.tours_in(made, f"/{name}", others=()), 7)
        self.ran("the references are there", made, f"ls /{name}/docs/reference/{{index,c/index,python/index}}.html "
                 f"/{name}/docs/reference/rust/lislink/index.html")
        self.ran("make install", made, "make install && ldconfig", f"/{name}")
        self.ran("without the archive", made, f"rm -r /{name}")
        self.same("commands of the tour", self.tours_in(made), 7)


class Arm64(Roots):
    """What is released for ARM64."""

    def setUp(self):
        super().setUp()
        if not shutil.which(QEMU):
            self.skipTest(f"{QEMU}: some checks: what is released, in bare roots")
        self.folder, self.path = kit.folder_of(self), root.Root(self, root.ARM64).path

    def program(self, name, *words):
        """A command on the path that qemu runs."""
        os.makedirs(f"{self.folder}/bin", exist_ok=True)
        path = f"{self.folder}/bin/{name}"
        with open(path, "w", encoding="utf-8") as file:
            file.write(f'#!/bin/sh\nexec {QEMU} -L {self.path} {" ".join(words)} "$@"\n')
        os.chmod(path, 0o755)

    def tours_by_qemu(self, packages, leave=None):
        """The tour by the commands above and the package in a folder."""
        python = glob.glob(f"{self.path}/usr/bin/python3.*[0-9]")[0]
        self.program("lislab", f"-E PYTHONPATH={packages} -E PYTHONDONTWRITEBYTECODE=1", python, "-m lislab")
        for name in SAMPLES:
            os.makedirs(f"{self.folder}/samples", exist_ok=True)
            shutil.copyfile(os.path.join(ROOT, "samples", name), f"{self.folder}/samples/{name}")
        env = ["env", "-u", "LISLINK_LIBRARY", f"PATH={self.folder}/bin:{root.PATH}"]
        words = lambda command: [*env, "bash", "-c", command]
        return self.tours(words, self.folder, INSTALLED, leave)

    def test_package(self):
        root.done("dpkg-deb", "--extract", released("lislink_*_arm64.deb"), self.path)
        self.program("lislink", f"{self.path}/usr/bin/lislink")
        self.same("commands of the tour", self.tours_by_qemu(f"{self.path}/usr/lib/python3/dist-packages"), 7)

    def test_wheel(self):
        shutil.unpack_archive(released("lislink-*aarch64.whl"), f"{self.folder}/wheel", "zip")
        shutil.unpack_archive(released("lislab-*.whl"), f"{self.folder}/lislab", "zip")
        packages = f"{self.folder}/wheel/lislink-{kit.read('VERSION').strip()}.data/purelib:{self.folder}/lislab"
        self.same("commands of the tour", self.tours_by_qemu(packages, "build/lislink"), 4)


class Clone(Roots):
    """A fresh clone, with the assembler that was built here."""

    def test_clone(self):
        made = self.bare("tests")
        root.done("git", "clone", "-q", "--no-hardlinks", ROOT, f"{made.path}/lislink")
        dist = f"{made.path}/lislink/dist"
        if not os.path.exists(f"{dist}/SUMS"):
            made.put(dist_of(kit.place("build")), "/lislink/dist")
        begun = time.monotonic()
        self.has("make says of what it is", self.ran("make", made, "make", "/lislink"), "dist/x86_64-linux: ")
        print(f"roots: make took {time.monotonic() - begun:.0f} s", flush=True)
        begun = time.monotonic()
        said = self.ran("make test", made, "make -s test", "/lislink")
        print(f"roots: make test took {time.monotonic() - begun:.0f} s", flush=True)
        print(said[-3000:], flush=True)
        passed, failed = map(int, re.findall(r"(?m)^(\d+) passed, (\d+) failed$", said)[-1])
        kit.COUNTED.passed += passed
        self.check(failed == 0 and passed > 10000, "make test passes", said[-2000:])
