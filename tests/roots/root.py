"""Bare roots by debootstrap. Those that are made once are kept in roots/ of what was built."""
import glob
import os
import shutil
import subprocess
import tempfile

from tests import kit

#: The kinds of a root, and what each has of Debian's packages beyond the smallest system.
KINDS = {
    "bare": (),
    "python": ("python3", "python3-venv"),
    "compiler": ("make", "gcc", "libc6-dev", "python3"),
    "tests": ("make", "gcc", "g++", "libc6-dev", "python3", "git"),
}
#: One whose programs qemu runs, one at a time: its packages are unpacked alone.
ARM64 = "arm64"
MIRROR = "http://deb.debian.org/debian"
#: What is mounted goes when the last process of the command has ended.
WITHIN = ('mount -t proc proc "$0/proc" && mount --bind /dev/pts "$0/dev/pts" && mount -t tmpfs tmpfs "$0/dev/shm" && '
          'exec chroot "$0" /usr/bin/env -i HOME=/root LANG=C.UTF-8 DEBIAN_FRONTEND=noninteractive '
          'PYTHONDONTWRITEBYTECODE=1 PATH="$1" bash -c "cd \\"$2\\" && $3"')
PATH = "/usr/local/sbin:/usr/local/bin:/usr/sbin:/usr/bin:/sbin:/bin"


def lacks():
    """What a machine needs for roots and doesn't have; empty if it has all."""
    tools = [it for it in ("debootstrap", "unshare", "chroot") if not shutil.which(it, path=PATH)]
    return ", ".join([*tools, *["root"] * (os.getuid() != 0)])


class Root:
    """A root with its own files, which are removed with the test."""

    def __init__(self, test, kind):
        # Not in the folder for temporary files, which may be in memory.
        self.folder = tempfile.mkdtemp(prefix="root-", dir=os.path.dirname(kept(kind)))
        test.addCleanup(shutil.rmtree, self.folder, ignore_errors=True)
        self.path = f"{self.folder}/{kind}"
        subprocess.run(["cp", "-a", kept(kind), self.path], check=True)

    def put(self, source, target):
        """Copies a file or a folder into it."""
        os.makedirs(os.path.dirname(self.path + target), exist_ok=True)
        subprocess.run(["cp", "-r", source, self.path + target], check=True)

    def words(self, command, folder="/", path=PATH):
        """The words that run a line of a shell in it."""
        return within(self.path, command, folder, path)


def within(root, command, folder="/", path=PATH):
    """The words that run a line of a shell in a root."""
    return ["unshare", "--mount", "sh", "-c", WITHIN, root, path, folder, command]


def kept(kind):
    """A root of this kind, made if there is none yet. Nothing is run in it again: it is copied."""
    folder = os.path.join(kit.place("build"), "roots")
    path = f"{folder}/{kind}"
    if os.path.isdir(path):
        return path
    os.makedirs(folder, exist_ok=True)
    shutil.rmtree(f"{path}.part", ignore_errors=True)
    print(f"roots: {path} is made of Debian's packages", flush=True)
    if kind == ARM64:
        done("debootstrap", "--arch=arm64", "--foreign", "--variant=minbase", "--include=python3", "bookworm",
             f"{path}.part", MIRROR)
        for package in glob.glob(f"{path}.part/var/cache/apt/archives/*.deb"):
            done("dpkg-deb", "--extract", package, f"{path}.part")
    elif kind == "bare":
        done("debootstrap", "--variant=minbase", "bookworm", f"{path}.part", MIRROR)
        done(*within(f"{path}.part", "apt-get -q update"))
    else:
        subprocess.run(["cp", "-a", kept("bare"), f"{path}.part"], check=True)
        install = "apt-get -q -y --no-install-recommends install " + " ".join(KINDS[kind])
        done(*within(f"{path}.part", f"{install} && apt-get clean"))
    os.rename(f"{path}.part", path)
    return path


def done(*words):
    """Runs a command, which is to end with 0."""
    ran = subprocess.run(words, stdout=subprocess.PIPE, stderr=subprocess.STDOUT, text=True, errors="replace")
    if ran.returncode:
        raise AssertionError(f"{words}: status {ran.returncode}: {ran.stdout[-1500:]}")
