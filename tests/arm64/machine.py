"""The build for ARM64 and how it is run on this machine."""
import os
import shlex
import shutil
import subprocess

from tests import ROOT, kit
from tests.ffi.c import WARNINGS, source
from tests.install.test_build import dist_of

GCC, QEMU, LIBC = "aarch64-linux-gnu-gcc", "qemu-aarch64", "/usr/aarch64-linux-gnu"
C11 = [GCC, "-std=c11", "-D_POSIX_C_SOURCE=200809L", *WARNINGS, "-O1", "-static"]


def is_here():
    """Whether Debian's compiler for ARM64 and qemu are here."""
    return all(map(shutil.which, (GCC, QEMU)))


def build(folder):
    """Builds the code for ARM64 by `make`; the path of a script by which qemu runs the program."""
    words = [f"CC={GCC}", f"BUILD={folder}", "OLD=1", f"DIST={dist_of(kit.built('build'))}"]
    env = {name: value for name, value in os.environ.items() if name not in ("MAKEFLAGS", "MAKELEVEL")}
    ran = subprocess.run(["make", "-s", "-C", ROOT, *words], capture_output=True, text=True, env=env)
    if ran.returncode:
        raise AssertionError(f"make for ARM64: {ran.stdout}{ran.stderr}")
    path = f"{folder}/run-lislink"
    with open(path, "w", encoding="utf-8") as file:
        file.write(f'#!/bin/sh\nexec {QEMU} -L {LIBC} {shlex.quote(folder)}/lislink "$@"\n')
    os.chmod(path, 0o755)
    return path


def compiled(test, folder, name, files):
    """Builds a program in C over the archive, without its own heap; the words that run it."""
    words = [*C11, *(source(file) for file in files), f"{folder}/liblis_c.a", "-o", f"{folder}/{name}"]
    return [QEMU, f"{folder}/{name}"] if test.runs(words) else None
