"""What tools/prove and tools/dist share: the crates that one needs, a copy of them, and the kit's rt over that."""
import hashlib
import importlib.machinery
import importlib.util
import os
import re
import shutil
import subprocess
import sys
import time

ROOT = os.path.dirname(os.path.dirname(os.path.abspath(__file__)))
PROVED = re.compile(r"^rt: (\w+) (?:proved$|is kept: )")
LEFT_OUT = ("out", "must-fail", "mutants", "harmless")


def libraries():
    """The repository's crates, each with the libraries of the repository that it names; and the lines of crates.txt."""
    lines = {}
    with open(f"{ROOT}/crates.txt", encoding="utf-8") as file:
        for line in file:
            name, colon, below = line.partition(":")
            if colon and not line.startswith("#"):
                lines[name.split()[0]] = (line, below.split())
    return {name: [it for it in below if it in lines] for name, (_, below) in lines.items()}, lines


def needed_by(name, below):
    """The crate and all that are below it."""
    found, left = set(), [name]
    while left:
        crate = left.pop()
        if crate not in found:
            found.add(crate)
            left += below[crate]
    return found


def copy_crates(names, lines, to):
    """Copies crates to a folder, next to those that were copied before, and lists all of them in its crates.txt."""
    for name in names:
        shutil.copytree(f"{ROOT}/crates/{name}", f"{to}/crates/{name}", ignore=shutil.ignore_patterns(*LEFT_OUT))
    with open(f"{to}/crates.txt", "a", encoding="utf-8") as made:
        made.writelines(lines[name][0] for name in lines if name in names)
    shutil.copy(f"{ROOT}/HANDLES", to)


def sum_of(path):
    """The SHA-256 of a file."""
    with open(path, "rb") as file:
        return hashlib.sha256(file.read()).hexdigest()


def prove(folder, names, by):
    """Runs rt ci over the crates of a folder, and prints each of them as it is proved. Whether all are."""
    begun, done, log = time.monotonic(), [], []
    with subprocess.Popen(["rt", "ci"], cwd=folder, stdout=subprocess.PIPE, stderr=subprocess.STDOUT, text=True,
                          errors="replace", env={**os.environ, "PYTHONUNBUFFERED": "1"}) as running:
        for line in running.stdout:
            log.append(line)
            found = PROVED.match(line)
            if found and found[1] in names and found[1] not in done:
                done.append(found[1])
                print(f"{len(done)} of {len(names)} {found[1]} after {round(time.monotonic() - begun)} s", flush=True)
    if running.returncode:
        print("".join(log[-40:]), end="")
        print(f"{by}: not proved; the last lines of what rt ci printed are above", file=sys.stderr)
    return running.returncode == 0


def times(path):
    """The seconds of a table that tools/gate wrote: of each crate, for its proof and for its mutants."""
    if not os.path.exists(path):
        return {}
    with open(path, encoding="utf-8") as file:
        rows = [line.split() for line in file if not line.startswith("#")]
    return {name: [float(proof), float(edits)] for name, proof, edits in rows}


def kit():
    """The kit's command rt as a module; the script ends where this kit's rt can't do what it needs."""
    path = os.path.realpath(shutil.which("rt") or "")
    home = os.path.dirname(subprocess.run(["rt", "doc"], capture_output=True, text=True, check=True).stdout.strip())
    for it in (f"{home}/bin/rt", path):
        if os.path.isfile(it) and b"def must_fail(" in open(it, "rb").read():
            loader = importlib.machinery.SourceFileLoader("rt_of_the_kit", it)
            made = importlib.util.module_from_spec(importlib.util.spec_from_loader("rt_of_the_kit", loader))
            sys.dont_write_bytecode = True
            loader.exec_module(made)
            return made
    sys.exit("tools/dist: the kit's command rt isn't there, or works in another way")
