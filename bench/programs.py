"""The programs that are measured: lislink, the calls of the crates (crates/vectors), and an independent program, the
peer."""
import hashlib
import os
import subprocess

HERE = os.path.dirname(os.path.abspath(__file__))
ROOT = os.path.dirname(HERE)
# With the instructions that the kit's compiler may use, so that both programs have the same.
RUSTC = ["rustc", "--edition", "2024", "-O", "-C", "codegen-units=1", "-C", "panic=abort", "-C",
         "target-cpu=x86-64-v2"]


def proved(name):
    """A program of the repository, proved and built by the kit."""
    program = os.path.join(ROOT, "build", "proved", name)
    subprocess.run([os.path.join(ROOT, "tools/prove"), name, program], check=True)
    return program


def lislink():
    """The program, as the kit builds it: the same code as that of dist/ but for instructions that do nothing."""
    return proved("lislink")


def vectors():
    """The program that makes the calls of the crates."""
    return proved("vectors")


def peer(work):
    """The independent program, compiled."""
    program = os.path.join(work, "peer")
    subprocess.run([*RUSTC, "-o", program, os.path.join(HERE, "peer/main.rs")], check=True)
    return program


def printed_by(*words):
    """The first line that a command prints; nothing if it can't be run."""
    try:
        run = subprocess.run(words, cwd=ROOT, stdout=subprocess.PIPE, stderr=subprocess.DEVNULL, text=True)
    except OSError:
        return ""
    return run.stdout.partition("\n")[0]


def sum_of(program):
    """The first digits of a program's SHA-256."""
    with open(program, "rb") as file:
        return hashlib.sha256(file.read()).hexdigest()[:12]


def commit():
    """The commit that was measured, and whether files of crates differ from it."""
    changed = printed_by("git", "status", "--porcelain", "crates", "crates.txt")
    return printed_by("git", "rev-parse", "--short=8", "HEAD") + (" with changes" if changed else "")
