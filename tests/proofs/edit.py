"""Edits of the code, as mutants and harmless rewrites: how they are read, listed and made in a copy of the crates.

An edit has the lines 'file: src/x.rt' and then pairs 'old: TEXT' and 'new: TEXT', each TEXT one line; each old text is
in its file exactly once. In must-fail/ it is a file NAME.edit, as the kit reads it; the others of a crate are in two
files of mutants/, mutants.txt and harmless.txt, each of them after a line 'edit: NAME'. Lines that begin with '#' say
more of it: '# call:' the public calls whose mistake a mutant is, '# unseen:' why no test can notice it, '# only:' the
functions that a rewrite must leave proved.
"""
import glob
import os
import re
import shutil

ROOT = os.path.dirname(os.path.dirname(os.path.dirname(os.path.abspath(__file__))))
# What a copy of the crates for a trial leaves out.
LEFT_OUT = ("out", "must-fail", "mutants")
PUBLIC = re.compile(r"^\s*pub (?:(?:const|unsafe|extern \"C\") )*fn (\w+)")
NAME = r"\w+(?:::\w+)*"
BLOCK = re.compile(r"^(?:unsafe )?(impl\b|pub trait )(.*)")


class Edit:
    def __init__(self, crate, kind, name, text):
        self.crate, self.kind, self.name, self.text = crate, kind, name, text
        self.folder = f"{ROOT}/crates/{crate}"
        self.pairs, self.said = [], {}
        file = old = ""
        for line in text.splitlines():
            if line.startswith("file: "):
                file = line[6:]
            elif line.startswith("old: "):
                old = line[5:]
            elif line.startswith("new:"):
                self.pairs.append((file, old, line[5:]))
            elif ": " in line:
                word, _, said = line.removeprefix("# ").partition(": ")
                self.said[word] = said

    def words(self, word):
        """What a line '# WORD: ..' names, separated by commas."""
        return [it.strip() for it in self.said.get(word, "").split(",") if it.strip()]

    def made_in(self, folder):
        """Makes the edit in a copy of its crate. What is wrong with it, if it can't be made."""
        for file, old, new in self.pairs:
            path = f"{folder}/{file}"
            if not os.path.isfile(path):
                return f"no file {file}"
            with open(path, encoding="utf-8") as it:
                text = it.read()
            if text.count(old) != 1:
                return f"its old text stands {text.count(old)} times in {file}: {old.strip()}"
            with open(path, "w", encoding="utf-8") as it:
                it.write(text.replace(old, new))
        return None if self.pairs else "it changes nothing"


def crates():
    return sorted(os.path.basename(it) for it in glob.glob(f"{ROOT}/crates/*"))


def read(path):
    with open(path, encoding="utf-8") as file:
        return file.read()


def edits(kinds, names=()):
    """The edits of these kinds (must-fail, mutants, harmless), of the crates that are named or of all."""
    for crate in names or crates():
        for kind in kinds:
            for path in sorted(glob.glob(f"{ROOT}/crates/{crate}/{kind}/*.edit")):
                yield Edit(crate, kind, os.path.basename(path).removesuffix(".edit"), read(path))
            for path in glob.glob(f"{ROOT}/crates/{crate}/mutants/{kind}.txt"):
                words = re.split(r"(?m)^edit: (.*)\n", read(path))[1:]
                yield from (Edit(crate, kind, *it) for it in zip(words[::2], words[1::2]))


def copy_crates(to, also=()):
    """Copies the crates, without what earlier runs made and without edits."""
    left_out = shutil.ignore_patterns(*(it for it in LEFT_OUT if it not in also))
    shutil.copytree(f"{ROOT}/crates", f"{to}/crates", ignore=left_out)
    for name in ("crates.txt", "HANDLES"):
        shutil.copy(f"{ROOT}/{name}", to)


def names_of(head):
    """The trait of an impl's head, if it has one, and the type; without paths and parameters."""
    depth, bare = 0, ""
    for place, letter in enumerate(re.sub(r"\bwhere\b.*", "", head)):
        depth += (letter == "<") - (letter == ">" and head[place - 1] != "-")
        bare += letter * (depth == 0 and letter != ">")
    trait, is_for, of = bare.partition(" for ")
    words = re.findall(NAME, of if is_for else trait)
    last = lambda it: it.split("::")[-1]
    return (last(re.findall(NAME, trait)[-1]) if is_for else None), (last(words[0]) if words else None)


class Functions:
    """The functions of a crate that others can call: `public`, as NAME or TYPE::NAME, those of its traits too, and of
    each method of a trait the names by which its implementations are called."""

    def __init__(self, crate):
        self.public, self.implemented = set(), {}
        for path in glob.glob(f"{ROOT}/crates/{crate}/src/**/*.rt", recursive=True):
            with open(path, encoding="utf-8") as file:
                self.read(file.read().splitlines())

    def read(self, lines):
        kind, trait, of = None, None, None
        for line in lines:
            if line and not line[0].isspace() and line[0] not in ")}":
                head = BLOCK.match(line)
                kind = head and ("impl" if head[1] == "impl" else "trait")
                trait, of = names_of(head[2]) if head else (None, None)
            function, method = PUBLIC.match(line), re.match(r"^    (?:unsafe )?fn (\w+)", line)
            if function and not line[0].isspace():
                self.public.add(function[1])
            elif function and kind == "impl" and of:
                self.public.add(f"{of}::{function[1]}")
            elif method and kind == "trait":
                self.public.add(f"{of}::{method[1]}")
            elif method and kind == "impl" and trait:
                self.implemented.setdefault(f"{trait}::{method[1]}", set()).add(f"{of}::{method[1]}")

    def known(self):
        """All names by which a mutant may name a call."""
        return self.public.union(*self.implemented.values())

    def unnamed(self, named):
        """The public functions that are named neither themselves nor, for a trait's method, by an implementation."""
        return sorted(it for it in self.public - named if not self.implemented.get(it, set()) & named)
