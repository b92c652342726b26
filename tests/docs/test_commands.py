"""The list of commands at the head of docs/lislink.md is the one that drives the others: each of its commands is in
the program's words and their definition, in the model, in rows, in the tests and in the benchmark, and none is there
that it lacks. `tools/man` makes the synopsis of it."""
import glob
import re

import inputs
import model
import suite
from tests import ROOT, kit
from tests.cli.test_program import RUNS

#: The words of the program and their definition.
WORDS = (("crates/*/specs/Words.antt", r'codes "(\w+)"'), ("crates/*/src/words.rt", r'word == "(\w+)"'))


def listed():
    """The commands of the list, each with the flags that it takes."""
    return dict(re.findall(r"^    lislink (\w+)((?: \[--\w+\])*)  ", kit.read("docs/lislink.md"), re.M))


class Commands(kit.Test):
    def is_listed(self, what, found):
        for word in sorted(set(found) | set(self.commands)):
            self.check((word in found) == (word in self.commands), f"{what}: {word}",
                       f"it has {sorted(found)}, the list {sorted(self.commands)}")

    def setUp(self):
        self.commands = listed()
        self.assertTrue(self.commands, "docs/lislink.md has no list of commands")

    def test_headings(self):
        heads = set(re.findall(r"^## (\w+)$", kit.read("docs/lislink.md"), re.M)) - {"Examples"}
        self.is_listed("headings of docs/lislink.md", heads)

    def test_words(self):
        for form, word in WORDS:
            words = [it for path in glob.glob(form, root_dir=ROOT) for it in re.findall(word, kit.read(path))]
            self.is_listed(form, words)

    def test_model(self):
        """The model knows each command, and with the flags that it takes."""
        wanted = {f"{word}{flag}" for word, flags in self.commands.items()
                  for flag in ["", *(f" {it}" for it in re.findall(r"--\w+", flags))]}
        self.same("commands of the model", sorted(model.COMMANDS), sorted(wanted))

    def test_rows(self):
        calls = [call for path in suite.files("commands") for case in suite.cases(path) for _, call, _ in case]
        self.is_listed("rows of commands", {call.split(" ")[1] for call in calls})

    def test_runs(self):
        runs = {words.split()[0] for _, words, _, status, *_ in RUNS if status != 2}
        self.is_listed("tests/cli/test_program.py", runs)

    def test_benchmark(self):
        timed = {command.split()[0] for made in inputs.inputs(1) for command in made.commands}
        self.is_listed("bench/inputs.py", timed)
        counted = re.findall(r"^(\w+)(?: --\w+)? on ", kit.read("bench/instructions"), re.M)
        self.is_listed("bench/instructions", set(counted) - {"trees"})
