"""The conformance rows of commands, over the program; those of calls are in tests/proofs."""
import os
import shlex
import subprocess
import sys

import suite
from tests import ROOT, kit


class Conformance(kit.Test):
    def test_commands(self):
        compare_commands(self, kit.built("lislink"))

    def test_first_cases(self):
        """What the gate runs the answering program on is what `conformance/run` prints."""
        most, kinds = suite.FIRST
        for option, file in (("--calls", "stdin"), ("--answers", "stdout")):
            words = [option, "--first", str(most), *kinds]
            ran = subprocess.run([sys.executable, os.path.join(ROOT, "conformance/run"), *words], capture_output=True,
                                 text=True)
            self.check(ran.stdout == kit.read(f"crates/vectors/{file}"),
                       f"crates/vectors/{file} is not what this prints: conformance/run {' '.join(words)}")


def compare(test, path, found):
    """Each case of a file is a check."""
    for rows, answers in found:
        wrong = suite.first_wrong(path, rows, answers)
        test.check(not wrong, *(wrong or [""]))


def compare_commands(test, lislink):
    """All commands, as a program runs them."""
    left_out = {}
    for path in suite.files("commands"):
        compare(test, path, suite.commanded(shlex.quote(lislink), path, left_out=left_out))
    test.assertEqual(left_out, {}, "runs of commands that the program doesn't know")
