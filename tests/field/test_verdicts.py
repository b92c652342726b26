"""What is said of a line is said once: each verdict has a name and a sentence, and no one reads a sentence back."""
import ast
import glob
import string

from lislab.field import looks
from lislab.diagnosis.verdicts import BAD, GOOD, PLAIN, WARN, Meaning, Verdict
from tests import ROOT, kit

#: What holds a sentence: of a ladder's row, and of a verdict.
SENTENCES = {"note", "title", "sentence", "live"}


def read_back(source):
    """The lines of a source that compare a sentence with words, or search it."""
    for node in ast.walk(ast.parse(source)):
        parts = []
        if isinstance(node, ast.Compare):
            parts = [node.left, *node.comparators]
            if not any(isinstance(part, ast.Constant) and isinstance(part.value, str) for part in parts):
                continue
        elif isinstance(node, ast.Call) and isinstance(node.func, ast.Attribute):
            parts = [node.func.value] if node.func.attr in ("startswith", "endswith", "find", "index") else []
        if any(isinstance(part, ast.Attribute) and part.attr in SENTENCES for part in parts):
            yield node.lineno


class Verdicts(kit.Test):
    def test_sentences(self):
        """Each verdict has a name of its own, a level, and a sentence for a ladder or for a line that runs."""
        keys = [one.key for one in Verdict]
        self.same("names of two verdicts", sorted({key for key in keys if keys.count(key) > 1}), ["flow-control"])
        for one in Verdict:
            self.check(bool(one.sentence or one.live), f"{one.key}: a sentence")
            self.check(one.level in (GOOD, PLAIN, WARN, BAD), f"{one.key}: a level", one.level)
            self.check(one.sentence != one.live, f"{one.key}: two sentences")
        for one in Meaning:
            self.check(one.level in (GOOD, PLAIN, WARN, BAD), f"{one.name}: a level", one.level)

    def test_values(self):
        """What a sentence names is a plain value: no format, no attribute."""
        for one in Verdict:
            for text in (one.sentence, one.advice, one.live):
                names = [name for _, name, _, _ in string.Formatter().parse(text) if name is not None]
                self.check(all(name.isidentifier() for name in names), f"{one.key}: {names}")

    def test_nobody_reads_a_sentence(self):
        """A row's meaning says what it is; its words are for a reader. A source that compares words is noticed."""
        for path in glob.glob("lab/src/lislab/*/*.py", root_dir=ROOT):
            found = list(read_back(kit.read(path)))
            self.same(f"{path}: lines that read a sentence", found, [])
        wrong = 'def f(row):\n    return row.note.startswith("the line")\n\nx = row.title == "silence"\n'
        self.same("a source that reads them", sorted(read_back(wrong)), [2, 4])

    def test_table(self):
        """What is looked for in rows is a table: a verdict of which a ladder has a sentence."""
        rows = [one for one in looks._TABLE if isinstance(one, looks.Check)]
        self.check(len(rows) >= 19, "rows of the table", str(len(rows)))
        self.same("verdicts that a ladder can't say", [one.verdict.key for one in rows if not one.verdict.sentence], [])
