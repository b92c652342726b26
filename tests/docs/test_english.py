"""Pages are short and in plain English: budgets of words, long sentences, openings, heads; and the terms of a table."""
import glob
import os

from tests import ROOT, kit
from tests.docs import english
from tests.docs.test_pages import pages

#: The most words of all pages of docs/ together; README's head is a table of readers.
MOST = 34000
LONG = "The host stores " + "a record and " * 15 + "replies."
GOOD = """# A page

For users who receive. It presumes `make`. Read next: [another](other.md).

The host stores a record, then it replies. Which of them? What is that?

- Of code there may be: `Of course`.

| What | Of |
|---|---|
| What is in a table is no sentence. | Of it nothing is asked. |

    Of a block nothing is asked either.
    What is in it is code.

## What is a heading
"""
#: Pages, and what is found in each: how many long sentences, the lines of openings, what the head lacks, terms.
FOUND = [
    (GOOD.replace("- Of code there may be", "- Some code may be"), 0, [], [], []),
    (GOOD, 0, [7], [], []),
    (GOOD + f"\n{LONG}\n", 1, [7], [], []),
    (GOOD + f"\n```\n{LONG}\nWhat is kept.\n```\n\n| {LONG} | What is kept. |\n", 0, [7], [], []),
    (GOOD + f"\n- It ends.\n  `a`{', `b`' * 20}.\n- {LONG}\n  `What`.\n", 1, [7], [], []),
    (GOOD + "\nIt ends. What is acknowledged\nis kept. `What` is code.\n", 0, [7, 18], [], []),
    ("# A page\n\nFor all. It presumes nothing.\n\n## Next\n", 0, [], ["what to read next"], []),
    ("# A page\n\nText.\n\n## For whom\n\nRead next. You need it.\n", 0, [],
     ["for whom it is", "what it presumes", "what to read next"], []),
    ("# For you\n\nYou need to know the next.\n\nIt is mended\nanew, `anew`.\n", 0, [], [], [(5, "mended"), (6, "anew")]),
]


def budgets():
    """The words that a page may have."""
    rows = [line.split(" | ") for line in kit.read("docs/budgets.table").split("\n") if line and line[0] != "#"]
    return {page: int(words) for page, words in rows}


def words_of(text):
    """How many words a text has, as `wc -w` counts them: the bars of a table too."""
    return len(text.split())


def over(page, text, known):
    """What is wrong with the length of a page; nothing if it fits."""
    words = words_of(text)
    if page not in known:
        return "has no budget" if page.startswith("docs/") else ""
    return f"has {words} words, and {known[page]} at most" if words > known[page] else ""


class English(kit.Test):
    def test_budgets(self):
        known = budgets()
        for page, text in pages():
            self.check(not over(page, text, known), page, over(page, text, known))
        total = sum(words_of(kit.read(f"docs/{it}")) for it in glob.glob("*.md", root_dir=os.path.join(ROOT, "docs")))
        self.check(total <= MOST, "docs/", f"has {total} words, and {MOST} at most")

    def test_sentences(self):
        long, count = 0, 0
        for page, text in pages():
            found, of = english.long_ones(text)
            long, count = long + len(found), count + of
            lines = "".join(f"\n{page}:{line}: {english.length(one)} words: {one}" for line, one in found)
            self.check(len(found) <= english.SHARE * of, f"{page}: {len(found)} of {of} sentences are too long", lines)
            found = english.openings(text)
            self.check(not found, f"{page}: openings", "".join(f"\n{page}:{line}: {one}" for line, one in found))
            lacks = [] if page == "README.md" else english.lacks(text)
            self.check(not lacks, page, f"its head lacks {', '.join(lacks)}")
        print(f"sentences of over {english.MOST_WORDS} words: {long} of {count}")

    def test_terms(self):
        """Words that have a better one are printed. They fail nothing, since some sentences need them."""
        known = list(english.terms(kit.read("docs/terms.table")))
        self.check(len(known) > 10, "docs/terms.table has terms")
        for page, text in pages():
            for line, word, plain in english.wrong_terms(text, known):
                print(f"{page}:{line}: {word}: write {plain}")

    def test_what_is_found(self):
        """What is wrong is found, and nothing else: in code, in tables and in headings nothing is looked for."""
        known = list(english.terms(kit.read("docs/terms.table")))
        for number, (text, long, openings, lacks, terms) in enumerate(FOUND):
            name = f"page {number}"
            self.same(f"{name}: long sentences", len(english.long_ones(text)[0]), long)
            self.same(f"{name}: openings", [line for line, _ in english.openings(text)], openings)
            self.same(f"{name}: head", english.lacks(text), lacks)
            self.same(f"{name}: terms", [(line, word) for line, word, _ in english.wrong_terms(text, known)], terms)
        for page, words, wanted in (("docs/a.md", 3, ""), ("docs/a.md", 4, "has 4 words, and 3 at most"),
                                    ("docs/b.md", 1, "has no budget"), ("b.md", 9, "")):
            text = "word | " * (words // 2) + "word\n" * (words % 2)
            self.same(f"{page} of {words} words", over(page, text, {"docs/a.md": 3}), wanted)
