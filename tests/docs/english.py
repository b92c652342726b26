"""What is wrong with the English of a page: long sentences, openings that hide the subject, words that have a better one."""
import re

#: A sentence has at most so many words, but for this share of a page's sentences.
MOST_WORDS, SHARE = 30, 0.05
#: Words that no sentence begins with, unless it is a question.
OPENINGS = ("Of", "What")
ITEM = re.compile(r"(?:[-*]|\d+\.) +")
END = re.compile(r"(?<=[.!?])[\"')\]*]*\s+(?=[\"'(\[*]*[A-Z0-9])")
WORD = re.compile(r"[^\W_][\w'’-]*")
#: What the head of a page says, before its first section: for whom it is, what it presumes, and what to read next.
HEAD = {"for whom it is": r"(?i)\bfor\b", "what it presumes": r"(?i)\b(presum|assum|need|know)",
        "what to read next": r"(?i)\bnext\b"}


def blank(found):
    """As many lines, and nothing on them."""
    return re.sub(r"[^\n]", " ", found[0])


def without_code(text):
    """A page in which each piece of code is the word Code, each link is its text, and blocks of code are blank."""
    text = re.sub(r"(?ms)^ *```.*?^ *```$|<!--.*?-->", blank, text)
    text = re.sub(r"(?m)(?<=\n\n)(?:(?: {4}.*|)\n)+", blank, text)
    text = re.sub(r"!\[[^]]*\]\([^)]*\)", blank, text)
    text = re.sub(r"(?s)(`+)(?!`)((?:(?!\n\n).)+?)(?<!`)\1(?!`)", lambda it: "Code" + "\n" * it[0].count("\n"), text)
    return re.sub(r"\[((?:[^][]|\[[^]]*\])*)\]\([^)]*\)", r"\1", text)


def paragraphs(text):
    """The paragraphs and the items of lists of a page, each with its first line; no headings and no tables."""
    found = []
    for number, line in enumerate([*without_code(text).split("\n"), ""], 1):
        bare = line.strip().lstrip("> ")
        if not bare or bare.startswith(("#", "|")):
            if found:
                yield found[0][0], " ".join(words for _, words in found)
            found = []
            continue
        item = ITEM.match(bare)
        if item and found:
            yield found[0][0], " ".join(words for _, words in found)
            found = []
        found.append((number, bare[item.end():] if item else bare))


def sentences(text):
    """The sentences of a page, each with the first line of its paragraph."""
    for line, words in paragraphs(text):
        for one in END.split(words):
            if WORD.search(one):
                yield line, one.strip()


def length(sentence):
    return len(WORD.findall(sentence))


def long_ones(text):
    """The sentences with too many words, and how many sentences there are."""
    found = list(sentences(text))
    return [(line, one) for line, one in found if length(one) > MOST_WORDS], len(found)


def openings(text):
    """The sentences that begin with a word that hides their subject."""
    first = re.compile(rf"[\"'(*]*(?:{'|'.join(OPENINGS)})\b")
    return [(line, one) for line, one in sentences(text) if first.match(one) and not one.rstrip("*\"')").endswith("?")]


def lacks(text):
    """What the head of a page doesn't say."""
    head = re.split(r"(?m)^## ", text, maxsplit=1)[0]
    return [what for what, form in HEAD.items() if not re.search(form, head)]


def terms(table):
    """The rows of the table of terms: what is not written, as a pattern, and what is written in its place."""
    for line in table.split("\n"):
        if line.strip() and not line.startswith("#"):
            plain, _, _, form = (it.strip() for it in re.split(r" \|(?= )", line, maxsplit=3))
            yield re.compile(rf"\b(?:{form})\b", re.I), plain


def wrong_terms(text, known):
    """The words of a page that have a better one: the line, the word, and the better one."""
    text = re.sub(r"(?<!\w)Code(?!\w)", "    ", without_code(text))
    found = [(text.count("\n", 0, it.start()) + 1, " ".join(it[0].split()), plain)
             for form, plain in known for it in form.finditer(text)]
    return sorted(found)
