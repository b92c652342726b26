"""The functions of the crates, read from their sources for tools/way: what each takes and returns, and the tokens of
its body. It reads the part of the language that the crates use, and knows nothing of scopes but the names of types."""
import glob
import os
import re

ROOT = os.path.dirname(os.path.dirname(os.path.abspath(__file__)))
TOKEN = re.compile(r"[A-Za-z_]\w*|\d[\w]*|::|->|=>|\.\.=?|\S")
#: Comments, texts and letters, whose words are none of code.
PLAIN = re.compile(r'//[^\n]*|/\*.*?\*/|b?"(?:[^"\\]|\\.)*"|b?\'(?:\\[^\']*|[^\\\'])\'', re.S)
CLOSES = {"(": ")", "[": "]", "{": "}"}


class Function:
    """A function with its body."""

    def __init__(self, crate, file, name, owner, trait, bounds):
        self.crate, self.file, self.name, self.owner, self.trait = crate, file, name, owner, trait
        #: What is known of its type parameters: the traits of each.
        self.bounds = bounds
        self.params, self.result, self.body = [], [], None

    def __str__(self):
        of = f"{self.owner}::" if self.owner else ""
        return f"{self.crate}/src/{self.file}: {of}{self.name}"


class Sources:
    """All of it: functions, the fields of structs, the payloads of variants, aliases and traits."""

    def __init__(self, crates):
        # An alias of the same name in several crates is all of them, one after the other.
        self.functions, self.fields, self.variants, self.aliases = [], {}, {}, {}
        self.types, self.traits = set(), set()
        for crate in crates:
            top = os.path.join(ROOT, "crates", crate, "src")
            for path in sorted(glob.glob(f"{top}/**/*.rt", recursive=True)):
                if "/testing" in path:
                    continue
                with open(path, encoding="utf-8") as file:
                    tokens = TOKEN.findall(without_ghosts(PLAIN.sub('""', file.read())))
                self._items(tokens, 0, len(tokens), crate, os.path.relpath(path, top), None, None, {})

    def _items(self, tokens, at, end, *where):
        while at < end:
            word = tokens[at]
            read = {"impl": self._impl, "trait": self._trait, "struct": self._struct, "enum": self._enum,
                    "fn": self._fn, "type": self._alias, "mod": self._mod}.get(word)
            if read is not None and not (word == "impl" and tokens[at - 1] in (":", "(")):
                at = read(tokens, at + 1, *where)
            elif word in ("use", "const", "static") and tokens[at + 1] != "fn":
                at = after(tokens, at, (";",))
            else:
                at += 1

    def _mod(self, tokens, at, *where):
        if tokens[at + 1] != "{":
            return at + 2
        end = closing(tokens, at + 1)
        if tokens[at] not in ("tests", "testing"):
            self._items(tokens, at + 2, end, *where)
        return end + 1

    def _impl(self, tokens, at, crate, file, _owner, _trait, _bounds):
        bounds, at = generics(tokens, at)
        start = after(tokens, at, ("{",)) - 1
        head = tokens[at:start]
        head = head[: head.index("where")] if "where" in head else head
        trait, of = None, head
        if "for" in head:
            trait, of = first_name(head[: head.index("for")]), head[head.index("for") + 1 :]
        end = closing(tokens, start)
        self._items(tokens, start + 1, end, crate, file, first_name(of), trait, bounds)
        return end + 1

    def _trait(self, tokens, at, crate, file, _owner, _trait, _bounds):
        name = tokens[at]
        self.traits.add(name)
        start = after(tokens, at, ("{",)) - 1
        end = closing(tokens, start)
        self._items(tokens, start + 1, end, crate, file, name, name, generics(tokens, at + 1)[0])
        return end + 1

    def _struct(self, tokens, at, *_where):
        name = tokens[at]
        self.types.add(name)
        at = generics(tokens, at + 1)[1]
        at = after(tokens, at, ("{", "(", ";")) - 1
        if tokens[at] == ";":
            return at + 1
        end = closing(tokens, at)
        fields = {}
        for place, part in enumerate(split(tokens[at + 1 : end])):
            part = [it for it in part if it not in ("pub",)]
            named = tokens[at] == "{" and ":" in part
            fields[part[part.index(":") - 1] if named else str(place)] = part[part.index(":") + 1 :] if named else part
        self.fields[name] = fields
        return end + 1

    def _enum(self, tokens, at, *_where):
        name = tokens[at]
        self.types.add(name)
        start = after(tokens, at, ("{",)) - 1
        end = closing(tokens, start)
        for part in split(tokens[start + 1 : end]):
            if len(part) > 1 and part[1] == "(":
                self.variants.setdefault(part[0], []).append((name, split(part[2:-1])))
        return end + 1

    def _alias(self, tokens, at, *_where):
        end = after(tokens, at, (";",))
        if "=" in tokens[at:end]:
            told = [it for it in tokens[tokens.index("=", at) + 1 : end - 1] if it != tokens[at]]
            self.aliases.setdefault(tokens[at], []).extend(told)
        return end

    def _fn(self, tokens, at, crate, file, owner, trait, bounds):
        more, start = generics(tokens, at + 1)
        one = Function(crate, file, tokens[at], owner, trait, {**bounds, **more})
        end = closing(tokens, start)
        one.params = split(tokens[start + 1 : end])
        at = after(tokens, end + 1, ("{", ";")) - 1
        if tokens[end + 1] == "->":
            one.result = tokens[end + 2 : at]
        if tokens[at] == "{":
            end = closing(tokens, at)
            one.body = tokens[at + 1 : end]
            at = end
        self.functions.append(one)
        return at + 1


def without_ghosts(text):
    """A source without attributes, contracts and ghost items."""
    form = re.compile(r"\bghost\b|\b(?:requires|ensures|invariant|decreases)\b[\w ]*(?=\{)|#!?(?=\[)")
    out, at = [], 0
    for found in iter(lambda: form.search(text, at), None):
        out.append(text[at : found.start()])
        at = end_of(text, found.end(), found[0] == "ghost")
    return "".join([*out, text[at:]])


def end_of(text, at, is_item):
    """Where a clause in brackets ends; or an item, by the first semicolon outside brackets, or as a block."""
    is_block = is_item and text[at:].lstrip().startswith("{")
    depth = 0
    while at < len(text):
        depth += (text[at] in "{[(") - (text[at] in "}])")
        at += 1
        if depth == 0 and (text[at - 1] == ";" if is_item and not is_block else text[at - 1] in "}]"):
            break
    return at


def closing(tokens, at):
    """Where the bracket at this place is closed."""
    depth = 0
    while True:
        depth += (tokens[at] in CLOSES) - (tokens[at] in CLOSES.values())
        if depth == 0:
            return at
        at += 1


def after(tokens, at, ends):
    """The place after the first of these tokens that is outside brackets."""
    while tokens[at] not in ends:
        at = closing(tokens, at) + 1 if tokens[at] in CLOSES else at + 1
    return at + 1


def generics(tokens, at):
    """What type parameters are bound by, where there are some at this place; and the place after them."""
    if tokens[at] != "<":
        return {}, at
    depth, start = 0, at
    while True:
        depth += (tokens[at] == "<") - (tokens[at] == ">")
        at += 1
        if depth == 0:
            break
    bounds = {}
    for part in split(tokens[start + 1 : at - 1]):
        if len(part) > 2 and part[1] == ":":
            bounds[part[0]] = [it for it in part[2:] if it[0].isupper()]
    return bounds, at


def split(tokens):
    """Tokens at their commas outside brackets."""
    parts, depth = [[]], 0
    for it in tokens:
        depth += (it in "([{<") - (it in ")]}>")
        if it == "," and depth == 0:
            parts.append([])
        else:
            parts[-1].append(it)
    return [part for part in parts if part]


def first_name(tokens):
    """The name of a type's head: the last one of its path."""
    names = []
    for it in tokens:
        if it == "<" or names and not re.match(r"\w|::", it):
            break
        if re.match(r"[A-Za-z_]", it) and it not in ("mut", "dyn") and it != "a":
            names.append(it)
    return names[-1] if names else None
