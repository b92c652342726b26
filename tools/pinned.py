"""The ghost members that impls of the crates define, and what pins each of them.

The prover takes a ghost member as its impl has it. So code and member may both be wrong in the same way, unless a
public clause says what the member is. A member is pinned by

- a quote of it, as `⟦<Writing<W> as Sink>⟧.taken result`, in an `ensures` of its crate;
- an `ensures` of the impl's own on each method that the trait says the member by, with `≡`, or that has its name;
- a line of docs/pinned.table, which names the public contract that would be false with another member.

No public clause can speak of a member where the trait or the type is private to its crate. A law says itself what
holds, and the view of a model is a definition that tools/trust lists. So these are not looked at. Used by tools/trust.
"""
import glob
import re

IMPL = re.compile(r"(?ms)^impl\b([^{;]*?) for ([^{;]*?) \{\n(.*?)^\}")
TRAIT = re.compile(r"(?ms)^((?:pub(?:\([^)]*\))? )?)trait (\w+)[^{;]*\{\n(.*?)^\}")
MEMBER = re.compile(r"(?m)^    ghost (?!use\b)(\w+)(?::| =)")
LAST_FUNCTION = re.compile(r"(?ms).*^    (?:pub )?(?:unsafe )?fn ")
QUOTE = re.compile(r"⟦<(.*?) as (\w+)[^⟧]*⟧\.(\w+)")
WORD = re.compile(r"\w+")
TYPE = re.compile(r"(?m)^pub (?:struct|enum|type|union) (\w+)")


class Member:
    """A ghost member of an impl: its crate and file, the trait's and the type's name, and its own."""

    def __init__(self, crate, path, trait, type_, name):
        self.crate, self.path, self.trait, self.type, self.name = crate, path, trait, type_, name

    @property
    def key(self):
        return self.crate, f"{self.trait} for {self.type}", self.name


class Sources:
    """The crates' code, without that of the crates of tests: traits, types and quotes."""

    def __init__(self, root, tests):
        paths = sorted(glob.glob(f"{root}/crates/*/src/**/*.rt", recursive=True))
        self.texts = {path.removeprefix(f"{root}/crates/"): open(path, encoding="utf-8").read() for path in paths}
        self.texts = {path: it for path, it in self.texts.items() if crate_of(path) not in tests}
        whole = "\n".join(self.texts.values())
        self.traits = {name: body for _, name, body in TRAIT.findall(whole)}
        self.private = {name for is_public, name, _ in TRAIT.findall(whole) if is_public != "pub "}
        self.types = set(TYPE.findall(whole))
        self.named = {*re.findall(r"(?m)^(?:pub(?:\([^)]*\))? )?(?:struct|enum|type|union) (\w+)", whole)}

    def is_public(self, trait, type_):
        """Whether public clauses may speak of an impl: neither the trait nor a type that is named is private."""
        names = set(WORD.findall(type_))
        return trait not in self.private and not (names & self.named) - self.types

    def laws(self):
        """The members of the traits whose types are facts: those below the last method that is not final."""
        found = {"laws"}
        for body in self.traits.values():
            functions = LAST_FUNCTION.match(body)
            found.update(MEMBER.findall(body[functions.end():] if functions else ""))
        return found

    def states(self, trait, name):
        """The methods by which the trait says what a member is."""
        clauses = functions_of(self.traits.get(trait, "")).items()
        return {of for of, head in clauses if re.search(rf"(?m)^        ensures.*result ≡.*\b{name}\b", head)} or {name}

    def quotes(self, crate):
        """The members that the clauses of a crate quote, each with its type, without parameters, and its trait."""
        near = "\n".join(it for path, it in self.texts.items() if crate_of(path) == crate)
        return {(plain(type_).split("<")[0], trait, name) for type_, trait, name in QUOTE.findall(near)}


def crate_of(path):
    return path.partition("/")[0]


def plain(text):
    """A type without its lifetimes, as `Writing<W>` or `&[Part]`."""
    return " ".join(re.sub(r"'\w+(?:, )?", "", text).replace("<>", "").split())


def functions_of(body):
    """The methods of a trait or an impl, each with its signature and clauses."""
    return dict(re.findall(r"(?ms)^    (?:pub |unsafe |final )*fn (\w+)(.*?)(?:^    \{|;$|\{$)", body))


def members_of(root, tests):
    """Each ghost member of a public impl that nothing in its crate pins."""
    sources = Sources(root, tests)
    laws = sources.laws()
    for path, text in sources.texts.items():
        crate = crate_of(path)
        quotes = sources.quotes(crate)
        for head, type_, body in IMPL.findall(text):
            trait = WORD.findall(re.sub(r"^<.*?>(?= )", "", head.strip()))[0]
            if trait == "Model" or not sources.is_public(trait, type_):
                continue
            own = {name for name, clauses in functions_of(body).items() if "        ensures" in clauses}
            for name in MEMBER.findall(body):
                is_quoted = (plain(type_).split("<")[0], trait, name) in quotes
                if name not in laws and not is_quoted and not sources.states(trait, name) <= own:
                    yield Member(crate, f"crates/{path}", trait, plain(type_), name)
