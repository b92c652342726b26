"""The definitions that contracts cite: where they are, what they name, and what must be read to believe a contract.

A definition is an entry of a file crates/NAME/specs/*.antt. What it names is found by the imports of its file, so a
name that two files give to two things is never confused. Used by tools/trust.
"""
import glob
import os
import re
import sys

ROOT = os.path.dirname(os.path.dirname(os.path.abspath(__file__)))
sys.path.append(f"{ROOT}/tests/proofs")
from edit import names_of  # noqa: E402: tests/proofs has it

HEAD = re.compile(r"^((?:(?:abbrev|unfoldable|opaque|pub|record|data) )+)(\S+)")
IMPORT = re.compile(r"^\s*(?:ghost )?use Rattle\.([\w.]+)(?:\.\{([^}]*)\})?(?: as (\w+))?;?\s*$")
TOKEN = re.compile(r"[A-Za-z_][\w']*(?:\.[A-Za-z_]\w*)*|[^\sA-Za-z0-9_(){}\[\],;.◌]+")
PUBLIC_FN = re.compile(r"^( *)pub (?:(?:const|unsafe|extern \"C\") )*fn (\w+)")
GHOST = re.compile(r"^    ghost (\w+)\s*[:=]")
TYPE = re.compile(r"^(?:(pub)|pub\([^)]*\))?\s*(?:struct|enum|type|trait|const) (\w+)")
ALIAS = re.compile(r"^pub type (\w+).* = (?:\w+::)*(\w+)")
METHOD = re.compile(r"^(    )(?:unsafe )?fn (\w+)")
BLOCK = re.compile(r"^(?:unsafe )?(impl\b|pub trait )(.*)")
# The modules of the definitions that the prover makes of the code: its types, and what they are in memory.
OF_CODE = re.compile(r"\.specs\.(?:declared|contracts)\.")
COLUMN_0 = re.compile(r"^[^\s)}]")
# What names nothing: a text in quotes, and the name of a field where a record is declared or made.
LABEL = re.compile(r'"[^"]*"|^  pub \w+(?= :)|(?:[{;]|^)\s*\w+(?= = )', re.M)


class Definition:
    """An entry of a specs file, with the text that must be read."""

    def __init__(self, module, name, path, line):
        self.module, self.name, self.path, self.line, self.text = module, name, path, line, []

    @property
    def key(self):
        return self.module, self.name

    @property
    def is_inside(self):
        return ".specs.inside" in self.module

    @property
    def crate(self):
        return self.module.split(".")[0]


def imports_of(lines):
    """The names that a file imports, each with the module and the name that it has there; '' for the module itself."""
    found = {}
    for line in lines:
        match = IMPORT.match(line)
        if not match:
            continue
        module, names, alias = match.groups()
        for name in (it.strip() for it in (names or "").split(",")):
            if name:
                of, _, local = name.partition(" as ")
                # A name of several words, as if◌then◌else◌, is found by its first.
                found[(local or of).strip("◌").partition("◌")[0]] = (module, of)
        if not names:
            found[alias or module.rsplit(".", 1)[-1]] = (module, "")
    return found


def read(path):
    with open(path, encoding="utf-8") as file:
        return file.read().split("\n")


def member_text(lines, start):
    """The lines of a ghost member, to its end."""
    end = start
    while not lines[end].rstrip().endswith(";"):
        end += 1
    return lines[start:end + 1]


def laws_of_traits(root):
    """The ghost members that are laws: a trait states them of its other members, and an impl proves them. To believe a
    contract one reads the statement, which is in the trait, and not the proof."""
    found = set()
    for path in glob.glob(f"{root}/crates/*/src/**/*.rt", recursive=True):
        trait = None
        for number, line in enumerate(lines := read(path)):
            if COLUMN_0.match(line):
                trait = {} if line.startswith(("pub trait", "trait", "pub(crate) trait")) else None
            member = trait is not None and GHOST.match(line)
            if member:
                trait[member[1]] = " ".join(member_text(lines, number))
                others = trait.keys() - {member[1]}
                if any(re.search(rf"\b{it}\b", trait[member[1]]) for it in others):
                    found.add(member[1])
    return found


class Book:
    """All definitions of the crates, by module and name."""

    def __init__(self, root=ROOT):
        self.root, self.definitions, self.imports, self.constructors = root, {}, {}, {}
        self.local, self.laws = {}, laws_of_traits(root)
        #: The names that a file takes from a module of the crates that has no such definition.
        self.misnamed = set()
        for path in sorted(glob.glob(f"{root}/crates/*/specs/**/*.antt", recursive=True)):
            self.read_specs(path)

    def read_specs(self, path):
        crate, inner = re.search(r"crates/(\w+)/specs/(.*)\.antt$", path).groups()
        module = f"{crate}.specs." + inner.replace("/", ".")
        lines, current = read(path), None
        self.imports[module] = imports_of(lines)
        for number, line in enumerate(lines, 1):
            head = HEAD.match(line)
            if head and head[2] not in ("mod", "use"):
                current = Definition(module, head[2], os.path.relpath(path, self.root), number)
                current.kind = head[1]
                self.definitions[current.key] = current
                self.local.setdefault(module, {})[head[2].strip("◌").strip()] = current
                current.text.append(line)
            elif line.startswith(("use ", "--", "pub mod ")):
                continue
            elif current is not None and line.strip():
                current.text.append(line)
        for it in self.local.get(module, {}).values():
            if " data " in f" {it.kind}":
                for line in it.text[1:]:
                    made = re.match(r"^\s+(?:pub )?(\w+)\s*:", line)
                    if made:
                        self.constructors[module, made[1]] = it

    def find(self, module, name):
        """The definition that a module has under a name, or whose constructor it is."""
        return self.local.get(module, {}).get(name.strip("◌").strip()) or self.constructors.get((module, name))

    def named_in(self, module, imports, text):
        """What a text of this module names: definitions, and ('type', ..) or ('kit', ..) for what is not one."""
        for token in set(TOKEN.findall(text)):
            first, _, rest = token.partition(".")
            own = self.find(module, first) if module else None
            if own:
                yield own
                continue
            of, name = imports.get(first, (None, None))
            if of is None:
                continue
            yield from self.in_module(of, name or rest.split(".")[0])

    def in_module(self, module, name):
        found = self.find(module, name)
        if found:
            yield found
        elif OF_CODE.search(module):
            crate, inner = OF_CODE.split(module)
            yield "type", crate, re.sub(r"\.TheVariants$", "", inner)
        elif module.split(".")[0] in self.crates():
            if ".specs" in module and name:
                self.misnamed.add((module, name))
        else:
            yield "kit", module, name

    def crates(self):
        return {it.split(".")[0] for it in self.imports}

    def named_by(self, definition):
        text = LABEL.sub(" ", "\n".join(definition.text))
        return self.named_in(definition.module, self.imports[definition.module], text)

    def closure(self, start):
        """All that must be read for these definitions, and the types and the kit's names next to it."""
        seen, types, todo = {}, set(), list(start)
        while todo:
            it = todo.pop()
            if isinstance(it, tuple):
                types.add(it)
            elif it.key not in seen:
                seen[it.key] = it
                todo.extend(self.named_by(it))
        return list(seen.values()), types


class Exports:
    """Which items of a crate others can use: those of its public modules, and those that it hands on by name."""

    def __init__(self, root, crate):
        text = "\n".join(read(f"{root}/crates/{crate}/src/lib.rt"))
        self.modules = set(re.findall(r"^pub mod (\w+);", text, re.M))
        self.names = set(re.findall(r"\w+", " ".join(re.findall(r"^pub use ([^;]*);", text, re.M))))
        # The exports of the library for C are called by their names alone.
        self.all = "staticlib" in " ".join(it for it in read(f"{root}/crates.txt") if it.startswith(f"{crate} "))

    def has(self, module, name):
        return self.all or name in self.names or module.split("/")[0] in self.modules


class Contracts:
    """The contracts of a crate's functions that others can call, with the names that each cites; and the names that the
    models of its public types cite, and the ghost members of its traits and of their impls."""

    def __init__(self, book, crate):
        self.book, self.crate, self.cited, self.models = book, crate, {}, set()
        #: the names of the clauses of each function; of ghost members; and what public aliases are names of
        self.clauses, self.members, self.aliases = {}, set(), {}
        self.exports, source = Exports(book.root, crate), f"{book.root}/crates/{crate}/src"
        files = {path: read(path) for path in sorted(glob.glob(f"{source}/**/*.rt", recursive=True))}
        # The crate's types, each with whether it is public.
        self.types = {it[2]: bool(it[1]) for lines in files.values() for it in map(TYPE.match, lines) if it}
        for it in (it for lines in files.values() for it in map(ALIAS.match, lines) if it):
            self.aliases[it[1]] = self.aliases.get(it[2], it[2])
        for path, lines in files.items():
            self.read(lines, os.path.relpath(path, source).removesuffix(".rt"))

    def read(self, lines, module):
        imports, block, of, number = imports_of(lines), None, "", 0
        while number < len(lines):
            line = lines[number]
            if COLUMN_0.match(line):
                head = BLOCK.match(line)
                block = head and ("trait" if head[1].startswith("pub") else "impl")
                of = head[2] if head else ""
            is_public = not block or self.exports.has(module, names_of(of)[1] or "")
            if block == "impl" and re.search(r"\bModel for\b", of) and is_public:
                self.models.update(self.book.named_in(None, imports, line))
            member = block and GHOST.match(line)
            self.members.update([member[1], *names_of(of)] if member else [])
            if member and member[1] not in self.book.laws and self.can_be_had(block, module, of):
                self.models.update(self.book.named_in(None, imports, self.member(lines, number)))
            is_method = block == "trait" or block and " for " in of
            found = PUBLIC_FN.match(line) or (METHOD.match(line) if is_method else None)
            if found:
                header, number = self.header(lines, number, found[1])
                if is_public and (block or self.exports.has(module, found[2])):
                    self.note(module, of if block else "", found[2], imports, header)
            else:
                number += 1

    def can_be_had(self, block, module, of):
        """Whether others can name a trait, or have a value of an impl's type: it is public, or another crate's, as an
        Option or a slice."""
        name = names_of(of)[1] or ""
        is_public = self.exports.has(module, name) and self.types.get(name, block == "trait")
        return is_public or (name not in self.types and block == "impl" and not self.exports.all)

    @staticmethod
    def member(lines, start):
        return "\n".join(member_text(lines, start))

    @staticmethod
    def header(lines, start, indent):
        """A function's head with its clauses, up to its body."""
        for end in range(start, len(lines)):
            line = lines[end]
            if line.startswith((indent + "{", indent + "}")) or (end == start and line.endswith(";")):
                break
            if end > start and line.rstrip().endswith(";") and not line.startswith(indent + " " * 5):
                break
        return "\n".join(lines[start:end + 1]), end + 1

    def note(self, module, of, name, imports, header):
        clauses = header[re.search(r"\n\s*(requires|ensures)\b|$", header).start():]
        key = module.rsplit("/", 1)[-1], of, name
        self.cited[key] = list(self.book.named_in(None, imports, clauses))
        self.clauses[key] = re.findall(r"\b(?:requires|ensures)\*? (\w+) \{", clauses)
