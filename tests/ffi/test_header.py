"""The header says what the exports take: names, parameters, structs and statuses; it compiles as C99 and as C++; and
the code of C and Python that a page quotes is in a sample."""
import glob
import os
import re
import subprocess
import sys
import textwrap
from types import SimpleNamespace

from tests import ROOT, kit
from tests.ffi.c import HEADER, IN_C, IN_PYTHON, OURS, WARNINGS, compilers, families

SOURCES = os.path.join(ROOT, "crates/lis_c/src")
# They have the structs of a part and of a record's place.
TABLES = [os.path.join(ROOT, "crates", name) for name in ("lis_table/src/table.rt", "lis_message_table/src/places.rt")]
PAGES = ["docs/first-program.md", "docs/library.md"]
NUMBERS = {"u8": "uint8_t", "u32": "uint32_t", "u64": "uint64_t", "usize": "size_t", "bool": "bool"}


#: What a loop at the head of a header needs around it.
LOOPS = {"lislink.h": """#include "lislink.h"
#include <stdlib.h>
#include <unistd.h>
bool store(lis_receiver *receiver);
void receive(int line);
void receive(int line) { unsigned char bytes[512]; ssize_t got; lis_step step;
LOOP}
""", "lislink.hpp": """#include <lislink.hpp>
#include <cstdio>
#include <unistd.h>
bool store(std::string_view text);
void receive(int line);
void receive(int line) { char bytes[512]; ssize_t got;
LOOP}
"""}


def loop_of(path):
    """The loop that receives in the first comment of a file."""
    lines = re.sub(r"(?m)^(?: \*|//)(?: |$)", "", kit.read(path)).split("\n")
    begun = next(number for number, line in enumerate(lines) if line.startswith("A loop that receives")) + 1
    block = []
    for line in lines[begun:]:
        if block and line.strip() and not line.startswith("    "):
            break
        if line.startswith("    ") or (block and line.strip()):
            block.append(line)
    return textwrap.dedent("\n".join(block)) + "\n"


def c_name(name):
    """lis_sender of LisSender."""
    return re.sub(r"(?<!^)([A-Z])", r"_\1", name).lower()


def c_parameters(name, kind):
    """The parameters in C for one of an export; none for the allocator, which takes no bytes."""
    if kind == "Global":
        return []
    if kind in ("&[u8]", "&mut [u8]"):
        return [f"{'' if 'mut' in kind else 'const '}uint8_t *{name}", f"size_t {name}_len"]
    if kind == "*mut u8":
        return [f"void *{name}"]
    many = re.fullmatch(r"&('static|mut) \[(Lis\w+)\]", kind)
    if many:
        return [f"{'' if many[1] == 'mut' else 'const '}{c_name(many[2])} *{name}", f"size_t {name}_len"]
    if kind.startswith("&Lis"):
        return [f"const {c_name(kind[1:])} *{name}"]
    target = kind.removeprefix("&mut ")
    plain = NUMBERS.get(target) or c_name(target)
    return [f"{plain} {'*' if target != kind else ''}{name}"]


def sources():
    paths = [*(os.path.join(SOURCES, name) for name in sorted(os.listdir(SOURCES))), *TABLES]
    return re.sub(r"//.*", "", "\n".join(open(path).read() for path in paths))


def exports(text):
    """What the header is to declare: the functions, each as its parameters, and the structs, each as its fields."""
    functions, structs = {}, {}
    for name, words, result, contract in re.findall(
            r'#\[unsafe\(no_mangle\)\]\s*pub (?:unsafe )?extern "C" fn (\w+)\(([^)]*)\)(?: -> (\w+))?(.*?)\n\{\n', text,
            re.S):
        if "ensures same { s.new.state ≡ s.old.state }" in contract:  # such a call takes its handle as const
            words = words.replace("s: &mut Lis", "s: &Lis")
        pairs = [word.strip().split(": ", 1) for word in words.split(",") if word.strip()]
        taken = [one for pair in pairs for one in c_parameters(*pair)]
        functions[name] = (NUMBERS[result] if result else "void", taken or ["void"])
    derived, inside = r"(?:\s*#\[derive\([\w, ]+\)\])?", r"([^}]*(?:\{[^}]*\}[^}]*)*)"
    for name, words in re.findall(rf"#\[repr\(C\)\]{derived}\s*pub struct (\w+) \{{{inside}\}}", text):
        fields = re.findall(r"^\s*(?:pub )?(\w+): ([^,]+),$", words, re.M)
        structs[c_name(name)] = [one for field in fields for one in c_fields(*field)]
    return functions, structs


def c_fields(name, kind):
    """The fields in C for one of a struct."""
    many = re.fullmatch(r"\[(\w+); (\d+)\]", kind)
    if many:
        return [f"{NUMBERS[many[1]]} {name}[{many[2]}]"]
    if kind == "&'static [u8]":
        return [f"const uint8_t *{name}", f"size_t {name}_len"]
    return [f"void *{name}" if kind == "*mut u8" else f"{NUMBERS.get(kind) or c_name(kind)} {name}"]


def declared(text):
    """The same of the header, whose families of constants are types of one byte."""
    text = re.sub(r"/\*.*?\*/", "", text, flags=re.S)
    for family in families(text):
        text = re.sub(rf"\b{family}\b(?= [*\w])", "uint8_t", text)
    functions = {}
    for result, name, words in re.findall(r"^(\w+) (lis_\w+)\(([^)]*)\);", text, re.M):
        functions[name] = (result, [" ".join(word.split()) for word in words.split(",")])
    structs = {name: re.findall(r"(\w[^;{}]*);", words)
               for words, name in re.findall(r"typedef struct \w+ \{([^}]*)\} (lis_\w+);", text)}
    return functions, structs


def plain():
    """What the library has in plain C: its functions, which a compiler compares with the header, and their structs."""
    texts = "".join(open(path).read() for path in glob.glob(f"{OURS}/*.c"))
    functions = re.findall(r"^\w[\w *]*?(lis_\w+)\([^;]*?\) \{$", texts, re.M)
    return {"lis_line", "lis_station_line", "lis_entry", "lis_column", *functions}


class Header(kit.Test):
    def same_all(self, wanted, found, what):
        for name in sorted(wanted.keys() | found.keys()):
            self.check(wanted.get(name) == found.get(name), f"{what} {name}",
                       f"exported {wanted.get(name)}, in the header {found.get(name)}")

    def test_declarations(self):
        text, header = sources(), open(HEADER).read()
        for wanted, found, what in zip(exports(text), declared(header), ("function", "struct")):
            self.check(bool(wanted), f"no {what} is exported")
            self.same_all(wanted, {name: it for name, it in found.items() if name not in plain()}, what)
        statuses = {name: int(value) for name, value in re.findall(r"pub\(crate\) const (\w+): u8 = (\d+);", text)}
        known = families(header)["lis_status"]
        self.same("LIS_STATUS_OLD_LINE, which no export answers", known.pop("LIS_STATUS_OLD_LINE", None), 17)
        self.same_all({f"LIS_STATUS_{name}": value for name, value in statuses.items()}, known, "status")

    def test_compilers(self):
        work = kit.folder_of(self)
        if not compilers(self):
            return
        with open(f"{work}/header.c", "w") as file:
            file.write('#include "lislink.h"\nextern int header;\nint header = LIS_STATUS_OK;\n')
        file = ["-pedantic", *WARNINGS, "-c", f"{work}/header.c", "-o", f"{work}/header.o"]
        self.runs(["gcc", "-std=c99", *file])
        self.runs(["g++", "-std=c++11", "-x", "c++", *file])
        with open(f"{work}/ignores.c", "w") as other:
            other.write('#include "lislink.h"\nvoid ignores(lis_reader *s, lis_found *out);\n'
                        "void ignores(lis_reader *s, lis_found *out) { lis_reader_finish(s, out); }\n"
                        "#if defined LIS_ENUM || defined LIS_ENUM_END || defined LIS_LOOKED_AT || defined lis_status\n"
                        "#error a macro stays\n#endif\n")
        words = [*WARNINGS, "-c", f"{work}/ignores.c", "-o", f"{work}/ignores.o"]
        for compiler, said in (("gcc -std=c99", "warn_unused_result"), ("gcc -std=c11", "warn_unused_result"),
                               ("g++ -std=c++11 -x c++", "warn_unused_result"), ("g++ -std=c++17 -x c++", "nodiscard")):
            ran = subprocess.run([*compiler.split(), *words], capture_output=True, text=True)
            self.has(f"{compiler}: a status that isn't looked at", ran.stderr, said)
            self.check("a macro stays" not in ran.stderr, compiler, "a macro of lislink.h stays")

    def test_loops(self):
        """The loops at the heads of lislink.h and lislink.hpp compile, and the one of the package receives."""
        work = kit.folder_of(self)
        for name, words in (("lislink.h", ["gcc", "-std=c99", "-xc"]), ("lislink.hpp", ["g++", "-std=c++17", "-xc++"])):
            with open(f"{work}/loop", "w") as file:
                file.write(LOOPS[name].replace("LOOP", loop_of(f"include/{name}")))
            self.runs([*words, *WARNINGS, "-c", f"{work}/loop", "-o", f"{work}/loop.o"])
        kit.library()
        sys.path.insert(0, os.path.join(ROOT, "python/src"))
        import lislink
        texts, sent = [], []
        pieces = [b"\x05", lislink.frame_bytes(1, True, b"L|1\r"), b""]
        line = SimpleNamespace(recv=lambda _: pieces.pop(0), sendall=sent.append)
        exec(loop_of("python/src/lislink/__init__.py"), {"lislink": lislink, "line": line, "store": texts.append})
        self.same("what the loop of the package stores and sends", (texts, sent), ([b"L|1\r"], [b"\x06", b"\x06"]))

    def test_quotations(self):
        """Each block of C or Python on a page is in a sample, whole and in its order, at one depth."""
        files = [*glob.glob(f"{IN_C}/*"), *glob.glob(f"{IN_PYTHON}/*.py")]
        codes, count = [textwrap.dedent(open(file).read()) for file in files], 0
        for page in PAGES:
            blocks = re.findall(r"(?<!<!-- sketch -->\n)^```(?:c|python)\n(.*?)^```$", kit.read(page), re.S | re.M)
            for block in blocks:
                deeper = [textwrap.indent(block, " " * depth) for depth in range(0, 21, 4)]
                self.check(any(f"\n{it}" in f"\n{code}" for it in deeper for code in codes), page,
                           f"no sample has\n{block}")
            count += len(blocks)
        self.check(count > 1, "blocks of code", str(count))
