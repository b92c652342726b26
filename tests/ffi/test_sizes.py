"""Sizes and symbols: what tools/sizes measures, the constants of blocks, what the library calls, and what the shared
one exports."""
import os
import re
import subprocess

from tests import ROOT, kit
from tests.ffi.c import BARE, HEADER, WARNINGS, source

KINDS = ["scanner", "sender", "receiver", "station", "reader", "writer"]
#: What only src/c/heap.c calls, for malloc and for a variable of a thread.
OF_THE_HEAP = {"malloc", "realloc", "free", "__tls_get_addr", "_GLOBAL_OFFSET_TABLE_"}
PRINTS = "".join(f'printf("{it} %zu %zu %d\\n", lis_{it}_size(), lis_{it}_align(), LIS_{it.upper()}_BLOCK);\n'
                 for it in KINDS)
#: A program whose own heap has the names of the library's: the shared library must not call it.
OWN_HEAP = """#include <lislink.h>
#include <stdlib.h>
rattle_tried rattle_alloc(size_t size, size_t align) { (void)size; (void)align; abort(); }
rattle_tried rattle_realloc(uint8_t *p, size_t kept, size_t size, size_t align) {
    (void)p; (void)kept; return rattle_alloc(size, align); }
void rattle_dealloc(uint8_t *p) { (void)p; abort(); }
int main(void) {
    lis_sender sender = {malloc(LIS_SENDER_BLOCK)};
    lis_sender_init(sender.at);
    if (lis_sender_add_text(&sender, (const uint8_t *)"L|1\\r", 4) != LIS_STATUS_OK) return 1;
    lis_sender_end(sender);
    free(sender.at);
    return 0;
}
"""


def symbols(*words):
    """The names that nm prints."""
    lines = subprocess.run(["nm", *words], capture_output=True, text=True, check=True).stdout.splitlines()
    return {line.split()[-1].partition("@")[0] for line in lines if line.split() and not line.endswith(":")}


def code_of(path):
    """How many bytes the sections of code have."""
    lines = subprocess.run(["size", "-A", path], capture_output=True, text=True, check=True).stdout
    return sum(int(size) for size in re.findall(r"^\.text\S*\s+(\d+)", lines, re.M))


class Sizes(kit.Test):
    def setUp(self):
        self.work, self.page = kit.folder_of(self), " ".join(kit.read("docs/library.md").split())
        self.archive, self.build = kit.built("archive"), kit.built("build")
        self.sizes = subprocess.run([f"{ROOT}/tools/sizes", self.build], capture_output=True, text=True).stdout

    def figures(self, row):
        """The numbers of a row that tools/sizes prints."""
        found = re.search(rf"^\| {re.escape(row)}[^|]*((?:\| [^|]* )+)\|$", self.sizes, re.M)
        self.assertTrue(found, f"tools/sizes prints no row '{row}'")
        return [int(it.replace(",", "")) for it in re.findall(r"[\d,]*\d", found[1])]

    def near(self, name, said, found):
        """Within a twentieth: compilers differ a little."""
        self.check(abs(said - found) <= found / 20, f"tools/sizes: {name}", f"{said} printed, {found} built")

    def test_blocks(self):
        with open(f"{self.work}/sizes.c", "w") as file:
            file.write(f"#include <lislink.h>\n#include <stdio.h>\nint main(void) {{\n{PRINTS}return 0;\n}}\n")
        words = ["gcc", *WARNINGS, f"{self.work}/sizes.c", f"{self.build}/liblislink.a", "-o", f"{self.work}/sizes"]
        self.assertTrue(self.runs(words))
        rows = [line.split() for line in self.runs([f"{self.work}/sizes"]).stdout.splitlines()]
        align = int(re.search(r"LIS_BLOCK_ALIGN = (\d+)", kit.read(HEADER))[1])
        for kind, size, multiple, constant in rows:
            self.check(int(size) <= int(constant) and align % int(multiple) == 0, f"LIS_{kind.upper()}_BLOCK",
                       f"{constant} at a multiple of {align}, for {size} at a multiple of {multiple}")
            self.same(f"tools/sizes: a {kind}", self.figures(f"a {kind}"), [int(size), int(multiple)])

    def test_code(self):
        self.near("code", self.figures("the whole library")[0], code_of(self.archive))
        if self.runs([*BARE, source("bare.c"), self.archive, "-o", f"{self.work}/bare"]):
            words = ["size", "-A", f"{self.work}/bare"]
            lines = subprocess.run(words, capture_output=True, text=True, check=True).stdout
            (code,), (room,) = self.figures("`examples/c/bare.c`, linked"), self.figures("its blocks and buffers")
            self.near("code of bare.c", code, code_of(f"{self.work}/bare"))
            self.near("blocks of bare.c", room, int(re.search(r"^\.bss\s+(\d+)", lines, re.M)[1]))

    def test_symbols(self):
        calls = symbols("-u", f"{self.build}/liblislink.a") - symbols("--defined-only", f"{self.build}/liblislink.a")
        said = re.search(r"It calls ((?:`\w+`(?:, | and )?)+)", self.page)
        self.same("docs/library.md: what the library calls", set(re.findall(r"\w+", said[1])) - {"and"},
                  calls - OF_THE_HEAP)
        declared = set(re.findall(r"^(?:const char \*|\w+ )(lis_\w+)\(", kit.read(HEADER), re.M))
        shared = f"{self.build}/liblislink.so.1"
        self.same("what liblislink.so.1 exports", symbols("-D", "--defined-only", shared) - {"LISLINK_1"}, declared)

    def test_heap(self):
        """The shared library keeps to its heap, also in a program that has its own."""
        with open(f"{self.work}/own.c", "w") as file:
            file.write(OWN_HEAP)
        words = ["gcc", *WARNINGS, f"{self.work}/own.c", f"-L{self.build}", "-llislink", "-o", f"{self.work}/own"]
        if self.runs(words):
            self.runs([f"{self.work}/own"], "", env={**os.environ, "LD_LIBRARY_PATH": self.build})
