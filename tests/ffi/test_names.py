"""The header's constants: each has words of its own in src/c/names.c, the version is that of VERSION, and one of
another family is noticed by a compiler. That each language has the same names is for tools/codes."""
import os
import re
import subprocess

from tests import ROOT, kit
from tests.ffi.c import C11, HEADER, SANITIZERS, WARNINGS, families, source

CALL = {"lis_signal_kind": "lis_signal_text", "lis_found_kind": "lis_found_text"}
SETS = '#include "lislink.h"\nlis_status set(lis_receiver *receiver);\n' \
       "lis_status set(lis_receiver *receiver) {{ return lis_receiver_set_ready(receiver, {}); }}\n"
COMPILERS = (["gcc", "-std=c99"], ["gcc", "-std=c11"], ["g++", "-std=c++11", "-x", "c++"])


def program(known):
    """A program in C that prints the version and a line for each constant, and for the number after the last."""
    lines = []
    for family, constants in known.items():
        call = CALL.get(family, f"{family}_text")
        numbers = [*constants.values(), max(constants.values()) + 1, 255]
        lines += [f'    printf("%s %d %s\\n", "{family}", {number}, {call}(({family}){number}));' for number in numbers]
    head = ['#include "lislink.h"', "#include <stdio.h>", "int main(void) {", "    puts(lis_version());"]
    return "\n".join([*head, *lines, "    return 0;", "}", ""])


class Names(kit.Test):
    def test_page(self):
        """The manual page names each call but those that each handle has, and the words of each family but two."""
        page = kit.read("docs/man/lislink.3")
        left_out = re.compile(r"lis_(scanner|sender|receiver|station|reader|writer)_(size|align|init|end)"
                              r"|lis_(signal|fault|phase|outcome|ready|role|found|reason)_text")
        for call in re.findall(r"^(?:const char \*|\w+ )(lis_\w+)\(", kit.read("include/lislink.h"), re.M):
            self.check(left_out.fullmatch(call) or re.search(rf"\b{call}\b", page), f"lislink.3 doesn't name {call}")

    def test_families(self):
        """A constant of another family is an error, or a warning of -Wextra; one of its own family is fine."""
        work = kit.folder_of(self)
        for constant, fine in (("LIS_READY_BUSY", True), ("LIS_PHASE_BUSY", False)):
            with open(f"{work}/sets.c", "w") as file:
                file.write(SETS.format(constant))
            for words in COMPILERS:
                flags = [*WARNINGS, "-c", f"{work}/sets.c", "-o", f"{work}/sets.o"]
                ran = subprocess.run([*words, *flags], capture_output=True, text=True)
                self.check((ran.returncode == 0) == fine, f"{' '.join(words)}: {constant} as a readiness: {ran.stderr}")

    def test_words(self):
        work, known = kit.folder_of(self), families(open(HEADER).read())
        with open(f"{work}/names.c", "w") as file:
            file.write(program(known))
        if self.runs([*C11, *SANITIZERS, f"{work}/names.c", source("names.c"), "-o", f"{work}/names"]):
            ran = subprocess.run([f"{work}/names"], capture_output=True, text=True)
            self.of_words(known, ran.stdout)

    def of_words(self, constants_of, printed):
        """Each constant has words of its own in its family; any other number has 'unknown'."""
        version = kit.read("VERSION").strip()
        said, *lines = printed.splitlines()
        self.same("lis_version()", said, version)
        rows = [line.split(" ", 2) for line in lines]
        for family, constants in constants_of.items():
            words = {int(number): text for name, number, text in rows if name == family}
            known = [words.pop(number) for number in constants.values()]
            good = len(known) > 1 and "unknown" not in known and len(set(known)) == len(known)
            self.check(good, f"{family}: the words {known}")
            self.check(set(words.values()) == {"unknown"}, f"{family}: {words}")
            self.check(sorted(constants.values()) == list(range(len(constants))), f"{family}: the numbers {constants}")
        self.same("how many families the header has", len(constants_of), 10)
