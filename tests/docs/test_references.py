"""The references that `make docs` makes: each public call has words, each link leads somewhere, and what is wrong is
noticed. A part whose tool a machine lacks is skipped."""
import enum
import inspect
import os
import shutil
import subprocess
import sys

from tests import ROOT, kit
from tests.docs.links import dead_links

sys.path.insert(0, os.path.join(ROOT, "python/src"))
import lislink  # noqa: E402: it is found from there

#: What tools/docs reads.
READS = ("tools/docs", "VERSION", "include", "bindings/rust", "python/src")
#: Pages, each with the links of it that are dead.
PAGES = {
    "index.html": ('<p id="here">A <a href="#here">place</a>, <a href=sub/two.html#there>another</a>, <a href="sub/">all'
                   '</a>, <a href="https://x.example/#no">far</a>, <a class="x" href="javascript:go()">not one</a>.', []),
    "sub/index.html": ("<a href='../index.html#gone'>one</a> <a href=\"lost.html\">two</a> <!-- <a href='no.html'> -->"
                       "<img src='lost.png'>", ["../index.html#gone", "lost.html", "lost.png"]),
    "sub/two.html": ('<h1 class="a" id="there">x</h1><a href="two.html?x=1#12-14">some lines</a><i id=12>y</i>', []),
}


class References(kit.Test):
    def copy(self):
        """What tools/docs reads, in a folder that can be changed."""
        work = kit.folder_of(self)
        for name in READS:
            to = os.path.join(work, name)
            os.makedirs(os.path.dirname(to), exist_ok=True)
            if os.path.isdir(os.path.join(ROOT, name)):
                shutil.copytree(os.path.join(ROOT, name), to, ignore=shutil.ignore_patterns("target", "__pycache__"))
            else:
                shutil.copy(os.path.join(ROOT, name), to)
        return work

    def change(self, work, file, old, new):
        with open(os.path.join(work, file), encoding="utf-8") as it:
            text = it.read()
        self.check(text.count(old) == 1, f"{file} has {old!r} {text.count(old)} times")
        with open(os.path.join(work, file), "w", encoding="utf-8") as it:
            it.write(text.replace(old, new))

    def build(self, part, work=ROOT):
        """What tools/docs says when it makes a part; where that is."""
        out = kit.folder_of(self)
        ran = subprocess.run([os.path.join(work, "tools/docs"), out, part], capture_output=True, text=True)
        return ran.returncode, ran.stdout + ran.stderr, out

    def is_whole(self, part, pages):
        """A part is made without a word, has these pages, and no link of it is dead."""
        status, said, out = self.build(part)
        self.check(status == 0 and not said, f"tools/docs {part}", said)
        dead, count = dead_links(out)
        self.check(not dead and count > 100, f"dead links of {count} in {part}", "\n".join(dead[:20]))
        for page in pages:
            self.check(os.path.exists(os.path.join(out, part, page)), f"{part} has {page}")
        self.check(os.path.exists(os.path.join(out, "index.html")), f"{part}: the page that leads to it")
        return out

    def is_noticed(self, part, work, *words):
        """What is wrong in a copy ends tools/docs, which names it."""
        status, said, _ = self.build(part, work)
        self.check(status != 0 and all(it in said for it in words), f"{part}: {words} isn't noticed", said)

    def test_c(self):
        self.needs("doxygen", shutil.which("doxygen"), 11, "the reference of C and C++")
        out = self.is_whole("c", ["group__part0.html", "classlislink_1_1receiver.html"])
        work = self.copy()
        self.same("the reference that is made in another folder", files_of(self.build("c", work)[2]), files_of(out))
        self.change(work, "include/lislink.h", "/* Drops the texts of the next session. */\nvoid lis_sender_clear(",
                    "/* Forgets the texts of the next session, all of\n * them. */\nvoid lis_sender_clear(")
        self.check(self.build("c", work)[0] == 0, "other words in a comment")
        self.change(work, "include/lislink.h", "/* Forgets the texts of the next session, all of\n * them. */\n", "")
        self.change(work, "include/lislink.hpp", "    // gives up the session that goes on\n", "\n")
        self.is_noticed("c", work, "lis_sender_clear", "lislink::sender")

    def test_rust(self):
        self.needs("cargo", shutil.which("cargo"), 7, "the reference of the crates")
        self.is_whole("rust", ["lislink/struct.Receiver.html", "lislink_sys/index.html"])
        work = self.copy()
        self.change(work, "bindings/rust/lislink/src/lib.rs", "/// The release of the library.\n", "")
        self.is_noticed("rust", work, "missing documentation for a function")

    def test_python(self):
        self.needs("sphinx-build", shutil.which("sphinx-build"), 7, "the reference of the package")
        out = self.is_whole("python", ["genindex.html"])
        with open(os.path.join(out, "python/index.html"), encoding="utf-8") as page:
            self.check("Alias for field" not in page.read(), "a field of a named tuple has no words")
        work = self.copy()
        self.change(work, "python/src/lislink/rows.py", '"""A field as it came; empty',
                    '"""A field as it *came; empty')
        self.is_noticed("python", work, "start-string without end-string")

    def test_docstrings(self):
        """What `import lislink` gives has words, and each of its calls has."""
        for name in lislink.__all__:
            it = getattr(lislink, name)
            if not inspect.isclass(it) and not callable(it):
                continue
            self.check(is_told(it), f"lislink.{name} has no docstring")
            for member in dir(it) if inspect.isclass(it) and not issubclass(it, enum.Enum) else ():
                found = inspect.getattr_static(it, member)
                if not member.startswith("_") and (inspect.isfunction(found) or isinstance(found, property)):
                    self.check(is_told(found), f"lislink.{name}.{member} has no docstring")
        self.check(not is_told(untold), "a call without a docstring is noticed")

    def test_links(self):
        """The dead links of some pages are found, and no other."""
        work = kit.folder_of(self)
        os.mkdir(os.path.join(work, "sub"))
        for name, (text, _) in PAGES.items():
            with open(os.path.join(work, name), "w", encoding="utf-8") as file:
                file.write(text)
        wanted = [f"{name}: {link}" for name, (_, links) in PAGES.items() for link in links]
        self.same("dead links, of 7", dead_links(work), (wanted, 7))


def files_of(folder):
    """The bytes of the files in a folder, by their names."""
    found = {}
    for path, _, names in os.walk(folder):
        for name in names:
            with open(os.path.join(path, name), "rb") as file:
                found[os.path.relpath(os.path.join(path, name), folder)] = file.read()
    return found


def is_told(it):
    return bool((it.__doc__ or "").strip())


def untold(it):
    return it
