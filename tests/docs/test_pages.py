"""The pages agree with the repository: README.md, docs/*.md, and the other pages that PAGES names.

Code that a page quotes is in a file that the gate proves or runs; each link and each path that a page names is there;
each command of a page prints what the page says.

A line '$ COMMAND' of a block is a command, and the lines up to the next one are their output, which also has what went
to standard error. A line '..' is any lines, '..' at the end of a line any characters. The commands of a page run in
turn in one folder with samples/, tools/ and build/, with a free port in the place of 4000, and one for each port up to
4099. What they leave running ends with the page. A block of a shell that can't run here, since it takes minutes or needs a device, is marked by a comment,
<!-- norun -->, at the end of the last line before it. It is counted. Code that is no quotation is marked by
<!-- sketch -->, and counted too.
"""
import collections
import glob
import os
import re
import shutil
import signal
import subprocess
import tempfile
import textwrap
import time

from tests import ROOT, kit

PAGES = ["README.md", "CONTRIBUTING.md", "CHANGELOG.md", "SECURITY.md", "docs/*.md", "conformance/README.md",
         "python/README.md", "lab/README.md", "samples/makers/README.md"]
SOURCES = {
    "rust": ["crates/uses/src/*.rt", "crates/quick_results/src/*.rt", "crates/lis_tests/src/*.rt", "examples/rattle/*.rs",
             "bindings/rust/**/*.rs"],
    "c": ["examples/c/*.c", "src/c/*.c", "bindings/**/*.c"],
    "cpp": ["examples/cpp/*.cpp", "tests/**/*.cpp"],
    "python": ["examples/python/*.py", "python/src/lislink/**/*.py",
               "lab/src/lislab/**/*.py"],
}
# What a command begins with: a block with such a line is a block of a shell.
COMMANDS = re.compile(
    r"^ *(?:sudo |cd |make( |$)|rt |pip |cc |gcc |git |socat |lislink \w+( --long)? <|lislab \w|"
    r"tools/|tests/|conformance/run|examples/|build/)")
FOLDERS = "docs|tests|tools|examples|crates|conformance|samples|include|bench|python|lab|bindings"
PATH = re.compile(rf"`((?:{FOLDERS})/[\w./+-]+)`")
SHELL = {"sh", "console"}
MARK = re.compile(r"<!-- (norun|sketch) -->\s*$")
# The ports of the pages' examples.
PORT = re.compile(r"(?<=--listen )40\d\d\b|(?<=receive )4000\b|(?<=\.py )4000\b|(?<=listen = )40\d\d\b|(?<=:)40\d\d\b")


def blocks(text):
    """The code blocks of a page: the words after its fence (none for an indented block) and how it is marked, its
    lines, its first line."""
    lines, at = text.split("\n"), 0
    while at < len(lines):
        begun = at
        if lines[at].startswith("```"):
            at += 1
            while at < len(lines) and not lines[at].startswith("```"):
                at += 1
            above = MARK.search(next((line for line in reversed(lines[:begun]) if line.strip()), ""))
            words = lines[begun][3:].strip().replace(" ", "+")
            yield words + (f" {above[1]}" if above else ""), lines[begun + 1:at], begun + 1
        elif lines[at].startswith("    ") and (at == 0 or not lines[at - 1].strip()):
            while at < len(lines) and (lines[at].startswith("    ") or not lines[at].strip()):
                at += 1
            yield "", [line[4:] for line in lines[begun:at]], begun + 1
            continue
        at += 1


def sources():
    """The texts that code may be quoted from, by language."""
    found = {}
    for language, forms in SOURCES.items():
        paths = [path for form in forms for path in glob.glob(form, root_dir=ROOT, recursive=True)]
        found[language] = [kit.read(path) for path in sorted(paths)]
    return found


def quotes(block, source):
    """Whether a source has a block as it is, or all its lines further in."""
    return any(f"\n{textwrap.indent(block, ' ' * columns)}" in f"\n{source}" for columns in range(0, 24, 4))


def check_block(test, page, words, lines, line, texts):
    """A block is a quotation, a sketch, a run of commands, or no shell at all."""
    text = "".join(f"{it}\n" for it in lines)
    language = words.split(" ")[0]
    test.check("+" not in words, f"{page}:{line}: a fence has one word, not {words}")
    if words.endswith(" sketch"):
        test.sketches += 1
    elif words == "sh norun":
        test.marked += 1
    elif language in texts:
        test.check(any(quotes(text, source) for source in texts[language]),
                   f"{page}:{line}: no file of {', '.join(SOURCES[language])} has this code:\n{text}")
    elif not any(it.startswith("$ ") for it in lines):
        found = next((it for it in lines if COMMANDS.match(it)), None)
        test.check(found is None, f"{page}:{line}: '{found}' is neither run ($) nor marked (<!-- norun -->)")


def anchors(text):
    """The anchors of a page's headings."""
    heads = re.findall(r"(?m)^#+ (.*)$", text)
    return {re.sub(r"[^\w -]", "", head.replace("`", "").lower()).replace(" ", "-") for head in heads}


def check_links(test, page, text):
    """Each link and each path in code leads to a file, each anchor to a heading."""
    prose = re.sub(r"(?ms)^```.*?^```$", "", text)
    for target in re.findall(r"\]\(([^)\s]+)\)", prose):
        if re.match(r"\w+:", target):
            continue
        path, _, anchor = target.partition("#")
        whole = os.path.normpath(os.path.join(os.path.dirname(page), path)) if path else page
        good = os.path.exists(os.path.join(ROOT, whole))
        if good and anchor and whole.endswith(".md"):
            good = anchor in anchors(kit.read(whole))
        test.check(good, f"{page}: the link {target} leads nowhere")
    for path in PATH.findall(prose):
        if not re.search(r"NAME|MODULE|\.\.", path):
            test.check(os.path.exists(os.path.join(ROOT, path.rstrip("."))), f"{page}: there is no {path}")


def commands(lines):
    """The commands of a block, each with the lines that it is to print."""
    at = 0
    while at < len(lines):
        if lines[at].startswith("$ "):
            command, wanted, at = lines[at][2:], [], at + 1
            while at < len(lines) and not lines[at].startswith("$ "):
                wanted.append(lines[at])
                at += 1
            while wanted and not wanted[-1].strip():
                wanted.pop()
            yield command, wanted
        else:
            at += 1


def fits(got, wanted):
    """Whether lines are the wanted ones but for blanks at their ends, '..' being any lines or any end of a line."""
    form = "".join(r"(?:.*\n)*" if line == ".." else re.sub(r" \\\.\\\.$", " .*", re.escape(line)) + r"\n"
                   for line in wanted)
    return re.fullmatch(form, "".join(f"{line.rstrip()}\n" for line in got)) is not None


def make_folder(folder, program, build):
    """A folder as a checkout after make: links to what commands name, and the built files."""
    for name in ("samples", "tools", "python", "docs", "conformance", "examples", "include", "VERSION"):
        os.symlink(os.path.join(ROOT, name), os.path.join(folder, name))
    os.makedirs(os.path.join(folder, "build"))
    os.makedirs(os.path.join(folder, "bin"))
    os.symlink(program, os.path.join(folder, "build", "lislink"))
    os.symlink(program, os.path.join(folder, "bin", "lislink"))
    os.symlink(os.path.join(ROOT, "tools", "lislab"), os.path.join(folder, "bin", "lislab"))
    for name in ("liblislink.so", "liblislink.a"):
        if os.path.exists(os.path.join(build, name)):
            os.symlink(os.path.join(build, name), os.path.join(folder, "build", name))


def by_bash(command):
    """The words that run a command here."""
    return ["bash", "-c", command]


def output_of(command, folder, environment, groups, words=by_bash):
    """The lines that a command prints; what it leaves running is in its process group."""
    with subprocess.Popen(words(f"{{ {command}\n}} 2>&1"), cwd=folder, env=environment, text=True,
                          errors="replace", stdout=subprocess.PIPE, stdin=subprocess.DEVNULL,
                          start_new_session=True) as ran:
        groups.append(ran.pid)
        try:
            text = ran.communicate(timeout=600)[0]
        except subprocess.TimeoutExpired:
            end_all(groups)
            return ["not over after 10 minutes"]
    return text.rstrip("\n").split("\n") if text.strip("\n") else []


def end_all(groups):
    """Ends the processes of these groups, and waits for 5 seconds at most until they are gone."""
    until = time.monotonic() + 5
    for group in groups:
        try:
            os.killpg(group, signal.SIGKILL)
            while time.monotonic() < until:
                os.killpg(group, 0)
                time.sleep(0.05)
        except ProcessLookupError:
            continue
    groups.clear()


def run_page(test, page, text, program, build):
    """Runs the commands of a page in turn and compares what they print."""
    groups, ports = [], collections.defaultdict(lambda: str(kit.free_port()))
    with tempfile.TemporaryDirectory() as folder:
        make_folder(folder, program, build)
        environment = {**os.environ, "PATH": f"{folder}/bin:{os.environ['PATH']}",
                       "LISLINK_LIBRARY": os.path.join(build, "liblislink.so")}
        for words, lines, line in blocks(text):
            if words and words not in SHELL or words == "sh norun":
                continue
            if any(it.startswith("$ socat ") for it in lines) and not shutil.which("socat"):
                print(f"skipped: socat: {len(list(commands(lines)))} checks: a host of the pages")
                continue
            for command, wanted in commands(lines):
                got = output_of(PORT.sub(lambda found: ports[found[0]], command), folder, environment, groups)
                test.check(fits(got, wanted), f"{page}:{line}: {command}\n  wanted {wanted}\n  printed {got}")
        end_all(groups)


def pages():
    """The pages, each with its text."""
    for page in sorted(path for form in PAGES for path in glob.glob(form, root_dir=ROOT)):
        yield page, kit.read(page)


class Pages(kit.Test):
    marked = sketches = 0

    def test_quotations(self):
        """Each block is a quotation, a sketch, a run of commands, or no shell at all."""
        texts = sources()
        for page, text in pages():
            for kind, lines, line in blocks(text):
                check_block(self, page, kind, lines, line, texts)
        print(f"not run here, and marked so: {self.marked} blocks of a shell, {self.sketches} sketches of code")

    def test_links(self):
        for page, text in pages():
            check_links(self, page, text)

    def test_commands(self):
        program, build = kit.built("lislink"), kit.place("build")
        for page, text in pages():
            run_page(self, page, text, program, build)
