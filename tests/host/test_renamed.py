"""The names of the version before: each is accepted, and one line of standard error has the new one."""
import itertools

from lislab.model import lines, options, renamed
from tests.host.hosts import Host, HostTest, lislab

#: A value that fits each key that has a new name, and the values that have one.
WORDS = {"mend": "nul", "ask": "cat"}


class Renamed(HostTest):
    """Old names."""

    def report(self, old, new):
        """The line that reports a name."""
        return f"lislab: {old} is now {new}; the next version accepts only {new}\n"

    def test_keys(self):
        """A lines file, and the words of a command, with each old name."""
        self.same("keys", sorted(WORDS), sorted(renamed.KEYS))
        cases = [(old, WORDS[old], new, WORDS[old], old, new) for old, new in renamed.KEYS.items()]
        cases += [(key, old, key, new, f"{key} = {old}", f"{key} = {new}") for (key, old), new in renamed.VALUES.items()]
        for number, (key, word, new_key, new_word, old, new) in enumerate(cases):
            more = "" if "orders" in (key, new_key) or new_key == "fix" else "orders = query\n"
            path = self.path(f"{number}.lines")
            for name, value in ((key, word), (new_key, new_word)):
                section = f"listen = 4000\n{more}{name} = {value}\n"
                with open(path, "w", encoding="ascii") as out:
                    out.write(f"[a]\n{section}[b]\n{section.replace('4000', '4001')}")
                done = lislab("lines", path)
                shown = f"{new_key}={new_word}"
                self.true(f"{name} = {value}", done.returncode == 0 and done.stdout.count(shown) == 2, done.stdout)
                self.same(f"{name} = {value}: reported", done.stderr, self.report(old, new) if name + value == key + word else "")
        with open(self.path("both.lines"), "w", encoding="ascii") as out:
            out.write("[a]\nlisten = 4000\nmend = nul\nfix = nul\n")
        found = lines.read_lines(out.name, [])
        self.same("the old name and the new one", found.faults, [f"{out.name}:4: fix is there twice"])
        self.same("in words", options.listen_of("0,mend=bytes,nul,orders=send")[5:9], ("download", "L-I", (), ("nul", "bytes")))

    def test_options(self):
        """Each option under its old name."""
        host = Host(self.path("options.db"), "--listen", "0,name=a,orders=query")
        ran = {
            "serve": ("serve", "--store", self.path("no.db"), "--listen", "x"),
            "send": ("send", "--to", f"127.0.0.1:{host.port}", "--scale", "0.1"),
            "deliver": ("deliver", "--store", host.store, "--cursor", self.path("c"), "--once", "--directory", self.path("out")),
        }
        for (command, old), new in renamed.OPTIONS.items():
            words = ["--lines", "5"] if old == "--lines N" else [old, "1"]
            done = lislab(*ran[command], *words)
            self.same(f"{command} {old}", done.stderr.count(self.report(old, new)), 1)
            shown = lislab(command, "--help").stdout
            self.true(f"{command} --help", new.split()[0] in shown and f"{words[0]} " not in shown.replace("--lines FILE", ""))
    def test_states(self):
        """`export --state` under each old name."""
        host = Host(self.path("states.db"))
        self.same("the host", host.stop(), 0)
        for old, new in itertools.chain(renamed.STATES.items(), [("all", "all")]):
            done = lislab("export", "--store", host.store, "--state", old)
            told = self.report(f"--state {old}", f"--state {new}") if old != new else ""
            self.same(f"{old}", (done.returncode, done.stderr), (0, told))
