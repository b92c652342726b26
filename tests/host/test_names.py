"""A name that no line has: each command that takes one says which there are."""
from lislab.model.store import INCOMPLETE
from tests import kit
from tests.host.hosts import Host, HostTest, lislab
from tests.host.test_lines import TEXTS, Client
from tests.host.test_watch_page import SCRIPT, Site, fill, whole


class Names(HostTest):
    """A wrong name of a line."""

    def test_watch(self):
        """`watch --line` knows a line that nobody connected to yet, and names all if there is none of a name."""
        host = Host(self.path("watch.db"), "--listen", "127.0.0.1:0,name=a\x1b[2J", scale=1.0)
        told = lislab("watch", "--store", host.store, "--line", "fire", "--once")
        self.same("a line without a connection", (told.stderr, "no bytes of the analyzer" in told.stdout), ("", True))
        for words in (["--once"], ["--save", self.path("x")], []):
            told = lislab("watch", "--store", host.store, "--line", "fir", *words)
            wanted = (3, "lislab: there is no line fir, but a\\x1b[2J, fire\n", "")
            self.same(f"no such line {words}", (told.returncode, told.stderr, told.stdout), wanted)

    def test_page(self):
        """The page of a line that isn't there leads to those that are."""
        store = self.path("page.db")
        for name in ("a & b", SCRIPT):
            fill(store, name, [whole("x")])
        site = Site(store)
        self.addCleanup(site.close)
        code, _, text = site.get("/line?name=fir")
        found = kit.Page(text)
        self.same("status", code, 404)
        self.has("a link", text, 'href="/line?name=a+%26+b"')
        self.true("as text", SCRIPT in found.text and "script" not in found.tags, text)

    def test_export(self):
        """`export --line` of a name that the store hasn't ends with status 1 and names those that it has."""
        store = self.path("export.db")
        host = Host(store, scale=1.0)
        with Client(host.port) as client:
            client.whole(TEXTS)
        host.stop()
        fill(store, "water", [b"H|\\^&\r"], INCOMPLETE)
        told = lislab("export", "--store", store, "--line", "fir")
        wanted = (1, "", f"lislab: {store}: there is no line fir, but fire, water\n")
        self.same("no such line", (told.returncode, told.stdout, told.stderr), wanted)
        for name, rows in (("fire", 1), ("water", 0)):
            told = lislab("export", "--store", store, "--line", name)
            self.same(name, (told.returncode, len(told.stdout.splitlines()), told.stderr), (0, rows, ""))
