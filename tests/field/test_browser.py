"""The pages of `lislab ladder --html` in a real browser, Debian's chromium, headless and without a network.

Each sample's page must open without an error and show the counts that the ladder has; filter, folding and printing must
work. With a folder in PICTURES the pictures for the documents are made there.
"""
import glob
import html
import json
import os
import re
import shutil
import subprocess

from lislink.capture import read_capture
from lislab.field.ladder import Ladder
from lislab.field.looks import looks_of
from tests import ROOT, kit
from tests.field.lab import FieldTest, lislab

PICTURES = os.environ.get("PICTURES")

#: Looks at each page in a frame: what its own script reported, its counts, and what its filter and its folding do.
LOOKER = """
<!doctype html><meta charset="utf-8"><body>FRAMES<pre id="told"></pre><script>
function look(frame) {
  var page = frame.contentDocument, root = page.documentElement, told = {counts: {}, looks: []};
  told.ready = root.dataset.ready; told.failed = root.dataset.failed || '';
  page.querySelectorAll('[data-count]').forEach(function (one) {
    told.counts[one.dataset.count] = one.querySelector('b').textContent;
  });
  page.querySelectorAll('[data-look]').forEach(function (one) { told.looks.push(one.dataset.look); });
  function shown() { return page.querySelectorAll('#ladder tbody tr:not([hidden])').length; }
  told.all = shown();
  var wrong = page.getElementById('wrong'), find = page.getElementById('find');
  wrong.click(); told.wrong = shown(); wrong.click();
  find.value = 'enq'; find.dispatchEvent(new Event('input')); told.enq = shown();
  find.value = ''; find.dispatchEvent(new Event('input')); told.again = shown();
  page.getElementById('open').click(); told.open = page.querySelectorAll('main details:not([open])').length;
  page.getElementById('close').click(); told.closed = page.querySelectorAll('main details[open]').length;
  told.wide = page.documentElement.scrollWidth <= page.documentElement.clientWidth + 1;
  frame.width = 420;
  told.narrow = page.documentElement.scrollWidth <= page.documentElement.clientWidth + 1;
  page.querySelectorAll('th').forEach(function (one) {
    told.narrow = told.narrow && one.scrollWidth <= one.clientWidth + 1 && one.clientHeight < 40;
  });
  return told;
}
window.addEventListener('load', function () {
  var all = {};
  document.querySelectorAll('iframe').forEach(function (frame) {
    try { all[frame.title] = look(frame); } catch (error) { all[frame.title] = {failed: String(error)}; }
  });
  document.getElementById('told').textContent = JSON.stringify(all);
});
</script>
"""


def browser():
    return shutil.which("chromium") or shutil.which("chromium-browser")


def chromium(*words):
    return subprocess.run(
        [
            browser(),
            "--headless",
            "--no-sandbox",
            "--disable-gpu",
            "--disable-dev-shm-usage",
            "--allow-file-access-from-files",
            "--hide-scrollbars",
            "--no-first-run",
            "--disable-background-networking",
            "--proxy-server=127.0.0.1:9",
            "--virtual-time-budget=8000",
            *words,
        ],
        capture_output=True,
        text=True,
        timeout=300,
        check=False,
    )


def pages(test):
    """The page of each sample, and the ladder that it shows."""
    told = {}
    for path in sorted(glob.glob("samples/*.capture") + glob.glob("samples/dialects/*.capture")):
        name = os.path.basename(path)
        page = test.path(name + ".html")
        lislab("ladder", path, "--html", page)
        told[name] = (page, Ladder(read_capture(kit.bytes_of(path))))
    return told


def look_at(test, told):
    frames = "".join(
        f'<iframe title="{html.escape(name)}" src="file://{page}" width="1300" height="800"></iframe>'
        for name, (page, _) in told.items()
    )
    looker = test.path("looker.html", LOOKER.replace("FRAMES", frames).encode())
    done = chromium("--dump-dom", "file://" + looker)
    found = re.search(r'<pre id="told">(.*?)</pre>', done.stdout, re.S)
    return json.loads(html.unescape(found[1])) if found and found[1] else {}


def compare(test, name, ladder, seen):
    rows = len(ladder.rows)
    if not test.same(f"{name}: no error", seen.get("failed", "nothing was told"), ""):
        return
    wanted = {
        key: str(value)
        for key, value in ladder.counts().items()
        if value or key in ("frames", "texts", "differences")
    }
    test.same(f"{name}: counts", seen["counts"], wanted)
    test.same(f"{name}: what looks wrong", seen["looks"], [look.name for look in looks_of(ladder)])
    test.check(int(seen["ready"]) == seen["all"] == seen["again"] >= rows, f"{name}: rows", f"{seen}, {rows} rows")
    test.same(
        f"{name}: only what looks wrong", seen["wrong"], sum(row.level in ("bad", "warn") for row in ladder.rows)
    )
    test.check(
        seen["enq"] >= sum(row.kind == "ENQ" for row in ladder.rows), f"{name}: the filter", str(seen["enq"])
    )
    test.same(f"{name}: folding", (seen["open"], seen["closed"]), (0, 0))
    test.check(seen["wide"], f"{name}: it fits the window")
    test.check(seen["narrow"], f"{name}: it fits a telephone, each heading in a line")


def alone(test, told):
    """One page by itself: as it is, printed, and as a picture."""
    page, ladder = told["version-2.capture"]
    done = chromium("--dump-dom", "file://" + page)
    test.has("a page by itself", done.stdout, f'data-ready="{len(ladder.rows)}"')
    test.check("data-failed" not in done.stdout, "a page by itself: no error")
    out = test.path("page.pdf")
    chromium("--no-pdf-header-footer", f"--print-to-pdf={out}", "file://" + page)
    test.check(os.path.exists(out) and open(out, "rb").read(5) == b"%PDF-", "a page is printed")


def pictures(test, told):
    """Pictures for the documents."""
    trace = test.path("trace.pcap.html")
    lislab("ladder", "samples/logs/pcap.pcap", "--html", trace)
    for name, page, size in (
        ("ladder", trace, "1180,640"),
        ("ladder-wrong", told["always-1.capture"][0], "1180,760"),
    ):
        out = os.path.join(PICTURES, name + ".png")
        chromium(f"--window-size={size}", f"--screenshot={out}", "file://" + page)
        test.check(os.path.exists(out), f"a picture {name}")


class Browser(FieldTest):
    def test_pages(self):
        os.chdir(ROOT)
        told = pages(self)
        self.needs("chromium", browser(), 9 * len(told) + 3 + 2 * bool(PICTURES), "the pages in a browser")
        seen = look_at(self, told)
        for name, (_, ladder) in told.items():
            compare(self, name, ladder, seen.get(name, {}))
        alone(self, told)
        if PICTURES:
            pictures(self, told)
