"""What docs/troubleshoot.md says of a host: each row's setting delivers its sample, and without it the host names the
setting."""
import asyncio
import os
import re

from lislink.capture import read_capture
from lislab.host.intake import Held, Intake
from lislab.host.fix import MOST
from lislab.model.store import COMPLETE, FIXED, Begin, End
from tests import ROOT
from tests.host.hosts import Found, Host, HostTest
from tests.host.test_lines import ACK, EOT
from tests.host.test_fixes import fixer_of, play, ports_of

SAMPLES = os.path.join(ROOT, "samples", "dialects")
#: Samples whose message is delivered without a setting, which is about what came after it.
AFTER = ("ctrl-z", "behind-l")


def rows(end):
    """The rows of samples that end so: the name, what lislab says, and what helps. `As above` has the row above it."""
    with open(os.path.join(ROOT, "docs", "troubleshoot.md"), encoding="utf-8") as file:
        found = re.findall(rf"^\| `([\w-]+)\.{end}` \| (.*) \| (.*) \|$", file.read(), re.M)
    above = ""
    for name, says, helps in found:
        above = f"{above} {helps}" if helps.startswith("As above") else helps
        yield name, says, above


def _ended(changes):
    return {one.key for one in changes if isinstance(one, End)}


async def ends_of(data, names):
    """The ends of the messages of a text, after which the session ends, on a line that fixes so."""
    intake = Intake("line", "peer", "latin-1", 1 << 24, lambda: 0.0, Held(MOST))
    fixer, changes, tries = fixer_of(names), [], []
    for some in [*intake.take(data), intake.drop("the session ended")]:
        changes += await fixer.of_all(some, intake.bodies, True, tries)
    fixer.begin_tries(tries, changes.extend)
    while any(isinstance(one, Begin) and one.key not in _ended(changes) for one in changes):
        await asyncio.sleep(0.001)
    return [one for one in changes if isinstance(one, End)]


class Dialects(HostTest):
    """The samples of dialects."""

    def test_records(self):
        """A sample of records isn't delivered without the change that its row names, is with it, and the host says it.
        """
        found = list(rows("records"))
        self.true("there are rows", len(found) > 25)
        for name, says, helps in found:
            with open(os.path.join(SAMPLES, f"{name}.records"), "rb") as file:
                data = file.read()
            options = re.findall(r"`--([\w-]+)`", helps)[:1]
            bare, fixed = (asyncio.run(ends_of(data, names)) for names in ([], options))
            reasons = [one.reason for one in bare if one.state != COMPLETE]
            if says.startswith("nothing is wrong"):
                self.same(f"{name}: it is delivered", (reasons, [one.state for one in bare]), ([], [COMPLETE]))
                continue
            self.true(f"{name}: what isn't delivered", reasons)
            named = [one.rpartition("; fix=")[2] for one in reasons if one.endswith(" would deliver it")]
            wanted = [] if name in AFTER else [f"{one} would deliver it" for one in options]
            self.same(f"{name}: the setting that is named", named, wanted)
            left = [one.reason for one in fixed if one.state != COMPLETE and not one.reason.startswith(FIXED)]
            self.same(f"{name}: what is left with it", left, [] if options else reasons)
            more = sum(one.state == COMPLETE for one in fixed) - sum(one.state == COMPLETE for one in bare)
            self.same(f"{name}: messages more", more, int(bool(options) and name not in AFTER))

    def test_links(self):
        """A session is acknowledged by a line with the settings that its row names, and not by one without."""
        cases = {name: re.findall(r"`((?:fix|link|frame)=[\w-]+)`", helps) for name, _, helps in rows("capture")}
        cases = {name: ",".join(dict.fromkeys(found)) for name, found in cases.items() if found}
        self.true("there are rows", len(cases) >= 5, str(cases))
        words = ["--listen", "0,name=joined bare", "--listen", "0,name=joined,fix=last-cr,last-l"]
        for name, settings in cases.items():
            words += ["--listen", f"0,name={name} bare", "--listen", f"0,name={name},{settings}"]
        host = Host(self.path("links.db"), *words, scale=1.0, listen=False)
        ports = ports_of(host)
        for name in cases:
            sent = units(name)
            self.same(f"{name}: acknowledged with {cases[name]}", play(ports[name], sent), [ACK] * (len(sent) - 1))
            replies = play(ports[f"{name} bare"], sent, 1)
            self.true(f"{name}: not without it", replies.count(ACK) < len(sent) - 1, replies)
        for line in ("joined", "joined bare"):
            play(ports[line], units("no-cr-in-the-texts"))
        self.same("the host's status", host.stop(), 0)
        found = Found(host.store)
        whole = {name for name in cases if any(b"L|1" in unit for unit in units(name))}
        self.same("delivered", {one.line for one in found.whole}, whole)
        reasons = [one.reason for one in found.others if one.line.startswith("joined")]
        self.true("records that run together", len(reasons) == 2 and "fix" not in "".join(reasons), str(reasons))


def units(name):
    """What the analyzer of a sample sends."""
    with open(os.path.join(SAMPLES, f"{name}.capture"), "rb") as file:
        sent = [line.data for _, line in read_capture(file.read()).lines if line.mark == ">"]
    assert sent[-1] == EOT, sent
    return sent
