"""Plays against a plain host: all that it can answer go through, and each fault that is planted in it is named by one.
The command without the library; either end; a serial line; the report and JUnit's XML."""
import contextlib
import os
import pty
import random
import re
import socket
import stat
import subprocess
import sys
import threading
import time
import tty
import xml.etree.ElementTree

from lislab.play import wire
from lislab.play.frames import made
from tests import kit
from tests.host import SOURCE
from tests.play.hosts import PLAYS, Plain, Restarts, SCALE, SHORT, UNASKED, play, scripts, short

#: The words of the plain host for plays that need it so.
NEEDS = {name: ("worklist",) for name in UNASKED}
SUM = re.compile(r"plays (\d+) failed (\d+) steps (\d+) differences (\d+)")


def failing(ran):
    """The plays of a folder that differ, each with its differences."""
    found, rows = {}, []
    for row in ran.lines:
        if row.startswith("difference "):
            rows.append(row)
        elif " steps " in row and not row.startswith("plays "):
            found.update({row.split(" ")[0][:-5]: rows} if rows else {})
            rows = []
    return found


def host_of(test, code):
    """Where a host listens that this code is, in which `s` is its socket. It ends with the test."""
    head = "import socket; s = socket.create_server(('127.0.0.1', 0)); print(s.getsockname()[1], flush=True)\n"
    process = subprocess.Popen([sys.executable, "-c", head + code], stdout=subprocess.PIPE, text=True)
    test.addCleanup(lambda: (process.kill(), process.wait(), process.stdout.close()))
    return f"127.0.0.1:{process.stdout.readline().strip()}"


class Plays(kit.Test):
    def test_results(self):
        """A good host: no play differs, and all is kept once."""
        folder = short(self)
        ran = Plain(self).play(folder)
        self.same("status", ran.status, 0)
        found = SUM.fullmatch(ran.lines[-1])
        self.check(found and [int(found[1]), int(found[2]), int(found[4])] == [len(scripts("results")) - 1, 0, 0],
                   "the sum", ran.text[-300:])
        self.same("a line for each play", len(ran.lines), len(os.listdir(folder)) + 1)
        ran = Plain(self, scale=SHORT).play(os.path.join(PLAYS, "results", "silent-analyzer.play"))
        self.check(ran.status == 0, "the one that is silent", ran.text + ran.error)

    def test_queries(self):
        for path in scripts("queries"):
            name = os.path.basename(path)[:-5]
            ran = Plain(self, *NEEDS.get(name, ()), scale=2 * SHORT).play(path)
            self.check(ran.status == 0 and ran.text.endswith(" differences 0\n"), name, ran.text + ran.error)
            if name not in ("query-answered", "query-without-orders", "worklist", "contention-won"):
                continue
            other = Plain(self, *([] if name in NEEDS else ["worklist"]), scale=0.02)
            other = other.play(path, "--within", "0.4")
            self.check(other.status == 1 and "difference " in other.text, f"{name}, a host that does otherwise",
                       other.text + other.error)

    def test_acknowledges_first(self):
        """The fault is seen while the host runs, and after it was killed."""
        host = Plain(self, "acknowledges-first")
        found = failing(host.play(short(self)))
        self.check("one-sample" in found, "what isn't kept yet", str(found))
        form = re.compile(r'difference 18 kept:(".*")\*1 kept:\1\*0')
        rows = found.get("one-sample", [])
        self.check(any(map(form.fullmatch, rows)), "how it is named", str(rows))
        path = os.path.join(PLAYS, "results", "restarted-host.play")
        host.kill()  # with what it hasn't kept yet
        host.start()
        restarts = Restarts(self, host)
        ran = host.play(path, "--restart", restarts.command)
        self.check(ran.status == 1 and 'kept:"L|1|N"*0' in ran.text, "what a kill has lost", ran.text + ran.error)
        self.same("how often it was killed", restarts.count, 1)
        good = Plain(self)
        ran = good.play(path, "--restart", Restarts(self, good).command)
        self.check(ran.status == 0, "what a kill hasn't lost", ran.text + ran.error)
        self.same("a restart that fails", good.play(path, "--restart", "false").status, 3)

    def test_takes_repeats(self):
        """The fault is named by the play of a lost ACK, and by no other."""
        found = failing(Plain(self, "takes-repeats").play(short(self)))
        self.same("plays that name it", list(found), ["lost-ack"])
        row = 'difference 20 kept:"R|1|^^^NA|139|mmol/L"*1 kept:"R|1|^^^NA|139|mmol/L"*3'
        self.same("how it is named", found.get("lost-ack"), [row])

    def test_answers_late(self):
        host = Plain(self, "answers-late", scale=2 * SHORT)
        for path in scripts("results")[1:2]:
            ran = host.play(path)
            self.check(ran.status == 1 and "difference 5 ACK late:ACK\n" in ran.text, os.path.basename(path), ran.text)
            self.has(f"{os.path.basename(path)}: what wasn't played", ran.error, "not played: line 6 to ")

    def test_folders(self):
        """Of a folder the scripts for one end are played: the one that is asked for, that of all, or the analyzer."""
        computer = ["--as", "computer"]
        for folder, words, count in (("computer", [], 8), (".", computer, 8), ("results", [], 17), (".", [], 24)):
            ran = play(os.path.join(PLAYS, folder), "--to", "127.0.0.1:9", "--within", "0.1", *words)
            self.same(f"{folder} {words}", ran.lines[-1].split(" steps")[0], f"plays {count} failed {count}")
        ran = play(os.path.join(PLAYS, "results"), "--to", "127.0.0.1:9", *computer)
        self.same("a folder without a play for this end", ran.status, 2)
        self.same("a folder without plays", play(kit.folder_of(self), "--to", "127.0.0.1:9").status, 2)

    def test_no_host(self):
        """Nobody is there: status 3. A host that closes the line: a difference."""
        path = kit.file_of(self, "asks.play", b"play 1\n> ENQ\n< ACK\n> EOT\nend\n")
        ran = play(path, "--to", "127.0.0.1:9", "--within", "0.2")
        self.same("nobody is there", (ran.status, ran.lines), (3, ["steps 0 differences 0, and the play stopped"]))
        self.has("and it is said", ran.error, "the line failed: can't connect to 127.0.0.1:9: Connection refused")
        ran = play(path, "--listen", "0", "--within", "0.2")
        self.same("nobody connects", (ran.status, "nobody connected" in ran.error), (3, True))
        for words in (["--to", "127.0.0.1:9", "--listen", "0"], [], ["--to", "nonsense"], ["--listen", "0.0.0.0:0"],
                      ["--to", "127.0.0.1:9", "--same-but", "NONSENSE"],
                      ["--to", "127.0.0.1:9", "--kept", "true", "--store", "a"],
                      ["--to", "127.0.0.1:9", "--as", "host"]):
            self.same(f"words {words}", play(path, *words).status, 2)
        ran = Plain(self).play(path, "--kept", "false")
        self.check(ran.status == 0, "what is kept isn't asked without K", ran.error)
        for words in (["--kept", "false"], ["--kept", "/nonsense"], ["--store", "/nonsense.db"],
                      ["--store", "spool:/nonsense"]):
            ran = play(scripts("results")[0], "--to", f"127.0.0.1:{Plain(self).port}", *words)
            self.same(f"{words}", (ran.status, ran.lines), (3, ["steps 0 differences 0, and the play stopped"]))
            self.has(f"{words}: it is said", ran.error, "lislab: what is kept can't be looked at: --")

    def test_closed(self):
        """A host that closes the line in place of a reply; the play goes on at the next session, and waits for no
        timer, which would take minutes."""
        data = b'play 1\n> ENQ\n< ACK\n> "H|1"\n< ACK\n> EOT\n> ENQ\n< ACK\n> EOT\nend\n'
        path = kit.file_of(self, "two.play", data)
        code = ("for at in range(2):\n"
                "    line, _ = s.accept(); line.recv(1); line.sendall(b'\\6'); at or (line.recv(99), line.close())\n"
                "line.recv(99)")
        to = host_of(self, code)
        begun = time.monotonic()
        ran = play(path, "--to", to, scale=100 * SCALE)
        self.same("what differs", (ran.status, ran.lines), (1, ["difference 5 ACK closed", "steps 7 differences 1"]))
        self.check(time.monotonic() - begun < 1500 * SCALE, "no timer is waited for")

    def test_noise(self):
        """Any bytes may come, in any pieces: each play ends, with differences or a failed line."""
        rng, found = random.Random(67), set()
        pieces = [b"\5", b"\6", b"\x15", b"\4", b"\2", b"\3", b"\r\n", b"\n", b"\0", b"H||||\r", b"O|1|S1\r",
                  b"\x021H|\\^&\r\x03E5\r\n"]
        server = socket.create_server(("127.0.0.1", 0))

        def answer():
            while True:
                try:
                    line, _ = server.accept()
                except OSError:
                    return
                with line, contextlib.suppress(OSError):
                    for _ in range(rng.randrange(1, 40)):
                        frame = made(rng.randrange(8), rng.randbytes(9), True)
                        line.sendall(rng.choice([*pieces, rng.randbytes(3), frame]))

        work = threading.Thread(target=answer)
        work.start()
        to = f"127.0.0.1:{server.getsockname()[1]}"
        for number in range(60):
            script = scripts("*")[number % len(scripts("*"))]
            ran = play(script, "--to", to, "--within", "0.02", scale=0.001)
            found.add(ran.status)
            self.check(ran.status in (1, 3) and "Traceback" not in ran.error, f"{number}: {os.path.basename(script)}",
                       ran.text + ran.error)
        server.shutdown(socket.SHUT_RDWR)
        server.close()
        work.join(5)
        self.same("how they ended", found >= {1}, True)

    def test_surplus(self):
        """What comes and isn't wanted: before a step, and at the end."""
        path = kit.file_of(self, "surplus.play", b"play 1\nT 5\n> NAK\nT 11\nend\n")
        ran = Plain(self, "worklist", scale=SHORT).play(path)
        self.same("what came", ran.lines, ["difference 3 - ENQ", "difference end - ENQ", "steps 3 differences 2"])

    def test_without_library(self):
        """The command as a user has it who has built nothing, with every file that it writes."""
        host, folder = Plain(self), kit.folder_of(self)
        page, xml = os.path.join(folder, "page.html"), os.path.join(folder, "plays.xml")
        words = [sys.executable, "-m", "lislab", "play", scripts("results")[0], "--to", f"127.0.0.1:{host.port}",
                 "--scale", str(SCALE), "--report", page, "--junit", xml, "--kept", f"cat {host.kept}"]
        env = {**os.environ, "PYTHONPATH": SOURCE, "LISLINK_LIBRARY": "/nonexistent"}
        self.runs(words, re.compile(r"steps \d+ differences 0\n"), env=env, cwd=folder)
        for path in (page, xml):
            self.same(f"the mode of {os.path.basename(path)}", stat.S_IMODE(os.stat(path).st_mode), 0o600)


class Reports(kit.Test):
    def test_report(self):
        """The page and the XML of a folder in which plays differ."""
        folder, host = kit.folder_of(self), Plain(self, "takes-repeats")
        page, xml = os.path.join(folder, "page.html"), os.path.join(folder, "plays.xml")
        ran = host.play(short(self), "--report", page, "--junit", xml)
        self.same("status", ran.status, 1)
        found = kit.Page(kit.bytes_of(page).decode())
        self.check(found.is_good, "its elements nest")
        self.same("anchors that are there twice", len(found.ids), len(set(found.ids)))
        links = [one[1:] for one in found.links if one[0] == "#"]
        self.same("links that lead nowhere", [one for one in links if one not in found.ids], [])
        for text in ("lost-ack.play", 'got kept:"R|1|^^^NA|139|mmol/L"*3', f"127.0.0.1:{host.port}",
                     "played as the analyzer from 127.0.0.1:", "for the laboratory", "for the maker",
                     time.strftime("%Y-%m-%d"), "The reply to a result is lost"):
            self.has(f"the page has {text}", " ".join(found.text.split()), text)
        self.check(not re.search(r"https?:|<script", kit.bytes_of(page).decode()), "nothing from a network")
        suite = xml_of(xml)
        self.same("the XML", (suite.get("tests"), suite.get("failures"), suite.get("errors")), ("16", "1", "0"))
        failed = [case.get("name") for case in suite if case.find("failure") is not None]
        self.same("what failed in it", failed, ["lost-ack.play"])

    def test_hostile(self):
        """What comes is any bytes: page and XML stay what they are."""
        folder = kit.folder_of(self)
        path, page, xml = (os.path.join(folder, name) for name in ("<&\"\1.play", "page.html", "plays.xml"))
        with open(path, "wb") as file:
            file.write(b"play 1\n# <b>&\x01\xff\n> ENQ\n< \"<script>&\x9f\"\n< '<script>&\"' ff 01\nend\n")
        code = ("line, _ = s.accept(); line.recv(1)\n"
                "line.sendall(b'\\x021</td>&\\xff\\r\\x03' + b'%02X\\r\\n' % (sum(b'1</td>&\\xff\\r\\x03') % 256))\n"
                "line.sendall(b'</td>&\\0\\1\\x1b\\xff\\x02<b>'); line.recv(9)")
        to = host_of(self, code)
        ran = play(path, "--to", to, "--report", page, "--junit", xml, scale=0.02)
        self.same("status", ran.status, 1)
        found = kit.Page(kit.bytes_of(page).decode())
        self.check(found.is_good and "<script" not in kit.bytes_of(page).decode(), "the page")
        self.same("the XML", xml_of(xml).get("failures"), "1")


def xml_of(path):
    """The element of an XML file."""
    return xml.etree.ElementTree.parse(path).getroot()


class Lines(kit.Test):
    def listening(self, script, *words):
        """`lislab play` as a process that waits for a connection, and its port."""
        env = {**os.environ, "PYTHONPATH": SOURCE, "LISLINK_LIBRARY": "/nonexistent"}
        how = ["--listen", "0", "--scale", str(SCALE), "--within", "20"]
        process = subprocess.Popen([sys.executable, "-m", "lislab", "play", script, *how, *words], env=env, text=True,
                                   stdout=subprocess.PIPE, stderr=subprocess.PIPE)
        self.addCleanup(lambda: (process.kill(), process.communicate()))
        return process, process.stdout.readline().strip().rpartition(":")[2]

    def test_both_ends(self):
        """One script, played at both ends of a line, has no difference; if one end has another, both notice it."""
        for name in ("noise", "etb-over-records"):
            path = os.path.join(PLAYS, "results", f"{name}.play")
            process, port = self.listening(path, "--as", "computer")
            ran = play(path, "--to", f"127.0.0.1:{port}")
            out, error = process.communicate(timeout=300)
            self.check(ran.status == 0 and process.returncode == 0, name, ran.text + out + error)
        other = kit.file_of(self, "other.play", kit.bytes_of(path).replace(b"> EOT\nend", b"> 05\nend"))
        process, port = self.listening(path, "--as", "computer")
        play(other, "--to", f"127.0.0.1:{port}")
        out, _ = process.communicate(timeout=300)
        self.check(process.returncode == 1 and " EOT ENQ\n" in out, "another script", out)

    def test_allowed(self):
        """Who isn't allowed is closed, and the next one is taken."""
        asked, real, said = [], wire.is_allowed, []
        self.addCleanup(setattr, wire, "is_allowed", real)
        wire.is_allowed = lambda address, networks: asked.append(address) or len(asked) > 1
        end = wire.End(wire.On("127.0.0.1", 0), 5.0, said.append)
        self.addCleanup(end.end)
        address = ("127.0.0.1", int(said[0].rpartition(":")[2]))
        with socket.create_connection(address) as first, socket.create_connection(address) as second:
            end.open()
            self.same("the first one is closed", first.recv(1), b"")
            self.same("the second one is taken", end.other, "{}:{}".format(*second.getsockname()))
        self.same("who was asked for", asked, ["127.0.0.1"] * 2)

    def test_wrong_analyzer(self):
        """An analyzer that heeds no reply differs from plays of the computer that need one to do so."""
        data = b'play 1\n> ENQ\n< ..\n> "H|1"\n< ..\n> "P|1"\n< ..\n> "L|1|N"\n< ..\n> EOT\nend\n'
        path = kit.file_of(self, "deaf.play", data)
        for name, wanted in (("takes-results", 0), ("busy", 1), ("no-reply", 1), ("rejects-a-frame", 1)):
            script = os.path.join(PLAYS, "computer", f"{name}.play")
            scale = 0.02 if wanted else SCALE
            process, port = self.listening(script, "--within", "10", "--scale", str(scale))
            play(path, "--to", f"127.0.0.1:{port}", scale=scale)
            out, _ = process.communicate(timeout=300)
            self.same(f"{name}: status", (process.returncode, "difference " in out), (wanted, bool(wanted)))

    def test_serial(self):
        """A serial line, on a pseudo terminal."""
        own, other = pty.openpty()
        tty.setraw(other)
        device = os.ttyname(other)
        data = b'play 1\n> ENQ\n< ACK\n> "H|1"\n< ACK\n> EOT\nC\n> ENQ\n< NAK\nR\n> ENQ\n< ACK\n> EOT\nend\n'
        path = kit.file_of(self, "serial.play", data)
        replies = [b"\6", b"\6", b"", b"\x15", b"\6", b""]
        heard = []

        def answer():
            for reply in replies:
                heard.append(os.read(own, 100))
                os.write(own, reply)

        work = threading.Thread(target=answer, daemon=True)
        work.start()
        ran = play(path, "--serial", f"{device}:9600", scale=0.02)
        work.join(5)
        os.close(other)
        os.close(own)
        self.check(ran.status == 0, "the play", ran.text + ran.error)
        self.same("what came", heard[:3], [b"\5", b"\x021H|1\r\x03" + b"%02X\r\n" % (sum(b"1H|1\r\x03") % 256), b"\4"])
        self.same("a device that isn't there", play(path, "--serial", "/dev/nonsense:9600").status, 3)

    def test_times(self):
        """By a capture's times, and as fast as replies come, where its times would take half an hour."""
        path = kit.file_of(self, "timed.capture", b"> 05\n< 06\n> 04\n")
        host, took = Plain(self), []
        for words, last in (((), b"28T10:01:01.0"), (("--fast",), b"29T11:00:01.0")):
            with open(path + ".times", "wb") as file:
                file.write(b"2026-11-28T10:00:00.0\n2026-11-28T10:00:01.0\n2026-11-%s\n" % last)
            begun = time.monotonic()
            self.same(f"status {words}", host.play(path, "--scale", "0.02", *words).status, 0)
            took.append(time.monotonic() - begun)
        self.check(took[0] > 1.2 and took[1] < 1700, f"how long it took: {took}")

    def test_page(self):
        """The ten steps of docs/validate.md, and a host that takes a wrong checksum."""
        text = kit.read("docs/validate.md")
        rows = re.search(r"\n    play 1\n    # A damaged frame.*?\n    end\n", text, re.S)[0]
        path = kit.file_of(self, "mine.play", "".join(row[4:] + "\n" for row in rows.strip("\n").split("\n")))
        ran = Plain(self).play(path)
        self.same("the play of the page", (ran.status, ran.lines), (0, ["steps 10 differences 0"]))
        data = b"play 1 as computer\n> ENQ\n" + b"< ACK\n> ..\n" * 4 + b"C\nend\n"
        process, port = self.listening(kit.file_of(self, "mine.computer", data))
        ran = play(path, "--to", f"127.0.0.1:{port}")
        process.communicate(timeout=300)
        wanted = ["difference 6 NAK ACK", "steps 10 differences 1"]
        self.same("the fault of the page", (ran.status, ran.lines), (1, wanted))

    def test_first_lines(self):
        """Each play says what it shows and what must be seen, and is for the end of its folder."""
        for path in scripts("*"):
            rows = kit.bytes_of(path).decode().split("\n")
            folder, name = path.split(os.sep)[-2:]
            self.same(f"{name}: its end", rows[0], "play 1 as computer" if folder == "computer" else "play 1")
            about = " ".join(row[2:] for row in rows if row.startswith("# "))
            seen = "At the analyzer:" if folder == "computer" else "In the store:"
            self.check(seen in about and len(about.partition(seen)[0]) > 20, f"{name}: its first lines", about)
        self.check(len(scripts("*")) >= 30, "thirty plays")
