"""What a host says to systemd, and the units that the package of Debian installs, as far as systemd looks at them."""
import glob
import json
import os
import re
import shutil
import signal
import socket
import subprocess
import sys
import unittest.mock

from lislab.diagnosis import notices
from lislab.model import said
from tests import ROOT, kit
from tests.host.hosts import ENV, Host, HostTest, lislab, wait_for

UNITS = os.path.join(ROOT, "packaging", "systemd")


class Systemd(HostTest):
    """A host under systemd."""

    def test_notify(self):
        """It says that it is ready when its ports are open, that it is alive as long as it is, and that it stops."""
        path = self.path("notify")
        with socket.socket(socket.AF_UNIX, socket.SOCK_DGRAM) as one:
            one.bind(path)
            one.settimeout(60)
            env = {**ENV, "NOTIFY_SOCKET": path, "WATCHDOG_USEC": "100000"}
            host = Host(self.path("systemd.db"), env=env)
            self.same("ready", one.recv(100), b"READY=1")
            self.same("alive", [one.recv(100) for _ in range(5)], [b"WATCHDOG=1"] * 5)
            os.kill(host.process.pid, signal.SIGSTOP)
            self.true("a host that is stuck says nothing", self.falls_silent(one))
            os.kill(host.process.pid, signal.SIGCONT)
            self.same("alive again", one.recv(100), b"WATCHDOG=1")
            self.same("its status", host.stop(), 0)
            rows = []
            one.settimeout(1)
            while b"STOPPING=1" not in rows:
                rows.append(one.recv(100))
            self.same("it stops", rows[-1], b"STOPPING=1")
        for env in ({"NOTIFY_SOCKET": self.path("none")}, {"NOTIFY_SOCKET": "@lislab none", "WATCHDOG_USEC": "x"},
                    {"WATCHDOG_USEC": "100000", "WATCHDOG_PID": "1"}):
            host = Host(self.path("systemd.db"), env={**ENV, **env})
            self.same(f"{env}: a host all the same", (host.stop(), host.errors[-1]), (0, ""))

    def test_journal(self):
        """In the journal an entry has the name of its line; what is no journal, or takes nothing, gets a plain line."""
        path = self.path("journal")
        with socket.socket(socket.AF_UNIX, socket.SOCK_DGRAM) as one, open(self.path("errors"), "w+") as errors:
            one.bind(path)
            one.settimeout(60)
            found = os.fstat(errors.fileno())
            stream = f"{found.st_dev}:{found.st_ino}"
            patch, speak = unittest.mock.patch, notices.Notices(said.say)
            with patch.object(sys, "stderr", errors), patch.object(said, "JOURNAL", path):
                speak.say("a\nLISLAB_X=1", "two\nlines")
                with patch.dict(os.environ, JOURNAL_STREAM=stream):
                    speak.say("chemistry\nLISLAB_X=1", "three\nlines")
                    said.say("no line")
                    with patch.object(said, "JOURNAL", self.path("none")):
                        speak.say("b", "nobody takes it")
                with patch.dict(os.environ, JOURNAL_STREAM="1:2"):
                    speak.say("c", "another stream")
            head = b"PRIORITY=4\nSYSLOG_IDENTIFIER=lislab\n"
            self.same("an entry", one.recv(1000),
                      head + b"LISLAB_LINE=chemistry LISLAB_X=1\nMESSAGE=chemistry LISLAB_X=1: three lines\n")
            self.same("one of no line", one.recv(1000), head + b"MESSAGE=no line\n")
            errors.seek(0)
            self.same("plain lines", errors.read().splitlines(), [
                "lislab: a LISLAB_X=1: two lines", "lislab: b: nobody takes it", "lislab: c: another stream"])

    @staticmethod
    def falls_silent(one):
        """Whether no more is said for two seconds, after what was said before."""
        one.settimeout(2)
        try:
            for _ in range(1000):
                one.recv(100)
        except socket.timeout:
            return True
        finally:
            one.settimeout(60)
        return False

    def test_units(self):
        """The units of the package: systemd finds no fault, calls them safe, and they run commands that there are."""
        found = sorted(glob.glob(os.path.join(UNITS, "*.service")))
        self.same("units", [os.path.basename(one) for one in found],
                  ["lislab-deliver@.service", "lislab-watch@.service", "lislab@.service"])
        for path in found:
            with open(path, encoding="utf-8") as file:
                text = file.read()
            self.same(f"{path}: they are alike", common(text), common(self.first(found)))
            self.same(f"{path}: programs that a small system may lack", others(text), [])
            for words in re.findall(r"^Exec\w+=/usr/bin/lislab (.*)$", text, re.M):
                self.takes(words.replace("%i", "x").split())
        cursors = {name: re.findall(r" --cursor (\S+)", kit.read(f"packaging/systemd/lislab-{name}@.service"))
                   for name in ("watch", "deliver")}
        self.same("that of the pages looks at the delivery", cursors["watch"], cursors["deliver"])
        wrong = "ExecReload=/bin/kill -HUP $MAINPID\nExecStart=/bin/sh -c x\n"
        self.same("one is noticed", others(wrong), ["/bin/kill"])
        if shutil.which("systemd-analyze") is None:
            self.skipTest("systemd-analyze (Debian: systemd) is not installed")
        for path in found:
            with open(path, encoding="utf-8") as file:
                text = file.read().replace("/usr/bin/lislab", sys.executable)
            name = os.path.basename(path).replace("@", "@x")
            self.same(f"{name}: faults", self.said("verify", name, text), "")
            exposure = re.search(r"exposure level for \S+ ([0-9.]+)", self.said("security", name, text))
            self.true(f"{name}: exposure", exposure and float(exposure[1]) < 2, str(exposure))
        wrong = text.replace("ProtectSystem=", "ProtectSytem=")
        self.has("a fault is noticed", self.said("verify", "wrong@x.service", wrong), "ProtectSytem")

    def test_image(self):
        """The file of the image: its head names the format that has a health check, its user is there before the
        package, and its health check succeeds while its host runs, and fails after it."""
        text = kit.read("packaging/Containerfile")
        self.true("the format", re.match(r"(#.*\n)*#   podman build --format docker ", text), text[:300])
        self.true("the user comes first", 0 < text.find("useradd ") < text.find("apt-get "), text)
        kept = re.search(r"^VOLUME (\S+)$", text, re.M)[1]
        found = re.findall(r"^(HEALTHCHECK|ENTRYPOINT|CMD) .*?(\[.*\])$", text, re.M)
        words = {name: json.loads(each.replace(kept + "/", self.path(""))) for name, each in found}
        health, command = words["HEALTHCHECK"], words["CMD"]
        self.same("commands", (health[:3], words["ENTRYPOINT"], command[:2]),
                  (["lislab", "status", "--store"], ["lislab"], ["serve", "--store"]))
        host = Host(command[2], *(word.replace("0.0.0.0:4000", "127.0.0.1:0") for word in command[3:]), listen=False)
        self.true("while it runs", wait_for(lambda: lislab(*health[1:]).returncode == 0))
        self.same("its end", host.stop(), 0)
        self.same("after it", lislab(*health[1:]).returncode, 1)

    @staticmethod
    def first(paths):
        with open(paths[0], encoding="utf-8") as file:
            return file.read()

    def takes(self, words):
        """Whether lislab takes the words of a unit: all but the files that aren't here."""
        program = "import sys; from lislab.cli import main as cli; print(cli.parser().parse_args(sys.argv[1:]).command)"
        done = subprocess.run([sys.executable, "-c", program, *words], env=ENV, capture_output=True, text=True, check=False)
        self.same(" ".join(words), (done.returncode, done.stdout.strip()), (0, words[0]))

    def said(self, what, name, text):
        """What systemd says of a unit."""
        with open(self.path(name), "w", encoding="utf-8") as file:
            file.write(text)
        words = ["--offline=true"] if what == "security" else ["--man=no"]
        done = subprocess.run(["systemd-analyze", what, *words, self.path(name)], stdout=subprocess.PIPE,
                              stderr=subprocess.STDOUT, text=True, check=False)
        return done.stdout


def others(text):
    """The programs of a unit that are neither lislab nor the shell, which each system has."""
    return [name for name in re.findall(r"^Exec\w+=(\S+)", text, re.M) if name not in ("/usr/bin/lislab", "/bin/sh")]


def common(text):
    """What each unit says of what it may do."""
    return re.search(r"^User=.*?^MemoryMax=\S+$", text, re.M | re.S)[0]
