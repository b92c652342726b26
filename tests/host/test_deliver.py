"""Deliveries: what is quarantined, what is left out, tries that end the process, and commands that outlive it."""
import contextlib
import csv
import datetime
import email.utils
import io
import os
import random
import resource
import select
import shutil
import signal
import socket
import subprocess
import sys
import threading
import time
import unittest.mock

from lislab.outbound import deliver, export, https, oru, quarantine
from lislab.outbound.tables import Tables
from lislab.model.failures import Refused, Unreachable
from lislab.model.said import many
from lislab.model.store import COMPLETE, Add, Begin, End
from lislab.model.stores import open_store
from tests.host import hosts, test_corrected
from tests.host.hosts import ENV, HostTest, lislab, process, wait_for
from tests.host.test_quarantine import keep, records
from tests.host.test_fhir import Certified
from tests.host.test_mllp import Scripted, ack
from tests.host.test_told import message

GOOD = message("P|1|4711", "O|1|A", "R|1|^^^GLU|5.4|mmol/L")
#: A message in which it isn't sure what the sample is; one of the same sample after it.
RACK = message("P|1", "O|1||2001^05^A", "R|1|^^^GLU|1")
#: A command that writes its message's key when it begins, sleeps, and writes it again.
SLOW = """
import os, sys, time
with open(sys.argv[1], "a") as file:
    file.write("begins " + os.environ["LISLAB_NUMBER"] + "\\n")
if os.environ["LISLAB_NUMBER"] == "1" and not os.path.exists(sys.argv[1] + ".fast"):
    while not os.path.exists(sys.argv[1] + ".go"):
        time.sleep(0.01)
with open(sys.argv[1], "a") as file:
    file.write("ends " + os.environ["LISLAB_NUMBER"] + "\\n")
"""


def rows_of(path):
    """The rows of a file; none if it isn't there."""
    if not os.path.exists(path):
        return []
    with open(path, encoding="utf-8") as file:
        return file.read().splitlines()


class Deliver(HostTest):
    """`lislab deliver`."""

    def deliver(self, name, bodies, *words, line="fire"):
        """Delivers these messages: how it ended, the files that it made, and what is in quarantine."""
        store, cursor, folder = (self.path(f"{name}.{what}") for what in ("db", "cursor", "d"))
        if not os.path.exists(store):
            keep(store, bodies, line)
        done = lislab("deliver", "--store", store, "--cursor", cursor, "--once", "--to", folder, *words)
        files = []
        for one in sorted(os.listdir(folder)):
            with open(os.path.join(folder, one), encoding="utf-8") as file:
                files.append(file.read())
        return done, files, quarantine.held_of(cursor)

    def test_quarantine(self):
        """What isn't sure is quarantined at once, with its reason, and never counted as delivered; the line's setting
        makes it sure, and then it can be sent again."""
        later = message("P|1", "O|1|A", "R|1|^^^GLU|2")
        for form in ("oru", "fhir", "csv", "tsv"):
            done, files, held = self.deliver(form, [RACK, GOOD, later], "--format", form)
            self.same(f"{form}: the others go out", (done.returncode, len(files)), (1, 2))
            self.same(f"{form}: it is quarantined", [(one.number, one.tries) for one in held], [(1, 0)])
            self.has(f"{form}: why", done.stderr, "is quarantined: order, record 3 of the message: which part of O-4 is")
            self.has(f"{form}: what is counted", done.stderr, "2 messages delivered\n")
        done, files, held = self.deliver("records", [RACK], "--format", "records")
        self.same("as it came it goes out", (done.returncode, len(files), held), (0, 1, []))
        file = self.path("fire.lines")
        with open(file, "w", encoding="ascii") as out:
            out.write("[fire]\nlisten = 1\nsample = O.4.3\n")
        done, files, held = self.deliver("oru", [], "--format", "oru", "--lines", file, "--resend", "all")
        self.same("with the setting it is delivered", (done.returncode, len(files), held), (0, 3, []))
        self.has("under its sample", files[0], "OBR|1||A|")

    def test_corrected_setting(self):
        """What comes about a sample after one in quarantine waits, also once the setting that was wrong is corrected:
        while the delivery runs, or before it starts again."""
        for is_restarted in (False, True):
            store, cursor, file = (self.path(f"setting {is_restarted}.{what}") for what in ("db", "cursor", "lines"))
            taken, opened = [], None
            for rack, setting, wanted in (
                ("2001^05^A", "", []), ("2002^01^A", "sample = O.4.3", []), ("2002^02^B", "sample = O.4.3", [3])
            ):
                with open(file, "w", encoding="ascii") as out:
                    out.write(f"[fire]\nlisten = 1\n{setting}\n")
                test_corrected.keep(store, [message("P|1", f"O|1||{rack}", "R|1|^^^GLU|1")])
                if opened is None or is_restarted:
                    self.close(opened)
                    opened = self.opened(store, cursor, file, taken)
                deliver.run(opened, True)
                self.same(f"{is_restarted} {rack}: what goes out", taken, wanted)
            self.true("sent again", deliver.run_again(opened, "all"))
            self.same("in order", taken, [3, 1, 2])
            self.close(opened)

    @staticmethod
    def opened(store, cursor, file, taken):
        """A delivery that notes the numbers of messages that can go out."""
        tables = Tables(None, file, lambda text: None)
        write, kept = export.writer_of(export.Form("oru", tables)), quarantine.Quarantine(cursor, 0, tables.reading)

        def take(one):
            is_there = bool(write(one))
            taken.append(one.number)
            return is_there

        return deliver.Delivery(open_store(store), deliver.Cursor(cursor), take, lambda text: None, quarantine=kept)

    @staticmethod
    def close(opened):
        """Ends a delivery, if there is one."""
        if opened is not None:
            opened.cursor.close()
            opened.store.close()

    def test_reasons(self):
        """Each reason why a message isn't sure."""
        for rows, why, settings in (
            (("O|1|", "R|1|^^^A|1"), "the sample is missing: O-3 and O-4 are empty", ""),
            (("O|1|S1\\S2", "R|1|^^^A|1"), "which part of O-3 is the sample?", ""),
            (("O|1|S1", "R|1||1"), "no test is named", ""),
            (("O|1||^^ ^B", "R|1|^^^A|1"), "O.4.3, the sample, is empty", "sample = O.4.3"),
            (("O|1|S", "R|1|^^^A|1"), "neither a sample nor a patient is named", "sample = none"),
            (("O|1|S", "R|1|^^^A^F|1", "R|2|^^^A^P|2"), "A is there twice, out of different fields R-3", "test = 4"),
            (("O|1|S", "R|1|^^^A|1", "R|2|^^^A|2"), "A is there twice, with different values", "twice = quarantine"),
            (("O|1|S", "R|1|^^^\xe4|1", "C|1|I|\xc3\xa4"), "", ""),
            (("O|1|S", "R|1|^^^\xc3\xa4|1"), "its letters are those of UTF-8, and the line's encoding is latin-1", ""),
        ):
            name = f"reasons {len(why)} {len(settings)} {len(rows)}"
            body = message("P|1", *rows).decode().encode("latin-1")
            with open(self.path("fire.lines"), "w", encoding="ascii") as out:
                out.write(f"[fire]\nlisten = 1\n{settings}\n")
            done, files, held = self.deliver(name, [body], "--format", "oru", "--lines", self.path("fire.lines"))
            self.same(f"{why or 'a good one'}: what goes out", (len(files), len(held)), (0, 1) if why else (1, 0))
            self.has("it is said", held[0].why if held else "", why)
        twice = message("P|1", "O|1|S", "R|1|^^^A|1", "R|2|^^^A|2")
        self.has("a test twice has OBX-4", self.deliver("twice", [twice], "--format", "oru")[1][0], "OBX|2|NM|A^^L|2|2")

    def test_letters(self):
        """Letters that aren't the line's go out with a mark if the line says so; an encoding that isn't the message's
        is noticed either way."""
        body = message("P|1", "O|1|S", "R|1|^^^A|1|\xb5mol/L").decode().encode("utf-8")
        with open(self.path("letters.lines"), "w", encoding="ascii") as out:
            out.write("[fire]\nlisten = 1\nletters = mark\n")
        done, files, held = self.deliver("letters", [body], "--format", "oru", "--lines", self.path("letters.lines"))
        self.same("it goes out", (done.returncode, held), (0, []))
        _, (table,), _ = self.deliver("rows", [body], "--format", "csv", "--lines", self.path("letters.lines"))
        (row,) = csv.DictReader(io.StringIO(table))
        with open(self.path("letters.lines"), "w", encoding="ascii") as out:
            out.write("[fire]\nlisten = 1\nencoding = utf-8\n")
        done, right, _ = self.deliver("right", [body, GOOD], "--format", "oru", "--lines", self.path("letters.lines"))
        self.true("in the line's encoding now", done.returncode == 0 and "|\xb5mol/L|" in right[0], str(right))
        _, (other,), _ = self.deliver("right rows", [body], "--format", "csv", "--lines", self.path("letters.lines"))
        self.same("in a table too", [one["unit"] for one in csv.DictReader(io.StringIO(other))], ["\xb5mol/L"])
        mark = "its letters are those of UTF-8, and the line's encoding is latin-1"
        self.has("with a mark", files[0], f"NTE|1|L|{mark}")
        with open(self.path("letters.codes"), "w", encoding="utf-8") as out:
            out.write("analyzer,laboratory,unit\nA,\xc4,\xb5g\n")
        _, files, held = self.deliver("mapped", [body], "--format", "oru", "--codes", self.path("letters.codes"))
        self.same("whatever letters a mapping has", (files, [one.why for one in held]), ([], [mark]))
        self.same("in a table too", row["mark"], mark)

    def test_left_out(self):
        """What has nothing to hand over isn't counted as delivered; what is left out is counted."""
        query, order = message("Q|1|^S7||ALL"), message("P|1", "O|1|S1||^^^GLU", "R|1|^^^A|1", "O|2|S2||^^^K")
        done, files, _ = self.deliver("left", [query, order], "--format", "oru")
        self.same("one file", (done.returncode, len(files)), (0, 1))
        self.same("what is said", done.stderr.replace("lislab: ", ""),
                  "1 message delivered\n1 message had nothing to deliver\n1 order left out, without a result\n")
        gone = message("P|1", f"O|1|S1||^^^GLU{'|' * 21}X", "O|2|S2||^^^K", "C|1|I|clot", "O|3|S3||^^^NA")
        for form, count in (("oru", 1), ("csv", 3), ("tsv", 3)):
            done, _, _ = self.deliver(f"gone {form}", [gone], "--format", form)
            self.has(f"{form}: what it has no room for", done.stderr, f"lislab: {many(count, 'order')} left out, without")

    def test_counted_once(self):
        """What is left out is counted once, when its message is delivered, however often that is tried; not of one in
        quarantine, and not of another line's."""
        store, cursor = self.path("once.db"), self.path("once.cursor")

        def count():
            return deliver.read_state(cursor).counts.get("orders left out, without a result", 0)

        for at, line in enumerate(("fire", "other", "fire", "other")):
            body = message("P|1", f"O|1|S{at}||^^^GLU", "R|1|^^^A|1", f"O|2|T{at}||^^^K")
            test_corrected.keep(store, [body], line)
        one = Scripted(lambda at, key: ack(b"AE", key))
        self.addCleanup(one.close)
        words = ["deliver", "--store", store, "--to", f"mllp://127.0.0.1:{one.port}", "--line", "fire", "--cursor"]
        done = lislab(*words, self.path("once.other"), "--once", "--quarantine", "2")
        self.same("all tries but the last one fail", (done.returncode, len(one.taken)), (1, 1))
        delivery = process(["-m", "lislab", *words, cursor])
        self.true("it fails", wait_for(lambda: deliver.read_state(cursor).why, 30))
        one.answer = lambda at, key: ack(b"AA", key)
        self.true("it goes", wait_for(lambda: len(set(one.taken)) == 2 and count() >= 2, 30))
        delivery.terminate()
        self.same("it ends", delivery.wait(30), 128 + signal.SIGTERM)
        self.same("counted once", count(), 2)
        first = len(one.taken) + 1
        one.answer = lambda at, key: ack(b"AE" if at == first else b"AA", key)
        done = lislab(*words, self.path("once.third"), "--once", "--quarantine", "1")
        wrong = lislab(*words, self.path("once.wrong"), "--once", "--line", "ifre")
        self.same("a line that isn't there is said", wrong.stderr.splitlines()[0],
                  f"lislab: {store}: there is no line ifre, but fire, other")
        self.has("one of two", done.stderr, "1 message delivered\nlislab: 1 order left out, without a result\n")

    def test_filters(self):
        """One line, no repeats, controls, columns, cells that are no formulas."""
        control = message("P|1|QCLOT", "O|1|QC1|||||||||Q", "R|1|^^^GLU|=1+1")
        bodies = [GOOD, control, GOOD]
        for name, words, wanted in (
            ("all", [], ["", "Q", ""]),
            ("line", ["--line", "other"], []),
            ("without", ["--controls", "without"], ["", ""]),
            ("only", ["--controls", "only"], ["Q"]),
        ):
            done, files, _ = self.deliver(name, bodies, "--format", "csv", *words)
            rows = [row for text in files for row in csv.DictReader(io.StringIO(text))]
            self.same(name, (done.returncode, [row["control"] for row in rows]), (0, wanted))
        store = open_store(self.path("again.db"))
        store.start("h")
        for key in ("00a1", "00a2"):
            added = [Add(key, 0, 1767225600.0, GOOD), End(key, "fire", COMPLETE, "", "digest", len(GOOD), 1767225601.0)]
            store.commit([[Begin(key, "fire", "10.0.0.7", "latin-1", 1767225600.0), *added]])
        store.close()
        for words, wanted in (([], 2), (["--without-repeats"], 1)):
            done, files, _ = self.deliver("again", [], "--format", "oru", *words)
            for path in ("again.cursor", "again.cursor.ahead"):
                if os.path.exists(self.path(path)):
                    os.unlink(self.path(path))
            shutil.rmtree(self.path("again.d"))
            self.same(f"repeats {words}", (done.returncode, len(files)), (0, wanted))
        _, files, _ = self.deliver("cells", bodies, "--format", "csv", "--safe-cells", "--fields", "test,value,op=R.11")
        self.same("columns", files[1].splitlines(), ["number,line,received,again_of,test,value,op,fixed,control",
                                                     files[1].splitlines()[1]])
        self.has("a formula is none", files[1], "GLU,'=1+1,,,Q")
        self.has("a control's patient", self.deliver("all", [])[1][1], ",QC1,,GLU,")

    def test_ends_the_process(self):
        """A message that ends the delivery's process is counted before it is tried, and quarantined."""
        store, cursor = self.path("ends.db"), self.path("ends.cursor")
        keys = keep(store, [records(["A"]), records(["B"])])
        log = self.path("ends.log")
        code = ("import os, signal, sys\nsys.stdin.read()\n"
                f"if os.environ['LISLAB_KEY'] == {keys[0]!r}: os.kill(os.getppid(), signal.SIGKILL)\n"
                f"open({log!r}, 'a').write(os.environ['LISLAB_NUMBER'])\n")
        words = ["deliver", "--store", store, "--cursor", cursor, "--once", "--quarantine", "2", "--", sys.executable, "-c"]
        for wanted in (-signal.SIGKILL, -signal.SIGKILL, 1):
            done = lislab(*words, code)
            self.same("how it ended", done.returncode, wanted)
        self.same("it is quarantined", [one.key for one in quarantine.held_of(cursor)], [keys[0]])
        self.has("why", quarantine.held_of(cursor)[0].why, "each try ended the delivery itself")
        self.true("the other one is delivered", rows_of(log)[0].endswith("2"), str(rows_of(log)))

    def test_a_stop_is_no_try(self):
        """A delivery that is stopped while it tries doesn't count this as a failure."""
        store, cursor, log = self.path("stop.db"), self.path("stop.cursor"), self.path("stop.log")
        keep(store, [records(["A"])])
        words = ["--store", store, "--cursor", cursor, "--quarantine", "1", "--", sys.executable, "-c", SLOW, log]
        for _ in range(2):
            count = len(rows_of(log))
            one = process(["-m", "lislab", "deliver", *words])
            self.true("it tries", wait_for(lambda count=count: len(rows_of(log)) > count, 30))
            one.send_signal(signal.SIGTERM)
            self.same("it ends", one.wait(30), 128 + signal.SIGTERM)
        self.same("nothing is in quarantine", quarantine.held_of(cursor), [])

    def test_killed(self):
        """A delivery that is killed while its command runs: the next one waits until that ends, so no old value comes
        after a new one."""
        store, cursor, log = self.path("killed.db"), self.path("killed.cursor"), self.path("killed.log")
        keep(store, [records(["A"], str(at)) for at in range(3)])
        words = ["deliver", "--store", store, "--cursor", cursor, "--once", "--", sys.executable, "-c", SLOW, log]
        one = process(["-m", "lislab", *words])
        self.true("it begins", wait_for(lambda: rows_of(log), 30))
        one.kill()
        one.wait()
        again = process(["-m", "lislab", *words], stderr=subprocess.PIPE)
        said = again.stderr.readline()
        self.has("it waits", said, "a command of a delivery that was killed still runs, and is waited for")
        self.same("nothing else begins", rows_of(log), ["begins 1"])
        with open(log + ".fast", "w", encoding="ascii"), open(log + ".go", "w", encoding="ascii"):
            pass
        self.same("then it goes on", (again.wait(60), rows_of(log)),
                  (0, ["begins 1", "ends 1", *(f"{what} {at}" for at in (1, 2, 3) for what in ("begins", "ends"))]))
        again.stderr.close()

    def test_ahead(self):
        """What a cursor is ahead of the disk counts for this cursor alone, and not for one that somebody puts there."""
        store, path = self.path("ahead.db"), self.path("ahead.cursor")
        keys = keep(store, [records(["A"], str(at)) for at in range(5)])
        opened, place = open_store(store), deliver.Cursor(path)
        found = list(opened.messages())
        with unittest.mock.patch.object(deliver, "SYNC", 1000.0):
            for one in found[:3]:
                place.move(one)
        os.close(place.lock)  # as a process that is killed leaves it
        self.same("what came since counts", deliver.read_cursor(path), (3, keys[2]))
        self.same("on the disk is the first", rows_of(path)[0].startswith('{"number": 1, '), True)
        with open(path + ".ahead", "rb") as file:
            ahead = file.read()
        for damaged in (b"", b"{", ahead[:-9], b"\0" * 200, ahead.replace(b"[1,", b"[2,")):
            with open(path + ".ahead", "wb") as file:
                file.write(damaged)
            self.same(f"one that a power cut left: {damaged[:20]}", deliver.read_cursor(path), (1, keys[0]))
        with open(path + ".ahead", "wb") as file:
            file.write(ahead)
        os.rename(path, path + ".copy")
        self.same("without a cursor nothing is delivered", deliver.read_cursor(path), (0, ""))
        place = deliver.Cursor(path)
        place.move(found[0])
        place.close()
        os.rename(path + ".copy", path)
        self.same("a copy that was put back is as it was", deliver.read_cursor(path), (1, keys[0]))
        opened.close()

    def test_too_long(self):
        """A command that takes too long is ended with all that it started."""
        store, cursor, log = self.path("long.db"), self.path("long.cursor"), self.path("long.log")
        keep(store, [records(["A"])])
        shell = f"sleep 200 > {log} 2>&1 & echo $! > {log}.pid; wait"  # it holds no pipe of the test's
        words = ["--store", store, "--cursor", cursor, "--once", "--seconds", "5", "--", "sh", "-c", shell]
        self.same("it fails", lislab("deliver", *words).returncode, 1)
        pid = int(rows_of(log + ".pid")[0])
        self.addCleanup(end, pid)
        self.true("nothing goes on", wait_for(lambda: not os.path.exists(f"/proc/{pid}") or state_of(pid) == "Z", 30))

    def test_memory(self):
        """A message of 100,000 results goes out as ORU in a gigabyte of memory."""
        store = self.path("memory.db")
        rows = [f"R|{at}|^^^A{at}|1" for at in range(1, 100001)]
        keep(store, [message("P|1", "O|1|S", *rows)])
        words = ["deliver", "--store", store, "--cursor", self.path("memory.cursor"), "--once", "--format", "oru"]
        done = subprocess.run(
            [sys.executable, "-m", "lislab", *words, "--to", self.path("memory.d")], env=ENV, capture_output=True,
            text=True, check=False, preexec_fn=lambda: resource.setrlimit(resource.RLIMIT_AS, (1 << 30, 1 << 30)))
        self.same("it is delivered", (done.returncode, done.stderr), (0, "lislab: 1 message delivered\n"))
        (name,) = os.listdir(self.path("memory.d"))
        with open(os.path.join(self.path("memory.d"), name), "rb") as file:
            self.same("all of it", file.read().count(b"\rOBX|"), 100000)


def end(pid):
    """Ends a process, if it is there."""
    with contextlib.suppress(ProcessLookupError):
        os.kill(pid, signal.SIGTERM)


def state_of(pid):
    """The state of a process; Z if it is gone."""
    try:
        with open(f"/proc/{pid}/stat", encoding="ascii") as file:
            return file.read().rpartition(")")[2].split()[0]
    except OSError:
        return "Z"


class Killed(Certified, HostTest):
    """A delivery that is killed at random, again and again."""

    def killed(self, name, to, taken, bodies, ids_of):
        """Delivers to a receiver that notes the ids which it took, and the bytes: each message at least once, in order,
        by one id, with the same bytes each time."""
        kills, rng, each = hosts.size("deliveries"), random.Random(name), 8
        store, cursor = self.path(f"{name}.db"), self.path(f"{name}.cursor")
        keys = keep(store, [records([f"S{at % 7}"], str(at)) for at in range(kills * each)])
        words = ["-m", "lislab", "deliver", "--store", store, "--cursor", cursor, "--seconds", "20", "--to", *to]
        for kill in range(kills):
            one = process(words)
            wanted = kill * each + rng.randint(1, each)
            self.need(wait_for(lambda wanted=wanted: len(set(taken())) >= wanted, 120), lambda: f"before kill {kill}")
            time.sleep(rng.random() * 0.01)
            one.kill()
            one.wait()
        done = subprocess.run([sys.executable, *words, "--once"], env=ENV, check=False)
        self.same(f"{name}: the rest", done.returncode, 0)
        found, ids = taken(), [ids_of(key) for key in keys]
        hosts.say(f"{name}: {len(ids)} messages, {kills} kills of the delivery, {len(found) - len(ids)} came twice")
        self.same(f"{name}: each at least once, in order, under one id", list(dict.fromkeys(found)), ids)
        self.same(f"{name}: the same bytes each time", len(set(bodies())), len(ids))

    def test_mllp(self):
        """Over MLLP."""
        receiver = Scripted(lambda at, key: time.sleep(0.004) or ack(b"AA", key))
        to = [f"mllp://127.0.0.1:{receiver.port}"]
        self.killed("mllp", to, lambda: list(receiver.taken), lambda: receiver.blocks, oru.control_id)
        receiver.close()

    def test_https(self):
        """Over HTTPS, to a server with a certificate of its own."""
        self.checks = 3
        files = self.certificate("killed", "DNS:localhost")
        server = self.served(files, lambda at, key: time.sleep(0.004) or 200)
        to = [f"https://localhost:{server.server_address[1]}/fhir", "--ca", files[0]]
        taken = server.taken
        self.killed("https", to, lambda: [one[1] for one in list(taken)], lambda: [one[-1] for one in taken], str)


class Raw:
    """A server on plain HTTP that answers with these bytes, each after a pause, and then closes or waits."""

    def __init__(self, *parts, pause=0.0, closes=True):
        self.parts, self.pause, self.closes, self.heads = list(parts), pause, closes, []
        self.socket = socket.create_server(("127.0.0.1", 0))
        self.port = self.socket.getsockname()[1]
        threading.Thread(target=self.run, daemon=True).start()

    def run(self):
        """Answers one connection after another."""
        while True:
            try:
                line, _ = self.socket.accept()
            except OSError:
                return
            with line:
                try:
                    self.answer(line)
                except OSError:
                    continue

    def answer(self, line):
        """Takes a request and answers it."""
        data = b""
        while b"\r\n\r\n" not in data or not data.endswith(b"{}"):
            data += line.recv(4096)
        self.heads.append(data.decode())
        for part in self.parts:
            line.sendall(part)
            time.sleep(self.pause)
        if not self.closes:
            line.recv(1)


class Kept(Raw):
    """The same over a connection that stays open, with bytes for each request."""

    def answer(self, line):
        """Takes requests and answers them."""
        data = b""
        while more := line.recv(4096):
            data += more
            if data.endswith(b"\r\n\r\n{}"):
                self.heads.append(data.decode())
                data = b""
                for part in self.parts.pop(0):
                    line.sendall(part)
                    time.sleep(self.pause)


class Answers(HostTest):
    """Answers of an HTTP server that break off, drip, or say when to come again."""

    def told(self, raw, seconds=60.0, headers=None):
        """What became of a message."""
        found = self.told_of(https.Https(f"http://127.0.0.1:{raw.port}/", seconds, https.context_of(None), headers))
        raw.socket.close()
        return found

    @staticmethod
    def told_of(one):
        """The same of the next message to a server."""
        try:
            one.deliver(b"{}", "k", "text/plain")
        except Refused as error:
            return type(error).__name__, getattr(error, "wait", None), str(error).split(": ", 1)[-1]
        return "", None, ""

    def test_breaks_off(self):
        """An answer that breaks off is no acceptance."""
        for part in (b"HTTP/1.1 200 OK\r\nContent-Le", b"HTTP/1.1 200 OK\r\nContent-Length: 5\r\n\r\nab",
                     b"HTTP/1.1 200 OK\r\nContent-Length: 5\r\n", b"HTTP/1.1 200 OK\r\n", b"HTTP/1.1 2",
                     b"HTTP/1.1 200 OK\r\nTransfer-Encoding: chunked\r\n\r\n5\r\nab"):
            self.same(str(part), self.told(Raw(part))[0], "Refused")
        for part in (b"HTTP/1.1 200 OK\r\nContent-Length: 2\r\n\r\nab", b"HTTP/1.1 200 OK\r\n\r\n",
                     b"HTTP/1.1 204 No Content\r\n\r\n",
                     b"HTTP/1.1 200 OK\r\nTransfer-Encoding: chunked\r\n\r\n2\r\nab\r\n0\r\n\r\n"):
            self.same(str(part), self.told(Raw(part))[0], "")

    def test_which_message(self):
        """An answer is that of the message before it, whatever comes before the answer or after it; the reason has no
        words of the server."""
        fine, bad = (f"HTTP/1.1 {status}\r\nContent-Length: 0\r\n\r\n".encode() for status in ("200 OK", "400 Bad"))
        for name, has_more, answers in (
            ("announced", False, [[b"HTTP/1.1 102 Processing\r\n\r\n", fine], [bad], [fine]]),
            ("before it is asked", True, [[fine, bad], [bad, fine], [fine, bad]]),
        ):
            raw = Kept(*answers, pause=0.2)
            one = https.Https(f"http://127.0.0.1:{raw.port}/", 60.0, https.context_of(None))
            found = []
            for _ in answers:
                found.append(self.told_of(one)[2])
                select.select([one._line.sock] if has_more else [], [], [], 60 if has_more else 0)
            self.same(name, (found, len(raw.heads)), (["", "400 Bad Request", ""], 3))
            raw.socket.close()
        self.same("no words of the server", self.told(Raw(b"Doe^Jane\r\n\r\n"))[2], "an answer that can't be read")

    def test_drips(self):
        """An answer that drips has an end at --seconds."""
        head = b"HTTP/1.1 200 OK\r\nX: "
        for name, parts in (("in its head", [head, *[b"a"] * 600]),
                            ("in its body", [b"HTTP/1.1 200 OK\r\nContent-Length: 600\r\n\r\n", *[b"a"] * 600]),
                            ("to be continued", [b"HTTP/1.1 100 Continue\r\n\r\n"] * 600)):
            found = self.told(Raw(*parts, pause=0.1), 1.0)
            self.same(name, found, ("Refused", None, "no answer within 1 seconds"))

    def test_again(self):
        """A server that is busy says when to come again; a file of headers is read for each message."""
        busy = b"HTTP/1.1 429 Too Many Requests\r\nRetry-After: 7\r\nContent-Length: 0\r\n\r\n"
        self.same("busy", self.told(Raw(busy))[:2], ("Unreachable", 7.0))
        at = email.utils.format_datetime(datetime.datetime.now(datetime.timezone.utc) + datetime.timedelta(seconds=600))
        for text, least, most in ((at, 1.0, 600.0), ("Wed, 21 Oct 2015 07:28:00 GMT", 0.0, 0.0), ("soon", 0.0, 0.0),
                                  ("99999", 3600.0, 3600.0)):
            name, wait, _ = self.told(Raw(busy.replace(b"7\r", text.encode() + b"\r")))
            self.true(f"until {text}", name == "Unreachable" and least <= wait <= most, str(wait))
        waits = []

        def take(_):
            raise Unreachable("busy", 7.0)

        def sleep(seconds):
            waits.append(seconds)
            raise deliver.Stopped

        store, cursor = self.path("busy.db"), deliver.Cursor(self.path("busy.cursor"))
        keep(store, [records(["A"])])
        opened = open_store(store)
        one = deliver.Delivery(opened, cursor, take, lambda text: None, sleep)
        self.raises("it is stopped by the test", deliver.Stopped, lambda: deliver.run(one, False))
        self.same("it waits as long", waits, [7.0])
        path = self.path("token")
        server = Raw(b"HTTP/1.1 200 OK\r\nContent-Length: 0\r\n\r\n", closes=True)
        post = https.Https(f"http://127.0.0.1:{server.port}/", 60.0, https.context_of(None), path)
        for token in ("one", "two"):
            with open(path, "w", encoding="ascii") as file:
                file.write(f"Authorization: Bearer {token}\n")
            post.deliver(b"{}", "k", "text/plain")
        server.socket.close()
        self.same("each token", ["Bearer one" in server.heads[0], "Bearer two" in server.heads[-1]], [True, True])
        os.unlink(path)
        self.raises("no file", Unreachable, lambda: post.deliver(b"{}", "k", "text/plain"))
        opened.close()
        cursor.close()
