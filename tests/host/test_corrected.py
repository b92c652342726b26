"""Corrections: a result that would undo one isn't delivered, whatever else is in its message, and every other result
is."""
import csv
import io
import itertools
import json
import os
import random
import re
import unittest.mock

from lislab.cli import deliver as cli_deliver
from lislab.cli import main
from lislab.model.results import Reading
from lislab.model.said import many
from lislab.model.store import COMPLETE, Add, Begin, End
from lislab.model.stores import open_store
from lislab.outbound import corrected, quarantine
from lislab.outbound.export import Form
from lislab.outbound.tables import Tables
from tests.host.hosts import HostTest
from tests.host.test_fhir_server import Server
from tests.host.test_told import message

#: Times of results, and of messages.
EARLY, LATE, FIRST, SECOND, THIRD = (f"202611{day}0000" for day in ("2708", "2709", "2710", "2711", "2712"))
_CODES = {"final": "F", "corrected": "C", "cancelled": "X"}


def result(value, status="F", at=EARLY, test="GLU", unit="mmol/L", started=""):
    """A record of a result."""
    return f"R|1|^^^{test}|{value}|{unit}||||{status}|||{started}|{at}"


def told(*rows, at=FIRST, sample="A", patient="4711", collected=""):
    """A message with results of a sample; a row `O` begins another order."""
    orders = [f"O|1|{sample}|||||{collected}"]
    return message(f"P|1|{patient}", *orders, *rows, header=f"H|\\^&|||A|||||||P|1|{at}")


#: The first result, its correction, and the first one in another message.
GOOD, FIXED, OLD = told(result("5.4")), told(result("6.4", "C"), at=SECOND), told(result("5.4"), at=THIRD)
K = result("4.1", at=LATE, test="K")
#: What comes, and which results go out: the numbers of their messages and their values; which of them in HL7 and FHIR,
#: where a result that its own message corrects is left out.
CASES = {
    "an old result": ([GOOD, FIXED, OLD, OLD], "1 5.4, 2 6.4"),
    "with another result": ([GOOD, FIXED, told(result("5.4"), "C|1|I|x", K, at=THIRD)], "1 5.4, 2 6.4, 3 4.1"),
    "with another order": ([GOOD, FIXED, told(result("5.4"), "O|2|B", K, at=THIRD)], "1 5.4, 2 6.4, 3 4.1"),
    "of which nothing else is left": (
        [GOOD, FIXED, told(result("5.4"), "O|2|A" + "|" * 23 + "F", "C|1|I|x", result("5.4"), at=THIRD)], "1 5.4, 2 6.4"
    ),
    "with its correction": ([GOOD, told(result("6.4", "C"), result("5.4"), at=SECOND)], "1 5.4, 2 6.4"),
    "after both in a message": ([told(result("5.4"), result("6.4", "C")), OLD], "1 5.4, 1 6.4", "1 6.4"),
    "sent again with its correction": (
        [GOOD, told(result("5.4"), result("6.4", "C"), K, at=SECOND)],
        "1 5.4, 2 5.4, 2 6.4, 2 4.1", "1 5.4, 2 6.4, 2 4.1",
    ),
    "corrected in another order": (
        [told(result("5.4"), K, "O|2|A", result("6.4", "C"))], "1 5.4, 1 4.1, 1 6.4", "1 4.1, 1 6.4"
    ),
    "corrected twice in a message": (
        [told(result("5.4"), result("6.4", "C"), result("6.6", "C"))], "1 5.4, 1 6.4, 1 6.6", "1 6.6"
    ),
    "of which an escape says that it is a correction": (
        [told(result("6.4", "&X2043&"), result("6.6", "&X2043&"))], "1 6.4, 1 6.6", "1 6.6"
    ),
    "before another patient's correction": (
        [told(result("5.4"), "P|2|4712", "O|1|A", result("6.4", "C"))], "1 5.4, 1 6.4"
    ),
    "before the correction of a patient who isn't named": (
        [told(result("5.4"), "P|2", "O|1|A", result("6.4", "C"), patient="case 2")], "1 5.4, 1 6.4"
    ),
    "before a control's correction": (
        [told(result("5.4"), "O|2|A" + "|" * 9 + "Q", result("6.4", "C"))], "1 5.4, 1 6.4"
    ),
    "before the correction of one who has only a name": (
        [told(result("5.4"), "P|2||||Doe^Jane", "O|1|A", result("6.4", "C"))], "1 5.4, 1 6.4"
    ),
    "another time of the correction": ([GOOD, told(result("6.4", "C", LATE), at=SECOND), OLD], "1 5.4, 2 6.4"),
    "in another unit": ([GOOD, told(result("97", "C", unit="mg/dL")), OLD], "1 5.4, 2 97"),
    "sent before, or answered": (
        [GOOD, FIXED, *(told(result("5.4", status), at=THIRD) for status in "RQPV")], "1 5.4, 2 6.4"
    ),
    "started at its only time": (
        [told(result("5.4", at="", started=EARLY)), FIXED, told(result("5.4", at="", started=EARLY), at=THIRD)],
        "1 5.4, 2 6.4",
    ),
    "of a patient who isn't named": (
        [told(result("5.4"), patient=""), told(result("6.4", "C"), patient="4711^^^HOSP"), OLD], "1 5.4, 2 6.4"
    ),
    "a second correction": ([GOOD, FIXED, told(result("6.6", "C"), at=THIRD), OLD], "1 5.4, 2 6.4, 3 6.6"),
    "the first correction as final": (
        [GOOD, FIXED, told(result("6.6", "C"), at=THIRD), told(result("6.4"), at=THIRD)], "1 5.4, 2 6.4, 3 6.6"
    ),
    "the last correction as final": ([GOOD, FIXED, told(result("6.4"), at=THIRD)], "1 5.4, 2 6.4, 3 6.4"),
    "the last correction again": (
        [GOOD, FIXED, told(result("6.4", "C"), K, at=THIRD)], "1 5.4, 2 6.4, 3 6.4, 3 4.1"
    ),
    "an old correction, by its time": (
        [GOOD, FIXED, told(result("6.6", "C", LATE), at=SECOND), told(result("6.4", "C"), K, at=THIRD)],
        "1 5.4, 2 6.4, 3 6.6, 4 4.1",
    ),
    "an old correction, by the header's time": (
        [GOOD, FIXED, told(result("6.6", "C"), at=THIRD), told(result("6.4", "C"), K, at=SECOND)],
        "1 5.4, 2 6.4, 3 6.6, 4 4.1",
    ),
    "a correction to an earlier one, later": (
        [GOOD, FIXED, told(result("6.6", "C", LATE), at=SECOND), told(result("6.4", "C", THIRD), at=THIRD)],
        "1 5.4, 2 6.4, 3 6.6, 4 6.4",
    ),
    "before an old correction": (
        [FIXED, told(result("6.6", "C", LATE), at=SECOND), told(result("5.4"), "O|2|A", result("6.4", "C"), K)],
        "1 6.4, 2 6.6, 3 4.1",
    ),
    "an old correction after a new one": (
        [FIXED, told(result("6.6", "C", LATE), result("6.4", "C"), at=SECOND)], "1 6.4, 2 6.6"
    ),
    "another patient's old correction": (
        [FIXED, told(result("6.6", "C", LATE), at=SECOND), told(result("6.4", "C"), at=THIRD, patient="4712")],
        "1 6.4, 2 6.6, 3 6.4",
    ),
    "a correction to the first value": ([GOOD, FIXED, told(result("5.4", "C"), at=THIRD)], "1 5.4, 2 6.4, 3 5.4"),
    "another value": ([GOOD, FIXED, told(result("5.5"), at=THIRD)], "1 5.4, 2 6.4, 3 5.5"),
    "another time": ([GOOD, FIXED, told(result("5.4", at=LATE), at=THIRD)], "1 5.4, 2 6.4, 3 5.4"),
    "cancelled since": ([GOOD, FIXED, told(result("5.4", "X"), at=THIRD)], "1 5.4, 2 6.4, 3 5.4"),
    "another patient's": ([GOOD, FIXED, told(result("5.4"), at=THIRD, patient="4712")], "1 5.4, 2 6.4, 3 5.4"),
    "another sample's": ([GOOD, FIXED, told(result("5.4"), at=THIRD, sample="B")], "1 5.4, 2 6.4, 3 5.4"),
    "corrected in another sample": (
        [GOOD, told(result("6.4", "C"), sample="B"), OLD], "1 5.4, 2 6.4, 3 5.4"
    ),
    "of another test": ([GOOD, told(result("4.1", "C", test="K")), OLD], "1 5.4, 2 4.1, 3 5.4"),
    "first after the correction": ([FIXED, OLD, told(result("5.4"))], "1 6.4, 2 5.4, 3 5.4"),
    "by the order's time": (
        [told(result("5.4", at=""), collected=EARLY), told(result("6.4", "C", "")),
         told(result("5.4", at=""), at=THIRD, collected=EARLY), told(result("5.4", at=""), at=THIRD, collected=LATE)],
        "1 5.4, 2 6.4, 4 5.4",
    ),
    "by the header's time": (
        [told(result("5.4", at="")), told(result("6.4", "C", ""), at=SECOND), told(result("5.4", at=""), K)],
        "1 5.4, 2 6.4, 3 4.1",
    ),
}


def keep(where, bodies, line="fire"):
    """Puts complete messages into a store, after those that are there."""
    store = open_store(where)
    store.start("h")
    for body in bodies:
        at = 1767225600.0 + next(COUNT)
        key = f"{int(at):016x}"
        ended = [Add(key, 0, at, body), End(key, line, COMPLETE, "", str(body), len(body), at)]
        store.commit([[Begin(key, line, "10.0.0.7", "latin-1", at), *ended]])
    store.close()


#: How many messages were put, and how many stores were made.
COUNT, PLACES = itertools.count(), itertools.count()


def results_of(form, data):
    """The results in a file: value and status."""
    if form == "csv":
        return [(row["value"], row["status"]) for row in csv.DictReader(io.StringIO(data))]
    if form == "oru":
        cells = [row.split("|") for row in data.split("\r") if row.startswith("OBX|")]
        return [(cell[5], cell[11]) for cell in cells]
    found = [one["resource"] for one in json.loads(data)["entry"]]
    return [(str(one["valueQuantity"]["value"]), _CODES.get(one["status"], one["status"]))
            for one in found if one["resourceType"] == "Observation"]


class Deliveries:
    """Deliveries in this process, each as one that starts anew."""

    def deliver(self, store, name, form, *words):
        """Delivers what there is: how it ended, what it logged, and the results that went out, by their messages."""
        cursor, folder, said = self.path(f"{name}.cursor"), self.path(f"{name}.d"), []
        command = ["deliver", "--store", store, "--cursor", cursor, "--once", "--format", form, "--to", folder]
        with unittest.mock.patch.object(cli_deliver, "say", said.append):
            status = main.main([*command, *words])
        out = []
        for number, each in enumerate(sorted(os.listdir(folder)), 1):
            with open(os.path.join(folder, each), encoding="utf-8", newline="") as file:
                out.append((each.split("-")[0], results_of(form, file.read())))
        return status, "\n".join(said), out, quarantine.held_of(cursor)


class EachStore(Deliveries):
    """What goes out of a store."""

    #: In how many forms each case goes out at once; in one more a delivery starts anew at each message.
    forms = 1

    def test_results(self):
        """In each form what goes out is what is new; so it is in one of them if a delivery starts anew at each message."""
        forms = itertools.cycle(("oru", "fhir", "csv"))
        for name, (bodies, *texts) in CASES.items():
            for form, is_each in [*((next(forms), False) for _ in range(self.forms)), (next(forms), True)]:
                parts, place = [[body] for body in bodies] if is_each else [bodies], f"{form} {is_each} {name}"
                wanted = texts[0 if form == "csv" else -1]
                store = self.where()
                for part in parts:
                    keep(store, part)
                    status, said, found, held = self.deliver(store, place, form)
                    self.same(f"{place}: it goes", (status, held), (0, []))
                opened = open_store(store)
                numbers = [f"{one.number:016}" for one in opened.messages()]
                opened.close()
                found = [f"{numbers.index(number) + 1} {value}" for number, results in found for value, _ in results]
                self.same(f"{place}: what goes out", ", ".join(found), wanted)
                if not is_each:
                    counts = [int(count) for count in re.findall(r"(\d+) results? (?:is|are) left out", said)]
                    missing = b"".join(bodies).count(b"\rR|") - len(found) - said.count(" is left out: it repeats ")
                    self.same(f"{place}: each is logged", sum(counts), missing)
                    counted = many(missing, "result") + " left out, corrected since"
                    self.same(f"{place}: and counted", counted in said.splitlines(), missing > 0)


class CorrectedOfSqlite(EachStore, HostTest):
    """Out of an SQLite file."""

    forms = 3

    def where(self):
        """A new store."""
        return self.path(f"{next(PLACES)}.db")


class CorrectedOfSpool(EachStore, HostTest):
    """Out of a spool."""

    def where(self):
        """A new store."""
        return "spool:" + self.path(f"{next(PLACES)}.spool")


class Corrected(Deliveries, HostTest):
    """What is left out, and how far it is looked back."""

    def test_repeats(self):
        """A repeat of a message that was corrected in the meantime would undo the correction, and is left out."""
        other = FIXED.replace(b"O|1|A", b"O|1|B")
        for name, bodies, wanted in (
            ("corrected", [GOOD, FIXED, GOOD, GOOD], 2),
            ("corrected again", [GOOD, GOOD, FIXED, GOOD, FIXED, GOOD], 4),
            ("an old correction", [GOOD, FIXED, told(result("6.6", "C")), FIXED], 3),
            ("another sample", [GOOD, other, GOOD], 3),
            ("nothing new", [FIXED, GOOD, GOOD], 3),
        ):
            store = self.path(f"{name}.db")
            keep(store, bodies)
            status, said, found, held = self.deliver(store, name, "oru")
            self.same(f"{name}: what goes out", (status, len(found), held), (0, wanted, []))
            rows = [row for row in said.splitlines() if " is left out: it repeats 0" in row]
            self.same(f"{name}: each is named", len(rows), len(bodies) - wanted)
            if name == "corrected":
                self.has("which message corrects it", rows[0], ", which message 2 corrects")
                self.same("the correction is the last one", found[-1][1], [("6.4", "C")])

    def test_doubt(self):
        """Without a time of the result or of its order no one can say whether it is new: its message is quarantined,
        unless it is set what the header's time says."""
        plain, fixed = result("5.4", at=""), result("6.4", "C", "")
        for name, bodies in (
            ("another header", [told(plain), told(fixed, at=SECOND), told(plain, K, at=THIRD)]),
            ("no header's time", [told(plain, at=""), told(fixed, at=""), told(plain, K, at="")]),
            ("a correction", [told(result("6.2", "C")), FIXED, told(result("6.2", "C"), K, at=THIRD)]),
        ):
            for word, wanted, wanted_held in ((None, 2, ["3"]), ("ignored", 3, []), ("counts", 4, [])):
                store = self.path(f"{name} {word}.db")
                keep(store, bodies)
                words = ["--set", f"H-14={word}"] if word else []
                status, said, found, held = self.deliver(store, f"{name} {word}", "oru", *words)
                self.same(f"{name} {word}: it is quarantined", [str(one.number) for one in held], wanted_held)
                self.same(f"{name} {word}: what goes out", sum(len(results) for _, results in found), wanted)
                if not word:
                    self.has("why", said, "result, record 4 of the message: is it new, or the one that message 2")
                    keep(store, [told(result("6.6", "C", LATE), at=THIRD)])
                    words = ["--set", "H-14=ignored", "--resend", "all"]
                    status, said, found, held = self.deliver(store, f"{name} {word}", "oru", *words)
                    self.same(f"{name}: sent again", (status, held, found[-1][1]), (0, [], [("4.1", "F")]))

    def test_orders(self):
        """A result that is left out counts for the status of its order: nothing of it is awaited any more."""
        ordered = "O|1|A||^^^GLU\\^^^K"
        for name, rows, wanted in (
            ("left out", [ordered, result("5.4"), K], "completed"),
            ("below no test", ["O|1|A", result("5.4"), K], "completed"),
            ("another is awaited", [ordered + "\\^^^NA", result("5.4"), K], "active"),
            ("of another patient", [ordered, K, "P|2|4712", ordered, result("5.4"), result("4", test="NA")], "active"),
        ):
            store = self.path(f"{name}.db")
            keep(store, [GOOD, FIXED, message("P|1|4711", *rows, header="H|\\^&|||A")])
            self.deliver(store, name, "fhir")
            folder = self.path(f"{name}.d")
            with open(os.path.join(folder, sorted(os.listdir(folder))[-1]), encoding="utf-8") as file:
                made = [one["resource"] for one in json.load(file)["entry"]]
            found = [one["status"] for one in made if one["resourceType"] == "ServiceRequest"]
            self.same(f"{name}: the order", found[0], wanted)

    def test_sample_of_a_patient(self):
        """What the line's setting names as the sample is no identity: two patients who share it are two."""
        store, lines, folder = self.path("tube.db"), self.path("tube.lines"), self.path("tube.d")
        with open(lines, "w", encoding="ascii") as file:
            file.write("[fire]\nlisten = 1\nsample = P.3\n")
        wanted = [("A", "4711", "5.4"), ("A", "4712", "6.4"), ("A", "4711", "5.4")]
        keep(store, [told(result(value, "C" if value == "6.4" else "F"), at=at, patient=f"{sample}|{identity}")
                     for at, (sample, identity, value) in zip((FIRST, SECOND, THIRD), wanted)])
        self.deliver(store, "tube", "csv", "--lines", lines)
        found = []
        for each in sorted(os.listdir(folder)):
            with open(os.path.join(folder, each), encoding="utf-8", newline="") as file:
                found += [(row["sample"], row["patient"], row["value"]) for row in csv.DictReader(file)]
        self.same("what goes out", found, wanted)

    def test_controls(self):
        """What --controls leaves out is counted as that, also what its message corrects; a table has each result."""
        control = "O|2|A" + "|" * 9 + "Q"
        body = told(result("5.4"), K, control, result("5.0"), control, result("5.1", "C"), "O|4|A", result("6.4", "C"))
        for form, which, *wanted in (
            ("oru", "with", ["4.1", "6.4", "5.1"], 0, 2), ("oru", "without", ["4.1", "6.4"], 2, 1),
            ("fhir", "only", ["5.1"], 2, 1), ("csv", "without", ["5.4", "4.1", "6.4"], 2, 0),
        ):
            store = self.path(f"{form} {which}.db")
            keep(store, [body])
            _, said, ((_, found),), _ = self.deliver(store, f"{form} {which}", form, "--controls", which)
            counts = [sum(map(int, re.findall(rf"^(\d+) \w+ left out{why}$", said, re.M)))
                      for why in (" by --controls", ", corrected since")]
            self.same(f"{form} {which}", [[value for value, _ in found], *counts], wanted)

    def test_comments(self):
        """Comments that don't go out are counted, but for those that the code mapping makes."""
        comment, codes = "C|1|I|haemolytic", self.path("comments.codes")
        with open(codes, "w", encoding="ascii") as file:
            file.write("analyzer,laboratory\nGLU,GLU\nNA,leave out\n")
        for name, bodies, wanted in (
            ("goes out", [told(comment, result("5.4"), K)], 0),
            ("corrected", [told(comment, result("5.4"), comment, "O|2|A", comment, result("6.4", "C"))], 2),
            ("an old order", [GOOD, FIXED, told(comment, result("5.4"), "O|2|A", K, comment, at=THIRD)], 1),
            ("an old result", [GOOD, FIXED, told(comment, result("5.4"), comment, K, at=THIRD)], 1),
            ("by the table", [told(result("140", test="NA"), comment, comment, comment, K, comment)], 3),
        ):
            for form, count in (("oru", wanted), ("fhir", wanted), ("csv", b"".join(bodies).count(b"\rC|"))):
                place = f"{form} {name}"
                keep(self.path(f"{place}.db"), bodies)
                said = self.deliver(self.path(f"{place}.db"), place, form, "--codes", codes)[1]
                found = [int(one) for one in re.findall("^([0-9]+) comments? left out$", said, re.M)]
                self.same(place, sum(found), count)

    def test_server(self):
        """A result that its own message corrects doesn't stand beside its correction on a server of FHIR, also where the
        message is sent twice."""
        for name, rows in (("one order", ["O|1|A"]), ("two orders", ["O|1|A", "O|2|A"])):
            body = message("P|1|4711", rows[0], result("5.4"), K, *rows[1:], result("6.4", "C"))
            wanted = [("GLU", "6.4", "corrected"), ("K", "4.1", "final")]
            self.same(f"{name}: it has", self.on_server(name, [body], times=2), (wanted, [], 0))

    def on_server(self, name, bodies, *words, times=1):
        """What a server of FHIR has of these messages, each of which is sent so many times: each test, its value and
        its status; which messages it refused; how many are in quarantine."""
        store, server, refused = self.path(f"{name}.db"), Server(), []
        keep(store, bodies)
        held = self.deliver(store, name, "fhir", *words)[3]
        folder = self.path(f"{name}.d")
        for number, file in enumerate(sorted(os.listdir(folder)), 1):
            with open(os.path.join(folder, file), "rb") as bundle:
                data = bundle.read()
            refused += [] if all(server.take(data) for _ in range(times)) else [number]
        return sorted(one[2:] for one in server.results()), refused, len(held)

    def test_another_test(self):
        """A correction leaves alone what is another result in the laboratory, and replaces no doubtful one; what a
        table leaves out corrects nothing."""
        lines, codes = self.path("test.lines"), self.path("test.codes")
        value, index = ((lambda *words, field=field: result(*words, test=f"GLU^{field}")) for field in "FI")
        fixed = [told(value("6.4", "C", LATE), index("9", "C", LATE), at=SECOND)]
        good, bad = ("GLU", "5.4", "final"), ("GLU", "9", "corrected")
        for name, setting, rows, bodies, wanted in (
            ("left out", "", ("GLUC", "leave out"), [told(value("5.4"))] + fixed, [("GLUC", "6.4", "corrected")]),
            ("alone", "", ("GLUC", "leave out"), [told(value("5.4"), index("9", "C"))], [("GLUC", "5.4", "final")]),
            ("another code", "", ("GLUC", "INDEX"), fixed, [("GLUC", "6.4", "corrected"), ("INDEX", "9", "corrected")]),
            ("no row", "", (), fixed, []),
            ("never twice", "twice = quarantine", (), [told(value("5.4"), value("6.4", "C"))], []),
            ("both go", "twice = deliver", (), [told(value("5.4"), index("9", "C"))], [good, bad]),
            ("one of both", "twice = deliver", (), [told(value("5.4"), index("8")), told(index("9", "C"))], [good, bad]),
        ):
            with open(lines, "w", encoding="ascii") as file:
                file.write(f"[fire]\nlisten = 1\ntest = 4\n{setting}\n")
            with open(codes, "w", encoding="ascii") as file:
                file.write("analyzer,laboratory\n" + "".join(f"^^^GLU^{at},{row}\n" for at, row in zip("FI", rows)))
            words = "--lines", lines, "--codes", codes, "--quarantine", "1"
            found = self.on_server(name, bodies, *words)
            self.same(f"{name}: the server has", found, (wanted, [], int(not wanted)))

    def test_which(self):
        """A message is quarantined if no one can say which of its results a correction corrects."""
        with open(self.path("which.lines"), "w", encoding="ascii") as file:
            file.write("[fire]\nlisten = 1\ntest = 4\n")
        first, fixed, index = result("5.4"), result("6.4", "C"), result("9", "C", test="GLU^I")
        for name, rows, wanted, why in (
            ("a rerun", [first, result("7.0"), fixed], [], "record 6 of the message: does it correct record 4 or 5?"),
            ("another field", [first, "O|2|A", index], [], "record 6 of the message: does it correct record 4?"),
            ("the same twice", [first, first, fixed], [("6.4", "C")], "2 results are left out, corrected further on"),
            ("a rerun after it", [first, fixed, result("7.0")], [("6.4", "C"), ("7.0", "F")], "1 result is left out"),
        ):
            store = self.path(f"which {name}.db")
            keep(store, [told(*rows)])
            status, said, found, held = self.deliver(store, name, "oru", "--lines", self.path("which.lines"))
            self.same(name, ([each for _, results in found for each in results], len(held)), (wanted, int(not wanted)))
            self.has(f"{name}: why", said, why)

    def test_again_in_an_order(self):
        """A correction updates what it corrects, also next to another result of its test; of two results of an order no
        one can say which it corrects, and the server refuses it."""
        fixed, other = result("6.4", "C", LATE), result("7.0", at=FIRST)
        for name, bodies, wanted, refused in (
            ("next to it", [GOOD, told(fixed, other)], ("GLU", "6.4", "corrected"), []),
            ("of two", [told(result("5.4"), other), told(fixed)], ("GLU", "5.4", "final"), [2]),
        ):
            found = self.on_server(name, bodies)
            self.same(f"{name}: the server has", found, ([wanted, ("GLU", "7.0", "final")], refused, 0))

    def test_bounds(self):
        """As many messages as that are looked at, by a delivery that begins late; and no others."""
        store, others = self.path("bounds.db"), [told(result(str(at)), sample=f"S{at}") for at in range(6)]
        keep(store, [GOOD, *others[:3], FIXED, *others[3:], OLD])
        opened = open_store(store)
        for most, wanted in ((8, True), (6, False), (5, False), (3, False)):
            looked, read = [], opened.messages
            with unittest.mock.patch.object(corrected, "LOOKED", most), unittest.mock.patch.object(
                opened, "messages", lambda *words, looked=looked: (looked.append(one) or one for one in read(*words))
            ):
                one = corrected.Corrections(opened, lambda line: Reading(), None)
                (out,) = [one.writer(Form("records"))(each) for each in one.over(read(8))]
            self.same(f"{most}: it is left out", b"R|" not in out, wanted)
            self.true(f"{most}: no others are read", len(looked) <= 2 * most + 6, str(len(looked)))
            with unittest.mock.patch.object(corrected, "MOST", 0):
                one = corrected.Corrections(opened, lambda line: Reading(), None)
                rows = [one.writer(Form("records"))(each) for each in one.over(read(0))]
            self.same("no corrections are held", rows[-1], OLD)
        opened.close()

    def test_another_setting(self):
        """A correction holds also once the line's setting names the sample or the test otherwise, as the delivery goes
        on."""
        for at, (rack, setting) in enumerate((("A", "test = 4"), ("2001^05^A", "test = 4\nsample = O.3.3"))):
            store, file = self.path(f"settings {at}.db"), self.path(f"settings {at}.lines")
            with open(file, "w", encoding="ascii") as out:
                out.write("[fire]\nlisten = 1\n")
            keep(store, [told(result(value, status, test="16^GLU^lot 1"), sample=rack) for value, status in
                         (("5.4", "F"), ("6.4", "C"))])
            opened, tables = open_store(store), Tables(None, file, lambda text: None)
            one = corrected.Corrections(opened, tables.reading, None)
            write, out = one.writer(Form("records", tables)), []
            for each in one.over(opened.messages()):
                out.append(write(each).count(b"\rR|"))
            with open(file, "a", encoding="ascii") as more:
                more.write(f"{setting}\n")
            keep(store, [told(result("5.4", test="16^GLU^lot 1"), K, at=THIRD, sample=rack),
                         told(result("5.5", test="16^GLU^lot 1"), at=THIRD, sample=rack)])
            out += [write(each).count(b"\rR|") for each in one.over(opened.messages(2))]
            self.same(f"{setting}: results that go out", out, [1, 1, 1, 1])
            opened.close()

    def test_random(self):
        """Random messages, by what a person would say of each result; deliveries that start anew in between."""
        rng, count, come, said = random.Random(7), 10_000, {}, []
        store = open_store(self.path("random.db"))
        store.start("h")
        for start in range(1, count + 1, 500):
            units = []
            for number in range(start, start + 500):
                plan = Plan(rng, number, come)
                said.append(plan.old)
                end = End(f"{number:06}", plan.line, COMPLETE, "", str(number), len(plan.body), 1.0)
                units.append([Begin(end.key, plan.line, "p", "latin-1", 1.0), Add(end.key, 0, 1.0, plan.body), end])
            store.commit(units)
        one, left = corrected.Corrections(store, lambda line: Reading(), False), 0
        for each in store.messages():
            if rng.random() < 0.0006:
                one = corrected.Corrections(store, lambda line: Reading(), False)
            (each,) = one.over(iter([each]))
            rows = one.writer(Form("records"))(each).split(b"\r")
            old = {row for row in each.body.split(b"\r") if row.startswith(b"R|")} - set(rows)
            self.need({int(row.split(b"|")[1]) for row in old} == said[each.number - 1],
                      lambda each=each, old=old: f"{each.number}: {each.body}: {old}, {said[each.number - 1]}")
            left += len(old)
        self.true("some are left out", 500 < left < count // 2, str(left))
        store.close()


class Plan:
    """A random message: what it says, and which of its results are old, by their numbers in it."""

    def __init__(self, rng, number, come):
        self.line, self.old, sample = rng.choice(("a", "b")), set(), f"S{number // 12 - rng.randrange(4)}"
        patient, rows, before = rng.choice(("", "1", "1", "1", "2")), [], []
        for at in range(1, rng.choice((1, 1, 2, 3)) + 1):
            test, value, time = rng.choice("GK"), str(rng.randrange(3)), rng.choice((EARLY, LATE, ""))
            is_correction = rng.random() < 0.1
            others = come.setdefault((self.line, sample, test), [])
            if is_old(others, patient, (value, time), is_correction):
                self.old.update([at, *(one for one, of in before if of == test)] if is_correction else [at])
            before += [] if is_correction else [(at, test)]
            others.append((patient, (value, time), is_correction))
            rows.append(f"R|{at}|^^^{test}|{value}|||||{'C' if is_correction else rng.choice('FR')}||||{time}")
        self.body = message(f"P|1|{patient}", f"O|1|{sample}", *rows, header=f"H|\\^&|||A|||||||P|1|{FIRST}{number:06}")


def is_old(others, patient, content, is_correction):
    """Whether what a result says came before the last correction of its test that may be its patient's. A correction is
    old if it was one before, and another one came since."""
    alike = [one for one in others if one[0] == patient or not (one[0] and patient)]
    last = max((at for at, one in enumerate(alike) if one[2]), default=0)
    if is_correction:
        return any(one[1] == content and one[2] for one in alike[:last]) and alike[last][1] != content
    return any(one[1] == content for one in alike[:last])
