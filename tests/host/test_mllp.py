"""Messages as ORU^R01, read back by the library hl7, and over MLLP to receivers that reject, are silent and die."""
import decimal
import importlib
import os
import random
import re
import shutil
import socket
import subprocess
import sys
import threading
import time
import unittest

from lislab.outbound import deliver, export
from lislab.outbound.ahead import Ahead
from lislab.model.options import OptionError
from lislab.model.store import INCOMPLETE
from lislab.outbound import mllp, oru
from lislab.model.codes import Code, Codes
from lislab.model.failures import Quarantined
from lislab.model.results import Coded, Reading, Told
from tests import kit
from tests.host import fhir_r4, hosts, test_told, told
from tests.host.hosts import ENV, HostTest, lislab, process, wait_for
from tests.host.receiver import MISSING, folder_of_hl7
from tests.host.test_quarantine import keep, records
from tests.host.test_told import message

RECEIVER = os.path.join(os.path.dirname(os.path.abspath(__file__)), "receiver.py")


#: What may be in fields that have a table of HL7: 0103, 0001, 0485, 0065, 0123, 0485, 0125, 0078, 0080, 0085, 0105,
#: 0487, 0369.
TABLES = {
    ("MSH", 11): "D P T",
    ("PID", 8): "F M O U A N",
    ("OBR", 5): "S A R P C T",
    ("OBR", 11): "A G L O P R S",
    ("OBR", 25): "O I S A P C R F X Y Z",
    ("TQ1", 9): "S A R P C T",
    ("OBX", 2): "NM SN ST TX",
    ("OBX", 8): "L H LL HH < > N A AA U D B W S R I MS VS",
    ("OBX", 10): "A B N R S ST",
    ("OBX", 11): "C D F I N O P R S U W X",
    ("NTE", 2): "L O P",
    ("SPM", 4): fhir_r4.SYSTEMS["v2-0487"],
    ("SPM", 11): "B C E F G L O P Q R V",
}


def stored(body, key="0000000000000001", **more):
    """A complete message that is kept."""
    return test_told.stored(body, key, **more)


def oru_of(one, wishes=oru.Wishes(), **reading):
    """A message as ORU, by the settings of its line."""
    return oru.oru_of(Told(Coded(one, Reading(**reading))), wishes)


class WithLibrary(HostTest):
    """Tests that need the library hl7."""

    @classmethod
    def setUpClass(cls):
        super().setUpClass()
        folder = folder_of_hl7()
        if folder is None:
            raise unittest.SkipTest(MISSING)
        cls.addClassCleanup(shutil.rmtree, folder)
        cls.env = {**ENV, "PYTHONPATH": f"{ENV['PYTHONPATH']}:{folder}"}
        sys.path.append(folder)
        cls.addClassCleanup(sys.path.remove, folder)

    def read(self, data):
        """What the library reads of a message."""
        return importlib.import_module("hl7").parse(data.decode())

    def cells(self, data, *names):
        """Fields of a message as the library reads them, escapes undone."""
        found = self.read(data)
        return [found[name] for name in names]


class Oru(WithLibrary):
    """ORU^R01, read back."""

    def test_fields(self):
        """A message's fields, and characters that mean something in HL7."""
        rows = ["P|1|4711|L9||Doe^Jane^B||19800131|F", "C|1|L|of the patient|G", "O|1|S7^x|I3|^^^GLU|R||20261127103000"
                "||||||||serum", "R|1|^^^GLU|5.40|mmol/L|3.9 to 6.1|H||F||op1|20261127103100|20261127103500|A7",
                "C|1|I|a ^ b~c &F& \u03bc|G"]
        out = oru_of(stored(message(*rows)), sample="O.3.1")
        wanted = {
            "MSH.F3": "lislab", "MSH.F4": "chemistry", "MSH.F9.R1.C3": "ORU_R01",
            "MSH.F10": oru.control_id("0000000000000001"),
            "MSH.F11": "P", "MSH.F12": "2.5.1", "MSH.F18": "UNICODE UTF-8", "PID.F3.R1": "4711", "PID.F3.R2": "L9",
            "PID.F5.R1.C1": "Doe", "PID.F5.R1.C2": "Jane", "PID.F5.R1.C7": "L", "PID.F7": "19800131", "PID.F8": "F",
            "NTE1.F3": "of the patient", "OBR.F2": "", "OBR.F3": "S7", "OBR.F4": "GLU", "OBR.F25": "F", "SPM.F2": "S7",
            "SPM.F2.R1.C2": "I3",
            "OBX.F2": "NM", "OBX.F3.R1.C1": "GLU", "OBX.F5": "5.40", "OBX.F6": "mmol/L", "OBX.F7": "3.9-6.1",
            "OBX.F8": "H", "OBX.F11": "F", "OBX.F14": "20261127103000", "OBX.F16": "op1", "OBX.F18": "A7",
            "OBX.F19": "20261127103500", "OBR.F7": "20261127103000",
            "NTE2.F2": "O", "NTE2.F3": "a ^ b~c | \u03bc", "SPM.F4.R1.C1": "SER", "OBR.F5": "R", "TQ1.F9": "R",
        }
        self.same("as they are read", dict(zip(wanted, self.cells(out, *wanted))), wanted)
        self.same("segments", [str(one[0]) for one in self.read(out)],
                  ["MSH", "PID", "NTE", "OBR", "TQ1", "OBX", "NTE", "SPM"])
        self.same("the same bytes again", oru_of(stored(message(*rows)), sample="O.3.1"), out)
        self.same("the library writes what it reads", str(self.read(out)).encode(), out)

    def test_wishes(self):
        """What a receiver wants: fields of MSH, versions, authorities, an OBR for each test."""
        body = message("P|1|4711|L9|T5|Doe^Jane",
                       "O|1|S7|I3|^^^GLU\\^^^K\\^^^NA|S|20261127090000||20261127093500|||||fasting|20261127095000|serum"
                       "|Dr. Who||||||20261127110000",
                       "R|1|^^^GLU|5.4", "R|2|^^^K|4.1", "R|3|^^^GLU|5.4")
        words = ["MSH-3=LAB^1.2^ISO", "MSH-5=LIS", "MSH-6=HOSP", "MSH-11=T", "practice=HOSP PI", "laboratory=LAB MR",
                 "third=NAT SS"]
        found = told.segments_of(oru_of(stored(body), oru.wishes_of(words)))[0]
        self.same("MSH", found[0][3:7] + found[0][11:13], ["LAB^1.2^ISO", "chemistry", "LIS", "HOSP", "T", "2.5.1"])
        self.same("PID-3", found[1][3], "4711^^^HOSP^PI~L9^^^LAB^MR~T5^^^NAT^SS")
        self.same("OBR", (found[2][4], found[2][5], found[2][6], found[2][16]),
                  ("PANEL^GLU K NA^L", "S", "20261127090000", "Dr. Who"))
        self.same("times, clinical information", (found[2][8], found[2][13], found[2][14], found[2][22]),
                  ("20261127093500", "fasting", "20261127095000", "20261127110000"))
        old = told.segments_of(oru_of(stored(body), oru.wishes_of(["MSH-12=2.3.1"])))[0]
        self.same("v2.3.1", [one[0] for one in old], ["MSH", "PID", "OBR", "OBX", "OBX", "OBX"])
        self.same("the instrument's sample in it", (old[2][3], old[2][20]), ("S7", "I3"))
        self.same("its fields", (old[0][9], old[0][12], old[2][15], old[2][27]),
                  ("ORU^R01", "2.3.1", "SER^serum^HL70487", "^^^^^S"))
        each = told.segments_of(oru_of(stored(body), oru.wishes_of(["obr=test"])))[0]
        names = [one[4] if one[0] == "OBR" else one[3] for one in each if one[0] in ("OBR", "OBX")]
        self.same("an OBR for each test", names, ["GLU^^L", "GLU^^L", "GLU^^L", "K^^L", "K^^L"])
        zoned = told.segments_of(oru_of(stored(body), zone="America/New_York"))[0]
        self.same("times have the line's zone", zoned[2][6], "20261127090000-0500")
        for word in ("MSH-5", "MSH-7=x", "MSH-12=2.7", "obr=patient", "sample=", "OBR-2=O", "OBR-2=R.3", "OBR-3=O.3"):
            self.raises(word, OptionError, lambda word=word: oru.wishes_of([word]))

    def test_obr(self):
        """An OBR for a sample has what its orders have that differ in their tests alone."""
        rows = ["O|1|S7||^^^GLU|R", "R|1|^^^GLU|5.4", "O|2|S7||^^^K|R", "C|1|I|x", "R|1|^^^K|4", "O|3|S7||^^^GLU|R",
                "R|1|^^^GLU|5.5", "O|4|S7||^^^FT4|R" + "|" * 20 + "X", "O|5|S8||^^^NA|R", "R|1|^^^NA|139"]
        for word, wanted in (("sample", ["OBR PANEL^GLU K^L", "NTE", "TQ1", "OBX GLU^^L 1", "OBX K^^L ", "OBX GLU^^L 2",
                                         "OBR FT4^^L", "TQ1", "OBR NA^^L", "TQ1", "OBX NA^^L "]),
                             ("order", ["OBR GLU^^L", "TQ1", "OBX GLU^^L ", "OBR K^^L", "NTE", "TQ1", "OBX K^^L ",
                                        "OBR GLU^^L", "TQ1", "OBX GLU^^L ", "OBR FT4^^L", "TQ1", "OBR NA^^L", "TQ1",
                                        "OBX NA^^L "])):
            found = told.segments_of(oru_of(stored(message("P|1", *rows)), oru.wishes_of([f"obr={word}"])))[0][1:]
            named = [" ".join([one[0], *{"OBR": one[4:5], "OBX": one[3:5]}.get(one[0], [])]) for one in found
                     if one[0] != "SPM"]
            self.same(f"an OBR for each {word}", named, wanted)

    def test_identities(self):
        """Of an identity with components the first is the id, the fourth its authority, the fifth its type; one of
        which this isn't sure is quarantined."""
        wishes = oru.wishes_of(["practice=HOSP PI"])
        for field, wanted in (("4711^^^OTHER^MR", "4711^^^OTHER^MR"), (" 4711 ^^^^MR", "4711^^^HOSP^MR"),
                              ("4711^^^", "4711^^^HOSP^PI"), ("4711&S&7", "4711\\S\\7^^^HOSP^PI"), ("^^^", "")):
            body = stored(message(f"P|1|{field}|||Doe", "O|1|S7", "R|1|^^^A|1"))
            self.same(f"PID-3 of {field}", told.segments_of(oru_of(body, wishes))[0][1][3], wanted)
        for at, field in enumerate(("4711^7", "^^^4711", "4711^^^H^MR^x", "4711\\4712", "|^4711", "||4711^^M10"), 3):
            body = stored(message(f"P|1|{field}", "O|1|S7", "R|1|^^^A|1"))
            self.raises(f"which part of {field} is it?", Quarantined, lambda body=body: oru_of(body))
        for field, sample, wanted in (("4711^S7", "P.3.2", ["4711"]), ("S7", "P.3", [""]), ("S7^x", "P.3.1", [""]),
                                      ("S7", "P.3.1", [""]), ("4711^^^S7^MR", "P.3.4", ["4711^^^^MR"])):
            body = stored(message(f"P|1|{field}|||Doe", "O|1|", "R|1|^^^A|1"))
            rows = told.segments_of(oru_of(body, sample=sample))[0]
            found = [one[3] for one in rows if one[0] in ("PID", "OBR")]
            self.same(f"{field} without the sample", found, [*wanted, "S7"])
        control = stored(message("P|1|QC^7", "O|1|S7|||||||||Q", "R|1|^^^A|1"))
        self.true("that of a control isn't looked at", b"OBR|1||S7|" in oru_of(control))

    def test_numbers(self):
        """The laboratory knows an order by its sample (OBR-3, SPM-2); the number that who ordered gave it is where the
        receiver says."""
        rows = ["P|1", "O|1|S7|I3|^^^GLU|||||||||||||| 4711-2 ^9|x", "R|1|^^^GLU|5.4", "O|2||I9", "R|1|^^^GLU|5.4"]
        body = message(*rows)
        for word, wanted in (("", ["", ""]), ("OBR-2=sample", ["S7", "I9"]), ("OBR-2=O.19", ["4711-2", ""]),
                             ("OBR-2=O.19.2", ["9", ""]), ("OBR-2=O.20", ["x", ""])):
            found = told.segments_of(oru_of(stored(body), oru.wishes_of([word] if word else [])))[0]
            self.same(f"OBR-2: {word}", [one[2] for one in found if one[0] == "OBR"], wanted)
            self.same("OBR-3", [one[3] for one in found if one[0] == "OBR"], ["S7", "I9"])
            self.same("SPM-2 and 4", [(one[2], one[4]) for one in found if one[0] == "SPM"],
                      [("S7^I3", "^unspecified"), ("I9", "^unspecified")])
        for action, wanted in (("A", "A"), ("p", "P"), ("N", ""), ("Q", ""), ("AP", "")):
            out = oru_of(stored(message("P|1", f"O|1|S7|||||||||{action}", "R|1|^^^A|1")))
            self.same(f"OBR-11 of {action}", told.cell(told.segments_of(out)[0][1], 11), wanted)

    def test_specimens(self):
        """The type of a specimen has its code of table 0487, if that has one for what the analyzer writes."""
        for text, wanted in (("Serum", "SER^Serum^HL70487"), ("wb", "WB^wb^HL70487"), ("faeces", "STL^faeces^HL70487"),
                             ("Arterial", "BLDA^Arterial^HL70487"), ("spinal fluid", "CSF^spinal fluid^HL70487"),
                             ("5", "^5"), ("hemolysate", "^hemolysate"), ("", "^unspecified")):
            out = oru_of(stored(message("P|1", f"O|1|S7|||||||||||||{text}", "R|1|^^^A|1")))
            self.same(f"SPM-4 of {text}", told.segments_of(out)[0][-1][4], wanted)

    def test_times(self):
        """OBR-7 is when the specimen was taken, else when the first result was completed, with a note; OBX-14 and
        SPM-17 are the first alone."""
        rows = ["R|1|^^^A|1|||||||||20261127103500", "R|2|^^^B|1||||||||20261127103100"]
        for taken, times, wanted in (("20261127093000", rows, "20261127093000"), ("", rows, "20261127103100"),
                                     ("", ["R|1|^^^A|1"], ""), ("soon", rows[:1], "20261127103500")):
            body = message("P|1", f"O|1|S7|||||{taken}||||||||serum", *times)
            found = told.segments_of(oru_of(stored(body)))[0]
            first = {one[0]: one for one in reversed(found)}
            self.same(f"of {taken or 'none'}", told.cell(first["OBR"], 7), wanted)
            own = taken if taken.isdigit() else ""
            self.same("OBX-14 and SPM-17", [told.cell(first["OBX"], 14), told.cell(first["SPM"], 17)], [own, own])
            notes = [one[3][:5] for one in found if one[0] == "NTE"]
            self.same("a note says so", notes, ["OBR-7"] if wanted and not own else [])

    def test_tables(self):
        """Whatever an analyzer writes, a field that has a table of HL7 has one of its values, or none."""
        rng, seen = random.Random(13), set()
        words = [*"ABCDEFGHIJKLMNOPQRSTUVWXYZ<>", "", "LL", "hh", "AA", "stat", "Serum", "whole blood", "1", "f^g"]
        for at in range(500):
            one, two, three, four, five, six, seven, eight, nine, ten = (rng.choice(words) for _ in range(10))
            order = f"O|1|S|||{three}||||||{four}||||{five}{'|' * 10}{six}"
            rows = [f"P|1||||Doe|||{one}", f"C|1|{two}|x", order, f"R|1|^^^A|1|||{seven}\\{eight}|{nine}|{ten}"]
            body = message(*rows, header=f"H|\\^&|||A|||||||{rng.choice(words)}")
            for segments in told.segments_of(oru_of(stored(body))):
                for (name, field), table in TABLES.items():
                    for each in (each for each in segments if each[0] == name and field < len(each)):
                        values = {part.partition("^")[0] for part in each[field].split("~")} - {""}
                        seen |= {(name, field, value) for value in values}
                        self.need(values <= set(table.split()), lambda: f"{at}: {name}-{field}: {values}: {body}")
        self.true("many of them are there", len(seen) > 45, str(len(seen)))
        self.same("each field", sorted(set(TABLES) - {one[:2] for one in seen}), [])

    def test_ids(self):
        """MSH-10 has 20 letters and digits, of its own for each patient of each message, and the same each time."""
        keys = [f"{random.Random(at).getrandbits(96):024x}" for at in range(200)] + [f"{at:024x}" for at in range(4)]
        named = [(key, place) for key in [*keys, "f" * 24, "k", ""] for place in (1, 2, 3, 64, 65, 128, 129)]
        found = [oru.control_id(*one) for one in named]
        self.true("20 of them", all(re.fullmatch(r"[0-9A-Z]{20}", one) for one in found))
        self.same("none is there twice", len(set(found)), len(found))
        self.same("the same again", [oru.control_id(*one) for one in named], found)
        rows = [row for at in (1, 2, 3) for row in (f"P|{at}|{at}", f"O|1|S{at}{'|' * 9}{'Q' * (at == 1)}", "R|1|^^^A|1")]
        made = [export.writer_of(export.Form("oru", controls=which))(stored(message(*rows))) for which in
                ("with", "only", "without")]
        ids = [[told.cell(one[0], 10) for one in told.segments_of(each)] for each in made]
        self.same("the same without controls", (len(ids[0]), ids[1] + ids[2]), (3, ids[0]))

    def test_codes(self):
        """OBX-3.3 is the table's system, OBX-6 its code of UCUM; without a table the code is local."""
        rows = [Code("GLU", "2345-7", "", decimal.Decimal(1), "", "10^9/L", None, "LN", "10*9/L"),
                Code("K", "POT", "", decimal.Decimal(1), "", "", None, "urn:oid:1.2")]
        body = message("P|1", "O|1|S7||^^^GLU", "R|1|^^^GLU|5.4|10&S&9/L", "R|2|^^^K|4", "R|3|^^^NA|139|mmol/L")
        found = told.segments_of(oru.oru_of(Told(Codes(rows).applied(stored(body)))))[0]
        self.same("OBR-4", told.cell(found[1], 4) + "^" + told.cell(found[1], 4, 3), "2345-7^LN")
        tests = [(told.cell(one, 3), told.cell(one, 3, 3), one[6]) for one in found if one[0] == "OBX"]
        self.same("OBX-3 and OBX-6", tests,
                  [("2345-7", "LN", "10*9/L^10\\S\\9/L^UCUM"), ("POT", "L", ""), ("NA", "L", "mmol/L")])

    def test_page(self):
        """The sample of deliver.md is what is written of the sample that it names."""
        page = kit.read("docs/deliver.md")
        block = re.search(r"(?ms)^```\n(MSH.*?)^```$", page)[1]
        with open("samples/panel.records", "rb") as file:
            out = oru_of(stored(file.read(), "KEY")).decode().replace("\r", "\n")
        self.same("as on the page", re.sub(r"\d{14}[+-]\d{4}", "TIME", out), re.sub(r"\d{14}[+-]\d{4}", "TIME", block))

    def test_values(self):
        """The type of a value, its status, and codes that are there twice."""
        for value, kind, wanted in (("5.4", "NM", "5.4"), ("-.5", "NM", "-.5"), (">500", "SN", ">^500"),
                                    ("<= 0.30", "SN", "<=^0.30"), ("neg", "ST", "neg"), ("1e3", "ST", "1e3"),
                                    ("5,4", "ST", "5,4"), ("1:40", "ST", "1:40"), ("", "", ""),
                                    ("x" * 200, "TX", "x" * 200)):
            out = self.read(oru_of(stored(message("P|1", "O|1|S7", f"R|1|^^^A|{value}|U/L"))))
            found = out["OBX"][0]
            self.same(f"of {value[:9]!r}", (str(found(2)), str(found(5)), str(found(6))), (kind, wanted, "U/L"))
        for status, wanted, report in (("", "F", "F"), ("F", "F", "F"), ("C", "C", "C"), ("P", "P", "P"),
                                       ("W", "P", "P"), ("V", "F", "F"), ("X", "X", "X"), ("N", "P", "P")):
            out = self.read(oru_of(stored(message("P|1", "O|1|S7", f"R|1|^^^A|1|||||{status}"))))
            found = (str(out["OBX"][0](11)), str(out["OBR"][0](25)), "NTE" in str(out))
            self.same(f"status {status}", found, (wanted, report, status in ("W", "N")))
        for flags, wanted, note in (("H\\A", "H~A", []), ("^H", "H", []), ("H^L\\!", "H~L", ["flag !"])):
            out = self.read(oru_of(stored(message("P|1", "O|1|S7", f"R|1|^^^A|1|||{flags}"))))
            found = str(out["OBX"][0](8)), [str(one[3]) for one in out if str(one[0]) == "NTE"]
            self.same(f"flags {flags}", found, (wanted, note))
        twice = self.read(oru_of(stored(message("P|1", "O|1|S7", "R|1|^^^A|1", "R|2|^^^B|1", "R|3|^^^A|2"))))
        self.same("codes that are there twice", [str(one(4)) for one in twice["OBX"]], ["1", "", "2"])
        control = self.read(oru_of(stored(message("P|1", "O|1|QC1|||||||||Q", "R|1|^^^A|1"))))
        self.same("a control", (str(control["SPM"][0](11)), "PID" in str(control)), ("Q", False))
        old = self.read(oru_of(stored(message("P|1", "O|1|QC1|||||||||Q", "R|1|^^^A|1", "P|2", "O|1|S7", "R|1|^^^A|1")),
                               oru.wishes_of(["MSH-12=2.3.1"])))
        self.same("in v2.3.1, which has no SPM", [str(one[3]) for one in old if str(one[0]) == "NTE"], [oru.CONTROL])
        query = oru_of(stored(message("Q|1|^S7||ALL")))
        self.same("a query has no results", query, b"")
        half = stored(b"H|\\^&\rP|1\r", state=INCOMPLETE)
        made = [export.writer_of(export.Form(form))(half) for form in ("oru", "fhir")]
        self.same("one that isn't whole isn't written", made, [b"", b""])
        again = self.read(oru_of(stored(message("P|1", "O|1|S7", "R|1|^^^A|1"), again_of="00ff")))
        self.same("a repeat is marked", str(again["NTE"][0](3)), "repeat of message 00ff")
        fixed = self.read(oru_of(stored(message("P|1", "O|1|S7", "R|1|^^^A|1"), reason="fixed from 00fe: x")))
        self.same("a fixed one is marked", [str(one(3)) for one in fixed["NTE"]], ["fixed from 00fe: x"])

    def test_random(self):
        """Random texts in each field: the library reads what was written."""
        rng = random.Random(7)
        for at in range(300):
            texts = ["".join(rng.choice("ab|^~\\&#\u03bc\u00e9 .5") for _ in range(rng.randint(1, 9))).strip() or "x"
                     for _ in range(4)]
            sample, code, value, unit = (
                one.replace("&", "&E&").replace("|", "&F&").replace("\\", "&R&").replace("^", "&S&") for one in texts
            )
            body = message("P|1", f"O|1|{sample}", f"R|1|^^^{code}|x{value}|{unit}")
            found = self.cells(oru_of(stored(body)), "OBR.F3", "OBX.F3", "OBX.F6")
            self.need(found == [texts[0], texts[1], texts[3]], lambda: f"{at}: {texts}: {found}")


class Scripted:
    """A receiver that answers each message by a function of its number and control id: bytes, None to close the
    connection, nothing at all, or a list of these, with a pause after each."""

    def __init__(self, answer, context=None, pause=0.0):
        self.answer, self.taken, self.blocks, self.connections, self.context = answer, [], [], 0, context
        self.pause = pause
        self.socket = socket.create_server(("127.0.0.1", 0))
        self.port = self.socket.getsockname()[1]
        threading.Thread(target=self.run, daemon=True).start()

    def run(self):
        """Takes connections, one after another."""
        while True:
            try:
                line, _ = self.socket.accept()
            except OSError:
                return
            self.connections += 1
            with line:
                try:
                    self.talk(line if self.context is None else self.context.wrap_socket(line, server_side=True))
                except OSError:
                    continue

    def talk(self, line):
        """Answers what comes over a connection."""
        left = b""
        while True:
            data = line.recv(4096)
            if not data:
                return
            left += data
            while b"\x1c\r" in left:
                block, _, left = left.partition(b"\x1c\r")
                key = block.split(b"|")[9]
                self.blocks.append(block)
                self.taken.append(key.decode())
                answer = self.answer(len(self.taken), key)
                for part in answer if isinstance(answer, list) else [answer]:
                    if part is None:
                        return
                    line.sendall(part)
                    time.sleep(self.pause)

    def close(self):
        """Takes no more connections."""
        self.socket.close()


def ack(code, key, more=b""):
    """An acknowledgement."""
    return b"\x0bMSH|^~\\&|R||||20260101||ACK^R01^ACK|9|P|2.5.1\rMSA|" + code + b"|" + key + more + b"\r\x1c\r"


class Receivers(WithLibrary):
    """MLLP, with its acknowledgements."""

    def sent(self, answer, keys=("k1",), seconds=60.0, pause=0.0):
        """What became of messages to a receiver that answers so: for each what was wrong, empty if nothing was."""
        told, receiver = [], Scripted(answer, pause=pause)
        one = mllp.Mllp("127.0.0.1", receiver.port, seconds)
        for key in keys:
            try:
                one.deliver(oru_of(stored(records(["A"]), key)), oru.control_id(key))
                told.append("")
            except deliver.Refused as error:
                told.append(type(error).__name__ + ": " + str(error).split(": ", 1)[1])
        one.close()
        receiver.close()
        return told, receiver

    def test_answers(self):
        """What is accepted, and what is a failure."""
        secret = b"|unknown patient Doe\rERR||OBX^1^3|207^Application internal error^HL70357|E|||Doe isn't there"
        for name, answer, wanted in (
            ("AA", lambda at, key: ack(b"AA", key), ""),
            ("CA", lambda at, key: ack(b"CA", key), ""),
            ("AE", lambda at, key: ack(b"AE", key), "Refused: AE"),
            ("AR", lambda at, key: ack(b"AR", key), "Refused: AR"),
            ("an error's codes, and not its texts", lambda at, key: ack(b"AE", key, secret),
             "Refused: AE, error 207 at OBX^1^3"),
            ("another code", lambda at, key: ack(b"ZZ", key), "Refused: an answer without AA, AE or AR"),
            ("no message", lambda at, key: b"\x0bhello\x1c\r", "Refused: an answer that can't be read"),
            ("no code", lambda at, key: b"\x0bMSH|^~\\&|R\r\x1c\r", "Refused: an answer that can't be read"),
            ("a late answer first", lambda at, key: ack(b"AE", b"another") + ack(b"AA", key), ""),
            ("with LF", lambda at, key: ack(b"AA", key).replace(b"\rMSA", b"\nMSA"), ""),
            ("with CR LF", lambda at, key: ack(b"AE", key).replace(b"\rMSA", b"\r\nMSA"), "Refused: AE"),
            ("without CR at its end", lambda at, key: ack(b"AA", key)[:-1], ""),
            ("without the tail of the id", lambda at, key: ack(b"AA", key[:15]),
             "Refused: an answer with 15 of the 20 of MSH-10"),
            ("codes that a terminal would act on", lambda at, key: ack(b"A\x1b[2J", key),
             "Refused: an answer without AA, AE or AR"),
            ("in two parts", lambda at, key: b"noise" + ack(b"AA", key), ""),
            ("closed", lambda at, key: None, "Refused: the connection was closed without an answer"),
            ("one that breaks off", lambda at, key: [ack(b"AA", key)[:-2], None],
             "Refused: the connection was closed without an answer"),
        ):
            self.same(name, self.sent(answer)[0], [wanted])
        told, _ = self.sent(lambda at, key: b"", seconds=0.3)
        self.same("silence", told, ["Refused: no answer within 0.3 seconds"])
        told, _ = self.sent(lambda at, key: [b"\x0b", *[b"x"] * 600], seconds=1.0, pause=0.1)
        self.same("one that drips", told, ["Refused: no answer within 1 seconds"])
        told, _ = self.sent(lambda at, key: ack(b"AA", b"another") * 5000, seconds=3.0)
        other = "Refused: no answer within 3 seconds: its last answer is to another message, another"
        self.same("the answer to another message", told, [other])
        told, receiver = self.sent(lambda at, key: ack(b"AA", key), ("k1", "k2", "k3"))
        self.same("one connection for all", (told, receiver.connections), (["", "", ""], 1))

    def test_died_silently(self):
        """A connection over which nothing comes any more is no failure of the message: it is sent over a new one."""
        told, receiver = self.sent(lambda at, key: b"" if at == 2 else ack(b"AA", key), ("k1", "k2"), 3.0)
        self.same("both are accepted", (told, len(receiver.taken)), (["", ""], 3))

    def test_each_patient(self):
        """The messages of a message's patients each have their acknowledgement; what was accepted isn't sent again."""
        body = message("P|1|4711", "O|1|S1", "R|1|^^^A|1", "P|2|4712", "O|1|S2", "R|1|^^^A|2")
        ids = [oru.control_id("k", place) for place in (1, 2)]
        receiver = Scripted(lambda at, key: ack(b"AE" if at == 2 else b"AA", key))
        target = mllp.to_mllp(mllp.Mllp("127.0.0.1", receiver.port, 60.0), Ahead(export.writer_of(export.Form("oru"))))
        self.raises("the second is rejected", deliver.Refused, lambda: target(stored(body, "k")))
        self.true("it is sent again", target(stored(body, "k")))
        receiver.close()
        self.same("what came", receiver.taken, [ids[0], ids[1], ids[1]])

    def test_ahead(self):
        """While the answer to a message is waited for, the next one is written: each goes out once, in order, and the
        receiver may answer only then."""
        body = message("P|1|4711", "O|1|S1", "R|1|^^^A|1")
        written, write = [], export.writer_of(export.Form("oru"))

        def wrote(one):
            written.append(one.key)
            return write(one)

        ahead = Ahead(wrote)
        keys = ["k1", "k2", "k3"]
        receiver = Scripted(lambda at, key: ack(b"AA", key) if wait_for(lambda: len(written) > min(at, 2)) else None)
        target = mllp.to_mllp(mllp.Mllp("127.0.0.1", receiver.port, 600.0), ahead)
        accepted = [target(one) for one in ahead.over(stored(body, key) for key in keys)]
        receiver.close()
        self.same("all are accepted", accepted, [True] * 3)
        self.same("what came", receiver.taken, [oru.control_id(key) for key in keys])
        self.same("what was written", written, keys)

    def test_ahead_of_what(self):
        """Nothing is read besides a large message; one that can't be written yet is written in its turn."""
        events = []

        def messages():
            for key, size in (("a", 1), ("b", 1), ("bad", 1), ("large", 1 << 17), ("c", 1)):
                events.append(f"read {key}")
                yield stored(b"x" * size, key)

        def write(one):
            events.append(f"write {one.key}")
            if one.key == "bad":
                raise Quarantined("it is not sure")
            return one.body

        ahead = Ahead(write)
        for one in ahead.over(messages()):
            try:
                ahead.write(one)
            except Quarantined:
                events.append("quarantined")
                continue
            events.append("sent")
            ahead.look()
            events.append("answered")
        self.same("what happens", ", ".join(events),
                  "read a, write a, sent, read b, write b, answered, sent, read bad, write bad, answered, write bad, "
                  "quarantined, read large, write large, sent, answered, read c, write c, sent, answered")

    def test_closed_between(self):
        """A receiver that closes the connection between two messages gets the second over a new one, at once."""
        told, receiver = self.sent(lambda at, key: None if at == 2 else ack(b"AA", key), ("k1", "k2"))
        self.same("both are accepted", told, ["", ""])
        self.same("the second was sent twice, by the same id", receiver.taken,
                  [oru.control_id(key) for key in ("k1", "k2", "k2")])
        one = mllp.Mllp("127.0.0.1", kit.free_port(), 5.0)
        self.raises("nobody listens", deliver.Unreachable, lambda: one.deliver(b"MSH|", "k"))

    def test_rejected(self):
        """A message that a receiver rejects is quarantined by --quarantine, and the others go on."""
        store, cursor = self.path("rejected.db"), self.path("rejected.cursor")
        keys = keep(store, [records([one]) for one in "ABAC"])
        ids = [oru.control_id(key) for key in keys]
        receiver = Scripted(lambda at, key: ack(b"AR" if key == ids[0].encode() else b"AA", key))
        words = ["--cursor", cursor, "--to", f"mllp://127.0.0.1:{receiver.port}", "--once", "--quarantine", "1"]
        done = self.run_it("deliver", "--store", store, *words)
        receiver.close()
        self.same("the status", done.returncode, 1)
        self.has("it is said", done.stderr, f"{keys[0]} is quarantined: 127.0.0.1:{receiver.port}: AR\n")
        self.same("what was sent", receiver.taken, [ids[0], ids[1], ids[3]])
        wrong = self.run_it("deliver", "--store", store, "--cursor", cursor, "--to", "mllp://h:1", "--format", "csv")
        self.same("another format", (wrong.returncode, "--format oru" in wrong.stderr), (2, True))

    def run_it(self, *words):
        """Runs a command with the library."""
        command = [sys.executable, "-m", "lislab", *words]
        return subprocess.run(command, capture_output=True, text=True, env=self.env, timeout=120, check=False)

    def test_kills(self):
        """A receiver on the same library that is killed at random, and before and after it takes a message: each
        message at least once, in order by sample, none under two ids."""
        size, rng = hosts.size("mllp"), random.Random(11)
        samples = [rng.choice("ABCDEFGH") for _ in range(size)]
        store, log = self.path("kills.db"), self.path("kills.log")
        keys = [oru.control_id(key) for key in keep(store, [records([one], str(at)) for at, one in enumerate(samples)])]
        receiver, port = self.receiver(kit.free_port(), log)
        words = ["--store", store, "--cursor", self.path("kills.cursor"), "--to", f"mllp://127.0.0.1:{port}"]
        process(["-m", "lislab", "deliver", *words], env=self.env)
        kills = size // 100 + 2
        for kill in range(1, kills + 1):
            count = size * kill // (kills + 1)
            self.need(wait_for(lambda: len(self.taken(log)) >= count, 60), lambda: f"before kill {kill}")
            if kill % 3:
                with open(log + ".new", "w", encoding="ascii") as file:
                    file.write(("", "before", "after")[kill % 3])
                os.rename(log + ".new", log + ".die")
                self.need(wait_for(lambda one=receiver: one.poll() is not None, 60), lambda: f"at kill {kill}")
            else:
                time.sleep(rng.random() * 0.02)
                receiver.kill()
            receiver.wait()
            receiver, _ = self.receiver(port, log)
        wait_for(lambda: len({row[0] for row in self.taken(log)}) == size, 60)
        found = self.taken(log)
        hosts.say(f"{size} messages, {kills} kills of the receiver, {len(found) - size} came twice")
        self.same("each at least once", sorted({row[0] for row in found}), sorted(keys))
        ids = [(key, str(at)) for at, key in enumerate(keys)]
        self.same("under one id", sorted({(row[0], row[2]) for row in found}), sorted(ids))
        firsts = list(dict.fromkeys((row[1], row[0]) for row in found))
        for sample in "ABCDEFGH":
            mine = [key for key, one in zip(keys, samples) if one == sample]
            self.same(f"in order: {sample}", [key for one, key in firsts if one == sample], mine)

    def receiver(self, port, log):
        """A receiver that runs, and its port."""
        for _ in range(100):
            one = process([RECEIVER, str(port), log], stdout=subprocess.PIPE, env=self.env)
            told = one.stdout.readline()
            one.stdout.close()
            if told:
                return one, int(told)
            time.sleep(0.1)
        raise RuntimeError("the receiver doesn't start")

    @staticmethod
    def taken(log):
        """The rows of a receiver's log."""
        if not os.path.exists(log):
            return []
        with open(log, encoding="utf-8") as file:
            return [tuple(row.split()) for row in file if row.endswith("\n")]
