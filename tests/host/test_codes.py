"""Tables of codes: codes, units and factors of a laboratory for those of analyzers."""
import csv
import fractions
import importlib
import io
import json
import os
import random
import re
import sys

from lislab.model import codes
from lislab.outbound import fhir, oru
from lislab.model.failures import Quarantined
from lislab.model.results import Coded, Reading, Told, report_of
from lislab.outbound.tables import tables_of
from lislab.outbound import deliver, export
from lislab.model.options import OptionError
from lislink.message import Found, read_all
from tests.host import fhir_r4
from tests.host.hosts import HostTest, lislab
from tests.host.test_quarantine import keep
from tests.host.test_fhir import observations
from tests.host.test_mllp import WithLibrary, message, stored

HEAD = "analyzer,laboratory,unit,factor,line,sent\n"
ALL = HEAD.strip() + ",digits,system,ucum\n"
SAMPLE = "samples/panel.records"


def results(body):
    """The result and the comment records of a message, as texts."""
    return [row for row in body.decode().split("\r") if row[:1] in ("R", "C")]


#: What random cells are made of.
CELLS = (b"A", b"GLU", b"5.4", b">5", b"1e3", b"neg", b"", b" ", b"3.9 to 6.1", b"20261127103500", b"20260230", b"\xe4",
         b"\xa3\x7c", b"\xc2\xb5g", b"mmol/L", b"F", b"X", b"Q", b"T")


def random_body(rng):
    """A message with random delimiters, records and cells; it may be one that can't be read."""
    marks = rng.choice((b"|\\^&", b"|~^&", b"!@#$"))

    def cell():
        parts = [rng.choice(CELLS)]
        for _ in range(rng.choice((0, 0, 0, 1, 3))):
            escape = marks[3:] + rng.choice((b"F", b"S", b"R", b"E", b"H", b"N", b"X41", b"Z")) + marks[3:]
            parts += [rng.choice((marks[1:2], marks[2:3], escape, bytes([rng.randrange(32, 255)]))), rng.choice(CELLS)]
        return b"".join(parts)

    rows = [b"H" + marks, b"P", b"O", *rng.choices([b"P", b"O", b"R", b"R", b"R", b"C", b"M"], k=rng.randint(0, 6))]
    rows = [marks[:1].join([row, *(cell() for _ in range(rng.randint(0, 28)))]) for row in rows]
    return b"".join(row + b"\r" for row in [*rows, b"L" + marks[:1] + b"1"])


class Table(HostTest):
    """A table, and what it makes of results."""

    def table(self, *rows, head=HEAD):
        """The codes of a file with these rows."""
        path = self.path("table.codes")
        with open(path, "w", encoding="utf-8") as file:
            file.write(head + "".join(f"{row}\n" for row in rows))
        return path

    def coded(self, table, *rows, **more):
        """The results that a table makes of these."""
        one = stored(message("P|1|4711", "O|1|S7||^^^A", *rows), **more)
        return results(codes.codes_of(table).applied(one).one.body)

    def test_faults(self):
        """Each fault has its file and row, and says what would be right."""
        for row, why in (
            ("A,B,U,1,L,S,,,,x", "there are 1 cells more than names"),
            (",B", "the analyzer's code is missing"),
            ("A,", "the laboratory's code is missing"),
            ("A,B,U,x", "x: a factor is a decimal, as 0.0555, and not 0"),
            ("A,B,U,0", "0: a factor is a decimal, as 0.0555, and not 0"),
            ("A,B,U,inf", "inf: a factor is a decimal, as 0.0555, and not 0"),
            ('A,B,U,"0,5"', "0,5: a factor is a decimal, as 0.0555, and not 0"),
            ("A,B,,2", "a factor needs the unit that it gives"),
            ("G,B", "G is in row 2 too"),
            ("A,B,U,2,,,x", "x: digits are 0 to 9, of a value with a factor"),
            ("A,B,U,,,,1", "1: digits are 0 to 9, of a value with a factor"),
            ("A,B,,,,,,a b", "a b: a system is a word of HL7, as LN for LOINC, or an address"),
            ("A,B,,,,,,,mg", "a unit of UCUM needs the unit that it stands for: unit or sent"),
            ("A,leave out,U", "what is left out has no unit and no system"),
            ("^^,B", "^^: a pattern names a component, as ^^^GLU^^^F"),
        ):
            path = self.table("G,GLUC", "# a comment", "", row, head=ALL)
            self.same(row, codes.read_codes(path).faults, [f"{path}:5: {why}"])
            self.raises(f"{row}: nothing is sent by it", OptionError, lambda path=path: codes.codes_of(path))
        for head, why in (("analyzer,unit\n", "the column laboratory is missing"),
                          ("analyzer,laboratory,name\n", "there is no column name, or it is there twice"),
                          ("", "the column analyzer is missing")):
            path = self.table(head=head)
            self.has(head, codes.read_codes(path).faults[0], f"{path}:1: {why}")
        good = codes.read_codes(self.table("A,B,U,2,L1", "A,C,U,2", "A,D,,,L1,mg", "\u03bc,\u20ac"))
        self.same("good ones", (len(good.codes), good.faults), (4, []))

    def test_values(self):
        """Values are multiplied exactly, with all their digits; what is no number stays with its unit."""
        no, already = "lislab: the value is no number, and isn't multiplied", "lislab: it is in"
        for value, factor, wanted, mark in (
            ("5.4", "18.016", "97.2864|new", ""), ("97", "0.0555", "5.3835|new", ""), ("5.40", "10", "54.00|new", ""),
            ("0.1", "0.1", "0.01|new", ""), ("5.4", "1", "5.4|new", ""), ("+05.4", "1", "+05.4|new", ""),
            ("neg", "1", "neg|new", ""), (">500", "0.5", ">250.0|new", ""), ("<= .30", "2", "<=0.60|new", ""),
            (">5", "-1", "<-5|new", ""), ("1e2", "2", "200|new", ""), ("neg", "2", "neg|old", no),
            ("5,4", "2", "5,4|old", no), ("1:40", "2", "1:40|old", no),
            ("5^4", "2", "5^4|old", no), ("", "2", "|new", ""),
            ("123456789012345678901234567890.1", "1.1", "135802467913580246791358024679.11|new", ""),
        ):
            table = self.table(f"A,B,new,{factor}")
            found = self.coded(table, f"R|1|^^^A|{value}|old")
            marks = [f"C|1|L|{mark}|G"] if mark else []
            self.same(f"{value} by {factor}", found, [f"R|1|^^^B|{wanted}", *marks])
        found = self.coded(self.table("A,B,new,2"), "R|1|^^^A|5|new")
        self.same("in the laboratory's unit already", found[0], "R|1|^^^B|5|new")
        self.has("it is marked", found[1], already)
        found = self.coded(self.table("A,B"), "R|1|^^^A^7|5|old||H")
        self.same("without a unit in the table", found, ["R|1|^^^B^7|5|old||H"])
        self.same("a code alone", self.coded(self.table("A,B"), "R|1|A|5|old"), ["R|1|^^^B|5|old"])

    def test_ranges(self):
        """A range goes with its value."""
        for text, factor, wanted, mark in (
            ("3.9 to 6.1", "10", "39.0 to 61.0", ""), ("3.9-6.1", "0.5", "1.95-3.05", ""), ("<5", "2", "<10", ""),
            ("-2 - 2", "2", "-4-4", ""), ("1-2", "-1", "-2--1", ""), ("3.9 to 6.1", "1", "3.9 to 6.1", ""),
            ("usual", "2", "usual old", "lislab: the range is in old"),
            ("1-2^adults", "2", "1-2^adults old", "lislab: the range is in old"),
        ):
            found = self.coded(self.table(f"A,B,new,{factor}"), f"R|1|^^^A|5|old|{text}")
            self.same(f"{text} by {factor}", found[0].split("|")[5], wanted)
            self.true(f"{text}: marked or not", len(found) == 1 + bool(mark) and mark in found[-1], str(found))

    def test_which_row(self):
        """The row of the line goes before that of any line, that of the unit before that of any unit."""
        table = self.table("A,any,u,2", "A,here,u,3,chemistry", "A,mg,u,4,chemistry,mg", "A,g,u,5,,g", "B,only,u,2,,mg")
        for line, unit, wanted in (("chemistry", "mg", "mg|4"), ("chemistry", "x", "here|3"),
                                   ("chemistry", "g", "here|3"),
                                   ("other", "g", "g|5"), ("other", "mg", "any|2"), ("other", "", "any|2")):
            found = self.coded(table, f"R|1|^^^A|1|{unit}", line=line)
            self.same(f"{line}, {unit}", found, [f"R|1|^^^{wanted}|u"])
        found = self.coded(table, "R|1|^^^B|1|g", "C|1|I|one", "M|1|x", "R|2|^^^C|1|", "C|1|I|two")
        self.same("what isn't there", found, [
            "R|1|^^^B|1|g", "C|1|I|one", "C|2|L|lislab: no code for B in g|G",
            "R|2|^^^C|1|", "C|1|I|two", "C|2|L|lislab: unknown code C|G"])

    def test_patterns(self):
        """A row may name components of the field: the one that names most goes first; it may leave a result out."""
        table = self.table("^^^16,OTHER", "^^^16^^^^^^^F,GLU", "^^^16^^^^^^^P,leave out",
                           "*^*^*^16^*^*^*^*^*^*^I,leave out", "HCG,HCG", "^^^HCG^10,HCG10", head="analyzer,laboratory\n")
        field = "^^^16^Glucose^UNDILUTED^P^1234^00567^^"
        found = self.coded(table, f"R|1|{field}F|5.4|mmol/L", f"R|2|{field}P|0.8765|Abs", "C|1|I|of what is left out",
                           f"R|3|{field}I|NORMAL", "C|1|I|too", "R|4|^^^HCG|1", "R|5|^^^HCG^10|2", "R|6|^^^HCG^5|3")
        self.same("one is left", found, ["R|1|^^^GLU^Glucose^UNDILUTED^P^1234^00567^^F|5.4|mmol/L", "R|4|^^^HCG|1",
                                         "R|5|^^^HCG10^10|2", "R|6|^^^HCG^5|3"])
        one = codes.codes_of(table).applied(stored(message("P|1", "O|1|S7", f"R|1|{field}P|1", f"R|2|{field}I|1")))
        self.same("they are counted", one.left_out, 2)

    def test_work(self):
        """An order with four times as many tests is four times the work, by the calls that it takes."""
        table = codes.codes_of(self.table(*(f"T{at},L{at}" for at in range(9))))

        def calls(count):
            tests = "\\".join(f"^^^T&S&{at}" for at in range(count))
            one, seen = stored(message("P|1", f"O|1|S7||{tests}", "R|1|^^^T1|5.4")), []
            sys.setprofile(lambda frame, event, given: seen.append(event) if event == "call" else None)
            try:
                Told(table.applied(one))
            finally:
                sys.setprofile(None)
            return len(seen)

        calls(400)  # what is kept of a test is kept
        few, many = calls(100), calls(400)
        self.true("four times", many < 5 * few, f"{few} and {many} calls")

    def test_digits(self):
        """A value that is multiplied has so many digits, half to even, and a comment with what came."""
        table = self.table("A,B,new,0.5,,,1", head=HEAD.strip() + ",digits\n")
        for value, wanted in (("0.5", "0.2"), ("0.7", "0.4"), ("0.9", "0.4"), (">10", ">5.0"), ("10.06", "5.0")):
            found = self.coded(table, f"R|1|^^^A|{value}|old|1-2")
            self.same(value, found, [f"R|1|^^^B|{wanted}|new|0.5-1.0", f"C|1|L|lislab: it was {value} old|G"])

    def test_encoding(self):
        """A word of the table is written in the message's encoding, delimiters as escapes."""
        table = self.table("A,B,\u03bcg/l,2", "C,x|y^z&,,", "D,\u20ac,,")
        latin = stored(message("P|1", "O|1|S7", "R|1|^^^A|1|u"), encoding="latin-1")
        found = codes.codes_of(table).applied(latin).one.body.split(b"\r")[3]
        self.same("micro", found, b"R|1|^^^B|2|\xb5g/l")
        self.same("delimiters", self.coded(table, "R|1|^^^C|1|u"), ["R|1|^^^x&F&y&S&z&E&|1|u"])
        bad = stored(message("P|1", "O|1|S7", "R|1|^^^D|1|u"), encoding="latin-1")
        self.raises("what can't be", deliver.Refused, lambda: codes.codes_of(table).applied(bad))

    def test_random(self):
        """Random tables and messages, by fractions: no result is lost, none without its unit, no other record changes.
        """
        rng = random.Random(3)
        for at in range(300):
            known = {code: rng.choice(("1", "0.0555", "18.016", "-2", "10")) for code in "ABCD" if rng.random() < 0.7}
            units = {"1": ""}
            table = self.table(*(f"{one},L{one},{units.get(by, 'new')},{by}" for one, by in known.items()))
            rows = []
            for _ in range(rng.randint(1, 6)):
                value = rng.choice(("5.4", "0.070", "-3", ">7.5", "neg", "12", ""))
                rows.append(f"R|{rng.randint(1, 9)}|^^^{rng.choice('ABCDE')}|{value}|{rng.choice(('old', 'new'))}||N")
                rows += rng.sample(["C|1|I|x", "M|1|y"], rng.randint(0, 2))
            whole = stored(message("P|1|4711", "O|1|S7", *rows))
            out = codes.codes_of(table).applied(whole).one.body.decode().split("\r")
            kept = [row for row in out if "|L|lislab: " not in row]
            before = whole.body.decode().split("\r")
            self.need(len(kept) == len(before), lambda: f"{at}: {kept}")
            for old, new in zip(before, kept):
                why = self.wrong(old, new, known)
                self.need(not why, lambda: f"{at}: {old}: {new}: {why}")

    @staticmethod
    def wrong(old, new, known):
        """What is wrong with a record; empty if nothing is."""
        if old[:1] != "R":
            return "" if old == new else "it is changed"
        one, two = old.split("|"), new.split("|")
        code = one[2][3:]
        if code not in known:
            return "" if old == new else "it is changed"
        factor, number = known[code], re.match(r"([<>]?)(-?[\d.]+)$", one[3])
        if two[2] != f"^^^L{code}" or not two[4] or two[5:] != one[5:]:
            return "its code, its unit or another field"
        if factor == "1" or one[4] == "new" or (one[3] and not number):
            return "" if (two[3], two[4]) == (one[3], one[4]) else "it is multiplied"
        if not one[3]:
            return "" if two[3:5] == ["", "new"] else "it has a value"
        signs = {">": "<"}.get(number[1], number[1]) if factor.startswith("-") else number[1]
        value = fractions.Fraction(number[2]) * fractions.Fraction(factor)
        good = two[3].startswith(signs) and fractions.Fraction(two[3][len(signs) :]) == value and two[4] == "new"
        digits = sum(len(text.partition(".")[2]) for text in (number[2], factor))
        return "" if good and len(two[3].partition(".")[2]) == digits else "its value"


class Codes(WithLibrary):
    """The commands."""

    def test_forms(self):
        """In each form an unknown code goes out as it is, marked, with its unit, a known one as the laboratory's."""
        path = self.path("forms.codes")
        with open(path, "w", encoding="utf-8") as file:
            file.write(HEAD + "GLU,GLUC,mg/dL,18,,\nNA,NA,,,,\n")
        with open(SAMPLE, "rb") as file:
            one = stored(file.read())
        tables = tables_of(path, None)
        made = {form: export.writer_of(export.Form(form, tables)) for form in export.FORMATS}
        text = {form: ((write(None) or b"") + write(one)).decode() for form, write in made.items()}
        self.has("records", text["records"], "R|3|^^^K|5.6|mmol/L|3.5 to 5.1|H||F\rC|1|I|slightly haemolytic\r"
                                             "C|2|L|lislab: unknown code K|G\r")
        rows = list(csv.DictReader(io.StringIO(text["csv"])))
        self.same("csv", [(row["test"], row["value"], row["unit"], row["mark"]) for row in rows], [
            ("GLUC", "97.2", "mg/dL", ""), ("NA", "139", "mmol/L", ""), ("K", "5.6", "mmol/L", "unknown code K"),
            ("GLUC", "86.4", "mg/dL", "")])
        self.true("tsv", text["tsv"].splitlines()[3].endswith("\tunknown code K\t\t"), text["tsv"])
        found = json.loads(text["json"])["message"]["patients"][0]["orders"][0]["results"]
        self.same("json", (found[0]["test"], found[0]["unit"], found[2]["notes"][1]["comment_text"]),
                  ("^^^GLUC", "mg/dL", "lislab: unknown code K"))
        names = ("OBR.F4.R1.C2", "OBX.F3", "OBX.F5", "OBX.F6", "OBX.F7", "NTE2.F3")
        first = oru.messages_of(text["oru"].encode())[0].decode()
        cells = [str(importlib.import_module("hl7").parse(first)[name]) for name in names]
        self.same("oru", cells, ["GLUC NA K", "GLUC", "97.2", "mg/dL", "70.2-109.8", "lislab: unknown code K"])
        bundle = observations(text["fhir"])
        self.same("fhir", (fhir_r4.faults(text["fhir"]), bundle[0]["code"]["text"], bundle[2]["note"][1]["text"]),
                  ([], "GLUC", "lislab: unknown code K"))
        self.same("the message stays", fhir.bundle_of(Told(Coded(one))).decode().count("GLUC"), 0)

    def test_any_message(self):
        """Random messages, delimiters and encodings: each form has each result, can be read, and never fails."""
        rng, path = random.Random(9), self.path("any.codes")
        with open(path, "w", encoding="utf-8") as file:
            file.write(HEAD + "A,LA,mg/dL,18.016,,\nGLU,GL|^&\\,g,0.1,,\n")
        table, count = codes.codes_of(path), 0
        for at in range(1200):
            one = stored(random_body(rng), encoding=rng.choice(("latin-1", "utf-8", "gbk", "cp1251", "shift_jis")))
            found = [each for each in read_all(one.body, one.encoding) if isinstance(each, Found)]
            if len(found) != 1:
                continue
            wanted = len(list(found[0].message.results()))
            reading = Reading(rng.choice(("O.3.1", "O.4.1", "")), letters="mark", twice="deliver")
            for coded in (Coded(one, reading), table.applied(one, reading)):
                try:
                    told = Told(coded)
                except Quarantined:
                    continue
                count += 1
                out, bundle = oru.oru_of(told), fhir.bundle_of(told)
                for each in oru.messages_of(out):
                    again = str(importlib.import_module("hl7").parse(each.decode()))
                    self.need(again.rstrip() == each.decode().rstrip(), lambda: f"{at}: {each}")
                self.need(not bundle or fhir_r4.faults(bundle) == [], lambda: f"{at}: {fhir_r4.faults(bundle)}")
                bare = [each for case in told.cases for each in case.orders if not each.record.results]
                more = sum(len(each.tests) for each in bare if report_of(each.record))
                results_of = out.count(b"\rOBX|"), len(observations(bundle)) - more if bundle else 0
                self.need(results_of == (wanted, wanted), lambda: f"{at}: {results_of}, wanted {wanted}: {one.body}")
        self.true("messages were tried", count > 100, str(count))

    def test_command(self):
        """`lislab codes`, and --codes of a delivery."""
        store, path = self.path("command.db"), self.path("command.codes")
        with open(SAMPLE, "rb") as file:
            body = file.read()
        keep(store, [body, body, message("Q|1|^S7||ALL")], "chemistry")
        with open(path, "w", encoding="utf-8") as file:
            file.write(HEAD + "GLU,GLUC,mg/dL,18,,\nNA,NA,,,other\n")
        done = lislab("codes", "--store", store, path)
        lacks = "unknown K 2\nunknown NA 2\ncodes 2 unknown 2\n"
        self.same("what it lacks", (done.returncode, done.stdout), (1, lacks))
        self.same("the table alone", lislab("codes", path).stdout, "codes 2 unknown 0\n")
        with open(path, "a", encoding="utf-8") as file:
            file.write("K,K,,,,\nNA,NA,,,,\n")
        done = lislab("codes", "--store", store, path)
        self.same("nothing", (done.returncode, done.stdout), (0, "codes 4 unknown 0\n"))
        words = ["--store", store, "--cursor", self.path("command.cursor"), "--once", "--codes", path]
        self.same("delivered", lislab("deliver", *words, "--to", self.path("command.d")).returncode, 0)
        names = sorted(os.listdir(self.path("command.d")))
        with open(os.path.join(self.path("command.d"), names[0]), "rb") as file:
            self.has("by the table", file.read().decode(), "R|1|^^^GLUC|97.2|mg/dL|70.2 to 109.8|N||F\r")
        out = self.path("command.out")
        lislab("export", "--store", store, "--format", "records", "-o", out)
        with open(out, "rb") as file:
            self.true("the store keeps what came", file.read().startswith(body * 2))
        with open(path, "a", encoding="utf-8") as file:
            file.write("X,,\n")
        done = lislab("codes", path)
        self.same("a fault", (done.returncode, done.stdout),
                  (1, f"{path}:6: the laboratory's code is missing\ncodes 4 unknown 0\n"))
        done = lislab("deliver", *words, "--to", self.path("command.d"))
        self.same("nothing is sent with it", (done.returncode, f"{path}:6: " in done.stderr), (2, True))
