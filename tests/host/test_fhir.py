"""Messages as Bundles of FHIR R4, against the published structure, and over HTTPS to a server with a certificate of its
own."""
import decimal
import http.server
import json
import os
import random
import re
import shutil
import socketserver
import ssl
import subprocess
import threading
import time
import urllib.parse

from lislab.outbound import deliver
from lislab.model.options import OptionError
from lislab.outbound import quarantine, fhir, https, mllp, oru
from lislab.model.results import Coded, Reading, Told
from tests.host import fhir_r4
from tests.host.hosts import HostTest, lislab
from tests.host.told import cell, segments_of
from tests.host.test_quarantine import keep, records
from tests.host.test_mllp import Scripted, WithLibrary, ack, message, stored


def observations(data, kind="Observation"):
    """The Observations of a Bundle, or other resources."""
    found = [one["resource"] for one in json.loads(data, parse_float=decimal.Decimal)["entry"]]
    return [one for one in found if one["resourceType"] == kind]


def tube_of(data, one):
    """The Specimen of an Observation."""
    urls = {it["fullUrl"]: it["resource"] for it in json.loads(data)["entry"]}
    return urls[one["specimen"]["reference"]]


def bundle_of(one, wishes=oru.Wishes(), **reading):
    """A message as a Bundle, by the settings of its line."""
    told = Told(Coded(one, Reading(**reading)))
    told.leave_out_corrected()
    return fhir.bundle_of(told, wishes)


class Fhir(HostTest):
    """Bundles of Observations."""

    def test_fields(self):
        """A message's fields."""
        rows = ["P|1|4711|L9", "O|1|S7|I3|^^^GLU|R", 
                "R|1|^^^GLU|5.40|mmol/L|3.9 to 6.10|H\\A||F||op1||20261127103500|A7", "C|1|I|a comment|G",
                "R|2|^^^NA|neg|mmol/L|usual|!||W", "R|3|^^^K||mmol/L", "P|2", "O|1|QC|||||||||Q",
                "R|1|^^^K|>500|U/L|<5"]
        out = bundle_of(stored(message(*rows), again_of="00ff"), zone="Europe/Berlin").decode()
        bundle = json.loads(out)
        self.same("the Bundle", (bundle["type"], bundle["identifier"]["value"]), ("transaction", "0000000000000001"))
        one, two, three, four = observations(out)
        self.same("no fault", fhir_r4.faults(out), [])
        self.same("a quantity", one["valueQuantity"], {"value": decimal.Decimal("5.40"), "unit": "mmol/L"})
        self.has("its digits stay", out, '"valueQuantity":{"value":5.40,')
        self.same("status", [it["status"] for it in (one, two, three)], ["final", "unknown", "final"])
        self.same("the patient", one["subject"], {"type": "Patient", "identifier": {"value": "4711"}})
        self.same("the sample", tube_of(out, one)["identifier"][0], {"value": "S7"})
        self.same("the range", one["referenceRange"], [{"low": {"value": decimal.Decimal("3.9"), "unit": "mmol/L"},
                                                        "high": {"value": decimal.Decimal("6.10"), "unit": "mmol/L"}}])
        self.same("flags", [it["coding"][0]["code"] for it in one["interpretation"]], ["H", "A"])
        self.same("the time has the line's zone", one["effectiveDateTime"], "2026-11-27T10:35:00+01:00")
        bare = observations(bundle_of(stored(message(*rows))))[0]
        self.same("a line without a zone", (bare["effectiveDateTime"], bare["note"][1]["text"]),
                  ("2026-11-27", "the analyzer's clock, whose zone is not known: 20261127103500"))
        self.same("notes", [it["text"] for it in one["note"]], ["a comment", "repeat of message 00ff"])
        self.same("a text", (two["valueString"], two["interpretation"], two["referenceRange"]),
                  ("neg", [{"text": "!"}], [{"text": "usual"}]))
        self.has("its unit", str(two["note"]), "unit mmol/L")
        self.has("a status that FHIR hasn't", str(two["note"]), "the analyzer's status is W")
        self.true("without a value", "dataAbsentReason" in three and "valueString" not in three)
        self.same("a comparator", four["valueQuantity"]["comparator"], ">")
        self.true("a control, without a patient", "subject" not in four and "a control" in str(four["note"]))
        self.same("a control's sample is of no patient", [name in tube_of(out, four) for name in ("subject", "note")],
                  [False, True])
        self.same("each is of its own", len({entry["fullUrl"] for entry in bundle["entry"]}), 9)
        again = bundle_of(stored(message(*rows), again_of="00ff"), zone="Europe/Berlin").decode()
        self.same("the same bytes again", again, out)
        self.same("a query has none", bundle_of(stored(message("Q|1|^S7||ALL"))), b"")

    def test_marks(self):
        """Marks of this host; the time of a sample goes before a result's."""
        rows = ["P|1", "O|1|S7", "R|1|^^^A|1", "R|2|^^^B|1"]
        fixed = bundle_of(stored(message(*rows), reason="fixed from 00fe: x")).decode()
        self.same("a fixed one is marked", fixed.count('{"text":"fixed from 00fe: x"}'), 2)
        taken = message("P|1", "O|1|S7|||||20261127093000", "R|1|^^^A|1|||||||||20261127103500")
        taken = bundle_of(stored(taken), zone="Asia/Tokyo").decode()
        self.same("that of the sample goes before", observations(taken)[0]["effectiveDateTime"],
                  "2026-11-27T09:30:00+09:00")

    def test_names(self):
        """A result that comes again is the same Observation, a correction updates it, another result is another one."""
        def named(*more, key="k1", identity="4711", **how):
            body = message(f"P|1|{identity}", "O|1|S7", "|".join(more), header=f"H|\\^&|||A||||||||{key}")
            (one,) = [it for it in json.loads(bundle_of(stored(body, key, **how)))["entry"]
                      if it["resource"]["resourceType"] == "Observation"]
            return one["request"], [it["value"] for it in one["resource"]["identifier"]]

        timed = ["R", "1", "^^^GLU", "5.4", "mmol/L", "", "", "", "F", "", "", "", "20261127103500"]
        later, fixed, plain = [*timed[:-1], "20261127113500"], [*timed[:8], "C", *timed[9:]], timed[:5]
        first, again = named(*timed), named(*timed, key="k2")
        self.same("sent again with another header", again, first)
        bodies = [message("P|1|4711", "O|1|S7", "|".join(timed), header=f"H|\\^&|||A||||||||{at}") for at in "ab"]
        found = [[one["request"] for one in json.loads(bundle_of(stored(body, key)))["entry"]]
                 for key, body in zip("ab", bodies)]
        self.same("so are its report, its order and its sample", found[0], found[1])
        self.same("all of them are there", len(found[0]), 4)
        self.same("it is created, or the same", first[0]["method"], "PUT")
        self.same("a repeat changes nothing", named(*timed, key="k2", again_of="k1")[0]["ifNoneExist"],
                  first[0]["url"].partition("?")[2])
        self.true("another time", named(*later)[1][0] != first[1][0] and named(*later)[1][1] == first[1][1])
        request, names = named(*fixed, key="k3")
        self.same("a correction", (request["method"], request["url"], names[1]),
                  ("PUT", f"Observation?identifier=urn:lislab:test|{first[1][1]}", first[1][1]))
        self.true("another patient's", not set(named(*timed, identity="4712")[1]) & set(first[1]))
        for more in ("4711|||Doe^Jane", "4711|L7"):
            self.same(f"the patient's: {more}", named(*timed, identity=more), first)
        self.true("of one whose name is that", not set(named(*timed, identity="|||4711")[1]) & set(first[1]))
        rows = ("^^^16^GLU^UNDILUTED^P^lot 1|5.4|mmol/L", "^^^16^GLU^1:5^P^lot 1|5.4|mmol/L",
                "^^^16^GLU^UNDILUTED^P^lot 2|5.4|mmol/L", "^^^16^GLU^UNDILUTED^P^lot 1|97|mg/dL",
                "^^^17^K^UNDILUTED^P^lot 1|5.4|mmol/L")
        *alike, other = (self.known("P|1|4711", "O|1|S7", f"R|1|{row}||||C", settings={"test": "4"})["Observation"]
                         for row in rows)
        self.same("a correction of another dilution, of another reagent, in another unit", alike, alike[:1] * 4)
        self.true("of another test", other != alike[0])
        self.same("without a time", named(*plain, key="k2"), named(*plain))
        self.same("a repeat of it changes nothing", named(*plain, key="k2", again_of="k1")[0]["ifNoneExist"],
                  f"identifier=urn:lislab:result|{named(*plain)[1][0]}")
        both = bundle_of(stored(message("P|1|4711", "O|1|S7", "|".join(timed), "O|2|S7", "|".join(timed))))
        self.same("two in a message are two", len(observations(both)), 2)

    @staticmethod
    def known(*rows, at="", key="k1", wishes=oru.Wishes(), settings=None, **how):
        """How the server finds what is in the Bundle of a message whose header has a time, by the kinds."""
        body = message(*rows, header=f"H|\\^&|||A||||||||1|{at}")
        found = {}
        for one in json.loads(bundle_of(stored(body, key, **how), wishes, **(settings or {})))["entry"]:
            asked = one["request"]
            search = asked.get("ifNoneExist") or asked["url"].partition("?")[2]
            found.setdefault(one["resource"]["resourceType"], []).append((asked["method"], search))
        return found

    def test_without_times(self):
        """A result without a time of day is known by its value and the times of its order; without them by that of the
        header; without any by its order's records."""
        def glu(value="5.4", order="", more="", status="F", result="", **how):
            rows = ["P|1|4711", f"O|1|S7||^^^GLU|{order}", f"R|1|^^^GLU|{value}|mmol/L||||{status}||||{result}"]
            return self.known(*rows, *([more] if more else []), **how)["Observation"]

        taken, day, ten, noon = "R||20261127080000", "20261127", "20261127100000", "20261127120000"
        for name, how in (("with that of its order", {"order": taken}), ("with that of the header", {"at": ten}),
                          ("with its day", {"result": day, "at": ten}), ("without any", {})):
            first = glu(**how)
            self.same(f"{name}: in another message", glu(key="k2", **how), first)
            self.true(f"{name}: another value", glu("5.5", **how) != first)
        self.same("the order's goes before the header's", glu(order=taken, at=noon), glu(order=taken, at=ten))
        self.same("a result's own goes before both", glu(result=ten, at=noon, order=taken), glu(result=ten))
        self.true("another time of the order", glu(order=taken) != glu(order="R||20261127090000"))
        self.true("another time of the header", glu(at=noon) != glu(at=ten))
        ignored = oru.wishes_of(["H-14=ignored"])
        self.same("a resend with another time of the header", glu(at=noon, wishes=ignored), glu(at=ten, wishes=ignored))
        self.true("another value, then", glu("5.5", at=ten, wishes=ignored) != glu(at=ten, wishes=ignored))
        self.true("another time of the order, then", glu(order=taken, wishes=ignored) != glu(wishes=ignored))
        self.true("another day of the result", glu(at=ten, result=day) != glu(at=ten, result="20261128"))
        self.true("without any: another result in the order", glu(more="R|2|^^^K|4.1") != glu(more="R|2|^^^K|4.2"))
        self.same("one that becomes final", glu(order=taken, status="P"), glu(order=taken))
        for how in ({"result": ten}, {"order": taken}, {"at": ten}):
            twice = glu(more=f"R|2|^^^GLU|5.5|mmol/L||||F||||{noon if 'result' in how else ''}", **how)
            self.same(f"next to one that was run again: {how}", twice[0], glu(**how)[0])
            self.true("which is another", twice[1] != twice[0])
        both = self.known("P|1|4711", "O|1|S7", "R|1|^^^GLU|5.4", "O|2|S7", "R|1|^^^GLU|5.4")["Observation"]
        self.same("the same result twice is two", len(set(both)), 2)

    def test_reports(self):
        """A report that comes again is the same one, also of an order that was cancelled; that of a correction is the
        one of its tests."""
        def told(*more, glu="5.4", status="F", at="20261127103500", **how):
            rows = ["P|1|4711", "O|1|S7||^^^GLU", f"R|1|^^^GLU|{glu}|mmol/L||||{status}||||{at}", *more]
            return self.known(*rows, **how)

        other = "R|2|^^^K|4.1|mmol/L||||F||||20261127103500"
        for more in ((), (other,)):
            first = json.loads(bundle_of(stored(message("P|1|4711", "O|1|S7||^^^GLU",
                                                        "R|1|^^^GLU|5.4|mmol/L||||F||||20261127103500", *more))))
            names = [(each["resource"]["resourceType"], one) for each in first["entry"]
                     for one in each["resource"]["identifier"]]
            fixed = told(*more, glu="9.9", status="C", at="20261127113500")
            for kind in ("Observation", "DiagnosticReport"):
                method, search = fixed[kind][0]
                system, _, value = search.partition("identifier=")[2].partition("|")
                self.same(f"{kind}: of a correction", (method, system), ("PUT", "urn:lislab:test"))
                self.has(f"{kind}: the first one has its name", names, (kind, {"system": system, "value": value}))
            again = told(*more, glu="9.9", status="C", at="20261127113500", again_of="k1")
            plain = told(*more, glu="9.9", status="F", at="20261127113500")
            self.same("a correction that is repeated changes nothing, also next to another result of the test",
                      [again[kind][0] for kind in ("Observation", "DiagnosticReport")],
                      [("POST", plain[kind][0][1]) for kind in ("Observation", "DiagnosticReport")])
            self.true("of another time", told(*more, at="20261127113500")["DiagnosticReport"][0][1] !=
                      told(*more)["DiagnosticReport"][0][1])
        for rows in (["O|1|S7||^^^GLU" + "|" * 21 + "X"], ["O|1|S7", "C|1|I|no material"]):
            first = self.known("P|1|4711", *rows)
            self.same(f"{rows[0][:14]}: in another message", self.known("P|1|4711", *rows, key="k2"), first)
            later = self.known("P|1|4711", *rows, at="20261127120000")
            self.true("of another time", later["DiagnosticReport"] != first["DiagnosticReport"])
        rows = ["O|1|S7", "R|1|^^^A|1|||||C", "R|2|^^^B|1", "O|2|S7", "R|1|^^^A|2|||||C", "R|2|^^^B|2|||||C"]
        twice = self.known("P|1|4711", *rows)["DiagnosticReport"]
        self.same("of two corrections in a message the last one stays", [one[:26] for _, one in twice],
                  ["identifier=urn:lislab:test"])

    def test_statuses(self):
        """The status of a report without a type is that of its results; without any it isn't final."""
        for statuses, segment, report in (
            ("F", "F", "final"), ("FC", "C", "corrected"), ("CP", "P", "preliminary"), ("FI", "P", "partial"),
            ("XX", "X", "cancelled"), ("FX", "F", "final"), ("", "I", "registered"),
        ):
            rows = [f"R|{at}|^^^{at}|1|||||{one}" for at, one in enumerate(statuses, 1)]
            one = stored(message("P|1|4711", "O|1|S7||^^^GLU", "C|1|I|x", *rows))
            (segments,) = segments_of(oru.oru_of(Told(Coded(one))))
            self.same(f"OBR-25 of {statuses}", [cell(each, 25) for each in segments if each[0] == "OBR"], [segment])
            found = bundle_of(one)
            self.same(f"of {statuses}", [each["status"] for each in observations(found, "DiagnosticReport")], [report])
            self.same(f"no fault of {statuses}", fhir_r4.faults(found), [])

    def test_resources(self):
        """Codes and units by their systems, the patient, reports, orders that were cancelled."""
        wishes = oru.wishes_of(["practice=urn:oid:1.2.3 PI", "sample=urn:samples"])
        rows = ["P|1|4711|||Doe^Jane||19800131|F",
                "O|1|S7||^^^GLU|S|20261127080000|20261127093000||||||fasting|20261127095000|serum|17^Meyer",
                "R|1|^^^GLU|5.4|mmol/L", "O|2|S7||^^^FT4" + "|" * 21 + "X", "C|1|I|clot detected", "O|3|S8||^^^TSH"]
        out = bundle_of(stored(message(*rows)), wishes, zone="Asia/Tokyo")
        self.same("no fault", fhir_r4.faults(out), [])
        (who,), (one, gone) = observations(out, "Patient"), observations(out)
        self.same("the patient", (who["identifier"], who["name"], who["gender"], who["birthDate"]),
                  ([{"system": "urn:oid:1.2.3", "value": "4711"}], [{"family": "Doe", "given": ["Jane"]}], "female",
                   "1980-01-31"))
        url = json.loads(out)["entry"][0]["fullUrl"]
        self.same("its results", [it["subject"] for it in (one, gone)], [{"reference": url}] * 2)
        (tube,), (order, other) = observations(out, "Specimen"), observations(out, "ServiceRequest")
        self.same("the sample is there once, and it is the patient's", tube, {
            "resourceType": "Specimen", "identifier": [{"system": "urn:samples", "value": "S7"}],
            "type": {"coding": [{"system": "http://terminology.hl7.org/CodeSystem/v2-0487", "code": "SER"}],
                     "text": "serum"},
            "subject": {"reference": url}, "receivedTime": "2026-11-27T09:50:00+09:00",
            "collection": {"collectedDateTime": "2026-11-27T09:30:00+09:00"}})
        wanted = {"resourceType": "ServiceRequest", "status": "completed", "intent": "order", "priority": "stat",
                  "category": [{"coding": [{"system": "http://snomed.info/sct", "code": "108252007",
                                            "display": "Laboratory procedure"}]}],
                  "code": {"coding": [{"code": "GLU"}], "text": "GLU"}, "subject": {"reference": url},
                  "authoredOn": "2026-11-27T08:00:00+09:00", "requester": {"display": "17 Meyer"},
                  "specimen": [one["specimen"]], "note": [{"text": "fasting"}]}
        self.same("the order", {name: it for name, it in order.items() if name != "identifier"}, wanted)
        self.same("its identifier", order["identifier"][0]["system"], "urn:lislab:order")
        self.same("one that was cancelled", (other["status"], other["code"]["text"]), ("revoked", "FT4"))
        urls = {it["resource"]["identifier"][0]["value"]: it["fullUrl"] for it in json.loads(out)["entry"]}
        asked = [[{"reference": urls[it["identifier"][0]["value"]]}] for it in (order, other)]
        self.same("what each is based on", [it["basedOn"] for it in (one, gone)], asked)
        self.same("what was cancelled", (gone["status"], gone["code"]["text"], gone["note"]),
                  ("cancelled", "FT4", [{"text": "clot detected"}]))
        reports = observations(out, "DiagnosticReport")
        self.same("reports", [(it["status"], it["basedOn"]) for it in reports],
                  [("final", asked[0]), ("cancelled", asked[1])])

    def test_nobody(self):
        """Without the system of an identity there is no Patient, and without an identity no ServiceRequest."""
        rows = ["O|1|S7||^^^GLU", "R|1|^^^GLU|5.4|mmol/L"]
        known = bundle_of(stored(message("P|1|4711", *rows)))
        self.same("no Patient", [len(observations(known, kind)) for kind in ("Patient", "ServiceRequest")], [0, 1])
        walk_in = bundle_of(stored(message("P|1", *rows)))
        self.same("no order", [len(observations(walk_in, kind)) for kind in ("ServiceRequest", "Specimen")], [0, 1])
        named = bundle_of(stored(message("P|1||||Doe^Jane^B", *rows)))
        self.same("by a name", [one["subject"] for kind in ("Observation", "Specimen", "DiagnosticReport")
                                for one in observations(named, kind)], [{"type": "Patient", "display": "Jane B Doe"}] * 3)
        self.same("no order of a name", observations(named, "ServiceRequest"), [])
        self.same("no fault", fhir_r4.faults(named), [])

    def test_samples(self):
        """A sample whose number has no system is that of its line, its patient and its time; an order whose tests
        haven't all come is active."""
        def named(who="4711", sample="S7", more="", **how):
            rows = message(f"P|1|{who}", f"O|1|{sample}||^^^A\\^^^B|||{more}", "R|1|^^^A|1")
            found = bundle_of(stored(rows, **how))
            return [observations(found, kind) for kind in ("Specimen", "ServiceRequest")]

        (tube,), (order,) = named()
        self.same("two identifiers", [it.get("system", it["value"]) for it in tube["identifier"]],
                  ["S7", "urn:lislab:specimen"])
        self.same("in another message it is the same one", named(key="18b0a0c0d0e0f00011223399")[0], [tube])
        for name, how in (("another patient's", {"who": "4712"}), ("another line's", {"line": "other"}),
                          ("another time", {"more": "20261127"}), ("another number", {"sample": "S8"})):
            self.true(name, named(**how)[0][0]["identifier"][1] != tube["identifier"][1])
        self.same("a test is missing", (order["status"], order["code"]), ("active", {"text": "A B"}))
        for kind, wanted in zip("XFCPIYZ", ("revoked", "completed", "completed", "active", "active", *["unknown"] * 2)):
            self.same(f"of an order {kind}", named(more="|" * 18 + kind)[1][0]["status"], wanted)
        control = observations(bundle_of(stored(message("P|1", "O|1|S7|||||||||Q", "R|1|^^^A|1"))), "Specimen")[0]
        walk_in = observations(bundle_of(stored(message("P|1", "O|1|S7", "R|1|^^^A|1"))), "Specimen")[0]
        rows = [row for who in (4711, 4712) for row in (f"P|1|{who}", "O|1|S7", "R|1|^^^A|1")]
        both = bundle_of(stored(message(*rows, "O|2|S7|||||||||Q", "R|1|^^^A|1")),
                         oru.wishes_of(["practice=urn:a", "sample=urn:s"]))
        found = [tube_of(both, one) for one in observations(both)]
        known = [{"system": "urn:s", "value": "S7"} in tube["identifier"] for tube in observations(both, "Specimen")]
        self.same("only one has the number as its own", known, [True, False, False])
        self.same("two patients and a control with one number have each their own",
                  [one.get("subject") for one in found], [one.get("subject") for one in observations(both)])
        self.same("no fault", fhir_r4.faults(both), [])
        self.true("a control's", control["identifier"][1] != walk_in["identifier"][1])

    def test_identities(self):
        """An identity with components: its authority is the system if it is an address, else a name; it goes before
        the one that is set."""
        wishes = oru.wishes_of(["practice=urn:oid:1.2.3 PI", "laboratory=HOSP"])
        for field, wanted in (("4711", {"system": "urn:oid:1.2.3", "value": "4711"}),
                              ("4711^^^OTHER^MR", {"value": "4711", "assigner": {"display": "OTHER"}}),
                              ("4711^^^urn:x", {"system": "urn:x", "value": "4711"}),
                              ("|4711", {"value": "4711", "assigner": {"display": "HOSP"}})):
            out = bundle_of(stored(message(f"P|1|{field}", "O|1|S7", "R|1|^^^A|1")), wishes)
            (one,), who = observations(out), observations(out, "Patient")
            self.same(f"no fault: {field}", fhir_r4.faults(out), [])
            self.same(field, who[0]["identifier"][0] if who else one["subject"]["identifier"], wanted)

    def test_searches(self):
        """A search finds what has this identifier and nothing else, whatever its characters mean in a search (a comma is
        OR) or in an address."""
        wishes = oru.wishes_of(["practice=urn:p,q?r=1&s=2#t%2C", "sample=http://s/$"])
        for each in ("47,11", "47$11", "47&F&11", "47&R&11", "47&R&,11", "a&E&b=c#d", "\xe4 b%2C+", "1/2:3",
                     "4711^^^urn:x|y"):
            body = message(f"P|1|{each.replace('|', '&F&')}", f"O|1|{each.partition('^')[0]}", "R|1|^^^A|1")
            for one in json.loads(bundle_of(stored(body), wishes))["entry"]:
                asked = one["request"]
                search = asked.get("ifNoneExist") or asked["url"].partition("?")[2]
                self.true(f"{each}: an address", re.match(r"[!-~]+$", search), search)
                ((name, text),) = urllib.parse.parse_qsl(search)
                parts = re.findall(r"(?:[^\\,|$]|\\.)+|[,|$]", text)
                self.same(f"{each}: one identifier", (name, len(parts), parts[1]), ("identifier", 3, "|"))
                system, value = (re.sub(r"\\(.)", r"\1", part) for part in parts[::2])
                self.has(f"{each}: it has it", one["resource"]["identifier"], {"system": system, "value": value})

    def test_structure(self):
        """Random messages are as published; and what isn't, is noticed."""
        rng = random.Random(5)
        systems = oru.wishes_of(["practice=urn:a", "laboratory=urn:b", "sample=urn:c"])
        words = ("", "5.4", "-.5", "+007.10", ">5", "<=.3", "1e3", "neg", " ", "a &F& b", "3-4", "20261127",
                 "2026", "H", "\u03bc")
        for at in range(400):
            rows = []
            for letter, count in (("P", 11), ("O", 26), ("R", 14), ("C", 5)):
                cells = [rng.choice(words) + rng.choice(("", "", "^x", "\\y")) for _ in range(count)]
                cells[0] = {"O": "S1", "R": rng.choice(("^^^A", "^A^B", "B"))}.get(letter, cells[0])
                if letter == "P":
                    cells[:3] = [rng.choice(("", "4711", " 4711 ^^^HOSP", "a b^^^urn:x^MR", "^^^")) for _ in range(3)]
                rows.append("|".join([letter, "1", *cells]))
            out = bundle_of(stored(message(*rows)), rng.choice((oru.Wishes(), systems)),
                            zone=rng.choice(("", "Europe/Berlin"))).decode()
            self.need(fhir_r4.faults(out) == [], lambda: f"{at}: {fhir_r4.faults(out)}: {rows}")
            for one in json.loads(out)["entry"] if out else ():
                search = one["request"].get("ifNoneExist") or one["request"]["url"].partition("?")[2]
                system, _, value = urllib.parse.unquote(search.partition("identifier=")[2]).partition("|")
                self.need({"system": system, "value": value} in one["resource"]["identifier"], lambda: f"{at}: {one}")

    def test_wrong_structure(self):
        """What isn't as published is noticed."""
        good = bundle_of(stored(message("P|1|4711", "O|1|S7|||R||20261127||||||||serum", "R|1|^^^A|<5.4|U/L|1-2|H",
                                        "C|1|I|x"))).decode()
        self.same("a good one", fhir_r4.faults(good), [])
        urls = {it["resource"]["resourceType"]: it["fullUrl"] for it in json.loads(good)["entry"]}
        for name, kind, other in (("basedOn", "ServiceRequest", "Specimen"), ("result", "Observation", "Specimen"),
                                  ("specimen", "Specimen", "Observation")):
            old, new = (re.compile(rf'("{name}":\[?.{{13}}"){urls[kind]}"'), rf'\1{urls[other]}"')
            self.true(f"{name} leads to a {other}", fhir_r4.faults(old.sub(new, good)), good)
        for old, new in (
            ('"status":"final"', '"status":"done"'), ('"status":"final",', ""),
            ('"code":{"coding":[{"code":"A"}],"text":"A"},', ""),
            ('"result":[{"reference":"urn:', '"result":[{"reference":"x:'),
            ('"status":"final","category":[{"coding":[{"system":"http://terminology.hl7.org/CodeSystem/v2-0074"',
             '"status":"cancelled?","category":[{"coding":[{"system":"http://terminology.hl7.org/CodeSystem/v2-0074"'),
            ('"code":{"text":"A"},', ""), ('"value":5.4', '"value":"5.4"'),
            ('"comparator":"<"', '"comparator":"="'), ('"type":"transaction"', '"type":"batched"'),
            ('"type":"transaction"', '"type":"collection"'),
            ('"resourceType":"Observation"', '"resourceType":"Result"'),
            ('"note":[{"text":"x"}]', '"note":{"text":"x"}'), ('"note":[{"text":"x"}]', '"note":[]'),
            ('"low":{"value":1', '"low":{"comparator":"<","value":1'), ('"method":"POST",', ""),
            ('"status":"completed"', '"status":"done"'), ('"intent":"order"', '"intent":"ordered"'),
            ('"intent":"order",', ""), ('"priority":"routine"', '"priority":"R"'),
            ('"code":"SER"', '"code":"SERUM"'), ('"collectedDateTime":"2026-11-27"', '"collectedDateTime":"20261127"'),
            ('"collection":{', '"collected":{'), ('"type":"Patient"', '"type":"Practitioner"'),
            ('"code":"H"', '"code":"HIGH"'),
            ('"subject":{"type":"Patient","identifier":{"value":"4711"}},"specimen":[', '"specimen":['),
            ('"unit":"U/L"', '"units":"U/L"'), ('"text":"x"', '"text":""'), ('"issued":"20', '"issued":"'),
        ):
            self.true(f"{old} as {new}", old in good and fhir_r4.faults(good.replace(old, new)), good)


class Server(http.server.BaseHTTPRequestHandler):
    """Answers each POST by a function of its number and its key: a status, None to close the connection."""

    protocol_version = "HTTP/1.1"

    def do_POST(self):
        """Takes a message, if it is whole."""
        body = self.rfile.read(int(self.headers["Content-Length"]))
        if len(body) < int(self.headers["Content-Length"]):  # who sent it is gone
            self.close_connection = True
            return
        key = self.headers["X-Request-ID"]
        self.server.taken.append((self.path, key, self.headers["Content-Type"], self.headers["X-Test"], body))
        status = self.server.answer(len(self.server.taken), key)
        if status is None:
            self.close_connection = True
            return
        self.send_response(status)
        self.send_header("Content-Length", "0")
        self.end_headers()

    def log_message(self, *_):
        """Says nothing."""


class Threads(socketserver.ThreadingMixIn, http.server.HTTPServer):
    """A server with a thread for each connection."""

    daemon_threads = True

    def handle_error(self, request, client_address):
        """Says nothing: a client that doesn't trust it goes away."""


class Certified:
    """Servers with a certificate of their own, for tests that count the checks which need it."""

    def certificate(self, name, *names):
        """The files of a certificate of its own, and of its key."""
        self.needs("openssl", shutil.which("openssl"), self.checks, "HTTPS with a certificate of its own")
        path, key = self.path(f"{name}.pem"), self.path(f"{name}.key")
        words = ["req", "-x509", "-newkey", "rsa:2048", "-nodes", "-days", "3650", "-subj", "/CN=test", "-addext",
                 f"subjectAltName={','.join(names)}", "-keyout", key, "-out", path]
        subprocess.run(["openssl", *words], check=True, capture_output=True)
        return path, key

    def served(self, files, answer=lambda at, key: 201):
        """A server with this certificate."""
        server = Threads(("127.0.0.1", 0), Server)
        server.taken, server.answer = [], answer
        context = ssl.SSLContext(ssl.PROTOCOL_TLS_SERVER)
        context.load_cert_chain(*files)
        server.socket = context.wrap_socket(server.socket, server_side=True, do_handshake_on_connect=False)
        threading.Thread(target=server.serve_forever, args=(0.05,), daemon=True).start()
        self.addCleanup(server.server_close)
        self.addCleanup(server.shutdown)
        return server


class Https(Certified, WithLibrary):
    """HTTPS, and MLLP over TLS."""

    @classmethod
    def setUpClass(cls):
        super().setUpClass()
        cls.store = os.path.join(cls.folder.name, "https.db")
        cls.keys = keep(cls.store, [records([one]) for one in "ABAC"])

    def deliver(self, cursor, server, *words, host="localhost"):
        """Delivers what there is to a server."""
        to = f"https://{host}:{server.server_address[1]}/fhir?x=1"
        return lislab("deliver", "--store", self.store, "--cursor", self.path(cursor), "--once", "--to", to, *words)

    def test_posts(self):
        """Each message is posted, in order, by its key."""
        self.checks = 5
        files = self.certificate("posts", "DNS:localhost")
        server, headers = self.served(files), self.path("headers")
        with open(headers, "w", encoding="ascii") as file:
            file.write("X-Test: a secret\n")
        done = self.deliver("posts.cursor", server, "--ca", files[0], "--headers", headers)
        self.same("the status", (done.returncode, done.stderr), (0, "lislab: 4 messages delivered\n"))
        found = [(path, key, kind, more) for path, key, kind, more, _ in server.taken]
        wanted = [("/fhir?x=1", key, "application/fhir+json; charset=utf-8", "a secret") for key in self.keys]
        self.same("as they came", found, wanted)
        self.same("each is a Bundle", [fhir_r4.faults(body) for *_, body in server.taken], [[]] * 4)
        self.same("of its message", [json.loads(body)["identifier"]["value"] for *_, body in server.taken], self.keys)
        other = self.deliver("csv.cursor", server, "--ca", files[0], "--format", "csv")
        self.same("another form", (other.returncode, server.taken[-1][2]), (0, "text/csv; charset=utf-8"))

    def test_certificate(self):
        """A certificate that isn't the one that is wanted: nothing is sent, and no message is at fault."""
        self.checks = 8
        files, others = self.certificate("right", "DNS:localhost"), self.certificate("wrong", "DNS:localhost")
        server = self.served(files)
        for name, words, host in (
            ("the system's authorities", [], "localhost"),
            ("another's authority", ["--ca", others[0]], "localhost"),
            ("another name", ["--ca", files[0]], "127.0.0.1"),
        ):
            done = self.deliver("certificate.cursor", server, "--quarantine", "1", *words, host=host)
            said = "certificate verify failed" in done.stderr
            self.same(f"{name}: it is said", (done.returncode, said), (1, True))
            self.same(f"{name}: nothing was sent", server.taken, [])
        self.same("nothing is in quarantine", quarantine.held_of(self.path("certificate.cursor")), [])
        good = self.deliver("certificate.cursor", server, "--ca", files[0])
        self.same("with the right one it is", (good.returncode, len(server.taken)), (0, 4))

    def test_answers(self):
        """What is a failure of a message, and what is the server's."""
        self.checks = 12
        files = self.certificate("answers", "DNS:localhost")
        good, bad, away = "", "Refused", "Unreachable"
        for status, wanted in ((200, good), (201, good), (400, bad), (422, bad), (500, bad), (None, bad), (404, away),
                               (401, away), (503, away), (302, away)):
            server = self.served(files, lambda at, key, status=status: status)
            self.same(f"status {status}", self.told(server, files, ["k"]), [wanted])
        server = self.served(files, lambda at, key: None if at == 2 else 200)
        self.same("closed between two messages", self.told(server, files, ["k1", "k2"]), ["", ""])
        server = self.served(files, lambda at, key: time.sleep(3.0) or 200)
        self.same("silence", self.told(server, files, ["k"], 0.3), ["Refused"])

    def told(self, server, files, keys, seconds=60.0):
        """What became of messages to a server: what each failed with."""
        told, port = [], server.server_address[1]
        one = https.Https(f"https://localhost:{port}/", seconds, https.context_of(files[0]))
        for key in keys:
            try:
                one.deliver(b"{}", key, "text/plain")
                told.append("")
            except deliver.Refused as error:
                told.append(type(error).__name__)
        return told

    def test_mllps(self):
        """MLLP over TLS, and not to a receiver with another certificate."""
        self.checks = 3
        files, others = self.certificate("mllps", "DNS:localhost"), self.certificate("others", "DNS:localhost")
        context = ssl.SSLContext(ssl.PROTOCOL_TLS_SERVER)
        context.load_cert_chain(*files)
        receiver = Scripted(lambda at, key: ack(b"AA", key), context)
        self.addCleanup(receiver.close)
        wrong = mllp.Mllp("localhost", receiver.port, 60.0, https.context_of(others[0]))
        self.raises("another's", deliver.Unreachable, lambda: wrong.deliver(b"MSH|^~\\&||||||||k", "k"))
        right = mllp.Mllp("localhost", receiver.port, 60.0, https.context_of(files[0]))
        right.deliver(b"MSH|^~\\&||||||||k", "k")
        right.close()
        self.same("what came", receiver.taken, ["k"])
        words = ["--cursor", self.path("c"), "--to", "mllp://h:1", "--ca", files[0]]
        self.same("--ca without TLS", lislab("deliver", "--store", self.store, *words).returncode, 2)

    def test_words(self):
        """Words that make no sense, and files that can't be read."""
        path = self.path("wrong headers")
        for row in ("no colon", "a name: b", "Name:", "Name: \x07"):
            with open(path, "w", encoding="ascii") as file:
                file.write(f"A: b:c\n\n{row}\n")
            self.raises(f"a header {row!r}", OptionError, lambda: https.headers_of(path))
        with open(path, "w", encoding="ascii") as file:
            file.write("A: b:c\n\nAuthorization:Bearer x\n")
        self.same("headers", https.headers_of(path), {"A": "b:c", "Authorization": "Bearer x"})
        for words in (["--to", "http://h/x"], ["--to", "https:///x"], ["--to", "https://u:p@h/"],
                      ["--to", "https://h/a b"], ["--to", "https://h:x/"], ["--to", "d", "--headers", path],
                      ["--to", "d", "--", "true"]):
            done = lislab("deliver", "--once", "--store", self.store, "--cursor", self.path("words.cursor"), *words)
            self.same(" ".join(words), done.returncode, 2)
        words = ["--to", "https://h/", "--ca", self.path("none.pem")]
        done = lislab("deliver", "--store", self.store, "--cursor", self.path("words.cursor"), *words)
        self.same("no authorities", (done.returncode, "none.pem: No such file" in done.stderr), (3, True))
