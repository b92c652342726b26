"""A message as a Bundle of FHIR R4: a transaction with an Observation for each result, and a Specimen, ServiceRequest
and DiagnosticReport for each order. A result that comes again is the same Observation, and a correction updates it."""
import datetime
import decimal
import hashlib
import json
import re
import uuid
from collections import Counter
from typing import Any, Dict, List, NamedTuple, Optional, Tuple, Union
from urllib.parse import quote

from lislink.message import Entry
from ..model.numbers import Number, number_of, range_of
from ..model.results import Case, Coding, Identity, Ordered, Result, Told
from ..model.results import field_text, has_clock, parts_of, report_of
from .oru import CONTROL, Wishes, specimen_of

#: The systems of identifiers: of a message, of a result, of a sample's test, of a sample and of an order.
SYSTEM, _OF_RESULT, _OF_TEST = "urn:lislab:message", "urn:lislab:result", "urn:lislab:test"
_OF_SAMPLE, _OF_ORDER = "urn:lislab:specimen", "urn:lislab:order"
#: The times of an order: when it was requested, collected, received and reported.
_TIMES = (7, 8, 15, 23)
#: Status of a result (LIS02-A2, 9.5.9) as that of an Observation, and of an order's report (9.4.26) as that of one
#: without a result and of a DiagnosticReport. A letter that isn't here is `unknown`, with a note.
_STATUS = {
    **{one: "final" for one in ("", "F", "M", "Q", "R", "V")},
    **{"C": "corrected", "P": "preliminary", "S": "preliminary", "I": "registered", "X": "cancelled"},
}
_REPORT = {"X": "cancelled", "I": "registered", "P": "preliminary", "C": "corrected", "F": "final"}
#: The same as that of a ServiceRequest, and an order's priority (9.4.6).
_REQUEST = {"X": "revoked", "I": "active", "P": "active", "C": "completed", "F": "completed"}
_PRIORITY = {"S": "stat", "A": "asap", "R": "routine"}
_TERMS = "http://terminology.hl7.org/CodeSystem/"
_UCUM, _SYSTEMS = "http://unitsofmeasure.org", {"LN": "http://loinc.org", "SCT": "http://snomed.info/sct"}
_LABORATORY = {"system": _SYSTEMS["SCT"], "code": "108252007", "display": "Laboratory procedure"}
#: An address, which can be the system of identifiers; the characters that have a meaning in a search (R4, 3.1.1.4).
_ADDRESS, _MEANING = re.compile(r"[A-Za-z][A-Za-z0-9+.-]*:\S+$"), re.compile(r"[\\$,|]")
#: The flags that have the same meaning as codes of v3-ObservationInterpretation.
_FLAGS = ("L", "H", "LL", "HH", "<", ">", "N", "A", "AA", "U", "D", "B", "W")
#: An element that is plain data.
Data = Dict[str, Any]


def written(data: Any) -> str:
    """Data as JSON. A decimal is a number with the digits that it has."""
    if isinstance(data, dict):
        return "{" + ",".join(f"{json.dumps(name)}:{written(one)}" for name, one in data.items()) + "}"
    if isinstance(data, list):
        return "[" + ",".join(map(written, data)) + "]"
    if isinstance(data, decimal.Decimal):
        return f"{data:f}"
    return json.dumps(data, ensure_ascii=False)


class _Name(NamedTuple):
    """What a resource is known by: the identifiers that it has, and the search by which the server finds it."""

    identifiers: List[Data]
    search: str
    updates: bool = False


class _About(NamedTuple):
    """An order, whose it is, and the references to what is made of it: its patient, its sample, itself."""

    case: Case
    order: Ordered
    subject: Optional[Data]
    specimen: Optional[Data]
    request: List[Data]


def bundle_of(told: Told, wishes: Wishes = Wishes(), whole: Optional[Told] = None) -> bytes:
    """The Bundle in one row; empty if the message has no patient and no control, for example a query. `whole` is the
    message as it came, if results were left out of it: they count for what is said of their orders."""
    made = _Made(told, wishes, whole)
    for case in told.cases:
        made.add_case(case)
    if not made.entries:
        return b""
    bundle = {
        "resourceType": "Bundle",
        "identifier": {"system": SYSTEM, "value": told.one.key},
        "type": "transaction",
        "timestamp": _instant(told),
        "entry": made.entries,
    }
    return (written(bundle) + "\n").encode()


def _instant(told: Told) -> str:
    one = told.one
    at = one.began if one.ended is None else one.ended
    return datetime.datetime.fromtimestamp(at).astimezone().isoformat(timespec="milliseconds")


class _Made:
    """The entries of a Bundle."""

    def __init__(self, told: Told, wishes: Wishes, whole: Optional[Told]) -> None:
        self._told, self._wishes, self._whole = told, wishes, whole
        self.entries: List[Data] = []
        #: The addresses of resources by how they are found, and the other way.
        self._urls: Dict[str, str] = {}
        self._searches: Dict[str, str] = {}
        self._resources: Dict[str, Data] = {}
        #: Whose the first sample of each number is.
        self._whose: Dict[str, Tuple[Optional[Data], bool]] = {}
        self._turns: "Counter[Tuple[str, ...]]" = Counter()

    def _add(self, name: _Name, resource: Data) -> str:
        """Adds a resource: its address in the Bundle. A patient, a sample or an order that is there gets what it
        lacks."""
        kind = resource["resourceType"]
        known = f"{kind}?{name.search}"
        data = {key: each for key, each in resource.items() if each}
        if known in self._urls and kind in ("Patient", "Specimen", "ServiceRequest"):
            for key, each in data.items():
                self._resources[self._urls[known]].setdefault(key, each)
            return self._urls[known]
        assert known not in self._urls, f"{known} is there twice"
        url = self._urls[known] = f"urn:uuid:{uuid.uuid5(uuid.NAMESPACE_URL, known)}"
        request = {"method": "POST", "url": kind, "ifNoneExist": name.search}
        if name.updates:
            request = {"method": "PUT", "url": f"{kind}?{name.search}"}
        self._searches[url], self._resources[url] = name.search, data
        self.entries.append({"fullUrl": url, "resource": data, "request": request})
        return url

    def add_case(self, case: Case) -> None:
        """A patient with its orders, or controls."""
        subject = self._subject(case)
        for order in case.orders:
            results = list(self._told.results(order))
            specimen = self._specimen(case, order, subject)
            all_came = len(results) == len(order.record.results)
            came = self._came(case, order) or (results if all_came else self._told.came(order))
            one = _About(case, order, subject, specimen, self._request(case, order, came, subject, specimen))
            urls = [self._observation(one, each) for each in results]
            if not results and report_of(order.record):
                urls = [self._missing(one, at) for at in range(len(order.tests))]
            self._report(one, results, urls)

    def _came(self, case: Case, order: Ordered) -> List[Result]:
        """The results of an order in the message as it came; none if nothing was left out of the message."""
        if self._whole is None:
            return []
        others = [(each, one) for each in self._whole.cases for one in each.orders]
        same = [one for each, one in others if _text(each.patient) == _text(case.patient)]
        same = [one for one in same if _text(one.record) == _text(order.record)]
        return [result for one in same for result in self._whole.came(one)]

    def _own(self, system: str, value: str, *more: Data, updates: bool = False) -> _Name:
        """The name of what is known by an identifier of this host's; it is updated unless the message is a repeat."""
        identifiers = [*more, {"system": system, "value": value}]
        return _Name(identifiers, _search(system, value), updates and self._told.one.again_of is None)

    def _name(self, case: Case, order: Ordered, test: List[str], at: str = "", value: str = "") -> _Name:
        """The name of a result. It depends on its time; without a time of day on its value, and on what else says which
        of two results of the test it is. It doesn't depend on the message in which it came."""
        known = [self._told.one.line, order.sample, *self._told.who(case), "", *test]
        known += [at] if has_clock(at) else ["", at, value, *self._when(order)]
        return self._own(_OF_RESULT, _digest(*known, str(self._turn(*known))), updates=True)

    def _when(self, order: Ordered) -> List[str]:
        """The times of an order as the analyzer wrote them; without a time of day that of the header too, unless it is
        ignored, and without that all records of the order."""
        record = order.record
        times = [field_text(record, number) for number in _TIMES]
        if not any(map(has_clock, times)):
            times.append(field_text(self._told.message.header, 14) if self._wishes.header_time is not False else "")
            if not has_clock(times[-1]):
                records = [one for each in (record, *record.results) for one in (each, *each.notes)]
                times += [one.row.text.decode(one.encoding, "replace") for one in records]
        return times

    def _result_name(self, case: Case, order: Ordered, result: Result) -> _Name:
        """The identifier of a result, and of its test, by which a correction finds the result that it corrects, also if
        it comes from another dilution or reagent, or in another unit."""
        name = self._name(case, order, [result.field, result.code, result.unit], result.at, result.value)
        if not (self._told.who(case) and order.sample):
            return name
        of = _digest(self._told.one.line, *self._told.tested(case, order, result.code, result.field))
        # A server that has two of the test rejects this. What a correction updated has the identifier of the correction
        # after that, by which its repeat finds it.
        return self._also(name, of, result.status == "C" and self._told.one.again_of is None)

    @staticmethod
    def _also(name: _Name, test: str, is_correction: bool) -> _Name:
        """What is known by its test too: a correction is found by that."""
        by_test = {"system": _OF_TEST, "value": test}
        search = _search(_OF_TEST, test) if is_correction else name.search
        return name._replace(identifiers=[*name.identifiers, by_test], search=search)

    def _turn(self, *texts: str) -> int:
        """How often this was asked for before."""
        self._turns[texts] += 1
        return self._turns[texts] - 1

    def _subject(self, case: Case) -> Optional[Data]:
        """The patient: in the Bundle if the system of an identity is set, otherwise only by its first identity, and
        without one by its name."""
        if case.patient is None:
            return None
        identities, (family, *given) = self._told.identities(case.patient), [*parts_of(case.patient, 6), ""]
        shown = " ".join(filter(None, [*given, family]))
        if not identities:
            return {"type": "Patient", "display": shown} if shown else None
        named = [
            _identifier(one, self._wishes.authorities.get(field, ("", ""))[0]) for field, one in identities.items()
        ]
        known = next((one for one in named if "system" in one), None)
        if known is None:
            return {"type": "Patient", "identifier": named[0]}
        name = _Name(named, _search(known["system"], known["value"]))
        return {"reference": self._add(name, _patient(case, named))}

    def _specimen(self, case: Case, order: Ordered, subject: Optional[Data]) -> Optional[Data]:
        """The sample. If its numbers have no system, it is that of the line, the patient and the time at which it was
        taken: another one can have its number."""
        if not order.sample:
            return None
        told, record, system = self._told, order.record, self._wishes.samples
        number = {"system": system, "value": order.sample} if _ADDRESS.match(system) else {"value": order.sample}
        name = _Name([number], _search(system, order.sample))
        whose = self._whose.setdefault(order.sample, (subject, order.control))
        if "system" not in number or whose != (subject, order.control):  # two of one number are two, whatever is set
            what = [told.one.line, order.sample, *told.who(case), "Q" if order.control else "", record.text(8).strip()]
            name = self._own(_OF_SAMPLE, _digest(*what), {"value": order.sample})
        taken, (code, text) = told.iso(record.text(8)), specimen_of(record)
        coding: Data = {"coding": [{"system": f"{_TERMS}v2-0487", "code": code}]} if code else {}
        made = {
            "resourceType": "Specimen",
            "identifier": name.identifiers,
            "type": {**coding, "text": text} if text else None,
            "subject": subject,
            "receivedTime": told.iso(record.text(15)),
            "collection": {"collectedDateTime": taken} if taken else None,
            "note": [{"text": CONTROL}] if order.control else None,
        }
        return {"reference": self._add(name, made)}

    def _request(
        self, case: Case, order: Ordered, results: List[Result], subject: Optional[Data], specimen: Optional[Data]
    ) -> List[Data]:
        """The order, which is somebody's: there is none without a patient who has an identity. Its results are those
        that came, also those that were left out."""
        if subject is None or "display" in subject:
            return []
        told, record = self._told, order.record
        tests = order.tests or [Coding(one.code, one.system) for one in results]
        codes, physician = list(dict.fromkeys(one.code for one in tests)), " ".join(filter(None, parts_of(record, 17)))
        ordered = [told.one.line, order.sample, *self._told.who(case), "", *codes, record.text(7).strip()]
        name = self._own(_OF_ORDER, _digest(*ordered), updates=True)
        made: Data = {
            "resourceType": "ServiceRequest",
            "identifier": name.identifiers,
            "status": _request_status(order, codes, results),
            "intent": "order",
            "category": [{"coding": [_LABORATORY]}],
            "priority": _PRIORITY.get(field_text(record, 6).upper()),
            "code": _code(codes[0], tests[0].system, "") if len(codes) == 1 else {"text": " ".join(codes)},
            "subject": subject,
            "authoredOn": told.iso(record.text(7)),
            "requester": {"display": physician} if physician else None,
            "specimen": [specimen] if specimen else None,
            "note": [{"text": field_text(record, 14)}] if field_text(record, 14) else None,
        }
        if not codes:
            del made["code"]
        return [{"reference": self._add(name, made)}]

    def _observation(self, about: _About, result: Result) -> str:
        told, (case, order) = self._told, about[:2]
        notes = [each.text for each in [*case.comments, *order.comments, *result.comments]]
        notes += [] if result.status in _STATUS else [f"the analyzer's status is {result.status}"]
        taken, value = told.iso(order.record.text(8)), _value(result)
        if not taken and len(result.at) > 8 and not told.reading.zone:
            notes.append(f"the analyzer's clock, whose zone is not known: {result.at}")
        notes += [f"unit {result.unit}"] if "valueString" in value and result.unit else []
        name = self._result_name(case, order, result)
        return self._add(
            name,
            {
                **self._head(name, _STATUS.get(result.status, "unknown"), result, about),
                "effectiveDateTime": taken or told.iso(result.at),
                "issued": _instant(told),
                "performer": [{"identifier": {"value": result.operator}}] if result.operator else None,
                **value,
                "interpretation": [_flag(each) for each in result.flags],
                "note": self._notes(order, notes),
                "specimen": about.specimen,
                "device": {"type": "Device", "display": result.instrument} if result.instrument else None,
                "referenceRange": _range(result),
            },
        )

    @staticmethod
    def _head(name: _Name, status: str, test: Union[Result, Coding], about: _About) -> Data:
        return {
            "resourceType": "Observation",
            "identifier": name.identifiers,
            "basedOn": about.request,
            "status": status,
            "category": [{"coding": [{"system": f"{_TERMS}observation-category", "code": "laboratory"}]}],
            "code": _code(test.code, test.system, test.name if isinstance(test, Result) else ""),
            "subject": about.subject,
        }

    def _missing(self, about: _About, at: int) -> str:
        """An ordered test of which no result came, as one that was cancelled."""
        case, order = about[:2]
        name = self._name(case, order, ["", order.tests[at].code, ""])
        status = _REPORT.get(report_of(order.record), "unknown")
        reason = "not-performed" if status == "cancelled" else "temp-unknown"
        return self._add(
            name,
            {
                **self._head(name, status, order.tests[at], about),
                "issued": _instant(self._told),
                "dataAbsentReason": {"coding": [{"system": f"{_TERMS}data-absent-reason", "code": reason}]},
                "note": self._notes(order, [each.text for each in [*case.comments, *order.comments]]),
                "specimen": about.specimen,
            },
        )

    def _notes(self, order: Ordered, texts: List[str]) -> List[Data]:
        control = [CONTROL] if order.control else []
        return [{"text": each} for each in [*texts, *self._told.marks, *control] if each.strip()]

    def _report_name(self, about: _About, urls: List[str]) -> _Name:
        """The identifier of a report on these results, and of its tests, by which a correction finds the report."""
        found = [self._resources[url]["identifier"] for url in urls]
        values = [one[0]["value"] for one in found]
        if not found:
            values = [self._name(about.case, about.order, ["", "", ""]).identifiers[0]["value"]]
        name = self._own(_OF_RESULT, _digest("report", *values), updates=True)
        if not found or any(len(one) == 1 for one in found):
            return name
        of = _digest("report", *sorted(one[1]["value"] for one in found))
        is_correction = any(_OF_TEST in self._searches[url] for url in urls)
        return self._also(name, of, is_correction)

    def _report(self, about: _About, results: List[Result], urls: List[str]) -> None:
        """A DiagnosticReport of an order."""
        order, comments = about.order, [*about.case.comments, *about.order.comments]
        named, found = report_of(order.record), {_STATUS.get(one.status, "unknown") for one in results}
        others = "cancelled" if found == {"cancelled"} else "final" if found else ""
        usual = next((one for one in ("unknown", "preliminary", "registered", "corrected") if one in found), others)
        usual = "partial" if usual == "registered" else usual or "registered"
        status = _REPORT.get(named, "unknown") if named else usual
        name = self._report_name(about, urls)
        codes = [*(one.code for one in order.tests), *(one.code for one in results)]
        texts = " ".join(dict.fromkeys(codes)) or "laboratory report"
        self._add(
            name,
            {
                "resourceType": "DiagnosticReport",
                "identifier": name.identifiers,
                "basedOn": about.request,
                "status": status,
                "category": [{"coding": [{"system": f"{_TERMS}v2-0074", "code": "LAB"}]}],
                "code": {"text": texts},
                "subject": about.subject,
                "effectiveDateTime": self._told.iso(order.record.text(8)),
                "issued": _instant(self._told),
                "specimen": [about.specimen] if about.specimen else None,
                "result": [{"reference": url} for url in dict.fromkeys(urls)],
                "conclusion": "; ".join(each.text for each in comments) if not results else "",
            },
        )


def _search(system: str, value: str) -> str:
    """The search for what has an identifier: whatever characters this has, none of them has a meaning."""
    system, value = (quote(_MEANING.sub(r"\\\g<0>", one), safe=":/") for one in (system, value))
    return f"identifier={system}|{value}"


def _text(record: Optional[Entry]) -> bytes:
    return b"" if record is None else record.row.text


def _digest(*texts: str) -> str:
    """One text for all of these."""
    return hashlib.sha256(json.dumps(texts).encode()).hexdigest()[:32]


def _identifier(one: Identity, authority: str) -> Data:
    """An identity of a patient, of the authority that the message names, else of the one that is set."""
    authority = one.authority or authority
    if _ADDRESS.match(authority):
        return {"system": authority, "value": one.value}
    return {"value": one.value, "assigner": {"display": authority}} if authority else {"value": one.value}


def _request_status(order: Ordered, codes: List[str], results: List[Result]) -> str:
    """Whether an order is done: as its report type says, else if each of its tests has a result that stays."""
    named = report_of(order.record)
    if named:
        return _REQUEST.get(named, "unknown")
    done = {one.code for one in results if _STATUS.get(one.status) in ("final", "corrected", "cancelled")}
    return "completed" if codes and done >= set(codes) else "active"


def _patient(case: Case, named: List[Data]) -> Data:
    record = case.patient
    assert record is not None
    family, *given = [*parts_of(record, 6), ""]
    name = {"family": family, "given": [one for one in given if one]}
    day, sex = field_text(record, 8)[:8], field_text(record, 9).upper()
    is_day = len(day) == 8 and day.isdigit()
    return {
        "resourceType": "Patient",
        "identifier": named,
        "name": [{key: one for key, one in name.items() if one}] if family or name["given"] else None,
        "gender": {"M": "male", "F": "female", "U": "unknown"}.get(sex),
        "birthDate": f"{day[:4]}-{day[4:6]}-{day[6:]}" if is_day else None,
    }


def _code(code: str, system: str, name: str) -> Data:
    known = _SYSTEMS.get(system, system if ":" in system else "")
    coding = {"system": known, "code": " ".join(code.split())} if known else {"code": " ".join(code.split())}
    return {"coding": [coding], "text": name or code}


def _quantity(number: Number, result: Result) -> Data:
    ucum = {"system": _UCUM, "code": result.ucum} if result.ucum else {}
    data = {"value": number.value, "comparator": number.comparator, "unit": result.unit or result.ucum, **ucum}
    return {key: one for key, one in data.items() if one != ""}


def _value(result: Result) -> Data:
    """The value as a quantity with its unit, or as a text."""
    number = number_of(result.value)
    if number is not None:
        return {"valueQuantity": _quantity(number, result)}
    if result.value:
        return {"valueString": result.value}
    return {"dataAbsentReason": {"coding": [{"system": f"{_TERMS}data-absent-reason", "code": "unknown"}]}}


def _flag(flag: str) -> Data:
    if flag in _FLAGS:
        return {"coding": [{"system": f"{_TERMS}v3-ObservationInterpretation", "code": flag}]}
    return {"text": flag}


def _range(result: Result) -> List[Data]:
    if not result.range:
        return []
    usual = range_of(result.range)
    if usual is None or any(one is not None and one.comparator in ("<", ">") for one in usual):
        return [{"text": result.range}]
    low, high = (None if one is None else _quantity(one._replace(comparator=""), result) for one in usual)
    return [{key: one for key, one in (("low", low), ("high", high)) if one is not None}]
