"""A message as ORU^R01 of HL7 v2: one for each patient, and one for the controls, so that no result can be under
another patient. The same message gives the same bytes each time."""
import functools
import hashlib
import re
import string
import time
from collections import Counter
from typing import Dict, Iterator, List, Mapping, NamedTuple, Optional, Sequence, Tuple

from lislink.message import Entry
from ..model.numbers import number_of, range_of
from ..model.options import OptionError
from ..model.results import Case, Coding, Comment, Identity, Ordered, Result, Told
from ..model.results import field_text, parts_of, report_of

#: Status of a result (LIS02-A2, 9.5.9) as that of HL7 table 0085. A letter that isn't here is P, with a comment: HL7
#: has another meaning for some of them.
_STATUS = {"": "F", **{one: one for one in "CFIPSX"}, **{one: "F" for one in "MQRV"}}
#: The flags (table 0078) and natures of a range (0080) that both standards have; priorities (0485); actions (0065).
_FLAGS, _NATURES, _PRIORITIES = ("L", "H", "LL", "HH", "<", ">", "N", "A", "U", "D", "B", "W"), "ASRN", "SARCPT"
_ACTIONS = "AP"
#: Specimen types of table 0487, and what analyzers write for them.
_WORDS = {
    **dict.fromkeys("CALC FLUID PUS URC URT VOM WB".split(), ""),
    **{"ASP": "aspirate", "BLD": "blood, whole blood", "BLDA": "arterial, arterial blood", "DIA": "dialysate"},
    **{"BLDC": "capillary, capillary blood", "BLDV": "venous, venous blood", "FLU": "body fluid", "ORH": "other"},
    **{"CSF": "cerebrospinal fluid, spinal fluid", "GAST": "gastric fluid", "PCFL": "pericardial fluid"},
    **{"PLAS": "plasma", "PPP": "platelet poor plasma", "PRP": "platelet rich plasma", "RANDU": "random urine"},
    **{"SAL": "saliva", "SER": "serum", "SNV": "synovial fluid", "SPT": "sputum", "STL": "stool, feces, faeces"},
    **{"TISS": "tissue", "UR": "urine", "URINM": "midstream urine"},
}
_SPECIMENS = {word.upper(): code for code, words in _WORDS.items() for word in (code, *words.split(", ")) if word}
#: The numbers of two digits to the base 36.
_PAIRS = [one + two for one in string.digits + string.ascii_uppercase for two in string.digits + string.ascii_uppercase]
_ESCAPES = {"|": "\\F\\", "^": "\\S\\", "~": "\\R\\", "\\": "\\E\\", "&": "\\T\\"}
_SPECIAL = re.compile(r"[|^~\\&\x00-\x1f]")
#: What is said of a control where there is no other place for it.
CONTROL = "a control, and no sample of a patient"
#: OBR-7 must be there in a report; it is when the specimen was taken.
_NOT_TAKEN = "OBR-7 is when the first result was completed: when the specimen was taken isn't known"
#: A value of type NM, and the most characters of one of type ST.
_NM, _ST = re.compile(r"[+-]?\d+(?:\.\d+)?$|[+-]?\.\d+$", re.ASCII), 199
VERSIONS = ("2.3.1", "2.5", "2.5.1")


class Wishes(NamedTuple):
    """What a receiver wants in its messages: fields of MSH by their numbers; authority and type of the identities of
    P-3, P-4 and P-5, by these numbers; the authority of samples; for what an OBR is: an order, a test, a sample; what
    OBR-2 has: a field of the order's record, as O.19, or `sample`; and whether the header's time tells results without
    another time apart, if that is set: in FHIR it does otherwise, but no old result goes by it."""

    header: Mapping[int, str] = {}
    authorities: Mapping[int, Tuple[str, str]] = {}
    samples: str = ""
    obr: str = "order"
    placer: str = ""
    header_time: Optional[bool] = None

    @property
    def version(self) -> str:
        """The version of HL7."""
        return self.header.get(12, "2.5.1")


_IDENTITIES = {"practice": 3, "laboratory": 4, "third": 5}
_HEADER = {f"MSH-{number}": number for number in (3, 4, 5, 6, 11, 12)}
_PLACER = re.compile(r"sample$|O\.[1-9]\d?(\.[1-9]\d?)?$")


def wishes_of(words: Sequence[str]) -> Wishes:
    """Words `NAME=VALUE`: `MSH-5=LIS`, `practice=HOSP PI` (authority and type), `sample=AUTHORITY`, `obr=test`,
    `obr=sample`, `OBR-2=O.19`, `OBR-2=sample`, `H-14=counts`, `H-14=ignored`."""
    header: Dict[int, str] = {}
    authorities: Dict[int, Tuple[str, str]] = {}
    samples, obr, placer, header_time = "", "order", "", None
    for word in words:
        name, equals, value = word.partition("=")
        if not equals or not value:
            raise OptionError(f"{word}: expected NAME=VALUE")
        if name in _HEADER:
            header[_HEADER[name]] = value
        elif name in _IDENTITIES:
            authority, _, kind = value.partition(" ")
            authorities[_IDENTITIES[name]] = authority, kind.strip()
        elif name == "sample":
            samples = value
        elif name == "obr" and value in ("order", "test", "sample"):
            obr = value
        elif name == "OBR-2" and _PLACER.match(value):
            placer = value
        elif name == "H-14" and value in ("counts", "ignored"):
            header_time = value == "counts"
        else:
            more = "sample", "obr=test", "obr=sample", "OBR-2=O.19", "OBR-2=sample", "H-14=counts", "H-14=ignored"
            names = ", ".join([*_HEADER, *_IDENTITIES, *more])
            raise OptionError(f"{word}: what can be set is {names}")
    if header.get(12, VERSIONS[0]) not in VERSIONS:
        raise OptionError(f"MSH-12={header[12]}: a version is {', '.join(VERSIONS)}")
    return Wishes(header, authorities, samples, obr, placer, header_time)


def _escaped(*texts: str) -> Sequence[str]:
    """Texts in which what has a meaning in HL7 is an escape."""
    if _SPECIAL.search("".join(texts)) is None:
        return texts
    return [_SPECIAL.sub(_escape, one) for one in texts]


def _escape(found: "re.Match[str]") -> str:
    return _ESCAPES.get(found[0]) or f"\\X{ord(found[0]):02X}\\"


def _field(parts: Sequence[str]) -> str:
    """A field with these components, without empty ones at its end."""
    return "^".join(_escaped(*parts)).rstrip("^")


def _segment(*fields: str) -> str:
    """A segment of fields whose texts are escaped, and the CR after it."""
    return "|".join(fields).rstrip("|") + "\r"


def control_id(key: str, place: int = 1) -> str:
    """MSH-10 of the n-th message that is made of a message with this key: 20 letters and digits, which HL7 v2.5.1 has
    room for, always the same."""
    if re.fullmatch(r"[0-9a-f]{24}", key) and place <= 128:
        number = int(key, 16) * 128 + place - 1
    else:
        number = int(hashlib.sha256(f"{key} {place}".encode()).hexdigest(), 16)
    digits = ""
    for _ in range(10):
        number, pair = divmod(number, 1296)
        digits = _PAIRS[pair] + digits
    return digits


def oru_of(told: Told, wishes: Wishes = Wishes()) -> bytes:
    """The messages, one after another; empty if there is no patient and no control, for example in a query."""
    out = bytearray()
    for case in told.cases:
        for one in _segments(told, case, wishes):
            out += one.encode()
    return bytes(out)


def messages_of(data: bytes) -> List[bytes]:
    """Each of these messages by itself."""
    first, *others = data.split(b"\rMSH|")
    rows = [first, *(b"MSH|" + one for one in others)]
    return [one + b"\r" for one in rows[:-1]] + [one for one in rows[-1:] if one]


def _segments(told: Told, case: Case, wishes: Wishes) -> Iterator[str]:
    """The segments of a patient, in turn."""
    mode, one = told.message.header.text(12).strip(), told.one
    to, kind, rest = _head(one.line, mode if mode in ("D", "T") else "P", tuple(wishes.header.items()))
    time_of_it = _stamp(one.began if one.ended is None else one.ended)
    yield f"{to}|{time_of_it}||{kind}|{control_id(one.key, case.place)}|{rest}\r"
    patient = list(_patient(told, case, wishes))
    yield from patient
    more = [*([] if patient else case.comments), *(Comment("L", mark) for mark in told.marks)]
    reports = [(order, list(told.results(order))) for order in case.orders]
    if wishes.obr == "sample":
        reports = list(_by_sample(reports))
    elif wishes.obr == "test":
        reports = [each for order, results in reports for each in _by_test(order, results)]
    for number, (order, results) in enumerate(reports, 1):
        yield from _order(told, number, order, results, more, wishes)
        more = []


@functools.lru_cache(maxsize=64)
def _head(line: str, mode: str, header: Tuple[Tuple[int, str], ...]) -> Tuple[str, str, str]:
    """What MSH has in each message of a line: the fields up to 6, field 9, and the fields from 11."""
    version = dict(header).get(12, VERSIONS[-1])
    kind = ["ORU", "R01", *([] if version == VERSIONS[0] else ["ORU_R01"])]
    fields = {3: ["lislab"], 4: [line], 9: kind, 11: [mode], 12: [version], 18: ["UNICODE UTF-8"]}
    fields.update({number: value.split("^") for number, value in header})
    cells = [_field(fields.get(number, [])) for number in range(19)]
    return "|".join(["MSH|^~\\&", *cells[3:7]]), cells[9], "|".join(cells[11:])


def _stamp(at: float) -> str:
    """A time of the clock on the wall, with its zone."""
    year, month, day, hour, minute, second, *_ = there = time.localtime(at)
    hours, minutes = divmod(abs(there.tm_gmtoff) // 60, 60)
    sign = "-" if there.tm_gmtoff < 0 else "+"
    return f"{year:04}{month:02}{day:02}{hour:02}{minute:02}{second:02}{sign}{hours:02}{minutes:02}"


def _patient(told: Told, case: Case, wishes: Wishes) -> Iterator[str]:
    """PID and the comments on the patient; none if there is neither an identity nor a name."""
    record = case.patient
    identities = {} if record is None else told.identities(record)
    name = [] if record is None else parts_of(record, 6)
    if record is None or not (identities or name):
        return
    street, *town = [*parts_of(record, 11), ""]
    sex = field_text(record, 9).upper()
    named = [_identity(one, *wishes.authorities.get(field, ("", ""))) for field, one in identities.items()]
    name = [*(name + [""] * 6)[:6], "L"] if name else [""] * 6 + ["U"]
    mother, where, phone = _field(parts_of(record, 7)), _field([street, "", *town]), _field([field_text(record, 13)])
    born, sex = _day(record.text(8)), sex if sex in ("M", "F", "U") else ""
    yield _segment("PID|1", "", "~".join(named), "", _field(name), mother, born, sex, "", "", where, "", phone)
    yield from _notes(case.comments)


def _identity(one: Identity, authority: str, kind: str) -> str:
    """A patient's identity (CX): authority and type as the message names them, else as they are set."""
    return _field([one.value, "", "", one.authority or authority, one.kind or kind])


def _day(text: str) -> str:
    return text.strip()[:8] if re.match(r"\d{8}", text.strip()) else ""


#: What one OBR is for, and its results.
Report = Tuple[Ordered, List[Result]]


def _by_sample(reports: Sequence[Report]) -> Iterator[Report]:
    """Merges orders of one sample that differ only in their tests."""
    found: Dict[Tuple[object, ...], Report] = {}
    for order, results in reports:
        row = order.record.row
        alike = tuple(row.written(number) for number in range(3, row.first + row.count) if number != 5)
        known = (*alike, order.record.number if not order.sample else 0)
        if known in found:
            first, others = found[known]
            tests = [*first.tests, *(one for one in order.tests if one not in first.tests)]
            order = first._replace(tests=tests, comments=[*first.comments, *order.comments])
            results = [*others, *results]
        found[known] = order, results
    for order, results in found.values():
        total, turns = Counter(one.code for one in results), Counter()  # type: Counter[str], Counter[str]
        for at, one in enumerate(results):
            turns[one.code] += 1
            results[at] = one._replace(turn=turns[one.code] if total[one.code] > 1 else 0)
        yield order, results


def _by_test(order: Ordered, results: List[Result]) -> Iterator[Report]:
    """Each test of an order by itself."""
    found: Dict[str, Tuple[Ordered, List[Result]]] = {}
    for one in results:
        test = Coding(one.code, one.system)
        found.setdefault(one.code, (order._replace(tests=[test]), []))[1].append(one)
    missing = [test for test in order.tests if not found]
    yield from found.values()
    for test in missing:
        yield order._replace(tests=[test]), []
    if not found and not missing:
        yield order, []


def _order(
    told: Told, number: int, order: Ordered, results: List[Result], more: List[Comment], wishes: Wishes
) -> Iterator[str]:
    """OBR, its comments, its priority, its results, and SPM."""
    record, is_old = order.record, wishes.version == VERSIONS[0]
    taken, (code, text) = told.at(record.text(8)), specimen_of(record)
    kind = _field([code, text, "HL70487" if code else ""])
    priority = _among(_PRIORITIES, field_text(record, 6))
    first = "" if taken else min((one.at for one in results if one.at), default="")
    yield _request(told, number, order, results, (kind, priority, taken or told.at(first)), wishes)
    said = [(CONTROL, is_old and order.control), (_NOT_TAKEN, first)]
    yield from _notes([*order.comments, *(Comment("L", text) for text, is_so in said if is_so), *more])
    if priority and not is_old:
        yield f"TQ1|1||||||||{priority}\r"
    for place, result in enumerate(results, 1):
        yield from _result(told, place, result, taken)
    if not is_old and (kind or order.control or order.sample or order.instrument_sample):
        usual = "^control" if order.control else "^unspecified"
        named, role = _field([order.sample, order.instrument_sample]), "Q" if order.control else ""
        received = told.at(record.text(15))
        yield _segment("SPM|1", named, "", kind or usual, *[""] * 6, role, *[""] * 5, taken, received)


def _request(
    told: Told, number: int, order: Ordered, results: List[Result], known: Tuple[str, str, str], wishes: Wishes
) -> str:
    """OBR: with the sample's kind, the priority and the time at which it was taken. No field of the order's record has
    the number that who ordered gave the order: OBR-2 is as it is set. The laboratory knows the order by its sample."""
    (kind, priority, taken), record, is_old = known, order.record, wishes.version == VERSIONS[0]
    placer = order.sample if wishes.placer == "sample" else ""
    if wishes.placer.startswith("O"):
        field, component = (wishes.placer.split(".") + ["1"])[1:3]
        placer = record.text(int(field), 0, int(component) - 1).strip()
    kept = order.instrument_sample if is_old and order.sample else ""
    sample = order.sample or order.instrument_sample
    placer, sample, about, kept = _escaped(placer, sample, field_text(record, 14), kept)
    requested, ended, received, reported = (told.at(record.text(at)) for at in (7, 9, 15, 23))
    fields = [placer, sample, _service(order, results), priority, requested, taken, ended]
    fields += ["", "", _among(_ACTIONS, field_text(record, 12)), "", about, received, kind if is_old else ""]
    fields += [_field(parts_of(record, 17)), "", "", "", kept, "", reported, "", "", _report(order, results), ""]
    return _segment(f"OBR|{number}", *fields, f"^^^^^{priority}" if is_old and priority else "")


def _among(letters: str, text: str) -> str:
    """The letter that a text is, in whatever case; empty if it is none of these."""
    return text.upper() if len(text) == 1 and text.upper() in letters else ""


def _service(order: Ordered, results: List[Result]) -> str:
    """OBR-4: the test of an order, or of its results if they have one, else the list of its tests."""
    tests = order.tests or [Coding(code, system) for code, system in {(one.code, one.system): 0 for one in results}]
    if len(tests) == 1:
        return _field([tests[0].code, "", _system(tests[0].system)])
    return _field(["PANEL", " ".join(one.code for one in tests), "L"])


def _system(system: str) -> str:
    """The coding system in HL7; an address is a system only of FHIR."""
    return system if system and ":" not in system else "L"


def specimen_of(record: Entry) -> Tuple[str, str]:
    """The type of an order's specimen: its code of table 0487, if that has it, and its text."""
    text = field_text(record, 16)
    return _SPECIMENS.get(text.upper(), ""), text


def _report(order: Ordered, results: List[Result]) -> str:
    """The status of an order's report; without one, the status of its results: without any it isn't final."""
    found = {_status(one) for one in results}
    usual = "P" if found & set("PSI") else "C" if "C" in found else "X" if found == {"X"} else "F" if found else "I"
    return report_of(order.record) or usual


def _status(result: Result) -> str:
    """OBX-11. A final result without a value couldn't be obtained."""
    status = _STATUS.get(result.status, "P")
    return "X" if status == "F" and not result.value else status


def _result(told: Told, place: int, result: Result, taken: str) -> Iterator[str]:
    kind, value = _value(result.value)
    texts = result.code, result.name, _system(result.system), result.unit, result.ucum, result.operator
    code, name, system, unit, ucum, operator, instrument = _escaped(*texts, result.instrument)
    flags = "~".join([one for one in result.flags if one in _FLAGS])
    yield _segment(
        f"OBX|{place}|{kind}|{code}^{name}^{system}|{result.turn or ''}|{value}",
        f"{ucum}^{unit}^UCUM" if ucum else unit,
        f"{_range(result.range)}|{flags}||{result.nature if result.nature in _NATURES else ''}",
        f"{_status(result)}|||{taken}||{operator}||{instrument}|{told.at(result.at)}",
    )
    told_so = [f"flag {one}" for one in result.flags if one not in _FLAGS]
    told_so += [] if result.status in _STATUS else [f"the analyzer's status is {result.status}"]
    yield from _notes([*result.comments, *(Comment("I", one) for one in told_so)])


@functools.lru_cache(maxsize=256)  # a test has one range in many messages
def _range(text: str) -> str:
    """A range as HL7 has it, if it is one of numbers."""
    usual = range_of(text)
    return _field([text if usual is None else usual.text()])


def _value(text: str) -> "tuple[str, str]":
    """The type of a value, and the value: a number, a number after a comparator, or a text."""
    if not text or _NM.match(text):
        return "NM" if text else "", text
    number = number_of(text)
    if number is not None and number.comparator:
        return "SN", f"{number.comparator}^{number.text()[len(number.comparator) :]}"
    return "ST" if len(text) <= _ST else "TX", _field([text])


def _notes(comments: Sequence[Comment]) -> Iterator[str]:
    for number, one in enumerate(comments, 1):
        source = one.source if one.source in ("L", "P") else "O"
        yield _segment(f"NTE|{number}|{source}", *_escaped(one.text))


#: The parts of an answer that are logged: only codes, because its texts may repeat a patient's data.
_CODE = re.compile(r"[A-Za-z0-9^._-]{1,20}$")


def acknowledgement(data: bytes) -> "Optional[tuple[str, str, str]]":
    """The code of an answer (MSA-1), the control id that it is for (MSA-2), and the codes of its error (ERR-3, ERR-2);
    None if it can't be read. Its segments may end in CR, LF or both."""
    rows = [row.strip() for row in re.split(r"[\r\n]+", data.decode("utf-8", "replace"))]
    heads = [row for row in rows if re.match(r"MSH[^\w\s]", row)]
    if not heads:
        return None
    found = {row[:3]: row.split(heads[0][3]) for row in reversed(rows)}
    msa, error = found.get("MSA", []), found.get("ERR", [])
    if len(msa) < 2:
        return None
    cells = [error[3].split("^")[0] if len(error) > 3 else "", error[2] if len(error) > 2 else ""]
    told = " at ".join(cell.strip() for cell in cells if _CODE.match(cell.strip()))
    code = msa[1].strip()
    return code if _CODE.match(code) else "", msa[2].strip() if len(msa) > 2 else "", told
