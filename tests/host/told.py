"""Small readers of what is handed on: which result of which patient and sample an ORU, a Bundle or a table has. They
are written from the standards, over no code of this repository."""
import csv
import io
import json
import re
from typing import NamedTuple


class Row(NamedTuple):
    """A result as a receiver has it: the patient's identity (None: of no patient), its name, whether it is a control,
    the sample, the code, the value, the unit and the status."""

    patient: object
    name: str
    control: bool
    sample: str
    code: str
    value: str
    unit: str
    status: str


def unescaped(text):
    """A text of HL7 with its escapes undone."""
    names = {"F": "|", "S": "^", "R": "~", "E": "\\", "T": "&"}
    return re.sub(r"\\([FSRET])\\", lambda found: names[found[1]], text)


def segments_of(data):
    """The messages of a text as lists of segments, which are lists of fields; MSH-1 is field 1."""
    messages = []
    for row in data.decode().split("\r")[:-1]:
        cells = row.split("|")
        if cells[0] == "MSH":
            messages.append([])
            cells.insert(1, "|")
        messages[-1].append(cells)
    return messages


def cell(segment, field, component=1, repeat=1):
    """A component of a field; empty if there is none."""
    repeats = (segment[field] if field < len(segment) else "").split("~")
    parts = repeats[repeat - 1].split("^") if repeat <= len(repeats) else []
    return unescaped(parts[component - 1]) if component <= len(parts) else ""


def of_oru(data):
    """The results of messages ORU^R01: each is below the PID before it in its message, if there is one. A group of OBR
    is of the sample of its SPM, and a control if that says so; without one it is of the sample of OBR-3."""
    rows = []
    for segments in segments_of(data):
        patient, name, group = None, "", []
        for segment in [*segments, ["OBR"]]:
            if segment[0] == "PID":
                patient, name = cell(segment, 3) or None, cell(segment, 5)
            elif segment[0] == "OBR":
                rows += group
                group, sample = [], cell(segment, 3)
            elif segment[0] == "OBX":
                value = cell(segment, 5) + (cell(segment, 5, 2) if segment[2] == "SN" else "")
                group.append(Row(patient, name, False, sample, cell(segment, 3), value, unit_of(segment), segment[11]))
            elif segment[0] == "SPM":
                is_control = cell(segment, 11) == "Q"
                group = [one._replace(control=is_control, sample=cell(segment, 2)) for one in group]
    return rows


def comments_of_oru(data):
    """The comments of messages ORU^R01."""
    return [cell(segment, 3) for segments in segments_of(data) for segment in segments if segment[0] == "NTE"]


def unit_of(segment):
    """The unit of OBX-6: the text, if there is a code of UCUM too."""
    return cell(segment, 6, 2) or cell(segment, 6)


def of_fhir(data):
    """The Observations of a Bundle."""
    entries = json.loads(data, parse_float=str, parse_int=str)["entry"] if data else []
    known = {one["fullUrl"]: one["resource"] for one in entries}
    rows = []
    for one in (entry["resource"] for entry in entries):
        if one["resourceType"] != "Observation":
            continue
        subject = one.get("subject", {})
        patient = known.get(subject.get("reference"), {"identifier": [subject.get("identifier", {})]})
        named = patient["identifier"][0]
        quantity = one.get("valueQuantity", {})
        value = one.get("valueString") or quantity.get("comparator", "") + quantity.get("value", "")
        control = any("a control" in note["text"] for note in one.get("note", []))
        tube = known.get(one.get("specimen", {}).get("reference"), {"identifier": [{}]})
        based = [known[each["reference"]] for each in one.get("basedOn", [])]
        assert all(each.get("subject") == one.get("subject") for each in based + [tube] * ("subject" in tube)), one
        sample = tube["identifier"][0].get("value", "")
        code = one["code"]["coding"][0]["code"]
        units = [note["text"][5:] for note in one.get("note", []) if note["text"].startswith("unit ")]
        unit = quantity.get("unit") or "".join(units)
        rows.append(Row(named.get("value"), "", control, sample, code, value, unit, one["status"]))
    return rows


def comments_of_fhir(data):
    """The comments of a Bundle: the notes on its resources, and those that are the conclusion of a report."""
    found = [entry["resource"] for entry in json.loads(data)["entry"]] if data else []
    notes = [note["text"] for one in found for note in one.get("note", [])]
    return notes + [text for one in found for text in one.get("conclusion", "").split("; ")]


def of_csv(text):
    """The rows of a table."""
    return [
        Row(one["patient"] or None, "", one["control"] == "Q", one["sample"], one["test"], one["value"], one["unit"],
            one["status"])
        for one in csv.DictReader(io.StringIO(text))
    ]
