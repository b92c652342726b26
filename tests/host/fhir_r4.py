"""The published structure of FHIR R4 (4.0.1), as far as a Bundle of Patients, Specimens, ServiceRequests, Observations
and DiagnosticReports uses it: the elements of each type, how often each may be, their types, to which resources a
reference may lead, the required codes, the codes of small systems, and the invariants. It was written from memory,
since the definitions could not be had on the machine, and over no code of this repository; nobody has compared it with
them.

What it doesn't check: the codes of LOINC, SNOMED CT and UCUM; profiles; searches (what `ifNoneExist` and a conditional
update find, and whether a server takes them); extensions and contained resources; types of resources and elements that
aren't used here (a reference to a resource that isn't in the Bundle is a fault); a reference by an identifier or a
display, whose target nobody knows; the invariants of texts (dom-2 to dom-6, ele-1 of primitive types)."""
import decimal
import json
import re

#: Primitive types: what the text of a value is.
_STRING = re.compile(r"[^\x00-\x08\x0b\x0c\x0e-\x1f]*\S[^\x00-\x08\x0b\x0c\x0e-\x1f]*", re.S)
_DAY = r"([0-9]([0-9]([0-9][1-9]|[1-9]0)|[1-9]00)|[1-9]000)"
_CLOCK = r"T([01][0-9]|2[0-3]):[0-5][0-9]:([0-5][0-9]|60)(\.[0-9]+)?(Z|(\+|-)((0[0-9]|1[0-3]):[0-5][0-9]|14:00))"
PRIMITIVES = {
    "string": _STRING,
    "markdown": _STRING,
    "uri": re.compile(r"\S+"),
    "code": re.compile(r"[^\s]+(\s[^\s]+)*"),
    "instant": re.compile(rf"{_DAY}-(0[1-9]|1[0-2])-(0[1-9]|[1-2][0-9]|3[0-1]){_CLOCK}"),
    "date": re.compile(rf"{_DAY}(-(0[1-9]|1[0-2])(-(0[1-9]|[1-2][0-9]|3[0-1]))?)?"),
    "dateTime": re.compile(rf"{_DAY}(-(0[1-9]|1[0-2])(-(0[1-9]|[1-2][0-9]|3[0-1])({_CLOCK})?)?)?"),
}
#: Required bindings.
CODES = {
    "Bundle.type": """document message transaction transaction-response batch batch-response history searchset
        collection""",
    "Request.method": "GET HEAD POST PUT DELETE PATCH",
    "Observation.status": "registered preliminary final amended corrected cancelled entered-in-error unknown",
    "Quantity.comparator": "< <= >= >",
    "Identifier.use": "usual official temp secondary old",
    "DiagnosticReport.status": """registered partial preliminary final amended corrected appended cancelled
        entered-in-error unknown""",
    "Patient.gender": "male female other unknown",
    "HumanName.use": "usual official temp nickname anonymous old maiden",
    "Specimen.status": "available unavailable unsatisfactory entered-in-error",
    "ServiceRequest.status": "draft active on-hold revoked completed entered-in-error unknown",
    "ServiceRequest.intent": """proposal plan directive order original-order reflex-order filler-order instance-order
        option""",
    "ServiceRequest.priority": "routine urgent asap stat",
}
#: The codes of systems that are small: those of HL7's terminology, by the ends of their addresses.
SYSTEMS = {
    "observation-category": "social-history vital-signs imaging laboratory procedure survey exam therapy activity",
    "data-absent-reason": """unknown asked-unknown temp-unknown not-asked asked-declined masked not-applicable
        unsupported as-text error not-a-number negative-infinity positive-infinity not-performed not-permitted""",
    "v3-ObservationInterpretation": """CAR B D U W < > AC IE QCF TOX A AA HH LL H H> HU L L< LU HX LX I MS NCL NS R
        SYN-R S SDD SYN-S VS EX E IND N NEG ND POS DET EXP UNE NR RR WR""",
    "v2-0074": """AU BG BLB CG CH CP CT CTH CUS EC EN GE HM ICU IMG IMM LAB MB MCB MYC NMR NMS NRS OSL OT OTH OUS PAR
        PAT PF PHR PHY PT RAD RC RT RUS RX SP SR TX URN VR VUS XRC""",
    "v2-0487": """ASP BLD BLDA BLDC BLDV CALC CSF DIA FLU FLUID GAST ORH PCFL PLAS PPP PRP PUS RANDU SAL SER SNV SPT STL
        TISS UR URC URINM URT VOM WB""",
}
#: To which resources the references of an element may lead.
TARGETS = {
    "Observation.basedOn": """CarePlan DeviceRequest ImmunizationRecommendation MedicationRequest NutritionOrder
        ServiceRequest""",
    "Observation.subject": "Patient Group Device Location",
    "Observation.performer": "Practitioner PractitionerRole Organization CareTeam Patient RelatedPerson",
    "Observation.specimen": "Specimen",
    "Observation.device": "Device DeviceMetric",
    "Observation.hasMember": "Observation QuestionnaireResponse MolecularSequence",
    "DiagnosticReport.basedOn": """CarePlan ImmunizationRecommendation MedicationRequest NutritionOrder
        ServiceRequest""",
    "DiagnosticReport.subject": "Patient Group Device Location",
    "DiagnosticReport.performer": "Practitioner PractitionerRole Organization CareTeam",
    "DiagnosticReport.specimen": "Specimen",
    "DiagnosticReport.result": "Observation",
    "Specimen.subject": "Patient Group Device Substance Location",
    "Specimen.parent": "Specimen",
    "Specimen.request": "ServiceRequest",
    "Collection.collector": "Practitioner PractitionerRole",
    "ServiceRequest.basedOn": "CarePlan ServiceRequest MedicationRequest",
    "ServiceRequest.replaces": "ServiceRequest",
    "ServiceRequest.subject": "Patient Group Location Device",
    "ServiceRequest.requester": "Practitioner PractitionerRole Organization Patient RelatedPerson Device",
    "ServiceRequest.performer": """Practitioner PractitionerRole Organization CareTeam HealthcareService Patient Device
        RelatedPerson""",
    "ServiceRequest.specimen": "Specimen",
    "Identifier.assigner": "Organization",
}
#: The elements of each type: name, type, least, and whether it may be there more than once.
TYPES = {
    "Bundle": """id:code:0 identifier:Identifier:0 type:code:1 timestamp:instant:0 total:decimal:0 link:Link:0*
        entry:Entry:0*""",
    "Entry": "link:Link:0* fullUrl:uri:0 resource:Resource:0 request:Request:0",
    "Request": """method:code:1 url:uri:1 ifNoneMatch:string:0 ifModifiedSince:instant:0 ifMatch:string:0
        ifNoneExist:string:0""",
    "Observation": """id:code:0 identifier:Identifier:0* basedOn:Reference:0* partOf:Reference:0* status:code:1
        category:CodeableConcept:0* code:CodeableConcept:1 subject:Reference:0 focus:Reference:0* encounter:Reference:0
        effectiveDateTime:dateTime:0 effectiveInstant:instant:0 issued:instant:0 performer:Reference:0*
        valueQuantity:Quantity:0 valueCodeableConcept:CodeableConcept:0 valueString:string:0
        dataAbsentReason:CodeableConcept:0 interpretation:CodeableConcept:0* note:Annotation:0*
        bodySite:CodeableConcept:0 method:CodeableConcept:0 specimen:Reference:0 device:Reference:0
        referenceRange:ReferenceRange:0* hasMember:Reference:0* derivedFrom:Reference:0*""",
    "DiagnosticReport": """id:code:0 identifier:Identifier:0* basedOn:Reference:0* status:code:1
        category:CodeableConcept:0* code:CodeableConcept:1 subject:Reference:0 encounter:Reference:0
        effectiveDateTime:dateTime:0 issued:instant:0 performer:Reference:0* resultsInterpreter:Reference:0*
        specimen:Reference:0* result:Reference:0* imagingStudy:Reference:0* conclusion:string:0
        conclusionCode:CodeableConcept:0*""",
    "Patient": """id:code:0 identifier:Identifier:0* active:boolean:0 name:HumanName:0* telecom:ContactPoint:0*
        gender:code:0 birthDate:date:0 address:Address:0*""",
    "Specimen": """id:code:0 identifier:Identifier:0* accessionIdentifier:Identifier:0 status:code:0
        type:CodeableConcept:0 subject:Reference:0 receivedTime:dateTime:0 parent:Reference:0* request:Reference:0*
        collection:Collection:0 condition:CodeableConcept:0* note:Annotation:0*""",
    "Collection": """collector:Reference:0 collectedDateTime:dateTime:0 quantity:Quantity:0 method:CodeableConcept:0
        bodySite:CodeableConcept:0 fastingStatusCodeableConcept:CodeableConcept:0""",
    "ServiceRequest": """id:code:0 identifier:Identifier:0* instantiatesCanonical:uri:0* instantiatesUri:uri:0*
        basedOn:Reference:0* replaces:Reference:0* requisition:Identifier:0 status:code:1 intent:code:1
        category:CodeableConcept:0* priority:code:0 doNotPerform:boolean:0 code:CodeableConcept:0
        orderDetail:CodeableConcept:0* quantityQuantity:Quantity:0 subject:Reference:1 encounter:Reference:0
        occurrenceDateTime:dateTime:0 authoredOn:dateTime:0 requester:Reference:0 performerType:CodeableConcept:0
        performer:Reference:0* locationCode:CodeableConcept:0* locationReference:Reference:0*
        reasonCode:CodeableConcept:0* reasonReference:Reference:0* insurance:Reference:0* supportingInfo:Reference:0*
        specimen:Reference:0* bodySite:CodeableConcept:0* note:Annotation:0* patientInstruction:string:0
        relevantHistory:Reference:0*""",
    "HumanName": "use:code:0 text:string:0 family:string:0 given:string:0* prefix:string:0* suffix:string:0*",
    "ReferenceRange": """low:Quantity:0 high:Quantity:0 type:CodeableConcept:0 appliesTo:CodeableConcept:0*
        text:string:0""",
    "Identifier": "use:code:0 type:CodeableConcept:0 system:uri:0 value:string:0 assigner:Reference:0",
    "CodeableConcept": "coding:Coding:0* text:string:0",
    "Coding": "system:uri:0 version:string:0 code:code:0 display:string:0",
    "Quantity": "value:decimal:0 comparator:code:0 unit:string:0 system:uri:0 code:code:0",
    "Reference": "reference:string:0 type:uri:0 identifier:Identifier:0 display:string:0",
    "Annotation": "authorString:string:0 time:dateTime:0 text:markdown:1",
}
_ELEMENTS = {
    kind: {name: (of, least, most) for name, of, least, most in re.findall(r"(\w+):(\w+):(\d)(\*?)", text)}
    for kind, text in TYPES.items()
}
_RESOURCES = ("Bundle", "Observation", "DiagnosticReport", "Patient", "Specimen", "ServiceRequest")


def faults(text):
    """What of a Bundle's JSON isn't as published."""
    data = json.loads(text, parse_float=decimal.Decimal, parse_int=decimal.Decimal, object_pairs_hook=_once)
    return [*_of("Bundle", data, "Bundle"), *_of_bundle(data)]


def _once(pairs):
    names = [name for name, _ in pairs]
    assert len(set(names)) == len(names), f"a name is there twice: {names}"
    return dict(pairs)


def _of(kind, data, where):
    """What is wrong with an element and below it."""
    if kind == "decimal":
        return [] if isinstance(data, decimal.Decimal) else [f"{where}: {data!r} is no number"]
    if kind in PRIMITIVES:
        good = isinstance(data, str) and PRIMITIVES[kind].fullmatch(data)
        return [] if good else [f"{where}: {data!r} is no {kind}"]
    if not isinstance(data, dict) or not data:
        return [f"{where}: {data!r} is no {kind}"]
    if kind == "Resource":
        kind = data.get("resourceType") if data.get("resourceType") in _RESOURCES else "Observation"
    told, known = [], _ELEMENTS[kind]
    if kind in _RESOURCES and data.get("resourceType") != kind:
        told.append(f"{where}: it is no {kind}")
    for name, value in data.items():
        if name == "resourceType" and kind in _RESOURCES:
            continue
        if name not in known:
            told.append(f"{where}: there is no {name} in a {kind}")
            continue
        of, _, many = known[name]
        if isinstance(value, list) != bool(many) or value == []:
            told.append(f"{where}.{name}: it is there once, or a list, and not the other")
            continue
        for one in value if many else [value]:
            told += _of(of, one, f"{where}.{name}")
            codes = CODES.get(f"{kind}.{name}")
            if codes is not None and one not in codes.split():
                told.append(f"{where}.{name}: {one!r} is none of its codes")
    needed = [name for name, (_, least, _) in known.items() if least == "1"]
    told += [f"{where}: {name} is missing" for name in needed if name not in data]
    return told + _invariants(kind, data, where)


def _invariants(kind, data, where):
    """Those of a type (obs-3, obs-6, obs-7, ref-1, ele-1), and that a choice is there once."""
    told = []
    values = [name for name in data if name.startswith("value") and name != "value"]
    if kind == "Observation":
        if len(values) > 1 or len([name for name in data if name.startswith("effective")]) > 1:
            told.append(f"{where}: a choice is there twice")
        if values and "dataAbsentReason" in data:
            told.append(f"{where}: obs-6: a value, and why there is none")
    if kind == "ReferenceRange" and not {"low", "high", "text"} & set(data):
        told.append(f"{where}: obs-3: neither low, high nor text")
    if kind == "ReferenceRange" and any("comparator" in data.get(name, {}) for name in ("low", "high")):
        told.append(f"{where}: sqty-1: a simple quantity has no comparator")
    if kind == "ServiceRequest" and "orderDetail" in data and "code" not in data:
        told.append(f"{where}: prr-1: details of no code")
    codes = SYSTEMS.get(str(data.get("system", "")).rpartition("/")[2]) if kind == "Coding" else None
    if codes is not None and data.get("code") not in codes.split():
        told.append(f"{where}: {data.get('code')!r} is no code of {data['system']}")
    if kind == "Quantity" and "code" in data and "system" not in data:
        told.append(f"{where}: qty-3: a code of a unit needs its system")
    return told


def _of_bundle(data):
    """The invariants of a Bundle: bdl-1, 3, 4 and 7 to 9."""
    entries, told = data.get("entry", []), []
    if data.get("type") in ("transaction", "batch"):
        told += ["bdl-3: an entry without a request" for one in entries if "request" not in one]
    elif any("request" in one for one in entries):
        told.append("bdl-3: a request in a Bundle that is no transaction")
    urls = [one.get("fullUrl") for one in entries]
    if len(set(urls)) != len(urls):
        told.append("bdl-7: a fullUrl is there twice")
    kinds = {one.get("fullUrl"): one.get("resource", {}).get("resourceType") for one in entries}
    for one in entries:
        resource = one.get("resource", {})
        told += [f"a reference to {it}, which isn't in the Bundle" for it in _references(resource) if it not in urls]
        if resource.get("resourceType") in _RESOURCES:
            told += _wrong_targets(resource["resourceType"], resource, kinds)
    if any("/_history/" in str(one) for one in urls):
        told.append("bdl-8: a fullUrl with a version")
    return told


def _wrong_targets(kind, data, kinds):
    """The references below an element that lead to another kind of resource than they may."""
    told = []
    for name, value in data.items():
        of = _ELEMENTS[kind].get(name, ("",))[0]
        for one in (value if isinstance(value, list) else [value]) if of in TYPES else ():
            found = kinds.get(one.get("reference")) or one.get("type") if of == "Reference" else None
            if found and found not in TARGETS[f"{kind}.{name}"].split():
                told.append(f"{kind}.{name} leads to a {found}")
            told += _wrong_targets(of, one, kinds) if isinstance(one, dict) else []
    return told


def _references(data):
    """The references below an element."""
    if isinstance(data, list):
        return [one for each in data for one in _references(each)]
    if not isinstance(data, dict):
        return []
    own = [data["reference"]] if isinstance(data.get("reference"), str) else []
    return own + [one for each in data.values() for one in _references(each)]
