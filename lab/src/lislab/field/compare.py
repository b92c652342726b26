"""What a change of a file of records does to its results: their fields before and after are compared."""
import bisect
import re
import string
from collections import Counter
from typing import Iterator, List, NamedTuple, Optional, Tuple

from lislink.rows import Row, marks_of
from ..diagnosis.endings import ending_of
from ..diagnosis.faults import words

#: What is between the halves of a record that goes on in the next frame.
_JOINT = re.compile(rb"\x17(?:[0-9A-Fa-f]{2})?(?:\r\n|\r|\n)?\x06?\x02[0-7]?")
#: Bytes that pad a record or a file: they are no part of a value.
_FILL = b"\0\x1a"


class Result(NamedTuple):
    """What a result means: its fields, those of its order and of its patient from the third on. The bytes are those of
    a record without escapes, with the first three delimiters before them; a delimiter that a value has is after NUL."""

    fields: bytes
    order: bytes
    patient: bytes


class Placed(NamedTuple):
    """A result, the place of its first byte, and its bytes."""

    result: Result
    place: int
    text: bytes


def _meaning(text: bytes, four: bytes, skip: int) -> bytes:
    """What a record means, without so many fields at its beginning and without the empty ones at its end."""
    escape = four[3:4]
    if escape and escape in text:
        row = Row(chr(text[0]), text, marks_of(four), text.count(four[:1]), None)
        protect = re.compile(b"[\0" + re.escape(four[:3]) + b"]")
        fields = (row.field(number) for number in range(2, row.count + 2))
        parts = ([[protect.sub(b"\0\\g<0>", one) for one in some] for some in field] for field in fields)
        told = (four[1:2].join(four[2:3].join(some) for some in field) for field in parts)
        text = four[:1].join([text[:1], *told])
    elif b"\0" in text:
        text = text.replace(b"\0", b"\0\0")
    bare = text.split(four[:1], skip)
    return four[:3] + bare[skip].rstrip(four[:1]) if len(bare) > skip else four[:3]


def _delimiters(header: bytes) -> Optional[bytes]:
    """The delimiters of a header as it means them: field, repeat, component, escape, or the first three."""
    if re.match(rb"[Hh]\|\^~\\&(?:\||$)", header):
        return b"|~^\\"
    mark = header[1:2]
    four = header[1:4] if header[4:5] in (mark, b"") else header[1:5]
    return four if len(set(four)) == len(four) >= 3 and all(chr(one) in string.punctuation for one in four) else None


def _pieces(data: bytes) -> Iterator[Tuple[int, bytes]]:
    """The records of a file of any dialect, each with its place: a record ends at CR, LF, a byte of the link or a word
    for CR, and may have blanks or a frame's number before its letter."""
    ending = ending_of(data)
    ends = [(0, 0)] + [(one.start(), one.end()) for one in re.finditer(rb"[\r\n\x02-\x06\x15]|\x17", data)]
    if ending is not None:
        ends = sorted(ends + [(one.start(), one.end()) for one in ending.places.finditer(data)])
    for (_, start), (end, _) in zip(ends, ends[1:] + [(len(data), len(data))]):
        found = re.match(rb"[ \t\0\x1a]*(?:[0-7](?=[A-Za-z][^0-9A-Za-z]))?", data[start:end])
        skip = found.end() if found else 0
        yield start + skip, data[start + skip : max(start, end)].rstrip(_FILL)


def _plain(data: bytes) -> bytes:
    """The bytes of a file, one for each character, with the halves of records put together."""
    code = "utf-16" if data[:2] in (b"\xff\xfe", b"\xfe\xff") else None
    if code is None and data.count(0) * 3 > len(data):
        code = "utf-16-le" if data[1::2].count(0) > data[::2].count(0) else "utf-16-be"
    if code is not None:
        text = data.decode(code, "replace")
        data = text.encode("latin-1") if all(ord(one) < 256 for one in text) else text.encode("utf-8")
    return _JOINT.sub(b"", data[3 if data[:3] == b"\xef\xbb\xbf" else 0 :])


def _results(records: Iterator[Tuple[int, bytes]]) -> Iterator[Placed]:
    four: bytes = b"|\\^&"
    order = patient = four[:3]
    for place, text in records:
        letter = text[:1].upper()
        if letter == b"H" and len(text) > 3 and not text[1:2].isalnum():
            four = _delimiters(text) or four
            order = patient = four[:3]
        elif letter in (b"P", b"O", b"R") and text[1:2] == four[:1]:
            if letter == b"P":
                patient, order = _meaning(text, four, 2), four[:3]
            elif letter == b"O":
                order = _meaning(text, four, 2)
            else:
                yield Placed(Result(_meaning(text, four, 1), order, patient), place, text)


def results_before(data: bytes) -> List[Placed]:
    """The results that a person sees in a file of any dialect."""
    return list(_results(_pieces(_plain(data))))


def results_after(data: bytes) -> List[Placed]:
    """The results that a reader sees: each record ends in CR, and begins at its letter."""
    at, records = 0, []
    for text in data.split(b"\r"):
        records.append((at, text))
        at += len(text) + 1
    return list(_results(iter(records)))


def is_one_record(text: bytes, mark: bytes) -> bool:
    """Whether these bytes are a record, and no other one seems to begin within them: after LF or another end of a
    record, or where a CR was lost."""
    mark = re.escape(mark)
    begins, within = (re.compile(one, re.I) for one in (rb"[HPORCQMSL]" + mark, rb"[HPORQL]%b\d{1,4}%b" % (mark, mark)))
    is_one = sum(begins.match(one) is not None for _, one in _pieces(text)) == 1
    return is_one and within.search(text, 1) is None


def is_joined(text: bytes, four: bytes) -> bool:
    """Whether a patient, an order, a query or the last record seems to begin within a record whose CR is missing."""
    mark = re.escape(four[:1])
    before = rb"[^%b]" % re.escape(four)
    return re.search(rb"%b(?:[POQ]%b\d{1,4}%b|L%b1(?:%b|$))" % (before, mark, mark, mark, mark), text, re.I) is not None


def gone_of_results(before: bytes, after: bytes) -> Optional[int]:
    """How many results are gone; None if another one is changed, new or elsewhere."""
    seen, left = results_before(before), results_after(after)
    rest = iter(seen)
    is_same = all(any(one.result == each.result for each in rest) for one in left)
    return len(seen) - len(left) if is_same else None


def changes_of_results(before: bytes, after: bytes) -> Iterator[Tuple[int, str]]:
    """Each result that is gone, changed or new: its line, or 0, and what became of it."""
    seen, left = results_before(before), results_after(after)
    gone = Counter(one.result for one in seen) - Counter(one.result for one in left)
    new = Counter(one.result for one in left) - Counter(one.result for one in seen)
    if not gone and not new:
        if [one.result for one in seen] != [one.result for one in left]:
            yield 0, "the results are in another order"
        return
    others = [one for one in left if new[one.result] > 0 and not new.subtract([one.result])]
    ends, number = [one.end() for one in re.finditer(rb"\r\n|\r|\n", _plain(before))], 0
    for one in seen:
        if gone[one.result] <= 0:
            continue
        gone[one.result] -= 1
        line = bisect.bisect_right(ends, one.place) + 1
        if number < len(others):
            yield line, _difference(one, others[number])
            number += 1
        else:
            yield line, f"a result is gone: '{words(one.text, 60)}'"
    for other in others[number:]:
        yield 0, f"a result that the file doesn't have is there: '{words(other.text, 60)}'"


def _difference(one: Placed, other: Placed) -> str:
    """What differs in a result."""
    if one.result.fields == other.result.fields:
        what = "order" if one.result.order != other.result.order else "patient"
        return f"a result has another {what} above it: '{words(one.text, 60)}'"
    return f"a result is changed: '{words(one.text, 60)}' is now '{words(other.text, 60)}'"
