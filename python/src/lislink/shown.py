"""A field as one text, or as its repeats and components; neither loses anything.

In the text components are joined by ^ and repeats by a backslash, whatever delimiters the message has. Escapes are
decoded, but for those without which two values would look alike: ^ within a value is `&S&`, a backslash `&R&`, and
`&H&` and `&N&` are the marks of highlighting. Where an & would be read as one of these, it is `&E&`.
"""
import re
from typing import Iterator, List, Tuple, Union

from .rows import Row

#: A field as its parts: a text, its components, or its repeats as lists of components.
Parts = Union[str, List[str], List[List[str]]]
_SPECIAL = (b"^", b"\\", b"&")
_KEPT = re.compile(r"(&[SREHN]&)")
_NAMES = {"^": "&S&", "\\": "&R&"}


def _runs(row: Row, data: bytes, encoding: str) -> Iterator[Tuple[bool, str]]:
    """The texts of a component as they mean, and the marks of highlighting between them, which are True."""
    escape, cut = re.escape(row.delimiters[3:]), 0
    for found in re.finditer(escape + rb"([HNFSRE]|X(?:[0-9A-Fa-f]{2})+)" + escape, data):
        if found[1] in (b"H", b"N"):
            yield False, row.meaning(data[cut : found.start()]).decode(encoding, "replace")
            yield True, f"&{found[1].decode()}&"
            cut = found.end()
    yield False, row.meaning(data[cut:]).decode(encoding, "replace")


def _text(row: Row, data: bytes, encoding: str, names: "dict[str, str]") -> str:
    """A component as text, in which these characters have these names."""
    if row.delimiters[3:] not in data and not any(one in data for one in _SPECIAL):
        return data.decode(encoding, "replace")
    runs = list(_runs(row, data, encoding))
    bare = "".join(text if is_mark else _named(text, names) for is_mark, text in runs)
    full = "".join(text if is_mark else _named(text, {"&": "&E&", **names}) for is_mark, text in runs)
    again = "".join(one if _KEPT.fullmatch(one) else one.replace("&", "&E&") for one in _KEPT.split(bare))
    return bare if again == full else full


def _named(text: str, names: "dict[str, str]") -> str:
    return "".join(names.get(one, one) for one in text)


def _repeats(row: Row, number: int) -> List[List[bytes]]:
    _, repeat, component, _ = (row.delimiters[at : at + 1] for at in range(4))
    return [one.split(component) for one in row.written(number).split(repeat)]


def as_text(row: Row, number: int, encoding: str) -> str:
    """A field as one text; empty if there is none."""
    data = row.written(number)
    if not any(bytes([one]) in data for one in row.delimiters[1:]):
        return _text(row, data, encoding, _NAMES)
    return "\\".join("^".join(_text(row, one, encoding, _NAMES) for one in some) for some in _repeats(row, number))


def as_parts(row: Row, number: int, encoding: str) -> Parts:
    """A field as its repeats, these as lists of components; only the components if it has one repeat, and one text if
    it has one component."""
    told = [[_text(row, one, encoding, {}) for one in some] for some in _repeats(row, number)]
    if len(told) > 1:
        return told
    return told[0] if len(told[0]) > 1 else told[0][0]


def component_text(row: Row, number: int, component: int, encoding: str, in_text: bool) -> str:
    """A component of a field's first repeat, counted from 0, as it is in the field's text or in its parts; empty if
    there is none."""
    some = _repeats(row, number)[0]
    return _text(row, some[component], encoding, _NAMES if in_text else {}) if component < len(some) else ""
