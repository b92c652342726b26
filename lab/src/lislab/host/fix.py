"""Makes messages that can be delivered from messages that can't be read. A line's setting names the changes, which are
those of `lislab normalize`. Only one needs no setting: a record that is too long is left out. The message that was
received stays in the store as it is. Each fixed message is a message of its own, which lists what was changed. No
change is made that would change a result, or lose any other one."""
import hashlib
import re
from typing import FrozenSet, Iterator, List, NamedTuple, Optional, Sequence, Tuple

from lislink.message import Fault, read_all
from lislink.records import RECORD_BYTES
from ..field.compare import gone_of_results, is_joined
from ..field.normalize import Told, normalize
from ..model.options import ALWAYS, NAMES
from ..model.store import COMPLETE, FIXED, LEFT, Add, Begin, Change, End, new_key

#: Those of lines whose frames may hold LF.
LINE_FEEDS = frozenset(("lf", "crlf"))
#: The most bytes of a message that is fixed, because they are held until it ends, and its most records; and the most
#: bytes of a message for which the host tries which setting would fix it.
MOST, MOST_RECORDS, MOST_TRIED = 2 << 20, 100_000, 1 << 18
#: So many changes of a message are named one by one, first of all each record that is left out since it is too long.
MOST_NAMED = 50
#: The fixes that end a message at the end of its session; the one of them that adds an end.
_AT_THE_END, MAKES_AN_END = frozenset(("last-l", "last-cr")), frozenset(("last-l",))


class Fixed(NamedTuple):
    """The messages that are made of one that can't be read, and what was changed."""

    messages: List[bytes]
    told: List[str]


class Ended(NamedTuple):
    """A message that ended and isn't complete: how it began, its bytes, its end, and whether the analyzer ended it."""

    begin: Begin
    body: bytes
    end: End
    is_over: bool


def has_long(body: bytes) -> bool:
    """Whether a record is too long to be read."""
    return len(body) > RECORD_BYTES and any(len(one) > RECORD_BYTES for one in body.split(b"\r"))


def fixed(body: bytes, names: FrozenSet[str]) -> Optional[Fixed]:
    """The messages that these changes make; None if they aren't complete then, or if a result is another or gone, but
    for one whose record is too long."""
    out, told, _ = normalize(body, {*names, *ALWAYS})
    messages = _messages(out)
    if not messages:
        return Fixed([], list(_words(body, told))) if _is_after_l(body, names) else None
    if gone_of_results(body, out) != _long_results(body, names) or _hides_records(body, messages, names):
        return None
    return Fixed(messages, list(_words(body, told)))


def _hides_records(body: bytes, messages: Sequence[bytes], names: FrozenSet[str]) -> bool:
    """Whether CRs seem to be missing between records, so that the end that is put to a message would hide some."""
    if not names & _AT_THE_END or _messages(normalize(body, {*(names - _AT_THE_END), *ALWAYS})[0]):
        return False
    return any(is_joined(record, one[1:5]) for one in messages for record in one.split(b"\r"))


def _long_results(body: bytes, names: FrozenSet[str]) -> int:
    """How many results are too long to be read. What is within such a record, as other records that end in LF, is more
    than that."""
    if not has_long(body):
        return 0
    records = normalize(body, set(names))[0].split(b"\r")
    return sum(len(one) > RECORD_BYTES and one[:1].upper() == b"R" for one in records)


def lacking(body: bytes, names: FrozenSet[str], is_over: bool) -> List[str]:
    """The changes without which the message isn't complete, besides these, if there are such; each is tried."""
    asked, tried = names, [one for one in NAMES if is_over or one not in MAKES_AN_END]
    while not is_whole(body, asked):
        needed = normalize(body, set(asked))[2]
        fresh = [one for one in tried if one in needed and one not in asked]
        if not fresh:
            return []
        asked |= {fresh[0]}
    for name in tried:
        if name in asked - names and is_whole(body, asked - {name}):
            asked -= {name}
    return [name for name in NAMES if name in asked - names]


def is_whole(body: bytes, names: FrozenSet[str]) -> bool:
    """Whether these changes make complete messages."""
    found = fixed(body, names)
    return found is not None and bool(found.messages)


def _messages(data: bytes) -> List[bytes]:
    """The messages of these bytes; none if one of them can't be read."""
    found = list(read_all(data))
    if any(isinstance(one, Fault) for one in found):
        return []
    return [data[one.start : one.ends[-1]] for one in found if not isinstance(one, Fault)]


def _is_after_l(body: bytes, names: FrozenSet[str]) -> bool:
    """Whether this is filler that is left out, or only comments and manufacturer records that followed a message."""
    letters = {one.strip(b" \t\n")[:1].upper() for one in body.split(b"\r") if one.strip(b" \t\n")}
    are_comments = "behind-l" in names and bool(letters) and letters <= {b"C", b"M", b"S"}
    return are_comments or not normalize(body, set(names))[0]


def _words(body: bytes, told: Sequence[Told]) -> Iterator[str]:
    """What was changed, each with its records and where the first of them begins; the same of records in a row is
    one."""
    starts = [0, *(one.end() for one in re.finditer(rb"\r\n|\r|\n", body))]
    rows: List[Tuple[int, int, str, bool]] = []
    for line, what, is_long in told:
        if rows and rows[-1][2] == what and rows[-1][1] + 1 == line:
            rows[-1] = rows[-1][0], line, what, is_long
        else:
            rows.append((line, line, what, is_long))
    named = sorted(range(len(rows)), key=lambda at: not rows[at][3])[:MOST_NAMED]
    for first, last, what, _ in (rows[at] for at in sorted(named)):
        place = starts[first - 1] if first <= len(starts) else len(body)
        which = f"record {first}" if first == last else f"records {first} to {last}"
        yield f"{which}, from byte {place}: {what}"
    if len(rows) > MOST_NAMED:
        yield f"{len(rows) - MOST_NAMED} changes more"


def made_of(one: Ended, found: Fixed) -> List[Change]:
    """The changes that keep fixed messages, before the one that ends what they are made of: nothing of it is lost if
    the host dies in between."""
    changes: List[Change] = []
    keys = [new_key() for _ in found.messages]
    told = [*found.told, LEFT] if one.end.reason == LEFT else found.told
    reason = f"fixed from {one.end.key}: " + "; ".join(told)
    for key, body in zip(keys, found.messages):
        digest = hashlib.sha256(body).hexdigest()
        changes.append(one.begin._replace(key=key))
        changes.append(Add(key, 0, one.end.at, body))
        changes.append(End(key, one.end.line, COMPLETE, reason, digest, len(body), one.end.at))
    made = f"delivered as {', '.join(keys)}" if keys else "what came after L is left out"
    return [*changes, one.end._replace(reason=f"{FIXED}{made}; {one.end.reason}")]
