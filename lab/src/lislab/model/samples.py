"""The samples that a message is about: its order among others is kept by them."""
import contextlib
from typing import FrozenSet, Optional, Set

from lislink.message import Entry
from lislink.records import MessageError, Reader
from .results import Reading, parts_of, sample_of
from .store import Stored


def samples_of(one: Stored, reading: Reading = Reading()) -> FrozenSet[str]:
    """The samples of a message's orders, as the line's settings have them; the whole field where that isn't sure, and a
    patient's identity where there is no sample. None if it names none. A record is read at a time, so that a message
    that is too large for a delivery isn't for this."""
    found: Set[str] = set()
    above: Optional[Entry] = None
    with Reader() as reader, contextlib.suppress(MessageError):
        for row in reader.feed(one.body):
            if row.letter in "PQ":
                above = Entry(row, 0, one.encoding)
            elif row.letter == "O" and above is not None:
                found.update(sample_or_patient(Entry(row, 0, one.encoding), above, reading).split("\\"))
    return frozenset(found - {""})


def sample_or_patient(order: Entry, above: Entry, reading: Reading) -> str:
    """The sample of an order, the whole field if it isn't sure; a patient's identity if there is none."""
    return sample_of(order, above, reading)[0] or "^".join(parts_of(above, 3) or parts_of(above, 4))
