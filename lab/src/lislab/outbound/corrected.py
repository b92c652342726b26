"""Results that would undo a correction: an analyzer sends a result again that it has corrected since, and a system that
goes by what comes last would have the old one as the final one. So they are left out."""
import array
import bisect
import contextlib
from typing import Callable, Counter, Dict, FrozenSet, Iterator, List, NamedTuple, Optional, Set, Tuple

from lislink.message import Entry
from lislink.records import MessageError, Reader
from ..model.failures import Quarantined
from ..model.results import Reading, code_of, content_of, field_text, first_text, has_clock, identities_of
from ..model.results import in_its_letters, may_correct, parts_of, time_of
from ..model.said import many
from ..model.samples import sample_or_patient, samples_of
from ..model.store import COMPLETE, Store, Stored
from .ahead import SMALL
from .deliver import Target
from .export import CORRECTED, Form, Writer, writer_of

#: Among how many messages before one corrections are looked for, and the results that these correct. Of how many
#: samples the corrections are held in memory, and how many results of such samples.
LOOKED, MOST, RESULTS = 50_000, 10_000, 100_000
#: Blanks for what is in no word.
_WORDS = bytes(one if chr(one).isalnum() and one < 128 else 32 for one in range(256))
#: When an order was requested, and its sample collected and received; when its results were reported.
_TIMES, _REPORTED = (7, 8, 15), 23
#: The number of a message and that of a record in it. A line and a sample of it, or a patient without a sample.
Place = Tuple[int, int]
Key = Tuple[str, str]
#: What a result says: its test, value and unit, whether it is cancelled, and its times.
_Content = Tuple[Tuple[str, ...], Tuple[str, ...]]


class _Result(NamedTuple):
    """A result: where it is, its sample, the identities of its patient, its test, what it says, its times, whether one
    of these has a time of day, and when it was reported (O-23, H-14), which is another time if it is sent again."""

    place: Place
    key: Key
    patient: FrozenSet[str]
    test: str
    value: Tuple[str, ...]
    times: Tuple[str, ...]
    is_correction: bool
    is_timed: bool
    reported: Tuple[str, str]

    def may_be_of(self, patient: FrozenSet[str]) -> bool:
        """Whether it may be a result of this patient: one of the two has no identity, or they share one."""
        return not (patient and self.patient) or bool(patient & self.patient)

    def is_of(self, one: "_Result") -> bool:
        """Whether it may be a result of the same test as another one."""
        return (self.key, self.test) == (one.key, one.test) and self.may_be_of(one.patient)

    def says(self, one: "_Result") -> bool:
        """Whether it says the same as another result."""
        return (self.value, self.times) == (one.value, one.times)

    def was_before(self, last: "_Result", earlier: "Iterator[_Result]") -> Optional[bool]:
        """Whether this correction came before the last one, among the earlier ones: None if none of these says the
        same, or the last one does. It did if it has another time than the last one; else if it was reported at the same
        time as an earlier one."""
        reported = [] if self.says(last) else [one.reported for one in earlier if self.says(one)]
        if not reported:
            return None
        has_own_time = self.is_timed and self.times != last.times
        return has_own_time or (self.reported in reported and any(map(has_clock, self.reported)))


def _results_of(one: Stored, reading: Reading) -> Iterator[_Result]:
    """The results of a message, as far as it can be read. A record is read at a time."""
    one = in_its_letters(one, reading)
    header = above = order = None  # type: Optional[Entry]
    with Reader() as reader, contextlib.suppress(MessageError):
        for number, row in enumerate(reader.feed(one.body), 1):
            entry = Entry(row, number, one.encoding)
            header = header or entry
            if row.letter in "PQ":
                above, order = entry, None
            elif row.letter == "O":
                order = entry
            elif row.letter == "R" and above is not None and order is not None:
                yield _result_of((one.number or 0, number), one.line, (header, above, order, entry), reading)


def _result_of(place: Place, line: str, records: Tuple[Entry, Entry, Entry, Entry], reading: Reading) -> _Result:
    """A result of these records: the header, the patient, the order, and its own."""
    header, above, order, entry = records
    status, at = field_text(entry, 9), time_of(first_text(entry, 13)) or time_of(first_text(entry, 12))
    times = [at] if has_clock(at) else [at, *(field_text(order, number) for number in _TIMES)]
    value = ["^".join(parts_of(entry, 3)), content_of(entry, 4), content_of(entry, 5), "X" if status == "X" else ""]
    return _Result(
        place,
        (line, sample_or_patient(order, above, reading)),
        frozenset(one.value for one in identities_of(above, reading).values()) if above.letter == "P" else frozenset(),
        code_of(entry, 3, reading),
        tuple(value),
        tuple(times),
        status == "C",
        any(map(has_clock, times)),
        (field_text(order, _REPORTED), field_text(header, 14)),
    )


class _Samples:
    """Which messages are about a sample: 16 bytes for each sample of a message, among the last messages."""

    def __init__(self, store: Store, reading: Callable[[str], Reading]) -> None:
        self._store, self._reading, self._last = store, reading, -1
        self._hashes, self._numbers = array.array("q"), array.array("q")

    def numbers(self, key: Key, after: int, last: int) -> List[int]:
        """The numbers of the messages about a sample, above one number and up to another one."""
        self._look(last)
        start, wanted = bisect.bisect(self._numbers, after), hash(key)
        found = zip(self._hashes[start:], self._numbers[start:])
        return [number for each, number in found if each == wanted and number <= last]

    def _look(self, last: int) -> None:
        """Looks at the messages up to a number, as far as it hasn't."""
        if self._last < 0:
            self._last = self._store.number_before(last - 1, LOOKED)
        for one in self._store.messages(self._last) if self._last < last else ():
            if one.number is None or one.number > last:
                break
            for sample in samples_of(one, self._reading(one.line)):
                self._hashes.append(hash((one.line, sample)))
                self._numbers.append(one.number)
            self._last = one.number
        if len(self._numbers) > 2 * LOOKED:
            del self._hashes[:-LOOKED], self._numbers[:-LOOKED]


class _History:
    """The results of a sample up to the message of a number: where each came first, whose it was, and when it was
    reported."""

    def __init__(self) -> None:
        self.last = 0
        self._firsts: Dict[_Content, Dict[Tuple[FrozenSet[str], Tuple[str, str]], Place]] = {}

    def add(self, one: _Result) -> None:
        """Adds a result."""
        firsts = self._firsts.setdefault((one.value, one.times), {})
        firsts.setdefault((one.patient, one.reported), one.place)

    def had(self, one: _Result, place: Place) -> Optional[bool]:
        """Whether the same result came before a place: None if none did that says the same. By a time of day it is the
        same; without one only if it was reported at the same time."""
        found = self._firsts.get((one.value, one.times), {}).items()
        told = [reported for (patient, reported), first in found if first < place and one.may_be_of(patient)]
        return one.is_timed or (one.reported in told and any(map(has_clock, one.reported))) if told else None


class Corrections:
    """The corrections in a store, and by them the results of a message that are old."""

    def __init__(self, store: Store, reading: Callable[[str], Reading], header_time: Optional[bool]) -> None:
        self._store, self._reading, self._header_time = store, reading, header_time
        #: What is left out of a message, by its key, and how many results.
        self._left: Dict[str, Tuple[str, int]] = {}
        self._forget()

    def _forget(self) -> None:
        """Forgets the messages that were looked at."""
        #: All messages after the first number and up to the second one were looked at.
        self._first = self._last = -1
        #: The corrections of each sample, in order; a word of each sample, which its messages have; all these words.
        self._found: Dict[Key, List[_Result]] = {}
        self._word_of: Dict[Key, bytes] = {}
        self._words: Set[bytes] = set()
        self._samples = _Samples(self._store, self._reading)
        self._histories: Dict[Key, _History] = {}
        self._held = 0
        #: How the records of lines were read.
        self._readings: Dict[str, Reading] = {}

    def over(self, messages: Iterator[Stored]) -> Iterator[Stored]:
        """The messages of a store from one on, in turn: each is looked at first."""
        is_first = True
        for one in messages:
            number = one.number or 0
            self._renew(one)
            if is_first:
                self._look(number - 1, number - 1)
            if number > self._last:
                self._note(one)
            is_first = False
            yield one

    def _renew(self, one: Stored) -> None:
        """Looks at all messages up to this one anew if the settings of its line have changed, because samples and tests
        may have other names by them."""
        reading, number = self._reading(one.line), one.number or 0
        if self._readings.setdefault(one.line, reading) == reading:
            return
        self._forget()
        self._readings[one.line] = reading
        self._look(number - 1, number)

    def _look(self, first: int, last: int) -> None:
        """Looks at the messages between two, as far as none did; the first time at those before them, too."""
        if self._last < 0:
            self._first = self._last = self._store.number_before(last, LOOKED)
        for start, end in ((first, self._first), (self._last, last)):
            for one in self._store.messages(start) if start < end else ():
                if one.number is None or one.number > end:
                    break
                self._note(one)
        self._first, self._last = min(first, self._first), max(last, self._last)

    def _note(self, one: Stored) -> None:
        """Looks at a message."""
        self._last = max(self._last, one.number or 0)
        if not may_correct(one.body):
            return
        for result in _results_of(one, self._reading(one.line)):
            if result.is_correction:
                bisect.insort(self._found.setdefault(result.key, []), result)
                words = _words_of(result.key[1].encode(one.encoding, "replace"))
                self._word_of[result.key] = words[0] if words and words[0] in one.body else b""
                self._words.add(self._word_of[result.key])
        if len(self._found) > 2 * MOST:
            for key in list(self._found)[: len(self._found) - MOST]:
                del self._found[key], self._word_of[key]
            self._words = set(self._word_of.values())

    def _may_have(self, body: bytes) -> bool:
        """Whether a message may be about a sample that has a correction."""
        if not self._words or b"" in self._words or len(body) > SMALL:
            return bool(self._words)
        return not self._words.isdisjoint(_words_of(body))

    def writer(self, form: Form) -> Writer:
        """Writes messages in a form without what is old; nothing of those that are old."""
        write = writer_of(form)

        def made(one: Optional[Stored]) -> bytes:
            rest = one if one is None or one.state != COMPLETE else self._rest(one)
            if rest is one or rest is None:
                return write(one)
            return writer_of(form._replace(whole=one))(rest) if rest.body else b""

        return made

    def _rest(self, one: Stored) -> Stored:
        """A message without its old results; without any bytes if it is an old repeat."""
        self._left.pop(one.key, None)
        self._renew(one)
        number, first = one.number or 0, None if one.again_of is None else self._store.message(one.again_of)
        start = number - 1 if number > self._first else self._store.number_before(number - 1, LOOKED)
        self._look(start if first is None or first.number is None else first.number, number - 1)
        if not self._may_have(one.body):
            return one
        results = [each for each in _results_of(one, self._reading(one.line)) if each.key in self._found]
        if first is not None and first.number is not None:
            since = [it.place[0] for key in {each.key for each in results} for it in self._found[key]]
            undone = next((each for each in sorted(since) if first.number < each < number), None)
            if undone is not None:
                why = f"it repeats {one.again_of}, which message {undone} corrects"
                self._left[one.key] = f"message {number} {one.key} is left out: {why}", 0
                return one._replace(body=b"")
        old = {each.place[1]: self._undone(each) for each in results}
        for by in [each for each in results if each.is_correction and old[each.place[1]]]:
            for each in results:  # what an old correction corrects in its own message is old too
                if each.place < by.place and not each.is_correction and each.is_of(by):
                    old[each.place[1]] = old[by.place[1]]
        records = {record for record, undone in old.items() if undone}
        if not records:
            return one
        why = f"corrected since by message {', '.join(str(each) for each in sorted(set(old.values()) - {0}))}"
        left = many(len(records), "result is", "results are")
        self._left[one.key] = f"message {number} {one.key}: {left} left out, {why}", len(records)
        return one._replace(body=_without(one, records))

    def _undone(self, one: _Result) -> int:
        """The number of the message that corrects a result, if the result is old; else 0. `Quarantined` if no one can
        say whether it is."""
        before = (each for each in reversed(self._found[one.key]) if each.place < one.place and each.is_of(one))
        last = next(before, None)
        if last is None:
            return 0
        had = one.was_before(last, before) if one.is_correction else self._history(one).had(one, last.place)
        if had is None or (not had and self._header_time):
            return 0
        if not had and self._header_time is None:
            what = f"is it new, or the one that message {last.place[0]} corrects?"
            which = "Its times don't tell: set H-14=counts or H-14=ignored"
            raise Quarantined(f"result, record {one.place[1]} of the message: {what} {which}")
        return last.place[0]

    def _history(self, one: _Result) -> _History:
        """The results of a result's sample, up to its message."""
        history, number = self._histories.setdefault(one.key, _History()), one.place[0]
        for each in self._samples.numbers(one.key, history.last, number):
            for stored in self._store.messages(each - 1, 1):
                for result in _results_of(stored, self._reading(stored.line)):
                    if result.key == one.key:
                        history.add(result)
                        self._held += 1
        history.last = max(history.last, number)
        if self._held > RESULTS:
            self._histories, self._held = {}, 0
        return history

    def said(self, key: str) -> Tuple[str, int]:
        """What was left out of a message that is delivered, and how many results; an empty text if nothing was."""
        return self._left.pop(key, ("", 0))


def _words_of(data: bytes) -> List[bytes]:
    """The words of a text: letters and digits of ASCII."""
    return data.translate(_WORDS).split()


def _without(one: Stored, records: Set[int]) -> bytes:
    """A message without these results and their comments, and without the orders that have no others."""
    rows: List[bytes] = []
    order, has_lost, has_kept, is_old = 0, False, False, False
    with Reader() as reader, contextlib.suppress(MessageError):
        for number, row in enumerate(reader.feed(one.body), 1):
            if row.letter == "R":
                is_old = number in records
                has_lost, has_kept = has_lost or is_old, has_kept or not is_old
            elif row.letter not in "CMS":
                if has_lost and not has_kept:
                    del rows[order:]
                order, has_lost, has_kept, is_old = len(rows), False, False, False
            if not is_old:
                rows.append(row.text + b"\r")
    return b"".join(rows)


def without(target: Target, corrections: Corrections, counts: "Counter[str]", say: Callable[[str], None]) -> Target:
    """Delivers messages of which something was left out as others, and then says so; also of what the form leaves out
    because its own message corrects it."""

    def deliver(one: Stored) -> bool:
        before = counts[CORRECTED]
        is_handed = target(one)
        own, (text, count) = counts[CORRECTED] - before, corrections.said(one.key)
        if own:
            left = many(own, "result is", "results are")
            say(f"message {one.number} {one.key}: {left} left out, corrected further on in it")
        if text:
            counts[CORRECTED] += count
            say(text)
        return is_handed

    return deliver
