"""What a host logs about trouble on its lines: where it is and which byte or code, never the contents of a record. The
number of events of a line is limited, so that the log stays readable."""
import time
from collections import Counter
from typing import Callable, Dict, Tuple

from lislink.codes import Note
from ..model.said import about

#: The host logs so many events of a line and a kind at once, and then one every so many seconds.
AT_ONCE, SECONDS = 10, 30.0
#: The kinds of notices: lines that came, went or may not connect; messages that aren't complete; rejected frames;
#: replies that were late; sessions and bytes of which nothing was understood; codes that a table lacks; letters of
#: another encoding; noise on the line; all else.
CONNECTION, MESSAGE, FRAME, REPLY, SESSION, OTHER = "connection", "message", "frame", "reply", "session", "other"
CODES, LETTERS, NOISE = "codes", "letters", "noise"
#: The steps of a frame that is acknowledged, and of one that is rejected. A member of an enumeration has a name here if
#: each text would look it up.
ACCEPTED = Note.ACCEPTED
TAKEN = (ACCEPTED, Note.DUPLICATE)
REJECTED = (
    Note.OUT_OF_TURN,
    Note.REFUSED,
    Note.NO_ROOM,
    Note.TEXT_TOO_LONG,
    Note.TOO_MANY,
    Note.OUT_OF_MEMORY,
)


class Notices:
    """The events of all lines. If a line has too many of one kind, the host suppresses and counts them, and logs how
    many with the next event of this kind, or as soon as one would be logged again."""

    def __init__(self, say: Callable[[str], None], clock: Callable[[], float] = time.monotonic) -> None:
        self._say, self._clock = say, clock
        self._left: Dict[Tuple[str, str], float] = {}
        self._at: Dict[Tuple[str, str], float] = {}
        self._dropped: "Counter[Tuple[str, str]]" = Counter()
        #: How many events each line had of each kind, and how many of these were suppressed.
        self.counts: Dict[str, "Counter[str]"] = {}
        self.not_said: Dict[str, "Counter[str]"] = {}

    def say(self, name: str, text: str, kind: str = OTHER) -> None:
        """Logs an event of a line, or suppresses it."""
        self.counts.setdefault(name, Counter())[kind] += 1
        if not self._has_room((name, kind)):
            self._dropped[name, kind] += 1
            self.not_said.setdefault(name, Counter())[kind] += 1
            return
        dropped = self._dropped.pop((name, kind), 0)
        with about(name):
            self._say(f"{name}: {text}" + (f" ({dropped} earlier ones were suppressed)" if dropped else ""))

    def say_dropped(self, all_of_them: bool = False) -> None:
        """Logs how many events were suppressed: for lines and kinds of which one would be logged now, or for all."""
        for name, kind in list(self._dropped):
            if all_of_them or self._has_room((name, kind)):
                with about(name):
                    self._say(f"{name}: {self._dropped.pop((name, kind))} events of kind {kind} were suppressed")

    def _has_room(self, key: Tuple[str, str]) -> bool:
        """Whether another event may be logged; then it counts."""
        now = self._clock()
        left = self._left.get(key, AT_ONCE) + (now - self._at.get(key, now)) / SECONDS
        self._left[key], self._at[key] = min(left, AT_ONCE), now
        if self._left[key] < 1:
            return False
        self._left[key] -= 1
        return True
