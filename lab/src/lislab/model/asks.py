"""How the queries of a line are read and answered: its settings."""
import re
import shlex
from typing import Any, Callable, Dict, NamedTuple, Tuple

#: For how long an order answers again, where its line doesn't say.
DAY = 86400.0
_UNITS = {"": 1, "s": 1, "min": 60, "h": 3600, "d": 86400}


class Asks(NamedTuple):
    """How the queries of a line are read and answered."""

    #: Which component of Q-3 is the sample; 0 for the second one, after the patient, or the first that isn't empty.
    sample: int = 0
    #: Whether ALL asks for each order of the line.
    all: bool = False
    #: Which field of an order's record, 3 or 4, has what the query has from a component of Q-3 on; none if it is 0.
    echo: Tuple[int, int] = (0, 1)
    #: For how many seconds an order that was sent answers again, until its results have come.
    again: float = DAY
    #: The command that answers instead of the store.
    command: Tuple[str, ...] = ()


def _sample(word: str) -> int:
    """The component of `3` or `Q.3.3`."""
    found = re.match(r"(?:Q\.3\.)?([1-9]\d?)$", word)
    if not found:
        raise ValueError(f"{word}: the sample of a query is a component of Q-3, for example 3 or Q.3.3")
    return int(found[1])


def _all(word: str) -> bool:
    if word not in ("yes", "no"):
        raise ValueError(f"expected yes or no, not {word}")
    return word == "yes"


def _echo(word: str) -> Tuple[int, int]:
    """The field, and the first component of Q-3, of `O.3` or `O.4:4`."""
    found = re.match(r"O\.([34])(?::([1-9]\d?))?$", word)
    if not found:
        raise ValueError(
            f"{word}: expected O.3 or O.4, or with the first component of Q-3 to return, for example O.4:4"
        )
    return int(found[1]), int(found[2] or 1)


def _again(word: str) -> float:
    found = re.match(r"(\d{1,6}) ?(s|min|h|d)?$", word)
    if not found:
        raise ValueError(f"{word}: expected a time, for example 24h, 30min or 0")
    return float(int(found[1]) * _UNITS[found[2] or ""])


def _command(word: str) -> Tuple[str, ...]:
    found = tuple(shlex.split(word))
    if not found:
        raise ValueError("expected a command")
    return found


#: What reads each setting, and the part of Asks that it is.
READS: Dict[str, Tuple[str, Callable[[str], Any]]] = {
    "query-sample": ("sample", _sample),
    "query-all": ("all", _all),
    "echo": ("echo", _echo),
    "again": ("again", _again),
    "query-command": ("command", _command),
}


def told(asks: Asks) -> Dict[str, str]:
    """The settings that differ from the usual ones, as a file of lines has them."""
    field, first = asks.echo
    words = {
        "query-sample": str(asks.sample or ""),
        "query-all": "yes" if asks.all else "",
        "echo": f"O.{field}" + (f":{first}" if first > 1 else "") if field else "",
        "again": f"{asks.again:g}s" if asks.again != DAY else "",
        "query-command": shlex.join(asks.command),
    }
    return {key: word for key, word in words.items() if word}
