"""Names of the version before. This version accepts each of them and reports the new one, once in a process."""
from typing import Dict, Set, Tuple

from .said import say

#: Keys of a lines file and settings of a line: the old name and the new one.
KEYS: Dict[str, str] = {"mend": "fix", "ask": "query-command"}
#: Values of keys.
VALUES: Dict[Tuple[str, str], str] = {("orders", "ask"): "query", ("orders", "send"): "download"}
#: Options, by the command that has them. `serve --lines N` is `--max-lines N`: only a number is meant.
OPTIONS: Dict[Tuple[str, str], str] = {
    ("serve", "--ask"): "--query-command",
    ("serve", "--lines N"): "--max-lines N",
    ("send", "--ask"): "--query",
    ("deliver", "--aside"): "--quarantine",
    ("deliver", "--again"): "--resend",
}
#: States of messages: values of `export --state`.
STATES: Dict[str, str] = {"whole": "complete", "unfinished": "incomplete", "unreadable": "invalid"}

_REPORTED: Set[str] = set()


def report(old: str, new: str) -> None:
    """Reports an old name on standard error, or in the log."""
    if old not in _REPORTED:
        _REPORTED.add(old)
        say(f"{old} is now {new}; the next version accepts only {new}")


def key_of(key: str) -> str:
    """The present name of a key."""
    new = KEYS.get(key, key)
    if new != key:
        report(key, new)
    return new


def value_of(key: str, word: str) -> str:
    """The present name of a key's value."""
    new = VALUES.get((key, word), word)
    if new != word:
        report(f"{key} = {word}", f"{key} = {new}")
    return new


def state_of(word: str) -> str:
    """The present name of a state."""
    new = STATES.get(word, word)
    if new != word:
        report(f"--state {word}", f"--state {new}")
    return new
