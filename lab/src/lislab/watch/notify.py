"""Runs a command once when a line turns bad, and once when it is good again."""
import os
import queue
import subprocess
import threading
from typing import Any, Callable, Dict, List, Mapping, Tuple

from ..diagnosis.verdicts import Verdict

#: How long a command has, in seconds; what may be bad until somebody does something about it.
SECONDS, _STAYS = 60.0, Verdict.FAILED_ORDERS.key


class Notifier:
    """Runs a command for each line that turns bad, or good again, one after another. A command that fails is reported,
    and not run again."""

    def __init__(self, words: List[str], say: Callable[[str], None]) -> None:
        self._words, self._say = words, say
        self._bad: Dict[str, str] = {}
        self._due: "queue.SimpleQueue[Tuple[str, Dict[str, str]]]" = queue.SimpleQueue()

    def start(self) -> None:
        """Runs what is due from now on."""
        threading.Thread(target=self._run, name="notify", daemon=True).start()

    def see(self, data: Mapping[str, Any]) -> None:
        """What is seen now. A host that doesn't run is a line without a name; of its lines nothing is known then."""
        lines = dict(data["lines"]) if data["running"] else {}
        lines[""] = {"state": "good" if data["running"] else "bad", "verdict": "host-down", "says": "the host runs"}
        if not data["running"]:
            lines[""]["says"] = "the host doesn't answer" if data["held"] else "the host isn't running"
        lines.update(data.get("deliveries", {}))
        self._see(lines)

    def see_nothing(self, why: str) -> None:
        """Neither the host answers, nor its store."""
        self._see(
            {"": {"state": "bad", "verdict": "host-down", "says": f"the host doesn't answer, nor its store: {why}"}}
        )

    def _see(self, lines: Mapping[str, Any]) -> None:
        for name, one in lines.items():
            is_bad, before = one["state"] == "bad", self._bad.get(name)
            if is_bad:
                # Orders that have failed may stay for days: what else goes wrong meanwhile is worth a run of its own.
                if before is None or (before == _STAYS and one["verdict"] != _STAYS):
                    self._add(name, "bad", one["verdict"], one["says"])
                self._bad[name] = one["verdict"]
            elif self._bad.pop(name, None) is not None:
                self._add(name, "good", one["verdict"], one["says"])

    def _add(self, name: str, state: str, verdict: str, says: str) -> None:
        about = {"LISLAB_LINE": name, "LISLAB_STATE": state, "LISLAB_VERDICT": verdict, "LISLAB_SAYS": says}
        clean = {key: text.replace("\0", "") for key, text in about.items()}
        self._due.put((f"{name}: {state}", clean))

    def _run(self) -> None:
        while True:
            self._run_one(*self._due.get())

    def run_due(self) -> None:
        """Runs what is due."""
        while not self._due.empty():
            self._run_one(*self._due.get())

    def _run_one(self, what: str, about: Dict[str, str]) -> None:
        env = {**os.environ, **about}
        try:
            done = subprocess.run(self._words, stdin=subprocess.DEVNULL, env=env, timeout=SECONDS, check=False)
            if done.returncode:
                self._say(f"{what}: {self._words[0]} ended with status {done.returncode}")
        except (OSError, subprocess.TimeoutExpired) as error:
            self._say(f"{what}: {error}")
