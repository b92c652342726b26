"""The metrics of a host, in Prometheus' text format (version 0.0.4)."""
from typing import Any, Callable, Dict, Iterable, List, Mapping, Tuple

from ..diagnosis.pulse import BUCKETS
from ..model.store import COMPLETE, INCOMPLETE, INVALID

FORM = "text/plain; version=0.0.4; charset=utf-8"
#: A sample: its value, and the values of its labels by their names.
Sample = Tuple[float, Mapping[str, str]]


def _label(text: str) -> str:
    return text.replace("\\", "\\\\").replace('"', '\\"').replace("\n", "\\n")


class Metrics:
    """Metrics in their order: the help and the type of each, and its samples."""

    def __init__(self) -> None:
        self._rows: List[str] = []

    def add(self, name: str, kind: str, words: str, samples: Iterable[Sample]) -> None:
        """A metric with its samples."""
        self._rows += [f"# HELP {name} {words}", f"# TYPE {name} {kind}"]
        for value, labels in samples:
            self.sample(name, value, labels)

    def sample(self, name: str, value: float, labels: Mapping[str, str]) -> None:
        """A sample of the metric."""
        shown = ",".join(f'{key}="{_label(text)}"' for key, text in labels.items())
        self._rows.append(f"{name}{{{shown}}} {_number(value)}" if labels else f"{name} {_number(value)}")

    def text(self) -> str:
        """All of it."""
        return "\n".join(self._rows) + "\n"


def _number(value: float) -> str:
    return str(int(value)) if float(value).is_integer() else repr(float(value))


#: What is known of the host: the metric, its type, what it is, and the host's value.
_HOST = (
    ("lislab_start_time_seconds", "gauge", "When the host started.", "begun"),
    ("lislab_commits_total", "counter", "Commits of the store.", "commits"),
    ("lislab_commits_failed_total", "counter", "Commits that failed.", "failed_commits"),
    ("lislab_refused_connections_total", "counter", "Connections that were closed at once.", "refused_connections"),
)
#: Counters of each line: the metric, what it counts, and the host's count.
_COUNTERS = (
    ("lislab_connections_total", "Connections of a line.", "connections"),
    ("lislab_sessions_total", "Sessions that began.", "sessions"),
    ("lislab_frames_total", "Frames that were accepted.", "frames"),
    ("lislab_duplicate_frames_total", "Frames that came again after they were accepted.", "duplicates"),
    ("lislab_texts_total", "Texts of frames.", "texts"),
    ("lislab_texts_not_stored_total", "Texts that could not be stored, and were not acknowledged.", "not_stored"),
    ("lislab_late_replies_total", "Replies that were not sent, since they would have been late.", "late"),
    ("lislab_noise_total", "ENQ and STX that came inside a session or a frame.", "noise"),
    ("lislab_timeouts_total", "Sessions that timed out because the analyzer sent nothing.", "timeouts"),
    ("lislab_unknown_codes_total", "Results with a code that the line's code mapping lacks.", "unknown_codes"),
    ("lislab_host_sessions_total", "Sessions of the host, which send orders.", "own_sessions"),
    ("lislab_host_sessions_failed_total", "Sessions of the host that failed.", "failed_sessions"),
)


def metrics_of(data: Mapping[str, Any], undelivered: Mapping[str, int], orders: Mapping[str, int]) -> str:
    """The metrics of a host's own state, of how many messages each delivery has still to send, and of the orders
    by their states."""
    out, lines = Metrics(), data["lines"]
    out.add("lislab_up", "gauge", "Whether the host answers.", [(int(data["running"]), {})])
    if data["running"]:
        for name, kind, words, key in _HOST:
            out.add(name, kind, words, [(data[key], {})])
        for name, words, key in _COUNTERS:
            out.add(name, "counter", words, ((one.get(key, 0), {"line": line}) for line, one in lines.items()))
        _of_lines(out, lines)
        _replies(out, lines)
    what = "Complete messages that a delivery has still to do."
    out.add("lislab_undelivered_messages", "gauge", what, ((n, {"cursor": one}) for one, n in undelivered.items()))
    found = data.get("deliveries", {}).items()
    what = "Whether a delivery fails, isn't running, or has a quarantine."
    out.add("lislab_delivery_bad", "gauge", what, ((one["state"] == "bad", {"delivery": name}) for name, one in found))
    what = "Orders in the store, by their state."
    out.add("lislab_orders", "gauge", what, ((count, {"state": state}) for state, count in orders.items()))
    return out.text()


def _of_lines(out: Metrics, lines: Dict[str, Any]) -> None:
    def add(name: str, kind: str, words: str, samples: Callable[[Any], Iterable[Sample]]) -> None:
        found = ((value, {"line": line, **more}) for line, one in lines.items() for value, more in samples(one))
        out.add(name, kind, words, found)

    def rejected(one: Any) -> Iterable[Sample]:
        return ((count, {"reason": reason}) for reason, count in sorted(one["causes"].items()))

    def ended(one: Any) -> Iterable[Sample]:
        return ((one["ended"].get(state, 0), {"state": state}) for state in (COMPLETE, INCOMPLETE, INVALID))

    def last(one: Any) -> Iterable[Sample]:
        return [] if one["last"] is None else [(one["last"], {})]

    add("lislab_frames_rejected_total", "counter", "Frames that were rejected, by the reason.", rejected)
    add("lislab_messages_total", "counter", "Messages that ended, by their state.", ended)
    add("lislab_connected", "gauge", "Connections that are open.", lambda one: [(one["connected"], {})])
    add("lislab_last_message_timestamp_seconds", "gauge", "When the last complete message was stored.", last)
    add("lislab_line_bad", "gauge", "Whether a line is bad.", lambda one: [(one["state"] == "bad", {})])


def _replies(out: Metrics, lines: Dict[str, Any]) -> None:
    name = "lislab_reply_seconds"
    out.add(name, "histogram", "How long after the bytes came a reply to them went out, at most.", [])
    for line, one in lines.items():
        total = 0
        for most, count in zip([*map("{:g}".format, BUCKETS), "+Inf"], one["replies"]):
            total += count
            out.sample(f"{name}_bucket", total, {"line": line, "le": most})
        out.sample(f"{name}_sum", one["reply_seconds"], {"line": line})
        out.sample(f"{name}_count", total, {"line": line})
