"""The proved library liblislink, found and called by ctypes. It is loaded at the first call that needs it.

It is looked for in this order: the file that LISLINK_LIBRARY names, the folder of this file, `build/` of the
repository that this file belongs to, `lib/` of the Python's and the usual prefixes, and the system's loader.
"""
import ctypes
import os
import sys
from typing import Any, Callable, Dict, List, Optional, Tuple

_POINTER, _SIZE, _BYTE, _FLAG, _COUNT = (
    ctypes.c_void_p,
    ctypes.c_size_t,
    ctypes.c_uint8,
    ctypes.c_bool,
    ctypes.c_uint64,
)


class Handle(ctypes.Structure):
    _fields_ = [("at", ctypes.c_void_p)]


class Bytes(ctypes.Structure):
    _fields_ = [("len", ctypes.c_size_t), ("bytes", ctypes.c_uint8 * 247)]


class Place(ctypes.Structure):
    _fields_ = [("index", ctypes.c_size_t), ("place", ctypes.c_size_t)]


class SignalOut(ctypes.Structure):
    _fields_ = [
        ("kind", ctypes.c_uint8),
        ("number", ctypes.c_uint8),
        ("last", ctypes.c_bool),
        ("fault", ctypes.c_uint8),
        ("place", ctypes.c_size_t),
        ("len", ctypes.c_size_t),
        ("text", ctypes.c_uint8 * 240),
    ]


class StepOut(ctypes.Structure):
    _fields_ = [
        ("reply", ctypes.c_uint8),
        ("has_text", ctypes.c_bool),
        ("note", ctypes.c_uint8),
        ("detail", ctypes.c_uint8),
        ("place", ctypes.c_size_t),
    ]


class AnswerOut(ctypes.Structure):
    _fields_ = [("is_step", ctypes.c_bool), ("send", Bytes), ("step", StepOut)]


class Delimiters(ctypes.Structure):
    _fields_ = [(name, ctypes.c_uint8) for name in ("field", "repeat", "component", "escape")]


class Found(ctypes.Structure):
    _fields_ = [
        ("kind", ctypes.c_uint8),
        ("letter", ctypes.c_uint8),
        ("reason", ctypes.c_uint8),
        ("detail", ctypes.c_uint8),
        ("fields", ctypes.c_size_t),
        ("place", ctypes.c_size_t),
        ("number", ctypes.c_uint64),
    ]


class Table(ctypes.Structure):
    _fields_ = [("count", ctypes.c_size_t), ("len", ctypes.c_size_t), ("delimiters", Delimiters)]


class MessageOut(ctypes.Structure):
    _fields_ = [("count", ctypes.c_size_t), ("len", ctypes.c_size_t), ("delimiters", Delimiters)]


class RecordOut(ctypes.Structure):
    _fields_ = [("letter", ctypes.c_uint8), ("fields", ctypes.c_size_t), ("place", ctypes.c_size_t)]


# What each call returns, and what it takes.
_CALLS: Dict[str, Any] = {
    "frame_write": (_BYTE, _BYTE, _FLAG, _POINTER, _SIZE, _POINTER, _POINTER),
    "long_frame_write": (_BYTE, _BYTE, _FLAG, _POINTER, _SIZE, _POINTER, _SIZE, _POINTER, _POINTER),
    "scanner_set_limit": (_BYTE, _POINTER, _SIZE),
    "scanner_feed": (_SIZE, _POINTER, _POINTER, _SIZE, _POINTER),
    "scanner_text_len": (_SIZE, _POINTER),
    "scanner_text": (_BYTE, _POINTER, _POINTER, _SIZE),
    "header_read": (_BYTE, _POINTER, _SIZE, _POINTER, _POINTER),
    "record_read": (_BYTE, _POINTER, _POINTER, _SIZE, _POINTER),
    "header_part": (_BYTE, _POINTER, _SIZE, _SIZE, _SIZE, _SIZE, _POINTER, _SIZE, _POINTER),
    "record_part": (_BYTE, _POINTER, _POINTER, _SIZE, _SIZE, _SIZE, _SIZE, _POINTER, _SIZE, _POINTER),
    "reader_read": (_SIZE, _POINTER, _POINTER, _SIZE, _POINTER),
    "reader_records": (_SIZE, _POINTER, _POINTER, _SIZE, _POINTER, _SIZE, _POINTER, _SIZE, _POINTER),
    "part_decode": (_BYTE, _POINTER, _POINTER, _SIZE, _POINTER, _SIZE, _POINTER),
    "reader_part": (_BYTE, _POINTER, _SIZE, _SIZE, _SIZE, _POINTER, _SIZE, _POINTER),
    "reader_parts": (_BYTE, _POINTER, _POINTER, _SIZE, _POINTER),
    "reader_text": (_BYTE, _POINTER, _POINTER, _SIZE, _POINTER),
    "reader_columns": (
        *(_SIZE, _POINTER, _POINTER, _SIZE, _BYTE),
        *(_POINTER, _SIZE, _POINTER, _SIZE, _POINTER, _SIZE, _POINTER, _POINTER),
    ),
    "reader_finish": (_BYTE, _POINTER, _POINTER),
    "reader_resume": (_FLAG, _POINTER),
    "header_find": (_SIZE, _POINTER, _SIZE, _POINTER),
    "message_places": (_BYTE, _POINTER, _SIZE, _POINTER, _SIZE, _POINTER, _POINTER),
    "writer_start": (_BYTE, _POINTER, _POINTER),
    "writer_record": (_BYTE, _POINTER, _BYTE),
    "writer_component": (_BYTE, _POINTER, _POINTER, _SIZE),
    "writer_repeat": (_BYTE, _POINTER, _POINTER, _SIZE),
    "writer_field": (_BYTE, _POINTER, _POINTER, _SIZE),
    "writer_put": (_BYTE, _POINTER, _POINTER),
    "writer_texts": (_SIZE, _POINTER),
    "writer_text_len": (_SIZE, _POINTER, _SIZE),
    "writer_text": (_BYTE, _POINTER, _SIZE, _POINTER, _SIZE, _POINTER),
    "sender_set_limit": (_BYTE, _POINTER, _SIZE),
    "sender_frame": (_BYTE, _POINTER, _POINTER, _SIZE, _POINTER),
    "text_check": (_BYTE, _POINTER, _SIZE, _POINTER),
    "sender_add_text": (_BYTE, _POINTER, _POINTER, _SIZE),
    "sender_clear": (None, _POINTER),
    "sender_start": (_BYTE, _POINTER, _POINTER, _POINTER),
    "sender_reply": (None, _POINTER, _BYTE, _POINTER),
    "sender_timer": (None, _POINTER, _POINTER),
    "sender_restart": (None, _POINTER),
    "sender_timer_seconds": (_FLAG, _POINTER, _POINTER),
    "sender_phase": (_BYTE, _POINTER),
    "sender_outcome": (_BYTE, _POINTER),
    "sender_acknowledged": (_COUNT, _POINTER),
    "receiver_set_limit": (_BYTE, _POINTER, _SIZE),
    "receiver_hear": (_SIZE, _POINTER, _POINTER, _SIZE, _POINTER),
    "receiver_timer": (None, _POINTER, _POINTER),
    "receiver_restart": (None, _POINTER),
    "receiver_set_room": (None, _POINTER, _FLAG),
    "receiver_set_ready": (_BYTE, _POINTER, _BYTE),
    "receiver_reserve": (_BYTE, _POINTER, _COUNT),
    "receiver_set_text_limit": (_BYTE, _POINTER, _SIZE),
    "receiver_set_careful": (None, _POINTER, _FLAG),
    "receiver_noise": (_COUNT, _POINTER),
    "receiver_is_open": (_FLAG, _POINTER),
    "receiver_accepted": (_COUNT, _POINTER),
    "receiver_held": (_COUNT, _POINTER),
    "receiver_text_len": (_SIZE, _POINTER),
    "receiver_text": (_BYTE, _POINTER, _POINTER, _SIZE),
    "station_begin": (_BYTE, _POINTER, _BYTE, _SIZE),
    "station_add_text": (_BYTE, _POINTER, _POINTER, _SIZE),
    "station_clear": (None, _POINTER),
    "station_start": (_BYTE, _POINTER, _POINTER, _POINTER),
    "station_hear": (_SIZE, _POINTER, _POINTER, _SIZE, _POINTER),
    "station_frame": (_BYTE, _POINTER, _POINTER, _SIZE, _POINTER),
    "station_timer": (None, _POINTER, _POINTER),
    "station_timer_seconds": (_FLAG, _POINTER, _POINTER),
    "station_give_up": (None, _POINTER),
    "station_close_line": (None, _POINTER),
    "station_restart": (None, _POINTER),
    "station_set_ready": (None, _POINTER, _FLAG),
    "station_ask_turn": (None, _POINTER),
    "station_turn_asked": (_FLAG, _POINTER),
    "station_turn_seconds": (ctypes.c_uint32, _POINTER),
    "station_set_careful": (None, _POINTER, _FLAG),
    "station_noise": (_COUNT, _POINTER),
    "station_awaits_reply": (_FLAG, _POINTER),
    "station_reserve": (_BYTE, _POINTER, _COUNT),
    "station_phase": (_BYTE, _POINTER),
    "station_outcome": (_BYTE, _POINTER),
    "station_acknowledged": (_COUNT, _POINTER),
    "station_is_open": (_FLAG, _POINTER),
    "station_accepted": (_COUNT, _POINTER),
    "station_held": (_COUNT, _POINTER),
    "station_text_len": (_SIZE, _POINTER),
    "station_text": (_BYTE, _POINTER, _POINTER, _SIZE),
    "status_text": (ctypes.c_char_p, _BYTE),
    "reason_text": (ctypes.c_char_p, _BYTE),
}
for _kind in ("scanner", "sender", "receiver", "station", "reader", "writer"):
    _CALLS.update(
        {
            f"{_kind}_size": (_SIZE,),
            f"{_kind}_align": (_SIZE,),
            f"{_kind}_init": (None, _POINTER),
            f"{_kind}_end": (None, Handle),
        }
    )

_NAME = "liblislink.so"
Calls = Dict[str, Callable[..., Any]]
_calls: Optional[Calls] = None
_of_kinds: Dict[str, Tuple[Calls, Calls]] = {}


class LibraryMissing(ImportError):
    """The shared library isn't there, or isn't the one that this package calls."""


def places() -> List[str]:
    """The files that may be the library, in the order in which they are tried."""
    here = os.path.dirname(os.path.abspath(__file__))
    repository = os.path.dirname(os.path.dirname(os.path.dirname(here)))
    found = [os.path.join(here, _NAME), os.path.join(repository, "build", _NAME)]
    found += [os.path.join(prefix, "lib", _NAME) for prefix in (sys.prefix, "/usr/local", "/usr")]
    return [path for path in found if os.path.exists(path)]


def _load(loads: Callable[[str], ctypes.CDLL] = ctypes.CDLL) -> Calls:
    named = os.environ.get("LISLINK_LIBRARY")
    path = named or (places() or [_NAME])[0]
    try:
        library, found = loads(path), {}
        for name, (answer, *takes) in _CALLS.items():
            call = getattr(library, f"lis_{name}")
            call.restype, call.argtypes = answer, takes
            found[name] = call
        return found
    except (OSError, AttributeError) as error:
        raise LibraryMissing(
            f"{path}: {error}; `make` builds {_NAME}, and LISLINK_LIBRARY names it"
        ) from None


def words_of(kind: str, number: int) -> str:
    """The library's words for a status or a reason."""
    words: bytes = calls()[f"{kind}_text"](number)
    return words.decode()


def calls() -> Calls:
    """The calls of the library by their names without `lis_`; LibraryMissing if it isn't there."""
    global _calls
    if _calls is None:
        _calls = _load()
    return _calls


def calls_of(kind: str) -> Tuple[Calls, Calls]:
    """The calls of a kind of object, as `receiver`, by their names without it: for short work, in which no other thread
    of Python goes on, and for long work, in which they go on. To let them costs more than most calls take."""
    found = _of_kinds.get(kind)
    if found is None:
        quick, long = ({name[len(kind) + 1 :]: call for name, call in each.items() if name.startswith(f"{kind}_")}
                       for each in (_load(ctypes.PyDLL), calls()))
        found = _of_kinds[kind] = quick, long
    return found
