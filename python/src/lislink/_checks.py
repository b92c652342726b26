"""Checks the arguments of callers, because ctypes would wrap numbers and accept text in place of bytes."""
from typing import Any, Iterator


def as_bytes(data: Any) -> bytes:
    """The bytes of bytes, bytearray or memoryview; TypeError for anything else, text and numbers too."""
    if isinstance(data, bytes):
        return data
    if isinstance(data, (bytearray, memoryview)):
        return bytes(data)
    raise TypeError(f"bytes are needed, not {type(data).__name__}")


def as_pieces(data: Any) -> Iterator[bytes]:
    """The pieces of bytes, which are one, or of several; TypeError for anything else."""
    if isinstance(data, (bytes, bytearray, memoryview)):
        return iter((bytes(data),))
    return map(as_bytes, data)


def as_number(value: Any, least: int, most: int, what: str) -> int:
    """A whole number within these bounds; TypeError or ValueError for anything else, True and False too."""
    if isinstance(value, bool) or not isinstance(value, int):
        raise TypeError(f"{what}: a whole number is needed, not {type(value).__name__}")
    if not least <= value <= most:
        raise ValueError(f"{what}: {int(value)} isn't from {least} to {most}")
    return int(value)


def as_flag(value: Any, what: str) -> bool:
    """True or False; TypeError for anything else."""
    if not isinstance(value, bool):
        raise TypeError(f"{what}: True or False is needed, not {type(value).__name__}")
    return value
