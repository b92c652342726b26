"""Recognizes the bytes of other protocols."""
import re
from typing import Optional


def parity_of(data: bytes) -> Optional[str]:
    """Whether all bytes carry a parity bit: `even` or `odd`; None if they don't."""
    if sum(one > 127 for one in data) < 3:
        return None
    ones = [bin(one).count("1") % 2 for one in data]
    return "even" if not any(ones) else "odd" if all(ones) else None


def is_hl7(data: bytes) -> bool:
    """Whether bytes are HL7 version 2."""
    return b"MSH|" in data or re.search(rb"\x0b[^\x1c]*\x1c\r", data) is not None


def telnet_in(data: bytes) -> int:
    """How often NUL follows CR, if no CR is without: so Telnet sends a CR that no LF follows."""
    count = len(re.findall(rb"\r\0", data))
    return count if not re.search(rb"\r[^\0\n]", data) else 0


def has_bare_frames(data: bytes) -> bool:
    """Whether bytes outside frames are frames without STX."""
    return re.search(rb"[0-7][HPORCQL][|!-/]", data) is not None
