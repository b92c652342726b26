"""Telnet (RFC 854) as a terminal server speaks it on its ports: the host answers its requests and removes them from the
data. Each option but BINARY (RFC 856) and SUPPRESS-GO-AHEAD (RFC 858) is rejected."""
import re
from typing import Set, Tuple

_IAC, _DONT, _DO, _WONT, _WILL, _SB, _SE = 255, 254, 253, 252, 251, 250, 240
_BINARY, _GO_AHEAD = 0, 3
_CR, _NUL = 13, 0
#: The answer to each request: if it is accepted, and if it isn't.
_ANSWERS = {_DO: (_WILL, _WONT), _DONT: (_WONT, _WONT), _WILL: (_DO, _DONT), _WONT: (_DONT, _DONT)}


class Telnet:
    """A connection on which Telnet is spoken. A request that changes nothing isn't answered, so that two ends don't
    answer each other for ever."""

    def __init__(self) -> None:
        #: Options that are on: those of this end, and those of the other one.
        self._ours: Set[int] = set()
        self._theirs: Set[int] = set()
        #: What a byte belongs to: data (0), a command (IAC), a request (its byte), an option's parameters (SB, and SE
        #: if IAC came last in them); and whether the last byte of data was CR.
        self._state, self._after_cr = 0, False

    def heard(self, data: bytes) -> Tuple[bytes, bytes]:
        """Splits received bytes: the bytes of the line, and the answer to send at once."""
        if not self._state and not self._after_cr and _IAC not in data and _CR not in data:
            return data, b""
        line, answer = bytearray(), bytearray()
        for byte in data:
            if not self._state:
                self._data(byte, line)
            elif self._state == _IAC:
                self._command(byte, line)
            elif self._state in (_SB, _SE):
                self._parameter(byte)
            else:
                answer += self._request(self._state, byte)
                self._state = 0
        return bytes(line), bytes(answer)

    def _data(self, byte: int, line: bytearray) -> None:
        was_cr, self._after_cr = self._after_cr, False
        if byte == _IAC:
            self._state, self._after_cr = _IAC, was_cr
        elif not (was_cr and byte == _NUL and _BINARY not in self._theirs):
            line.append(byte)
            self._after_cr = byte == _CR

    def _command(self, byte: int, line: bytearray) -> None:
        """The byte after IAC."""
        self._state = byte if byte in _ANSWERS or byte == _SB else 0
        if byte == _IAC:
            line.append(byte)
            self._after_cr = False

    def _parameter(self, byte: int) -> None:
        """A byte of an option's parameters, which mean nothing here."""
        if self._state == _SE:
            self._state = 0 if byte == _SE else _SB
        elif byte == _IAC:
            self._state = _SE

    def _request(self, request: int, option: int) -> bytes:
        """What is answered to a request; nothing if it changes nothing."""
        options = self._ours if request in (_DO, _DONT) else self._theirs
        is_asked, was_on = request in (_DO, _WILL), option in options
        is_on = is_asked and option in (_BINARY, _GO_AHEAD)
        if is_on == was_on and (is_on or not is_asked):
            return b""
        options.symmetric_difference_update({option} if is_on != was_on else ())
        return bytes([_IAC, _ANSWERS[request][not is_on], option])

    def written(self, data: bytes) -> bytes:
        """Bytes of the line as they are sent."""
        data = data.replace(b"\xff", b"\xff\xff")
        return data if _BINARY in self._ours else re.sub(rb"\r(?!\n)", b"\r\0", data)
