"""The encoding of records' text, and letters that look like those of another one."""
import codecs
from typing import Optional

#: The encoding of a line, a file or a capture for which none is named.
LATIN = codecs.lookup("latin-1").name
#: The names of encodings of a byte a letter, in which UTF-8 can be read without a fault.
_ONE_BYTE = ("iso8859", "cp125", "koi8", "ascii")
#: Bytes that are no letters in Latin-1.
_CONTROLS = bytes(range(0x80, 0xA0))
#: What letters are that look like those of another encoding.
UTF_8, NOT_LATIN = "those of utf-8", "not latin-1, perhaps gbk or windows-1252"


class Letters:
    """What the letters of a text look like that comes in pieces. It keeps none of them."""

    def __init__(self, encoding: str = LATIN) -> None:
        self._encoding, self._has_some, self._has_controls = encoding, False, False
        #: What reads them as UTF-8, as long as they may be that.
        self._utf_8: Optional[codecs.IncrementalDecoder] = None

    def take(self, piece: bytes) -> None:
        """Takes the next piece."""
        if not self._has_some and not piece.isascii():
            self._has_some = True
            if codecs.lookup(self._encoding).name.startswith(_ONE_BYTE):
                self._utf_8 = codecs.getincrementaldecoder("utf-8")()
        if self._has_some:
            self._has_controls = self._has_controls or len(piece.translate(None, _CONTROLS)) < len(piece)
            self._read(piece, False)

    def _read(self, piece: bytes, is_last: bool) -> None:
        try:
            if self._utf_8 is not None:
                self._utf_8.decode(piece, is_last)
        except UnicodeDecodeError:
            self._utf_8 = None

    def look(self) -> str:
        """UTF_8 or NOT_LATIN after the last piece; empty if they may be letters of the encoding."""
        self._read(b"", True)
        if self._utf_8 is not None:
            return UTF_8
        return NOT_LATIN if self._has_controls and codecs.lookup(self._encoding).name == LATIN else ""


def looks_like(text: bytes, encoding: str = LATIN) -> str:
    """The same of a whole text."""
    letters = Letters(encoding)
    letters.take(text)
    return letters.look()
