"""Object files of ELF, 64 bits, little-endian: the sections that are loaded, with their relocations."""
import struct
from typing import NamedTuple

_SECTION, _SYMBOL, _RELOCATION = struct.Struct("<IIQQQQIIQQ"), struct.Struct("<IBBHQQ"), struct.Struct("<QQq")
_SYMBOLS, _RELOCATIONS, _NO_BITS, _LOADED, _RESERVED = 2, 4, 8, 2, 0xFF00


class Section(NamedTuple):
    """A section: its name, its bytes (of one without bytes its size), and each relocation's place, kind and target."""

    name: str
    body: bytes
    relocations: tuple


def _name(data, table, at):
    begin = table[4] + at
    return data[begin:data.index(b"\0", begin)].decode()


def sections(path):
    """The sections of an object file that are loaded and hold something."""
    with open(path, "rb") as file:
        data = file.read()
    if data[:6] != b"\x7fELF\x02\x01":
        raise ValueError(f"{path} is no object file of ELF, 64 bits, little-endian")
    start, = struct.unpack_from("<Q", data, 40)
    count, names_at = struct.unpack_from("<HH", data, 60)
    table = [_SECTION.unpack_from(data, start + at * _SECTION.size) for at in range(count)]
    names = [_name(data, table[names_at], it[0]) for it in table]
    symbols = [row for it in table if it[1] == _SYMBOLS for row in _symbols(data, it, table[it[6]])]

    def target(number, more):
        """What a relocation is to: a place in a section, or a name that another file has."""
        name, section, value = symbols[number]
        return (names[section], value + more) if 0 < section < _RESERVED else (name, more)

    found = {}
    for it in table:
        if it[1] == _RELOCATIONS:
            rows = (_RELOCATION.unpack_from(data, it[4] + at) for at in range(0, it[5], _RELOCATION.size))
            found[it[7]] = tuple(sorted((place, info & 0xFFFFFFFF, target(info >> 32, more))
                                        for place, info, more in rows))
    return [Section(names[at], b"%d bytes" % it[5] if it[1] == _NO_BITS else data[it[4]:it[4] + it[5]],
                    found.get(at, ())) for at, it in enumerate(table) if it[2] & _LOADED and it[5]]


def _symbols(data, it, names):
    """Each symbol's name, section and value."""
    for at in range(0, it[5], _SYMBOL.size):
        name, _, _, section, value, _ = _SYMBOL.unpack_from(data, it[4] + at)
        yield _name(data, names, name), section, value
