"""A reader of LIS02-A2 records in plain Python, by split and re, as a writer of middleware makes it in an hour.
`bench/package` compares the package with it. It checks less than the package: forbidden bytes, lengths and most of the
hierarchy are not looked at."""
import re


class Rejected(Exception):
    """The stream can't be read."""


def unescape(delimiters):
    """What undoes the escapes of a component."""
    field, repeat, component, escape = delimiters
    meant = {b"F": field, b"S": component, b"R": repeat, b"E": escape}
    pattern = re.compile(re.escape(escape) + rb"([FSRE]|X(?:[0-9A-Fa-f]{2})+|[HN])" + re.escape(escape))

    def one(match):
        word = match[1]
        return bytes.fromhex(word[1:].decode()) if word[:1] == b"X" else meant.get(word, b"")

    return lambda text: pattern.sub(one, text) if escape in text else text


def parse_record(line, delimiters, clean):
    """The fields of a record as lists of repeats, these as lists of components."""
    field, repeat, component, _ = delimiters
    fields = line.split(field)[1:]
    if repeat in line or component in line:
        return [[[clean(c) for c in r.split(component)] for r in f.split(repeat)] for f in fields]
    return [[[clean(f)]] for f in fields]


def messages(pieces):
    """The messages of a stream, each as its records: their letters and fields."""
    rest, rows, delimiters, clean, level = b"", None, None, None, ""
    for piece in pieces:
        *lines, rest = (rest + piece).split(b"\r")
        for line in lines:
            letter = line[:1].upper().decode("latin-1")
            if rows is None:
                if letter != "H" or len(line) < 5:
                    raise Rejected("a header comes first")
                delimiters = tuple(line[i : i + 1] for i in (1, 2, 3, 4))
                if len(set(delimiters)) < 4:
                    raise Rejected("delimiters")
                clean, level = unescape(delimiters), "H"
                rows = [("H", parse_record(line[5:], delimiters, clean))]
                continue
            if letter not in "PORCQMSL" or letter == "" or line[1:2] not in (b"", delimiters[0]):
                raise Rejected(f"a record of {line[:2]!r}")
            if letter == "O" and level not in ("P", "O", "R") or letter == "R" and level not in ("O", "R"):
                raise Rejected("no parent")
            if letter in "PORQ":
                level = letter
            rows.append((letter, parse_record(line, delimiters, clean)))
            if letter == "L":
                yield rows
                rows = None
    if rest or rows is not None:
        raise Rejected("unfinished")
