"""The changes of records: options of `lislab normalize` for a file, and names of the setting `fix` for a line."""
from typing import Dict

#: The changes, in the order in which they are made: the option and what it does.
CHANGES: Dict[str, str] = {
    "bom": "a byte order mark at the beginning is left out (a file in UTF-16 becomes Latin-1)",
    "nul": "NUL bytes are left out",
    "ctrl-z": "Ctrl-Z is left out",
    "cr-words": "a word for CR at the end of a record (<CR>, [CR], \\r, ^M) becomes a CR",
    "unframe": "STX, frame number, ETX or ETB, checksum, ENQ and EOT are left out around records",
    "crlf": "CR LF becomes CR",
    "lf": "LF becomes CR",
    "blank": "empty records and blanks around a record are left out",
    "header-3": "a header with three delimiters gets '&' as the fourth",
    "header-5": "the fifth byte of a header's delimiters is left out (HL7's H|^~\\& becomes H|~^\\, which means the same)",
    "bytes": "a byte that no record holds becomes its escape, for example &XFF& (FF, GS, others; not those of the link)",
    "behind-l": "records between L and the next header are left out",
    "last-cr": "the last record gets its CR",
    "last-l": "a message without an end gets L|1|N",
    "orders": "an order O|n is put above a result that has none, a patient P|n above an order: such results carry no sample",
    "long": "a result, comment or manufacturer record of over 65,536 bytes is left out, with the comments on it",
}
