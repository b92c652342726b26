"""Values that are numbers, perhaps after a comparator, and ranges of numbers. All are decimals: no digit is lost, none
is made up."""
import decimal
import re
from typing import NamedTuple, Optional

_DIGITS = r"[+-]?(?:\d+\.?\d*|\.\d+)(?:[eE][+-]?\d{1,3})?"
_VALUE = re.compile(rf"\s*(<=|>=|<|>|)\s*({_DIGITS})\s*$", re.ASCII)
_RANGE = re.compile(rf"\s*({_DIGITS})\s*(?:-|to|TO|To)\s*({_DIGITS})\s*$", re.ASCII)
#: As many digits as any product has.
_EXACT = decimal.Context(prec=100000, Emax=decimal.MAX_EMAX, Emin=decimal.MIN_EMIN)


class Number(NamedTuple):
    """A number, and the comparator before it: `<`, `<=`, `>`, `>=` or none."""

    comparator: str
    value: decimal.Decimal

    def text(self) -> str:
        """Its comparator and its digits."""
        return self.comparator + plain(self.value)


class Range(NamedTuple):
    """What is usual: from a number, to a number, or both."""

    low: Optional[Number]
    high: Optional[Number]

    def text(self, between: str = "-") -> str:
        """As `3.9-6.1`, `<5` or `>60`."""
        if self.low is not None and self.high is not None:
            return self.low.text() + between + self.high.text()
        one = self.high if self.low is None else self.low
        return "" if one is None else one.text()


def plain(value: decimal.Decimal) -> str:
    """A decimal's digits, without an exponent."""
    return f"{value:f}"


def number_of(text: str) -> Optional[Number]:
    """The number that a value is; None if it is no number."""
    found = _VALUE.match(text)
    return Number(found[1], decimal.Decimal(found[2])) if found else None


def range_of(text: str) -> Optional[Range]:
    """The numbers of `3.9 to 6.1`, `3.9-6.1`, `<5` or `>60`; None if it is no such range."""
    found = _RANGE.match(text)
    if found:
        low, high = (Number("", decimal.Decimal(one)) for one in found.groups())
        return Range(low, high)
    one = number_of(text)
    if one is None or not one.comparator:
        return None
    return Range(None, one) if one.comparator.startswith("<") else Range(one, None)


def times(one: Number, factor: decimal.Decimal) -> Number:
    """A number multiplied: exactly, with all its digits. A comparator turns round if the factor is below 0."""
    turned = {"<": ">", ">": "<", "<=": ">=", ">=": "<="}
    comparator = turned.get(one.comparator, "") if factor < 0 else one.comparator
    return Number(comparator, _EXACT.multiply(one.value, factor))


def rounded(one: Number, digits: int) -> Number:
    """A number with so many digits after the point: half to even."""
    return one._replace(value=_EXACT.quantize(one.value, decimal.Decimal(1).scaleb(-digits)))
