"""Numbers as text, exact to the bit.

A number is held as its bits, an int, so that each NaN keeps its pattern and nothing is rounded on the
way. A decimal is rounded once, to the nearest number of its width, ties to even, and the shortest
decimal that reads back as the same bits is written.
"""

import re
import struct
from fractions import Fraction


class Width:
    """A binary format of IEEE 754."""

    def __init__(self, name, bits, precision):
        self.name = name
        self.bits = bits
        self.precision = precision
        exponents = 1 << (bits - precision)
        # The exponent of the last place of a subnormal.
        self.least = 3 - exponents // 2 - precision
        self.infinity = (exponents - 1) << (precision - 1)
        self.sign = 1 << (bits - 1)
        self.nan = self.infinity | 1 << (precision - 2)


BINARY32 = Width("binary32", 32, 24)
BINARY64 = Width("binary64", 64, 53)

EXPECTED = "a number such as 0.5, 1e-3, 0x1.8p-3, inf, nan or bits:{}"
DECIMAL = re.compile(r"(\d+(\.\d*)?|\.\d+)(e[+-]?\d{1,4})?", re.ASCII)
HEXADECIMAL = re.compile(r"0x([0-9a-f]+)(?:\.([0-9a-f]*))?p([+-]?\d{1,5})", re.ASCII)


def read(text, width):
    """The bits of the number that the text says. ValueError says what was expected."""
    if text.startswith("bits:"):
        return _read_bits(text[5:], width)
    sign, magnitude = (width.sign, text[1:]) if text.startswith("-") else (0, text)
    if magnitude == "inf":
        return sign | width.infinity
    if magnitude == "nan":
        return sign | width.nan
    if HEXADECIMAL.fullmatch(magnitude):
        return sign | _exact(_hexadecimal(magnitude), width)
    # Python's own reading would round a binary32 twice, and take more than is meant here.
    if len(text) <= 1000 and DECIMAL.fullmatch(magnitude):
        return sign | _finite(_nearest(Fraction(magnitude), width), width)
    raise ValueError(f"expected {EXPECTED.format(f'{width.nan:x}')}")


def write(bits, width):
    """The shortest text that reads back as these bits."""
    sign = "-" if bits & width.sign else ""
    magnitude = bits & ~width.sign
    if magnitude == width.infinity:
        return sign + "inf"
    if magnitude > width.infinity:
        return "nan" if bits == width.nan else f"bits:{bits:0{width.bits // 4}x}"
    return sign + _decimal(magnitude, width)


def value(bits, width):
    """The number as Python's float, which holds every binary32 and binary64."""
    if width is BINARY32:
        return struct.unpack("<f", struct.pack("<I", bits))[0]
    return struct.unpack("<d", struct.pack("<Q", bits))[0]


def _read_bits(digits, width):
    if re.fullmatch(f"[0-9a-f]{{{width.bits // 4}}}", digits):
        return int(digits, 16)
    raise ValueError(f"expected {width.bits // 4} hexadecimal digits after bits:, in lowercase")


def _hexadecimal(text):
    whole, part, exponent = HEXADECIMAL.fullmatch(text).groups()
    digits = whole + (part or "")
    return Fraction(int(digits, 16)) * Fraction(2) ** (int(exponent) - 4 * len(part or ""))


def _nearest(number, width):
    """The bits of the nearest number, ties to even; past the largest, infinity's or more."""
    if number == 0:
        return 0
    # The power of two that the number begins with.
    top = number.numerator.bit_length() - number.denominator.bit_length()
    if Fraction(2) ** top > number:
        top -= 1
    last = max(top - width.precision + 1, width.least)
    # round() takes ties to even. A sum of both parts carries into the exponent where it has to.
    return round(number / Fraction(2) ** last) + (last - width.least << width.precision - 1)


def _finite(bits, width):
    if bits >= width.infinity:
        raise ValueError(f"too large for {width.name}: expected a smaller number, or inf")
    return bits


def _exact(number, width):
    bits = _finite(_nearest(number, width), width)
    if Fraction(value(bits, width)) != number:
        raise ValueError(f"{width.name} does not have this number: expected one that it has, or a decimal")
    return bits


def _decimal(magnitude, width):
    number = value(magnitude, width)
    if width is BINARY64:
        text = repr(number)
    else:
        shorter = (f"{number:.{digits}g}" for digits in range(1, 10))
        text = next(s for s in shorter if _nearest(Fraction(s), width) == magnitude)
        # A decimal of so few digits is the shortest one of its binary64 too.
        text = repr(float(text))
    return text.removesuffix(".0")
