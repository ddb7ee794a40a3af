"""Numbers as text."""

import random
import unittest
from fractions import Fraction

from lists.floats import BINARY32, BINARY64, read, value, write


class Numbers(unittest.TestCase):
    def test_every_pattern_comes_back(self):
        source = random.Random(8)
        for width in (BINARY32, BINARY64):
            edges = [0, 1, (1 << width.precision - 1) - 1, 1 << width.precision - 1]
            edges += [width.infinity + step for step in (-1, 0, 1)] + [width.nan - 1, width.nan, width.nan + 1]
            edges += [edge | width.sign for edge in edges]
            for bits in edges + [source.getrandbits(width.bits) for _ in range(20_000)]:
                self.assertEqual(read(write(bits, width), width), bits)

    def test_texts(self):
        for bits, text in [
            (0x00000000, "0"),
            (0x80000000, "-0"),
            (0x3F2A7EFA, "0.666"),
            (0x447A0000, "1000"),
            (0x00000001, "1e-45"),
            (0x7F7FFFFF, "3.4028235e+38"),
            (0x7F800000, "inf"),
            (0xFF800000, "-inf"),
            (0x7FC00000, "nan"),
            (0xFFC00000, "bits:ffc00000"),
            (0x7F800001, "bits:7f800001"),
        ]:
            self.assertEqual(write(bits, BINARY32), text)
        self.assertEqual(write(0x40E7700000000000, BINARY64), "48000")
        self.assertEqual(write(0x7FF8000000000001, BINARY64), "bits:7ff8000000000001")

    def test_what_can_be_read(self):
        for text, bits in [
            (".5", 0x3F000000),
            ("5.", 0x40A00000),
            ("0x1.8p-3", 0x3E400000),
            ("-0x1p-149", 0x80000001),
            ("1e-400", 0),
            ("-nan", 0xFFC00000),
            ("3.4028235677973362e38", 0x7F7FFFFF),
        ]:
            self.assertEqual(read(text, BINARY32), bits, text)

    def test_rounded_once_ties_to_even(self):
        # Rounded to binary64 first, the second would be a tie, and go down to 1.
        self.assertEqual(read("1.000000059604644775390625", BINARY32), 0x3F800000)
        self.assertEqual(read("1.000000059604644775390625000001", BINARY32), 0x3F800001)
        self.assertEqual(read("1.000000178813934326171875", BINARY32), 0x3F800002)
        self.assertEqual(read("0." + "0" * 45 + "7006492321624085", BINARY32), 0)
        self.assertEqual(read("0." + "0" * 45 + "7006492321624086", BINARY32), 1)

    def test_binary64_reads_as_python_does(self):
        source = random.Random(9)
        for _ in range(5_000):
            text = f"{source.randrange(10**17)}e{source.randrange(-340, 290)}"
            self.assertEqual(value(read(text, BINARY64), BINARY64), float(text), text)

    def test_binary32_is_the_nearest(self):
        source = random.Random(10)
        for _ in range(5_000):
            text = f"{source.randrange(10**9)}e{source.randrange(-54, 28)}"
            bits = read(text, BINARY32)
            off = [abs(Fraction(value(at, BINARY32)) - Fraction(text)) for at in (max(bits - 1, 0), bits, bits + 1)]
            self.assertEqual(min(off), off[1], text)

    def test_what_cannot(self):
        number = "expected a number such as 0.5, 1e-3, 0x1.8p-3, inf, nan or bits:7fc00000"
        for text, wrong in [
            ("", number),
            ("-", number),
            ("1_0", number),
            ("+1", number),
            ("1e99999", number),
            ("\u0661", number),
            ("1e39", "too large for binary32: expected a smaller number, or inf"),
            ("3.4028235677973367e38", "too large for binary32: expected a smaller number, or inf"),
            ("0x1.0000001p0", "binary32 does not have this number: expected one that it has, or a decimal"),
            ("0x1p-150", "binary32 does not have this number: expected one that it has, or a decimal"),
            ("bits:7FC00000", "expected 8 hexadecimal digits after bits:, in lowercase"),
            ("bits:7fc", "expected 8 hexadecimal digits after bits:, in lowercase"),
        ]:
            with self.assertRaises(ValueError) as raised:
                read(text, BINARY32)
            self.assertEqual(str(raised.exception), wrong)
