"""Lists as text and back."""

import unittest

from lists import records, text
from lists.engine import HOME
from lists.tests import samples


class RoundTrips(unittest.TestCase):
    def both_ways(self, data):
        written = text.write(data)
        self.assertEqual(text.read(written)[0], data)
        self.assertEqual(text.write(text.read(written)[0]), written)

    def test_fixed_lists(self):
        lists = samples.fixed()
        self.assertGreater(len(lists), 200)
        for data in lists:
            self.both_ways(data)

    def test_random_lists(self):
        for data in samples.drawn(11, 10_000):
            self.both_ways(data)

    def test_examples(self):
        for name in samples.EXAMPLES:
            self.both_ways(text.read((HOME / "examples" / f"{name}.txt").read_text())[0])

    def test_no_bytes(self):
        self.both_ways(b"")
        self.assertEqual(text.read("# nothing\n\n"), (b"", []))


class Written(unittest.TestCase):
    def test_sample(self):
        sample = (HOME / "examples" / "sample.list").read_bytes()
        self.assertEqual(
            text.write(sample),
            "open voices=1 usual rate=1000 delay=2 attack=4 hold=1 decay=2 sustain=0.5 release=2 decay_curve=0.5\n"
            "    release_curve=0.5\n"
            "trigger 0 new\n"
            "frames 10\n",
        )

    def test_damaged(self):
        for data, written in [
            (b"\x0a\x01\x00\x07", "# no tag 10 (refusal 7)\nbytes 0a 01 00 07\n"),
            (b"\x06\x02\x00\x00\x00", "# length 2, not 1 (refusal 8)\nbytes 06 02 00 00 00\n"),
            (b"\x05\x02\x00\x00\x03", "# no kind 3 (refusal 10)\nbytes 05 02 00 00 03\n"),
            (b"\x06\x01\x00\x02\x09", "release 2\n# cut short (refusal 6)\nbytes 09\n"),
        ]:
            self.assertEqual(text.write(data), written)


class Read(unittest.TestCase):
    def test_names_and_folded_lines(self):
        defined = (
            "define flute usual attack=20  # of its own\n"
            "\n"
            "open voices=2 flute\n"
            "# between\n"
            "\trate=1000\r\n"
            "    sustain=0.5\n"
            "settings all flute sustain=0x1p-1\n"
        )
        plain = "open voices=2 usual rate=1000 attack=20 sustain=0.5\n" "settings all usual attack=20 sustain=0.5\n"
        self.assertEqual(text.write(text.read(defined)[0]), plain)

    def test_milliseconds(self):
        given = "open voices=1 usual\nframes 250ms\ntiming usual rate=44100\nframes 2.5ms\n"
        with self.assertRaises(text.TextError):
            text.read(given)
        data, _ = text.read(given.replace("2.5ms", "10ms"))
        self.assertIn("frames 12000\n", text.write(data))
        self.assertIn("frames 441\n", text.write(data))

    def test_chords(self):
        for chord, voices in [
            ("3", [3]),
            ("0,4,7", [0, 4, 7]),
            ("7,0,4", [7, 0, 4]),
            ("0-3", [0, 1, 2, 3]),
            ("0,4-7", [0, 4, 5, 6, 7]),
            ("9,2-2,4-5,0", [9, 2, 4, 5, 0]),
            ("0-63", range(64)),
            # Whether the bank has them is for the engine to say.
            ("200,254-255", [200, 254, 255]),
        ]:
            for kind in records.KIND.names:
                single = "".join(f"trigger {voice} {kind}\n" for voice in voices)
                data, _ = text.read(f"trigger {chord} {kind}\n")
                self.assertEqual(data, text.read(single)[0])
                self.assertEqual(text.write(data), single)

    def test_lines_of_records(self):
        _, lines = text.read("# one\nopen voices=1 usual\n    rate=1000\ndefine a usual\n\ntrigger 0 new\nframes 10")
        self.assertEqual(lines, [(0, 2), (75, 6), (80, 7)])
        # All triggers of a chord are of its line.
        _, lines = text.read("open voices=4 usual\n\ntrigger 0,2-3\n    new\nframes 10")
        self.assertEqual(lines, [(0, 1), (75, 3), (90, 5)])

    def test_what_is_wrong(self):
        opened = "open voices=1 usual\n"
        names = "open, settings, timing, trigger, release, reset, join, frames, bytes, define"
        several = "expected a voice from 0 to 255, or several as 0,3-5"
        comma = "expected a voice on each side of a comma, without a space"
        for given, line, wrong in [
            ("strike 0", 1, f"expected {names}, not 'strike'"),
            ("  frames 1", 1, "expected a record at the line's first column; an indented line goes on with one"),
            ("open", 1, "expected voices=, and the record ends"),
            ("open 1", 1, "expected voices=, not '1'"),
            ("open voices=256 usual", 1, "expected a whole number from 0 to 255, not 'voices=256'"),
            ("open voices=1 rate=1000", 1, "expected tempo=, or the word usual in front for all that is not given"),
            ("open voices=1 flute", 1, "expected usual, a defined name or a field such as rate=, not 'flute'"),
            (
                opened + "    atack=3",
                2,
                "expected a field (rate, tempo, scale, unit, delay, attack, hold, decay, sustain, release, "
                "attack_curve, decay_curve, release_curve, start, end, legato_inverted, restart) and =, not 'atack=3'",
            ),
            (opened + "    attack=3\n    attack=4", 3, "expected attack= once"),
            (
                opened + "    attack=fast",
                2,
                "attack: expected a number such as 0.5, 1e-3, 0x1.8p-3, inf, nan or bits:7fc00000, not 'fast'",
            ),
            (opened + "    unit=s", 2, "unit: expected ms or beats, not 's'"),
            ("timing usual attack=3", 1, "expected a field (rate, tempo, scale) and =, not 'attack=3'"),
            ("trigger", 1, f"{several}, and the record ends"),
            ("trigger x new", 1, f"{several}, not 'x'"),
            ("trigger 256 new", 1, f"{several}, not '256'"),
            ("trigger 0,4-256 new", 1, f"{several}, not '0,4-256'"),
            ("trigger 3- new", 1, f"{several}, not '3-'"),
            ("trigger -3 new", 1, f"{several}, not '-3'"),
            ("trigger 1-2-3 new", 1, f"{several}, not '1-2-3'"),
            ("trigger 0,,3 new", 1, f"{comma}, not '0,,3'"),
            ("trigger ,3 new", 1, f"{comma}, not ',3'"),
            ("trigger 0, 3 new", 1, f"{comma}, not '0,'"),
            ("trigger 0 ,3 new", 1, "expected new or retrigger or legato, not ',3'"),
            ("trigger 0,7-4 new", 1, "expected the lower voice of a range first, not '0,7-4'"),
            ("trigger 4,0,7,0 new", 1, "expected voice 0 once, not '4,0,7,0'"),
            (opened + "trigger\n    2,1-3 new", 3, "expected voice 2 once, not '2,1-3'"),
            ("trigger 200,200 new", 1, "expected voice 200 once, not '200,200'"),
            ("trigger 0-64 new", 1, "expected at most 64 voices, not '0-64'"),
            ("trigger 0-63,0 new", 1, "expected at most 64 voices, not '0-63,0'"),
            ("trigger 0,4", 1, "expected new, retrigger or legato, and the record ends"),
            ("trigger 0,4 old", 1, "expected new or retrigger or legato, not 'old'"),
            ("release 0,4", 1, "expected a whole number from 0 to 255, not '0,4'"),
            ("trigger 0", 1, "expected new, retrigger or legato, and the record ends"),
            ("trigger 0 old", 1, "expected new or retrigger or legato, not 'old'"),
            ("release 0 1", 1, "expected the end of the record, not '1'"),
            ("join 1 0", 1, "expected from, not '0'"),
            ("frames 4294967296", 1, "expected a whole number from 0 to 4294967295, not '4294967296'"),
            ("frames 10ms", 1, "expected a number of frames, since there is no rate for milliseconds, not '10ms'"),
            (opened + "frames 0.01ms", 2, "expected a whole number of frames at rate 48000, not '0.01ms'"),
            ("bytes 1", 1, "expected a byte of two hexadecimal digits, in lowercase, not '1'"),
            ("bytes", 1, "expected bytes of two hexadecimal digits, and the record ends"),
            ("define usual attack=3", 1, "expected a new name, and 'usual' has a meaning already"),
            ("define 8 usual", 1, "expected a name of letters, digits, _ and -, not '8'"),
        ]:
            with self.assertRaises(text.TextError) as raised:
                text.read(given)
            self.assertEqual((raised.exception.line, str(raised.exception)), (line, wrong))
