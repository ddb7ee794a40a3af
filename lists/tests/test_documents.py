"""What README and docs/TEXT.md show is so."""

import contextlib
import io
import unittest

from lists import command, text
from lists.engine import HOME


def block(page, first):
    """The lines of the indented block that begins with this line."""
    lines = (HOME / page).read_text().split("\n")
    at = lines.index("    " + first)
    found = []
    while lines[at].startswith("    "):
        found.append(lines[at][4:])
        at += 1
    return found


class Documents(unittest.TestCase):
    def test_first_list(self):
        shown = block("README.md", "open voices=1 usual rate=1000")
        first = (HOME / "examples" / "first.txt").read_text()
        self.assertEqual(text.read("\n".join(shown)), text.read(first.split("\n", 1)[1]))

    def test_first_levels(self):
        out = io.StringIO()
        with contextlib.redirect_stdout(out):
            command.main(["play", str(HOME / "examples" / "first.txt")])
        shown = block("README.md", "frame voice 0")
        shown.remove("..")
        self.assertGreater(len(shown), 5)
        for line in shown:
            self.assertIn(line, out.getvalue().split("\n"))

    def test_text_of_a_note(self):
        shown = "\n".join(block("docs/TEXT.md", "# A note on one voice. A millisecond is 48 frames."))
        self.assertIn("frames 24000\n", text.write(text.read(shown)[0]))

    def test_chord(self):
        page = (HOME / "docs" / "TEXT.md").read_text()
        self.assertIn("| `trigger 0,4-7 new` | a chord: triggers of voices 0, 4, 5, 6 and 7, ", page)
        single = "".join(f"trigger {voice} new\n" for voice in (0, 4, 5, 6, 7))
        self.assertEqual(text.write(text.read("trigger 0,4-7 new")[0]), single)

    def test_usual_fields(self):
        page = (HOME / "docs" / "TEXT.md").read_text()
        for name, number in text.USUAL.items():
            self.assertIn(f"`{name}={number}`", page)
