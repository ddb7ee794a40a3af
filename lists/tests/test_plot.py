"""Pictures."""

import unittest
from xml.dom import minidom

from lists import engine, plot, text
from lists.engine import HOME, STAGES, Moment


def listed(given):
    return text.read(given)[0]


class Pictures(unittest.TestCase):
    def test_marks(self):
        found, frames = plot.marks(
            listed(
                "open voices=3 usual\ntrigger 1 legato\nframes 5\nrelease 1\njoin 2 from 1\nframes 6\n"
                "timing usual\nsettings all usual\nsettings 0 usual\nreset 0\n"
            )
        )
        self.assertEqual(frames, 11)
        self.assertEqual(
            [tuple(mark) for mark in found],
            [
                (0, 1, "trigger legato"),
                (5, 1, "release"),
                (5, 2, "join 1"),
                (11, None, "timing"),
                (11, None, "settings"),
                (11, 0, "settings"),
                (11, 0, "reset"),
            ],
        )

    def test_axes(self):
        opened = "open voices=1 usual rate={}\n"
        for given, label in [
            (opened.format("1000"), "time in milliseconds, at 1000 frames a second"),
            (opened.format("10"), "time in seconds, at 10 frames a second"),
            (
                opened.format("1000") + "timing usual rate=1000 tempo=90",
                "time in milliseconds, at 1000 frames a second",
            ),
            (opened.format("1000") + "timing usual", "time in frames"),
            (opened.format("nan"), "time in frames"),
            (opened.format("-1"), "time in frames"),
            (opened.format("0"), "time in frames"),
        ]:
            self.assertEqual(plot.axis(listed(given), 200).label, label)

    def test_stages_and_levels(self):
        half, one = 0x3F000000, 0x3F800000
        moments = [Moment(0, [2], [0]), Moment(1, [2], [half]), Moment(2, [3], [one]), Moment(3, [3], [one])]
        picture = plot.draw("<a & b>", [7], moments, [], plot.Axis(3, 1, "time in frames"))
        document = minidom.parseString(picture)
        lines = [
            (line.getAttribute("stroke"), line.getAttribute("points"))
            for line in document.getElementsByTagName("polyline")
        ]
        tall = 120 - plot.STRIP
        low, middle, high = (
            f"{94 + tall * (1.04 - level) / 1.08:.2f}".rstrip("0").rstrip(".") for level in (0, 0.5, 1)
        )
        self.assertEqual(
            lines,
            [
                (plot.COLOURS[2], f"56,{low} 349.33,{middle} 642.67,{high}"),
                (plot.COLOURS[3], f"642.67,{high} 936,{high}"),
            ],
        )
        said = [node.firstChild.data for node in document.getElementsByTagName("text")]
        self.assertLess({"<a & b>", "voice 7", "level", "time in frames", *STAGES}, set(said))

    def test_nothing_to_draw(self):
        for given in ("open voices=0 usual\nframes 5\n", "open voices=1 usual\n"):
            data = listed(given)
            voices = list(range(data[3]))
            found, frames = plot.marks(data)
            told = engine.moments(engine.program("replay"), data, voices, 1)
            minidom.parseString(plot.draw("none", voices, told, found, plot.axis(data, frames)))

    def test_examples_are_as_drawn(self):
        replay = engine.program("replay")
        for name, voices in [
            ("first", [0]),
            ("chord", [0, 1, 2, 3]),
            ("retrigger", [0, 1]),
            ("joined", [0, 1]),
            ("retimed", [0, 21, 42, 63]),
        ]:
            data = listed((HOME / "examples" / f"{name}.txt").read_text())
            found, frames = plot.marks(data)
            picture = plot.draw(name, voices, engine.moments(replay, data, voices, 1), found, plot.axis(data, frames))
            self.assertEqual((HOME / "examples" / f"{name}.svg").read_text(), picture, name)
