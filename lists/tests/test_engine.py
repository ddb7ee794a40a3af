"""The programs: what `play` and `replay` say of the same lists."""

import unittest

from lists import engine, records, text
from lists.engine import HOME, Refused
from lists.tests import samples

# Longer lists are left to the comparison with the Rust. No list of so few frames is refused by 11.
MOST_FRAMES = 256


class Programs(unittest.TestCase):
    def setUp(self):
        self.play = engine.program("play")
        self.replay = engine.program("replay")
        self.met = set()

    def same(self, data):
        """Both programs give the same levels, or refuse the list by the same number at the same place."""
        if records.extent(data)[1] > MOST_FRAMES:
            return
        try:
            frames = engine.play(self.play, data)
        except Refused as refused:
            self.met.add(refused.refusal)
            with self.assertRaises(Refused) as raised:
                engine.check(self.replay, data)
            self.assertEqual((raised.exception.refusal, raised.exception.at), (refused.refusal, refused.at))
            return
        self.met.add(0)
        engine.check(self.replay, data)
        told = engine.moments(self.replay, data, list(range(data[3])), 1)
        self.assertEqual([moment.levels for moment in told[:-1]] if data[3] else frames, frames)

    def test_fixed_lists(self):
        for data in samples.fixed():
            self.same(data)
        self.assertEqual(self.met, {0, 1, 2, 3, 4, 6, 7, 8, 9, 10})

    def test_random_lists(self):
        for data in samples.drawn(12, 1_000):
            self.same(data)
        self.assertLessEqual({0, 1, 2, 3, 4, 6, 9, 10}, self.met)

    def test_examples(self):
        for name in samples.EXAMPLES:
            self.same(text.read((HOME / "examples" / f"{name}.txt").read_text())[0])
        self.assertEqual(self.met, {0})

    def test_sample_by_stages(self):
        data = (HOME / "examples" / "sample.list").read_bytes()
        told = engine.moments(self.replay, data, [0], 1)
        stages = [engine.STAGES[moment.stages[0]] for moment in told]
        self.assertEqual(stages, ["Delay"] * 2 + ["Attack"] * 4 + ["Hold"] + ["Decay"] * 2 + ["Sustain"] * 2)

    def test_too_long(self):
        for data in (bytes(16385), text.read("open voices=17 usual\nframes 513\n")[0]):
            with self.assertRaises(engine.TooLong):
                engine.play(self.play, data)

    def test_moments_of_a_long_take(self):
        data, _ = text.read("open voices=64 usual\ntrigger 0 new\nframes 10000\nrelease 0\nframes 5\n")
        told = engine.moments(self.replay, data, [0, 63], 4000)
        self.assertEqual([moment.frame for moment in told], [0, 4000, 8000, 10000, 10005])
        self.assertEqual([moment.stages[1] for moment in told], [0] * 5)
