"""Programs that stop before their answer is whole: stand-ins that write a part of it."""

import subprocess
import tempfile
import unittest
from pathlib import Path

from lists import engine, text
from lists.engine import HOME

SAMPLE = (HOME / "examples" / "sample.list").read_bytes()
PRINTED = (HOME / "crates" / "play" / "stdout").read_bytes()


class Short(unittest.TestCase):
    def setUp(self):
        folder = tempfile.TemporaryDirectory()
        self.addCleanup(folder.cleanup)
        self.folder = Path(folder.name)

    def program(self, name, answer):
        """A program that reads its input, writes this and ends with status 0."""
        (self.folder / "answer").write_bytes(answer)
        path = self.folder / name
        path.write_text(f"#!/bin/sh\ncat > /dev/null\ncat '{self.folder / 'answer'}'\n")
        path.chmod(0o755)
        return path

    def test_whole(self):
        levels = engine.play(self.program("play", PRINTED), SAMPLE)
        self.assertEqual([bits for (bits,) in levels[3:5]], [0x3E800000, 0x3F000000])
        with self.assertRaises(engine.Refused) as raised:
            engine.play(self.program("play", b"refused 2 at 75\n"), SAMPLE)
        self.assertEqual((raised.exception.refusal, raised.exception.at), (2, 75))

    def test_every_part_of_what_play_prints(self):
        for end in range(0, len(PRINTED), 7):
            with self.assertRaisesRegex(engine.EngineError, "^play did not write its whole answer$"):
                engine.play(self.program("play", PRINTED[:end]), SAMPLE)

    def test_nothing_printed(self):
        opened = SAMPLE[:75]
        self.assertEqual(engine.play(self.program("play", b""), opened), [])
        for refused in (b"", opened[:-1], opened[:3] + b"\x41" + opened[4:], opened[1:], opened + opened):
            with self.assertRaisesRegex(engine.EngineError, "^play did not write its whole answer$"):
                engine.play(self.program("play", b""), refused)

    def test_other_answers(self):
        data, _ = text.read("open voices=2 usual\nframes 2\n")
        row = b" 00000000 00000000\n"
        for printed in (
            b"1" + row + b"2" + row,
            b"0" + row + b"1 00000000\n",
            b"0" + row + b"1" + row + b"2" + row,
            b"0" + row + b"01" + row,
            b"refused 2 at 7",
            b"too lo",
            b"\xff",
        ):
            with self.assertRaises(engine.EngineError):
                engine.play(self.program("play", printed), data)

    def test_replay(self):
        for length in (0, 3, 100):
            with self.assertRaisesRegex(engine.EngineError, "^replay did not write its whole answer$"):
                engine.moments(self.program("replay", bytes(length)), SAMPLE, [0], 1)

    def test_programs_that_fail(self):
        path = self.folder / "play"
        for end, said in (
            ("echo Error: full >&2; exit 1", "play stopped with status 1: Error: full"),
            ("exit 3", "play stopped with status 3"),
        ):
            path.write_text(f"#!/bin/sh\ncat > /dev/null\necho 0 3f800000\n{end}\n")
            path.chmod(0o755)
            with self.assertRaises(engine.EngineError) as raised:
                engine.play(path, SAMPLE)
            self.assertEqual(str(raised.exception), said)

    def test_status_where_nothing_can_be_written(self):
        play = engine.program("play")
        with open("/dev/full", "wb") as full:
            done = subprocess.run([play], input=SAMPLE, stdout=full, stderr=subprocess.PIPE, check=False)
            self.assertEqual(done.returncode, 1)
            self.assertIn(b"No space left on device", done.stderr)
            done = subprocess.run(
                [HOME / "worfelli", "play", HOME / "examples" / "sample.list"],
                stdout=full,
                stderr=subprocess.PIPE,
                check=False,
            )
        said = b"worfelli: standard output: No space left on device\n"
        self.assertEqual((done.returncode, done.stderr), (1, said))
