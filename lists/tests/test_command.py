"""The command line, as people run it."""

import subprocess
import tempfile
import unittest
from pathlib import Path

from lists import engine
from lists.engine import HOME


def setUpModule():
    """Builds the programs, so that no command says that it does."""
    engine.program("play")
    engine.program("replay")


class Commands(unittest.TestCase):
    def setUp(self):
        folder = tempfile.TemporaryDirectory()
        self.addCleanup(folder.cleanup)
        self.folder = Path(folder.name)

    def run_command(self, *words):
        done = subprocess.run([HOME / "worfelli", *words], cwd=self.folder, capture_output=True, text=True, check=False)
        return done.returncode, done.stdout, done.stderr

    def stored(self, name, given):
        (self.folder / name).write_text(given)
        return name

    def test_play(self):
        status, out, said = self.run_command("play", HOME / "examples" / "sample.list")
        self.assertEqual((status, said), (0, ""))
        self.assertEqual(
            out.splitlines()[:5],
            ["frame voice 0", "    0 0.000000", "    1 0.000000", "    2 0.000000", "    3 0.250000 " + "#" * 15],
        )
        _, out, _ = self.run_command("play", "--bits", HOME / "examples" / "sample.list")
        self.assertEqual(out, (HOME / "crates" / "play" / "stdout").read_text())
        _, out, _ = self.run_command("play", HOME / "examples" / "joined.txt")
        self.assertEqual(out.splitlines()[:2], ["frame voice 0  voice 1", "    0 0.000000 0.000000"])

    def test_play_of_chosen_voices(self):
        retimed = HOME / "examples" / "retimed.txt"
        _, out, _ = self.run_command("play", retimed, "--bits")
        whole = [line.split() for line in out.splitlines()]
        _, out, _ = self.run_command("play", retimed, "--bits", "--voices", "63,1-2")
        self.assertEqual(
            [line.split() for line in out.splitlines()], [[row[0], row[64], row[2], row[3]] for row in whole]
        )
        _, out, _ = self.run_command("play", retimed, "--bits", "--voices", "5,4-5")
        self.assertEqual(
            [line.split() for line in out.splitlines()], [[row[0], row[6], row[5], row[6]] for row in whole]
        )
        _, out, _ = self.run_command("play", retimed, "--voices", "5")
        self.assertEqual(out.splitlines()[:2], ["frame voice 5", "    0 0.000000"])

    def test_play_of_a_long_take(self):
        name = self.stored("long.txt", "open voices=2 usual\nframes 1000\ntrigger 1 new\nframes 2000\n")
        status, out, said = self.run_command("play", name)
        self.assertEqual((status, said), (0, "worfelli: 3000 frames, of which every 30th is shown (--every N)\n"))
        shown = [line.split()[0] for line in out.splitlines()]
        self.assertEqual(shown, ["frame"] + [str(frame) for frame in range(0, 3000, 30)])
        # The same note at the beginning of a list that the program play holds.
        short = self.stored("short.txt", "open voices=2 usual\ntrigger 1 new\nframes 17\n")
        level = self.run_command("play", short, "--bits")[1].split()[-1]
        status, out, said = self.run_command("play", name, "--every", "1016", "--bits")
        rows = f"0 00000000 00000000\n1016 00000000 {level}\n2032 00000000 3f800000\n"
        self.assertEqual((status, out, said), (0, rows, ""))
        status, out, said = self.run_command("play", HOME / "examples" / "sample.list", "--every", "5", "--bits")
        self.assertEqual((status, out, said), (0, "0 00000000\n5 3f400000\n", ""))

    def test_write_and_read(self):
        name = self.stored("a.txt", "open voices=1 usual # one\nframes 3\n")
        self.assertEqual(self.run_command("write", name, "a.list"), (0, "", ""))
        self.assertEqual(self.run_command("read", "a.list"), (0, "open voices=1 usual\nframes 3\n", ""))
        self.assertEqual(self.run_command("read", name), (0, "open voices=1 usual\nframes 3\n", ""))

    def test_plot(self):
        status, out, said = self.run_command("plot", HOME / "examples" / "first.txt", "a.svg")
        self.assertEqual((status, out, said), (0, "", ""))
        self.assertEqual((self.folder / "a.svg").read_text(), (HOME / "examples" / "first.svg").read_text())

    def test_what_goes_wrong(self):
        sample = HOME / "examples" / "sample.list"
        self.stored("line.txt", "open voices=1 usual\nfrmes 3\n")
        self.stored("voice.txt", "# one\nopen voices=1 usual\n\ntrigger 1 new\n")
        self.stored("chord.txt", "open voices=3 usual\ntrigger 0-2 new\n\ntrigger 2,3,1 new\nframes 3\n")
        self.stored("twice.txt", "open voices=3 usual\ntrigger 2,0-2 new\n")
        self.stored("huge.txt", "open voices=1 usual\nframes 4294967295\n")
        (self.folder / "cut.list").write_bytes(sample.read_bytes()[:-1])
        (self.folder / "byte.txt").write_bytes(b"\xff")
        records = "open, settings, timing, trigger, release, reset, join, frames, bytes, define"
        for words, said in [
            (("play", "none.txt"), "none.txt: No such file or directory"),
            (("play", "line.txt"), f"line.txt:2: expected {records}, not 'frmes'"),
            (("play", "byte.txt"), "byte.txt: expected text in UTF-8; the name of a list's bytes ends in .list"),
            (("play", "voice.txt"), "voice.txt:4: refused 2: the bank has no such voice"),
            (("play", "chord.txt"), "chord.txt:4: refused 2: the bank has no such voice"),
            (("play", "twice.txt"), "twice.txt:2: expected voice 2 once, not '2,0-2'"),
            (("play", "cut.list"), "cut.list: at byte 80: refused 6: the bytes end before the record does"),
            (("plot", "voice.txt", "a.svg"), "voice.txt:4: refused 2: the bank has no such voice"),
            (("plot", "chord.txt", "a.svg"), "chord.txt:4: refused 2: the bank has no such voice"),
            (
                ("plot", "huge.txt", "a.svg"),
                "huge.txt: 4294967295 frames of 1 voices are too long: at most 16777216 levels",
            ),
            (("play", "huge.txt"), "huge.txt: 4294967295 frames of 1 voices are too long: at most 16777216 levels"),
            (("plot", sample, "a.png"), "a.png: expected a name that ends in .svg"),
            (("plot", sample, "none/a.svg"), "none/a.svg: No such file or directory"),
            (("write", sample, "a.list"), f"{sample}: expected a text; a name that ends in .list is a list already"),
            (("write", "voice.txt", "a.bin"), "a.bin: expected a name that ends in .list"),
        ]:
            self.assertEqual(self.run_command(*words), (1, "", f"worfelli: {said}\n"))
            self.assertFalse((self.folder / "a.svg").exists())

    def test_voices_that_cannot_be_chosen(self):
        sample = HOME / "examples" / "sample.list"
        for chosen in ("0-1", "0,1", "256", "1-0", "0-", "0,,0", "x", ""):
            said = f"worfelli: --voices {chosen}: expected some of the list's 1 voices, from 0, as 0,3-5\n"
            for words in (("play", sample), ("plot", sample, "a.svg")):
                self.assertEqual(self.run_command(*words, "--voices", chosen), (1, "", said))

    def test_no_command(self):
        status, out, said = self.run_command()
        self.assertEqual((status, out), (2, ""))
        self.assertIn("usage: worfelli", said)
