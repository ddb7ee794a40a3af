"""The command line."""

import argparse
import os
import sys
from pathlib import Path

from lists import engine, floats, plot, records, text

ABOUT = """\
Worfelli's event lists for people: play one, write it as text and back, and draw its levels.
A file whose name ends in .list holds a list's bytes (docs/FORMAT.md), any other one its text (docs/TEXT.md).
"""

# What is asked of replay at once, in levels: 64 MiB of them.
MOST_LEVELS = 1 << 24


class Wrong(Exception):
    """What went wrong, in one line."""


def main(given):
    """Runs the command. Its status: 0 done, 1 refused or wrong, 2 no such command."""
    arguments = _arguments().parse_args(given)
    try:
        arguments.run(arguments)
        sys.stdout.flush()
    except (Wrong, engine.EngineError) as wrong:
        print(f"worfelli: {wrong}", file=sys.stderr)
        return 1
    except BrokenPipeError:
        # Who reads has seen enough, as in `worfelli play LIST | head`.
        _shut_output()
    except OSError as wrong:
        _shut_output()
        print(f"worfelli: standard output: {wrong.strerror}", file=sys.stderr)
        return 1
    return 0


def _shut_output():
    """Nothing more goes to standard output: Python flushes once more at its exit."""
    os.dup2(os.open(os.devnull, os.O_WRONLY), sys.stdout.fileno())


def _arguments():
    parser = argparse.ArgumentParser(
        prog="worfelli", description=ABOUT, formatter_class=argparse.RawDescriptionHelpFormatter
    )
    commands = parser.add_subparsers(required=True, metavar="COMMAND")
    play = commands.add_parser("play", help="play a list and show its levels")
    play.add_argument("file", metavar="FILE", type=Path)
    play.add_argument("--bits", action="store_true", help="print each level's bits, as the program play does")
    play.add_argument("--every", metavar="N", type=_positive, help="show every Nth frame")
    play.add_argument("--voices", help="which voices, as 0,3-5 (all without it)")
    play.set_defaults(run=_play)
    write = commands.add_parser("write", help="write a text as a list")
    write.add_argument("file", metavar="TEXT", type=Path)
    write.add_argument("to", metavar="LIST", type=Path)
    write.set_defaults(run=_write)
    read = commands.add_parser("read", help="show a list as text")
    read.add_argument("file", metavar="FILE", type=Path)
    read.set_defaults(run=_read)
    drawn = commands.add_parser("plot", help="draw the levels and stages of a list's voices as an SVG")
    drawn.add_argument("file", metavar="FILE", type=Path)
    drawn.add_argument("to", metavar="PICTURE", type=Path)
    drawn.add_argument("--voices", help="which voices, as 0,3-5 (the first eight without it)")
    drawn.add_argument("--title", help="what stands above the picture (the file's name without it)")
    drawn.set_defaults(run=_plot)
    return parser


def _positive(text):
    if not text.isdecimal() or int(text) == 0:
        raise argparse.ArgumentTypeError("expected a number from 1")
    return int(text)


class Source:
    """A list from a file: its bytes, and where a refused record stands for the reader."""

    def __init__(self, path):
        self.path = path
        self.lines = None
        data = _loaded(path)
        if path.suffix == ".list":
            self.data = data
            return
        try:
            self.data, self.lines = text.read(data.decode("utf-8-sig"))
        except UnicodeDecodeError:
            raise Wrong(f"{path}: expected text in UTF-8; the name of a list's bytes ends in .list") from None
        except text.TextError as wrong:
            raise Wrong(f"{path}:{wrong.line}: {wrong}") from None

    def refused(self, refused):
        """A refusal in words, with the line of the text or the byte of the list."""
        if self.lines is None:
            return Wrong(f"{self.path}: at byte {refused.at}: {refused}")
        line = max((line for at, line in self.lines if at <= refused.at), default=1)
        return Wrong(f"{self.path}:{line}: {refused}")


def _loaded(path):
    try:
        return path.read_bytes()
    except OSError as wrong:
        raise Wrong(f"{path}: {wrong.strerror}") from None


def _stored(path, data):
    try:
        path.write_bytes(data)
    except OSError as wrong:
        raise Wrong(f"{path}: {wrong.strerror}") from None


def _play(arguments):
    source = Source(arguments.file)
    try:
        levels = engine.play(engine.program("play"), source.data)
        rows = list(enumerate(levels))[:: arguments.every or 1]
    except engine.Refused as refused:
        raise source.refused(refused) from None
    except engine.TooLong:
        rows = _rows_of_long(source, arguments.every)
    if rows and arguments.voices is not None:
        chosen = _voices(arguments.voices, len(rows[0][1]))
        rows = [(frame, [levels[voice] for voice in chosen]) for frame, levels in rows]
    else:
        chosen = range(len(rows[0][1]) if rows else 0)
    _show(chosen, rows, arguments.bits)


def _show(voices, rows, bits):
    """A line for each frame, under the voices' numbers; with a bar where there is one voice."""
    if rows and not bits:
        print(" ".join(["frame"] + [f"voice {voice:<2}" for voice in voices]).rstrip())
    show = _bits if bits else _bar if len(voices) == 1 else _levels
    for frame, levels in rows:
        print(show(frame, levels))


def _rows_of_long(source, every):
    """Frames of a list that the program play cannot hold, by replay: some hundred of them if nothing else is asked."""
    replay = engine.program("replay")
    _, frames, count = _checked(replay, source)
    step = every or -(-frames // 100)
    if every is None:
        print(f"worfelli: {frames} frames, of which every {step}th is shown (--every N)", file=sys.stderr)
    moments = engine.moments(replay, source.data, list(range(count)), step)
    return [(moment.frame, moment.levels) for moment in moments if moment.frame % step == 0 and moment.frame < frames]


def _checked(replay, source):
    """What the list sends, its frames and its voices, if it is not refused and not too long for replay."""
    try:
        engine.check(replay, source.data)
    except engine.Refused as refused:
        raise source.refused(refused) from None
    found, frames = plot.marks(source.data)
    count = source.data[records.HEAD]
    if frames * engine.stride(count) > MOST_LEVELS:
        raise Wrong(f"{source.path}: {frames} frames of {count} voices are too long: at most {MOST_LEVELS} levels")
    return found, frames, count


def _bits(frame, levels):
    return " ".join([str(frame)] + [f"{level:08x}" for level in levels])


def _levels(frame, levels):
    return " ".join([f"{frame:5}"] + [f"{floats.value(level, floats.BINARY32):8.6f}" for level in levels])


def _bar(frame, levels):
    level = floats.value(levels[0], floats.BINARY32)
    return f"{_levels(frame, levels)} {'#' * round(60 * min(max(level, 0), 1))}".rstrip()


def _write(arguments):
    if arguments.file.suffix == ".list":
        raise Wrong(f"{arguments.file}: expected a text; a name that ends in .list is a list already")
    if arguments.to.suffix != ".list":
        raise Wrong(f"{arguments.to}: expected a name that ends in .list")
    _stored(arguments.to, Source(arguments.file).data)


def _read(arguments):
    print(text.write(Source(arguments.file).data), end="")


def _plot(arguments):
    source = Source(arguments.file)
    if arguments.to.suffix != ".svg":
        raise Wrong(f"{arguments.to}: expected a name that ends in .svg")
    replay = engine.program("replay")
    found, frames, count = _checked(replay, source)
    voices = list(range(min(count, 8))) if arguments.voices is None else _voices(arguments.voices, count)
    moments = engine.moments(replay, source.data, voices, max(1, -(-frames // plot.MOST_MOMENTS)))
    title = arguments.title or arguments.file.stem
    picture = plot.draw(title, voices, moments, found, plot.axis(source.data, frames))
    _stored(arguments.to, picture.encode("utf-8"))


def _voices(given, count):
    """The voices that were chosen, as in 0,3-5; one may be chosen twice."""
    wrong = Wrong(f"--voices {given}: expected some of the list's {count} voices, from 0, as 0,3-5")
    try:
        voices = text.voices(given)
    except ValueError:
        raise wrong from None
    if max(voices) >= count:
        raise wrong
    return voices
