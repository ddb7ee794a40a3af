"""Draws the levels and stages of voices as an SVG: a panel for each voice over one time axis."""

from fractions import Fraction
from itertools import groupby
from typing import NamedTuple
from xml.sax.saxutils import escape

from lists import floats, records
from lists.engine import STAGES

# Okabe and Ito's colours, which colour-blind readers can tell apart.
COLOURS = ("#999999", "#56b4e9", "#009e73", "#e6c800", "#e69f00", "#0072b2", "#d55e00")

WIDTH, LEFT, RIGHT, TOP, BOTTOM = 960, 56, 24, 64, 52
ACROSS = WIDTH - LEFT - RIGHT
# Above each panel stand its voice and two rows of marks.
CAPTION, ROW, STRIP = 30, 11, 5
INK, GREY = "#222222", "#555555"
DASHED = {"stroke": GREY, "stroke_dasharray": "3 2"}
MOST_MOMENTS = 1000


class Mark(NamedTuple):
    """Something that was sent: at which frame, to which voice (None: to all), and its name."""

    frame: int
    voice: int
    name: str


class Axis(NamedTuple):
    """The time axis: its last frame, how many of its units a frame is, and what it says."""

    frames: int
    unit: Fraction
    label: str

    def x(self, frame):
        return LEFT + ACROSS * frame / max(self.frames, 1)


def marks(data):
    """What a list sends, in order, and its number of frames."""
    found, frame = [], 0
    for _, record in records.decode(data):
        body = record.body
        if record.tag == records.FRAMES:
            frame += body["count"]
        elif record.tag != records.OPEN:
            found.append(Mark(frame, body.get("voice"), _name(record)))
    return found, frame


def _name(record):
    if record.tag == records.TRIGGER:
        return f"trigger {records.KIND.names[record.body['kind']]}"
    if record.tag == records.JOIN:
        return f"join {record.body['from']}"
    names = {records.SETTINGS_ONE: "settings", records.SETTINGS_ALL: "settings", records.NEW_TIMING: "timing"}
    return names.get(record.tag) or ("release" if record.tag == records.RELEASE else "reset")


def axis(data, frames):
    """Milliseconds or seconds where the list has one rate, else frames."""
    bodies = [record.body for _, record in records.decode(data)]
    rates = {body["rate"] for body in bodies if "rate" in body}
    rate = min(rates)
    if len(rates) > 1 or not 0 < rate < floats.BINARY64.infinity:
        return Axis(frames, Fraction(1), "time in frames")
    per_second = Fraction(floats.value(rate, floats.BINARY64))
    at_rate = f"at {floats.write(rate, floats.BINARY64)} frames a second"
    if frames > 10 * per_second:
        return Axis(frames, 1 / per_second, f"time in seconds, {at_rate}")
    return Axis(frames, 1000 / per_second, f"time in milliseconds, {at_rate}")


def draw(title, voices, moments, found, time):
    """The picture: levels of `voices` at `moments`, with the marks `found`."""
    height = 120 if len(voices) <= 4 else 72
    whole = TOP + len(voices) * (CAPTION + height) + BOTTOM
    lines = [
        f'<svg xmlns="http://www.w3.org/2000/svg" viewBox="0 0 {WIDTH} {whole}" width="{WIDTH}" height="{whole}"'
        f' font-family="sans-serif" font-size="11" fill="{INK}">',
        _tag("title", title),
        _tag("rect", width=WIDTH, height=whole, fill="#ffffff"),
        _tag("text", title, x=LEFT, y=26, font_size=16, font_weight="bold"),
        *_legend(),
    ]
    for place, voice in enumerate(voices):
        top = TOP + CAPTION + place * (CAPTION + height)
        told = [(moment.frame, moment.stages[place], moment.levels[place]) for moment in moments]
        mine = [mark for mark in found if mark.voice in (voice, None)]
        lines += _panel(voice, top, height, told, mine, time)
    lines += _time(whole - BOTTOM, time)
    return "\n".join(lines + ["</svg>", ""])


def _tag(name, text="", inside="", **attributes):
    """An element of the picture; numbers are cut to two places."""
    said = "".join(f' {key.replace("_", "-")}="{_short(given)}"' for key, given in attributes.items())
    return f"<{name}{said}>{escape(str(text))}{inside}</{name}>" if text != "" or inside else f"<{name}{said}/>"


def _short(given):
    return given if isinstance(given, str) else f"{float(given):.2f}".rstrip("0").rstrip(".")


def _upright(x, top, bottom, **attributes):
    return _tag("line", x1=x, x2=x, y1=top, y2=bottom, **attributes)


def _level(y, left, right, **attributes):
    return _tag("line", x1=left, x2=right, y1=y, y2=y, **attributes)


def _legend():
    lines, x = [], LEFT
    for stage in (1, 2, 3, 4, 5, 6, 0):
        lines.append(_tag("rect", x=x, y=42, width=14, height=11, fill=COLOURS[stage], fill_opacity=0.75))
        lines.append(_tag("text", STAGES[stage], x=x + 19, y=52))
        x += 82
    lines.append(_upright(x + 7, 40, 55, **DASHED))
    return lines + [_tag("text", "what was sent", x=x + 19, y=52)]


def _panel(voice, top, height, told, found, time):
    # The strip of stages takes the lowest part. Levels leave 0 to 1 a little, by rounding.
    def y(level):
        return top + (height - STRIP) * (1.04 - min(max(level, -0.04), 1.04)) / 1.08

    middle = top + height / 2
    lines = [
        _tag("rect", x=LEFT, y=top, width=ACROSS, height=height, fill="#f6f6f6"),
        _tag("text", f"voice {voice}", x=LEFT, y=top - 6, font_weight="bold"),
        _tag("text", "level", x=14, y=middle, text_anchor="middle", transform=f"rotate(-90 14 {_short(middle)})"),
    ]
    for level in (0, 0.5, 1):
        lines.append(_level(y(level), LEFT, WIDTH - RIGHT, stroke="#dddddd"))
        lines.append(_tag("text", level, x=LEFT - 6, y=y(level) + 4, text_anchor="end"))
    points = [(time.x(frame), y(floats.value(bits, floats.BINARY32)), stage) for frame, stage, bits in told]
    return lines + _stages(points, y(0), top + height - STRIP / 2) + _marks(found, top, height, time)


def _stages(points, ground, strip):
    """An area, a line and a piece of the strip for each stage, up to the point at which the next one begins."""
    lines = []
    for stage, run in groupby(range(len(points)), key=lambda at: points[at][2]):
        run = list(run)
        part = points[run[0] : run[-1] + 2]
        first, last, colour = part[0][0], part[-1][0], COLOURS[stage]
        path = " ".join(f"{_short(x)},{_short(y)}" for x, y, _ in _bends(part))
        area = f"{_short(first)},{_short(ground)} {path} {_short(last)},{_short(ground)}"
        lines.append(_tag("polygon", points=area, fill=colour, fill_opacity=0.35))
        lines.append(_tag("polyline", points=path, fill="none", stroke=colour, stroke_width=2))
        lines.append(_level(strip, first, last, stroke=colour, stroke_width=STRIP))
    return lines


def _bends(part):
    """The points without those inside a level stretch, which draw nothing."""
    inner = zip(part, part[1:], part[2:])
    return [part[0]] + [here for before, here, after in inner if not before[1] == here[1] == after[1]] + part[1:][-1:]


def _marks(found, top, height, time):
    """A dashed line where something was sent, with its name above where there is room for it."""
    # The voice's own name stands at the left.
    lines, free = [], [LEFT + 50, LEFT + 50]
    for frame, group in groupby(found, key=lambda mark: mark.frame):
        name, x = ", ".join(mark.name for mark in group), time.x(frame)
        lines.append(_upright(x, top, top + height, inside=_tag("title", name), **DASHED))
        # A name is about 5.5 wide for each letter, and ends at the panel's edge at the latest.
        wide = 5.5 * len(name) + 6
        start = min(max(x, LEFT + 50), WIDTH - RIGHT - wide)
        row = next((row for row in (0, 1) if start >= free[row]), None)
        if row is not None:
            lines.append(_tag("text", name, x=start + 2, y=top - 4 - ROW * row, font_size=10, fill=GREY))
            free[row] = start + wide
    return lines


def _time(top, time):
    step = _step(time.frames * time.unit)
    lines, tick = [_level(top, LEFT, WIDTH - RIGHT, stroke=INK)], Fraction(0)
    while tick <= time.frames * time.unit:
        x = time.x(tick / time.unit)
        lines.append(_upright(x, top, top + 5, stroke=INK))
        lines.append(_tag("text", _short(tick), x=x, y=top + 18, text_anchor="middle"))
        tick += step
    return lines + [_tag("text", time.label, x=LEFT + ACROSS / 2, y=top + 38, text_anchor="middle")]


def _step(length):
    """A round distance of ticks: at most twelve of them."""
    step = Fraction(1, 100)
    while True:
        for factor in (1, 2, 5):
            if length <= 12 * factor * step:
                return factor * step
        step *= 10
