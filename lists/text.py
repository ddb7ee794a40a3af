"""Event lists as text, and back: docs/TEXT.md says what may be written.

`read` takes text to bytes, `write` takes bytes to text. Every list can be written, damaged ones too,
and reads back byte for byte.
"""

import re
import textwrap
from fractions import Fraction

from lists import floats, records
from lists.records import Code, Whole

COLUMNS = 100
NAME = re.compile(r"[a-z][a-z0-9_-]*")
VOICES = "a voice from 0 to 255, or several as 0,3-5"
# The most voices of a bank, and so of a chord.
MOST_VOICES = 64

# What `usual` stands for: the usual numbers of docs/FORMAT.md.
USUAL = {
    **{"rate": "48000", "tempo": "120", "scale": "1"},
    **{"unit": "ms", "delay": "0", "attack": "1", "hold": "0", "decay": "1000", "sustain": "1"},
    **{"release": "15", "attack_curve": "0.5", "decay_curve": "0.666", "release_curve": "0.666"},
    **{"start": "0", "end": "0", "legato_inverted": "no", "restart": "current"},
}
FIELDS = {**records.TIMING, **records.SETTINGS}


class TextError(Exception):
    """What is wrong with a text, and in which line."""

    def __init__(self, line, message):
        super().__init__(message)
        self.line = line


def number(text, field):
    """The number that a text says. ValueError says what was expected."""
    if isinstance(field, Code):
        if text in field.names:
            return field.names.index(text)
        raise ValueError(f"expected {' or '.join(field.names)}")
    if isinstance(field, Whole):
        if re.fullmatch("[0-9]{1,10}", text) and int(text) < 1 << field.bits:
            return int(text)
        raise ValueError(f"expected a whole number from 0 to {(1 << field.bits) - 1}")
    return floats.read(text, field)


def voices(text):
    """The voices that a text such as 0,3-5 names, in its order. ValueError says what was expected."""
    items = text.split(",")
    if "" in items:
        raise ValueError("expected a voice on each side of a comma, without a space")
    return [voice for item in items for voice in _range(item)]


def _range(item):
    """The voices of one item, as 4 or 4-7."""
    try:
        ends = [number(end, records.BYTE) for end in item.split("-", 1)]
    except ValueError:
        raise ValueError(f"expected {VOICES}") from None
    if ends[-1] < ends[0]:
        raise ValueError("expected the lower voice of a range first")
    return range(ends[0], ends[-1] + 1)


def said(bits, field):
    """The text of a number."""
    if isinstance(field, Code):
        return field.names[bits]
    if isinstance(field, Whole):
        return str(bits)
    return floats.write(bits, field)


USUAL_NUMBERS = {name: number(text, FIELDS[name]) for name, text in USUAL.items()}


def read(text):
    """The bytes of the list that a text says; and of each record of the text, the byte and the line it begins at."""
    reader = _Reader()
    for words in _records_of(text):
        reader.record(words)
    return bytes(reader.data), reader.lines


def write(data):
    """The text of a list."""
    return "".join(_line(part) for _, part in records.decode(data))


def _records_of(text):
    """The words of each record, each word with its line. Indented lines belong to the record above."""
    words = []
    for at, line in enumerate(text.split("\n"), 1):
        found = [(at, word) for word in re.sub(r"(^|\s)#.*", "", line).split()]
        if not found:
            continue
        if not line[0].isspace():
            if words:
                yield words
            words = []
        elif not words:
            raise TextError(at, "expected a record at the line's first column; an indented line goes on with one")
        words += found
    if words:
        yield words


class _Words:
    """The words of one record, taken one after the other."""

    def __init__(self, words):
        self.left = list(words)
        self.line = words[0][0]

    def take(self, expected):
        if not self.left:
            raise TextError(self.line, f"expected {expected}, and the record ends")
        self.line, word = self.left.pop(0)
        return word

    def read(self, reading, expected):
        """The next word by `reading`, whose ValueError says what it expected."""
        word = self.take(expected)
        try:
            return reading(word)
        except ValueError as wrong:
            raise TextError(self.line, f"{wrong}, not '{word}'") from None

    def number(self, field, expected):
        return self.read(lambda word: number(word, field), expected)


class _Reader:
    """Reads one record after the other."""

    def __init__(self):
        self.data = bytearray()
        self.lines = []
        self.defined = {"usual": USUAL_NUMBERS}
        self.rate = None
        self.by_name = {
            "open": self.open,
            "settings": self.settings,
            "timing": lambda words: self.add(records.NEW_TIMING, self.fields(words, records.TIMING)),
            "trigger": self.trigger,
            "release": lambda words: self.add(records.RELEASE, self.voice(words)),
            "reset": lambda words: self.add(records.RESET, self.voice(words)),
            "join": self.join,
            "frames": self.frames,
            "bytes": self.bytes,
            "define": self.define,
        }

    def record(self, given):
        words = _Words(given)
        line, name = words.line, words.take("a record")
        if name not in self.by_name:
            raise TextError(line, f"expected {', '.join(self.by_name)}, not '{name}'")
        if name != "define":
            self.lines.append((len(self.data), line))
        self.by_name[name](words)
        if words.left:
            line, word = words.left[0]
            raise TextError(line, f"expected the end of the record, not '{word}'")

    def add(self, tag, body):
        self.data += records.encode(tag, body)
        self.rate = body.get("rate", self.rate)

    def voice(self, words):
        return {"voice": words.number(records.BYTE, "a voice")}

    def open(self, words):
        count = words.read(_voice_count, "voices=")
        self.add(records.OPEN, {"voices": count, **self.fields(words, FIELDS)})

    def settings(self, words):
        if words.left and words.left[0][1] == "all":
            words.take("all")
            self.add(records.SETTINGS_ALL, self.fields(words, records.SETTINGS))
        else:
            body = {"voice": words.number(records.BYTE, "a voice or all")}
            self.add(records.SETTINGS_ONE, {**body, **self.fields(words, records.SETTINGS)})

    def trigger(self, words):
        chord = words.read(_chord, VOICES)
        kind = words.number(records.KIND, "new, retrigger or legato")
        for voice in chord:
            self.add(records.TRIGGER, {"voice": voice, "kind": kind})

    def join(self, words):
        body = self.voice(words)
        word = words.take("from")
        if word != "from":
            raise TextError(words.line, f"expected from, not '{word}'")
        self.add(records.JOIN, {**body, "from": words.number(records.BYTE, "a voice")})

    def frames(self, words):
        self.add(records.FRAMES, {"count": words.read(self.count, "a number of frames, or of milliseconds as 250ms")})

    def count(self, word):
        """A number of frames, or of milliseconds at the rate that the list has at this place."""
        if not re.fullmatch(r"[0-9]{1,10}(\.[0-9]{1,9})?ms", word):
            return number(word, records.COUNT)
        infinity = floats.BINARY64.infinity
        if self.rate is None or not 0 < self.rate < infinity:
            raise ValueError("expected a number of frames, since there is no rate for milliseconds")
        frames = Fraction(word[:-2]) * Fraction(floats.value(self.rate, floats.BINARY64)) / 1000
        if frames.denominator != 1:
            raise ValueError(f"expected a whole number of frames at rate {floats.write(self.rate, floats.BINARY64)}")
        return number(str(frames.numerator), records.COUNT)

    def bytes(self, words):
        while True:
            self.data.append(words.read(_byte, "bytes of two hexadecimal digits"))
            if not words.left:
                return

    def define(self, words):
        name = words.take("a name")
        if not NAME.fullmatch(name):
            raise TextError(words.line, f"expected a name of letters, digits, _ and -, not '{name}'")
        if name in self.defined or name == "all":
            raise TextError(words.line, f"expected a new name, and '{name}' has a meaning already")
        self.defined[name] = self.given(words, FIELDS)

    def fields(self, words, wanted):
        """The numbers of `wanted`, every one of them."""
        line, given = words.line, self.given(words, wanted)
        for name in wanted:
            if name not in given:
                raise TextError(line, f"expected {name}=, or the word usual in front for all that is not given")
        return {name: given[name] for name in wanted}

    def given(self, words, wanted):
        """The numbers that the rest of a record gives: those of a name, changed by what stands after it."""
        base, own = {}, {}
        if words.left and "=" not in words.left[0][1]:
            name = words.take("a name")
            if name not in self.defined:
                raise TextError(
                    words.line, f"expected usual, a defined name or a field such as {_first(wanted)}=, not '{name}'"
                )
            base = self.defined[name]
        while words.left:
            name, equals, text = words.take("a field").partition("=")
            if not equals or name not in wanted:
                raise TextError(
                    words.line, f"expected a field ({', '.join(wanted)}) and =, not '{name + equals + text}'"
                )
            if name in own:
                raise TextError(words.line, f"expected {name}= once")
            try:
                own[name] = number(text, wanted[name])
            except ValueError as wrong:
                raise TextError(words.line, f"{name}: {wrong}, not '{text}'") from None
        return {**base, **own}


def _first(fields):
    return next(iter(fields))


def _voice_count(word):
    if not word.startswith("voices="):
        raise ValueError("expected voices=")
    return number(word[7:], records.BYTE)


def _chord(word):
    """The voices of a chord: at most 64 and none twice, since a bank refuses any other chord by 12."""
    chord = voices(word)
    if len(chord) > MOST_VOICES:
        raise ValueError(f"expected at most {MOST_VOICES} voices")
    twice = [voice for at, voice in enumerate(chord) if voice in chord[:at]]
    if twice:
        raise ValueError(f"expected voice {twice[0]} once")
    return chord


def _byte(word):
    if not re.fullmatch("[0-9a-f]{2}", word):
        raise ValueError("expected a byte of two hexadecimal digits, in lowercase")
    return int(word, 16)


def _line(part):
    """The line of a record, folded where it is long."""
    if isinstance(part, records.Unread):
        return _folded(f"bytes {part.data.hex(' ')}", f"# {part.why} (refusal {part.refusal})\n")
    body = part.body
    if part.tag == records.OPEN:
        return _folded(f"open voices={body['voices']} {_settings(body, FIELDS)}")
    if part.tag == records.SETTINGS_ONE:
        return _folded(f"settings {body['voice']} {_settings(body, records.SETTINGS)}")
    if part.tag == records.SETTINGS_ALL:
        return _folded(f"settings all {_settings(body, records.SETTINGS)}")
    if part.tag == records.NEW_TIMING:
        return _folded(f"timing {_settings(body, records.TIMING)}")
    if part.tag == records.TRIGGER:
        return f"trigger {body['voice']} {said(body['kind'], records.KIND)}\n"
    if part.tag == records.JOIN:
        return f"join {body['voice']} from {body['from']}\n"
    if part.tag == records.FRAMES:
        return f"frames {body['count']}\n"
    return f"{'release' if part.tag == records.RELEASE else 'reset'} {body['voice']}\n"


def _settings(body, fields):
    """`usual`, and what differs from it."""
    other = (name for name in fields if body[name] != USUAL_NUMBERS[name])
    return " ".join(["usual"] + [f"{name}={said(body[name], fields[name])}" for name in other])


def _folded(line, before=""):
    folded = textwrap.fill(line, COLUMNS, subsequent_indent="    ", break_long_words=False, break_on_hyphens=False)
    return f"{before}{folded}\n"
