"""The records of an event list, byte by byte, as docs/FORMAT.md has them.

A record is held as its tag and the numbers of its body in their order, each as the int that its bytes
are, so that every list comes back as it was. What is no record of the format stays bytes.
"""

from typing import NamedTuple

from lists.floats import BINARY32, BINARY64

HEAD = 3


class Whole(NamedTuple):
    """A whole number of so many bits."""

    bits: int


class Code(NamedTuple):
    """A byte whose values have names, from 0 on."""

    names: tuple
    bits: int = 8


BYTE = Whole(8)
COUNT = Whole(32)
UNIT = Code(("ms", "beats"))
KIND = Code(("new", "retrigger", "legato"))
INVERTED = Code(("no", "yes"))
RESTART = Code(("current", "start"))

TIMING = {"rate": BINARY64, "tempo": BINARY64, "scale": BINARY64}
SETTINGS = {
    "unit": UNIT,
    "delay": BINARY32,
    "attack": BINARY32,
    "hold": BINARY32,
    "decay": BINARY32,
    "sustain": BINARY32,
    "release": BINARY32,
    "attack_curve": BINARY32,
    "decay_curve": BINARY32,
    "release_curve": BINARY32,
    "start": BINARY32,
    "end": BINARY32,
    "legato_inverted": INVERTED,
    "restart": RESTART,
}

OPEN, SETTINGS_ONE, SETTINGS_ALL, NEW_TIMING, TRIGGER, RELEASE, RESET, JOIN, FRAMES = range(1, 10)

BODIES = {
    OPEN: {"voices": BYTE, **TIMING, **SETTINGS},
    SETTINGS_ONE: {"voice": BYTE, **SETTINGS},
    SETTINGS_ALL: SETTINGS,
    NEW_TIMING: TIMING,
    TRIGGER: {"voice": BYTE, "kind": KIND},
    RELEASE: {"voice": BYTE},
    RESET: {"voice": BYTE},
    JOIN: {"voice": BYTE, "from": BYTE},
    FRAMES: {"count": COUNT},
}


class Record(NamedTuple):
    """A record: its tag, and the numbers of its body by their names."""

    tag: int
    body: dict


class Unread(NamedTuple):
    """Bytes that are no record: the player's refusal that they meet, why, and the bytes."""

    refusal: int
    why: str
    data: bytes


def length(tag):
    """The bytes of the body of a record with this tag."""
    return sum(field.bits // 8 for field in BODIES[tag].values())


def encode(tag, body):
    """The bytes of a record."""
    numbers = (body[name].to_bytes(field.bits // 8, "little") for name, field in BODIES[tag].items())
    return bytes([tag]) + length(tag).to_bytes(2, "little") + b"".join(numbers)


def decode(data):
    """Each record of a list, or what is none, with the byte that it begins at."""
    at = 0
    while at < len(data):
        end = at + HEAD + int.from_bytes(data[at + 1 : at + HEAD], "little")
        if at + HEAD > len(data) or end > len(data):
            yield at, Unread(6, "cut short", data[at:])
            return
        yield at, _decoded(data[at:end])
        at = end


def extent(data):
    """The voices of a list that is accepted, and its frames."""
    bodies = [record.body for _, record in decode(data) if isinstance(record, Record)]
    return (bodies[0].get("voices", 0) if bodies else 0), sum(body.get("count", 0) for body in bodies)


def _decoded(data):
    tag, size = data[0], len(data) - HEAD
    if tag not in BODIES:
        return Unread(7, f"no tag {tag}", data)
    if size != length(tag):
        return Unread(8, f"length {size}, not {length(tag)}", data)
    body, at = {}, HEAD
    for name, field in BODIES[tag].items():
        body[name] = int.from_bytes(data[at : at + field.bits // 8], "little")
        at += field.bits // 8
        if isinstance(field, Code) and body[name] >= len(field.names):
            return Unread(10, f"no {name} {body[name]}", data)
    return Record(tag, body)
