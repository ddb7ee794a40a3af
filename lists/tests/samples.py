"""Lists to test with: the comparison's fixed ones, and random ones, whole and damaged."""

import random
import struct

from lists import records
from lists.engine import HOME
from lists.floats import BINARY32, BINARY64
from lists.records import Code

EXAMPLES = ("first", "chord", "retrigger", "joined", "retimed")


def fixed():
    """The lists of crates/replay_lists, whose head says how they are stored."""
    data = (HOME / "crates" / "replay_lists" / "stdin").read_bytes()
    at, found = 0, []
    while at < len(data):
        (length, _) = struct.unpack_from("<II", data, at)
        found.append(data[at + 8 : at + 8 + length])
        at += 8 + length
    return found


def drawn(seed, count):
    """Random lists."""
    source = random.Random(seed)
    for _ in range(count):
        yield _list(source)


def _list(source):
    """One in eight is bytes alone, and one in four of the others is damaged."""
    if source.randrange(8) == 0:
        return source.randbytes(source.randrange(40))
    tags = [records.OPEN] + [source.randrange(2, 10) for _ in range(source.randrange(8))]
    data = b"".join(records.encode(tag, _body(source, tag)) for tag in tags)
    if source.randrange(4) == 0:
        return _damaged(source, bytearray(data))
    return data


def _body(source, tag):
    return {name: _number(source, field) for name, field in records.BODIES[tag].items()}


def _number(source, field):
    if isinstance(field, Code):
        return source.randrange(len(field.names))
    if field in (BINARY32, BINARY64):
        return _float(source, field)
    # Small voices and counts, so that lists are played too.
    return source.randrange(6) if source.randrange(8) else source.getrandbits(field.bits)


def _float(source, width):
    """Any pattern; those about zero, the subnormals and infinity; and what people write."""
    kind = source.randrange(4)
    if kind == 0:
        return source.getrandbits(width.bits)
    if kind == 1:
        near = source.choice([0, 1 << width.precision - 1, width.infinity])
        return max(0, near + source.randrange(-3, 4)) | source.choice([0, width.sign])
    written = source.choice([0, 0.5, 0.666, 0.1, 1, 2, 15, 120, 1000, 44100, 48000])
    return int.from_bytes(struct.pack("<f" if width is BINARY32 else "<d", written), "little")


def _damaged(source, data):
    for _ in range(source.randrange(1, 4)):
        at = source.randrange(len(data) + 1)
        kind = source.randrange(3)
        if kind == 0:
            del data[at:]
        elif kind == 1:
            data.insert(at, source.randrange(256))
        elif at < len(data):
            data[at] = source.randrange(256)
    return bytes(data)
