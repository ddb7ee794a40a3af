"""Runs Worfelli's proved programs: `play`, which plays a list, and `replay`, which answers a bank's calls."""

import re
import struct
import subprocess
import sys
from pathlib import Path
from typing import NamedTuple

from lists import records

HOME = Path(__file__).resolve().parent.parent

STAGES = ("Idle", "Delay", "Attack", "Hold", "Decay", "Sustain", "Release")

REASONS = {
    1: "over 64 voices",
    2: "the bank has no such voice",
    3: "a time over 1048576",
    4: "a rate over 1048576",
    6: "the bytes end before the record does",
    7: "a tag that there is not",
    8: "another length than the tag's",
    9: "a list is opened once, by its first record",
    10: "a code byte with no meaning",
}


class EngineError(Exception):
    """Why a program could not be built or run."""


class TooLong(Exception):
    """The program `play` cannot hold the list or its levels."""


class Refused(Exception):
    """A list that is refused: by which number, and the byte at which the record begins."""

    def __init__(self, refusal, at):
        super().__init__(f"refused {refusal}: {REASONS.get(refusal, 'an unknown refusal')}")
        self.refusal = refusal
        self.at = at


def program(name):
    """The path of a program, proved and built first where it is missing or its sources have changed. Without rt,
    the one that is there."""
    folder = HOME / "crates" / name
    path = folder / "out" / name
    try:
        # rt run builds a program and then runs it: here on no input, and what it prints is not looked at.
        building = subprocess.Popen(
            ["rt", "run"],
            cwd=folder,
            stdin=subprocess.DEVNULL,
            stdout=subprocess.PIPE,
            stderr=subprocess.STDOUT,
            text=True,
            errors="replace",
        )
    except FileNotFoundError:
        if path.exists():
            return path
        raise EngineError("rt, the command of the Rattle toolchain, is not on the PATH") from None
    if not path.exists():
        _say(f"building {name}: every function that it stands on is proved first, a few minutes, and only this once")
    with building:
        line = wrong = crate = ""
        for line in building.stdout:
            proved = re.match(r"\w+ (\w+)::.*: proved", line)
            if proved and proved[1] != crate:
                crate = proved[1]
                _say(f"{crate} proved")
            wrong = wrong or (line if ": error" in line else "")
    if building.returncode != 0:
        raise EngineError(f"{name} could not be built: {(wrong or line).rstrip()[:300]}")
    return path


def _say(line):
    print(f"worfelli: {line}", file=sys.stderr, flush=True)


def _run(path, given):
    try:
        done = subprocess.run([path], input=given, capture_output=True, check=False)
    except OSError as wrong:
        raise EngineError(f"{path.name} could not be run: {wrong.strerror}") from None
    if done.returncode != 0:
        said = done.stderr.decode("utf-8", "replace").splitlines()
        raise EngineError(f"{path.name} stopped with status {done.returncode}{': ' + said[-1] if said else ''}")
    return done.stdout


def _cut_short(path):
    # A write that fails ends the program with status 1; no theorem speaks of what a system makes of a write, so that
    # is counted too.
    return EngineError(f"{path.name} did not write its whole answer")


def play(path, data):
    """The levels of a list by the program `play`: for each frame the bits of each voice's level."""
    said = _run(path, data).decode("ascii", "replace")
    if said == "too long\n":
        raise TooLong
    refused = re.fullmatch(r"refused ([0-9]+) at ([0-9]+)\n", said)
    if refused:
        refusal, at = (int(number) for number in refused.groups())
        raise TooLong if refusal == 11 else Refused(refusal, at)
    if not said:
        # Nothing is printed of an accepted list without frames, and of no other.
        try:
            check(program("replay"), data)
        except Refused:
            raise _cut_short(path) from None
    voices, frames = records.extent(data)
    line = r"([0-9]+)" + r" [0-9a-f]{8}" * voices + r"\n"
    lines = said.splitlines(keepends=True)
    numbers = [found and found[1] for found in (re.fullmatch(line, given) for given in lines)]
    if numbers != [str(frame) for frame in range(frames)]:
        raise _cut_short(path)
    return [[int(level, 16) for level in line.split()[1:]] for line in lines]


# The layout of replay's calls and answers: see the head of crates/replay/src/main.rt.
CALL = struct.Struct("<B47s24sQQ")
CALLED = {
    records.OPEN: 9,
    records.SETTINGS_ONE: 10,
    records.SETTINGS_ALL: 11,
    records.NEW_TIMING: 12,
    records.TRIGGER: 13,
    records.RELEASE: 14,
    records.RESET: 15,
    records.JOIN: 16,
}
PROCESS, READINGS = 17, 18
READING_WORDS = 31
STAGE_WORD, LEVEL_WORD = 15, 17
MOST_LEVELS = 262_144


def stride(voices):
    """Levels in a frame of so many voices."""
    return max(16, (voices + 15) // 16 * 16)


class Moment(NamedTuple):
    """A moment before a frame: its number, and the stage and the level's bits of each chosen voice."""

    frame: int
    stages: list
    levels: list


class Take:
    """A list as calls of replay's bank, with readings of chosen voices before every `step`th frame."""

    def __init__(self, voices, step):
        self.voices = voices
        self.step = step
        self.calls = []
        # For each call: how many bytes its answer has, and what it is for.
        self.answers = []
        self.stride = 16
        self.frame = 0

    def record(self, at, record):
        body = record.body
        if record.tag == records.FRAMES:
            self.frames(body["count"])
            return
        if record.tag == records.OPEN:
            self.stride = stride(body["voices"])
        given = records.encode(record.tag, body)[records.HEAD :]
        settings = given[-47:] if record.tag in (records.OPEN, records.SETTINGS_ONE, records.SETTINGS_ALL) else b""
        if record.tag == records.TRIGGER:
            settings = bytes([body["kind"]])
        timing = given[1:25] if record.tag == records.OPEN else given if record.tag == records.NEW_TIMING else b""
        voice = body.get("voices", body.get("voice", 0))
        self.call(CALLED[record.tag], 4, at, settings, timing, voice, body.get("from", 0))

    def frames(self, count):
        end = self.frame + count
        while self.frame < end:
            self.read()
            part = min(end - self.frame, self.step - self.frame % self.step, MOST_LEVELS // self.stride)
            levels = part * self.stride
            self.call(PROCESS, 4 + 4 * levels, None, levels.to_bytes(4, "little"))
            self.frame += part

    def read(self):
        for voice in self.voices:
            self.call(READINGS, 4 * READING_WORDS, self.frame, voice=voice)

    def call(self, tag, size, about, settings=b"", timing=b"", voice=0, source=0):
        self.calls.append(CALL.pack(tag, settings, timing, voice, source))
        self.answers.append((tag, size, about))

    def answered(self, path):
        """The moments that replay's answers tell. Refused: by the first call that is refused."""
        data = _run(path, b"".join(self.calls))
        if len(data) != sum(size for _, size, _ in self.answers):
            raise _cut_short(path)
        moments, at = {}, 0
        for tag, size, about in self.answers:
            words = struct.unpack_from(f"<{size // 4 if tag == READINGS else 1}I", data, at)
            at += size
            if words[0] != 0:
                raise Refused(words[0], about)
            if tag == READINGS:
                moment = moments.setdefault(about, Moment(about, [], []))
                moment.stages.append(words[STAGE_WORD])
                moment.levels.append(words[LEVEL_WORD])
        return list(moments.values())


def check(path, data):
    """Refused, where the player would refuse the list whatever its output holds."""
    take, wrong = Take([], 1), None if data else Refused(9, 0)
    for at, record in records.decode(data):
        refusal = record.refusal if isinstance(record, records.Unread) else None
        # 9 is tested before 10, and after the others that make bytes no record.
        if refusal in (None, 10) and (data[at] == records.OPEN) != (at == 0):
            refusal = 9
        if refusal:
            wrong = Refused(refusal, at)
            break
        if record.tag != records.FRAMES:
            take.record(at, record)
    # A call that the bank refuses stands before what is wrong here.
    take.answered(path)
    if wrong:
        raise wrong


def moments(path, data, voices, step):
    """Stages and levels of voices of an accepted list, by the program `replay`: at every `step`th frame, where
    something was sent, and at the end."""
    take = Take(voices, step)
    for at, record in records.decode(data):
        take.record(at, record)
    take.read()
    return take.answered(path)
