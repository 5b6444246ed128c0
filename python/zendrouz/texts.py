"""The texts of a job: a board, its signals, commands, and the lines of a session.

Times are in nanoseconds, and levels in micro-units: microvolts where a range's unit is volt, and nanoamperes where it
is mA. `str` of each gives the text that the programs read. docs/FORMATS.md says what a text may hold: nothing is
refused here but a number that isn't whole.
"""
from __future__ import annotations

import dataclasses
import math
import os
from dataclasses import dataclass
from pathlib import Path
from typing import Any, Dict, Iterable, List, Mapping, Optional, Sequence, Tuple, Union

from .commands import FALLING, Channel, Command, Flag, Number, Reference, Source, whole
from .programs import Missing, folder

__all__ = ["FALLING", "Board", "Channel", "ChannelForm", "Command", "Flag", "Job", "Reference", "Signals", "Source",
           "Subdevice", "Wave", "const", "record", "saw", "sine", "square", "table"]

# The least and the greatest level of a range, and its unit: 0 volt, 1 mA, 2 none.
Range = Tuple[Number, Number, int]
PathLike = Union[str, os.PathLike[str]]
# The lines of a block with values, and those that are their first word alone.
_VALUES = ("bits", "munge", "sources", "tick", "scan", "convert", "list", "scans", "lines", "buffer", "fifo",
           "clock", "rounds", "perchan", "order")
_FLAGS = ("samerange", "invert", "halfdown", "scanfits", "samearef", "samepolarity")
# The lines of a block that can come more often, by their fields.
_REPEATED = {"flags": "flag", "forbid": "forbid"}
# How many values the table of a wave holds.
TABLE = 64


def _numbers(values: Iterable[Number]) -> str:
    return " ".join(str(whole(value)) for value in values)


def _range(words: Sequence[str]) -> Range:
    return int(words[0]), int(words[1]), int(words[2])


def _text_lines(text: str) -> List[List[str]]:
    """The words of each line that isn't empty or a comment."""
    lines = [line.split() for line in text.split("\n")]
    return [words for words in lines if words and not words[0].startswith("#")]


def _cut(text: str, word: str) -> Tuple[str, str]:
    """A text before the first line that starts with a word, and from there on."""
    lines = text.split("\n")
    for number, line in enumerate(lines):
        if line.split()[:1] == [word]:
            return "".join(other + "\n" for other in lines[:number]), "\n".join(lines[number:])
    return text, ""


def read_file(path: PathLike) -> str:
    """The text of a file, with all its bytes as they are."""
    return Path(path).read_bytes().decode("utf-8", "surrogateescape")


def write_file(path: PathLike, text: str) -> None:
    """Writes a text into a file, as `read_file` reads it."""
    Path(path).write_bytes(text.encode("utf-8", "surrogateescape"))


def _ended(text: str) -> str:
    """A text whose last line has its line feed."""
    return text if text.endswith("\n") or not text else text + "\n"


@dataclass(frozen=True)
class ChannelForm:
    """What a channel of a board of version 2 has of its own: bits, munge, and ranges."""

    bits: Optional[int] = None
    munge: Optional[str] = None
    ranges: Sequence[Range] = ()

    def lines(self, chan: int) -> List[str]:
        """The `chan` lines of a channel."""
        made = ["chan %d bits %d" % (chan, self.bits)] if self.bits is not None else []
        made += ["chan %d munge %s" % (chan, self.munge)] if self.munge is not None else []
        return made + ["chan %d range %s" % (chan, _numbers(values)) for values in self.ranges]


@dataclass(frozen=True)
class Subdevice:
    """A block of a board, with its lines by their names.

    `ranges` are (least, greatest, unit). `sources` are the five words of that line, `forbid` has lines without their
    first word. `tick`, `scan` and `convert` are in nanoseconds, and `buffer` in samples. `fifo` is (depth, latency),
    and `chans` has the forms of channels that have their own. The fields from `clock` to `flags` need a board of
    version 3; `order` is what follows the word `channels` in its line, and `flags` has what follows each `flag`.
    """

    kind: str
    channels: int
    bits: Optional[int] = None
    ranges: Sequence[Range] = ()
    munge: Optional[str] = None
    sources: Optional[str] = None
    tick: Optional[Number] = None
    scan: Optional[Tuple[Number, Number]] = None
    convert: Optional[Tuple[Number, Number]] = None
    list: Optional[int] = None
    scans: Optional[Number] = None
    lines: Optional[int] = None
    buffer: Optional[int] = None
    samerange: bool = False
    forbid: Sequence[str] = ()
    invert: bool = False
    fifo: Optional[Tuple[int, Number]] = None
    clock: Optional[str] = None
    rounds: Optional[str] = None
    halfdown: bool = False
    perchan: Optional[Number] = None
    scanfits: bool = False
    order: Optional[str] = None
    samearef: bool = False
    samepolarity: bool = False
    flags: Sequence[str] = ()
    chans: Mapping[int, ChannelForm] = dataclasses.field(default_factory=dict)

    @property
    def takes_commands(self) -> bool:
        """Whether the block has command lines."""
        return self.sources is not None

    @property
    def is_output(self) -> bool:
        """Whether its commands put words out."""
        return self.kind in ("ao", "do")

    def __str__(self) -> str:
        made = ["subdevice %s %d" % (self.kind, self.channels)]
        for name in _VALUES:
            value = getattr(self, name)
            if value is not None:
                values = value if isinstance(value, tuple) else (value,)
                text = value if isinstance(value, str) else _numbers(values)
                made.append("%s %s" % ("channels" if name == "order" else name, text))
        made += ["range " + _numbers(values) for values in self.ranges]
        made += [name for name in _FLAGS if getattr(self, name)]
        made += [line + " " + words for name, line in _REPEATED.items() for words in getattr(self, name)]
        for chan, form in self.chans.items():
            made += form.lines(chan)
        return "\n".join(made) + "\n"


class _Block:
    """A block that is being read, line by line."""

    def __init__(self, words: Sequence[str]) -> None:
        self.fields: Dict[str, Any] = {"kind": words[1], "channels": int(words[2])}

    def take(self, words: Sequence[str]) -> None:
        name, rest = words[0], words[1:]
        if name == "chan":
            forms = self.fields.setdefault("chans", {})
            forms[int(rest[0])] = self.changed(forms.get(int(rest[0]), ChannelForm()), rest[1:])
        elif name == "range":
            self.fields["ranges"] = (*self.fields.get("ranges", ()), _range(rest))
        elif name in _REPEATED.values():
            field = next(other for other, line in _REPEATED.items() if line == name)
            self.fields[field] = (*self.fields.get(field, ()), " ".join(rest))
        elif name in _FLAGS:
            self.fields[name] = True
        elif name in ("munge", "sources", "clock", "rounds"):
            self.fields[name] = " ".join(rest)
        elif name == "channels":
            self.fields["order"] = " ".join(rest)
        elif name in ("scan", "convert", "fifo"):
            self.fields[name] = int(rest[0]), int(rest[1])
        elif name in ("bits", "tick", "list", "scans", "lines", "buffer", "perchan"):
            self.fields[name] = int(rest[0])

    @staticmethod
    def changed(form: ChannelForm, words: Sequence[str]) -> ChannelForm:
        """A channel's form with one line more."""
        if words[0] == "bits":
            return dataclasses.replace(form, bits=int(words[1]))
        if words[0] == "munge":
            return dataclasses.replace(form, munge=" ".join(words[1:]))
        return dataclasses.replace(form, ranges=(*form.ranges, _range(words[1:])))


class Board:
    """A board: its name, its subdevices, its text. What was read keeps its text as it was, comments too.

    `version` is 1 or 2 for texts that begin with `comedi`, and 3 for the wider ones, which begin with `zendrouz 1`.
    """

    def __init__(self, name: str, subdevices: Sequence[Subdevice], version: int = 2) -> None:
        self.name, self.version, self.subdevices = name, version, tuple(subdevices)
        first = "zendrouz 1" if version == 3 else "comedi %d" % version
        self._text = "%s\nboard %s\n%s" % (first, name, "".join(map(str, subdevices)))

    @classmethod
    def parse(cls, text: str) -> "Board":
        """The board of a text, up to a line `signals`. Lines that can't be read are left for the program to refuse."""
        text = _cut(text, "signals")[0]
        name, version, blocks = "", 1, []  # type: str, int, List[_Block]
        for words in _text_lines(text):
            try:
                if words[0] in ("comedi", "zendrouz"):
                    version = int(words[1]) + (2 if words[0] == "zendrouz" else 0)
                elif words[0] == "board":
                    name = words[1]
                elif words[0] == "subdevice":
                    blocks.append(_Block(words))
                elif blocks:
                    blocks[-1].take(words)
            except (ValueError, IndexError):
                continue
        made = cls(name, [Subdevice(**block.fields) for block in blocks], version)
        made._text = _ended(text)
        return made

    @classmethod
    def read(cls, path: PathLike) -> "Board":
        """The board of a file: a board's text, or a job's."""
        return cls.parse(read_file(path))

    @classmethod
    def named(cls, name: str) -> "Board":
        """A board of examples/boards, as `ni_pci_6221`, or of boards, as `ni_pcimio.pci-6014`; Missing where there is none."""
        boards = folder("examples/boards")
        for place in (boards, boards.parent.parent / "boards"):
            if (place / (name + ".txt")).is_file():
                return cls.read(place / (name + ".txt"))
        names = sorted(other.stem for other in boards.glob("*.txt"))
        raise Missing("the board %s" % name, [str(boards)], "there are %s" % ", ".join(names))

    def changed(self, subdev: int, **lines: Any) -> "Board":
        """This board with other lines in one subdevice: `board.changed(0, buffer=64)`."""
        subdevices = list(self.subdevices)
        subdevices[subdev] = dataclasses.replace(subdevices[subdev], **lines)
        return Board(self.name, subdevices, self.version)

    def __str__(self) -> str:
        return self._text

    def __repr__(self) -> str:
        return "<Board %s, %d subdevices>" % (self.name, len(self.subdevices))


@dataclass(frozen=True)
class Wave:
    """The levels at a channel over the time, as the words of a `wave` line after its channel."""

    text: str

    def __str__(self) -> str:
        return self.text


def const(level: Number) -> Wave:
    """Always one level, in micro-units."""
    return Wave("const %d" % whole(level))


def square(low: Number, high: Number, period: Number) -> Wave:
    """One level in the first half of each period, then another. Levels in micro-units, the period in nanoseconds."""
    return Wave("square " + _numbers((low, high, period)))


def saw(low: Number, high: Number, period: Number) -> Wave:
    """A level that rises from one towards another in each period. In micro-units and nanoseconds."""
    return Wave("saw " + _numbers((low, high, period)))


def table(period: Number, values: Iterable[Number]) -> Wave:
    """Levels one after another and over again, each for `period` nanoseconds: at most 64, a list or a numpy array."""
    return Wave("table %d %s" % (whole(period), _numbers(values)))


def record(period: Number, values: Iterable[Number]) -> Wave:
    """Recorded levels one after another, each for `period` nanoseconds, and from then on the last: a list or a numpy array.

    All records of a job have at most 100,000 levels together. The text of the board begins with `zendrouz 1`.
    """
    return Wave("record %d %s" % (whole(period), _numbers(values)))


def sine(amplitude: Number, period: Number, offset: Number = 0, steps: Optional[int] = None) -> Wave:
    """A sine as a table: its amplitude and offset in micro-units, the period of the whole sine in nanoseconds.

    It has `steps` values, which have to divide the period; without them as many as do, 64 at most.
    """
    whole_period = whole(period)
    fits = [count for count in range(4, TABLE + 1) if whole_period % count == 0]
    if not fits or steps is not None and steps not in fits:
        raise ValueError("a sine of %d ns can have these numbers of steps: %s" % (whole_period, fits))
    count = fits[-1] if steps is None else steps
    values = [round(float(amplitude) * math.sin(2 * math.pi * step / count)) + whole(offset) for step in range(count)]
    return table(whole_period // count, values)


# Rising edges of a line: the time of the first one, the time from edge to edge, and how many there are.
Every = Tuple[Number, Number, int]


class Signals:
    """What reaches a board from outside, up to its horizon in nanoseconds.

    `waves` has the wave of (subdevice, channel), `edges` and `falls` the times of a line's rising and falling edges.
    `every` has a line's (first, period, count), or a list of such, and `triggers` the times of a subdevice's internal
    triggers.
    """

    def __init__(self, horizon: Number, waves: Optional[Mapping[Tuple[int, int], Wave]] = None,
                 edges: Optional[Mapping[int, Iterable[Number]]] = None,
                 falls: Optional[Mapping[int, Iterable[Number]]] = None,
                 every: Optional[Mapping[int, Union[Every, List[Every]]]] = None,
                 triggers: Optional[Mapping[int, Iterable[Number]]] = None) -> None:
        self.horizon = whole(horizon)
        lines = ["signals %d" % self.horizon]
        lines += ["wave %d %d %s" % (sub, chan, wave) for (sub, chan), wave in (waves or {}).items()]
        rises = [("edges", line, list(times)) for line, times in (edges or {}).items()]
        for line, given in (every or {}).items():
            rises += [("every", line, list(values)) for values in (given if isinstance(given, list) else [given])]
        # The rising edges of a line are given in the order of their times.
        rises = sorted((rise for rise in rises if rise[2]), key=lambda rise: whole(rise[2][0]))
        lowers = [("falls", line, list(times)) for line, times in (falls or {}).items()]
        lines += ["%s %d %s" % (name, line, _numbers(times)) for name, line, times in rises + lowers if times]
        lines += ["int %d %d 0" % (sub, whole(time)) for sub, times in (triggers or {}).items() for time in times]
        self._text = "\n".join(lines) + "\n"

    @classmethod
    def parse(cls, text: str) -> "Signals":
        """The signals of a job's text: from its line `signals` to its line `session`."""
        part = _cut(_cut(text, "signals")[1], "session")[0]
        words = (part.split("\n", 1)[0].split() + ["", ""])[1]
        made = cls(int(words) if words.isdigit() else 0)
        made._text = _ended(part)
        return made

    @classmethod
    def read(cls, path: PathLike) -> "Signals":
        """The signals of a file that holds a job, or a board and its signals."""
        return cls.parse(read_file(path))

    def __str__(self) -> str:
        return self._text

    def __repr__(self) -> str:
        return "<Signals up to %d ns>" % self.horizon


@dataclass
class Job:
    """A job: a board, its signals, and the lines of its session, one by one or as a text."""

    board: Union[Board, str]
    signals: Union[Signals, str]
    session: Union[str, Sequence[str]] = ()

    @classmethod
    def parse(cls, text: str) -> "Job":
        """The job of a text."""
        return cls(Board.parse(text), Signals.parse(text), _cut(text, "session")[1].partition("\n")[2])

    @classmethod
    def read(cls, path: PathLike) -> "Job":
        """The job of a file."""
        return cls.parse(read_file(path))

    @property
    def asked(self) -> List[str]:
        """The lines of the session that are answered: neither empty nor comments."""
        lines = self.session.split("\n") if isinstance(self.session, str) else self.session
        return [line for line in lines if line.split() and not line.split()[0].startswith("#")]

    def __str__(self) -> str:
        session = self.session if isinstance(self.session, str) else "".join(map(_ended, self.session))
        return _ended(str(self.board)) + _ended(str(self.signals)) + "session\n" + _ended(session)
