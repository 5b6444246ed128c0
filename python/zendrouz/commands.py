"""A command, with the names and the numbers of Comedi's `comedi_cmd`."""
from __future__ import annotations

import enum
from dataclasses import dataclass, field
from typing import List, Optional, Sequence, SupportsIndex, Union

# A whole number: an int, a numpy integer, or a float without a fraction, as 2.5e6.
Number = Union[int, float, SupportsIndex]


def whole(value: Number) -> int:
    """A number of nanoseconds or micro-units as an int; ValueError where it has a fraction."""
    made = int(value)
    if made != value:
        raise ValueError("%r isn't a whole number: times are in nanoseconds, and levels in micro-units" % (value,))
    return made


class Source(enum.IntFlag):
    """The sources of a trigger, with Comedi's bits (`TRIG_NOW` and so on)."""

    NONE = 1
    NOW = 2
    FOLLOW = 4
    TIME = 8
    TIMER = 16
    COUNT = 32
    EXT = 64
    INT = 128
    OTHER = 256

    @classmethod
    def parse(cls, text: str) -> "Source":
        """The sources of a text, as `now|ext`, or of `invalid`."""
        made = cls(0)
        for name in text.split("|") if text != "invalid" else []:
            made |= cls[name.upper()]
        return made

    def __str__(self) -> str:
        names = [source for source in _SOURCES if self & source]
        return "|".join((source.name or "").lower() for source in names) or "invalid"


_SOURCES = [Source(1 << bit) for bit in range(9)]


class Reference(enum.IntEnum):
    """What a channel is measured against (`AREF_GROUND` and so on)."""

    GROUND = 0
    COMMON = 1
    DIFF = 2
    OTHER = 3

    def __str__(self) -> str:
        return self.name.lower()


class Flag(enum.IntFlag):
    """The flags of a command that have an effect."""

    RAWDATA = 128
    ROUND_NEAREST = 0
    ROUND_DOWN = 65536
    ROUND_UP = 131072
    ROUND_UP_NEXT = 196608


# The bit of an external argument that asks for falling edges, where the subdevice has `invert` (`CR_INVERT`).
FALLING = 1 << 31


@dataclass(frozen=True)
class Channel:
    """An entry of a channel list: channel, range by its number, and reference."""

    chan: int
    range: int = 0
    aref: Reference = Reference.GROUND

    @classmethod
    def parse(cls, text: str) -> "Channel":
        """The entry of a text, as `0/0/ground`."""
        chan, number, aref = text.split("/")
        return cls(int(chan), int(number), Reference[aref.upper()])

    def __str__(self) -> str:
        return "%d/%d/%s" % (self.chan, self.range, self.aref)


@dataclass
class Command:
    """A command, with the fields of `comedi_cmd` by their names. A `timer` argument is in nanoseconds."""

    subdev: int = 0
    flags: int = 0
    start_src: Source = Source.NOW
    start_arg: int = 0
    scan_begin_src: Source = Source.TIMER
    scan_begin_arg: int = 0
    convert_src: Source = Source.NOW
    convert_arg: int = 0
    scan_end_src: Source = Source.COUNT
    scan_end_arg: int = 0
    stop_src: Source = Source.NONE
    stop_arg: int = 0
    chanlist: List[Channel] = field(default_factory=list)

    TRIGGERS = ("start", "scan_begin", "convert", "scan_end", "stop")

    @classmethod
    def timed(cls, chanlist: Sequence[Union[int, Channel]], scan: Number, convert: Optional[Number] = None,
              scans: Optional[int] = None, subdev: int = 0, flags: int = 0) -> "Command":
        """A command that starts now, with a scan each `scan` nanoseconds.

        From conversion to conversion it is `convert` nanoseconds; without it all come at once. It stops after `scans`
        scans; without them it doesn't. A channel given by its number is in range 0 and against ground.
        """
        entries = [entry if isinstance(entry, Channel) else Channel(entry) for entry in chanlist]
        made = cls(subdev, flags, scan_begin_arg=whole(scan), scan_end_arg=len(entries), chanlist=entries)
        if convert is not None:
            made.convert_src, made.convert_arg = Source.TIMER, whole(convert)
        if scans is not None:
            made.stop_src, made.stop_arg = Source.COUNT, scans
        return made

    @classmethod
    def parse(cls, text: str) -> "Command":
        """The command of a text of eight words, as `test` answers it."""
        words = text.split()
        if len(words) != 8:
            raise ValueError("a command has eight words: %s" % text)
        made = cls(int(words[0]), int(words[1]))
        for name, word in zip(cls.TRIGGERS, words[2:7]):
            sources, argument = word.split(":")
            setattr(made, name + "_src", Source.parse(sources))
            setattr(made, name + "_arg", int(argument))
        made.chanlist = [Channel.parse(entry) for entry in words[7].split(",")] if words[7] != "-" else []
        return made

    def __str__(self) -> str:
        triggers = ["%s:%d" % (Source(getattr(self, name + "_src")), whole(getattr(self, name + "_arg")))
                    for name in self.TRIGGERS]
        entries = ",".join(map(str, self.chanlist)) or "-"
        return " ".join(["%d %d" % (self.subdev, self.flags)] + triggers + [entries])
