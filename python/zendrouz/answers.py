"""What an answer holds: samples, words that were put out, conversions, and how a command ended.

Rows of numbers are parsed when they are asked for, all at once.
"""
from __future__ import annotations

import sys
from array import array
from dataclasses import dataclass
from typing import (TYPE_CHECKING, Any, Callable, ClassVar, Iterator, List, NamedTuple, Optional, Sequence, TypeVar,
                    Union, overload)

if TYPE_CHECKING:
    from numpy.typing import NDArray


class Sample(NamedTuple):
    """A sample that was read: its list index, and its level in micro-units, or its word where it is raw."""

    list_index: int
    level: int
    raw: bool = False


class Out(NamedTuple):
    """A word that was put out: its subdevice, its time in nanoseconds, its list index, and the munged word."""

    subdev: int
    time: int
    list_index: int
    word: int


class Conversion(NamedTuple):
    """A conversion of `expand`: its time in nanoseconds, its list index, and its raw word."""

    time: int
    list_index: int
    raw: int


@dataclass(frozen=True)
class End:
    """How a command ended, as one of the kinds below. `str` gives the words of an answer."""

    def __str__(self) -> str:
        return " ".join([type(self).__name__.lower()] + [str(value) for value in vars(self).values()])


@dataclass(frozen=True)
class Done(End):
    """All samples up to the stop have come and were read, or all words were put out."""


@dataclass(frozen=True)
class Dry(End):
    """The signals ended before the command did."""


@dataclass(frozen=True)
class Idle(End):
    """No command runs: none was called, its end was reported, or it was cancelled."""


@dataclass(frozen=True)
class Overrun(End):
    """A sample found the buffer full. Exactly `at` samples came before it."""

    at: int


@dataclass(frozen=True)
class Underrun(End):
    """A conversion of an output found no marked word. Exactly `at` words were put out before it."""

    at: int


@dataclass(frozen=True)
class Fifo(End):
    """A sample found the board's FIFO full. Exactly `at` samples came before it."""

    at: int


@dataclass(frozen=True)
class Taken(End):
    """The client of a `run` cancelled its command after `at` samples."""

    at: int


_ENDS: "dict[str, Callable[..., End]]" = {
    kind.__name__.lower(): kind for kind in (Done, Dry, Idle, Overrun, Underrun, Fifo, Taken)}


def end_of(words: Sequence[str]) -> Optional[End]:
    """The end that some words say, as `done` or `overrun 14`; None where they say none."""
    return _ENDS[words[0]](*map(int, words[1:])) if words and words[0] in _ENDS else None


def numbers_of(text: str) -> "array[int]":
    """All numbers of a text, in their order, as an array of 64 bits."""
    numpy = _numpy(len(text))
    if numpy is not None:
        return array("q", numpy.fromstring(text, dtype=numpy.int64, sep=" ").tobytes())
    return array("q", map(int, text.split()))


def _numpy(size: int) -> Any:
    """Numpy, where a text is so long that it is worth it: it parses several times faster, but takes long to import."""
    if size < 1_000_000:
        return sys.modules.get("numpy") if size > 4096 else None
    try:
        import numpy
        return numpy
    except ImportError:
        return None


Row = TypeVar("Row")


class Rows(Sequence[Row]):
    """Lines of an answer that are rows of numbers. They are the rows' text until one is asked for."""

    # How many numbers a line has, the word that may stand before one of them, and what is made of a row.
    _width: ClassVar[int]
    _word: ClassVar[str]
    _make: ClassVar[Callable[..., Any]]

    def __init__(self, text: str) -> None:
        self.text = text
        self._numbers: Optional["array[int]"] = None

    def _all(self) -> "array[int]":
        if self._numbers is None:
            self._numbers = numbers_of(self.text.replace(self._word, ""))
        return self._numbers

    def _column(self, at: int) -> "array[int]":
        return self._all()[at::self._width]

    def _extra(self) -> Sequence[bool]:
        """What is said of all rows after their numbers."""
        return ()

    def __len__(self) -> int:
        return self.text.count("\n")

    @overload
    def __getitem__(self, at: int) -> Row: ...

    @overload
    def __getitem__(self, at: slice) -> List[Row]: ...

    def __getitem__(self, at: Union[int, slice]) -> Union[Row, List[Row]]:
        if isinstance(at, slice):
            return [self[number] for number in range(*at.indices(len(self)))]
        first = range(len(self))[at] * self._width
        made: Row = type(self)._make(*self._all()[first:first + self._width], *self._extra())
        return made

    def __iter__(self) -> Iterator[Row]:
        make, extra = type(self)._make, self._extra()
        columns = [self._column(at) for at in range(self._width)]
        return (make(*row, *extra) for row in zip(*columns))

    def __eq__(self, other: object) -> bool:
        return isinstance(other, Sequence) and list(self) == list(other)

    def __repr__(self) -> str:
        shown = ", ".join(map(repr, self[:3])) + (", .." if len(self) > 3 else "")
        return "<%d %s: %s>" % (len(self), type(self).__name__, shown)

    def to_numpy(self) -> "NDArray[Any]":
        """All rows as a numpy array of 64-bit integers, a row for each line."""
        import numpy
        return numpy.frombuffer(self._all(), dtype=numpy.int64).reshape(-1, self._width)


class Samples(Rows[Sample]):
    """Samples of one command, in their order."""

    _width, _word, _make = 2, "raw ", Sample

    def _extra(self) -> Sequence[bool]:
        return (self.is_raw,)

    @property
    def is_raw(self) -> bool:
        """Whether these are words, as those of a command with the flag RAWDATA, and not levels."""
        return "raw" in self.text[:32]

    @property
    def list_indices(self) -> "array[int]":
        """The list index of each sample."""
        return self._column(0)

    @property
    def levels(self) -> "array[int]":
        """The level of each sample in micro-units, or its word where the samples are raw."""
        return self._column(1)


class Outs(Rows[Out]):
    """Words that were put out, in the order of the answer."""

    _width, _word, _make = 4, "out ", Out

    @property
    def times(self) -> "array[int]":
        """The time of each word, in nanoseconds."""
        return self._column(1)

    @property
    def list_indices(self) -> "array[int]":
        """The list index of each word."""
        return self._column(2)

    @property
    def words(self) -> "array[int]":
        """The words, munged."""
        return self._column(3)


class Conversions(Rows[Conversion]):
    """The conversions of one command, in their order."""

    _width, _word, _make = 3, "raw ", Conversion

    @property
    def times(self) -> "array[int]":
        """The time of each conversion, in nanoseconds."""
        return self._column(0)

    @property
    def list_indices(self) -> "array[int]":
        """The list index of each conversion."""
        return self._column(1)

    @property
    def raws(self) -> "array[int]":
        """The word of each conversion before it is munged."""
        return self._column(2)
