"""Jobs: each command of the program `comedi` as a function of a job, with its answer parsed when it is asked for.

A job is a `Job`, its text, or the path of a file that holds it. One that is refused raises `Refused`.
"""
from __future__ import annotations

import os
import re
import subprocess
from pathlib import Path
from typing import Any, Iterator, List, NamedTuple, Optional, Sequence, Tuple, Union, overload

from .answers import Conversions, End, Outs, Samples, end_of
from .commands import Command
from .programs import find
from .refusals import ComediError, Failed, Refused, TimedOut, refusal_of
from .texts import Job, read_file

# A job, its text, or the path of a file that holds it. A text has several lines, so a line alone is a path.
JobLike = Union[str, Job, os.PathLike[str]]

#: How many seconds a job may take, where nothing else is said.
SECONDS = 300.0

# The line that ends a block of `expand`, `run`, `watch` and `loop`.
_END = re.compile(r"^(?:done|dry|(?:overrun|underrun|fifo|taken) \d+)\n", re.M)
# A line feed before an answer to a line of a session, or before an `out` line. A sample starts with a digit.
_BEFORE_ANSWER = re.compile(r"\n(?=[a-z])")


def text_of(job: JobLike) -> str:
    """The text of a job."""
    if isinstance(job, Job) or isinstance(job, str) and ("\n" in job or not job):
        return str(job)
    return read_file(job)


def ask(command: str, job: JobLike, timeout: Optional[float] = SECONDS) -> str:
    """The text that `comedi COMMAND` answers to a job. `command` is one of the program's words, or `soak N`.

    Refused where the job is refused, Failed where the program ends otherwise, TimedOut after `timeout` seconds; None is
    no limit.
    """
    return play(find("comedi"), command, text_of(job), timeout)


def play(program: Path, command: str, text: str, timeout: Optional[float]) -> str:
    """As `ask`, with a program that is found and the text of a job."""
    try:
        made = subprocess.run([str(program), *command.split()], input=text.encode("utf-8", "surrogateescape"),
                              stdout=subprocess.PIPE, stderr=subprocess.PIPE, timeout=timeout)
    except subprocess.TimeoutExpired as late:
        raise TimedOut("comedi " + command, late.timeout) from None
    answer = made.stdout.decode("ascii", "replace")
    if made.returncode == 0:
        return answer
    refusal = refusal_of(answer.split()) if made.returncode == 1 else None
    if refusal:
        raise Refused(*refusal, command, text, program)
    raise Failed("comedi " + command, made.returncode, made.stderr.decode("utf-8", "replace"))


def session_lines(job: JobLike) -> List[str]:
    """The lines of a job's session that are answered: neither empty nor comments."""
    return (job if isinstance(job, Job) else Job.parse(text_of(job))).asked


class Tested(NamedTuple):
    """What `test` answers to a command: its step and the command as the step leaves it, or an error number."""

    step: Optional[int]
    command: Optional[Command]
    errno: Optional[int] = None

    @classmethod
    def parse(cls, line: str) -> "Tested":
        """The answer of a line `step N COMMAND` or `err NUMBER`."""
        kind, number, rest = (line.split(None, 2) + [""])[:3]
        if kind == "err":
            return cls(None, None, int(number))
        return cls(int(number), Command.parse(rest))


class Expansion(NamedTuple):
    """What `expand` answers to a line: its conversions, and whether they are Done or Dry."""

    line: str
    conversions: Conversions
    end: End


class Stream(NamedTuple):
    """What `run`, `watch` and `loop` answer to a line: what was read or put out, and how the command ended."""

    line: str
    samples: Samples
    outs: Outs
    end: End


class Soaked(NamedTuple):
    """What a client of `soak` read of its subdevice: how many samples, and the sum of their codes."""

    subdev: int
    samples: int
    total: int
    end: End


class Reply:
    """The answer to one line of a session: `out` lines before it, its own line, and the samples of a read."""

    __slots__ = ("line", "text", "_answer", "_first", "_at", "_samples", "_last")

    def __init__(self, line: str, answer: str, first: int, at: int, last: int) -> None:
        """`answer` is the whole text. In it the `out` lines are from `first` to `at`, and the rest up to `last`."""
        self._answer, self._first, self._at, self._last = answer, first, at, last
        self._samples = answer.index("\n", at) + 1
        self.line, self.text = line, answer[at:self._samples - 1]

    @property
    def is_ok(self) -> bool:
        """Whether the line was answered `ok`."""
        return self.text.startswith("ok")

    @property
    def values(self) -> List[int]:
        """The numbers after `ok`: how many samples, the codes of an instruction, and the like."""
        return [int(word) for word in self.text.split()[1:] if word.isdigit()] if self.is_ok else []

    @property
    def end(self) -> Optional[End]:
        """How the command ended, where this line reported it."""
        return end_of(self.text.split()[2:])

    @property
    def error(self) -> Optional[ComediError]:
        """The error of a line that was answered `err`."""
        return None if self.is_ok else error_of(self.text, self.line)

    @property
    def samples(self) -> Samples:
        """The samples of a read."""
        return Samples(self._answer[self._samples:self._last])

    @property
    def outs(self) -> Outs:
        """The words that were put out before this line was answered."""
        return Outs(self._answer[self._first:self._at])

    def __repr__(self) -> str:
        return "<%s -> %s>" % (self.line, self.text)


def error_of(text: str, line: str) -> ComediError:
    """The error of an answer `err NUMBER ..` to a line of a session."""
    words = text.split(None, 3)
    if len(words) == 4 and len(words[3].split()) == 8:
        return ComediError(int(words[1]), None, line, int(words[2]), Command.parse(words[3]))
    return ComediError(int(words[1]), end_of(text.split()[2:]), line)


class Replay(Sequence[Reply]):
    """The answer to a session: a reply for each of its lines."""

    def __init__(self, lines: Sequence[str], text: str) -> None:
        self.text, self._session = text, lines
        self._made: Optional[List[Reply]] = None

    def _replies(self) -> List[Reply]:
        if self._made is None:
            self._made = list(self._walk())
        return self._made

    def _walk(self) -> Iterator[Reply]:
        starts = [0, *(found.end() for found in _BEFORE_ANSWER.finditer(self.text)), len(self.text)]
        number = 0
        for line in self._session:
            first = starts[number]
            while self.text.startswith("out ", starts[number]):
                number += 1
            yield Reply(line, self.text, first, starts[number], starts[number + 1])
            number += 1

    def __len__(self) -> int:
        return len(self._session)

    @overload
    def __getitem__(self, at: int) -> Reply: ...

    @overload
    def __getitem__(self, at: slice) -> List[Reply]: ...

    def __getitem__(self, at: Union[int, slice]) -> Union[Reply, List[Reply]]:
        return self._replies()[at]

    def samples(self, subdev: int = 0) -> Samples:
        """All samples that were read of a subdevice, in their order."""
        return Samples("".join(reply.samples.text for reply in self._replies()
                               if reply.line.split(None, 4)[3:4] == [str(subdev)]))

    def outs(self, subdev: Optional[int] = None) -> Outs:
        """All words that were put out, or those of one subdevice, in the order of the answer."""
        text = "".join(reply.outs.text for reply in self._replies())
        if subdev is None:
            return Outs(text)
        return Outs("".join(line for line in text.splitlines(keepends=True) if line.startswith("out %d " % subdev)))

    @property
    def ends(self) -> List[Tuple[str, End]]:
        """Each line that reported how a command ended, with that end."""
        found = [(reply.line, reply.end) for reply in self._replies()]
        return [(line, end) for line, end in found if end is not None]

    @property
    def errors(self) -> List[ComediError]:
        """The errors of all lines that were answered `err`."""
        return [error for error in (reply.error for reply in self._replies()) if error is not None]


def parsed(command: str, job: JobLike, answer: str) -> Any:
    """The text of an answer to a job, parsed: what the function with the command's name gives."""
    if command == "test":
        return [Tested.parse(line) for line in answer.splitlines()]
    lines = session_lines(job)
    if command in ("replay", "insn"):
        return Replay(lines, answer)
    if command == "expand":
        return [Expansion(line, Conversions(text), end) for line, (text, end) in zip(lines, _blocks(answer))]
    made = _streams(lines, answer)
    return made[0] if command == "loop" else made


def test(job: JobLike, timeout: Optional[float] = SECONDS) -> List[Tested]:
    """Whether a board takes commands: an answer for each `test` line."""
    return list(parsed("test", job, ask("test", job, timeout)))


setattr(test, "__test__", False)  # pytest doesn't collect it where it is imported


def expand(job: JobLike, timeout: Optional[float] = SECONDS) -> List[Expansion]:
    """When the conversions of commands come: an answer for each `expand` line."""
    return list(parsed("expand", job, ask("expand", job, timeout)))


def replay(job: JobLike, timeout: Optional[float] = SECONDS) -> Replay:
    """The answer to a session in board time."""
    return Replay(session_lines(job), ask("replay", job, timeout))


def insn(job: JobLike, timeout: Optional[float] = SECONDS) -> Replay:
    """The answer to a session of files, locks and instructions alone."""
    return Replay(session_lines(job), ask("insn", job, timeout))


def run(job: JobLike, timeout: Optional[float] = SECONDS) -> List[Stream]:
    """What clients with threads read and put out: an answer for each `go` and `drive` line."""
    return _streams(session_lines(job), ask("run", job, timeout))


def watch(job: JobLike, timeout: Optional[float] = SECONDS) -> List[Stream]:
    """What one client with a thread reads of all inputs: an answer for each `go` line."""
    return _streams(session_lines(job), ask("watch", job, timeout))


def loop(job: JobLike, timeout: Optional[float] = SECONDS) -> Stream:
    """What an output puts out that follows an input: the answer to the `loop` line."""
    return _streams(session_lines(job), ask("loop", job, timeout))[0]


def soak(samples: int, timeout: Optional[float] = SECONDS) -> List[Soaked]:
    """What four clients read of a large run that is made from a number of samples."""
    rows = [line.split() for line in ask("soak %d" % samples, "", timeout).splitlines()]
    return [Soaked(int(row[1]), int(row[2]), int(row[3]), _end(row[4:])) for row in rows if row[0] == "soak"]


def _end(words: Sequence[str]) -> End:
    end = end_of(words)
    if end is None:
        raise ValueError("no end: " + " ".join(words))
    return end


def _blocks(answer: str) -> Iterator[Tuple[str, End]]:
    """The blocks of an answer, each as its text and the end after it."""
    first = 0
    for found in _END.finditer(answer):
        yield answer[first:found.start()], _end(found.group().split())
        first = found.end()


def _streams(lines: Sequence[str], answer: str) -> List[Stream]:
    made = []
    for line, (text, end) in zip(lines, _blocks(answer)):
        is_out = line.split()[0] != "go"
        made.append(Stream(line, Samples("" if is_out else text), Outs(text if is_out else ""), end))
    return made
