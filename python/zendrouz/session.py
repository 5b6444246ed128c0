"""A session held as a dialogue with `comedi_serve`: each call is a line, answered before the next one is asked.

The session has a time in nanoseconds. It goes on by `advance` and `poll` alone, so the same calls have the same
answers.
"""
from __future__ import annotations

from contextlib import contextmanager
from types import TracebackType
from typing import (TYPE_CHECKING, Any, Callable, Dict, Iterable, Iterator, List, Literal, NamedTuple, Optional, Tuple,
                    Type, Union, overload)

from .answers import End, Out, Outs, Sample, Samples, end_of
from .commands import Channel, Command, Number, whole
from .dialogue import Dialogue
from .facts import head_of
from .jobs import Tested, error_of
from .programs import find
from .refusals import Refused, refusal_of
from .texts import Board, PathLike, Signals, Subdevice

if TYPE_CHECKING:
    from numpy.typing import NDArray


class Info(NamedTuple):
    """How a subdevice stands: samples read and written (of an output: put out and marked).

    `end` is how its command ended, Idle where none was called, and None while it runs.
    """

    read: int
    written: int
    end: Optional[End]


class Turn(NamedTuple):
    """A line of the record, the words that were put out before its answer, and that answer with its samples.

    The answer is None where another question was asked, as `codes`, for which a line of `replay` stands in the record.
    """

    line: str
    outs: str
    answer: Optional[str]


class Session:
    """A board with its signals, and the files of its clients. Used in a `with` statement.

    The board is a `Board`, a text, or the path of a file; signals that such a text has count where no others are given.
    Without any the horizon is the greatest, and all levels are 0.

    Each call takes the file that asks: 0, where it isn't said. Where the subdevice isn't said, `read`, `read_codes` and
    `map` take the first input that has commands, `write`, `fill` and `mark` the first such output, and the others the
    one of the last command. A line that is answered `err` raises ComediError, one that isn't taken at all Refused.

    Where the program is silent for `timeout` seconds it is killed, and TimedOut is raised; where it ends by itself,
    Failed. An answer that is interrupted ends the session, too. The record stays, with all that was answered.
    """

    def __init__(self, board: Union[Board, PathLike], signals: Union[Signals, str, None] = None,
                 timeout: Optional[float] = 60.0) -> None:
        self._head = head_of(board, signals)
        self.board = Board.parse(self._head)
        # The time in nanoseconds at which the next line is asked.
        self.now = 0
        # What was put out so far, and how the last command of each subdevice ended, once that was reported.
        self.outs: List[Out] = []
        self.ends: Dict[int, End] = {}
        self.turns: List[Turn] = []
        self._timeout = timeout
        self._dialogue: Optional[Dialogue] = None
        self._last = 0

    # The dialogue

    def __enter__(self) -> "Session":
        self._dialogue = Dialogue(find("comedi_serve"), self._timeout)
        self._describe(self._head)
        return self

    def __exit__(self, kind: Optional[Type[BaseException]], error: Optional[BaseException],
                 trace: Optional[TracebackType]) -> None:
        self.end()

    def end(self) -> Optional[int]:
        """Ends the program, and answers its status. The record stays."""
        dialogue, self._dialogue = self._dialogue, None
        return dialogue.end() if dialogue is not None else None

    @property
    def record(self) -> str:
        """The session so far as a job, which `replay` plays to the same answers."""
        return self._head + "".join(turn.line + "\n" for turn in self.turns)

    @contextmanager
    def _asking(self) -> Iterator[Dialogue]:
        """The program, for a question and its whole answer. Where that breaks off, what follows isn't to be trusted."""
        dialogue = self._dialogue
        if dialogue is None:
            raise ValueError("the session isn't open: it is used in a `with` statement, up to the end of its program")
        try:
            yield dialogue
        except BaseException:
            self._dialogue = None
            dialogue.kill()
            raise

    def _ask(self, line: str, follows: bool = False) -> Tuple[str, str, List[str]]:
        """The lines of what was put out before the answer to a line, that answer, and the samples that follow it."""
        with self._asking() as dialogue:
            dialogue.send(line + "\n")
            outs, answer = [], dialogue.next_line()
            while answer.startswith("out "):
                outs.append(answer)
                answer = dialogue.next_line()
            words = answer.split()
            samples = [dialogue.next_line() for _ in range(int(words[1]) if follows and words[0] == "ok" else 0)]
        put_out = "".join(outs)
        if outs:
            self.outs += Outs(put_out)
        refusal = refusal_of(words)
        if refusal:
            raise self._refused(*refusal, line)
        return put_out, answer, samples

    def _refused(self, number: int, cause: str, line: str) -> Refused:
        """What a refusal says: of the board and the signals, which ends the program, or of a line after the record."""
        if number <= self._head.count("\n"):
            self.end()
            return Refused(number, cause, "replay", self._head)
        return Refused(self.record.count("\n") + 1, cause, "replay", self.record + line + "\n")

    def _line(self, key: str, subdev: Optional[int], *words: object, file: int = 0, record: Optional[str] = None,
              follows: bool = False) -> List[str]:
        """The words after `ok` of the answer to a line of the session.

        `record` is the line that stands for it in the record, where that is another one, and `follows` says that the
        samples follow the answer.
        """
        rest = [subdev, *words] if subdev is not None else list(words)
        line = " ".join([str(whole(self.now)), key, str(file), *map(str, rest)])
        outs, answer, samples = self._ask(line, follows)
        result = answer.split()
        said = answer + "".join(samples)
        self.turns.append(Turn(record or line, outs, None if record else said))
        if result[0] == "err":
            error = error_of(answer, line)
            if error.end is not None and subdev is not None:
                self.ends[subdev] = error.end
            raise error
        end = end_of(result[2:])
        if end is not None and subdev is not None:
            self.ends[subdev] = end
        return samples if follows else result[1:]

    def _question(self, key: str, subdev: int, *words: object, file: int) -> List[str]:
        """The answer to a question that changes nothing. In the record it is `contents`, which has the same checks."""
        return self._line(key, subdev, *words, file=file, record="%d contents %d %d" % (self.now, file, subdev))

    def _first(self, fits: Callable[[Subdevice], bool]) -> int:
        """The first subdevice that takes commands and fits, or the first of all."""
        found = [at for at, sub in enumerate(self.board.subdevices) if sub.takes_commands and fits(sub)]
        return found[0] if found else 0

    def _input(self, subdev: Optional[int]) -> int:
        return subdev if subdev is not None else self._first(lambda sub: not sub.is_output)

    def _output(self, subdev: Optional[int]) -> int:
        return subdev if subdev is not None else self._first(lambda sub: sub.is_output)

    def _any(self, subdev: Optional[int]) -> int:
        return subdev if subdev is not None else self._last

    # Time and files

    def advance(self, nanoseconds: Number) -> int:
        """Lets so many nanoseconds pass, and answers the time."""
        self.now += whole(nanoseconds)
        return self.now

    def open(self, file: int = 0) -> None:
        """Opens the board."""
        self._line("open", None, file=file)

    def close(self, file: int = 0) -> None:
        """Closes a file: its locks are given up, its commands end, and what their buffers hold is dropped."""
        self._line("close", None, file=file)

    def lock(self, subdev: Optional[int] = None, file: int = 0) -> None:
        """Locks a subdevice: no other file may start or cancel a command there, or do an instruction."""
        self._line("lock", self._any(subdev), file=file)

    def unlock(self, subdev: Optional[int] = None, file: int = 0) -> None:
        """Gives a lock up."""
        self._line("unlock", self._any(subdev), file=file)

    def describe(self) -> Board:
        """The board as the program has it, with its defaults."""
        return self._describe("")

    def _describe(self, before: str) -> Board:
        """The board after some text before the question, which may be refused."""
        with self._asking() as dialogue:
            dialogue.send(before + "describe\n")
            text, line = "", dialogue.next_line()
            while line != "ok\n" and not line.startswith("refused "):
                text, line = text + line, dialogue.next_line()
        refusal = refusal_of(line.split())
        if refusal:
            raise self._refused(*refusal, "describe")
        return Board.parse(text)

    # Commands

    def command(self, command: Union[Command, str], file: int = 0) -> None:
        """Gives a subdevice a command. Where its test isn't 0, the error has the step and what the test made of it."""
        text = str(command)
        subdev = int(text.split()[0])
        self._line("cmd", None, text, file=file)
        self.ends.pop(subdev, None)
        self._last = subdev

    def command_test(self, command: Union[Command, str]) -> Tuple[int, Command]:
        """The first step of the test that a command fails, or 0, and the command as that step leaves it."""
        line = "test %s" % command
        answer = self._ask(line)[1]
        tested = Tested.parse(answer)
        if tested.step is None or tested.command is None:
            raise error_of(answer, line)
        return tested.step, tested.command

    def cancel(self, subdev: Optional[int] = None, file: int = 0) -> None:
        """Ends a command, and drops what its buffer holds."""
        self._line("cancel", self._any(subdev), file=file)

    def trigger(self, subdev: Optional[int] = None, number: int = 0, file: int = 0) -> None:
        """Gives the internal trigger that a command waits for. `number` is its start argument."""
        self._line("insn", self._any(subdev), "inttrig", number, file=file)

    def poll(self, samples: int = 1, subdev: Optional[int] = None, file: int = 0) -> int:
        """Lets time pass until so many samples are there, and answers the time.

        Of an output it is room for so many words. It comes back earlier where the command has ended, and goes to the
        horizon where neither comes.
        """
        self.now = int(self._question("await", self._any(subdev), samples, file=file)[0])
        return self.now

    def info(self, subdev: Optional[int] = None, file: int = 0) -> Info:
        """How a subdevice stands."""
        words = self._question("info", self._any(subdev), file=file)
        return Info(int(words[0]), int(words[1]), end_of(words[2:]))

    def contents(self, subdev: Optional[int] = None, file: int = 0) -> int:
        """How many samples are in the buffer, or how many words of an output are marked and not put out."""
        return int(self._line("contents", self._any(subdev), file=file)[0])

    def ended(self, subdev: Optional[int] = None) -> Optional[End]:
        """How the last command of a subdevice ended, where a read or a write has reported it."""
        return self.ends.get(self._any(subdev))

    # Inputs

    def read(self, samples: int, subdev: Optional[int] = None, file: int = 0) -> Samples:
        """Up to so many samples, with their levels in micro-units. Where none is left, `ended` says how it ended."""
        return Samples("".join(self._line("read", self._input(subdev), samples, file=file, follows=True)))

    @overload
    def read_codes(self, samples: int, subdev: Optional[int] = None, file: int = 0,
                   array: Literal[False] = False) -> List[int]: ...

    @overload
    def read_codes(self, samples: int, subdev: Optional[int] = None, file: int = 0, *,
                   array: Literal[True]) -> "NDArray[Any]": ...

    def read_codes(self, samples: int, subdev: Optional[int] = None, file: int = 0,
                   array: bool = False) -> Union[List[int], "NDArray[Any]"]:
        """Up to so many samples as codes: a list, or with `array` a numpy array of 32 bits."""
        number = self._input(subdev)
        read = "%d read %d %d %d" % (self.now, file, number, samples)
        words = self._line("codes", number, samples, file=file, record=read)
        codes = words[1:1 + int(words[0])]
        if not array:
            return [int(code) for code in codes]
        import numpy
        return numpy.array(codes, dtype=numpy.uint32)

    def map(self, samples: int, subdev: Optional[int] = None, file: int = 0) -> int:
        """Maps up to so many samples more, and answers how many."""
        return int(self._line("map", self._input(subdev), samples, file=file)[0])

    def look(self, at: int = 0, subdev: Optional[int] = None, file: int = 0) -> Sample:
        """A mapped sample, counted from 0 at the first one that isn't released."""
        return Samples(" ".join(self._line("look", self._input(subdev), at, file=file)) + "\n")[0]

    def peek(self, first: int, samples: int, subdev: Optional[int] = None, file: int = 0) -> List[int]:
        """The codes of up to so many mapped samples, from one on. In the record each of them is looked at."""
        number = self._input(subdev)
        line = "%d peek %d %d %d %d" % (self.now, file, number, first, samples)
        outs, answer, _ = self._ask(line)
        words = answer.split()
        looks = ["%d look %d %d %d" % (self.now, file, number, first + at) for at in range(len(words) - 2)]
        looks = looks if words[0] == "ok" and looks else ["%d contents %d %d" % (self.now, file, number)]
        self.turns += [Turn(look, "" if at else outs, None) for at, look in enumerate(looks)]
        if words[0] == "err":
            raise error_of(answer, line)
        return [int(code) for code in words[2:]]

    def release(self, samples: int, subdev: Optional[int] = None, file: int = 0) -> int:
        """Gives the first mapped samples back, so that there is room for new ones."""
        return int(self._line("release", self._input(subdev), samples, file=file)[0])

    # Outputs

    def write(self, words: Iterable[Number], subdev: Optional[int] = None, file: int = 0) -> int:
        """Stores and marks up to 1024 codes, and answers for how many there was room."""
        return int(self._line("write", self._output(subdev), *map(whole, words), file=file)[0])

    def fill(self, words: Iterable[Number], subdev: Optional[int] = None, file: int = 0) -> int:
        """Stores up to 1024 codes, which aren't put out until they are marked."""
        return int(self._line("fill", self._output(subdev), *map(whole, words), file=file)[0])

    def mark(self, words: int, subdev: Optional[int] = None, file: int = 0) -> int:
        """Marks so many of the words that are filled, and answers how many there were."""
        return int(self._line("mark", self._output(subdev), words, file=file)[0])

    # Instructions

    def insn_read(self, subdev: int, channel: Union[int, Channel], count: int = 1, file: int = 0) -> List[int]:
        """So many codes of a channel: of an input its level now, of an output the value that it keeps."""
        words = self._line("insn", subdev, "read", _entry(channel), count, file=file)
        return [int(word) for word in words[1:]]

    def insn_write(self, subdev: int, channel: Union[int, Channel], values: Iterable[Number], file: int = 0) -> int:
        """Writes codes to a channel, which keeps the last of them. Answers how many."""
        return int(self._line("insn", subdev, "write", _entry(channel), *map(whole, values), file=file)[0])

    def insn_bits(self, subdev: int, mask: int = 0, bits: int = 0, file: int = 0) -> int:
        """Sets the outputs in `mask` to `bits`, and answers the state of the first 32 lines, a bit for each."""
        return int(self._line("insn", subdev, "bits", mask, bits, file=file)[2])

    def insn_config(self, subdev: int, channel: Union[int, Channel], direction: int, file: int = 0) -> None:
        """Makes a digital line an input (0) or an output (1)."""
        self._line("insn", subdev, "config", _entry(channel), direction, file=file)

    def insn_gtod(self, subdev: int = 0, file: int = 0) -> Tuple[int, int]:
        """The time as seconds and microseconds."""
        words = self._line("insn", subdev, "gtod", file=file)
        return int(words[1]), int(words[2])


def _entry(channel: Union[int, Channel]) -> Channel:
    return channel if isinstance(channel, Channel) else Channel(channel)
