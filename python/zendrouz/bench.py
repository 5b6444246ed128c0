"""Unmodified programs that use Comedi, run on a modelled board.

    run = run_program(["./logger", "-n", "3"], board=Board.named("ni_pci_6221"))
    assert run.status == 0 and not run.lost

The device library is loaded into the program, as `with_board` does, and what the program asked comes back as a job.
"""
from __future__ import annotations

import os
import re
import subprocess
import tempfile
from dataclasses import dataclass, field
from pathlib import Path
from typing import IO, Dict, Mapping, Optional, Sequence, Tuple, Union

from .answers import Done, Dry, End, end_of
from .facts import head_of
from .programs import find, kill
from .refusals import TimedOut
from .texts import Board, PathLike, Signals, write_file

_END = re.compile(r"^# (\d+) end: (?:ok 0|err 32) (.*)$", re.M)
#: The date that a program's clocks show where it opens the board, so that it does the same in each run.
START = "2030-01-01T00:00:00Z"
#: The last line of a record of which nothing is missing.
_WHOLE = "# the record is whole\n"
#: Room for more lines, which a program that was killed leaves before it.
_ROOM = re.compile(r"^# *\n\Z", re.M)


@dataclass(frozen=True)
class CommandEnd:
    """How a command of a program ended, and the board's time in nanoseconds at which that was reported."""

    time: int
    end: End


@dataclass(frozen=True)
class ProgramRun:
    """What a program did on a modelled board.

    `status` is its exit status, or below 0 the signal that ended it. `output` and `error` are what it printed. `record` is
    a job of `replay`: the board, the signals, and each line of the session that the program held. `ends` has the ends of
    its commands that were reported to it.
    """

    status: int
    output: str
    error: str
    record: str = field(repr=False)
    ends: Tuple[CommandEnd, ...] = ()

    @property
    def lost(self) -> Tuple[CommandEnd, ...]:
        """The ends at which a sample was lost, or a word was missing: overrun, fifo and underrun."""
        return tuple(end for end in self.ends if not isinstance(end.end, (Done, Dry)))


class ProgramTimedOut(TimedOut):
    """A program on a modelled board that was killed. `run` has what it did by then."""

    def __init__(self, name: str, timeout: float, run: ProgramRun) -> None:
        super().__init__(name, timeout)
        self.args = name, timeout, run
        self.run = run

    def __str__(self) -> str:
        return "%s. The last line of its record: %s" % (super().__str__(), self.run.record.splitlines()[-1])


class RecordCut(Exception):
    """A program's record isn't whole: a line couldn't be written. So it isn't known what the program lost.

    `run` has what the program did, and its record as far as it goes. The reason is the last line of `run.error`.
    """

    def __init__(self, name: str, run: ProgramRun) -> None:
        super().__init__(name, run)
        self.name, self.run = name, run

    def __str__(self) -> str:
        said = [line for line in self.run.error.splitlines() if line.startswith("zendrouz: ZENDROUZ_LOG=")]
        return "%s: the record isn't whole, so it isn't known what was lost. %s" % (
            self.name, said[-1] if said else "Is there room for it in %s?" % tempfile.gettempdir())


def run_program(args: Sequence[PathLike], *, board: Union[Board, PathLike], signals: Union[Signals, str, None] = None,
                call_ns: Optional[int] = None, timeout: float = 60.0, input: str = "", folder: Optional[PathLike] = None,
                environment: Optional[Mapping[str, str]] = None, start: Optional[str] = START) -> ProgramRun:
    """Runs a program, to which the modelled board is `/dev/comedi0`, up to its end.

    `board` and `signals` are as in `head_of`. Each call of the device file takes `call_ns` nanoseconds of the board's
    time, 1000 where that isn't said. After `timeout` seconds the program is killed with its children, and
    `ProgramTimedOut` is raised, and `RecordCut` if the record of what it asked isn't whole. `input` is what the program
    reads, `folder` where it runs. `environment` has variables besides those of this process, as ZENDROUZ_WAKE
    (docs/CLIENTS.md has them all). `start` is the date that its clocks show from the open of the board on, and None
    that of the system.
    """
    with tempfile.TemporaryDirectory(prefix="zendrouz_") as name:
        files = Path(name)
        head = head_of(board, signals)
        write_file(files / "board", head)
        write_file(files / "input", input)
        variables = {**os.environ, **({"ZENDROUZ_START": start} if start else {}), **(environment or {})}
        variables.update(_device(files, variables.get("LD_PRELOAD")))
        if call_ns is not None:
            variables["ZENDROUZ_CALL_NS"] = str(call_ns)
        with open(files / "input", "rb") as given, open(files / "output", "wb") as output, open(files / "error", "wb") as error:
            status, is_late = _run([os.fspath(arg) for arg in args], variables, folder, (given, output, error), timeout)
        lines, is_whole = _record(files / "log")
        ends = [CommandEnd(int(time), end) for time, words in _END.findall(lines) for end in [end_of(words.split())] if end]
        run = ProgramRun(status, _text(files / "output"), _text(files / "error"), head + lines, tuple(ends))
    if is_late:
        raise ProgramTimedOut(os.path.basename(args[0]), timeout, run)
    if not is_whole:
        raise RecordCut(os.path.basename(args[0]), run)
    return run


def _device(files: Path, loaded: Optional[str]) -> Dict[str, str]:
    """The variables by which the device library is loaded, finds its board and its core, and keeps its record."""
    library = find("libzendrouz_comedi.so")
    if re.search("[ :]", str(library)):  # where LD_PRELOAD would end the name
        (files / "device.so").symlink_to(library)
        library = files / "device.so"
    return {"ZENDROUZ_BOARD": str(files / "board"), "ZENDROUZ_LOG": str(files / "log"),
            "ZENDROUZ_CORE": str(find("comedi_serve")), "LD_PRELOAD": "%s:%s" % (loaded, library) if loaded else str(library)}


def _run(words: Sequence[str], variables: Mapping[str, str], folder: Optional[PathLike],
         files: Tuple[IO[bytes], IO[bytes], IO[bytes]], timeout: float) -> Tuple[int, bool]:
    """The status of a program, and whether it had to be killed, with all that it started."""
    started = subprocess.Popen(words, env=variables, cwd=folder, stdin=files[0], stdout=files[1], stderr=files[2],
                               start_new_session=True)
    try:
        return started.wait(timeout), False
    except subprocess.TimeoutExpired:
        return kill(started), True
    except BaseException:
        kill(started)
        raise


def _record(path: Path) -> Tuple[str, bool]:
    """The lines of a record, and whether it is whole. A program that opened no board has none."""
    text = _text(path)
    return (_ROOM.sub("", text[:-len(_WHOLE)]), True) if text.endswith(_WHOLE) else (text, not path.exists())


def _text(path: Path) -> str:
    return path.read_text(encoding="utf-8", errors="replace") if path.exists() else ""
