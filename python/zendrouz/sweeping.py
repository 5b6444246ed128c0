"""Jobs by the thousand: one for each point of a grid, side by side, and a row for each.

    rows = sweep(make_job, {"period": [10_000, 20_000], "channels": [1, 2, 4]}, csv="rows.csv")

`make_job(period=10_000, channels=1)` gives the text of a point's job. The program plays it, and the row has the point's
values and what `measure` makes of the answer.
"""
from __future__ import annotations

import contextlib
import importlib
import importlib.util
import itertools
import os
import re
import signal
import threading
from concurrent.futures import Executor, Future, ThreadPoolExecutor
from pathlib import Path
from queue import Empty, SimpleQueue
from typing import Any, Callable, Dict, Iterable, Iterator, List, Literal, Mapping, Optional, Tuple, Union, overload

from .jobs import SECONDS, JobLike, parsed, play, text_of
from .programs import find
from .refusals import Refused
from .tables import Table, digest_of
from .texts import PathLike

Row = Dict[str, Any]
Grid = Union[Mapping[str, Iterable[Any]], Iterable[Mapping[str, Any]]]
MakeJob = Callable[..., JobLike]
Measure = Callable[[Any], Mapping[str, Any]]

#: How many jobs an executor has at most, those that run and those that wait.
MOST_GIVEN = 1000
#: How many seconds longer than one job may take an executor may be silent, as while its workers start.
MOST_SILENT = 300.0
_END = re.compile(r"(?:ok 0 |err 32 )?(done|dry|(?:taken|overrun|underrun|fifo) \d+)")


class SweepFailed(Exception):
    """A point of a sweep has no row. `point` has its values, and the file `job` the text of its job, where it has one."""

    def __init__(self, point: Mapping[str, Any], reason: str, job: Optional[Path] = None) -> None:
        super().__init__(point, reason, job)
        self.point, self.reason, self.job = dict(point), reason, job

    def __str__(self) -> str:
        values = ", ".join("%s=%r" % item for item in self.point.items())
        return "%s: %s" % (values, self.reason) + (". Its job is in %s" % self.job if self.job else "")


def points_of(grid: Grid) -> List[Row]:
    """The points of a grid: all combinations of a mapping's values, the last name changing fastest, or those listed."""
    if isinstance(grid, Mapping):
        return [dict(zip(grid, values)) for values in itertools.product(*grid.values())]
    return [dict(point) for point in grid]


def summary(command: str, answer: str) -> Row:
    """The columns of a row where no `measure` is given.

    Of `test` they are `steps` and `errors`. Of the others `samples`, `words` (that were put out), `errors` (lines that
    were answered `err`) and `ends`, the reported ends of the commands, as `done` or `overrun 5`.
    """
    lines = answer.splitlines()
    errors = sum(line.startswith("err ") for line in lines)
    if command == "test":
        return {"steps": ", ".join(line.split()[1] for line in lines if line.startswith("step ")), "errors": errors}
    ends = [found.group(1) for found in map(_END.fullmatch, lines) if found]
    return {"samples": sum(line[:1].isdigit() for line in lines), "words": sum(line.startswith("out ") for line in lines),
            "errors": errors, "ends": ", ".join(ends)}


def columns_of(program: Path, command: str, job: str, measure: Optional[Measure], timeout: Optional[float]) -> Row:
    """Plays a job where an executor wants it: the columns of its row."""
    answer = play(program, command, job, timeout)
    return dict(measure(parsed(command, job, answer)) if measure else summary(command, answer))


def _reason(error: Exception) -> str:
    """An error in one line."""
    if isinstance(error, Refused):
        return "refused %d %s" % (error.line, error.cause)
    return "%s: %s" % (type(error).__name__, str(error).partition("\n")[0])


class _Sweep:
    """The jobs of a sweep that are under way, and the rows so far."""

    def __init__(self, points: List[Row], table: Table, bar: Any, timeout: Optional[float]) -> None:
        self.points, self.table, self.bar, self.timeout = points, table, bar, timeout
        self.rows: Dict[int, Row] = {}
        self.given: Dict[Future[Any], Tuple[int, str, str]] = {}
        # with None for an interrupt
        self.finished: SimpleQueue[Optional[Future[Any]]] = SimpleQueue()
        self.is_interrupted = False

    def run(self, executor: Executor, make_job: MakeJob, command: str, measure: Optional[Measure]) -> None:
        program = find("comedi")
        for at, point in enumerate(self.points):
            try:
                job = text_of(make_job(**point))
            except Exception as error:
                raise SweepFailed(point, _reason(error)) from error
            digest = digest_of(command, point, job)
            kept = self.table.row(digest)
            if kept is not None:
                self.keep(at, kept)
                continue
            while len(self.given) == MOST_GIVEN or not self.finished.empty():
                self.take()
            future = executor.submit(columns_of, program, command, job, measure, self.timeout)
            self.given[future] = at, job, digest
            future.add_done_callback(self.finished.put)
        while self.given or not self.finished.empty():
            self.take()

    def take(self) -> None:
        """Waits for a job, and takes its row."""
        limit = None if self.timeout is None else self.timeout + MOST_SILENT
        try:
            future = self.finished.get(timeout=limit)
        except Empty:
            at, job, _ = next(iter(self.given.values()))
            reason = "no job has come back from the executor for %g s, and this one is the first that waits" % (limit or 0)
            raise SweepFailed(self.points[at], reason, self.table.leave(job)) from None
        if future is None:
            raise KeyboardInterrupt
        at, job, digest = self.given.pop(future)
        try:
            columns = future.result()
        except Exception as error:
            if self.is_interrupted:  # a terminal interrupts the programs, too
                raise KeyboardInterrupt from error
            raise SweepFailed(self.points[at], _reason(error), self.table.leave(job)) from error
        self.add(at, columns, digest)

    def add(self, at: int, columns: Row, digest: str) -> None:
        row = {**self.points[at], **columns}
        self.table.append(row, digest)
        self.keep(at, row)

    def keep(self, at: int, row: Row) -> None:
        self.rows[at] = {**row, **self.points[at]}
        if self.bar is not None:
            self.bar.update()

    def give_up(self) -> None:
        """Keeps the rows of the jobs that are done by now."""
        for future, (at, _, digest) in self.given.items():
            if future.done() and not future.cancelled() and not future.exception():
                self.add(at, future.result(), digest)


@contextlib.contextmanager
def _interrupts(state: _Sweep) -> Iterator[None]:
    """Lets the first interrupt end the sweep between two calls of the executor, as None among the finished jobs. Raised
    within such a call, it could leave a lock of the executor held, and the sweep would never end. The second interrupt is
    raised where it comes. A program's own handler stays."""
    ours = (threading.current_thread() is threading.main_thread()
            and signal.getsignal(signal.SIGINT) is signal.default_int_handler)

    def note(*_: Any) -> None:
        signal.signal(signal.SIGINT, signal.default_int_handler)
        state.is_interrupted = True
        state.finished.put(None)
    if ours:
        signal.signal(signal.SIGINT, note)
    try:
        yield
    finally:
        if ours:
            signal.signal(signal.SIGINT, signal.default_int_handler)


def _bar(progress: bool, total: int) -> Any:
    """A bar on a terminal, where that is wanted and tqdm is there."""
    if progress and importlib.util.find_spec("tqdm"):
        return importlib.import_module("tqdm").tqdm(total=total, unit="job", disable=None)
    return None


@overload
def sweep(make_job: MakeJob, grid: Grid, command: str = ..., executor: Optional[Executor] = ...,
          csv: Optional[PathLike] = ..., progress: bool = ..., measure: Optional[Measure] = ...,
          frame: Literal[False] = ..., timeout: Optional[float] = ...) -> List[Row]: ...


@overload
def sweep(make_job: MakeJob, grid: Grid, command: str = ..., executor: Optional[Executor] = ...,
          csv: Optional[PathLike] = ..., progress: bool = ..., measure: Optional[Measure] = ..., *,
          frame: Literal[True], timeout: Optional[float] = ...) -> Any: ...


def sweep(make_job: MakeJob, grid: Grid, command: str = "replay", executor: Optional[Executor] = None,
          csv: Optional[PathLike] = None, progress: bool = True, measure: Optional[Measure] = None,
          frame: bool = False, timeout: Optional[float] = SECONDS) -> Any:
    """Plays a job for each point of a grid, and gives a row for each, in the grid's order.

    `make_job` is called with a point's values by their names, here and not in the executor. `command` is the word of the
    program: replay, expand, test, insn, run, watch or loop. `measure` gets the answer as the function of that name gives
    it, and makes its columns: numbers and texts. It goes to the executor, so for processes it has to be a function of a
    module. Without it the columns are those of `summary`.

    `executor` is any of `concurrent.futures`, of Dask (`client.get_executor()`) or of mpi4py; without it as many programs
    run beside each other as there are processors. With `csv` each row is written as it comes, and a sweep that was
    interrupted goes on from there: a row counts as long as its command, its point and its job are the same, so another
    `measure` wants another file. With `frame` the rows are a `pandas.DataFrame`.

    A job that is refused, breaks off, or takes longer than `timeout` seconds ends the sweep with `SweepFailed`. So does
    an executor from which nothing comes back for 300 seconds more, as one whose workers are gone. None is no limit.
    """
    points = points_of(grid)
    table = Table(Path(csv) if csv is not None else None)
    state = _Sweep(points, table, _bar(progress, len(points)), timeout)
    used = ThreadPoolExecutor(len(os.sched_getaffinity(0))) if executor is None else executor
    try:
        with _interrupts(state):
            state.run(used, make_job, command, measure)
    except BaseException:
        for future in state.given:
            future.cancel()
        if executor is None:
            used.shutdown()
        state.give_up()
        raise
    finally:
        if executor is None:
            used.shutdown()
        table.close()
        if state.bar is not None:
            state.bar.close()
    rows = [state.rows[at] for at in range(len(points))]
    return importlib.import_module("pandas").DataFrame(rows) if frame else rows
