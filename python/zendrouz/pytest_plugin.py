"""The fixture `bench` of pytest: programs, sessions and jobs whose records go into the report where a test fails."""
from __future__ import annotations

import os
from textwrap import shorten
from typing import Any, Callable, Generator, List, Optional, Sequence, Tuple, TypeVar, Union, cast

import pytest

from .bench import ProgramRun, ProgramTimedOut, RecordCut, run_program
from .jobs import SECONDS, JobLike, Replay, replay, text_of
from .session import Session
from .texts import Board, PathLike, Signals, write_file

#: How many lines of a record a report shows at most. The file that it names has all of them.
MOST_LINES = 200

_Hook = TypeVar("_Hook", bound=Callable[..., Any])
_wrapper = cast(Callable[[_Hook], _Hook], cast(Any, pytest.hookimpl)(hookwrapper=True))


class Bench:
    """What a test does with modelled boards, and its records: each is a job that `comedi replay` plays."""

    def __init__(self, folders: pytest.TempPathFactory, call_ns: Optional[int]) -> None:
        self._folders, self._call_ns = folders, call_ns
        self._records: List[Tuple[str, Callable[[], str]]] = []

    def run_program(self, args: Sequence[PathLike], *, board: Union[Board, PathLike], signals: Union[Signals, str, None] = None,
                    call_ns: Optional[int] = None, **settings: Any) -> ProgramRun:
        """As `zendrouz.run_program`. Where `call_ns` isn't given it is that of the test's marker."""
        call_ns = self._call_ns if call_ns is None else call_ns
        title = shorten(" ".join([os.path.basename(args[0]), *map(str, args[1:])]), 60)
        try:
            run = run_program(args, board=board, signals=signals, call_ns=call_ns, **settings)
        except (ProgramTimedOut, RecordCut) as failed:
            self._keep(title, failed.run.record)
            raise
        self._keep(title, run.record)
        return run

    def session(self, board: Union[Board, PathLike], signals: Union[Signals, str, None] = None, **settings: Any) -> Session:
        """A `zendrouz.Session`, for a `with` statement."""
        session = Session(board, signals, **settings)
        self._records.append(("session", lambda: session.record))
        return session

    def replay(self, job: JobLike, timeout: Optional[float] = SECONDS) -> Replay:
        """As `zendrouz.replay`."""
        self._keep("replay", text_of(job))
        return replay(job, timeout)

    def _keep(self, title: str, record: str) -> None:
        self._records.append((title, lambda: record))

    def reports(self) -> List[Tuple[str, str]]:
        """Each record with its title. It is left in a file, too, and a long one is shown up to its first lines and its last."""
        made, folder = [], self._folders.mktemp("records")
        for number, (title, record) in enumerate(self._records, 1):
            path = folder / ("record_%d.txt" % number)
            text = record()
            write_file(path, text)
            lines = text.splitlines()
            if len(lines) > MOST_LINES:
                half = MOST_LINES // 2
                lines[half:-half] = ["# .. %d lines more stand in the file" % (len(lines) - 2 * half)]
            made.append(("record %d: %s" % (number, title), "\n".join(["# comedi replay < %s" % path, *lines])))
        return made


#: Where a test has its bench, also one that only its fixtures asked for.
_BENCH = pytest.StashKey[Bench]()


def pytest_configure(config: pytest.Config) -> None:
    config.addinivalue_line("markers", "call_ns(nanoseconds): how much of the board's time each call of the device file takes, "
                                       "in the programs that the test runs by `bench`")


@pytest.fixture
def bench(request: pytest.FixtureRequest, tmp_path_factory: pytest.TempPathFactory) -> Bench:
    """Modelled boards: `run_program`, `session` and `replay`. Where the test fails, their records go into its report."""
    marker = request.node.get_closest_marker("call_ns")
    made = Bench(tmp_path_factory, int(marker.args[0]) if marker else None)
    request.node.stash[_BENCH] = made
    return made


@_wrapper
def pytest_runtest_makereport(item: pytest.Item) -> Generator[None, Any, None]:
    outcome = yield
    report = outcome.get_result()
    made = item.stash.get(_BENCH, None)
    if made is not None and report.failed and report.when != "teardown":
        for title, text in made.reports():
            report.sections.append((title, text))
            item.user_properties.append((title, text))
