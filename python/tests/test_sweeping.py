"""Sweeps: grids, executors, CSV, and jobs that fail."""
import concurrent.futures
import multiprocessing
import os
import shutil
import signal
import sys
import tempfile
import time
import unittest
from pathlib import Path
from typing import Any, Callable, Dict, List, Mapping, Optional
from unittest import mock

from needed import SECONDS, TOP, Case, finish, needs, run_python, start, wanted
from zendrouz import Refused
from zendrouz.jobs import Replay
from zendrouz.sweeping import Row, SweepFailed, points_of, sweep
from zendrouz.tables import cell_of, value_of

EXAMPLES = TOP / "examples"
BOARD = """comedi 1
board swept
subdevice ai 1
bits 8
range 0 255 0
sources now timer now count count
tick 1
scan 1 1000000
convert 1 1
list 1
buffer 4
signals 100000
wave 0 0 saw 0 100 100000
session
"""
GRID = {"period": [500, 1000, 2000], "wait": [1000, 4000, 9000]}

ELSEWHERE = """
import sys
sys.path.insert(0, {tests!r})
from test_sweeping import GRID, make_job
from zendrouz import sweep
if __name__ == "__main__":
    with {executor} as executor:
        print("executes", executor.submit(abs, -1).result(20), flush=True)
        print("the same:", sweep(make_job, GRID, executor=executor) == sweep(make_job, GRID), flush=True)
"""

INTERRUPTED = """
import signal, sys
signal.signal(signal.SIGINT, signal.default_int_handler)  # a background job of a shell has it ignored
sys.path.insert(0, {tests!r})
from test_sweeping import make_job
from zendrouz import sweep
sweep(make_job, {{"period": range(100, 3100), "wait": [1000]}}, csv={csv!r})
"""


def make_job(period: object, wait: int) -> str:
    """Eight samples, `period` nanoseconds each, and a client that comes only after `wait`."""
    command = "0 0 now:0 timer:%s now:0 count:1 count:8 0/0/ground" % period
    return BOARD + "0 open 0\n0 cmd 0 %s\n%d read 0 0 8\n%d read 0 0 8\n%d read 0 0 8\n" % (command, wait, 2 * wait, 2 * wait)


def levels(answer: Replay) -> Dict[str, Any]:
    """A measure: the greatest level, and how many lines have answers."""
    return {"greatest": max(answer.samples(0).levels, default=None), "lines": len(answer)}


def refuse_words(answer: Replay) -> Dict[str, Any]:
    raise ValueError("no such measure")


def die(answer: Replay) -> Dict[str, Any]:
    os.kill(os.getpid(), signal.SIGKILL)
    return {}


class AtOnce(concurrent.futures.Executor):
    """An executor that does what it is given at once."""

    def submit(self, work: Callable[..., Any], /, *words: Any, **named: Any) -> "concurrent.futures.Future[Any]":
        future: "concurrent.futures.Future[Any]" = concurrent.futures.Future()
        future.set_result(work(*words, **named))
        return future


class Interrupted(concurrent.futures.Executor):
    """An executor of programs that an interrupt of the terminal ends, before it is noted."""

    class Future(concurrent.futures.Future):  # type: ignore[type-arg]
        def result(self, timeout: Optional[float] = None) -> Any:
            signal.raise_signal(signal.SIGINT)
            raise OSError("ended by signal 2")

    def submit(self, work: Callable[..., Any], /, *words: Any, **named: Any) -> "concurrent.futures.Future[Any]":
        future = self.Future()
        future.set_result(None)
        return future


class Silent(concurrent.futures.Executor):
    """An executor whose workers are gone."""

    def submit(self, work: Callable[..., Any], /, *words: Any, **named: Any) -> "concurrent.futures.Future[Any]":
        return concurrent.futures.Future()


def processes(workers: int = 2) -> concurrent.futures.ProcessPoolExecutor:
    """A pool of processes. They aren't forked, since a process that has threads, as of other tests, isn't safely forked."""
    return concurrent.futures.ProcessPoolExecutor(workers, mp_context=multiprocessing.get_context("spawn"))


class Points(Case):
    def test_a_mapping_has_all_combinations(self) -> None:
        self.assertEqual(points_of({"a": [1, 2], "b": "xy"}),
                         [{"a": 1, "b": "x"}, {"a": 1, "b": "y"}, {"a": 2, "b": "x"}, {"a": 2, "b": "y"}])
        self.assertEqual(points_of([{"a": 1}, {"a": 5}]), [{"a": 1}, {"a": 5}])


@needs("comedi")
class Rows(Case):
    rows: List[Row]

    @classmethod
    def setUpClass(cls) -> None:
        cls.rows = sweep(make_job, GRID)

    def test_a_row_has_the_point_and_what_came(self) -> None:
        self.assertEqual([(row["period"], row["wait"]) for row in self.rows],
                         [(period, wait) for period in GRID["period"] for wait in GRID["wait"]])
        self.assertEqual(self.rows[1], {"period": 500, "wait": 4000, "samples": 4, "words": 0, "errors": 1, "ends": "overrun 4"})
        self.assertEqual(self.rows[3], {"period": 1000, "wait": 1000, "samples": 3, "words": 0, "errors": 0, "ends": ""})

    def test_a_measure_makes_the_columns(self) -> None:
        rows = sweep(make_job, GRID, measure=levels)
        self.assertEqual(rows[0], {"period": 500, "wait": 1000, "greatest": 2, "lines": 5})

    def test_each_command_has_its_columns(self) -> None:
        def row(command: str, name: str) -> Row:
            text = (EXAMPLES / (name + ".txt")).read_text()
            return sweep(lambda name: text, [{"name": name}], command)[0]
        self.assertEqual(row("test", "test_repaired_twice")["steps"], "3, 4, 0")
        self.assertEqual(row("expand", "expand_lost_edges")["ends"], "done, dry, done")
        self.assertEqual(row("run", "run_four_lines")["ends"], "done, taken 4, done, done")
        self.assertEqual(row("loop", "loop_two_channels")["words"], 14)
        self.assertEqual(row("watch", "watch_three_inputs")["samples"], 22)

    def test_executors_give_the_same_rows(self) -> None:
        measured = sweep(make_job, GRID, measure=levels)
        for pool in (concurrent.futures.ThreadPoolExecutor(3), processes()):
            with pool as executor:
                self.assertEqual(sweep(make_job, GRID, executor=executor), self.rows)
                self.assertEqual(sweep(make_job, GRID, executor=executor, measure=levels), measured)

    def check_elsewhere(self, module: str, executor: str, variables: Mapping[str, str] = {}) -> None:
        """Whether an executor of a package gives the same rows, in a process of its own, which may hang."""
        wanted(module)
        with tempfile.TemporaryDirectory() as folder:
            script = Path(folder, "swept.py")
            script.write_text(ELSEWHERE.format(tests=str(Path(__file__).parent), executor=executor))
            done = run_python(script, variables=variables, seconds=SECONDS / 2)
        if "executes" not in done.stdout:
            self.skipTest("%s is there, but doesn't start" % module)
        self.assertIn("the same: True", done.stdout, done.stderr)

    def test_dask_gives_the_same_rows(self) -> None:
        self.check_elsewhere("distributed", "__import__('distributed').Client(processes=False, n_workers=1, "
                                            "threads_per_worker=2, dashboard_address=None).get_executor()")

    def test_mpi_gives_the_same_rows(self) -> None:
        self.check_elsewhere("mpi4py.futures", "__import__('mpi4py.futures').futures.MPIPoolExecutor(1, main=False)",
                             {"OMPI_ALLOW_RUN_AS_ROOT": "1", "OMPI_ALLOW_RUN_AS_ROOT_CONFIRM": "1"})

    def test_the_rows_may_be_a_frame(self) -> None:
        wanted("pandas")
        self.assertEqual(sweep(make_job, GRID, frame=True).to_dict("records"), self.rows)

    def test_many_jobs(self) -> None:
        rows = sweep(lambda number: make_job(1000, 1000 + number), {"number": range(500)})
        self.assertEqual([row["number"] for row in rows], list(range(500)))


@needs("comedi")
class Tables(Case):
    def setUp(self) -> None:
        folder = tempfile.TemporaryDirectory()
        self.addCleanup(folder.cleanup)
        self.csv = Path(folder.name, "rows.csv")
        self.made = 0

    def counted(self, period: int, wait: int) -> str:
        self.made += 1
        return make_job(period, wait)

    def test_cells_keep_their_values(self) -> None:
        for value in (0, -5, 1.5, True, None, "", "done", "5", "null", "a, b", 'a "b"', "two\nlines", "[]"):
            cell = cell_of(value)
            self.assertEqual((value_of(cell), "\n" in cell), (value, False))

    def test_an_interrupted_sweep_goes_on(self) -> None:
        def broken(period: int, wait: int) -> str:
            if (period, wait) == (2000, 1000):
                raise KeyboardInterrupt
            return make_job(period, wait)
        with self.assertRaises(KeyboardInterrupt):
            sweep(broken, GRID, executor=AtOnce(), csv=self.csv, measure=levels)
        kept = self.csv.read_text()
        self.assertEqual(kept.splitlines()[0], "period,wait,greatest,lines,job")
        self.assertEqual(len(kept.splitlines()), 7)
        self.csv.write_text(kept + "2000,1000,1")  # and a line that was being written
        rows = sweep(make_job, GRID, csv=self.csv, measure=levels)
        self.assertEqual(rows, sweep(make_job, GRID, measure=levels))
        self.assertEqual(self.csv.read_text()[:len(kept)], kept)
        self.assertEqual(len(self.csv.read_text().splitlines()), 10)
        self.assertEqual(sweep(make_job, GRID, csv=self.csv, measure=levels), rows)

    def test_an_interrupt_isn_t_a_job_that_fails(self) -> None:
        with self.assertRaises(KeyboardInterrupt), mock.patch.object(signal, "getsignal", return_value=signal.default_int_handler):
            sweep(make_job, GRID, executor=Interrupted(), csv=self.csv)

    def test_an_interrupt_keeps_what_is_done(self) -> None:
        script = INTERRUPTED.format(tests=str(Path(__file__).parent), csv=str(self.csv))
        started, late = start([sys.executable, "-c", script]), time.monotonic() + SECONDS / 2
        while time.monotonic() < late and (not self.csv.exists() or self.csv.read_bytes().count(b"\n") < 20):
            time.sleep(0.01)
        os.killpg(started.pid, signal.SIGINT)  # as a terminal does it, to the programs, too
        self.assertIn("KeyboardInterrupt", finish(started, SECONDS / 2).stderr)
        kept = self.csv.read_text().splitlines()
        self.assertGreaterEqual(len(kept), 20)
        self.assertLess(len(kept), 3001)
        rows = sweep(make_job, {"period": range(100, 100 + len(kept)), "wait": [1000]}, csv=self.csv)
        self.assertEqual(rows, sweep(make_job, {"period": range(100, 100 + len(kept)), "wait": [1000]}))
        self.assertEqual(self.csv.read_text().splitlines()[:len(kept)], kept)

    def test_a_row_counts_as_long_as_its_job_is_the_same(self) -> None:
        sweep(make_job, GRID, csv=self.csv)
        rows = sweep(lambda period, wait: make_job(period, wait).replace("saw 0 100", "saw 0 200"), GRID, csv=self.csv)
        self.assertEqual(len(rows), 9)
        self.assertEqual(len(self.csv.read_text().splitlines()), 19)

    def test_another_file_is_left_alone(self) -> None:
        self.csv.write_text("a,b\n1,2")
        with self.assertRaisesRegex(ValueError, "not the rows of a sweep"):
            sweep(make_job, GRID, csv=self.csv)
        self.assertEqual(self.csv.read_text(), "a,b\n1,2")

    def test_other_columns_want_another_file(self) -> None:
        sweep(make_job, [{"period": 500, "wait": 1000}], csv=self.csv)
        with self.assertRaisesRegex(ValueError, "its columns are period, wait, samples"):
            sweep(make_job, GRID, csv=self.csv, measure=levels)

    def test_a_refused_job_names_its_point_and_leaves_its_text(self) -> None:
        with self.assertRaises(SweepFailed) as raised:
            sweep(lambda period: make_job(period, 1000), {"period": [500, "5e3"]}, csv=self.csv)
        failed = raised.exception
        self.assertEqual((failed.point, failed.reason), ({"period": "5e3"}, "refused 16 BadNumber"))
        self.assertIsInstance(failed.__cause__, Refused)
        assert failed.job is not None
        self.assertEqual(failed.job.read_text(), make_job("5e3", 1000))
        self.assertIn("period='5e3': refused 16 BadNumber. Its job is in", str(failed))

    def test_what_makes_a_job_or_measures_it_may_fail_too(self) -> None:
        with self.assertRaisesRegex(SweepFailed, "period=500, wait=1000: TypeError"):
            sweep(lambda period: "", GRID)
        with self.assertRaisesRegex(SweepFailed, "ValueError: no such measure") as raised:
            sweep(make_job, GRID, measure=refuse_words)
        assert raised.exception.job is not None
        shutil.rmtree(raised.exception.job.parent)

    def test_a_job_that_hangs(self) -> None:
        program = self.csv.with_name("comedi")
        program.write_text("#!/bin/sh\nexec sleep 60\n")
        program.chmod(0o755)
        with mock.patch.dict(os.environ, ZENDROUZ_COMEDI=str(program)):
            with self.assertRaisesRegex(SweepFailed, "TimedOut: comedi replay: killed after 0.2 s"):
                sweep(make_job, GRID, csv=self.csv, timeout=0.2)

    def test_an_executor_that_is_silent(self) -> None:
        wanted = "period=500, wait=1000: no job has come back from the executor for 0.2 s"
        with mock.patch("zendrouz.sweeping.MOST_SILENT", 0.1), self.assertRaisesRegex(SweepFailed, wanted):
            sweep(make_job, GRID, csv=self.csv, executor=Silent(), timeout=0.1)

    def test_a_process_that_dies(self) -> None:
        with processes() as executor, self.assertRaisesRegex(SweepFailed, "BrokenProcessPool"):
            sweep(make_job, GRID, csv=self.csv, executor=executor, measure=die)

    def test_a_program_that_breaks_off(self) -> None:
        with self.assertRaisesRegex(SweepFailed, "Failed: comedi measure ended with status 2"):
            sweep(make_job, GRID, "measure", csv=self.csv)


if __name__ == "__main__":
    unittest.main()
