"""What the tests share: what they need beside the package, and limits, so that none of them waits for ever."""
import importlib
import os
import shutil
import signal
import subprocess
import sys
import unittest
from pathlib import Path
from typing import Any, Callable, Mapping, Optional, Sequence

from zendrouz import Missing, find
from zendrouz.texts import PathLike

TOP = Path(__file__).resolve().parents[2]
CLIB_TESTS = TOP / "clib" / "tests"
CLIENTS = TOP / "clib" / "out" / "tests"
SMALL = CLIB_TESTS / "small.board"
#: How many seconds a test may take, and how often it is stopped again where it waits for something else then.
SECONDS, AGAIN = 60.0, 5.0


class Case(unittest.TestCase):
    """Tests that fail where one takes longer than `seconds`."""

    seconds = SECONDS

    def run(self, result: Optional[unittest.TestResult] = None) -> Optional[unittest.TestResult]:
        def stop(*_: object) -> None:
            raise TimeoutError("%s hangs: it takes longer than %g s" % (self.id(), self.seconds))

        before = signal.signal(signal.SIGALRM, stop)
        signal.setitimer(signal.ITIMER_REAL, self.seconds, AGAIN)
        try:
            return super().run(result)
        finally:
            signal.setitimer(signal.ITIMER_REAL, 0)
            signal.signal(signal.SIGALRM, before)


def needs(name: str) -> Callable[[Any], Any]:
    """Skips a test or a class of tests where a program isn't there, with what is missing."""
    try:
        find(name)
    except Missing as missing:
        return unittest.skip(str(missing))
    return lambda test: test


def wanted(module: str) -> Any:
    """A module that may be missing: then the test is skipped."""
    try:
        return importlib.import_module(module)
    except ImportError:
        raise unittest.SkipTest("%s isn't there" % module)


def start(words: Sequence[PathLike], variables: Mapping[str, str] = {}, cwd: PathLike = TOP) -> "subprocess.Popen[str]":
    """Starts a program in a process group of its own. Python finds the package, and PATH is as here."""
    found = {"PYTHONPATH": str(TOP / "python"), "PYTHONDONTWRITEBYTECODE": "1"}
    return subprocess.Popen(words, env={**os.environ, **found, **variables}, cwd=cwd, stdin=subprocess.DEVNULL,
                            stdout=subprocess.PIPE, stderr=subprocess.PIPE, text=True, start_new_session=True)


def finish(started: "subprocess.Popen[str]", seconds: float = SECONDS) -> "subprocess.CompletedProcess[str]":
    """What a program that `start` started prints up to its end. It is killed, and the test fails, where that takes too long."""
    try:
        out, error = started.communicate(timeout=seconds)
    except BaseException as late:
        os.killpg(started.pid, signal.SIGKILL)
        out, error = started.communicate(timeout=AGAIN)
        if not isinstance(late, subprocess.TimeoutExpired):
            raise
        raise AssertionError("%r takes longer than %g s:\n%s%s" % (started.args, seconds, out, error)) from None
    return subprocess.CompletedProcess(started.args, started.returncode, out, error)


def run_python(*words: PathLike, variables: Mapping[str, str] = {}, cwd: PathLike = TOP,
               seconds: float = SECONDS) -> "subprocess.CompletedProcess[str]":
    """Runs this Python with some words up to its end."""
    return finish(start([sys.executable, *words], variables, cwd), seconds)


def build_clients() -> None:
    """Builds the device library and the clients of clib/tests, or skips what needs them."""
    if not shutil.which("make") or not shutil.which("cc") or not Path("/usr/include/comedilib.h").exists():
        raise unittest.SkipTest("make, a C compiler or Debian's libcomedi-dev isn't there")
    done = finish(start(["make", "-s", "-C", TOP / "clib", "all", "clients"]), 2 * SECONDS)
    if done.returncode:
        raise AssertionError("clib isn't built:\n" + done.stdout + done.stderr)
