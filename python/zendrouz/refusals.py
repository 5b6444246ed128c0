"""What the programs refuse, as exceptions. What a refusal means and its repair come from scripts/explain.py."""
from __future__ import annotations

import errno as numbers
import os
import re
import subprocess
import sys
import tempfile
from pathlib import Path
from typing import Dict, List, Optional, Tuple

from .answers import End
from .commands import Command
from .programs import Missing, find, folder

_TITLE = re.compile(r"(\S[^:]*):\s+(.*)")
#: How many seconds an explanation may take, which runs the program some times.
_SECONDS = 20.0


class Refused(Exception):
    """A job, or a line of a session, that the program refuses.

    `line` is the number of the line, counted from 1 over the whole text, `cause` is one of the causes of
    docs/REFUSALS.md, and `text` is the line itself. `word` is the word at fault, `form` the form of such a line with
    its limits, and `repair` a line that is taken, or what to do. These are found when they are asked for, which runs
    the program some times. Each is None where it isn't known.
    """

    def __init__(self, line: int, cause: str, command: str, job: str, program: Optional[Path] = None) -> None:
        lines = job.split("\n")
        super().__init__(line, cause, command, job, program)
        self.line, self.cause, self.command, self.job, self._program = line, cause, command, job, program
        self.text = lines[line - 1] if 0 < line <= len(lines) else ""
        self._explanation: Optional[str] = None

    @property
    def answer(self) -> str:
        """The answer of the program, `refused LINE CAUSE`."""
        return "refused %d %s" % (self.line, self.cause)

    @property
    def explanation(self) -> str:
        """All that scripts/explain.py says of it; nothing where the script isn't there."""
        if self._explanation is None:
            self._explanation = self._explained()
        return self._explanation

    @property
    def word(self) -> Optional[str]:
        """The word at fault, as it stands in the line."""
        lines = self.explanation.split("\n")
        for above, line in zip(lines, lines[1:]):
            if re.fullmatch(r" *\^+", line):
                return above[line.index("^"):len(line)]
        return None

    @property
    def form(self) -> Optional[str]:
        """The form of such a line, with its limits."""
        return self._said().get("the form")

    @property
    def repair(self) -> Optional[str]:
        """A line that is taken in place of one like it, or what to do."""
        said = self._said()
        return said.get("taken, as", said.get("what to do"))

    def _said(self) -> Dict[str, str]:
        """What the explanation says by its titles, the first of each."""
        found = [_TITLE.fullmatch(line) for line in self.explanation.split("\n")]
        return {match.group(1): match.group(2) for match in reversed(found) if match}

    def _explained(self) -> str:
        try:
            script, program = folder("scripts") / "explain.py", self._program or find("comedi")
        except Missing:
            return ""
        with tempfile.NamedTemporaryFile("w", encoding="utf-8", errors="surrogateescape", suffix=".txt") as file:
            file.write(self.job)
            file.flush()
            try:
                made = subprocess.run([sys.executable, str(script), "-p", str(program), self.command, file.name],
                                      stdout=subprocess.PIPE, stderr=subprocess.DEVNULL, timeout=_SECONDS)
            except subprocess.TimeoutExpired:
                return ""
        said = made.stdout.decode("ascii", "replace").replace(file.name, "JOB")
        return said if ("\nrefused " in "\n" + said and " %s\n" % self.cause in said) else ""

    def __str__(self) -> str:
        if not self.explanation:
            return "%s: %s" % (self.answer, self.text)
        return self.answer + "\n" + self.explanation.split("\n", 1)[1].rstrip("\n")


class ComediError(Exception):
    """A line of a session that is answered `err`.

    `errno` is Comedi's number, as errno.EINVAL, and `end` how the command ended where that is what was reported. Of a
    command that the board doesn't take, `step` is the step of its test that failed, and `command` what the test made of
    it. `line` is the line of the session.
    """

    def __init__(self, errno: int, end: Optional[End] = None, line: str = "", step: Optional[int] = None,
                 command: Optional[Command] = None) -> None:
        super().__init__(errno, end, line, step, command)
        self.errno, self.end, self.line, self.step, self.command = errno, end, line, step, command

    def __str__(self) -> str:
        said = "err %d %s (%s)" % (self.errno, numbers.errorcode.get(self.errno, ""), os.strerror(self.errno))
        said += ", %s" % self.end if self.end else ""
        said += ", step %d of the test, which would take `%s`" % (self.step, self.command) if self.step else ""
        return said + (": " + self.line if self.line else "")


class Failed(Exception):
    """A program that ended otherwise than with an answer or a refusal: its status, and what it wrote to its errors."""

    MEANINGS = {2: "it takes no such words", 3: "its input failed", 4: "its output failed", 5: "memory ran out",
                6: "it isn't built, and couldn't be"}

    def __init__(self, name: str, status: int, error: str = "") -> None:
        super().__init__(name, status, error)
        self.name, self.status, self.error = name, status, error

    def __str__(self) -> str:
        meaning = self.MEANINGS.get(self.status, "a signal" if self.status < 0 else "")
        return "%s ended with status %d%s%s" % (self.name, self.status, ": " + meaning if meaning else "",
                                                "\n" + self.error if self.error else "")


class TimedOut(Exception):
    """A program that was killed, since it took longer than `timeout` seconds."""

    def __init__(self, name: str, timeout: float) -> None:
        super().__init__(name, timeout)
        self.name, self.timeout = name, timeout

    def __str__(self) -> str:
        return "%s: killed after %g s" % (self.name, self.timeout)


def refusal_of(words: List[str]) -> Optional[Tuple[int, str]]:
    """The line and the cause of `refused LINE CAUSE`; None of other words."""
    return (int(words[1]), words[2]) if len(words) == 3 and words[0] == "refused" else None
