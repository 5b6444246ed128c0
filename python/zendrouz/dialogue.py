"""The pipes to a program that is asked line by line. Nothing waits longer than a limit."""
from __future__ import annotations

import os
import select
import subprocess
from pathlib import Path
from typing import Optional

from .programs import kill
from .refusals import Failed, TimedOut


class Dialogue:
    """A program that answers lines. Where it doesn't go on for `timeout` seconds it is killed, and TimedOut is raised."""

    def __init__(self, program: Path, timeout: Optional[float]) -> None:
        self._name, self._timeout = program.name, timeout
        # In a process group of its own it isn't reached by an interrupt that means the client.
        self._process = subprocess.Popen([str(program)], stdin=subprocess.PIPE, stdout=subprocess.PIPE, bufsize=0,
                                         start_new_session=True)
        assert self._process.stdin is not None and self._process.stdout is not None
        self._stdin, self._stdout = self._process.stdin.fileno(), self._process.stdout.fileno()
        self._room, self._more = select.poll(), select.poll()
        self._room.register(self._stdin, select.POLLOUT)
        self._more.register(self._stdout, select.POLLIN)
        # What has come, and where in it the next line starts.
        self._came, self._at = b"", 0

    def send(self, text: str) -> None:
        """Writes a text. Of a program that has ended the next answer, or its status, says why."""
        data = text.encode("utf-8", "surrogateescape")
        try:
            for at in range(0, len(data), select.PIPE_BUF):  # a piece for which there is room doesn't block
                self._wait(self._room)
                os.write(self._stdin, data[at:at + select.PIPE_BUF])
        except BrokenPipeError:
            pass

    def next_line(self) -> str:
        """The next line, with its line feed; Failed where the program has ended."""
        while True:
            end = self._came.find(b"\n", self._at) + 1
            if end:
                line = self._came[self._at:end]
                self._at = end
                return line.decode("ascii", "replace")
            self._wait(self._more)
            piece = os.read(self._stdout, 1 << 16)
            if not piece:
                raise Failed(self._name, self.end())
            self._came, self._at = self._came[self._at:] + piece, 0

    def end(self) -> int:
        """Ends the program by the end of its input, and answers its status."""
        try:
            self._process.communicate(timeout=self._timeout)
        except subprocess.TimeoutExpired as late:
            raise TimedOut(self._name, late.timeout) from None
        finally:
            self.kill()
        return self._process.returncode

    def kill(self) -> None:
        """Kills the program where it still runs, with all that it started."""
        kill(self._process)
        for pipe in (self._process.stdin, self._process.stdout):
            if pipe is not None:
                pipe.close()

    def _wait(self, poll: "select.poll") -> None:
        """Waits until a pipe has room, or more to read."""
        if not poll.poll(None if self._timeout is None else self._timeout * 1000):
            self.kill()
            raise TimedOut(self._name, self._timeout or 0)
