"""What the parts of clib/check share: programs that are run on modelled boards, and what is expected of them."""

import os
import re
import shutil
import signal
import stat
import subprocess
import sys
import tempfile
import threading
import time

HERE = os.path.dirname(os.path.abspath(__file__))
TOP = os.path.dirname(HERE)
TESTS = os.path.join(HERE, "tests")
DEMOS = "/usr/share/doc/libcomedi-dev/demo"
LIBRARY = "libzendrouz_comedi.so"
PROGRAM = "comedi_serve"
# what is built once, and stands in the folder of each part by a link
BUILT = (LIBRARY, "counting.so", "old_library.so", "slow_waits.so", "tests", "sanitized", "programs")
# the last line of a record of which nothing is missing
WHOLE = "# the record is whole"
SECONDS = 60
SECONDS_OF_ALL = 600
SECONDS_OF_AN_END = 20


def text_of(name):
    with open(os.path.join(TESTS, name), encoding="utf-8") as file:
        return file.read()


def write_file(path, text, executable=False):
    os.makedirs(os.path.dirname(path), exist_ok=True)
    with open(path, "w", encoding="utf-8") as file:
        file.write(text)
    if executable:
        os.chmod(path, os.stat(path).st_mode | stat.S_IXUSR)
    return path


def installed(packages, is_there):
    """Whether something is there; installs Debian's packages for it where that can be done."""
    if not is_there() and shutil.which("apt-get") and os.geteuid() == 0:
        install = ["apt-get", "install", "-y", "-q", "--no-install-recommends"]
        for command in ["apt-get", "update", "-q"], *(install + group for group in packages):
            try:
                subprocess.run(command, stdin=subprocess.DEVNULL, stdout=subprocess.DEVNULL, stderr=subprocess.DEVNULL, timeout=120)
            except subprocess.TimeoutExpired:
                break
    return is_there()


def python_with_comedi():
    for python in (sys.executable, "/usr/bin/python3"):
        if os.path.exists(python) and not subprocess.run([python, "-c", "from comedi import comedi; comedi.comedi_open"], cwd="/",
                                                         stdout=subprocess.DEVNULL, stderr=subprocess.DEVNULL).returncode:
            return python
    return None


class Run:
    """What a program printed, its status and its record."""

    def __init__(self, status, out, err, record):
        self.status, self.out, self.err, self.record = status, out, err, record

    def codes(self):
        """The samples that a client of the tests read."""
        return [int(code) for line in re.findall(r"^read:(.*)$", self.out, re.M) for code in line.split()]

    def outs(self):
        return [line[2:] for line in self.record if line.startswith("# out ")]


def samples_of(record, answers):
    """The samples that the lines of a record were answered with, the words put out, and no refusal."""
    samples, outs, answers = [], [], iter(answers)
    for words in record:
        answer = next(answers, "")
        while answer.startswith("out "):
            outs.append(answer)
            answer = next(answers, "")
        parts = answer.split()
        if words[1] == "read" and parts[0] == "ok":
            samples += [int(next(answers).split()[1]) for _ in range(int(parts[1]))]
        elif words[1] == "look" and parts[0] == "ok":
            samples.append(int(parts[2]))
    return samples, outs, ""


def processes_of(mark):
    """The processes with this text in their environment."""
    found = []
    for name in os.listdir("/proc"):
        try:
            with open("/proc/%s/environ" % name, "rb") as file:
                if name.isdigit() and mark.encode() in file.read():
                    found.append(int(name))
        except OSError:
            pass
    return found


class Programs:
    """The programs under test, what is built for the tests, and the end of the time of all parts."""

    def __init__(self, serve, comedi, quick):
        self.serve, self.comedi, self.quick = serve, comedi, quick
        self.top = tempfile.mkdtemp(prefix="clib-check-")
        self.end = time.monotonic() + SECONDS_OF_ALL
        self.lock = threading.Lock()

    def path(self, name):
        return os.path.join(self.top, name)


class Check:
    """The runs of one part, in a folder of its own, and what they gave."""

    def __init__(self, programs, name):
        self.programs, self.name = programs, name
        self.serve, self.comedi, self.quick = programs.serve, programs.comedi, programs.quick
        self.folder = tempfile.mkdtemp(prefix="part-", dir=programs.top)
        for built in BUILT:
            os.symlink(programs.path(built), self.path(built))
        self.passed = self.failed = self.left_out = 0
        self.is_late = self.is_cut = False
        self.said = []

    def seconds(self, most=SECONDS):
        """How long a run may take now."""
        left = self.programs.end - time.monotonic()
        self.is_late = left < most
        return max(0.1, min(most, left))

    def path(self, name):
        return os.path.join(self.folder, name)

    def say(self, text):
        self.said.append(text)

    def leave_out(self, name, why, count=1):
        """Counts a check that isn't made, or so many of them. Too many fail the whole run."""
        self.left_out += count
        self.say("LEFT OUT: %s: %s" % (name, why))

    def expect(self, name, right, *shown):
        if right:
            self.passed += 1
            return
        if self.is_cut:
            self.leave_out(name, "the time was over")
            return
        self.failed += 1
        self.say("FAILED: " + name)
        for text in shown:
            self.say("\n".join("    " + line for line in str(text).split("\n")[:40]))

    def settings(self, board, **more):
        """The environment of a program on a board."""
        return dict(dict(os.environ, LD_PRELOAD=self.path("counting.so") + ":" + self.path(LIBRARY), COUNTING=self.programs.path("counts"),
                         ZENDROUZ_LOG=self.path("record"), ZENDROUZ_CORE=self.serve, CLIB_CHECK=self.folder,
                         ZENDROUZ_BOARD=os.path.join(TESTS, board + ".board")), **more)

    def start(self, words, settings):
        return subprocess.Popen(words, env=settings, cwd=self.folder, stdin=subprocess.DEVNULL, stdout=subprocess.PIPE,
                                stderr=subprocess.PIPE, start_new_session=True)

    def finish(self, started, most=SECONDS):
        """Waits for a program, and never longer than it may run. Answers its output and its errors."""
        try:
            return started.communicate(timeout=self.seconds(most))
        except subprocess.TimeoutExpired:
            os.killpg(started.pid, signal.SIGKILL)
            self.is_cut = self.is_late
        try:
            out, err = started.communicate(timeout=5)
        except subprocess.TimeoutExpired:
            out, err = b"", b""
        return out, err + b"\nstopped: it took too long"

    def expect_no_process(self, what):
        """All processes of a program end with it, comedi_serve too."""
        end = time.monotonic() + SECONDS_OF_AN_END
        left = processes_of("CLIB_CHECK=" + self.folder)
        while left and time.monotonic() < end:
            time.sleep(0.005)
            left = processes_of("CLIB_CHECK=" + self.folder)
        if left:
            self.expect("%s leaves no process" % (what,), False, left)
        for process in left:
            os.kill(process, signal.SIGKILL)

    def run(self, board, words, most=SECONDS, **environment):
        """Runs a program on a board. It must leave no process."""
        self.is_cut = False
        record = self.path("record")
        if os.path.exists(record):
            os.remove(record)
        started = self.start(words, self.settings(board, **environment))
        out, err = self.finish(started, most)
        self.expect_no_process(words)
        lines = []
        if os.path.exists(record):
            with open(record, encoding="utf-8") as file:
                lines = file.read().splitlines()
            if lines[-1:] == [WHOLE]:
                lines.pop()
                if lines and not lines[-1].strip("# "):  # a program that was killed leaves room for more
                    lines.pop()
            else:
                self.expect("%s: its record is whole" % (words,), environment.get("ZENDROUZ_LOG"), lines[-5:])
        return Run(started.returncode, out.decode(errors="replace"), err.decode(errors="replace"), lines)

    def replay(self, board, record):
        """The lines that `comedi replay` answers to a record, and why it is refused, if it is."""
        job = text_of(board + ".board") + "\n".join(record) + "\n"
        try:
            done = subprocess.run([self.comedi, "replay"], input=job.encode(), stdout=subprocess.PIPE, timeout=self.seconds())
        except subprocess.TimeoutExpired:
            self.is_cut = self.is_late
            return [], "stopped: it took too long"
        lines = done.stdout.decode().splitlines()
        if done.returncode:
            return [], lines[0] if lines else "status %d" % done.returncode
        return lines, ""

    def replayed(self, board, record):
        """The samples and the words put out of a record, as `comedi replay` answers it."""
        lines, refusal = self.replay(board, record)
        if refusal:
            return [], [], refusal
        return samples_of([line.split() for line in record if not line.startswith("#")], lines)

    def answers(self, board, record):
        """The answer to each line of a record that puts nothing out, without its samples."""
        answers, found = iter(self.replay(board, record)[0]), []
        for line, answer in zip(record, answers):
            found.append(answer)
            words = answer.split()
            for _ in range(int(words[1]) if line.split()[1] == "read" and words[0] == "ok" else 0):
                next(answers)
        return found

    def compare_record(self, name, board, run, codes, level=lambda code: code):
        samples, outs, refusal = self.replayed(board, run.record)
        self.expect(name + ": its record has the samples", not refusal and samples == [level(code) for code in codes], refusal, samples[:20], codes[:20])
        self.expect(name + ": its record has what was put out", not refusal and outs == run.outs(), refusal, outs[:20], run.outs()[:20])

    def client(self, name, board, *arguments, **environment):
        """A client of tests/, with its expected text beside it."""
        run = self.run(board, [self.path("tests/" + name)] + list(arguments), **environment)
        self.expect(name, run.status == 0 and run.out == text_of(name + ".expected"), "status %s" % run.status, run.out, run.err)
        return run
