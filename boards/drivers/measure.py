"""How often a board's text answers random commands as its driver does."""

import collections
import os
import random
import subprocess

import jobs
from comedi import TRIGGER_NAMES, source_text
from commands import Generator, Numbers
from driver import CRASHED, NOT_ASKED

HERE = os.path.dirname(os.path.abspath(__file__))
PROGRAM = os.environ.get("COMEDI", os.path.join(HERE, "..", "..", "crates", "comedi", "out", "comedi"))
SORTS = ("plain", "near")
JOB = 1000000


class Refused(Exception):
    """A board's text that the program refuses, with its answer."""


def prepare(folder, workers):
    """Fetches and compiles what isn't there yet."""
    for words in (["fetch", folder], ["compile", folder, str(workers)]):
        if subprocess.run([os.path.join(HERE, words[0])] + words[1:]).returncode:
            raise jobs.Fault("the drivers can't be made")
    if not os.access(PROGRAM, os.X_OK):
        raise jobs.Fault("%s isn't there: ./comedi --build makes it" % PROGRAM)


def answers_of(program, text, lines):
    """The program's answers to `test` lines of a board, in jobs of at most a megabyte."""
    start, answers, part = text + "signals 0\nsession\n", [], []
    size = len(start)
    for line in lines + [None]:
        if line is None or size + len(line) > JOB:
            made = subprocess.run([program, "test"], input=start + "".join(part), capture_output=True, text=True)
            answered = made.stdout.splitlines()
            if made.returncode or len(answered) != len(part):
                raise Refused((answered or ["status %d" % made.returncode])[-1])
            answers, part, size = answers + answered, [], len(start)
        if line is not None:
            part.append(line)
            size += len(line)
    return answers


class Questions:
    """So many commands of a sort for a subdevice, out of a seed, with what its driver answers."""

    def __init__(self, driver, sub, numbers, sort, seed, count):
        generator = Generator(random.Random(seed), numbers, sort == "plain")
        self.commands = [generator.command() for _ in range(count)]
        self.answers = driver.ask(sub, self.commands)
        self.lines = ["test %s\n" % command.text(sub) for command in self.commands]
        self.right = [right_answers(sub, command, answers) for command, answers in zip(self.commands, self.answers)]

    def agrees(self, at, answered):
        return self.right[at] is None or answered in self.right[at]

    def share(self, answered):
        """The percentage of commands that are answered as the driver does."""
        return 100 * sum(self.agrees(at, line) for at, line in enumerate(answered)) / len(self.commands)

    def difference(self, answered):
        """The most frequent difference: how often it comes, the driver's step, the program's and the triggers that differ."""
        found = collections.Counter()
        for at, line in enumerate(answered):
            if not self.agrees(at, line):
                words, first = line.split(), self.answers[at].first
                pairs = zip(words[4:9], first.sources, first.arguments, TRIGGER_NAMES)
                triggers = [name for word, source, argument, name in pairs
                            if word != "%s:%d" % (source_text(source), argument)]
                found[first.step, int(words[1]), "+".join(triggers) or "none"] += 1
        return found.most_common(1)[0] if found else None


def right_answers(sub, command, answers):
    """The lines that agree with the driver, or None where each does.

    The kernel refuses some lists before a driver is asked. A text may say so by step 5, or by an earlier step that the
    driver would name too.
    """
    refused, first = answers.core != 0, answers.first
    if first.step in (NOT_ASKED, CRASHED):
        return None if refused else ()
    triggers = ("%s:%d" % (source_text(source), argument) for source, argument in zip(first.sources, first.arguments))
    left = "%d %d %s %s" % (sub, command.flags, " ".join(triggers), command.entries_text())
    steps = (first.step, 5) if refused and first.step in (0, 5) else (first.step,)
    return ["step %d %s" % (step, left) for step in steps]


def shares(program, driver, sub, text, seed, count):
    """The share of each sort for a subdevice of a text (texts.Text), with the most frequent difference of the plain ones."""
    numbers, measured = Numbers(driver, sub, text.blocks[sub]), []
    for sort in SORTS:
        questions = Questions(driver, sub, numbers, sort, seed, count)
        answered = answers_of(program, text.text, questions.lines)
        measured.append((questions.share(answered), questions.difference(answered)))
    return measured
