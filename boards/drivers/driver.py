"""A driver of Linux in user space: what its boards are, and how its command test answers."""

import collections
import os
import subprocess

# How a driver answers a command: the step at which its test stops (0 where it accepts it, 99 where it crashes), the
# sources and arguments as it leaves them, and the length of the list.
Answer = collections.namedtuple("Answer", "step sources arguments length")

# The kernel's own check of the list (0, or 22 where it refuses it before the driver is asked), the first answer, the
# last of repeated tests, and how many repeats that took.
Answers = collections.namedtuple("Answers", "core first last repeats")

# A step that no driver answered: the list is longer than the kernel would hand over.
NOT_ASKED, CRASHED = -1, 99

# How long a driver may take to attach, and for its answers.
DUMP_SECONDS, TEST_SECONDS = 6, 900


def ranges_of(words):
    return [tuple(map(int, word.split(","))) for word in words]


class Part:
    """A subdevice as the driver makes it."""

    def __init__(self, words):
        self.kind, self.channels, self.maxdata, self.longest = words[2], int(words[4]), int(words[6]), int(words[8])
        self.flags, self.commands, self.munges = int(words[10], 16), words[12] == "1", words[13] == "m"
        self.ranges = ranges_of(words[words.index("ranges") + 2:])
        # what its munge makes of some words, by the range; and the greatest code and the ranges of each channel
        self.munged, self.own = {}, {}


class Driver:
    """A board of a driver: the driver's program, the entry of its table, its options, and what its registers give."""

    def __init__(self, folder, name, entry, options="", registers=()):
        self.program, self.name, self.entry, self.options = os.path.join(folder, "bin", name), name, entry, options
        self.registers = dict(word.split("=", 1) for word in registers)
        self.board, self.parts = "", {}
        for line in self.run("dump", "", DUMP_SECONDS).splitlines():
            self.take(line, line.split())

    def run(self, what, asked, seconds=TEST_SECONDS):
        """What the driver's program prints; nothing where it doesn't attach."""
        words = [self.program, what, self.entry, self.options]
        made = subprocess.run(words, env=dict(os.environ, **self.registers), input=asked, capture_output=True, text=True,
                              timeout=seconds)
        return "" if made.returncode else made.stdout

    def take(self, line, words):
        """A line of what it says of its subdevices."""
        if words[0] == "name":
            self.board = line[5:]
        elif words[0] == "sub":
            self.parts[int(words[1])] = Part(words)
        elif words[0] == "chan":
            self.parts[int(words[1])].own[int(words[2])] = int(words[4]), ranges_of(words[7:])
        elif words[0] == "munge":
            self.parts[int(words[1])].munged[int(words[3][:-1])] = [int(word, 16) for word in words[4:]]

    def ask(self, sub, commands):
        """The answers to commands of a subdevice, in their order."""
        lines = []
        for command in commands:
            numbers = [sub, command.flags]
            for pair in zip(command.sources, command.arguments):
                numbers += pair
            lines.append(" ".join(map(str, numbers + [len(command.entries)] + command.entries)))
        answers = [answers_of(line) for line in self.run("test", "\n".join(lines) + "\n").splitlines()]
        if len(answers) != len(commands):
            raise RuntimeError("%s: %d answers to %d commands" % (self.program, len(answers), len(commands)))
        return answers


def answers_of(line):
    numbers = [int(word) for word in line.split()]
    first, last = (Answer(numbers[at], numbers[at + 2:at + 12:2], numbers[at + 3:at + 13:2], numbers[at + 12]) for at in (1, 14))
    return Answers(numbers[0], first, last, numbers[27])
