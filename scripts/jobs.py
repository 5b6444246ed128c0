"""What a job says: its board, its signals, and the lines of its session.

For the other scripts; times.py has when a command's conversions come, and answers.py what a job's answer says. Only
the standard library of python3 is needed. A job is taken as the program took it: what the program refuses isn't
looked for again here. docs/FORMATS.md says what each line means.
"""

import bisect
import collections

FALLS = 1 << 31
UNITS = ("V", "mA", "")
# How many values the table of a wave holds, the longest period of one, and the levels that a wave may have.
TABLE, RECORD, PERIOD, LEAST, GREATEST = 64, 100000, 10 ** 12, -1 << 31, (1 << 31) - 1


class Fault(Exception):
    """A job, an answer or a file that can't be used, with what is wrong."""


def table(sub, channel, period, values, kind="table"):
    """The line of a wave that is a table or a record, within the limits of docs/FORMATS.md."""
    if period > PERIOD:
        raise Fault("a %s's values stand for %d ns each, and %d is the most" % (kind, period, PERIOD))
    for value in values:
        if not LEAST <= value <= GREATEST:
            raise Fault("%d microvolts are outside the levels of a wave, %d to %d" % (value, LEAST, GREATEST))
    return "wave %d %d %s %d %s" % (sub, channel, kind, period, " ".join(map(str, values)))


class Sub:
    """A subdevice: its kind, what its channels have, and its buffer and FIFO where it takes commands."""

    def __init__(self, kind, channels):
        self.kind, self.channels = kind, channels
        self.bits, self.munge, self.ranges = 1, ("none",), []
        self.own_bits, self.own_munge, self.own_ranges = {}, {}, {}
        self.buffer, self.fifo = None, None

    def take(self, words):
        """One line of the block; those that change neither a sample nor when it is lost are left out."""
        if words[0] == "bits":
            self.bits = int(words[1])
        elif words[0] == "munge":
            self.munge = tuple(words[1:])
        elif words[0] == "range":
            self.ranges.append(tuple(map(int, words[1:])))
        elif words[0] == "buffer":
            self.buffer = int(words[1])
        elif words[0] == "fifo":
            self.fifo = int(words[1]), int(words[2])
        elif words[0] == "chan":
            channel, rest = int(words[1]), words[3:]
            if words[2] == "bits":
                self.own_bits[channel] = int(rest[0])
            elif words[2] == "munge":
                self.own_munge[channel] = tuple(rest)
            else:
                self.own_ranges.setdefault(channel, []).append(tuple(map(int, rest)))

    def is_output(self):
        return self.kind in ("ao", "do")

    def is_digital(self):
        return self.kind in ("di", "do", "dio")

    def bits_of(self, channel):
        return self.own_bits.get(channel, self.bits)

    def bytes_of(self):
        """The bytes of a sample in Comedi's buffer: 4 where a channel of the subdevice has more than 16 bits."""
        return 4 if max(map(self.bits_of, range(self.channels))) > 16 else 2

    def range_of(self, channel, number):
        return self.own_ranges.get(channel, self.ranges)[number]

    def unit_of(self, channel, number):
        """The unit of a channel's values. A channel of one bit has none, since its values are 0 and 1."""
        return "" if self.bits_of(channel) == 1 else UNITS[self.range_of(channel, number)[2]]

    def code_of_word(self, channel, word):
        """The code that a word of the board stands for."""
        munge = self.own_munge.get(channel, self.munge)
        if munge[0] == "offset":
            return word ^ 1 << self.bits_of(channel) - 1
        if munge[0] == "swap16":
            return (word & 0xff) << 8 | word >> 8
        return word >> int(munge[1]) if munge[0] == "left" else word

    def level_of_code(self, channel, number, code):
        """The level that a code stands for: MIN + c * (MAX - MIN) / (2^K - 1)."""
        low, high, _ = self.range_of(channel, number)
        return low + code * (high - low) // ((1 << self.bits_of(channel)) - 1)

    def bit_of(self, channel, number, level):
        """The value of a channel of one bit: whether a level is the one of code 1."""
        return int(level == self.range_of(channel, number)[1])


class Command:
    """A command: its triggers as (source, argument), and its list as (channel, range)."""

    def __init__(self, words):
        self.sub, self.flags = int(words[0]), int(words[1])
        self.start, self.scan, self.convert, self.end, self.stop = [
            (word.split(":")[0], int(word.split(":")[1])) for word in words[2:7]]
        entries = [] if words[7] == "-" else words[7].split(",")
        self.list = [tuple(map(int, entry.split("/")[:2])) for entry in entries]


class Line(list):
    """The words of a session's line, with its number in the job's text."""

    def __init__(self, words, number):
        super().__init__(words)
        self.number = number


class Job:
    """A job: subdevices, signals, and the lines of its session."""

    def __init__(self, text):
        self.subs, self.lines, self.ints, self.horizon = [], [], [], 0
        self.rises, self.falls = collections.defaultdict(list), collections.defaultdict(list)
        part = self.take_board
        for number, line in enumerate(text.split("\n"), 1):
            words = line.split()
            if words and not words[0].startswith("#"):
                if words[0] == "signals" and part == self.take_board:
                    part = self.take_signal
                try:
                    part(Line(words, number))
                except (ValueError, IndexError):
                    raise Fault("line %d of the job isn't one that the program takes" % number)
                if words == ["session"] and part == self.take_signal:
                    part = self.lines.append
        for times in list(self.rises.values()) + list(self.falls.values()):
            times.sort()
        self.ints.sort()
        if part != self.lines.append:
            raise Fault("the job has no session part")

    def take_board(self, words):
        if words[0] == "subdevice":
            self.subs.append(Sub(words[1], int(words[2])))
        elif self.subs:
            self.subs[-1].take(words)

    def take_signal(self, words):
        if words[0] == "signals":
            self.horizon = int(words[1])
        elif words[0] in ("edges", "falls"):
            lines = self.rises if words[0] == "edges" else self.falls
            lines[int(words[1])] += map(int, words[2:])
        elif words[0] == "every":
            line, first, period, count = map(int, words[1:])
            self.rises[line] += [first + k * period for k in range(count)]
        elif words[0] == "int":
            self.ints.append((int(words[2]), int(words[1]), int(words[3])))

    def trigger(self, time, sub, number):
        """Keeps an internal trigger that the session gives."""
        bisect.insort(self.ints, (time, sub, number))

    def edge(self, argument, time):
        """The first edge of an external argument that isn't before a time, or None."""
        lines = self.falls if argument & FALLS else self.rises
        times = lines[argument & ~FALLS]
        at = bisect.bisect_left(times, time)
        return times[at] if at < len(times) else None

    def start_of(self, command, call):
        """When a command starts that is called at a time, or None."""
        source, argument = command.start
        if source == "ext":
            return self.edge(argument, call)
        if source == "int":
            later = [time for time, sub, number in self.ints
                     if time >= call and sub == command.sub and number == argument]
            return later[0] if later else None
        return call

    def command(self, words):
        """A line's command, of a subdevice, channels and ranges that the board has."""
        try:
            command = Command(words)
            sub = self.subs[command.sub]
            for channel, number in command.list:
                range(sub.channels)[channel], sub.range_of(channel, number)
            return command
        except (ValueError, IndexError):
            raise Fault("not a command that the board takes: " + " ".join(words))
