"""Where the fault of a job lies, for explain.py: the word of a line, and the rule of a block.

The program itself is asked: a word is at fault where another one in its place changes the answer.
"""
import bisect
import re
import subprocess
import tempfile

from jobs import Fault
from refusals import COMMAND, key_of

SIGNALS = ("signals", "wave", "edges", "falls", "every", "int")
FIRST = {"test": "test", "expand": "expand", "go": "run", "drive": "run", "loop": "loop"}
# Places of a line where a word stands and no number.
NAMED = ["KEY", "KIND", "NAME", "MODE", "READER", "FIELD", "SRC", "+", "LIST.2", "ENTRY.2"] + [
    name + ".0" for name in COMMAND[2:7]]


def is_text(line):
    words = line.split()
    return bool(words) and not words[0].startswith("#")


class Job:
    """The lines of a job, where its parts begin, and the program that answers it."""

    def __init__(self, text, program):
        self.program = program
        self.size = len(text.encode("utf-8", "surrogateescape"))
        self.lines = text.split("\n")
        if self.lines[-1] == "":
            self.lines.pop()
        self.added = []
        firsts = [line.split()[0] for line in self.lines if is_text(line)]
        self.is_wide = firsts[:1] == ["zendrouz"]
        if "session" not in firsts and not (set(firsts) & set(FIRST)):
            if not set(firsts) & set(SIGNALS):
                self.added.append("signals 0")
            if not any(word[:1].isdigit() for word in firsts):
                self.added.append("session")
        self.all = self.lines + self.added
        numbers = [at for at, line in enumerate(self.all) if line.split() == ["session"]]
        self.first = numbers[0] + 1 if numbers else len(self.all)
        self.session = [(at + 1, line) for at, line in enumerate(self.all) if at >= self.first and is_text(line)]

    def guess(self):
        """The program's word for this session."""
        if not self.session:
            return "test"
        return FIRST.get(self.session[0][1].split()[0], "replay")

    def answer(self, command, lines=None):
        """The lines that the program prints for the job, or for other lines in its place."""
        text = "\n".join(self.all if lines is None else lines) + "\n"
        # A file and no pipe: a program that doesn't read its input may have ended before a pipe is written.
        with tempfile.TemporaryFile() as file:
            file.write(text.encode("utf-8", "surrogateescape"))
            file.seek(0)
            made = subprocess.run([self.program] + command.split(), stdin=file, stdout=subprocess.PIPE)
        refused = made.stdout.startswith((b"refused", b"usage"))
        if made.returncode not in (0, 1, 2) or refused != (made.returncode != 0):
            raise Fault("the program ends with status %d" % made.returncode)
        return made.stdout.decode("ascii", "replace").splitlines()

    def asked(self, command, lines):
        """The answers to other lines of a session, over the same board and signals."""
        return self.answer(command, self.all[:self.first] + lines)


class Refusal:
    """A job that is refused: its line and its cause, and the place that is at fault."""

    def __init__(self, job, texts, command, answer):
        self.job, self.texts, self.command, self.said = job, texts, command, answer
        self.at, self.cause = int(answer.split()[1]), answer.split()[2]
        self.line = job.all[self.at - 1] if 0 < self.at <= len(job.all) else ""
        self.words = self.line.split()
        self.atoms = texts.atoms(self.line) if self.words else []

    def with_atom(self, at, word):
        """The first line of the answer with another word at one place."""
        _, start, end = self.atoms[at]
        return self.with_line(self.line[:start] + word + self.line[end:])

    def with_line(self, line):
        """The first line of the answer with another line in place of this one."""
        return (self.job.answer(self.command, self.job.all[:self.at - 1] + [line] + self.job.all[self.at:]) or [""])[0]

    def mends(self, at):
        """Whether another word at this place would be taken, or the next fault of the line be another one."""
        for word in ("now", "follow", "count", "none") if self.words[0] == "sources" else ("1", "0", "2"):
            said = self.with_atom(at, word)
            if said != self.said and (said != "refused %d Bad" % self.at or self.atoms[at][0] == "T"):
                return True
        return False

    def reached(self, places):
        """The last of these places that is looked at. They are looked at in their order, so a word that is none
        changes the answer there and before, and not after."""
        wrong = "9" * 18 if self.cause == "BadNumber" else "x"
        low, high = 0, len(places) - 1
        while low < high:
            middle = (low + high + 1) // 2
            if self.with_atom(places[middle], wrong) != self.said:
                low = middle
            else:
                high = middle - 1
        return low

    def number(self):
        """The place of a number that is none, or is outside its limits."""
        places = [at for at, (name, _, _) in enumerate(self.atoms) if name.upper() == name and name not in NAMED]
        if self.words[0] == "sources":
            places = list(range(1, len(self.atoms)))
        if not places:
            return None
        low = self.reached(places)
        if self.mends(places[low]):
            return places[low]
        if low + 1 < len(places) and self.atoms[places[low + 1]][0] == self.atoms[places[low]][0]:
            line = self.line[:self.atoms[places[low + 1]][1]]
            if self.with_line(line) != self.said:
                return places[low + 1]
        return next((at for at in places[:64] if self.mends(at)), None)

    def place(self):
        """The number of the place at fault, or None where no single one is."""
        if not self.atoms:
            return None
        if self.cause in ("BadNumber", "Limit"):
            return self.number()
        if self.cause == "Unknown":
            return self.unknown()
        if self.cause == "BadLine":
            fault = self.texts.form_fault(self.line)
            self.atoms += [fault] if fault else []
            return len(self.atoms) - 1 if fault else None
        if self.cause == "Bad" and self.words[0] in ("edges", "falls"):
            times = [int(word) for word in self.words[2:]]
            return next((at + 2 for at in range(1, len(times)) if times[at] <= times[at - 1]), 2)
        if self.cause == "Bad" and key_of(self.words) != self.words[0]:
            return 0
        return None

    def unknown(self):
        """The first word that is neither a number nor a name."""
        if not self.texts.forms_of(self.words) or key_of(self.words) == "insn":
            return min(1 if self.words[0].isdigit() else 0, len(self.atoms) - 1)
        for at, (name, start, end) in enumerate(self.atoms):
            word = self.line[start:end]
            is_key = name in ("KEY", key_of(self.words))
            if not is_key and not re.match(r"-?\d+$", word) and not self.is_name(name, word):
                return at
        return 0

    def is_name(self, name, word):
        """Whether a word is a name that may stand at this place."""
        if name == name.lower():
            return any(word in form[0].split() for form in self.texts.forms_of(self.words))
        known = {"KIND": ("unused", "ai", "ao", "di", "do", "dio"), "MODE": ("paced", "free"),
                 "READER": ("copy", "map"), "TAKE": ("all",), "FIELD": [name.lower() for name in COMMAND[2:7]],
                 "LIST.2": ("ground", "common", "diff", "other"), "ENTRY.2": ("ground", "common", "diff", "other")}
        order = "none now follow time timer count ext int other".split()
        if name in known:
            return word in known[name]
        parts = word.split("|")
        return word == "invalid" or all(part in order for part in parts) and \
            [order.index(part) for part in parts] == sorted(set(order.index(part) for part in parts))


def block_of(job, at):
    """The block above a line: its first line's number, its words by first word, its kind, and how many channels."""
    first = at - 1
    while first > 0 and not job.all[first - 1].startswith("subdevice"):
        first -= 1
    lines = {}
    for line in job.all[first:at - 1]:
        if is_text(line):
            lines.setdefault(line.split()[0], []).append(line.split()[1:])
    kind, channels = job.all[first - 1].split()[1:3]
    return first, lines, kind, int(channels)


def lacking(lines, kind):
    """The lines that a block needs and hasn't, with the letter of the rule in REFUSALS.md."""
    needed = ("sources", "tick", "scan", "convert", "list", "buffer")
    lacks = [word for word in ("bits", "range") if word not in lines and kind != "unused"]
    if lacks:
        return "a", "lacks " + " and ".join(lacks)
    command = needed + ("scans", "lines", "samerange", "forbid", "invert", "fifo", "clock", "rounds", "halfdown", "perchan", "scanfits",
                        "channels", "samearef", "samepolarity")
    if any(word in lines for word in command):
        lacks = [word for word in needed if word not in lines]
    return ("b", "lacks " + " and ".join(lacks)) if lacks else None


class Timers:
    """The times that a board can make: multiples of a tick, or the tick times a divisor of each counter of its clock."""

    def __init__(self, tick, counters):
        self.tick, self.counters = tick, [self.divisors(text) for text in counters]

    @staticmethod
    def divisors(text):
        """The divisors of a counter, in rising order."""
        ends = text.split("..")
        return range(int(ends[0]), int(ends[1]) + 1) if len(ends) == 2 else [int(part) for part in text.split(",")]

    def down(self, time):
        """The greatest time not above another, or 0."""
        return self.tick * product_to(self.counters, time // self.tick)

    def up(self, time):
        """The least time not below another, or more than any time."""
        least = -(-time // self.tick)
        found = [made for made in products_from(self.counters, least) if made >= least]
        return self.tick * min(found, default=1 << 64)


def product_to(counters, most):
    """The greatest product of a divisor of each counter that isn't above `most`, or 0."""
    if not counters:
        return most
    if len(counters) == 1:
        at = bisect.bisect_right(counters[0], most)
        return counters[0][at - 1] if at else 0
    short, long = sorted(counters, key=len)
    return max((one * product_to([long], most // one) for one in short), default=0)


def products_from(counters, least):
    """Products of a divisor of each counter, the least that isn't below `least` among them."""
    if not counters:
        return [least]
    if len(counters) == 1:
        return counters[0][bisect.bisect_left(counters[0], least):][:1]
    short, long = sorted(counters, key=len)
    return [one * other for one in short for other in products_from([long], -(-least // one))]


def off_tick(lines, timers, is_wide):
    """Rule 3 where a block breaks it: a limit off the tick, or in a wider text two without a possible time between them."""
    tick = timers.tick
    for name in ("scan", "convert"):
        least, most = map(int, lines[name][0])
        line = " ".join([name] + lines[name][0])
        if is_wide and timers.up(least) > most:
            what = "time of the clock" if timers.counters else "multiple of %d" % tick
            return "3", "no %s is within `%s`" % (what, line)
        for value in () if is_wide else (least, most):
            if value % tick:
                return "3", "%d / %d leaves %d, in `%s`" % (value, tick, value % tick, line)
    return None


def too_long(lines, timers):
    """Rule 4 or 6 where a block breaks it: the longest list doesn't fit into the longest scan."""
    is_timed = ["timer" in words.split("|") for words in lines["sources"][0]]
    longest, most = int(lines["list"][0][0]), int(lines["scan"][0][1])
    least, entry = int(lines["convert"][0][0]), int(lines.get("perchan", [["0"]])[0][0])
    asked = [("4", least, most)]
    if is_timed[1] and is_timed[2]:
        asked.append(("4", timers.up(least), timers.down(most)))
    asked.append(("6", entry, timers.down(most) if is_timed[1] else most))
    for number, time, scan in asked:
        if time * longest > scan:
            return number, "%d * %d = %d, above %d" % (time, longest, time * longest, scan)
    return None


def broken_rule(lines, kind, channels, is_wide):
    """The first rule of REFUSALS.md that a block breaks, as its number there and what it is about."""
    if lacking(lines, kind):
        return lacking(lines, kind)
    own = [dict((int(words[0]), words[2]) for words in lines.get("chan", []) if words[1] == name)
           for name in ("bits", "munge")]
    munge = lines.get("munge", [["none"]])[0][0]
    for channel in range(channels):
        bits = int(own[0].get(channel, lines["bits"][0][0]))
        if kind in ("di", "do", "dio") and bits > 1:
            return "1", "channel %d has %d bits" % (channel, bits)
        if own[1].get(channel, munge) == "swap16" and bits > 16:
            return "2", "channel %d has %d bits" % (channel, bits)
    if "tick" not in lines:
        return None, ""
    timers = Timers(int(lines["tick"][0][0]), lines.get("clock", [[]])[0])
    found = off_tick(lines, timers, is_wide) or too_long(lines, timers)
    return found or ("5", "`sources %s` has ext, and there are no lines" % " ".join(lines["sources"][0]))
