#!/usr/bin/env python3
"""Prints what board texts say, a line for each subdevice.

    scripts/boards.py [-s] [-f WORD] [-k KIND] [-c CHANNELS] [-b BITS] [-r RATE] [FILE..]

FILE is a board text, or a job; without one it is each text in examples/boards, and where something is looked for each in
boards, too. With -s the lines have the sources of the subdevices that take commands, and else their numbers:

    bits     of its codes                  ns a scan, ns a conversion     the least times of a command
    tick     of its clock, in ns           samples a second               of one channel after another
    list     the longest channel list      lines                          external ones

A `+` after the ranges says that some channels have ranges of their own. With -s and one FILE the pairs of
sources that may not stand together follow the line of their subdevice.

Looked for are boards whose name, vendor or model has WORD, in capitals or not, and subdevices of KIND (ai, ao, di, do,
dio) with at least CHANNELS channels, BITS bits, and RATE samples a second. The lines then have the vendor and model.

Ends with status 0; with 1 where a FILE is no board text; with 2 where the words are wrong, or a FILE can't be read.
"""
import glob
import os
import re
import sys
from concurrent.futures import ThreadPoolExecutor

import jobs
import usage
from facts import Facts

TOP = os.path.dirname(os.path.dirname(os.path.abspath(__file__)))
UNITS = {"0": "V", "1": "mA", "2": ""}


class Board:
    """A board text: its name, the vendor and model of its first comment, and the core's facts of it."""

    def __init__(self, path):
        with open(path, "rb") as file:
            text = file.read()
        first = text.decode("ascii", "replace").split("\n")[0]
        self.path, self.text, self.facts = path, text, None
        self.name, self.model = os.path.basename(path).rsplit(".", 1)[0], ""
        if first.startswith("#"):
            self.model = re.split(r"[.:,]\s|[.:]$", first[1:].strip())[0]

    def ask(self):
        """Asks for the facts of the text, which the program has to take."""
        try:
            self.facts = Facts(self.text)
        except jobs.Fault as fault:
            raise jobs.Fault("%s: this isn't a board text that the program takes (%s)" % (self.path, fault))

    def subdevices(self):
        return [Subdevice(self, at) for at in range(int(self.facts.one("subdevices")[0]))]


class Subdevice:
    """A subdevice of a board, by its number."""

    def __init__(self, board, at):
        self.board, self.at = board, at
        self.kind, self.channels = self.word("kind"), self.word("channels")
        self.sources = self.board.facts.one("sources", at)

    def word(self, key, none="-"):
        """The first word of a fact, or what holds without it."""
        return (self.board.facts.one(key, self.at) or [none])[0]

    def all(self, key):
        return self.board.facts.all(key, self.at)

    def bits(self):
        """The bits of its codes."""
        greatest = self.word("maxdata")
        return greatest if greatest == "-" else str(int(greatest).bit_length())

    def rate(self):
        """Samples a second of a command that goes as fast as it can."""
        if not self.sources:
            return "-"
        timed = "timer" in self.sources[2].split("|")
        least, tick = int(self.word("convert" if timed else "scan")), int(self.word("tick"))
        return str(1000000000 // (-(-least // tick) * tick))

    def ranges(self):
        """Its ranges in their order, each as +-10 or 0..5, with the unit."""
        made, units = [], []
        whole = [words[1:] for words in self.all("range")]
        for low, high, unit in whole:
            both = int(low) == -int(high)
            made.append("+-" + millionths(high) if both else millionths(low) + ".." + millionths(high))
            units.append(UNITS[unit])
        own = "+" if any(words[2:] not in whole for words in self.all("chan_range")) else ""
        return " ".join(made + sorted(set(units))) + own

    def numbers(self):
        return [self.board.name, str(self.at), self.kind, self.channels, self.bits(), self.word("tick"), self.word("scan"),
                self.word("convert"), self.rate(), self.word("list"), self.word("lines", none="0"), self.ranges()]

    def asked(self):
        """The sources of its triggers."""
        return [self.board.name, str(self.at), self.kind] + self.sources + [str(len(self.all("forbid"))) + " pairs"]

    def pairs(self):
        """The pairs of sources that a command of this subdevice may not have, a line for each."""
        made = ["  forbidden: %s %s with %s %s" % tuple(words[1:]) for words in self.all("forbid")]
        if "follow" in self.sources[1].split("|"):
            made += ["  forbidden: scan_begin follow with convert %s, on every board" % source
                     for source in self.sources[2].split("|") if source in ("now", "follow")]
        return made


class Search:
    """What is looked for: a word, and the least numbers of a subdevice."""

    def __init__(self, options):
        least = {name: usage.number(options[name], 0, 10 ** 12) for name in ("-c", "-b", "-r") if name in options}
        self.any = any(name in options for name in ("-f", "-k", "-c", "-b", "-r"))
        self.word, self.kind, self.least = options.get("-f", "").lower(), options.get("-k"), least

    def takes_board(self, board):
        return self.word in (board.name + " " + board.model).lower()

    def takes(self, sub):
        numbers = {"-c": int(sub.channels), "-b": int(sub.bits().replace("-", "0")), "-r": int(sub.rate().replace("-", "0"))}
        return self.kind in (None, sub.kind) and all(numbers[name] >= least for name, least in self.least.items())


def millionths(text):
    """A number of millionths, in whole units and decimals."""
    number = int(text) / 1000000
    return "%g" % number


def table(asks, search, boards, with_pairs):
    """The rows of all boards, and after which row the pairs of which subdevice come, if they are wanted."""
    rows = [["board", "sub", "kind", "START", "SCAN_BEGIN", "CONVERT", "SCAN_END", "STOP", "forbidden"] if asks else
            ["board", "sub", "kind", "ch", "bits", "tick", "scan", "convert", "samples/s", "list", "lines", "ranges"]]
    under = {}
    for board in boards:
        for sub in board.subdevices():
            if not search.takes(sub) or asks and not sub.sources:
                continue
            rows.append((sub.asked() if asks else sub.numbers()) + [board.model] * search.any)
            if asks and with_pairs:
                under[len(rows) - 1] = sub.pairs()
    rows[0] += ["model"] * search.any
    return rows, under


def boards_of(files, search):
    """The boards of these files whose name is looked for, with their facts, which are asked for side by side."""
    boards = list(filter(search.takes_board, map(Board, files)))
    with ThreadPoolExecutor(os.cpu_count()) as pool:
        list(pool.map(Board.ask, boards))
    return boards


def main(arguments):
    words, options = usage.words_of(arguments, 0, len(arguments), "-s!", "-f", "-k", "-c", "-b", "-r")
    asks, search = "-s" in options, Search(options)
    folders = [os.path.join("examples", "boards")] + ["boards"] * search.any
    files = words or [path for folder in folders for path in sorted(glob.glob(os.path.join(TOP, folder, "*.txt")))]
    rows, under = table(asks, search, boards_of(files, search), len(files) == 1)
    wide = [max(len(row[at]) for row in rows) for at in range(len(rows[0]))]
    for at, row in enumerate(rows):
        print("  ".join(word.ljust(width) for word, width in zip(row, wide)).rstrip())
        for pair in under.get(at, []):
            print(pair)


if __name__ == "__main__":
    sys.exit(usage.call(main, __doc__))
