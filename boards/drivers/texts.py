"""The texts of boards: their heads, which say whose they are, and the numbers of their blocks."""

import os
import re

HEAD = re.compile(r"# (\w+) of Linux [0-9.]+, entry (\S+?)(?:, options (\S+?))?(?:, registers (.+))?$")
SHARES = re.compile(r"# subdevice ([0-9]+) \w+: ([0-9.]+) % of plain and ([0-9.]+) % of near commands ")


class Block:
    """The numbers of a subdevice's commands."""

    def __init__(self, kind):
        self.kind, self.commands, self.tick, self.lines, self.count = kind, False, 1, 0, 1000000

    def take(self, words):
        key, numbers = words[0], words[1:]
        if key == "sources":
            self.commands = True
        elif key in ("tick", "lines"):
            setattr(self, key, int(numbers[0]))
        elif key == "scans":
            self.count = int(numbers[0])


class Text:
    """A board's text: all of it, its blocks, whose table it was made of, and the shares that its head says."""

    def __init__(self, text):
        self.text, self.blocks, self.shares, self.driver = text, [], {}, None
        for line in text.splitlines():
            head, shares, words = HEAD.match(line), SHARES.match(line), line.split()
            if head:
                self.driver, self.entry, options, registers = head.groups()
                self.options, self.registers = options or "", (registers or "").split()
            elif shares:
                self.shares[int(shares.group(1))] = float(shares.group(2)), float(shares.group(3))
            elif words and words[0] == "subdevice":
                self.blocks.append(Block(words[1]))
            elif words and self.blocks:
                self.blocks[-1].take(words)


def read(path):
    with open(path, encoding="ascii") as file:
        return Text(file.read())


def name_of(path):
    return os.path.basename(path)[:-len(".txt")]
