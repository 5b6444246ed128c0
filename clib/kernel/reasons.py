"""The reasons for which a row of the model may differ from the kernel's, and where a document says so."""

import os
import re
import tomllib
from dataclasses import dataclass, field

from probes import HERE, TOP

REASONS = os.path.join(HERE, "reasons.toml")
# a reason with this name is a fault that is known and not repaired yet, and no document says it
OPEN = "open_"
FIELDS = {"title", "document", "sentence", "follows", "rows"}
FIELDS_OF_ROWS = {"sheet", "section", "call", "kernel", "model"}


@dataclass
class Row:
    """A call, and how the kernel and the model answered it. `section` is the run and the heading above it."""

    sheet: str
    section: str
    call: str
    kernel: str
    model: str

    def is_same(self):
        """Whether both answered alike."""
        return self.kernel == self.model


@dataclass
class Pattern:
    """Which rows a reason covers: each text is a regular expression for the whole of that part of a row."""

    sheet: str
    call: str
    kernel: str
    model: str
    section: str = ".*"
    count: int = 0

    def covers(self, row):
        """Whether a row is one of these."""
        parts = [(self.section, row.section), (self.call, row.call), (self.kernel, row.kernel), (self.model, row.model)]
        return row.sheet in self.sheet.split() and all(re.fullmatch(pattern, text) for pattern, text in parts)


@dataclass
class Reason:
    """Why rows differ."""

    name: str
    title: str
    document: str = ""
    sentence: str = ""
    # whether the rows that come after one of these in its section may follow from it
    follows: bool = False
    patterns: list = field(default_factory=list)
    followed: int = 0

    def is_open(self):
        """Whether it is a fault that isn't repaired."""
        return self.name.startswith(OPEN)

    def count(self):
        """How many rows it covers."""
        return sum(pattern.count for pattern in self.patterns) + self.followed

    def faults(self, top):
        """What is wrong with the reason itself, in words."""
        if self.is_open():
            return [f"{self.name}: an open reason has no sentence"] if self.sentence else []
        if self.follows:
            return [f"{self.name}: only of an open reason other rows may follow"]
        if not self.sentence:
            return [f"{self.name}: has no sentence of a document"]
        path = os.path.join(top, self.document)
        if not os.path.isfile(path):
            return [f"{self.name}: there is no {self.document}"]
        with open(path, encoding="utf-8") as file:
            return [] if self.sentence in file.read() else [f"{self.name}: {self.document} doesn't say: {self.sentence}"]


def load(path=REASONS):
    """The reasons of a file, in its order."""
    with open(path, "rb") as file:
        texts = tomllib.load(file)
    found = []
    for name, said in texts.items():
        unknown = set(said) - FIELDS | {key for row in said.get("rows", []) for key in set(row) - FIELDS_OF_ROWS}
        if unknown or "title" not in said or not said.get("rows"):
            raise ValueError(f"{path}: {name}: {', '.join(sorted(unknown)) or 'title or rows'}: unknown, or not there")
        patterns = [Pattern(**row) for row in said["rows"]]
        found.append(Reason(name, said["title"], said.get("document", ""), said.get("sentence", ""), said.get("follows", False), patterns))
    return found


def reason_of(row, reasons):
    """The first reason that covers a row that differs, which counts it."""
    for reason in reasons:
        for pattern in reason.patterns:
            if pattern.covers(row):
                pattern.count += 1
                return reason
    return None


def judge(row, reasons, following):
    """The reason of a row that differs, or none. `following` has the reason from which the rows of a section may follow."""
    reason = reason_of(row, reasons)
    if not reason and row.section in following:
        reason = following[row.section]
        reason.followed += 1
    if reason and reason.follows:
        following.setdefault(row.section, reason)
    return reason


def unused(reasons, names):
    """The patterns that cover no row any more, of the sheets that were compared, in words."""
    for reason in reasons:
        for pattern in reason.patterns:
            if not pattern.count and set(pattern.sheet.split()) & set(names):
                shown = f"call '{pattern.call}', kernel '{pattern.kernel}', model '{pattern.model}'"
                yield f"{reason.name}: covers no row of {pattern.sheet} any more: {shown}"


def faults(reasons, top=TOP):
    """What is wrong with the reasons themselves."""
    return [fault for reason in reasons for fault in reason.faults(top)]
