"""Comedi's words: sources, triggers and flags by their numbers, and commands as they stand in a job."""

NONE, NOW, FOLLOW, TIME, TIMER, COUNT, EXT, INT, OTHER = (1 << bit for bit in range(9))
SOURCES = ("none", "now", "follow", "time", "timer", "count", "ext", "int", "other")
START, SCAN, CONVERT, END, STOP = TRIGGERS = range(5)
TRIGGER_NAMES = ("start", "scan_begin", "convert", "scan_end", "stop")
REFERENCES = ("ground", "common", "diff", "other")
DOWN, UP, UP_NEXT = 0x10000, 0x20000, 0x30000
ALL_SOURCES, GREATEST = (1 << 9) - 1, (1 << 32) - 1
# The sources that a board's text may give each trigger.
SAYABLE = (NOW | EXT | INT, FOLLOW | TIMER | EXT, NOW | FOLLOW | TIMER | EXT, COUNT, NONE | COUNT | EXT)


def bits(mask):
    """The sources of a mask, one by one."""
    return [1 << bit for bit in range(9) if mask >> bit & 1]


def source_text(mask):
    return "|".join(name for bit, name in enumerate(SOURCES) if mask >> bit & 1) or "invalid"


def source_mask(text):
    return 0 if text == "invalid" else sum(1 << SOURCES.index(name) for name in text.split("|"))


def pack(channel, number=0, reference=0):
    """An entry of a channel list (Comedi: CR_PACK)."""
    return channel | number << 16 | reference << 24


class Command:
    """A command: its flags, the sources and arguments of its triggers, and the entries of its list."""

    def __init__(self, flags, sources, arguments, entries):
        self.flags, self.sources, self.arguments, self.entries = flags, list(sources), list(arguments), list(entries)

    def with_argument(self, trigger, argument):
        changed = Command(self.flags, self.sources, self.arguments, self.entries)
        changed.arguments[trigger] = argument
        return changed

    def entries_text(self):
        return ",".join("%d/%d/%s" % (entry & 0xffff, entry >> 16 & 0xff, REFERENCES[entry >> 24 & 3])
                        for entry in self.entries) or "-"

    def text(self, sub):
        """The command of a subdevice as it stands in a job."""
        triggers = ("%s:%d" % (source_text(source), argument) for source, argument in zip(self.sources, self.arguments))
        return "%d %d %s %s" % (sub, self.flags, " ".join(triggers), self.entries_text())
