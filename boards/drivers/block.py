"""The lines of a block, out of what a driver says of a subdevice and the numbers of its commands."""

from comedi import TRIGGER_NAMES, source_text

KINDS = ("ai", "ao", "di", "do", "dio")
# The most that a wider text takes.
SUBDEVICES, CHANNELS, RANGES, LIST, LINES, PAIRS, BITS = 16, 256, 32, 1024, 64, 16, 24
# The command lines in the order in which they are printed.
ORDER = ("sources", "tick", "scan", "convert", "list", "scans", "lines", "buffer", "samerange", "forbid", "invert", "clock",
         "rounds", "halfdown", "perchan", "scanfits", "channels", "samearef", "samepolarity")
# The flags of a subdevice that a line names (SDF_READABLE, SDF_GROUND and so on).
FLAGS = {"readable": 1 << 16, "ground": 1 << 20, "common": 1 << 21, "diff": 1 << 22, "other": 1 << 23, "mmap": 1 << 26}
# The words that a munge is tried on: each bit alone, none and all.
MUNGED = [1 << bit for bit in range(14)] + [0]


def bits_of(part, maxdata):
    return min(max(maxdata.bit_length(), 1), BITS) if part.kind in ("ai", "ao") else 1


def range_text(limits):
    """A range: its ends in 32 bits, and its unit, where none of Comedi's three is the third."""
    low, high, unit = max(limits[0], -1 << 31), min(limits[1], (1 << 31) - 1), limits[2] & 0xff
    return "%d %d %d" % (low, high, min(unit, 2)) if low < high else "0 1000000 2"


def munge_text(part):
    """The munge of a driver, by what it makes of some words in its first range; None where it is no munge of a text."""
    if not part.munges or not part.munged:
        return "none"
    made, half, out = part.munged[min(part.munged)], (part.maxdata + 1) >> 1, part.kind == "ao"
    small = [(word, made[at]) for at, word in enumerate(MUNGED) if word <= part.maxdata]
    if all(word == answer for word, answer in small):
        return "none"
    if all(word ^ half == answer & part.maxdata for word, answer in small):
        return "offset"
    if all(made[at] == word >> 8 | (word & 0xff) << 8 for at, word in enumerate(MUNGED)):
        return "swap16"
    for shift in range(1, 9):
        if all(made[at] == (word << shift if out else word >> shift & part.maxdata) for at, word in enumerate(MUNGED)):
            return "left %d" % shift
    return None


def form_lines(part):
    """Channels, bits, munge and ranges, and those that channels have of their own."""
    lines = ["subdevice %s %d" % (part.kind, min(part.channels, CHANNELS)), "bits %d" % bits_of(part, part.maxdata)]
    if munge_text(part) not in ("none", None):
        lines.append("munge " + munge_text(part))
    return lines + ["range " + range_text(limits) for limits in (part.ranges or [(0, 1000000, 2)])[:RANGES]]


def flag_lines(part):
    """A line for each flag that the driver gives the subdevice, of those that a text can name."""
    return ["flag " + name for name, bit in FLAGS.items() if part.flags & bit]


def own_lines(part):
    lines = []
    for channel, (maxdata, ranges) in sorted(part.own.items()):
        if channel == 0 or channel >= CHANNELS:
            continue
        if maxdata and bits_of(part, maxdata) != bits_of(part, part.maxdata):
            lines.append("chan %d bits %d" % (channel, bits_of(part, maxdata)))
        if ranges != part.ranges:
            lines += ["chan %d range %s" % (channel, range_text(limits)) for limits in ranges[:RANGES]]
    return lines


def command_lines(values):
    """The command lines that values say: None and False say nothing, True the key alone, a list a line for each item."""
    lines = []
    for key in ORDER:
        value = values.get(key)
        if value is None or value is False:
            continue
        words = [[]] if value is True else value if isinstance(value, list) else [value]
        lines += [" ".join([key] + [str(word) for word in (item if isinstance(item, (tuple, list)) else (item,))])
                  for item in words]
    return lines


def block_lines(part, values=None):
    """The block of a subdevice; one that a text can't have is unused, so that the others keep their numbers."""
    if part is None or part.kind not in KINDS or part.channels < 1:
        return ["subdevice unused 0"]
    commands = command_lines(values) if values and part.kind != "dio" else []
    return form_lines(part) + commands + flag_lines(part) + own_lines(part)


def board_lines(name, parts, values):
    """A whole board: `parts` by their numbers, and the values of those that take commands."""
    word = "".join(char if char.isalnum() or char in "_-." else "_" for char in name)[:32] or "board"
    lines = ["zendrouz 1", "board " + word]
    for sub in range(min(max(parts) + 1, SUBDEVICES)):
        lines += block_lines(parts.get(sub), values.get(sub))
    return lines



def pair_text(pair):
    """A pair of sources that may not stand together."""
    one, source, other, other_source = pair
    return "%s %s %s %s" % (TRIGGER_NAMES[one], source_text(source), TRIGGER_NAMES[other], source_text(other_source))
