"""Finds the command lines with which a text answers as its driver does.

It begins with what probe.py found, tries the values of one line after another on random commands, and keeps those with
which more of them are answered alike, until a round changes nothing.
"""

from block import LINES, LIST, PAIRS, board_lines, block_lines, pair_text
from commands import Numbers
from comedi import CONVERT, EXT, GREATEST, SAYABLE, SCAN, TIMER, source_text
from measure import Questions, Refused, answers_of
from probe import Probe
from texts import Text

SORTS = (("plain", 1.0), ("near", 0.3))
TRAINED, TRAIN_SEED, ROUNDS = 300, 11, 2
# The periods of the clocks that boards divide by counters, in nanoseconds.
PERIODS = [100, 200, 250, 500, 1000]
ORDERS = [None] + [order + again for order in ("consecutive", "straight", "first", "rising", "distinct") for again in ("", " repeat")]


def powers(base, count):
    return ",".join(str(base ** exponent) for exponent in range(count))


# Clocks that were read from the drivers, as tick and counters: what is neither each multiple of a tick nor made by two
# dividers of 16 bits.
CLOCKS = {
    "dt2811": [(1666, "1,2,3,4,5,6,10,12 " + powers(10, 8))],
    "dt2814": [(10000, powers(10, 8))],
    "dt282x": [(250, "1," + ",".join(str(1 << shift) for shift in range(2, 16)) + " 1..255")],
    "dt3000": [(50, "1..16 1..65535"), (100, "1..16 1..65535")],
    "ni_at_a2150": [(1, "19531,20833,22676,31250 " + powers(2, 4)), (1, "41667,50000,62500 " + powers(2, 4))],
    "amplc_pci230": [(100, "1,10,100,1000,10000 1..65536")],
    "amplc_pci224": [(100, "1,10,100,1000,10000 1..65536")],
    "cb_pcidas64": [(25, "1..16777216"), (25, "2..16777216"), (50, "1..16777216"), (100, "1..16777216")],
    "dmm32at": [(5000, "1..4")],
    "ni_atmio16d": [(1000, "1,10,100,1000,10000 1..65535"), (100, "10,100,1000,10000,100000 1..65535"), (1000, None), (10000, None)],
    "quatech_daqp_cs": [(200, "1..16777216"), (200, None)],
    "usbdux": [(125000, None), (1000000, None), (500000, None)],
}

# Lines that aren't searched, since the driver's own test is at fault there: pci1710 computes the next channel of a list
# once, pcl816 takes the list's length for the number of channels, and pcl711 takes a divider of 1.
FIXED = {
    "pcl711": {"clock": "2..65536 2..65536"},
    "adv_pci1710": {"channels": "consecutive repeat", "samerange": False, "samearef": False, "samepolarity": False},
    "pcl816": {"channels": "consecutive repeat", "samerange": False, "samearef": False, "samepolarity": False},
}


def unique(values):
    return list(dict.fromkeys(values))


def first_values(probe):
    """The values that the probe found; None where a trigger has no source that a text can say."""
    masks = [mask & said for mask, said in zip(probe.masks, SAYABLE)]
    if not all(masks):
        return None
    limits = {}
    for trigger in (SCAN, CONVERT):
        if masks[trigger] & TIMER and probe.lows[trigger]:
            limits[trigger] = max(1, probe.least[trigger]), probe.highs[trigger][0]
    scan, convert = limits.get(SCAN) or limits.get(CONVERT) or (1, GREATEST), limits.get(CONVERT) or (1, GREATEST)
    pairs = [pair for pair in probe.pairs if pair[1] & masks[pair[0]] and pair[3] & masks[pair[2]]]
    external = any(mask & EXT for mask in masks)
    return {"sources": tuple(map(source_text, masks)), "tick": max(1, probe.ticks[0] if probe.ticks else 1), "scan": scan,
            "convert": convert, "list": min(probe.part.longest, LIST), "scans": min(probe.count, GREATEST),
            "lines": min(LINES, probe.lines[-1]) if external else 0, "buffer": 65536, "invert": probe.invert,
            "perchan": probe.per_entry[0] if probe.per_entry else None,
            "forbid": list(map(pair_text, pairs[:PAIRS]))}


def line_options(driver, probe, values):
    """For each line, or lines that hang together, the values that are tried."""
    ticks = unique(probe.ticks + [values["tick"], 1, 100, 1000])
    clocks = [(tick, None) for tick in ticks] + [(tick, "1..65536") for tick in ticks[:3]]
    for tick in unique([ticks[0], -(-ticks[0] // 2)] + PERIODS) if probe.counted else []:
        clocks += [(tick, counters) for counters in ("2..65536 2..65536", "1..65536 1..65536", "2..65536")]
    clocks += CLOCKS.get(driver.name, [])
    marks = [{key: mark} for key in ("samerange", "samearef", "samepolarity", "scanfits", "halfdown") for mark in (False, True)]
    per_entry = unique(probe.per_entry[:4] + [low for low in probe.lows[CONVERT] + probe.lows[SCAN] if low > 1][:4])
    options = [
        [{"tick": tick, "clock": clock} for tick, clock in unique(clocks)],
        [{"rounds": way} for way in (None, "nearest", "down", "up")],
        [{"channels": order} for order in ORDERS],
    ] + [marks[at:at + 2] for at in range(0, len(marks), 2)]
    options.append([{"perchan": None}] + [{"perchan": time} for time in per_entry])
    for trigger, key in ((SCAN, "scan"), (CONVERT, "convert")):
        if probe.masks[trigger] & TIMER:
            options.append([{key: (low, values[key][1])} for low in probe.lows[trigger][:6]])
            options.append([{key: (values[key][0], high)} for high in unique(probe.highs[trigger][:3] + [GREATEST])])
    if values["lines"]:
        options.append([{"lines": lines} for lines in unique(probe.lines + [1, 16, 64])])
    options.append([{"scans": GREATEST}, {"scans": values["scans"]}])
    fixed = FIXED.get(driver.name, {})
    return [tried for tried in options if tried and not set(tried[0]) & set(fixed)]


class Search:
    """The search for the command lines of one subdevice."""

    def __init__(self, program, driver, probe, values):
        self.program, self.driver, self.probe, self.values = program, driver, probe, dict(values, **FIXED.get(driver.name, {}))
        numbers = Numbers(driver, probe.sub, Text(self.text(self.values)).blocks[probe.sub])
        self.questions = [(Questions(driver, probe.sub, numbers, sort, TRAIN_SEED, TRAINED), weight) for sort, weight in SORTS]
        self.best = self.score(self.values)

    def text(self, values):
        """A board with this subdevice alone at its place."""
        lines = ["zendrouz 1", "board searched"] + ["subdevice unused 0"] * self.probe.sub + block_lines(self.probe.part, values)
        return "\n".join(lines) + "\n"

    def score(self, values):
        """The share of plain commands that are answered alike, and a little of the near ones; -1 where it is refused."""
        text, total = self.text(values), 0
        try:
            for questions, weight in self.questions:
                total += weight * questions.share(answers_of(self.program, text, questions.lines))
        except Refused:
            return -1
        return total

    def run(self):
        """The values that answer best, or None where each is refused."""
        while self.best < 0 and self.values["list"] > 16:
            self.take(dict(self.values, list=self.values["list"] // 2))
        for _ in range(ROUNDS):
            before = self.best
            for at in range(len(line_options(self.driver, self.probe, self.values))):
                for option in line_options(self.driver, self.probe, self.values)[at]:
                    changed = dict(self.values, **option)
                    if changed != self.values:
                        self.take(changed)
            if self.best == before:
                break
        return self.values if self.best >= 0 else None

    def take(self, values):
        """Keeps other values where they are better, or where what stands is refused."""
        score = self.score(values)
        if score > self.best + 1e-9 or self.best < 0:
            self.best, self.values = score, values


def board_of(program, driver):
    """The text of a board without its head, and what its head says of each subdevice that takes commands (or why it has no
    command lines)."""
    values, notes = {}, {}
    for sub, part in sorted(driver.parts.items()):
        if not part.commands or part.kind not in ("ai", "ao", "di", "do") or sub >= 16:
            if part.commands and part.kind == "dio":
                notes[sub] = "no command lines: commands on dio"
            continue
        probe = Probe(driver, sub)
        first = first_values(probe) if probe.bases else None
        found = Search(program, driver, probe, first).run() if first else None
        if found:
            values[sub], notes[sub] = found, unique(probe.unsaid)
        else:
            notes[sub] = "no command lines: " + ("it accepts no command" if not probe.bases else "no source that a text can say"
                                                  if first is None else "its limits fit no text")
    return "\n".join(board_lines(driver.board or driver.name, driver.parts, values)) + "\n", notes
