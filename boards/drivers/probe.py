"""What a driver's command test tells of a subdevice when it is asked: sources, pairs, limits and clocks.

The numbers are where the search for a text begins (search.py): what is found here for one list or one combination of
sources may not hold for all of them.
"""

import itertools
import math
import random

from commands import plain_arguments
from comedi import (ALL_SOURCES, CONVERT, COUNT, DOWN, END, EXT, FOLLOW, GREATEST, NOW, SCAN, START, STOP, TIMER, TRIGGERS, UP,
                    Command, bits, pack)

# The most combinations of sources that are tried, and arguments of an external source that a driver may take.
COMBINATIONS = 4000
ARGUMENTS = (0, 1, 2, 16, 17, 18, 19, 20, 21, 22, 35, 1 << 31, 1 << 30, 3 << 30)
# What arguments are tried to see which are taken.
TRIED = (0, 1, 2, 3, 7, 15, 16, 17, 31, 32, 255, 256, 65535, 65536, 1 << 26, 1 << 30, 1 << 31, 3 << 30, (1 << 31) + 1, GREATEST)


def entries(length, channels):
    return [pack(at % channels) for at in range(length)]


class Probe:
    """What is found of a subdevice: `masks`, `together` (combinations of sources that pass step 2), `pairs` that are
    forbidden, `bases` (accepted commands by their sources), `least`, `lows` and `highs` of each timer, `ticks`, `counted` (whether
    some multiples of the tick can't be made), the external `lines`, `invert`, the greatest `count`, and what no line says (`unsaid`)."""

    def __init__(self, driver, sub):
        self.driver, self.sub, self.part = driver, sub, driver.parts[sub]
        self.channels, self.unsaid = max(1, self.part.channels), []
        self.pairs, self.bases, self.least = [], {}, {}
        self.lows, self.highs = {SCAN: [], CONVERT: []}, {SCAN: [], CONVERT: []}
        self.per_entry, self.ticks, self.counted, self.lines, self.invert = [], [], False, [1], False
        self.masks = self.ask([Command(0, [ALL_SOURCES] * 5, [0] * 5, entries(1, self.channels))])[0].first.sources
        self.find_pairs()
        self.find_bases()
        if self.bases:
            self.find_lines()
            self.find_count()
            for trigger in (CONVERT, SCAN):
                self.find_limits(trigger)
                self.find_clock(trigger)
            self.find_empty_lists()

    def ask(self, commands):
        return self.driver.ask(self.sub, commands)

    # Sources

    def find_pairs(self):
        """The combinations that pass step 2, and as few pairs as explain those that don't."""
        sets = list(itertools.product(*map(bits, self.masks)))
        if len(sets) > COMBINATIONS:
            sets = random.Random(1).sample(sets, COMBINATIONS)
        asked = [Command(0, sources, plain_arguments(sources), entries(1, self.channels))
                 for sources in sets]
        refused = {sources for sources, answers in zip(sets, self.ask(asked)) if answers.first.step == 2}
        self.together = [sources for sources in sets if sources not in refused]
        if any(sources[SCAN] == FOLLOW and sources[CONVERT] == NOW for sources in self.together):
            self.unsaid.append("follow with now")
        free = {pair for sources in self.together for pair in pairs_of(sources)}
        explained = {}
        for sources in refused:
            for pair in pairs_of(sources) - free:
                explained.setdefault(pair, set()).add(sources)
        explained.pop((SCAN, FOLLOW, CONVERT, NOW), None)
        left = {sources for sources in refused if (sources[SCAN], sources[CONVERT]) != (FOLLOW, NOW)}
        while left:
            pair = max(sorted(explained), key=lambda pair: len(explained[pair] & left), default=None)
            if pair is None or not explained[pair] & left:
                self.unsaid.append("step 2 looks at three triggers")
                return
            self.pairs.append(pair)
            left -= explained[pair]

    def find_bases(self):
        """A command that is accepted in the end for each combination, with external arguments that the driver takes."""
        for sources in self.together:
            asked = [Command(0, sources, spread(plain_arguments(sources), sources, (argument, argument)),
                             entries(1, self.channels)) for argument in (ARGUMENTS if EXT in sources else ARGUMENTS[:1])]
            if sources.count(EXT) > 1:
                asked += [Command(0, sources, spread(asked[0].arguments, sources, pair), entries(1, self.channels))
                          for pair in itertools.permutations(ARGUMENTS[:10], 2)]
            for answers in self.ask(asked):
                if answers.last.step == 0 and list(sources) == answers.last.sources:
                    self.bases[sources] = Command(0, sources, answers.last.arguments, entries(1, self.channels))
                    break

    def base(self, trigger, source):
        return next((base for sources, base in self.bases.items() if sources[trigger] == source), None)

    # Arguments that are no times

    def find_lines(self):
        """How many external lines there are, whether they can be inverted, and which arguments no text can say."""
        most = []
        for trigger in (START, SCAN, CONVERT, STOP):
            for source in bits(self.masks[trigger]):
                base = self.base(trigger, source)
                if base is None or source == TIMER or (trigger, source) == (STOP, COUNT):
                    continue
                answers = self.ask([base.with_argument(trigger, argument) for argument in TRIED])
                left = [answer.first.arguments[trigger] for answer in answers]
                taken = [answer.first.step in (0, 5) for answer in answers]
                if all(taken):
                    self.unsaid.append("arguments that the driver doesn't look at")
                elif source == EXT:
                    most.append(self.line_of(trigger, base, left, taken))
                elif left[-1]:
                    self.unsaid.append("arguments of %s that aren't 0" % ("stop none" if trigger == STOP else "a source"))
        self.lines = sorted({min(64, line + 1) for line in most if line is not None} or {1})

    def line_of(self, trigger, base, left, taken):
        """The greatest line of an external source."""
        greatest, bit = left[-1], 1 << 31
        if left == [min(argument, greatest) for argument in TRIED]:
            return greatest
        if left == [argument & bit | min(argument & ~bit, greatest & ~bit) for argument in TRIED]:
            self.invert = True
            return greatest & ~bit
        if left == [argument & greatest for argument in TRIED]:
            self.unsaid.append("masks of external arguments")
            return None
        answers = self.ask([base.with_argument(trigger, argument) for argument in range(65)])
        self.unsaid.append("external numbers by a table of routes")
        return next((at for at, answer in enumerate(answers) if answer.first.step not in (0, 5)), 65) - 1

    def find_count(self):
        """The greatest stop count."""
        base = self.base(STOP, COUNT)
        self.count = GREATEST
        if base:
            none, most = (answers.first for answers in self.ask([base.with_argument(STOP, 0), base.with_argument(STOP, GREATEST)]))
            self.count = most.arguments[STOP] or GREATEST
            if none.arguments[STOP] > 1:
                self.unsaid.append("a stop count is at least %d" % none.arguments[STOP])

    def find_empty_lists(self):
        base = next(iter(self.bases.values()))
        answer = self.ask([Command(0, base.sources, base.with_argument(END, 0).arguments, [])])[0].first
        if answer.length == 1:
            self.unsaid.append("an empty list becomes one entry")
        elif answer.step != 5:
            self.unsaid.append("the test accepts an empty list" if answer.step == 0 else "an empty list is refused earlier")

    # Times

    def find_limits(self, trigger):
        """The least and greatest times of step 3, as each combination and a list of 1, 2, 4 and 16 entries have them, the
        greatest of the least ones of one entry, and by how much the least scan grows with each entry."""
        lows, highs, grown, short = set(), set(), set(), set()
        for sources, base in self.bases.items():
            if sources[trigger] != TIMER:
                continue
            least = {}
            for length in (length for length in (1, 2, 4, 16) if length <= self.part.longest):
                long = Command(0, sources, self.short(base, trigger, length), entries(length, self.channels))
                low, high = (self.moved(long, trigger, argument) for argument in (0, GREATEST))
                least[length] = low
                lows.add(low)
                highs.add(high or GREATEST)
            short.add(least[1])
            grown |= {(least[length] - least[1]) // (length - 1) for length in least if length > 1}
            grown |= {least[length] // length for length in least if length > 1 and least[length] > least[1]}
        self.least[trigger] = max(short, default=1)
        self.lows[trigger], self.highs[trigger] = sorted(map(lambda low: max(1, low), lows)), sorted(highs, reverse=True)
        if trigger == SCAN:
            self.per_entry = sorted(per for per in grown if per > 1)

    def short(self, base, trigger, length):
        """The arguments of a command with a list of this length, whose timed conversions are as short as can be in a scan."""
        arguments = base.with_argument(END, length).arguments
        if trigger == SCAN and base.sources[CONVERT] == TIMER:
            arguments[CONVERT] = self.least[CONVERT]
        return arguments

    def moved(self, command, trigger, argument):
        """Where step 3 moves a time to, or the time itself where it leaves it."""
        first = self.ask([command.with_argument(trigger, argument)])[0].first
        return first.arguments[trigger] if first.step == 3 else argument

    def find_clock(self, trigger):
        """What all times are multiples of, and whether all multiples can be made."""
        bases = [base for sources, base in self.bases.items() if sources[trigger] == TIMER]
        bases.sort(key=lambda base: base.sources[SCAN + CONVERT - trigger] == TIMER)
        if not bases:
            return
        some, base = random.Random(7), bases[0]
        least, most = self.lows[trigger][-1], min(self.highs[trigger][0], 2000000000)
        times = [min(most, least + int(some.random() * 10 ** some.uniform(1, math.log10(max(most - least, 11))))) for _ in range(60)]
        made = []
        for flags in (0, DOWN, UP):
            asked = [Command(flags, base.sources, self.roomy(base, trigger, time), base.entries) for time in times]
            made.append([answers.first.arguments[trigger] for answers in self.ask(asked)])
        tick = math.gcd(*itertools.chain(*made))
        self.ticks = sorted({tick, *self.ticks} - {0})
        self.counted = self.counted or any(down > time or time - down >= tick for time, down in zip(times, made[1]))

    def roomy(self, base, trigger, time):
        """The arguments of a command with this time, and a scan that holds it."""
        arguments = base.with_argument(trigger, time).arguments
        if base.sources[SCAN] == base.sources[CONVERT] == TIMER:
            arguments[SCAN] = max(arguments[SCAN], min(GREATEST, time * 2))
        return arguments


def pairs_of(sources):
    return {(one, sources[one], other, sources[other]) for one, other in itertools.combinations(TRIGGERS, 2)}


def spread(arguments, sources, pair):
    """The arguments with one number at the first external source and another at all others."""
    first = sources.index(EXT) if EXT in sources else None
    return [argument if source != EXT else pair[trigger != first]
            for trigger, (argument, source) in enumerate(zip(arguments, sources))]
