"""Random commands for a subdevice, of two sorts.

Plain ones are what a program would send: sources that go together, arguments that are 0 where they have to be, channels
and ranges that exist, times of all sizes, rounded to nearest, down or up. Of the near ones each part may have a fault:
other sources, arguments around the limits, lists of other forms; and one in ten is anything at all.
"""

import itertools

from comedi import (ALL_SOURCES, CONVERT, COUNT, DOWN, END, EXT, GREATEST, SAYABLE, SCAN, START, STOP, TIMER, UP,
                    UP_NEXT, Command, bits, pack)

LONGEST = 256


ONE = [pack(0)]


class Numbers:
    """What the commands of a subdevice go by: the sources that a text may say of those that its driver takes, the
    combinations of these that pass the driver's second step, the limits that it has for the times of each, and the tick,
    the lines and the greatest count of a text."""

    def __init__(self, driver, sub, block):
        self.driver, self.sub, self.part = driver, sub, driver.parts[sub]
        masks = self.ask([Command(0, [ALL_SOURCES] * 5, [0] * 5, ONE)])[0].sources
        self.sources = [mask & said or mask for mask, said in zip(masks, SAYABLE)]
        sets = list(itertools.islice(itertools.product(*map(bits, masks)), 4000))
        asked = [Command(0, sources, plain_arguments(sources), ONE) for sources in sets]
        self.together = [sources for sources, answer in zip(sets, self.ask(asked)) if answer.step != 2
                         and all(source & said for source, said in zip(sources, SAYABLE))]
        self.tick, self.lines, self.count = block.tick, block.lines, block.count
        self.limits = {trigger: self.limits_of(trigger) for trigger in (CONVERT, SCAN)}

    def ask(self, commands):
        """The driver's first answers."""
        return [answers.first for answers in self.driver.ask(self.sub, commands)]

    def limits_of(self, trigger):
        """The limits of a time of each combination, in a list of one entry: where step 3 moves the greatest number to, and
        0 in that combination where it moves it furthest. Conversions are as short as can be beside a scan."""
        moved = []
        for asked in (0, GREATEST):
            commands = []
            for sources in self.together:
                arguments = plain_arguments(sources)
                arguments[CONVERT] = 0 if trigger == SCAN and sources[CONVERT] == TIMER else arguments[CONVERT]
                arguments[trigger] = asked
                commands.append(Command(0, sources, arguments, ONE))
            moved.append([answer.arguments[trigger] if answer.step == 3 else asked for answer in self.ask(commands)])
        timed = [least for sources, least in zip(self.together, moved[0]) if sources[trigger] == TIMER]
        return {sources: (max([1] + timed), most or GREATEST) for sources, most in zip(self.together, moved[1])}

    def times(self, sources, trigger):
        """The limits of a time of these sources; of a combination that isn't taken those of some that is."""
        known = self.limits.get(trigger, self.limits[SCAN])
        return known.get(tuple(sources)) or next(iter(known.values()), (1, GREATEST))


def plain_arguments(sources):
    """Arguments that go with these sources, in a list of one entry."""
    known = {(SCAN, TIMER): 2000000, (CONVERT, TIMER): 100000, (STOP, COUNT): 10}
    return [1 if trigger == END else known.get((trigger, source), 0) for trigger, source in enumerate(sources)]


class Generator:
    """Commands one after another, out of a random.Random."""

    def __init__(self, random, numbers, plain):
        self.random, self.numbers, self.plain, self.wild = random, numbers, plain, False
        part = numbers.part
        self.channels, self.longest = max(1, min(part.channels, LONGEST)), min(LONGEST, part.longest)
        self.ranges = max(1, min([len(ranges) for _, ranges in part.own.values()] or [len(part.ranges)]))
        polar = [low < 0 for low, _, _ in part.ranges[:self.ranges]]
        self.polarities = [[at for at, below in enumerate(polar) if below == asked] for asked in (False, True)]

    def chance(self, part):
        return self.random.random() < part

    def command(self):
        self.wild = not self.plain and self.chance(0.1)
        sources, entries = self.sources(), self.entries()
        flags = self.random.choice([0, 0, 0, DOWN, UP, UP] + ([] if self.plain else [UP_NEXT]))
        if self.chance(0.05):
            flags |= self.random.choice([0x80, 0x20, 0x10, 2, 4])
        command = Command(flags, sources, [0] * 5, entries)
        for trigger in (CONVERT, SCAN, START, END, STOP):
            command.arguments[trigger] = self.argument(command, trigger)
        return command

    def sources(self):
        masks = self.numbers.sources
        if self.wild:
            return [self.random.choice([self.random.randrange(512), 1 << self.random.randrange(9), mask, mask & -mask, 0])
                    for mask in masks]
        if self.numbers.together and (self.plain or self.chance(0.9)):
            sources = list(self.random.choice(self.numbers.together))
        else:
            sources = [self.random.choice(bits(mask) or [0]) for mask in masks]
        if not self.plain and self.chance(0.08):
            at = self.random.randrange(5)
            sources[at] = self.random.choice([sources[at] | 1 << self.random.randrange(9), masks[at],
                                              self.random.randrange(512), 0])
        return sources

    def entries(self):
        """A list: mostly rising by one, and now and then of another form."""
        some = self.random
        length = min(self.longest, some.choice([1, 1, 2, 2, 3, 4, self.longest, some.randint(1, self.longest)]))
        channels, number = self.channels, some.randrange(self.ranges)
        reference = some.randrange(4) if self.chance(0.3) else 0
        form = some.random() * (0.85 if self.plain else 1)
        if form < 0.55:
            first = some.choice([0, 0, 0, some.randrange(channels)])
            return [pack((first + at) % channels, number, reference) for at in range(length)]
        if form < 0.62:
            return [pack(some.randrange(channels), number, reference) for _ in range(length)]
        if form < 0.72:
            alike = self.polarities[some.randrange(2)] or [0]
            return [pack(at % channels, some.choice(alike), reference) for at in range(length)]
        if form < 0.80:
            return [pack(at % channels, some.randrange(self.ranges), reference) for at in range(length)]
        if form < 0.85:
            return [pack(at % channels, number, some.randrange(4)) for at in range(length)]
        return self.faulty_entries(form, length, number, reference)

    def faulty_entries(self, form, length, number, reference):
        some, channels = self.random, self.channels
        if form < 0.89:
            return []
        if form < 0.98:
            step = some.choice([0, 1, 2]) if form < 0.95 else 1
            entries = [pack(at * step % channels, number, reference) for at in range(length)]
            if form >= 0.95:
                entries[some.randrange(length)] = pack(some.choice([channels, 65535, some.randrange(70)]),
                                                       some.choice([self.ranges, 255, number]), reference)
            return entries
        return [pack(at % channels, number) for at in range(min(LONGEST, self.longest + some.choice([1, 2, 10])))]

    def argument(self, command, trigger):
        source, some = command.sources[trigger], self.random
        if source == TIMER:
            return self.period(command, trigger)
        if trigger == END:
            return len(command.entries) if self.plain or self.chance(0.94) else some.randrange(20)
        if trigger == STOP and source == COUNT:
            return self.count()
        if source == EXT:
            return self.line()
        return 0 if self.plain or self.chance(0.94) else some.choice([1, 2, GREATEST, some.randrange(1 << 32)])

    def period(self, command, trigger):
        """The argument of a timer: a scan's often goes by its conversions."""
        some, tick, length = self.random, self.numbers.tick, max(len(command.entries), 1)
        if trigger == SCAN and command.sources[CONVERT] == TIMER and self.chance(0.6):
            near = some.choice([0, 0, 0, 1, -1, tick, -tick, some.randrange(100000)])
            return within(command.arguments[CONVERT] * length * some.choice([1, 1, 1, 2, 3]) + near)
        least, most = self.numbers.times(command.sources, trigger)
        fits = self.plain and trigger == CONVERT and command.sources[SCAN] == TIMER
        return self.time(length, least, most // length if fits else most)

    def time(self, length, least, most):
        some, tick, form = self.random, self.numbers.tick, self.random.random()
        least, most = max(least, 1), min(most, GREATEST)
        if self.wild and form < 0.3:
            return some.choice([0, 1, GREATEST, some.randrange(1 << 32)])
        ticks = some.randint(1, max(2, min(most, 10 ** 8) // tick)) * tick
        if form < (0.15 if self.plain else 0.25):
            ends = [least, least * length] + ([] if self.plain else [most, most // length])
            return within(some.choice(ends) + some.choice([-1, 0, 0, 1, tick, -tick, tick // 2, -tick // 2]))
        if not self.plain and form < 0.30:
            return some.choice([0, 1, least // 2, min(most + 1, GREATEST), GREATEST])
        if form < (0.6 if self.plain else 0.65):
            return min(most if self.plain else GREATEST, ticks)
        return min(most if self.plain else GREATEST, int(least * 10 ** (some.random() * 5)))

    def count(self):
        some, most = self.random, self.numbers.count
        if self.plain:
            return some.choice([1, 2, 100, 1000])
        return some.choice([1, 1, 2, 100, 100, some.randrange(10 ** 6), 1, 10,
                            some.choice([0, most, within(most + 1), GREATEST, 16777216, 16777217])])

    def line(self):
        some, form = self.random, self.random.random()
        if self.plain or form < 0.6:
            return 0
        if form < 0.8:
            return some.randrange(max(1, self.numbers.lines) + 1)
        if form < 0.88:
            return some.randrange(40)
        return some.choice([1 << 31, 1 << 30, 3 << 30, (1 << 31) | some.randrange(20), some.randrange(1 << 32)])


def within(number):
    return min(GREATEST, max(0, number))
