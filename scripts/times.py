"""When a command's conversions come, as docs/FORMATS.md has it, and how long its buffer and its FIFO hold."""

import bisect


class Conversions:
    """The conversions of a command that is called at a time.

    They come in groups of `width`, `gap` nanoseconds apart, and a group begins at each time of `begins`: a group is a
    scan, or one conversion where edges make the conversions. `begins` is a range where timers alone make the scans, so
    that nothing is gone through one by one. `total` is how many there are up to the horizon, and `done` says when the
    command has come to its stop: None where it hasn't by the horizon.
    """

    def __init__(self, job, command, call):
        self.job, self.command = job, command
        self.start, self.stop = job.start_of(command, call), None
        self.width, self.gap, self.begins, self.total, self.done = 1, 0, [], 0, None
        if self.start is None or self.start > job.horizon or not command.list:
            return
        source, argument = command.stop
        self.count = argument if source == "count" else None
        if source == "ext":
            self.stop = job.edge(argument, self.start + 1)
        whole = self.by_edges() if command.convert[0] == "ext" else self.by_timers()
        if self.total and whole and (self.count is not None or self.stop is not None):
            self.done = max(self.time(self.total - 1), self.stop or 0)
        elif self.stop is not None and whole:
            self.done = self.stop

    def by_timers(self):
        """Scans whose conversions come at once or by a timer. Whether those up to the stop are whole."""
        source, argument = self.command.convert
        self.width = len(self.command.list)
        self.gap = argument if source == "timer" else 0
        length = self.gap * self.width or 1
        source, argument = self.command.scan
        if source == "ext":
            self.begins = list(self.scans_at_edges(length))
        else:
            period = -(-length // argument) * argument if source == "timer" else length
            last = self.job.horizon if self.stop is None else min(self.job.horizon, self.stop - 1)
            self.begins = range(self.start, last + 1, period)[:self.count]
        if self.begins:
            left = self.job.horizon - self.begins[-1]
            tail = min(self.width, left // self.gap + 1) if self.gap else self.width
            self.total = (len(self.begins) - 1) * self.width + tail
        return self.total == len(self.begins) * self.width and self.count in (None, len(self.begins))

    def scans_at_edges(self, length):
        """The times of scans that edges start and that last a while."""
        free, left = self.start, self.count
        while left != 0:
            begin = self.job.edge(self.command.scan[1], free)
            if begin is None or begin > self.job.horizon or self.stop is not None and begin >= self.stop:
                return
            yield begin
            free = begin + length
            left = None if left is None else left - 1

    def by_edges(self):
        """Conversions that edges make. Whether the scans up to the stop are whole."""
        free, left, (source, argument) = self.start, self.count, self.command.scan
        while left != 0:
            begin = free
            if source == "timer":
                begin = self.start + -(-(free - self.start) // argument) * argument
            elif source == "ext":
                begin = self.job.edge(argument, free)
            if begin is None or self.stop is not None and begin >= self.stop:
                break
            for _ in self.command.list:
                begin = self.job.edge(self.command.convert[1], begin)
                if begin is None or begin > self.job.horizon:
                    self.total = len(self.begins)
                    return False
                self.begins.append(begin)
                begin += 1
            free = begin
            left = None if left is None else left - 1
        self.total = len(self.begins)
        return left in (None, 0)

    def time(self, number):
        """The time of a conversion by its number."""
        group, place = divmod(number, self.width)
        return self.begins[group] + place * self.gap

    def times(self, first, count):
        """The times of so many conversions, from a number on."""
        begin, places = first // self.width, range(self.width)
        groups = self.begins[begin:-(-(first + count) // self.width)]
        if self.width == 1:
            return groups
        made = [0] * (len(groups) * self.width)
        for place in range(self.width):
            late = place * self.gap
            if isinstance(groups, range):
                made[place::self.width] = range(groups.start + late, groups.stop + late, groups.step)
            else:
                made[place::self.width] = [time + late for time in groups]
        at = first - begin * self.width
        return made[at:at + count]

    def come_by(self, time):
        """How many conversions have come by a time."""
        groups = bisect.bisect_right(self.begins, time)
        if groups == 0:
            return 0
        late = time - self.begins[groups - 1]
        tail = min(self.width, late // self.gap + 1) if self.gap else self.width
        return min(self.total, (groups - 1) * self.width + tail)

    def holds(self, room):
        """How long room for so many samples lasts, wherever it is counted from: None where it lasts to the end.

        Of `room + 1` conversions one after another the last comes at least that much after the first. Whole groups
        take their period, and the rest is counted from a group's first conversion on, or up to its last one.
        """
        whole, rest = divmod(room, self.width)
        spans = []
        for groups, more, first in ((whole, rest, 0), (whole + 1, rest - self.width, self.width - rest)):
            starts = -(-(self.total - room - first) // self.width)
            if starts > 0 and first < self.width:
                starts = 1 if isinstance(self.begins, range) else starts
                spans.append(more * self.gap + min(
                    self.begins[at + groups] - self.begins[at] for at in range(starts)))
        return min(spans) if spans else None


class Lots:
    """What a FIFO hands over to the buffer: (time, how many) one after another, and the sample that it loses, if any.

    The lots of timed scans come over and over again, since each depends on its first sample's place in the scan alone.
    So what lies between the first rounds and the last samples is left out.
    """

    def __init__(self, conversions, depth, latency, room):
        self.conversions, self.depth, self.latency, self.room = conversions, depth, latency, room
        self.lost, self.lots = None, []
        at, seen, again = 0, {}, None
        repeats = isinstance(conversions.begins, range)
        while at < conversions.total and self.lost is None:
            place = at % conversions.width
            if again is None and place in seen:
                again = at
            if repeats and again is not None and at > again + room + 2 * depth:
                left = conversions.total - at - 2 * room - 4 * depth
                at += max(0, left) // (at - seen[place]) * (at - seen[place])
                repeats = False
            seen.setdefault(place, at)
            at = self.hand_over(at)

    def hand_over(self, at):
        """The lot that starts with a sample, by the rules of docs/FORMATS.md. The number of the next lot's first."""
        conversions, horizon = self.conversions, self.conversions.job.horizon
        if at + self.depth // 2 <= conversions.total:
            asks = conversions.time(at + self.depth // 2 - 1)
        else:
            asks = horizon if conversions.done is None else conversions.done
        taken = min(asks + self.latency, horizon)
        come = conversions.come_by(taken)
        if come - at > self.depth:
            self.lost = at + self.depth
            taken, come = conversions.time(self.lost), self.lost
        self.lots.append((taken, come - at))
        return come

    def holds(self):
        """As Conversions.holds, of the room for what comes in lots: the span, and when the room is first too small."""
        span, first, waits, before = None, None, 0, 0
        for time, count in self.lots:
            waits += count
            while waits > self.room:
                since, less = self.lots[before]
                span = time - since if span is None else min(span, time - since)
                first = time if first is None else first
                waits -= less
                before += 1
        return span, first
