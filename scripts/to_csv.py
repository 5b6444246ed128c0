#!/usr/bin/env python3
"""Makes a table of a job and its answer, as comma-separated values on standard output.

    scripts/to_csv.py [-w [-s SUB]] JOB ANSWER > TABLE

JOB is a file with a job of expand, insn, replay, run, watch or loop, and ANSWER one with what the program printed.
Each sample and each word that was put out is a row: its time in seconds, its subdevice, its channel, its value and
the value's unit, which is that of the range: V, mA, or none. A row stands where its line stands in the answer. The
value of a channel of 1 bit is 0 or 1, and has no unit.

With -w a scan is a row, and a channel a column. The time is that of the scan's first conversion. A column is named by
the kind, the subdevice, the channel and the unit, as ai0_1_V or di2_0, and where a list has a channel twice by the
list index too, as ai0_1_V_entry2. Rows lie in the order of their times, and scans of two subdevices at one time are
one row. A cell of which the answer has nothing is empty. With -s only this subdevice has rows.
"""

import bisect
import itertools
import operator
import sys

import answers
import usage


def decimal(number, places):
    """A whole number of units of 10^-places as a decimal number, exactly."""
    sign, digits = "-" if number < 0 else "", str(abs(number)).rjust(places + 1, "0")
    return sign + digits[:-places] + "." + digits[-places:]


def lines_of(form, times, texts):
    """Lines of times in seconds and texts, by a form such as `%s,%s`. The times of a second are formatted together."""
    lines, at = [], 0
    while at < len(times):
        second = times[at] // 1000000000
        end = bisect.bisect_left(times, (second + 1) * 1000000000, at)
        parts = map((-1000000000 * second).__add__, times[at:end])
        pairs = tuple(itertools.chain.from_iterable(zip(parts, texts[at:end])))
        lines.append(form.replace("%s", "%d.%%09d" % second, 1) * (end - at) % pairs)
        at = end
    return "".join(lines)


def value_of(stream, index, level):
    """A sample's value, as a text."""
    channel, number = stream.command.list[index]
    if level is None:
        return ""
    if stream.sub.bits_of(channel) == 1:
        return str(stream.sub.bit_of(channel, number, level))
    return decimal(level, 6)


def after_time(stream, index, level):
    """All of a row but its time."""
    channel, number = stream.command.list[index]
    return ",%d,%d,%s,%s\n" % (stream.command.sub, channel, value_of(stream, index, level),
                               stream.sub.unit_of(channel, number))


def print_samples(pieces):
    """A row a sample."""
    made = {}
    sys.stdout.write("time_s,subdevice,channel,value,unit\n")
    for piece in pieces:
        texts = answers.made_of(piece, after_time, made)
        sys.stdout.write(lines_of("%s%s", piece.times, texts))


def names_of(stream):
    """The names of a stream's columns, one for each list entry."""
    channels = [channel for channel, _ in stream.command.list]
    names = []
    for index, (channel, number) in enumerate(stream.command.list):
        words = [stream.sub.kind + str(stream.command.sub), str(channel), stream.sub.unit_of(channel, number)]
        if channels.count(channel) > 1:
            words.append("entry%d" % index)
        names.append("_".join(filter(None, words)))
    return names


class Cells:
    """The cells of a stream: one for each sample, by its number, with the times of the scans' first samples."""

    def __init__(self, stream):
        self.stream, self.cells, self.times = stream, [], {}

    def take(self, piece, texts):
        """Puts a piece where its numbers say. A sample may come twice: looked at, and then looked at again."""
        end = piece.first + len(texts)
        self.cells += [None] * (piece.first - len(self.cells))
        self.cells[piece.first:end] = texts
        width = self.stream.width
        at = -piece.first % width
        self.times.update(zip(range((piece.first + at) // width, end), piece.times[at::width]))

    def scans(self):
        """The scans of which something is known: their times, and their cells."""
        width, cells = self.stream.width, self.cells + [None] * (-len(self.cells) % self.stream.width)
        scans = list(zip(*[iter(cells)] * width))
        if None in cells:
            numbers = [at for at, scan in enumerate(scans) if scan.count(None) < width]
            times = [self.times[at] if at in self.times else self.stream.moment(at * width) for at in numbers]
            return times, [tuple(cell or "" for cell in scans[at]) for at in numbers]
        return [self.times[at] for at in range(len(scans))], scans


def widths_of(pieces, chosen):
    """The cells of all streams, in the order of their first samples, by their subdevices."""
    made, subs, all_cells = {}, {}, {}
    for piece in pieces:
        stream = piece.stream
        if chosen is None or stream.command.sub == chosen:
            if stream not in all_cells:
                all_cells[stream] = Cells(stream)
                subs.setdefault(stream.command.sub, []).append(all_cells[stream])
            all_cells[stream].take(piece, answers.made_of(piece, value_of, made))
    return subs


def block_of(streams):
    """The columns of one subdevice, and its rows as (times, texts)."""
    names = []
    for cells in streams:
        names += [name for name in names_of(cells.stream) if name not in names]
    times, texts = [], []
    for cells in streams:
        moments, scans = cells.scans()
        own = names_of(cells.stream)
        if own != names:
            places = [own.index(name) if name in own else len(own) for name in names]
            scans = [[(*scan, "")[place] for place in places] for scan in scans]
        times += moments
        texts += map(",".join, scans)
    return names, times, texts


def merged(blocks):
    """The rows of subdevices in the order of their times, those of two subdevices at one time together."""
    rows = []
    for at, (_, times, texts) in enumerate(blocks):
        again, before = 0, None
        for time, text in sorted(zip(times, texts), key=operator.itemgetter(0)):
            again = again + 1 if time == before else 0
            before = time
            rows.append((time, again, at, text))
    rows.sort()
    empty = [",".join([""] * len(names)) for names, _, _ in blocks]
    times, texts, key = [], [], None
    for time, again, at, text in rows:
        if key != (time, again):
            key = time, again
            times.append(time)
            texts.append(list(empty))
        texts[-1][at] = text
    return times, list(map(",".join, texts))


def print_scans(pieces, chosen):
    """A row a scan."""
    subs = widths_of(pieces, chosen)
    blocks = [block_of(subs[sub]) for sub in sorted(subs)]
    names = [name for block in blocks for name in block[0]]
    is_one = [len(streams) for streams in subs.values()] == [1]
    times, texts = blocks[0][1:] if is_one else merged(blocks)
    sys.stdout.write(",".join(["time_s"] + names) + "\n")
    sys.stdout.write(lines_of("%s,%s\n", times, texts))


def main(arguments):
    words, options = usage.words_of(arguments, 2, 2, "-w!", "-s")
    if "-s" in options and "-w" not in options:
        raise usage.Wrong
    chosen = usage.number(options["-s"], 0, 255) if "-s" in options else None
    job, answer = answers.read_files(words)
    pieces = answers.pieces_of(job, answer)
    if "-w" in options:
        print_scans(pieces, chosen)
    else:
        print_samples(pieces)


if __name__ == "__main__":
    sys.exit(usage.call(main, __doc__))
