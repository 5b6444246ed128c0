#!/usr/bin/env python3
"""Prints a column of a table of comma-separated values as a line for the signals part of a job.

    scripts/from_csv.py [-r] [-p PERIOD] [-u UNIT] [-f ROW] [-n COUNT] [-e EACH] FILE COLUMN SUB CHAN

COLUMN is the column's number, from 1, or its name in the first line. The values become whole microvolts, rounded to
the nearest, and a half to the even one. The line is a table of a wave, whose values stand for PERIOD each and then
come over and over again.

    -r         prints a record in place of a table: after its last value it stays there. It needs a board whose text
               begins with `zendrouz 1`
    -p PERIOD  nanoseconds from row to row. Without it they are taken from the first column, where its name is time_s,
               time_ms, time_us or time_ns, or time, which is in seconds, and its times are evenly spaced
    -u UNIT    what the values are in: V (which is meant without it), mV, uV, mA, uA or nA
    -f ROW     starts at this row. The first row of values is row 1
    -n COUNT   takes so many values at most
    -e EACH    takes each second value (2), each third one (3) .., so that they are EACH times PERIOD apart

A table holds 64 values, and a record 100000. Where there are more, nothing is printed: take fewer of them by -f, -n and -e.
"""

import csv
import decimal
import re
import sys

import jobs
import usage

# The millionths of a volt or a milliampere in a unit, and the nanoseconds in a unit of time.
UNITS = {"V": 10 ** 6, "mV": 10 ** 3, "uV": 1, "mA": 10 ** 6, "uA": 10 ** 3, "nA": 1}
TIMES = {"time": 10 ** 9, "time_s": 10 ** 9, "time_ms": 10 ** 6, "time_us": 10 ** 3, "time_ns": 1}


def exact(text, size):
    """A number of units as one of millionths or nanoseconds, exactly, or None where the text is no number."""
    if not re.fullmatch(r"\s*[-+]?([0-9]+\.?[0-9]*|\.[0-9]+)([eE][-+]?[0-9]{1,2})?\s*", text):
        return None
    with decimal.localcontext() as context:
        context.prec = 2000
        return decimal.Decimal(text.strip()) * size


class Table:
    """A file's names, if its first line has any, and its rows: each with its line in the file."""

    def __init__(self, name):
        self.file, self.names, self.rows = name, [], []
        with open(name, encoding="utf-8-sig", errors="replace", newline="") as file:
            lines = csv.reader(file)
            self.rows = [(lines.line_num, row) for row in lines if row]
        if self.rows and all(exact(cell, 1) is None for cell in self.rows[0][1]):
            self.names = [name.strip() for name in self.rows.pop(0)[1]]

    def column(self, word):
        """The place of a column, by its number or by its name."""
        wide = len(self.names or (self.rows[0][1] if self.rows else []))
        if word in self.names:
            return self.names.index(word)
        if re.fullmatch("[0-9]{1,6}", word) and 1 <= int(word) <= wide:
            return int(word) - 1
        has = ", ".join(self.names) if self.names else "%d, without names" % wide
        raise jobs.Fault("%s: no column %s: its columns are %s" % (self.file, word, has))

    def values(self, at, size, rows):
        """The exact values of a column, in so many rows."""
        values = []
        for line, row in rows:
            value = exact(row[at], size) if at < len(row) else None
            if value is None:
                raise jobs.Fault("%s: line %d has no number in column %d" % (self.file, line, at + 1))
            values.append(value)
        return values

    def period(self):
        """How far apart the rows lie, by the first column."""
        size = TIMES.get(self.names[0]) if self.names else None
        if size is None:
            raise jobs.Fault("%s: the first column isn't named time_s: give -p PERIOD" % self.file)
        times = self.values(0, size, self.rows)
        gaps = [later - time for time, later in zip(times, times[1:])]
        if not gaps:
            raise jobs.Fault("%s: one row has no period: give -p PERIOD" % self.file)
        for (line, _), gap in zip(self.rows[1:], gaps):
            if gap != gaps[0]:
                raise jobs.Fault("%s: the times aren't evenly spaced: %f ns at first, and %f ns before line %d" % (
                    self.file, gaps[0], gap, line))
        if gaps[0] < 1 or gaps[0] != int(gaps[0]):
            raise jobs.Fault("%s: the times lie %f ns apart, which isn't a whole number from 1 on" % (
                self.file, gaps[0]))
        return int(gaps[0])


def main(arguments):
    words, options = usage.words_of(arguments, 4, 4, "-r!", "-p", "-u", "-f", "-n", "-e")
    sub, channel = usage.number(words[2], 0, 15), usage.number(words[3], 0, 255)
    period, first, count, each = [
        usage.number(options[name], 1, jobs.PERIOD) if name in options else none
        for name, none in (("-p", None), ("-f", 1), ("-n", None), ("-e", 1))]
    if options.get("-u", "V") not in UNITS:
        raise usage.Wrong
    table = Table(words[0])
    at = table.column(words[1])
    period = each * (table.period() if period is None else period)
    rows = table.rows[first - 1::each][:count]
    if not rows:
        raise jobs.Fault("%s: no row %d: it has %d" % (words[0], first, len(table.rows)))
    kind, most = ("record", jobs.RECORD) if "-r" in options else ("table", jobs.TABLE)
    if len(rows) > most:
        raise jobs.Fault("%s: %d values, and a %s holds %d: take fewer by -f ROW, -n COUNT or -e EACH (-e %d)" % (
            words[0], len(rows), kind, most, each * -(-len(rows) // most)))
    values = table.values(at, UNITS[options.get("-u", "V")], rows)
    print(jobs.table(sub, channel, period, [
        int(value.to_integral_value(decimal.ROUND_HALF_EVEN)) for value in values], kind))


if __name__ == "__main__":
    sys.exit(usage.call(main, __doc__))
