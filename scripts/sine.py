#!/usr/bin/env python3
"""Prints the line of a sine for the signals part of a job: a table.

    scripts/sine.py [-n STEPS] SUB CHAN AMPLITUDE PERIOD [OFFSET]

AMPLITUDE and OFFSET are in volts (or mA), with up to six decimals, and PERIOD is that of the whole sine in
nanoseconds: `sine.py 0 1 2.5 20000000` is 2.5 V at 50 Hz, on channel 1 of subdevice 0. It starts at OFFSET and rises.
The table has STEPS values, 4 to 64, which must divide PERIOD; without -n it has as many as do. Each is the sine at the
start of its step, rounded to a whole microvolt, and holds until the next one.
"""

import math
import re
import sys

import jobs
import usage


def micro(word):
    """A decimal number of volts in microvolts, exactly."""
    if not re.fullmatch(r"-?[0-9]{1,9}(\.[0-9]{1,6})?", word):
        raise usage.Wrong
    whole, _, decimals = word.partition(".")
    return int(whole + decimals.ljust(6, "0"))


def steps_of(period, wanted):
    """How many values the table has."""
    fits = [steps for steps in range(4, jobs.TABLE + 1) if period % steps == 0]
    if wanted is None and not fits:
        raise jobs.Fault("no number of steps from 4 to %d divides %d ns: another PERIOD" % (jobs.TABLE, period))
    if wanted is not None and wanted not in fits:
        those = ", which %s do" % ", ".join(map(str, fits)) if fits else ""
        raise jobs.Fault("%d steps don't divide %d ns%s" % (wanted, period, those))
    return fits[-1] if wanted is None else wanted


def main(arguments):
    words, options = usage.words_of(arguments, 4, 5, "-n")
    sub, channel = usage.number(words[0], 0, 15), usage.number(words[1], 0, 255)
    amplitude, offset = micro(words[2]), micro(words[4]) if len(words) > 4 else 0
    period = usage.number(words[3], 1, jobs.TABLE * jobs.PERIOD)
    wanted = usage.number(options["-n"], 4, jobs.TABLE) if "-n" in options else None
    steps = steps_of(period, wanted)
    values = [round(amplitude * math.sin(2 * math.pi * step / steps)) + offset for step in range(steps)]
    print(jobs.table(sub, channel, period // steps, values))


if __name__ == "__main__":
    sys.exit(usage.call(main, __doc__))
