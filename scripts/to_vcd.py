#!/usr/bin/env python3
"""Makes a value change dump of the digital lines in a job and its answer, on standard output.

    scripts/to_vcd.py JOB ANSWER > DUMP

JOB and ANSWER are as for to_csv.py. The dump has a wire for each channel of a digital subdevice (di, do or dio) that
the answer has a sample, a word that was put out or a state of. Its name is the kind, the subdevice's number, `_` and
the channel: di1_0. The unit of its times, $timescale, is the greatest of 1 ns, 10 ns, 100 ns .. 1 s that divides all
of them, and the end of the signals. A wire is `x` until its first sample. The dump is for GTKWave, PulseView and other
programs that show traces. An answer without a digital sample gets none.
"""

import math
import sys

import answers
import jobs
import usage


def short(number):
    """A short name of a wire, of the printing characters that the format allows."""
    name = ""
    while True:
        number, digit = divmod(number, 94)
        name += chr(33 + digit)
        if number == 0:
            return name


def changes_of(job, rows):
    """Where wires change: (time, bit, wire), by the times."""
    shown, changes = {}, []
    for row in rows:
        wire, bit = (row.sub, row.channel), job.subs[row.sub].bit_of(row.channel, row.range, row.level)
        if shown.get(wire) != bit:
            changes.append((row.time, bit, wire))
            shown[wire] = bit
    return changes


def unit_of(times):
    """The unit of times: how many nanoseconds, and its text."""
    step = math.gcd(*times)
    power = 0
    while power < 9 and step % 10 ** (power + 1) == 0:
        power += 1
    return 10 ** power, "%d %s" % (10 ** (power % 3), ("ns", "us", "ms", "s")[power // 3])


def print_head(job, wires, unit):
    print("$timescale %s $end\n$scope module board $end" % unit)
    for (sub, channel), name in wires.items():
        print("$var wire 1 %s %s%d_%d $end" % (name, job.subs[sub].kind, sub, channel))
    print("$upscope $end\n$enddefinitions $end\n$dumpvars")
    for name in wires.values():
        print("x" + name)
    print("$end")


def main(arguments):
    words, _ = usage.words_of(arguments, 2, 2)
    job, answer = answers.read_files(words)
    rows = [row for row in answers.rows_of(job, answer) if job.subs[row.sub].is_digital() and row.level is not None]
    if not rows:
        raise jobs.Fault("no digital samples: %s has none of a di, do or dio subdevice" % words[1])
    rows.sort(key=lambda row: row.time)
    changes = changes_of(job, rows)
    wires = {wire: short(k) for k, wire in enumerate(sorted({wire for _, _, wire in changes}))}
    step, unit = unit_of([job.horizon] + [time for time, _, _ in changes])
    print_head(job, wires, unit)
    now = None
    for time, bit, wire in changes:
        if now != time:
            print("#%d" % (time // step))
            now = time
        print("%d%s" % (bit, wires[wire]))
    if now != job.horizon:
        print("#%d" % (job.horizon // step))


if __name__ == "__main__":
    sys.exit(usage.call(main, __doc__))
