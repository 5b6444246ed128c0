#!/usr/bin/env python3
"""Says of each command of a job how fast it is, how often its client must come, and when it ends.

    scripts/plan.py JOB

JOB is a file with a job of expand, replay, run, watch or loop, and each command of its session part gets a block:

    scans    from one to the next, and in a second       samples  those of all channels, in a second
    buffer   how long it holds                           fifo     the same of the board's own, and whether it loses one
    read     the greatest safe interval between reads    write    the same of an output's client
    ends     done, or dry, and when                      in all   the samples, and their bytes in Comedi's buffer

An interval is safe where no sample is lost wherever the reads lie, as long as each takes all that there is, and each
write fills the buffer. The first one comes by the time that the line has, in board time. In `run`, `watch` and `loop`
clients know no time: there the lines say what the same command would need of one that does.
A command is planned as if the board took it (`./comedi test` says whether), and as if nothing but its stop and the end
of the signals ended it. Where edges make the scans, their numbers are means. A sample has 2 bytes, and 4 where a
channel of its subdevice has more than 16 bits.
"""

import sys

import jobs
import times
import usage


def in_units(time):
    """A time in nanoseconds as a text that is easy to read, and exact."""
    for size, unit in ((10 ** 9, "s"), (10 ** 6, "ms"), (1000, "us")):
        if time >= size:
            digits = str(time % size).rjust(len(str(size)) - 1, "0").rstrip("0")
            return "%d%s %s" % (time // size, "." + digits if digits else "", unit)
    return "%d ns" % time


def in_both(time):
    """A time in nanoseconds, and easier to read."""
    return "%d ns" % time + (" (%s)" % in_units(time) if time >= 1000 else "")


def a_second(count, time):
    """How often in a second something comes that comes so often in a time."""
    return "%.9g" % (count * 10 ** 9 / time)


def commands_of(job):
    """The commands of a session: the line's number, what it is, when it is called, and its eight words."""
    for line in job.lines:
        key = line[0]
        if key == "expand":
            yield line.number, key, int(line[1]), line[2:10]
        elif key == "go":
            yield line.number, " ".join(line[:3]), int(line[3]), line[5:13]
        elif key == "drive":
            yield line.number, key, int(line[1]), line[3:11]
        elif key == "loop":
            yield line.number, "loop, its input", int(line[1]), line[4:12]
            yield line.number, "loop, its output", int(line[2]), line[12:20]
        elif line[1:2] == ["cmd"]:
            yield line.number, "cmd", int(line[0]), line[3:11]


def keep_triggers(job):
    """Keeps the internal triggers that the session gives."""
    for line in job.lines:
        if line[1:2] == ["insn"] and line[4:5] == ["inttrig"]:
            job.trigger(int(line[0]), int(line[3]), int(line[5]))


def scans_of(conversions):
    """The lines of the scans and the samples of a command."""
    entries, begins = len(conversions.command.list), conversions.begins
    if conversions.width == 1:
        begins = begins[::entries]
    if isinstance(begins, range):
        period, what = begins.step, "each " + in_both(begins.step)
    elif len(begins) > 1:
        period, what = (begins[-1] - begins[0]) / (len(begins) - 1), "at edges, the mean of %d" % len(begins)
    else:
        return [("scans", "%d" % len(begins))]
    return [("scans", "%s a second, %s" % (a_second(1, period), what)),
            ("samples", "%s a second" % a_second(entries, period))]


def client_of(sub, room, span, first):
    """The lines of the buffer, and of how often its client must come."""
    key, verb, lost = ("write", "writes", "an underrun") if sub.is_output() else ("read", "reads", "an overrun")
    if span is None:
        return [("buffer", "%d samples, which hold the whole command" % room),
                (key, "at any time" if key == "read" else "all before it starts")]
    if span == 0:
        return [("buffer", "%d samples, fewer than come at one time" % room),
                (key, "%s at %d ns, whenever the client %s" % (lost, first, verb))]
    return [("buffer", "%d samples hold %s" % (room, in_units(span))),
            (key, "at least every %d ns, the first time by %d ns" % (span, first - 1))]


def fifo_of(sub, conversions):
    """The line of the FIFO."""
    depth, latency = sub.fifo
    span = conversions.holds(depth)
    return [("fifo", "%d samples hold %s, emptied %s after %d have come" % (
        depth, "the whole command" if span is None else in_units(span), in_units(latency), depth // 2))]


def end_of(job, conversions, lost):
    """The lines of the end, and of how many samples there are by then."""
    total, size = conversions.total, job.subs[conversions.command.sub].bytes_of()
    if lost is not None:
        total, end = lost, "fifo %d at %d ns: the command is too fast" % (lost, conversions.time(lost))
    elif conversions.done is not None:
        end = "done at " + in_both(conversions.done)
    else:
        end = "%sdry at %s" % ("endless: " if conversions.command.stop[0] == "none" else "", in_both(job.horizon))
    if total:
        end += ", the last conversion at %d ns" % conversions.time(total - 1)
    return [("ends", end), ("in all", "%d samples, %d bytes (%d a sample)" % (total, size * total, size))]


def plan_of(job, command, call, what):
    """The lines of a command's block, as (name, text)."""
    sub, conversions = job.subs[command.sub], times.Conversions(job, command, call)
    if conversions.total == 0:
        return [("scans", "none, since no start comes")] + end_of(job, conversions, None)
    lines, room, lost = scans_of(conversions), sub.buffer, None
    if what == "cmd" and sub.is_output() and conversions.time(0) == call:
        return lines + [("write", "underrun 0: the first word is due before one can be written: start by int or ext")]
    if sub.fifo is None:
        span = conversions.holds(room)
        first = None if span is None else conversions.time(room)
    else:
        lots = times.Lots(conversions, *sub.fifo, room)
        lines += fifo_of(sub, conversions)
        (span, first), lost = lots.holds(), lots.lost
    return lines + client_of(sub, room, span, first) + end_of(job, conversions, lost)


def is_known(job, command):
    """Whether a command has sources, periods and a list that can be planned."""
    kinds = [("now", "ext", "int"), ("follow", "timer", "ext"), ("now", "follow", "timer", "ext"), ("count",),
             ("none", "count", "ext")]
    triggers = [command.start, command.scan, command.convert, command.end, command.stop]
    return (job.subs[command.sub].buffer is not None and command.list
            and all(source in known for (source, _), known in zip(triggers, kinds))
            and all(argument > 0 for source, argument in triggers if source in ("timer", "count"))
            and not (command.scan[0] == "follow" and command.convert[0] in ("now", "follow")))


def block_of(job, number, what, call, text):
    """A command's block."""
    head, refused = "line %d: %s" % (number, what), ["  refused: ./comedi test says why"]
    try:
        command = job.command(text)
    except jobs.Fault:
        return [head] + refused
    channels = ",".join(str(channel) for channel, _ in command.list)
    head += ", subdevice %d (%s), channels %s" % (command.sub, job.subs[command.sub].kind, channels)
    if not is_known(job, command):
        return [head] + refused
    return [head] + ["  %-8s %s" % line for line in plan_of(job, command, call, what)]


def main(arguments):
    words, _ = usage.words_of(arguments, 1, 1)
    job = jobs.Job(usage.text_of(words[0]))
    blocks = []
    try:
        keep_triggers(job)
        for number, what, call, text in commands_of(job):
            blocks.append(block_of(job, number, what, call, text))
    except (ValueError, IndexError):
        raise jobs.Fault("the job isn't one that the program takes")
    if not blocks:
        raise jobs.Fault("%s: no command: no line of cmd, expand, go, drive or loop" % words[0])
    print("\n\n".join("\n".join(block) for block in blocks))


if __name__ == "__main__":
    sys.exit(usage.call(main, __doc__))
