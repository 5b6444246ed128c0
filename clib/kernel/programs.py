"""Comedilib's own programs: what of their output is compared. Samples, times and addresses differ from run to run, so there
only what must hold of them is: how many samples there are, what they sum up to, and whether a wave goes on without a gap."""

import re

ADDRESS = r"0x[0-9a-f]{9,}"
# what is other in each run: the text before it stays
OTHER_EACH_TIME = [
    (ADDRESS, "ADDRESS"),
    (r"\d{9,}\.\d{6}\b", "TIME"),
    (r"(time:|difference \(us\):) -?\d+(\.\d+)?", r"\1 TIME"),
    (r"^(\d+), \d+$", r"\1 samples, COUNT reads"),
    (r"^\d+(comedi_get_buffer_contents: )", r"NUMBER\1"),
]
# the lines of a program that asks over and over, and of which the number depends on when it asks
TURNS = re.compile(r"timeout(, polling\.\.\.)?|(select|poll) returned -?\d+|comedi file descriptor ready|read returned (\d+)")
NUMBERS = re.compile(r"(-?\d+(\.\d+)?(e-\d+)?|-?nan)( (-?\d+(\.\d+)?(e-\d+)?|-?nan))*")
MIDDLE = 32767
LEVELS = (29490, 29491, 36043, 36044)
# of a saw of 1 V and 100 ms, in codes of 16 bits over 20 V
SLOPE = 65.535
HEIGHT = 6553.5


def without_addresses(line):
    """A line with the same word for each address."""
    return re.sub(ADDRESS, "ADDRESS", line)


def code_of(number):
    """The code of a number that a program prints as a code or in volts."""
    return (float(number) + 10) / 20 * 65535 if "." in number else float(number)


def is_saw(codes, period):
    """Whether codes of scans with this period, in milliseconds, rise as the saw does, or fall as it does."""
    rises = [second - first for first, second in zip(codes, codes[1:])]
    return all(min(abs(rise - SLOPE * period), abs(rise - SLOPE * period + HEIGHT)) < 3 for rise in rises)


def shape_of(numbers, period):
    """What a column of numbers is, in words."""
    if any("nan" in number for number in numbers):
        return ", ".join(sorted(set(numbers)))
    codes = [code_of(number) for number in numbers]
    if all(abs(code - MIDDLE) < 1.1 for code in codes):
        return "the middle"
    if len(codes) == 1:
        return "another code"
    if len(set(codes)) == 1 or all(min(abs(code - level) for level in LEVELS) < 0.6 for code in codes):
        return "the square, or always the same"
    return "the saw" if is_saw(codes, period) else "another shape"


def period_of(lines):
    """The period of the scans that a program has asked for, in milliseconds."""
    scans = re.findall(r"^scan_begin: timer +(\d+)", "\n".join(lines), re.M)
    converts = re.findall(r"^convert: +timer +(\d+)", "\n".join(lines), re.M)
    ends = re.findall(r"^scan_end: +count +(\d+)", "\n".join(lines), re.M)
    if scans:
        return int(scans[-1]) / 1e6
    return int(converts[-1]) * int(ends[-1]) / 1e6 if converts and ends else 1.0


def columns(found, period):
    """Rows of the numbers that a program printed, column by column."""
    width = max(len(numbers) for numbers in found)
    yield "lines of numbers", str(len(found))
    for place in range(width):
        yield f"column {place}", shape_of([numbers[place] for numbers in found if place < len(numbers)], period)


def rows(lines):
    """The rows of a program's output: what a row is of, and its text."""
    found, texts, bytes_read, turns = [], [], 0, 0
    for line in lines:
        turn, numbers = TURNS.fullmatch(line), NUMBERS.fullmatch(line.strip())
        if turn:
            turns, bytes_read = turns + 1, bytes_read + int(turn[3] or 0)
        elif numbers:
            found.append(line.split())
        else:
            for pattern, name in OTHER_EACH_TIME:
                line = re.sub(pattern, name, line)
            texts.append(line)
    for text in texts:
        yield "line", text
    if turns:
        yield "bytes read in turns", str(bytes_read)
    yield from columns(found, period_of(lines)) if found else ()
