"""A part of clib/check: xoscope, with a window, on a screen in memory. What it draws is compared with the wave of the board.

The screen is Xvfb's, whose pixels stand in a file as the X Window Dump has them.
"""

import os
import select
import shutil
import struct
import subprocess
import time

from checking import SECONDS, TOP, installed

# the wave: 1 V in each millisecond, for 10 ms; channel 2 is open, and its trace a straight line at 0 V over ten divisions
WAVE = "signals 1000000000000\nwave 0 0 saw -5000000 5000000 10000000\n"
VOLTS_OF_A_DIVISION = 0.5
MILLISECONDS_OF_A_DIVISION = 2
TOLERANCE = 0.1
FIRST_TRACE, SECOND_TRACE = (144, 238, 144), (0, 255, 255)
# GLib lets go of a channel twice, by a fault of xoscope's
SHIM = "void g_io_channel_unref(void *c) { (void)c; }\nint g_io_channel_shutdown(void *c, int f, void *e) { (void)c; (void)f; (void)e; return 1; }\n"


def pixels_of(path, colours):
    """Where the pixels of these colours are: for each the places by column."""
    with open(path, "rb") as file:
        dump = file.read()
    header = struct.unpack(">25I", dump[:100])
    width, height, row, start = header[4], header[5], header[12], header[0] + 12 * header[19]
    found = [{} for _ in colours]
    for y in range(height):
        line = dump[start + y * row:start + y * row + 4 * width]
        for places, (red, green, blue) in zip(found, colours):
            pixel, at = bytes((blue, green, red)), -1
            while (at := line.find(pixel, at + 1)) >= 0:
                if at % 4 == 0:
                    places.setdefault(at // 4, []).append(y)
    return found


def line_of(trace):
    """The row in which most pixels of a straight trace are, and from which column to which it goes."""
    rows = [y for ys in trace.values() for y in ys]
    row = max(set(rows), key=rows.count)
    columns = [x for x, ys in trace.items() if row in ys]
    return row, min(columns), max(columns)


def levels_of(first, second):
    """The volts of the first trace by column, and how many columns a division has. Where the wave jumps there are none."""
    row, left, right = line_of(second)
    division = (right - left) / 10
    columns = {x: ys for x, ys in first.items() if left <= x <= right}
    inside = {x: [y for y in ys if abs(y - row) <= 5 * division] for x, ys in columns.items()}
    return {x: (row - sum(ys) / len(ys)) / division * VOLTS_OF_A_DIVISION for x, ys in inside.items() if 0 < len(ys) < division}, division


def is_wave(levels, division):
    """Whether a trace rises by 1 V in each millisecond, and comes again after 10."""
    def are_right(milliseconds, volts):
        distance = round(milliseconds / MILLISECONDS_OF_A_DIVISION * division)
        pairs = [(level, levels[x + distance]) for x, level in levels.items() if x + distance in levels]
        right = sum(abs(later - level - volts) <= TOLERANCE for level, later in pairs)
        return len(pairs) >= division / 2 and right >= 0.8 * len(pairs)
    return are_right(1, 1) and are_right(10, 0)


def looks_right(path):
    try:
        first, second = pixels_of(path, (FIRST_TRACE, SECOND_TRACE))
        return is_wave(*levels_of(first, second))
    except (OSError, ValueError, ZeroDivisionError, struct.error):
        return False


def line_from(check, end):
    """A line that a program says within the time that it has; else nothing."""
    text, limit = "", time.monotonic() + check.seconds(SECONDS)
    while not text.endswith("\n"):
        is_there = select.select([end], [], [], max(0, limit - time.monotonic()))[0]
        piece = os.read(end, 64).decode() if is_there else ""
        check.is_cut = not is_there and check.is_late
        if not piece:
            return ""
        text += piece
    return text.strip()


def start_screen(check):
    """A screen in memory, and its name, which it says once it is there."""
    ends = os.pipe()
    with open(check.path("screen.log"), "wb") as log:
        screen = subprocess.Popen(["Xvfb", "-displayfd", str(ends[1]), "-screen", "0", "800x600x24", "-fbdir", check.folder, "-nolisten", "tcp"],
                                  pass_fds=[ends[1]], stdin=subprocess.DEVNULL, stdout=subprocess.DEVNULL, stderr=log)
    os.close(ends[1])
    name = line_from(check, ends[0])
    os.close(ends[0])
    return screen, name


def watch(check, display):
    """Runs xoscope until its picture is right, or its time is over."""
    board, shim = check.path("scope.txt"), check.path("scope.so")
    with open(os.path.join(TOP, "examples", "boards", "ni_pci_6221.txt"), encoding="utf-8") as file:
        text = file.read()
    with open(board, "w", encoding="utf-8") as file:
        file.write(text + WAVE)
    subprocess.run(["cc", "-xc", "-shared", "-fPIC", "-", "-o", shim], input=SHIM.encode(), check=True)
    settings = check.settings("", ZENDROUZ_BOARD=board, ZENDROUZ_LOG="", DISPLAY=display, GDK_BACKEND="x11", HOME=check.folder)
    settings["LD_PRELOAD"] = shim + ":" + settings["LD_PRELOAD"]
    scope = check.start(["xoscope", "-D", "COMEDI", "-1", "0:1/50", "-s", "2/1"], settings)
    end, right = time.monotonic() + check.seconds(SECONDS), False
    while not right and scope.poll() is None and time.monotonic() < end:
        time.sleep(0.2)
        right = looks_right(check.path("Xvfb_screen0"))
    status = scope.poll()
    scope.kill()
    err = scope.communicate()[1]
    check.expect("xoscope draws the board's wave", right, "status %s" % status, err.decode(errors="replace"))
    check.expect_no_process("xoscope")


def scope(check):
    if not installed([["xoscope", "xvfb"]], lambda: shutil.which("xoscope") and shutil.which("Xvfb")):
        check.leave_out("xoscope draws the board's wave", "Debian's xoscope and xvfb aren't there, and can't be had")
        return
    screen, name = start_screen(check)
    try:
        if name:
            watch(check, ":" + name)
        else:
            with open(check.path("screen.log"), encoding="utf-8") as log:
                check.expect("a screen in memory", False, "status %s" % screen.poll(), log.read())
    finally:
        screen.terminate()
        screen.wait()
