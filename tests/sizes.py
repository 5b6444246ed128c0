"""Jobs at the limits, with ample memory: no limit is lower than it says. What they give follows from their own numbers."""

# An analog input of 16 bits with 64 channels, and all that a subdevice may have.
LARGE = """comedi 1
board large
subdevice ai 64
bits 16
range 0 65535 0
sources now|ext|int follow|timer|ext now|timer|ext count none|count
tick 1
scan 1 1000000
convert 1 1000
list 256
scans 4000000
lines 2
buffer 65536
"""
# An output of 12 bits that takes commands.
OUTPUT = """subdevice ao 2
bits 12
range -10000000 10000000 0
sources now timer now count count
tick 1
scan 1 10
convert 1 1
list 2
buffer 256
"""
ONE = "now:0 timer:1 now:0 count:1 count:1 0/0/ground"
# An analog input of 16 bits with eight channels.
LAB = """comedi 1
board lab
subdevice ai 8
bits 16
munge offset
range -10000000 10000000 0
sources now timer timer|ext count none|count
tick 100
scan 1000 1000000000
convert 5000 100000
list 16
lines 1
buffer 1024
"""


def lines(texts):
    return "".join(text + "\n" for text in texts)


def channels(entries, most):
    """A list with one channel after another, over and over again."""
    return ",".join("%d/0/ground" % (entry % most) for entry in range(entries))


def filled_buffer():
    job = LARGE + lines(["signals 1000000", "wave 0 0 const 7", "session", "0 open 1",
                         "0 cmd 1 0 0 now:0 timer:1 now:0 count:1 count:100000 0/0/ground",
                         "99999 read 1 0 65536", "99999 read 1 0 1"])
    return "replay", "a buffer of 65,536 samples", job, "ok\nok\nok 65536\n" + 65536 * "0 7\n" + "err 32 overrun 65536\n"


def long_list():
    job = LARGE + lines(["signals 1000000", "wave 0 63 const 63", "session",
                         "expand 0 0 0 now:0 timer:1000 timer:2 count:256 count:1000 " + channels(256, 64)])
    answer = lines("%d %d %d" % (1000 * scan + 2 * entry, entry, 63 * (entry % 64 == 63))
                   for scan in range(1000) for entry in range(256))
    return "expand", "a list of 256 entries", job, answer + "done\n"


def many_waves():
    job = LARGE + lines(["signals 1000000", *("wave 0 %d const %d" % (it, 1000 + it) for it in range(64)), "session",
                         "expand 0 0 0 now:0 timer:100 now:0 count:64 count:2000 " + channels(64, 64)])
    answer = lines("%d %d %d" % (100 * scan, it, 1000 + it) for scan in range(2000) for it in range(64))
    return "expand", "64 waves of a subdevice", job, answer + "done\n"


def long_table():
    job = LARGE + lines(["signals 1000000", "wave 0 0 table 10 " + " ".join(str(2 * it) for it in range(64)), "session",
                         "expand 0 0 0 now:0 timer:10 now:0 count:1 count:640 0/0/ground"])
    answer = lines("%d 0 %d" % (10 * scan, 2 * (scan % 64)) for scan in range(640))
    return "expand", "a table of 64 levels", job, answer + "done\n"


def many_edges():
    job = LARGE + lines(["signals 1000000000", "every 1 5 10 100000", "session",
                         "expand 0 0 0 now:0 ext:1 now:0 count:1 count:100000 0/0/ground",
                         "expand 0 0 0 now:0 follow:0 ext:1 count:2 count:50000 0/0/ground,1/0/ground"])
    answer = (lines("%d 0 0" % (5 + 10 * edge) for edge in range(100000)) + "done\n"
              + lines("%d %d 0" % (5 + 10 * edge, edge % 2) for edge in range(100000)) + "done\n")
    return "expand", "100,000 edges and scans of a line", job, answer


def many_triggers():
    job = LARGE + lines(["signals 1000000", *("int 0 %d 0" % (1000 - it) for it in range(1000)), "session",
                         "expand 0 0 0 int:0 timer:1 now:0 count:1 count:1 0/0/ground",
                         "expand 1000 0 0 int:0 timer:1 now:0 count:1 count:1 0/0/ground"])
    return "expand", "1,000 triggers", job, "1 0 0\ndone\n1000 0 0\ndone\n"


def many_subdevices():
    job = LARGE + 14 * "subdevice unused 0\n" + OUTPUT + lines(
        ["signals 0", "session", *("test %d 0 now:0 timer:1 now:0 count:1 count:1 0/0/ground" % it for it in (14, 15, 16))])
    return "test", "16 subdevices", job, "err 5\nstep 0 15 0 %s\nerr 19\n" % ONE


def long_job():
    head, line = LARGE + "signals 0\nsession\n", "test 0 0 %s\n" % ONE
    count = (1048576 - len(head)) // len(line)
    job = head + count * line
    return "test", "a job of 1,048,576 bytes", job + (1048576 - len(job)) * "\n", count * ("step 0 0 0 %s\n" % ONE)


def long_scans():
    job = LAB + lines(["signals 200000000", "session", "0 open 1",
                       "0 cmd 1 0 0 now:0 timer:1000000 timer:10000 count:8 count:100 " + channels(8, 8)])
    answer, first = "ok\nok\n", 0
    for time, count in (20, 161), (40, 160), (60, 160), (80, 160), (100, 159), (100, 0):
        job += "%d000000 read 1 0 1024\n" % time
        answer += "ok %d\n" % count if count else "ok 0 done\n"
        answer += lines("%d -153" % (place % 8) for place in range(first, first + count))
        first += count
    return "replay", "a hundred scans of eight channels, read in five pieces", job, answer


def rows():
    """Each job's command, what it shows, its text, and its whole answer."""
    return [make() for make in (filled_buffer, long_list, many_waves, long_table, many_edges, many_triggers, many_subdevices,
                                long_job, long_scans)] + [
        ("replay", "1,048,576 bytes of comments", 1048576 * "#", "refused 2 Missing\n"),
        ("replay", "1,048,577 bytes", 1048577 * "#", "refused 0 TooLong\n")]
