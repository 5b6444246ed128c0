"""Parts of clib/check: the clients of tests/, whose expected texts are worked from the boards."""

import os
import re
import shutil
import signal
import subprocess
import threading
import time

from checking import HERE, LIBRARY, TESTS, WHOLE, processes_of, python_with_comedi, text_of, write_file

RANDOM_CALLS = 1000000
RANDOM_SECONDS = 200
# how many lines wide.board has, the text that the program of answers gets first
LINES_OF_WIDE = text_of("wide.board").count("\n")
CLIENTS_AT_ONCE = 64
# the oldest C library that the device is for
OLDEST_LIBRARY = (2, 31)


def clients(check):
    texts = set()
    for _ in range(2 if check.quick else 20):
        run = check.client("late", "small")
        texts.add(run.out + "\n".join(run.record))
    check.expect("late: the same in each run", len(texts) == 1, *texts)
    check.compare_record("late", "small", run, run.codes())
    for name in ("output", "output_mapped"):
        run = check.client(name, "wide")
        check.expect(name + ": what was put out", run.outs() == text_of(name + ".outs").splitlines(), "\n".join(run.outs()))
        check.compare_record(name, "wide", run, [])
    run = check.client("forks", "wide")
    check.compare_record("forks", "wide", run, run.codes())
    check.client("owners", "wide")
    for name in ("signals", "waiting"):
        run = check.client(name, "wide")
        check.compare_record(name, "wide", run, run.codes())
    run = check.client("ends", "wide")
    # its commands are called at these times: each call takes 1,000 ns, and each sleep 100 ms
    starts = ((3000, 4096), (100006000, 4096), (200009000, 32768))
    check.compare_record("ends", "wide", run, [(start + k * 1000) // 1000000 % 255 for start, count in starts for k in range(count)])
    run = check.client("full", "large")
    check.compare_record("full", "large", run, [(3000 + k * 10000) // 1000000 % 255 for k in range(1 + 100000 + 131072)])
    check.client("locks", "wide")
    check.client("claims", "bench")
    check.client("wild", "wide")
    check.client("paced", "wide", ZENDROUZ_PACE="10")
    check.client("beside", "wide", ZENDROUZ_PACE="0.5")


def files(check):
    """Descriptors, what the program of answers has of them, and what the kernel answers for any file."""
    check.client("apart", "wide")
    check.client("refused", "refused")
    check.client("closed", "wide")
    check.client("stack", "wide", LD_BIND_NOW="1")
    check.client("answers", "wide")
    check.client("nothing", "wide")
    for more in ("", ":" + check.path("old_library.so")):
        check.client("condition", "wide", LD_PRELOAD=check.path(LIBRARY) + more)
    run = check.client("bytes", "wide")
    # eight words of the first output, two of the second, and one of the third
    words = [int(line.split()[4]) for line in run.outs()]
    check.expect("bytes: what was put out", words == [0, 2, 4, 6, 8, 10, 12, 14, 5, 7, 0], words)
    check.compare_record("bytes", "wide", run, [0, 1, 2, 3, 10, 20, 30])
    check.client("outless", "small")
    check.client("closing", "wide")
    check.client("paths", "wide")
    check.client("named", "wide")
    run = check.run("wide", ["ls", "-l", "/dev/comedi0"])
    check.expect("ls -l", run.status == 0 and run.out.startswith("crw-rw----") and "98, 0" in run.out and not run.err, run.status, run.out, run.err)
    check.client("edges", "wide")
    check.client("tables", "wide")
    check.client("worker", "wide")
    slow = write_file(check.path("slow"), "#!/bin/sh\nsleep 1\nexec %s\n" % check.serve, True)
    check.client("slowly", "wide", ZENDROUZ_CORE=slow)


# The list of packed.c: what stands for line 0 and 1 is exchanged, and the last four entries are the lines 0 to 3 again.
PACKED_LIST = [1, 0] + list(range(2, 16)) + [0, 1, 2, 3]


def line_levels(start, count):
    """The levels of so many entries of digital.board, from a command's call on: a scan every 100 us."""
    places = [divmod(i, len(PACKED_LIST)) for i in range(count)]
    return [5000000 * ((start + scan * 100000) // 100000 >> PACKED_LIST[entry] & 1) for scan, entry in places]


def packed(check):
    """Digital scans. The kernel's rule, put into the other direction: entry K is bit K of a scan's two samples."""
    check.client("scattered", "digital", ZENDROUZ_LOG="")
    run = check.client("packed", "digital")
    # 6 scans; none of the second command's; twice all that the buffer holds, with a part of a scan; and 4 scans
    read = ((3000, 120), (586000, 110), (2593000, 110), (4596000, 80))
    check.compare_record("packed", "digital", run, [level for start, count in read for level in line_levels(start, count)])
    scans = [(0x0001, 0x0008), (0x8000, 0xfff5), (0x1234, 0x000a), (0x0001, 0x0008)]
    words = [(first | second << 16) >> entry & 1 for first, second in scans for entry in range(len(PACKED_LIST))]
    found = [line.split() for line in run.outs()]
    check.expect("packed: what was put out", [(int(w[3]), int(w[4])) for w in found] == [(i % 20, bit) for i, bit in enumerate(words)], run.outs())
    times = sorted({int(w[2]) for w in found})
    check.expect("packed: a scan every 100 us", [time - times[0] for time in times] == [0, 100000, 200000, 300000], times)


def times(check):
    """Clocks, and waits of board time for what isn't the board's."""
    for name in ("clocks", "timers", "turns"):
        runs = [check.client(name, "wide", ZENDROUZ_CLOCK=clock) for clock in ("", "board")]
        check.expect(name + ": the same in each run", runs[0].record == runs[1].record, *(run.record for run in runs))
    check.client("real", "wide", ZENDROUZ_CLOCK="system")
    check.client("real", "wide", ZENDROUZ_PACE="10")
    check.client("beyond", "small")


def times_of_python(check):
    python = python_with_comedi()
    if not python:
        check.leave_out("waits in Python", "there is no Python module of comedilib")
        return
    for clock in ("", "board") if check.quick else ("", "board", "", "", ""):
        run = check.run("saw", [python, os.path.join(TESTS, "python_waits.py")], ZENDROUZ_CLOCK=clock)
        check.expect("waits in Python", run.status == 0 and run.out == text_of("python_waits.expected"), "status %s" % run.status, run.out, run.err)


def codes_of_many(count):
    """The codes that the client `many` reads, and what it prints."""
    codes = [k // 100 % 255 for k in range(count)]
    return codes, "command: 0\nthe last read: 0\n%d samples, sum %d\n" % (count, sum(codes))


def many(check):
    """Reads of many samples, and of one sample each, also where client and program have one processor; the sum of a whole
    period is 3,238,500 for 25,500 samples."""
    on_one = ["taskset", "-c", str(min(os.sched_getaffinity(0)))]
    for size, count, where in ((4096, 25500 if check.quick else 510000, []), (2, 200 if check.quick else 10000, []), (2, 200 if check.quick else 10000, on_one)):
        name = " ".join(where + ["many of %d bytes" % size])
        run = check.run("wide", where + [check.path("tests/many"), str(size), str(count)], ZENDROUZ_CLOCK="system")
        codes, wanted = codes_of_many(count)
        check.expect(name, run.out == wanted, run.out, run.err)
        check.say("%s: %s" % (name, run.err.strip()))
        check.compare_record(name, "wide", run, codes)


def wakes(check):
    """Threads that are woken by what another one does to the board, in board time and with a pace."""
    for _ in range(1 if check.quick else 5):
        check.client("woken", "wide")
        for behind in ("", ":" + check.path("slow_waits.so")):
            check.client("between", "wide", LD_PRELOAD=check.path(LIBRARY) + behind)
        run = check.client("pair", "wide")
        check.expect("pair: the samples of its record", len(check.replayed("wide", run.record)[0]) == 4000, run.record[-20:])
    watched = "command: 0\ncancel: 0\nthe last read: Invalid argument\n0 samples in 0 reads, 0 looks, 2000 ms\n"
    for settings in ({}, {"ZENDROUZ_PACE": "2"}):
        run = check.run("wide", [check.path("tests/pair"), "watch"], 20, **settings)
        # with a pace the times are the machine's
        right = run.out == watched or settings and run.out.startswith(watched[:watched.index(" looks") - 1])
        check.expect("a watch that cancels a read %s" % settings, right and not run.err, run.out, run.err)


def text_at(path):
    with open(path, encoding="utf-8") as file:
        return file.read()


WRONG_SETTINGS = (("CALL_NS", "", "a number of nanoseconds, in digits alone such as 1000"),
                  ("CALL_NS", "1us", "a number of nanoseconds, in digits alone such as 1000"),
                  ("CALL_NS", "-1", "a number of nanoseconds, in digits alone such as 1000"),
                  ("PACE", "fast", "a number above 0, such as 1 or 0.5"), ("PACE", "nan", "a number above 0, such as 1 or 0.5"),
                  ("PACE", "0.0", "a number above 0, such as 1 or 0.5"), ("WAKE", "smaple", "sample, scan or full"),
                  ("CLOCK", "sytem", "board or system"), ("START", "2030-01-01", "a date from 2000 to 2037, such as 2030-01-01T00:00:00Z"),
                  ("START", "1999-12-31T23:59:59Z", "a date from 2000 to 2037, such as 2030-01-01T00:00:00Z"))


def settings(check):
    """Settings that can't be read refuse the board, and the others do what they say."""
    late = [check.path("tests/late")]
    for name, value, wanted in WRONG_SETTINGS:
        run = check.run("small", late, **{"ZENDROUZ_" + name: value})
        said = "zendrouz: ZENDROUZ_%s=%s: that can't be read. Give %s, or unset it\n" % (name, value, wanted)
        check.expect("the setting %s=%s" % (name, value), run.out == "open: Invalid argument\n" and run.err == said, run.out, run.err)
    for more in ({"ZENDROUZ_CALL_NS": "1000"}, {"ZENDROUZ_WAKE": "full", "ZENDROUZ_CLOCK": "board"}, {"ZENDROUZ_WAKE": "", "ZENDROUZ_START": ""}):
        check.client("late", "small", **more)
    for _ in range(2):
        check.client("date", "wide", ZENDROUZ_START="2030-01-01T00:00:00Z")


def records(check):
    """A record that can't be written, or not to its end, isn't dropped without a word."""
    late, path = [check.path("tests/late")], check.path("cut")
    for log, error in (("/nowhere/record", "No such file or directory"), (check.folder, "Is a directory")):
        run = check.run("small", late, ZENDROUZ_LOG=log)
        check.expect("a record %s" % log, run.out == "open: %s\n" % error and run.err == "zendrouz: ZENDROUZ_LOG=%s: %s\n" % (log, error), run.out, run.err)
    said = "zendrouz: ZENDROUZ_LOG=%s: %s. The record ends here, and the program goes on\n"
    run = check.run("small", late, ZENDROUZ_LOG="/dev/full")
    check.expect("a record on a full device", run.out == text_of("late.expected") and run.err == said % ("/dev/full", "No space left on device"), run.out, run.err)
    # up to 150 KiB, in which the device's memory has room, and the record hasn't
    small = ["sh", "-c", "trap '' XFSZ; ulimit -f 300; exec \"$0\" 2 10000", check.path("tests/many")]
    run = check.run("wide", small, ZENDROUZ_LOG=path)
    check.expect("a record that becomes too large", run.out == codes_of_many(10000)[1] and said % (path, "File too large") in run.err, run.out, run.err)
    text = text_at(path)
    samples, _, refusal = check.replayed("wide", text.splitlines())
    right = text.endswith("\n") and WHOLE not in text and samples == codes_of_many(10000)[0][:len(samples)]
    check.expect("its lines, up to there", right and len(samples) > 1000 and not refusal, refusal, text[-200:])


# What a record has for the questions that it leaves out.
REPEATED = re.compile(r"# (\d+) repeated: (\d+) lines? like the last one$")


def unfolded(record):
    """A record with the questions again that a round of one line has left out, a microsecond after one another."""
    lines = []
    for line in record:
        found = REPEATED.match(line)
        if not found:
            lines.append(line)
            continue
        last, count = int(found.group(1)), int(found.group(2))
        words = lines[-1].split(" ", 1)[1]
        lines += ["%d %s" % (last - 1000 * left, words) for left in reversed(range(count))]
    return lines


def busy(check):
    """The record of a client that asks over and over stays small. With all questions again it is answered as without."""
    run = check.client("busy", "wide")
    asked = sum(int(count) for count in re.findall(r"^# \d+ repeated: (\d+) ", "\n".join(run.record), re.M))
    check.expect("busy: a record that stays small", len(run.record) < 200 and asked > 20000, len(run.record), asked, "\n".join(run.record))
    check.compare_record("busy", "wide", run, run.codes())
    folded, whole = ([line for line in lines if not line.startswith("#")] for lines in (run.record, unfolded(run.record)))
    kept, answers = dict(zip(folded, check.answers("wide", folded))), check.answers("wide", whole)
    check.expect("busy: all its questions are answered", len(whole) > 10000 and len(answers) == len(whole), len(whole), answers[:5])
    wrong, last = [], None
    for line, answer in zip(whole, answers):
        last = kept.get(line, last)
        if answer != last:
            wrong.append((line, answer, last))
    check.expect("busy: what is left out has the answers of what is there", not wrong, len(wrong), wrong[:5])


def records_of_two(check):
    """A client that runs on: its record is whole at any time, and no other program writes into it."""
    path = check.path("cut")
    started = check.start([check.path("tests/many"), "2", "4000000000"], check.settings("wide", ZENDROUZ_LOG=path))
    line = started.stdout.readline()
    out, err = check.finish(check.start([check.path("tests/late")], check.settings("small", ZENDROUZ_LOG=path)))
    busy = "zendrouz: ZENDROUZ_LOG=%s: another program writes its record there. Give each program a file of its own\n" % path
    check.expect("a record of two programs", out == b"open: Device or resource busy\n" and err == busy.encode(), out, err)
    started.kill()
    check.finish(started)
    lines = text_at(path).splitlines()
    check.expect("the record of a client that is killed", line == b"command: 0\n" and len(lines) > 4 and lines[-1] == WHOLE and lines.count(WHOLE) == 1, lines[-5:])
    check.expect_no_process("a client that is killed")


def cancellations(check):
    """Threads that are cancelled within a call, with a record, whose writing is one more place, and without."""
    for settings in ({}, {"ZENDROUZ_LOG": ""}):
        check.client("cancelled", "wide", **settings)


def handlers(check):
    """Handlers of signals that are set by each name that does so, while the board is read."""
    for name in ("sigaction", "signal", "bsd_signal", "sysv_signal", "system_call"):
        run = check.run("wide", [check.path("tests/handled"), name], ZENDROUZ_LOG="")
        check.expect("a handler set by " + name, run.status == 0 and run.out == text_of("handled.expected"), "status %s" % run.status, run.out, run.err)


def crowds(check):
    """Threads, children and signals on one board; and many clients at once, each on a board of its own."""
    for _ in range(1 if check.quick else 3):
        check.client("left", "wide")
        check.client("storm", "wide")
        for name, samples in ("torn", 5100), ("crowd", 25500):
            check.compare_record(name, "wide", check.client(name, "wide"), [k // 100 % 255 for k in range(samples)])
    started = [check.start([check.path("tests/late")], check.settings("small", ZENDROUZ_LOG="")) for _ in range(CLIENTS_AT_ONCE)]
    ended = [None] * len(started)

    def finish(i):
        ended[i] = check.finish(started[i])[0].decode()

    waits = [threading.Thread(target=finish, args=(i,)) for i in range(len(started))]
    for wait in waits:
        wait.start()
    for wait in waits:
        wait.join()
    check.expect_no_process("%d clients" % CLIENTS_AT_ONCE)
    wrong = [out for out in ended if out != text_of("late.expected")]
    check.expect("%d clients at once" % CLIENTS_AT_ONCE, not wrong, "%d wrong" % len(wrong), *wrong[:1])


def kills(check):
    """A client that is ended by a signal while its command runs."""
    for number in (signal.SIGKILL, signal.SIGTERM, signal.SIGINT):
        # its last sample is beyond the end of the signals, so it ends by the signal or not at all
        started = check.start([check.path("tests/many"), "2", "4000000000"], check.settings("wide", ZENDROUZ_LOG=""))
        line = started.stdout.readline()
        started.send_signal(number)
        check.finish(started)
        check.expect("a client ended by signal %d" % number, line == b"command: 0\n" and started.returncode == -number, line, started.returncode)
        check.expect_no_process("a client ended by signal %d" % number)


def killed_records(check):
    """Clients that are killed at any moment of their reads: what they asked is there, and the record says that it is whole."""
    for round in range(3 if check.quick else 20):
        path = check.path("cut")
        started = check.start([check.path("tests/many"), "2", "4000000000"], check.settings("wide", ZENDROUZ_LOG=path))
        started.stdout.readline()
        time.sleep(round / 1000)
        started.kill()
        check.finish(started)
        lines = text_at(path).splitlines()
        samples, _, refusal = check.replayed("wide", lines)
        right = lines[-1:] == [WHOLE] and not refusal and samples == codes_of_many(len(samples))[0]
        check.expect("the record of a client that is killed after %d ms" % round, right, refusal, len(samples), lines[-3:])
        check.expect_no_process("a client that is killed")


def stops(check):
    """The program of answers is stopped for a while, and goes on."""
    count = 5000 if check.quick else 100000
    started = check.start([check.path("tests/many"), "2", str(count)], check.settings("wide", ZENDROUZ_LOG="", ZENDROUZ_CLOCK="system"))
    line = started.stdout.readline()
    serves = [process for process in processes_of("CLIB_CHECK=" + check.folder) if process != started.pid]
    for number in (signal.SIGSTOP, signal.SIGCONT) * 5:
        time.sleep(0.02)
        for process in serves:
            os.kill(process, number)
    out, err = check.finish(started)
    check.expect("a program that is stopped and goes on", len(serves) == 1 and (line + out).decode() == codes_of_many(count)[1], serves, line + out, err)
    check.expect_no_process("a program that is stopped and goes on")


def failures(check):
    run = check.run("refused", [check.path("tests/late")])
    check.expect("a board that is refused", run.status == 1 and run.out == "open: Invalid argument\n" and run.err.endswith("refused.board:4: refused BadNumber: bits 08\n"), run.out, run.err)
    dying = dict(ZENDROUZ_CORE=check.path("tests/dying"), DYING_CORE=check.serve, DYING_LINES="26")
    check.client("dead", "small", **dying)
    check.client("orphan", "small", DYING_SILENTLY="1", **dying)
    run = check.run("small", [check.path("tests/late")], ZENDROUZ_CORE="/nowhere")
    check.expect("a program that isn't there", run.status == 1 and run.out == "open: Input/output error\n", run.out, run.err)


def silences(check):
    """A program of answers that says nothing. The client can be ended meanwhile, and the program ends with it."""
    silent = write_file(check.path("silent"), "#!/bin/sh\nsleep 1000\n", True)
    started = check.start([check.path("tests/late")], check.settings("small", ZENDROUZ_CORE=silent, ZENDROUZ_LOG=""))
    time.sleep(0.5)
    started.terminate()
    began = time.monotonic()
    out, err = check.finish(started, 20)
    check.expect("a client that waits for a silent program can be ended", started.returncode == -signal.SIGTERM and time.monotonic() - began < 10, started.returncode, out, err)
    check.expect_no_process("a client of a silent program")


def limits(check):
    """A client whose files may not be long is told so."""
    run = check.run("small", ["sh", "-c", "ulimit -f 10; exec \"$0\"", check.path("tests/late")], ZENDROUZ_LOG="")
    said = re.fullmatch(r"zendrouz: files may have \d+ bytes at most \(ulimit -f\), and the board's memory needs \d+. Allow more\n", run.err)
    check.expect("a limit of file sizes", run.status == 1 and run.out == "open: File too large\n" and said, run.status, run.out, run.err)


def newest_version(path):
    """The newest version of the C library that a library needs."""
    text = subprocess.run(["objdump", "-T", path], stdout=subprocess.PIPE).stdout.decode()
    return max((tuple(int(part) for part in found.split(".")) for found in re.findall(r"GLIBC_([0-9.]+)", text)), default=())


def versions(check):
    """The library needs no newer C library than Debian 11 has."""
    if not shutil.which("objdump"):
        check.leave_out("the C library that is needed", "there is no objdump (Debian's package binutils)")
        return
    newest = newest_version(check.path(LIBRARY))
    check.expect("the C library that is needed", (2, 2) < newest <= OLDEST_LIBRARY, newest)


def is_broken_off(out, whole):
    """Whether an output is a whole one up to some line, and from there on each call failed with EIO. The first of them may
    have moved a part."""
    pairs = [(line.split(": "), right.split(": ")) for line, right in zip(out, whole)]
    broken = [pair for i, pair in enumerate(pairs) if out[:i + 1] != whole[:i + 1]]
    if broken and broken[0][0][1].isdigit() and int(broken[0][0][1]) < int(broken[0][1][1]):
        broken = broken[1:]
    names_are_right = len(out) == len(whole) and all(line[0] == right[0] for line, right in pairs)
    return names_are_right and all(line[1] == "Input/output error" for line, _ in broken)


def deaths(check):
    """The program of answers ends after each of its lines in turn, up to where none is missing."""
    whole = text_of("each.expected").splitlines()
    check.client("each", "wide")
    out, lines = [], LINES_OF_WIDE
    while out != whole and not check.failed:
        run = check.run("wide", [check.path("tests/each")], ZENDROUZ_CORE=check.path("tests/dying"), DYING_CORE=check.serve, DYING_LINES=str(lines))
        out = run.out.splitlines()
        unopened = run.status == 1 and out == ["open: Input/output error"]
        check.expect("a death after %d lines" % lines, unopened or (run.status == 0 and is_broken_off(out, whole)), run.status, run.out, run.err)
        lines += 9 if check.quick else 1


def random_calls(check, board):
    calls = (300 if check.quick else RANDOM_CALLS) // 3
    run = check.run(board, [check.path("sanitized/random"), str(calls)], RANDOM_SECONDS, LD_PRELOAD="", ZENDROUZ_LOG="")
    # each of its children may come to the end of the signals
    said = re.sub(r"^zendrouz: the signals of \S*/%s.board end at 10? s of board time: from here on nothing changes\n" % board, "", run.err, flags=re.M)
    check.expect("random calls of " + board, run.status == 0 and run.out == "%d calls\n" % calls and not said, run.out, said)


def fuzzed(check):
    """Answers that a fuzzer has found are heard under the checks of the compiler."""
    folder = os.path.join(HERE, "fuzz", "corpus")
    inputs = sorted(os.path.join(folder, name) for name in os.listdir(folder))
    run = check.run("wide", [check.path("sanitized/replay")] + inputs, LD_PRELOAD="", ZENDROUZ_LOG="")
    check.expect("answers of a fuzzer", run.status == 0 and inputs and run.out == "%d inputs\n" % len(inputs) and not run.err, run.out, run.err)


def build(check):
    """Everything is built with all warnings as errors."""
    words = ["make", "-j%d" % (os.cpu_count() or 1), "-C", os.path.dirname(TESTS), "OUT=" + check.programs.top, "all", "clients", "sanitized"]
    done = subprocess.run(words, stdout=subprocess.DEVNULL, stderr=subprocess.PIPE)
    check.expect("build", done.returncode == 0, done.stderr.decode())
    return done.returncode == 0
