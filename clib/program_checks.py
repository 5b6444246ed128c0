"""Parts of clib/check: programs that weren't written for it. Comedilib's demos, its own test, and its bindings."""

import os
import re
import shutil
import subprocess
from concurrent.futures import ThreadPoolExecutor

from checking import DEMOS, TESTS, python_with_comedi, text_of


def demo_names():
    return sorted(name[:-2] for name in os.listdir(DEMOS) if name.endswith(".c") and name != "common.c")


def build_demos(check):
    """Comedilib's demos, from the sources that Debian's package brings."""
    def compile_demo(name):
        words = ["cc", "-w", "-O1", "-I", DEMOS, os.path.join(DEMOS, name + ".c"), os.path.join(DEMOS, "common.c"),
                 "-o", check.path("programs/" + name), "-lcomedi", "-lm"]
        return subprocess.run(words, stderr=subprocess.DEVNULL).returncode == 0
    names = demo_names()
    with ThreadPoolExecutor(os.cpu_count()) as pool:
        for name, built in zip(names, pool.map(compile_demo, names)):
            check.expect("the demo %s is built" % name, built)


# The bench: channel 0 rises from -5 V to 5 V in a second, channel 1 is a square of 1 V and 100 ms, channel 2 has 2.5 V.
def bench_level(channel, time):
    if channel == 0:
        return -5000000 + 10000000 * (time % 1000000000) // 1000000000
    return (-1000000 if time % 100000000 < 50000000 else 1000000) if channel == 1 else 2500000


def bench_code(channel, time):
    return (bench_level(channel, time) + 10000000) * 65535 // 20000000


def bench_value(code):
    return -10000000 + code * 20000000 // 65535


def demo(check, name, arguments, wanted, record=None):
    """A demo on the bench: its standard output, or where `wanted` is a function what that makes of it."""
    run = check.run("bench", [check.path("programs/" + name)] + arguments)
    right = wanted(run.out) if callable(wanted) else run.out == wanted
    check.expect("demo %s %s" % (name, " ".join(arguments)), run.status == 0 and right, "status %s" % run.status, run.out, run.err)
    if record is not None:
        check.compare_record("demo " + name, "bench", run, record, bench_value)
    return run


def scans(channels, count, convert, start=3000):
    """The codes of scans whose conversions follow each other. They start at 3,000 ns: comedi_open makes two calls, and the
    command is the third."""
    return [bench_code(channel, start + (k * channels + channel) * convert) for k in range(count) for channel in range(channels)]


def input_demos(check):
    # 100 scans a second of three channels: comedilib asks for a third of 10 ms, and the clock has microseconds
    codes = scans(3, 6, 3333000)
    table = "".join("%d \n" % c if i % 3 == 2 else "%d " % c for i, c in enumerate(codes))
    demo(check, "cmd", ["-n", "3", "-N", "6", "-F", "100"], table, codes)
    codes = scans(2, 5, 5000000)
    demo(check, "mmap", ["-n", "2", "-N", "5", "-F", "100"], "".join("%d \n" % c if i % 2 else "%d " % c for i, c in enumerate(codes)), codes)
    # a sample each 100 ms; select waits 50 ms at most, so that each second one comes back without a sample
    codes = scans(1, 10, 100000000)
    sampled = "select returned 1\ncomedi file descriptor ready\nread returned 2\n%d\n"
    text = "select returned 0\ntimeout\n".join(sampled % code for code in codes)
    demo(check, "select", [], lambda out: text in out and out.endswith("read returned 0\n"), codes)
    demo(check, "poll", [], lambda out: re.findall(r"^(\d+)$", out, re.M) == [str(c) for c in codes], codes)
    # reads of single values: the third call is at 3,000 ns. In the range of 5 V channel 0 is at its end, which is nan
    demo(check, "inp", ["-c", "2", "-p"], "2.49989 V\n")
    demo(check, "inp", ["-c", "1"], "%d\n" % bench_code(1, 3000))
    demo(check, "inpn", [], "0: -5.00023 nan \n1: -1.00023 -1 \n2: 2.49989 2.49996 \n" + "".join("%d: -0.00015259 -7.62951e-05 \n" % c for c in range(3, 8)))
    demo(check, "insn", ["-c", "2", "-n", "1", "-N", "3"], lambda out: re.findall(r"^(\d+)$", out, re.M) == ["40959"] * 3)
    demo(check, "tut1", [], "%d\n" % bench_code(0, 3000))
    demo(check, "tut2", [], "[0,65535] -> [-10,10]\n-5.00023 V (16383 in raw units)\n")
    # 10,000 scans of two channels
    demo(check, "tut3", ["-n", "2"], lambda out: len(out.split()) == 20000)


def other_demos(check):
    demo(check, "dio", ["-s", "2", "-c", "1", "1"], "configuring pin 1 on subdevice 2 for output.\n")
    demo(check, "outp", ["-s", "1", "-c", "0", "1234"], "1234\n")
    demo(check, "sender", [], "configuring pin 1 for output...\nconfiguring pin 0 for output...\n")
    # it sets eight directions first, and reads the sample that is there at 11,000 ns. The signal of the next one ends its read
    demo(check, "sigio", [], lambda out: "ret=0\n" in out, scans(1, 1, 100000000, 11000))


# The lines of do_waveform: line L turns over after each L + 1 scans.
def waves_of_lines(lines, count):
    values, value = [], 0
    for scan in range(1, count + 1):
        value ^= sum(1 << line for line in range(lines) if scan % (line + 1) == 0)
        values.append(value)
    return values


def output_demos(check):
    """These write without an end: until the signals end, at 10 s, and then a write fails."""
    rate = "100" if check.quick else "1000"
    run = demo(check, "ao_waveform", ["-F", rate], "")
    check.expect("demo ao_waveform: a word each period", len(run.outs()) == 10 * int(rate), len(run.outs()))
    check.compare_record("demo ao_waveform", "bench", run, [])
    if check.quick:
        return
    # an edge every 100 us from 1 ms on, up to the end: 90,000 scans. A number of 32 bits is two samples of 16, and so two
    # scans, of which the second has no line set
    lines = 8
    run = demo(check, "do_waveform", ["-s", "4", "-n", str(lines), "0"], lambda out: "m=16384\n" in out)
    found = [int(line.split()[4]) for line in run.outs()]
    check.expect("demo do_waveform: a word of each line at each edge", len(found) == 90000 * lines, len(found))
    packed = [sum(bit << line for line, bit in enumerate(found[at:at + lines])) for at in range(0, len(found), lines)]
    check.expect("demo do_waveform: its words", packed == [value for word in waves_of_lines(lines, 45000) for value in (word, 0)], packed[:40])
    run = check.run("bench", [check.path("programs/ao_mmap"), "-F", rate])
    check.expect("demo ao_mmap", run.status == 1 and "marking 65536 samples as written\n" in run.out and ": Invalid argument" in run.err, run.status, run.out[-1000:], run.err)
    check.expect("demo ao_mmap: a word each period", len(run.outs()) == 10 * int(rate), len(run.outs()))
    check.compare_record("demo ao_mmap", "bench", run, [])


def whole_programs(check):
    run = check.run("bench", ["comedi_board_info", "-v"])
    check.expect("comedi_board_info", run.status == 0 and run.out == text_of("board_info.expected"), run.out, run.err)


def bindings(check):
    """Comedilib's modules for Python and for C++."""
    python = python_with_comedi()
    if python:
        run = check.run("wide", [python, os.path.join(TESTS, "python_client.py")])
        check.expect("a client in Python", run.out == "command: 0\nread: 0\nread: 1 2\nread: 3 4\nread:\nvalue: 1 7\n", run.out, run.err)
        check.compare_record("a client in Python", "wide", run, run.codes())
    else:
        check.leave_out("a client in Python", "there is no Python module of comedilib")
    if not shutil.which("c++"):
        check.leave_out("a client in C++", "there is no compiler of C++")
        return
    program = check.path("bindings")
    # boost's pointers, or where Debian's package isn't there what stands for them
    done = subprocess.run(["c++", "-O1", "-w", "-idirafter", os.path.join(TESTS, "without_boost"), os.path.join(TESTS, "bindings.cc"),
                           "-o", program, "-lcomedi"], stderr=subprocess.PIPE)
    check.expect("the client in C++ is built", done.returncode == 0, done.stderr.decode())
    run = check.run("wide", [program])
    check.expect("a client in C++", run.status == 0 and run.out == text_of("bindings.expected"), run.status, run.out, run.err)
    check.compare_record("a client in C++", "wide", run, list(range(5)))
