"""A part of clib/check: each of comedilib's demos and its test on each of the boards of examples/boards.

What a demo prints is worked from the board's text. All inputs are open, at the level 0.
"""

import os
import re

from checking import DEMOS, TOP

BOARDS = os.path.join(TOP, "examples", "boards")
# as long as ten samples of 100 ms, and half a second more
HORIZON = 1500000000
# the size of a buffer that comedi_test asks for
ASKED_SIZE = 4096
NOT_SUPPORTED = "comedi_command_test: Command not supported\n"
EAGAIN = "comedi_command: Resource temporarily unavailable\n"
# these are for counters, clocks, gates, calibrations and memory, which no board here has. Each says so, and ends with a status
# and one of these texts, as the board is
OTHERS = {
    "antialias": ([], 0, [": Invalid argument\n", "1000\n" * 20]),
    "apply_cal": ([], 0, ["/dev/comedi0: Success\n"]),
    "choose_clock": (["0"], 255, ["comedi_set_clock_source: Invalid argument\n"]),
    "choose_filter": (["0"], 255, ["comedi_do_insn: Invalid argument\n"]),
    "choose_routing": (["0"], 255, ["comedi_do_insn: Invalid argument\n"]),
    "eeprom_dump": ([], 0, ["No memory subdevice\n"]),
    "gpct_buffered_counting": ([], 255, ["Subdevice is not a counter (type 6), but of type 1.\n", "cannot do streaming input.\n"]),
    "gpct_encoder": ([], 255, ["comedi_do_insn: Bad comedi_t structure\n"]),
    "gpct_pulse_generator": ([], 255, ["Subdevice is not a counter (type 6), but of type 1.\n", "Subdevice is not a counter (type 6), but of type 2.\n"]),
    "gpct_simple_counting": ([], 255, ["Initiating simple event counting on subdevice 0.\n"]),
    "ledclock": ([], 0, [EAGAIN, NOT_SUPPORTED]),
    "pwm": (["-N", "1", "50"], 255, ["Could not switch on:-1\n"]),
    "receiver": ([], 0, [EAGAIN, NOT_SUPPORTED, "comedi_command_test: Invalid argument\n", "ret=0\n"]),
    "sender": ([], None, ["configuring pin 1 for output...\nconfiguring pin 0 for output...\n", "No dio subdevice found.\n"]),
    "sv": ([], 255, ["comedi_sv_measure(): Inappropriate ioctl for device\n"]),
}


def board_names():
    return sorted(name[:-4] for name in os.listdir(BOARDS) if name.endswith(".txt"))


class Subdevice:
    """What a board's text says of a subdevice."""

    def __init__(self, number, kind, channels):
        self.number, self.kind, self.channels = number, kind, int(channels)
        self.greatest = self.entries = self.buffer = 0
        self.ranges, self.sources, self.forbidden = [], [], []

    def add(self, words):
        if words[0] == "bits":
            self.greatest = 2 ** int(words[1]) - 1
        elif words[0] == "range":
            self.ranges.append((int(words[1]), int(words[2])))
        elif words[0] == "list":
            self.entries = int(words[1])
        elif words[0] == "buffer":
            self.buffer = int(words[1])
        elif words[0] == "sources":
            self.sources = [sources.split("|") for sources in words[1:]]
        elif words[0] == "forbid":
            self.forbidden.append(words[1:])

    def reading(self):
        """The code of 0 V of an input, rounded down and at the nearer end of the range; an output keeps 0."""
        least, most = self.ranges[0]
        return max(0, min(self.greatest, -least * self.greatest // (most - least))) if self.kind == "ai" else 0

    def buffer_bytes(self):
        """A sample has 16 bits, or 32 if the codes are longer."""
        return self.buffer * (4 if self.greatest > 65535 else 2)

    def has_two_timers(self):
        return "timer" in self.sources[1] and "timer" in self.sources[2] and ["scan_begin", "timer", "convert", "timer"] not in self.forbidden


def subdevices_of(text):
    found = []
    for words in (line.split() for line in text.splitlines() if line and not line.startswith("#")):
        if words[0] == "subdevice":
            found.append(Subdevice(len(found), words[1], words[2]))
        elif found:
            found[-1].add(words)
    return found


def values_of(out):
    return re.findall(r"^(\d+)$", out, re.M)


class Demos:
    """Runs of the demos on one board."""

    def __init__(self, check, name):
        self.check, self.name = check, name
        self.path = check.path("board.txt")
        with open(os.path.join(BOARDS, name + ".txt"), encoding="utf-8") as file:
            text = file.read()
        with open(self.path, "w", encoding="utf-8") as file:
            file.write(text + "signals %d\n" % HORIZON)
        self.subdevices = subdevices_of(text)
        self.first = self.subdevices[0]
        self.value = str(self.first.reading())

    def number_of(self, kind):
        return next((s.number for s in self.subdevices if s.kind == kind), None)

    def run(self, words, **environment):
        demo = self.check.path("programs/" + words[0])
        program = demo if os.path.exists(demo) else words[0]
        return self.check.run("", [program] + words[1:], **dict({"ZENDROUZ_BOARD": self.path, "ZENDROUZ_LOG": ""}, **environment))

    def expect(self, words, right, status=0):
        """What a program prints, by a text or by what a function says; a text of its errors where it fails."""
        run = self.run(words)
        is_right = right(run.out) if callable(right) else run.out == right if not status else right in run.err
        self.check.expect("%s on %s" % (" ".join(words), self.name), is_right and run.status == status, "status %s" % run.status, run.out, run.err)

    def read(self):
        """Reads of single values."""
        self.expect(["inp"], self.value + "\n")
        self.expect(["tut1"], self.value + "\n")
        # comedilib takes a code at the range's end for one outside
        is_at_end = self.value in ("0", str(self.first.greatest))
        self.expect(["tut2"], lambda out: "Out of range" in out if is_at_end else out.endswith(" V (%s in raw units)\n" % self.value))
        self.expect(["insn", "-N", "4"], lambda out: values_of(out) and set(values_of(out)) == {self.value})
        for name in ("info", "comedi_board_info"):
            self.expect([name], lambda out: "board name: %s\n" % self.name[:19] in out and "number of subdevices: %d\n" % len(self.subdevices) in out)
        if self.first.kind == "ai":
            self.expect(["inpn"], lambda out: len(out.splitlines()) == self.first.channels)

    def write(self):
        """Outputs and lines."""
        if self.number_of("ao") is not None:
            self.expect(["outp", "-s", str(self.number_of("ao")), "7"], "7\n")
        if self.number_of("dio") is not None:
            self.expect(["dio", "-s", str(self.number_of("dio")), "1"], "configuring pin 0 on subdevice %d for output.\n" % self.number_of("dio"))

    def command(self):
        """Commands of the first input, of one channel and of two."""
        for entries in (1, 2):
            for name in ("cmd", "mmap"):
                words = [name, "-n", str(entries), "-N", "3"]
                if entries > self.first.entries:
                    self.expect(words, "", 1)
                else:
                    self.expect(words, (entries * (self.value + " ") + "\n") * 3)
        if self.first.entries > 1:
            self.expect(["tut3", "-n", "2"], lambda out: len(out.split()) >= 2 and len(set(out.split())) == 1)
        self.wait()

    def wait(self):
        """Commands with two timers, whose samples are waited for. Where a board has no two, the kernel's core says EAGAIN.
        The signal that comes with a sample ends the second read of sigio, as the kernel's does."""
        samples = 10 if self.first.has_two_timers() else 0
        said = "" if samples else "errno=11\n"
        for name in ("poll", "select"):
            self.expect([name], lambda out: values_of(out) == [self.value] * samples and said in out)
        run = self.run(["sigio"])
        signals = re.findall(r"^\d+\.\d{6} \+\d+\.\d{6}$", run.out, re.M)
        right = len(signals) == (1 if samples else 0) and ("read: Interrupted system call\n" in run.err if samples else said in run.out)
        self.check.expect("sigio on " + self.name, right and run.status == 0, "status %s" % run.status, run.out, run.err)

    def stream(self):
        """Outputs that are written until the signals end, a word every 10 ms; without commands they are refused."""
        has_output = any(s.kind == "ao" and s.sources for s in self.subdevices)
        for name, status, said in (("ao_waveform", 0, "write: Invalid argument\n"), ("ao_mmap", 1, ": Invalid argument\n")):
            if not has_output:
                self.expect([name, "-F", "100"], "comedi_command_test: ", 1)
                continue
            run = self.run([name, "-F", "100"], ZENDROUZ_LOG=self.check.path("record"))
            right = run.status == status and run.err.endswith(said) and len(run.outs()) == HORIZON // 10000000
            self.check.expect("%s on %s" % (name, self.name), right, "status %s, %d words" % (run.status, len(run.outs())), run.out[-1000:], run.err)
        self.expect(["do_waveform", "0"], "comedi_command_test: ", 1)

    def test(self):
        """Comedilib's own test. Its only error is that each buffer keeps the size that the board's text says."""
        run = self.run(["comedi_test"], ZENDROUZ_CALL_NS="100000")
        sizes = [s.buffer_bytes() for s in self.subdevices if s.sources]
        wanted = ["E: buffer size didn't get set: %d (expected %d)" % (size, ASKED_SIZE) for size in sizes if size != ASKED_SIZE]
        found = re.findall(r"^E:.*$", run.out, re.M)
        right = found == wanted and run.out.count("I: testing bufconfig...\n") == len(self.subdevices)
        self.check.expect("comedi_test on " + self.name, run.status == 0 and right, "status %s" % run.status, wanted, run.out[-1000:], run.err)

    def others(self):
        for name, (words, status, texts) in OTHERS.items():
            run = self.run([name] + words)
            wanted = status if status is not None else 0 if self.number_of("dio") is not None else 255
            right = run.status == wanted and any(text in run.out + run.err for text in texts)
            self.check.expect("%s on %s ends by itself" % (name, self.name), right, run.status, run.out[-1000:], run.err)


def demos_on(check, name):
    demos = Demos(check, name)
    demos.read()
    demos.write()
    if demos.first.kind == "ai":
        demos.command()
    demos.stream()
    if not check.quick:
        demos.test()
        demos.others()


def covered(check):
    """Each demo that Debian's package has is run on each board."""
    here = set(OTHERS) | set("inp tut1 tut2 insn info inpn outp dio cmd mmap tut3 poll select sigio ao_waveform ao_mmap do_waveform".split())
    there = set(name[:-2] for name in os.listdir(DEMOS) if name.endswith(".c") and name != "common.c")
    check.expect("each demo is run on each board", there <= here, sorted(there - here))
