"""What `record` and `compare` share: the runs of probes, the boards that they run on, and the files of their answers."""

import lzma
import os
import shutil
import subprocess
from dataclasses import dataclass, field

HERE = os.path.dirname(os.path.abspath(__file__))
TOP = os.path.dirname(os.path.dirname(HERE))
OUT = os.path.join(HERE, "out")
RECORDED = os.path.join(HERE, "recorded")
# comedilib's demos, which Debian's package brings as sources
DEMOS = "/usr/share/doc/libcomedi-dev/demo"

# A sheet is a file of answers: those of the runs of one program, each between its heading and its status.
HEADING = "$ "
STATUS = "$ status "

STATES = 27
COMMANDS = 2000
SEQUENCES, AT_ONCE, STEPS = 1000, 50, 60

WAVES = """signals 1000000000000
wave 0 0 saw -1000000 1000000 100000000
wave 0 1 square -1000000 1000000 100000000
"""
EDGES = """signals 1000000000000
every 0 1000000 1000000 100000
"""
# comedi_bond joins the lines of other boards, here the eight of the parallel port that have a direction
BOND = """zendrouz 1
board comedi_bond
subdevice dio 8
bits 1
range 0 5000000 0
"""


# Runs of comedilib's demos and programs. Those that write without an end, and those for counters, aren't among them.
PROGRAMS = """comedi_board_info
comedi_board_info -v
demo_info
demo_inp
demo_inp -s 0 -c 3
demo_inp -s 1 -c 0
demo_inp -s 7
demo_inp -c 9
demo_inp -r 5
demo_inpn
demo_insn -c 3 -N 4
demo_tut1
demo_tut2
demo_outp -s 1 7
demo_inp -s 1 -c 0
demo_outp -s 1 70000
demo_outp -s 0 7
demo_outp -s 1 32767
demo_dio -s 1 1
demo_dio -s 0 1
demo_cmd -n 1 -N 3
demo_cmd -n 3 -N 6 -F 100
demo_cmd -n 3 -N 6 -F 100 -p
demo_cmd -c 2 -n 2 -N 10 -F 1000
demo_cmd -n 17 -N 3
demo_cmd -s 1 -N 3
demo_cmd -c 7 -n 2 -N 3
demo_cmd -r 1 -c 2 -n 1 -N 3
demo_mmap -n 3 -N 500 -F 1000
demo_mmap -c 2 -n 2 -N 100 -F 1000
demo_tut3 -n 2
demo_tut3 -c 2 -n 2
demo_poll
demo_poll -c 2
demo_select
demo_select -c 2
demo_do_waveform -F 1000 0
demo_antialias
demo_apply_cal
demo_choose_clock 0
demo_choose_filter 0
demo_choose_routing 0
demo_eeprom_dump
demo_gpct_buffered_counting
demo_gpct_encoder
demo_gpct_pulse_generator
demo_gpct_simple_counting
demo_pwm -N 1 50
demo_receiver
demo_sender
demo_sv
comedi_test -s 0
comedi_test -s 1""".splitlines()


@dataclass
class Sheet:
    """The runs of one file of answers, and where they run."""

    name: str
    what: str
    runs: list
    board: str = "comedi_test"
    kernel_settings: dict = field(default_factory=dict)
    model_settings: dict = field(default_factory=dict)
    # whether its runs are programs of comedilib, whose whole output is compared
    is_of_programs: bool = False


def parts(program, names):
    """A run for each part of a probe."""
    return [f"{program} {name}" for name in names.split()]


def random_commands(seed):
    """The runs of commands: for both subdevices each part, and commands with random changes."""
    fixed = "fields flags lists pointers given".split()
    return [f"commands {part} {subdevice}" for part in fixed for subdevice in (0, 1)] + [
        f"commands changed {subdevice} {seed} {COMMANDS}" for subdevice in (0, 1)
    ]


def random_sequences(seed):
    """The runs of random sequences, some of them in each run."""
    return [f"sequences {seed} {first} {AT_ONCE} {STEPS}" for first in range(0, SEQUENCES, AT_ONCE)]


def sheets(seed=1):
    """All sheets, in the order of their runs in the kernel. The seed chooses the random ones."""
    port = {"PROBE_DEVICE": "/dev/comedi1"}
    bond = {"PROBE_DEVICE": "/dev/comedi2"}
    edges = {"PROBE_EDGES": "1"}
    states = [f"states {number}" for number in range(STATES)]
    return [
        Sheet("questions", "questions: device, subdevices, channels, ranges, sizes, counts",
              parts("questions", "device subdevices channels ranges sizes counts")),
        Sheet("requests", "requests, flags, modes and names of the device file",
              parts("requests", "numbers subdevice_numbers flags descriptor move_bytes read_nowhere write_nowhere modes names")),
        Sheet("instructions", "instructions",
              parts("instructions", "kinds channels counts values pointers special configurations newer")),
        Sheet("lists", "lists of instructions", parts("lists", "orders failures lengths pointers")),
        Sheet("maps", "maps of the buffer", parts("maps", "kinds kept which")),
        Sheet("polls", "`poll`, `select`, `epoll`",
              parts("polls", "states with_others poll_nowhere select_nowhere epoll_nowhere members edges samples")),
        Sheet("commands", "tests of commands, and refused commands", random_commands(seed)),
        Sheet("limits", "numbers at the limits of 32 and 64 bits", parts("limits", "counts moves times commands")),
        Sheet("states", f"{STATES} states, and every call in each of them", states),
        Sheet("streams", "whole inputs", parts("streams", "pieces waiting not_waiting loops overruns mapped")),
        Sheet("outputs", "outputs", parts("outputs", "ends reports full mapped waiting flags numbers_of_trigger looped_back")),
        Sheet("waits", "a thread waits, another one calls", parts("waits", "inputs outputs idle soon signals readers children")),
        Sheet("closings", "doubles, children and closes in every order", parts("closings", "orders shared replaced children")),
        Sheet("cases", "signals, `exec`, streams of C and other cases",
              parts("cases", "other_reads locks ends signals close_while_reading started_anew handed_on many_files")),
        Sheet("sequences", f"{SEQUENCES:,} random sequences of {STEPS} calls by two threads", random_sequences(seed)),
        Sheet("programs", f"{len(PROGRAMS)} runs of comedilib's own programs", PROGRAMS, is_of_programs=True),
        Sheet("port", "lines of a parallel port (`comedi_parport`)", ["lines all"], "comedi_parport", port),
        Sheet("interrupts", "its command, by interrupts", parts("interrupts", "requests tests samples mapped"),
              "comedi_parport", port, edges),
        Sheet("bond", "the same lines by `comedi_bond`", ["lines all"], "comedi_bond", bond),
    ]


def board_text(board):
    """The text of a board with its signals."""
    if board == "comedi_bond":
        return BOND + "signals 1000000000000\n"
    with open(os.path.join(TOP, "boards", f"{board}.{board}.txt"), encoding="utf-8") as file:
        return file.read() + (EDGES if board == "comedi_parport" else WAVES)


def program_path(name):
    """The file of a probe or of a program of comedilib."""
    built = os.path.join(OUT, name)
    return built if os.path.exists(built) else shutil.which(name) or name


def sheet_path(folder, name):
    """The file of a sheet."""
    return os.path.join(folder, name + ".xz")


def write_sheet(folder, name, text):
    """Stores a sheet."""
    os.makedirs(folder, exist_ok=True)
    with open(sheet_path(folder, name), "wb") as file:
        file.write(lzma.compress(text.encode(), preset=9 | lzma.PRESET_EXTREME))


def read_sheet(folder, name):
    """The text of a sheet."""
    with open(sheet_path(folder, name), "rb") as file:
        return lzma.decompress(file.read()).decode()


def runs_of(text):
    """The runs of a sheet, by their words: the lines of each, the last of which is its status."""
    found, words = {}, None
    for line in text.splitlines():
        if line.startswith(STATUS) and words:
            found[words].append(line)
            words = None
        elif line.startswith(HEADING):
            words = line[len(HEADING):]
            found[words] = []
        elif words:
            found[words].append(line)
    return found


def make(folder, *words):
    """Runs make in a folder. Returns what it says if it fails."""
    made = subprocess.run(["make", "-s", "-C", folder, *words], stdin=subprocess.DEVNULL, capture_output=True, text=True, check=False)
    return made.stdout + made.stderr if made.returncode else ""
