"""A bench for programs that use Comedi: boards, sessions and jobs of Zendrouz from Python.

Times are in nanoseconds, and levels in micro-units. docs/BENCH.md has the first steps.
"""
from .answers import Conversion, Done, Dry, End, Fifo, Idle, Out, Overrun, Sample, Taken, Underrun
from .bench import CommandEnd, ProgramRun, ProgramTimedOut, RecordCut, run_program
from .facts import Facts, facts_of
from .jobs import ask, expand, insn, loop, replay, run, soak, test, watch
from .programs import Missing, find
from .refusals import ComediError, Failed, Refused, TimedOut
from .session import Info, Session
from .sweeping import SweepFailed, sweep
from .texts import (FALLING, Board, Channel, ChannelForm, Command, Flag, Job, Reference, Signals, Source, Subdevice,
                    Wave, const, record, saw, sine, square, table)

__all__ = [
    "Board", "Channel", "ChannelForm", "ComediError", "Command", "CommandEnd", "Conversion", "Done", "Dry", "End",
    "FALLING", "Facts", "Failed", "Fifo", "Flag", "Idle", "Info", "Job", "Missing", "Out", "Overrun", "ProgramRun", "ProgramTimedOut",
    "RecordCut", "Reference", "Refused", "Sample", "Session", "Signals", "Source", "Subdevice", "SweepFailed", "Taken", "TimedOut", "Underrun",
    "Wave", "ask", "const", "expand", "facts_of", "find", "insn", "loop", "record", "replay", "run", "run_program", "saw", "sine",
    "soak", "square", "sweep", "table", "test", "watch",
]
