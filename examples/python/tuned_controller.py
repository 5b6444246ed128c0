#!/usr/bin/env python3
"""How many samples should a controller's mean be of?

A PCI-6025E follows a sensor, 10,000 times a second, by the mean of the last samples (`loop` of docs/FORMATS.md). The
sensor steps from 2 V to 6 V, and has a hum of 0.8 V from peak to peak, four samples long. A sweep plays each window
from 1 to 16; the one that is taken has the shortest delay of those that leave no more than 4 codes of the hum.

    PYTHONPATH=python examples/python/tuned_controller.py
"""
from dataclasses import replace
from typing import Dict

from zendrouz import Board, Command, Job, Signals, Source, sweep, table
from zendrouz.jobs import Stream

PERIOD, SCANS, HUM = 100_000, 64, (400_000, 0, -400_000, 0)
BOARD = Board.named("ni_pci_6025e")
LEVELS = [(2_000_000 if number < SCANS // 2 else 6_000_000) + HUM[number % 4] for number in range(SCANS)]
# One pin starts the input, and another one, 50 us later, the output.
SIGNALS = Signals(10_000_000, {(0, 0): table(PERIOD, LEVELS)}, edges={0: [0], 1: [50_000]})


INPUT = replace(Command.timed([0], scan=PERIOD, convert=5000, scans=SCANS), start_src=Source.EXT, start_arg=0)
OUTPUT = replace(Command.timed([0], scan=PERIOD, scans=SCANS, subdev=1), start_src=Source.EXT, start_arg=1)


def controller(window: int) -> Job:
    return Job(BOARD, SIGNALS, ["loop 0 0 %d %s %s" % (window, INPUT, OUTPUT)])


def quality(answer: Stream) -> Dict[str, int]:
    """What is left of the hum before the step, in codes, and after how many words the step has passed by half."""
    words = [word ^ 2048 for word in answer.outs.words]
    before, after = words[16:SCANS // 2], words[SCANS // 2:]
    half = (before[-1] + after[-1]) // 2
    return {"hum": max(before) - min(before), "delay": next(at for at, word in enumerate(after) if word > half)}


def main() -> None:
    rows = sweep(controller, {"window": range(1, 17)}, command="loop", measure=quality)
    print("window  hum  delay")
    for row in rows:
        print("%6d %4d %6d" % (row["window"], row["hum"], row["delay"]))
    best = min((row for row in rows if row["hum"] <= 4), key=lambda row: int(row["delay"]))
    print("taken: a window of %d" % best["window"])


if __name__ == "__main__":
    main()
