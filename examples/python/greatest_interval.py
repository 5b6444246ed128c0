#!/usr/bin/env python3
"""How long may a logger stay away from its board?

A logger on a PCI-6221 samples 1, 2, 4 or 8 channels each 50 us, into a buffer of 512 samples, and reads all that is
there once in each interval. A sweep plays each interval, and the greatest one without a loss is printed beside the one
that docs/FORMATS.md says is safe (it is the same in steps of 0.4 ms).

    PYTHONPATH=python examples/python/greatest_interval.py
"""
from zendrouz import Board, Command, Job, Signals, saw, sweep

PERIOD, BUFFER, STEP = 50_000, 512, 400_000
BOARD = Board.named("ni_pci_6221").changed(0, buffer=BUFFER)
SIGNALS = Signals(100_000_000, {(0, 0): saw(-5_000_000, 5_000_000, 10_000_000)})


def logger(channels: int, interval: int) -> Job:
    """Reads of a command that never stops, one after each interval. The first comes early, since a sample is there at once."""
    command = Command.timed(range(channels), scan=PERIOD, convert=4000)
    return Job(BOARD, SIGNALS, ["0 open 0", "0 cmd 0 %s" % command] +
               ["%d read 0 0 65536" % time for time in range(interval // 2, 3 * interval, interval)])


def main() -> None:
    rows = sweep(logger, {"channels": [1, 2, 4, 8], "interval": range(STEP, 75 * STEP, STEP)})
    print("channels  greatest safe interval  rule of docs/FORMATS.md")
    for channels in (1, 2, 4, 8):
        safe = [row["interval"] for row in rows if row["channels"] == channels and not row["ends"]]
        print("%8d %20.1f ms %21.1f ms" % (channels, max(safe) / 1e6, BUFFER // channels * PERIOD / 1e6))


if __name__ == "__main__":
    main()
