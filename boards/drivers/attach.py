"""Finds how an entry of a driver's table attaches, where no board is there: its options and what its registers give."""

import os
import subprocess

from driver import Driver

# Options of comedi_config that are tried for boards of the ISA bus: the port, the interrupt, DMA channels and jumpers.
OPTIONS = ("0x300,5", "0x300,5,1", "0x300,5,3,1", "0x300,7,1,3", "0x300,5,1,1,1", "0x300,5,5,6", "0x300,10,5,6", "0x300,11,5,6,1",
           "0x300,3,1", "0x300,15,6,7,1", "0x300,0x400,5", "0x300,5,5,0,1", "0x300")
REGISTERS = ((), ("MACHINE_MEMORY=1", "MACHINE_ECHO=1"), ("MACHINE_TOGGLE=1",), ("MACHINE_IO=1",))
BYTES = [0, 0xff, 0x80, 0xc0, 0xe0, 0xf0] + list(range(1, 255))

# Drivers that know their board by several registers.
KNOWN = {
    "dt282x": [("0x300,10,5,6", ("MACHINE_PORTS=0x300=0x7c00,0x302=0x70f0,0x306=0x7c90,0x30c=0,0x30e=0xf000",))],
    "dmm32at": [("0x300,5", ("MACHINE_PORTS=0x302=0,0x303=0x1f,0x307=0x80,0x308=0x60,0x309=0,0x30b=0x0c",))],
    "rtd520": [("", ("MACHINE_COUNT=0x10=512=0x200=0",))],
    "das16": [("0x300,5,1,10", ("MACHINE_PORTS=0x308=0x20",) + value)
              for value in ((), ("MACHINE_VALUE=0x80808080",), ("MACHINE_VALUE=0x20202020",), ("MACHINE_VALUE=0xc0c0c0c0",))],
    "das800": [("0x300,5", ("MACHINE_PORTS=0x307=%d" % value,)) for value in (0, 2, 3)],
}
# The codes in the serial memory of NI's boards of the AT bus, each another board of one entry.
AT_MIO = (44, 25, 36, 37, 38, 39, 50, 51)
# How many settings may pass without an end before an entry is given up.
PATIENCE = 4


# Files that several drivers have their command tests of, and what the names of these drivers have in common.
SHARED = {"ni_mio_common": "_mio", "ni_labpc_common": "_labpc", "amplc_dio200_common": "_dio200", "amplc_pc236_common": "236"}


def takes_commands(folder, name):
    """Whether a driver has a command test."""
    sources = os.path.join(folder, "kernel", "drivers", "comedi", "drivers")

    def source(file):
        with open(os.path.join(sources, file + ".c"), errors="replace") as text:
            return text.read()

    own = source(name)
    return any("do_cmdtest" in text for text in [own] + [source(shared) for shared, part in SHARED.items() if shared in own or part in name])


def entries_of(folder, name):
    """The entries of a driver's tables, each with what stands beside it: a board's name, or numbers of a bus."""
    listed = subprocess.run([os.path.join(folder, "bin", name), "list"], capture_output=True, text=True, timeout=20).stdout
    rows = [line.split(" ", 1) for line in listed.splitlines() if line.startswith(("legacy:", "pci:", "usb:", "card:"))]
    return [(row[0], row[1] if len(row) > 1 else "") for row in rows]


def settings(name, entry):
    """The settings of an entry, the likely ones first."""
    if name == "ni_atmio":
        return [("0x300,5", ("MACHINE_BITS=0x301=%d" % code,)) for code in AT_MIO]
    options = OPTIONS if entry.startswith("legacy") else ("",)
    plain = [(option, registers) for registers in REGISTERS for option in options]
    return KNOWN.get(name, []) + plain + [(option, ("MACHINE_VALUE=0x%02x%02x%02x%02x" % ((byte,) * 4),))
                                          for byte in BYTES for option in options[:4]]


def boards_of(folder, name, entry, what):
    """The boards of an entry: the first setting that attaches it with commands, else none; each that does of NI's AT bus."""
    named, late, found = entry.startswith("legacy") and entry != "legacy:-1", 0, []
    for options, registers in settings(name, entry):
        try:
            driver = Driver(folder, name, entry, options, registers)
        except subprocess.TimeoutExpired:
            late += 1
            if late == PATIENCE:
                break
            continue
        if any(part.commands for part in driver.parts.values()) and (not named or driver.board == what):
            found.append((options, registers))
            if name != "ni_atmio":
                break
    return found
