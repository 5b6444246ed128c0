"""Vendors and models of boards, out of the comment at the head of each driver's file."""

import os
import re

# The vendors of drivers whose files name none, by the first part of their names.
VENDORS = {"addi": "ADDI-DATA", "adl": "ADLink", "cb": "Measurement Computing", "comedi": "Comedi", "ni": "National Instruments",
           "me4000": "Meilhaus", "dmm32at": "Diamond Systems"}
DEVICES = re.compile(r"^ \* Devices?:(.*?)^ \* (?:Author|Status|Updated|Description|Driver|Configuration|Version)", re.S | re.M)


def plain(text):
    return re.sub(r"[^a-z0-9+]", "", text.lower())


def devices(folder, driver):
    """The devices of a driver's comment, each as its vendor, its model and its name in the driver."""
    with open(os.path.join(folder, "kernel", "drivers", "comedi", "drivers", driver + ".c"), errors="replace") as file:
        found = DEVICES.search(file.read())
    rows, vendor = [], None
    for part in re.findall(r"\[[^]]*\]|[^,[]+", re.sub(r"\n \*\s*", " ", found.group(1)) if found else ""):
        words = re.match(r"(.*?)\s*(?:\(([^)]*)\))?$", part.strip())
        if part.strip().startswith("["):
            vendor = part.strip()[1:-1]
        elif words.group(1):
            rows.append((vendor, words.group(1), words.group(2) or ""))
    return rows


def title(folder, driver, board):
    """The vendor and the model of a board: the model's own name where the comment has it, else the driver's."""
    rows = devices(folder, driver)
    for vendor, model, name in rows:
        if plain(board) in (plain(model), plain(name)):
            return "%s %s" % (vendor or VENDORS.get(driver.split("_")[0], driver), model)
    vendor = next((row[0] for row in rows if row[0]), None) or VENDORS.get(driver.split("_")[0], driver)
    return "%s %s" % (vendor, board)
