#!/usr/bin/env python3
"""Writes what the page's scripts read: data.js, with the examples, the boards and the tables of the documents, and of a
module core.js.

    page/make_data.py [-n] [MODULE]

Without MODULE core.js stays as it is. With -n nothing is written: it ends with status 1 where a file would change, and
names it.
"""
import base64
import hashlib
import json
import os
import re
import sys

PAGE = os.path.dirname(os.path.abspath(__file__))
TOP = os.path.dirname(PAGE)
EXAMPLES = TOP + "/examples/"
# What the core answers without threads.
COMMANDS = ("test", "expand", "insn", "replay")
sys.path.insert(0, TOP + "/scripts")
import refusals


def read(name):
    with open(EXAMPLES + name, encoding="ascii") as file:
        return file.read()


def examples():
    """The examples of .ci/runs without threads, each with its command."""
    with open(TOP + "/.ci/runs", encoding="ascii") as file:
        listed = file.read().split("<<LIST\n")[1].split("\nLIST\n")[0]
    return [{"name": name, "command": command, "job": read(name + ".txt")}
            for command, name in re.findall(r"(\w+) (\w+)", listed) if command in COMMANDS]


def boards():
    """The real boards, each with its session."""
    made = []
    for name in sorted(it[:-4] for it in os.listdir(EXAMPLES + "boards")):
        board = read("boards/" + name + ".txt")
        made.append({"name": name, "command": "replay", "board": board, "job": board + read("replays/" + name + ".session")})
    return made


def tables():
    """What the documents say of refusals: causes, error numbers, rows with repaired lines, rules, steps, and the forms of lines."""
    texts = refusals.Texts(TOP + "/docs")
    rows = []
    for row in texts.faults:
        if row.lines and row.repaired:
            line, repaired = row.lines[0], row.repaired[0]
            keys = sorted({refusals.key_of(text.split()) for text in (line, repaired)})
            rows.append({"cause": row.answer.split()[-1], "what": row.what, "line": line, "repaired": repaired, "keys": keys})
    forms = [{"key": refusals.key_of(form.split()), "form": form, "says": says} for form, says in texts.forms]
    rules = [{"cause": cause, "what": what, "mend": mend} for what, cause, _, mend in texts.rules.values()]
    steps = {step: words for step, words in texts.steps.items() if step.isdigit()}
    return {"causes": texts.causes, "errors": texts.errors, "rows": rows, "forms": forms, "rules": rules, "steps": steps}


def script(constants):
    """A script of constants."""
    made = ['"use strict";\n// Made by page/make_data.py.\n']
    made += ["const %s = %s;\n" % (name, json.dumps(value)) for name, value in constants.items()]
    return "".join(made)


def main(words):
    is_dry = words[:1] == ["-n"]
    files = {"data.js": script({"EXAMPLES": examples(), "BOARDS": boards(), "REFUSALS": tables()})}
    for module in words[is_dry:]:
        with open(module, "rb") as file:
            code = file.read()
        sha256 = hashlib.sha256(code).hexdigest()
        files["core.js"] = script({"CORE_SHA256": sha256, "CORE": base64.b64encode(code).decode()})
    status = 0
    for name, text in files.items():
        try:
            with open(PAGE + "/" + name, encoding="ascii") as file:
                is_same = file.read() == text
        except FileNotFoundError:
            is_same = False
        if not is_same and is_dry:
            print("page/%s isn't what page/build makes" % name)
            status = 1
        elif not is_same:
            with open(PAGE + "/" + name, "w", encoding="ascii") as file:
                file.write(text)
    return status


if __name__ == "__main__":
    sys.exit(main(sys.argv[1:]))
