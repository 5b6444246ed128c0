#!/usr/bin/env python3
"""Runs a job and says what its answer asks for.

    scripts/explain.py [-p PROGRAM] [COMMAND] JOB

JOB is a file with a job, or with a board alone. COMMAND is the program's word (test, expand, insn, replay, run,
watch or loop); without it the first line of the session says which. The program is PROGRAM, else ./comedi of the
folder above this one's, else bin/comedi beside that folder, else comedi in PATH.

Of a job that is refused: the line, the word at fault, what the cause means, the form of the line, and what mostly
gives it, with a repaired line. Of each line that is answered `err`, or of a `test` with a step above 0: what it says,
and what to do. Of a replay also each command whose end wasn't reported, and each read that found nothing.
The texts are those of docs/REFUSALS.md and docs/FORMATS.md.

Ends with status 0 where nothing is refused, no line is answered `err`, and each tested command passes; with 1 where
that isn't so; with 2 where the words are wrong or a file can't be read.
"""
import os
import sys

import usage
from facts import program
from jobs import Fault
from places import FIRST, NAMED, SIGNALS, Job, Refusal, block_of, broken_rule
from refusals import COMMAND, Texts, key_of

SCRIPTS = os.path.dirname(os.path.abspath(__file__))
TOP = os.path.dirname(SCRIPTS)
WORDS = ("test", "expand", "insn", "replay", "run", "watch", "loop")
ENDS = ("done", "dry", "overrun", "underrun", "fifo")


def show(title, text):
    print("%-15s %s" % (title + ":", text))


def shown(line):
    """A line with the bytes that aren't plain ASCII as their numbers."""
    line = line.encode("utf-8", "surrogateescape").decode("latin-1").replace("\t", " ").replace("\r", " ")
    return "".join(char if " " <= char <= "~" else "\\%03o" % ord(char) for char in line)


def show_line(number, line, start=None, end=None):
    """A line with its number, cut around the marked part where it is long."""
    head, marked, tail = shown(line[:start]), shown(line[start:end]), shown(line[end:]) if start is not None else ""
    if start is None:
        head, marked = shown(line), ""
    head = head if len(head) <= 90 else head[:40] + " .. " + head[-40:]
    tail = tail if len(tail) <= 40 else tail[:36] + " .."
    title = "line %d" % number
    show(title, head + marked + tail)
    if marked:
        print(" " * (16 + len(head)) + "^" * len(marked))


def show_rows(rows, most=5):
    for row in rows[:most]:
        show("what gives it", row.what)
        if row.repaired and not row.repaired[0].startswith("(none)"):
            show("taken, as", row.repaired[-1] if len(row.repaired[-1]) < 200 else row.repaired[-1][:196] + " ..")


def changes(was, now):
    """The words of a command that another one has changed."""
    return ", ".join("%s %s -> %s" % (name, old, new) for name, old, new in zip(COMMAND, was, now) if old != new)


def show_step(texts, step, was, now, where):
    """What a step of the test says, and the words that the answer has changed."""
    name, failed, repair = texts.steps[step]
    show("step " + step, "%s: %s" % (name, failed))
    if was != now:
        show("changed", changes(was, now))
    show("what to do", repair.replace("FILE", where))


def explain_block(job, texts, refusal):
    first, lines, kind, channels = block_of(job, refusal.at)
    number, about = broken_rule(lines, kind, channels, job.is_wide)
    show("the block above", "lines %d to %d, which this line ended" % (first, refusal.at - 1))
    if number:
        asked, _, _, repair = texts.rules[number]
        show("its rule " + number, "%s. Here: %s" % (asked, about))
        show("what to do", repair)


def commands_of(words):
    """The commands that a line holds, each as its eight words."""
    starts = {"expand": [2], "go": [5], "drive": [3], "loop": [4, 12]}.get(words[0], [])
    return [words[start:start + 8] for start in starts if len(words) >= start + 8]


def explain_command(job, texts, refusal, where):
    """A command that the board doesn't take: what `test` says of it. Whether it said anything."""
    for command in commands_of(refusal.words):
        said = (job.asked("test", ["test " + " ".join(command)]) or [""])[0].split()
        if said[:1] == ["err"]:
            show("test answers", " ".join(said))
            show("what it says", texts.errors[said[1]][1])
            return True
        if said[:1] == ["step"] and said[1] != "0":
            show("test answers", " ".join(said))
            show_step(texts, said[1], command, said[2:], where)
            if said[1] == "5":
                show_entries(job, command)
            return True
    return False


def show_entries(job, command):
    """The entries of a list that aren't there: each is asked by an instruction."""
    entries = [] if command[7] == "-" else command[7].split(",")
    lines = ["0 open 0"] + ["0 insn 0 %s read %s 1" % (command[0], entry) for entry in entries]
    said = [line for line in job.asked("insn", lines) if line.startswith(("ok", "err"))][1:]
    wrong = ["entry %d, %s" % (at, entries[at]) for at, answer in enumerate(said) if answer == "err 22"]
    if wrong:
        show("not there", "; ".join(wrong[:8]))
    elif said:
        show("the list", "each entry is there: it is longer than `list` says, or its entries break a rule of the board, as `samerange`")


def head_of(refusal, place):
    """The line of a refusal with its number and the word at fault, and what its cause means."""
    job, texts = refusal.job, refusal.texts
    name, start, end = place
    print(refusal.said)
    if refusal.at == 0:
        show("line 0", "the job has %d bytes" % job.size)
    elif refusal.at > len(job.lines):
        show("line %d" % refusal.at, "past the end: the text has %d lines" % len(job.lines))
    else:
        show_line(refusal.at, refusal.line, start, end)
    says, usual = texts.causes[refusal.cause][:2]
    show(refusal.cause, "%s. Mostly: %s" % (says, usual))
    if refusal.cause == "Double":
        key = lambda line: line.split()[:3 if line.startswith(("chan", "wave")) else 1]
        other = [at for at in range(1, refusal.at) if key(job.all[at - 1]) == key(refusal.line)]
        show("stands twice", "line %d: %s" % (other[-1], job.all[other[-1] - 1]) if other else "")


def rows_for(refusal, name, word):
    """The rows of the documents that are nearest to a refusal."""
    texts, words = refusal.texts, refusal.words
    if refusal.cause == "Missing" and refusal.at <= 3:
        return [row for row in texts.faults if row.answer == refusal.said]
    if refusal.at > len(refusal.job.lines):
        lost = ["loop"] if ["session"] in [line.split() for line in refusal.job.all] else ["session"]
    elif refusal.cause == "Unknown" and name == words[0] and refusal.at <= refusal.job.first:
        lost = ["signals"] if words[0] in SIGNALS + ("session",) else ["session"]
        lost = lost if words[0][0].isdigit() or words[0] in SIGNALS + ("session",) or words[0] in FIRST else []
    else:
        lost = []
    if lost:
        return [row for row in texts.faults if not row.lines and row.repaired[0].split()[0] in lost]
    rows = texts.rows_of(refusal.cause, words, name, word)
    return [row for row in rows if row.table.startswith(refusal.command)] or rows


def explain_refusal(job, texts, command, answer, where):
    """All that is known of a refusal."""
    refusal = Refusal(job, texts, command, answer)
    at = refusal.place()
    place = refusal.atoms[at] if at is not None else (None, None, None)
    name, word = place[0], refusal.line[place[1]:place[2]] if at is not None else None
    head_of(refusal, place)
    words = refusal.words
    above = any(line.startswith("subdevice") for line in job.all[:max(refusal.at - 1, 0)])
    if words[:1] in (["subdevice"], ["signals"]) and refusal.cause in ("Missing", "Bad") and above:
        return explain_block(job, texts, refusal)
    if refusal.cause == "Bad" and explain_command(job, texts, refusal, where):
        return None
    for form, limits in texts.forms_of(words)[:4 if refusal.cause == "Unknown" else 1]:
        show("the form", "%s    (%s)" % (form, limits))
    plain = name.split(".")[0] if name else ""
    if plain in COMMAND and words[0] != "sources":
        show(plain, texts.words.get(plain, texts.words["START .. STOP"]))
    if name == "byte":
        show("to see it", texts.hidden.replace("FILE", where))
    show_rows(rows_for(refusal, name, word))
    return None


def replies(job, answer):
    """The lines of a session, each with its number, its words and the words of its reply."""
    said = [line.split() for line in answer if line.startswith(("ok", "err", "step"))]
    return [(number, line, reply) for (number, line), reply in zip(job.session, said)]


def at_fault(job, texts, command, number, line, reply):
    """The place of a line of a session with another number at which its reply would be another one."""
    for name, start, end in texts.atoms(line):
        if name.upper() != name or name in NAMED + ["T"]:
            continue
        for word in ("0", "1"):
            lines = job.all[:number - 1] + [line[:start] + word + line[end:]] + job.all[number:]
            said = [other for at, _, other in replies(job, job.answer(command, lines)) if at == number]
            if said and said[0][:2] != reply[:2]:
                return name, start, end
    return None, None, None


def explain_invalid(job, texts, command, number, line, reply, is_open):
    """An error 22 of a session."""
    words, key = line.split(), key_of(line.split())
    rows = [row for row in texts.plays_of("22", key) if (row.section == "Checks of each line") != is_open]
    if key == "open":
        rows = [row for row in texts.plays_of("22", key) if "of `open`" in row.what]
    elif not is_open:
        show("what to do", texts.errors["22"][2])
    elif key == "cmd":
        show_entries(job, words[3:])
    else:
        name, start, end = at_fault(job, texts, command, number, line, reply)
        near = [row for row in rows if name and texts.fault_of(row)[0] == name]
        rows = near or rows
        if name:
            show_line(number, line, start, end)
    show_rows(rows)


def explain_error(job, texts, command, number, line, reply, is_open, where):
    """One line of a session that is answered `err`, or of a `test` with a step above 0."""
    words, key = line.split(), key_of(line.split())
    show_line(number, line)
    print(" " * 16 + " ".join(reply))
    if reply[0] == "step":
        show_step(texts, reply[1], words[1:], reply[2:], where)
        if reply[1] == "5":
            show_entries(job, words[1:])
        return
    name, says, repair = texts.errors[reply[1]]
    show(name, says)
    if reply[1] == "22" and key != "test":
        explain_invalid(job, texts, command, number, line, reply, is_open)
    elif reply[1] == "11" and len(reply) > 2:
        show_step(texts, reply[2], words[3:], reply[3:], where)
    else:
        show("what to do", repair)
        show_rows(texts.plays_of(reply[1], key) if key != "test" else [])


def explain_answer(job, texts, command, answer, where):
    """The lines of a session that were refused. How many there are."""
    opened, seen, wrong = set(), set(), 0
    for number, line, reply in replies(job, answer):
        words = line.split()
        if reply[0] == "err" or reply[0] == "step" and reply[1] != "0":
            kind = (" ".join(reply), key_of(words), " ".join(words[1:]))
            if kind in seen:
                show_line(number, line)
                print(" " * 16 + " ".join(reply) + ", as above")
            else:
                explain_error(job, texts, command, number, line, reply, words[2:3] and words[2] in opened, where)
            seen.add(kind)
            wrong += 1
        elif words[1:2] in (["open"], ["close"]):
            opened = opened | {words[2]} if words[1] == "open" else opened - {words[2]}
    return wrong


def unended(job, answer):
    """What a replay doesn't say by `err`, as (line's number, line, what, reply, START): commands whose end wasn't
    reported, and reads that found nothing."""
    running, ended, notes = {}, set(), []
    for number, line, reply in replies(job, answer):
        words = line.split()
        key, sub = words[1], words[3] if len(words) > 3 else ""
        if key == "cmd":
            ended.add(sub)
            if reply[0] == "ok":
                running[sub] = (number, line)
        elif key == "cancel" and reply[0] == "ok" or reply[:2] == ["err", "32"]:
            running.pop(sub, None)
        elif key == "close":
            running = {}
        elif key in ("read", "map", "write", "fill") and reply[:2] == ["ok", "0"]:
            start = running[sub][1].split()[5].split(":")[0] if sub in running else ""
            if reply[2:3] == ["dry"] or key in ("read", "map") and words[4] != "0" and (
                    len(reply) == 2 or reply[2] == "idle" and sub not in ended):
                notes.append((number, line, "found nothing", " ".join(reply), start))
            if reply[2:] and reply[2] in ENDS:
                running.pop(sub, None)
    return notes + [(number, line, "no end of this command was reported: read on until one is, or write to an output",
                     "", "") for number, line in running.values()]


def show_notes(texts, notes):
    """The notes on a replay, and what gives them."""
    rows = []
    for number, line, what, reply, start in notes:
        show_line(number, line)
        print(" " * 16 + (what + ": `" + reply + "`" if reply else what))
        for row in texts.plays:
            called = [part.split()[5].split(":")[0] for part in row.lines[0].split(";") if " cmd " in part]
            if row.section == "Nothing comes" and row.answer == reply and (reply != "ok 0" or called == [start]):
                rows += [row] if row not in rows else []
    show_rows(rows)


def small_waves(job):
    """The lines of waves whose levels are all less than a thousandth of each range of their subdevice."""
    subs, made = [], []
    for number, line in enumerate(job.all[:job.first], 1):
        words = line.split()
        if words[:1] == ["subdevice"]:
            subs.append([])
        elif words[:1] == ["range"] or words[:1] == ["chan"] and words[2] == "range":
            subs[-1].append(int(words[-2]) - int(words[-3]))
        elif words[:1] == ["wave"]:
            levels = {"const": words[4:], "table": words[5:], "record": words[5:]}.get(words[3], words[4:6])
            most = max(abs(int(level)) for level in levels)
            if 0 < most and 1000 * most < min(subs[int(words[1])]):
                made.append((number, line))
    return made


def explain(job, texts, command, where):
    """Runs the job and prints what its answer asks for. The status."""
    for line in job.added:
        print("this is a part of a job: the line `%s` is added" % line)
    answer = job.answer(command)
    if answer[:1] == ["usage"]:
        print("usage: `%s` is none of the program's words: %s, or soak and a number" % (command, ", ".join(WORDS)))
        return 1
    if answer and answer[0].startswith("refused"):
        explain_refusal(job, texts, command, answer[0], where)
        return 1
    plays = command in ("insn", "replay")
    wrong = explain_answer(job, texts, command, answer, where) if plays or command == "test" else 0
    notes = unended(job, answer) if command == "replay" else []
    show_notes(texts, notes)
    waves = small_waves(job)
    for number, line in waves:
        what = [what for what in texts.silent if what.startswith("a value in volts")][0]
        show_line(number, line)
        show("what gives it", "%s: %s; %s" % (what, *texts.silent[what]))
    if not wrong and not notes and not waves:
        print("%s: nothing is refused, %d lines of the session" % (command, len(job.session)))
    return 1 if wrong else 0


def main(arguments):
    words, options = usage.words_of(arguments, 1, 2, "-p")
    try:
        with open(words[-1], encoding="utf-8", errors="surrogateescape", newline="\n") as file:
            job = Job(file.read(), program("comedi", options.get("-p")))
        command = words[0] if len(words) == 2 else job.guess()
        return explain(job, Texts(os.path.join(TOP, "docs")), command, words[-1])
    except Fault as fault:
        sys.stderr.write("explain.py: %s\n" % fault)
        return 2


if __name__ == "__main__":
    sys.exit(usage.call(main, __doc__))
