"""How the scripts take their words and say what is wrong. The text at the head of a script is its usage.

`--help` prints that text, with status 0. Wrong words print it on standard error, with status 2. A file that can't be
read gets one line, with status 2, and whatever else is wrong (jobs.Fault) one line, with status 1.
"""

import os
import re
import signal
import sys

import jobs


class Wrong(Exception):
    """Words that a script doesn't take."""


def words_of(arguments, least, most, *names):
    """The words and, by their names, the options (each with one word after it, or none where its name ends in `!`)."""
    words, options, rest = [], {}, list(arguments)
    while rest:
        word = rest.pop(0)
        if word + "!" in names:
            options[word] = True
        elif word in names and rest:
            options[word] = rest.pop(0)
        elif re.match(r"-[^0-9.]", word):
            raise Wrong
        else:
            words.append(word)
    if not least <= len(words) <= most:
        raise Wrong
    return words, options


def number(word, least, most):
    """A whole number of a script's words."""
    if not re.fullmatch("[0-9]{1,18}", word) or not least <= int(word) <= most:
        raise Wrong
    return int(word)


def text_of(name):
    """What a file of plain characters holds."""
    with open(name, encoding="ascii") as file:
        try:
            return file.read()
        except UnicodeDecodeError:
            raise jobs.Fault("%s: it has other bytes than plain characters" % name)


def call(main, usage):
    """Runs a script's main function with its words, and answers its exit status: what that returns, or 0."""
    name = os.path.basename(sys.argv[0])
    signal.signal(signal.SIGPIPE, signal.SIG_DFL)
    if "--help" in sys.argv[1:] or "-h" in sys.argv[1:]:
        print(usage.strip())
        return 0
    try:
        status = main(sys.argv[1:]) or 0
        sys.stdout.flush()
    except Wrong:
        print(usage.strip(), file=sys.stderr)
        return 2
    except jobs.Fault as fault:
        print("%s: %s" % (name, fault), file=sys.stderr)
        return 1
    except OSError as fault:
        where = "standard output" if fault.filename is None else fault.filename
        print("%s: %s: %s" % (name, where, fault.strerror), file=sys.stderr)
        os.dup2(os.open(os.devnull, os.O_WRONLY), 1)
        return 2
    return status
