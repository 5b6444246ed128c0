"""Parts of clib/check: boards' texts and what is said of them, where comedi_serve is found, and with_board.

Call `clib/check`, or one of them by `clib/check COMEDI_SERVE COMEDI boards`.
"""

import os
import re
import shutil
import subprocess

from checking import DEMOS, HERE, LIBRARY, PROGRAM, TESTS, TOP, text_of, write_file

DOCUMENT = os.path.join(TOP, "docs", "CLIENTS.md")
WITH_BOARD = os.path.join(TOP, "with_board")


def copy_file(source, path):
    os.makedirs(os.path.dirname(path), exist_ok=True)
    return shutil.copy(source, path)


def boards_of_late():
    """Texts of the board of the client `late`, and what it prints on each. Without a wave each code is 0."""
    small, late = text_of("small.board"), text_of("late.expected")
    alone = small[:small.index("signals")]
    zeros = re.sub(r"^read:[ 0-9]*$", lambda found: re.sub(r"\d+", "0", found.group()), late, flags=re.M)
    return {"alone": (alone, zeros), "with a session and no signals": (alone + "session\n", zeros),
            "with signals": (small.replace("session\n", ""), late),
            "that doesn't end its last line": (small[:small.index("\nsession")], late),
            "that is a whole job": (small + "0 open 0\nno line of a session\n", late)}


def refusals():
    """Texts that are refused, and what is said of the file of each after its name."""
    small = text_of("small.board")
    alone = small[:small.index("signals")]
    block = alone[alone.index("subdevice"):]
    before = alone.count("\n")
    missing = " refused Missing after line %d, the board's last: a line is missing there"
    return {"a number": (alone.replace("bits 8", "bits 08"), "6: refused BadNumber: bits 08"),
            "waves without signals": (alone + "wave 0 0 const 1\n", "%d: refused Unknown: wave 0 0 const 1" % (before + 1)),
            "no buffer": (alone.replace("buffer 8\n", ""), missing % (before - 1)),
            "no buffer, in a job": (small.replace("buffer 8\n", ""), "%d: refused Missing: signals 1000000000" % before),
            "no buffer, in a job without signals": (alone.replace("buffer 8\n", "") + "session\n0 open 0\n", missing % (before - 1)),
            "a rule": (alone.replace("scan 1000", "scan 1001"), " refused Bad after line %d, the board's last: its last block breaks a rule" % before),
            "a word after session": (small.replace("session", "session 1"), "%d: refused BadLine: session 1" % (before + 3)),
            "no line": ("", " refused Missing: it has no line"),
            "a byte-order mark": ("\ufeffcomedi 1\n" + block, "1: refused BadLine: \\xef\\xbb\\xbfcomedi 1"),
            "lines that end in a carriage return": (alone.replace("bits 8", "bits x").replace("\n", "\r\n"), "6: refused BadNumber: bits x"),
            "a zero byte": (alone.replace("bits 8", "bits 8\0"), "6: refused BadLine: bits 8\\x00"),
            "a long line": (alone + "x" * 300, "%d: refused Unknown: %s.." % (before + 1, "x" * 200)),
            "a text too long": (alone + "# 456789\n" * 120000, " refused TooLong: it has more than 1048576 bytes")}


def boards(check):
    """Boards that lack signals or session, and boards that are refused."""
    late = [check.path("tests/late")]
    for name, (text, wanted) in boards_of_late().items():
        run = check.run("small", late, ZENDROUZ_BOARD=write_file(check.path("board.txt"), text))
        check.expect("a board " + name, run.status == 0 and run.out == wanted and not run.err, run.out, run.err)
    for name, (text, said) in refusals().items():
        path = write_file(check.path("refused.txt"), text)
        run = check.run("small", late, ZENDROUZ_BOARD=path)
        wanted = "zendrouz: %s:%s\n" % (path, said)
        check.expect("refused: " + name, run.out == "open: Invalid argument\n" and run.err == wanted, wanted, run.out, run.err)
    for path, said in (("/nowhere/board", "No such file or directory"), (check.folder, "Is a directory")):
        run = check.run("small", late, ZENDROUZ_BOARD=path)
        check.expect("a board's file: " + said, run.out == "open: %s\n" % said and run.err == "zendrouz: %s: %s\n" % (path, said), run.out, run.err)


def long_answers(check):
    """The subdevices of a board are told in more bytes than are under way at once."""
    text = ["zendrouz 1", "board tall"]
    for number in range(1, 17):
        text += ["subdevice ao 256", "bits 16", "range 0 1 0"]
        text += ["chan %d range -%d000000 %d000000 0" % (channel, channel + 1, number) for channel in range(256)]
    run = check.run("small", ["comedi_board_info"], ZENDROUZ_BOARD=write_file(check.path("tall.txt"), "\n".join(text) + "\n"))
    wanted = "".join("    chan%d: [-%d V,%d V]\n" % (channel, channel + 1, number) for number in range(1, 17) for channel in range(256))
    found = "".join(line for line in run.out.splitlines(True) if line.startswith("    chan"))
    check.expect("a board of 4,096 ranges", run.status == 0 and found == wanted, found, run.err)


def end_of_signals(check):
    """The last call of `late` is at 27,507,000 ns. Of `many` 10,000 samples come up to 100 ms, and a read waits for more."""
    said = "zendrouz: the signals of %s end at %s s of board time: from here on nothing changes\n"
    path = check.path("end.txt")
    for horizon, wanted in ((27507000, ""), (27506999, said % (path, "0.027506999"))):
        write_file(path, text_of("small.board").replace("signals 1000000000", "signals %d" % horizon))
        run = check.run("small", [check.path("tests/late")], ZENDROUZ_BOARD=path)
        check.expect("the end of the signals at %d" % horizon, run.out == text_of("late.expected") and run.err == wanted, run.out, run.err)
    write_file(path, text_of("wide.board").replace("signals 10000000000", "signals 100000000"))
    for settings in ({}, {"ZENDROUZ_PACE": "10"}):
        run = check.run("wide", [check.path("tests/many"), "4096", "25500"], ZENDROUZ_BOARD=path, **settings)
        lines = "".join(line for line in run.err.splitlines(True) if line.startswith("zendrouz"))
        # where waits are real, the command's start depends on the machine
        read = "command: 0\nthe last read: 0\n" + ("" if settings else "10000 samples, sum 495000\n")
        right = run.out.startswith(read) and lines == said % (path, "0.1")
        check.expect("the end of the signals, to a read that waits %s" % settings, right, run.out, run.err)
    write_file(path, text_of("small.board").replace("signals 1000000000", "signals 0").replace("wave", "# wave"))
    run = check.run("small", [check.path("tests/late")], ZENDROUZ_BOARD=path)
    check.expect("signals that end at once", run.err == said % (path, "0"), run.out, run.err)


def places(check):
    """comedi_serve is found beside the library, and in PATH."""
    built, link = check.path(LIBRARY), check.path("elsewhere")
    late = [check.path("tests/late")]
    for library, program in (("", ""), ("lib/", "bin/"), ("lib/zendrouz/", "bin/"), ("clib/out/", "crates/comedi_serve/out/"), ("x/lib/", "bin/of/the/path/")):
        top = check.path("place/" + library.replace("/", "_")) + "/"
        copy_file(built, top + library + LIBRARY)
        settings = {"ZENDROUZ_CORE": "", "PATH": top + "bin/of/the/path"}
        run = check.run("small", late, LD_PRELOAD=top + library + LIBRARY, **settings)
        check.expect("comedi_serve isn't there, %s" % library, run.out == "open: Input/output error\n" and "comedi_serve can't be run" in run.err, run.out, run.err)
        copy_file(check.serve, top + program + PROGRAM)
        if os.path.lexists(link):
            os.remove(link)
        os.symlink(top + library, link)
        for path in (top + library + LIBRARY, link + "/" + LIBRARY, os.path.relpath(top + library + LIBRARY, check.folder)):
            run = check.run("small", late, LD_PRELOAD=path, **settings)
            check.expect("comedi_serve beside %s" % path, run.status == 0 and run.out == text_of("late.expected"), run.out, run.err)


class Script:
    """Runs of a with_board in a folder of its own."""

    def __init__(self, check, script):
        self.check, self.script = check, script

    def run(self, words, **settings):
        """None for a setting takes it out of the environment."""
        settings = dict({"LD_PRELOAD": None, "ZENDROUZ_CORE": None, "ZENDROUZ_BOARD": None}, **settings)
        environment = {name: value for name, value in dict(os.environ, **settings).items() if value is not None}
        done = subprocess.run([self.script] + words, env=environment, cwd=self.check.folder, stdin=subprocess.DEVNULL,
                              stdout=subprocess.PIPE, stderr=subprocess.PIPE, timeout=120)
        return done.returncode, done.stdout.decode(), done.stderr.decode()

    def expect(self, name, words, wanted, **settings):
        found = self.run(words, **settings)
        self.check.expect("with_board: " + name, found == wanted, "wanted %r" % (wanted,), "found %r" % (found,))


def make_top(check):
    """A top folder with a blank in its name, in which nothing is built, and a comedi_serve that only says that it builds."""
    top = check.path("a top") + "/"
    copy_file(WITH_BOARD, top + "with_board")
    os.makedirs(top + "crates/comedi_serve")
    os.makedirs(top + "clib")
    for name in os.listdir(HERE):
        if name == "Makefile" or name.endswith((".c", ".h")):
            copy_file(os.path.join(HERE, name), top + "clib/" + name)
    build = '#!/bin/sh\necho "builds $*"\n[ -n "$BUILDS" ] || exit 6\nmkdir -p "$BUILDS/out"\ncp %s "$BUILDS/out/"\n' % check.serve
    write_file(top + PROGRAM, build, True)
    return top


def make_tools(check, *names):
    """A folder for PATH with these commands, and those that with_board always needs."""
    folder = check.path("tools")
    shutil.rmtree(folder, ignore_errors=True)
    os.makedirs(folder)
    for name in ("sh", "dirname", "readlink", "find", "cat", "env") + names:
        os.symlink(shutil.which(name), os.path.join(folder, name))
    return folder


def unbuilt(check, top):
    """What can't be built is said in one line, and then all is built at the first run."""
    script, late = Script(check, top + "with_board"), check.path("tests/late")
    board = write_file(check.path("board.txt"), text_of("small.board"))
    lacks = "with_board: the device library isn't built, and %s isn't there (Debian's package %s)\n"
    script.expect("no make", [board, late], (6, "", lacks % ("make", "make")), PATH=make_tools(check))
    script.expect("no cc", [board, late], (6, "", lacks % ("cc", "gcc")), PATH=make_tools(check, "make", "mkdir"))
    script.expect("no headers", [board, late], (6, "", lacks % ("comedi.h", "libcomedi-dev")), CC="cc -nostdinc")
    script.expect("no comedi_serve", [board, late], (6, "", "builds --build\n"))
    built = {"BUILDS": top + "crates/comedi_serve"}
    script.expect("comedi_serve is built", [board, late], (0, text_of("late.expected"), "builds --build\n"), **built)
    script.expect("all is built", [board, late], (0, text_of("late.expected"), ""))
    os.utime(top + "clib/time.c")
    script.expect("a source is newer, and no make", [board, late], (6, "", lacks % ("make", "make")), PATH=make_tools(check))
    script.expect("a source is newer", [board, late], (0, text_of("late.expected"), ""))


def words_of(check, script):
    """Boards of each kind, wrong words, and programs that can't be run."""
    late = check.path("tests/late")
    for name, (text, wanted) in boards_of_late().items():
        write_file(check.path("board.txt"), text)
        script.expect("a board " + name, ["board.txt", late], (0, wanted, ""))
    write_file(check.path("refused.txt"), text_of("refused.board"))
    said = "zendrouz: %s:4: refused BadNumber: bits 08\n" % check.path("refused.txt")
    script.expect("a board that is refused", ["refused.txt", late], (1, "open: Invalid argument\n", said))
    usage = script.run(["--help"])
    check.expect("with_board --help", usage[0] == 0 and usage[1].startswith("usage: with_board BOARD PROGRAM") and not usage[2], usage)
    for words in ([], ["board.txt"], ["--other", "board.txt", late]):
        script.expect("the words %s" % words, words, (2, "", usage[1]))
    for words, status, said in ((["nowhere", late], 2, "nowhere: No such file or directory"), (["tests", late], 2, "tests: Is a directory"),
                                (["board.txt", "./nowhere"], 127, "./nowhere: No such file or directory"), (["board.txt", "nowhere-"], 127, "nowhere-: command not found"),
                                (["board.txt", "./tests"], 126, "./tests: Is a directory"), (["board.txt", "./board.txt"], 126, "./board.txt: Permission denied")):
        script.expect(" ".join(words), words, (status, "", "with_board: %s\n" % said))
    script.expect("a program that goes elsewhere", ["board.txt", "sh", "-c", "cd / && exec \"$0\"", late], (0, text_of("late.expected"), ""), ZENDROUZ_LOG="own.log")
    check.expect("with_board: its record", os.path.exists(check.path("own.log")), os.listdir(check.folder))
    script.expect("a program's status and words", ["board.txt", "sh", "-c", "echo \"$1\"; exit 7", "sh", "a  b"], (7, "a  b\n", ""))


def document(check, top):
    """The blocks of docs/CLIENTS.md, but those that install, check all, or need a screen. They leave nothing but out/."""
    with open(DOCUMENT, encoding="utf-8") as file:
        blocks = re.findall(r"^```sh norun\n(.*?)^```\n(?:\n```output\n(.*?)^```\n)?", file.read(), re.M | re.S)
    shutil.copytree(TESTS, top + "clib/tests")
    os.symlink(os.path.join(os.path.dirname(HERE), "examples"), top + "examples")
    os.symlink(check.comedi, top + "comedi")
    settings = {name: value for name, value in os.environ.items() if name != "LD_PRELOAD" and not name.startswith("ZENDROUZ_")}
    before = sorted(os.listdir(top))
    for block, wanted in blocks:
        if re.search("apt-get|clib/check|clib/kernel|clib/sanitize|clib/fuzz|clib/on_debian|xoscope", block):
            continue
        done = subprocess.run(["sh", "-c", block], cwd=top, env=dict(settings, BUILDS=top + "crates/comedi_serve"), stdin=subprocess.DEVNULL,
                              stdout=subprocess.PIPE, stderr=subprocess.PIPE, timeout=120)
        right = done.returncode == 0 and (not wanted or done.stdout.decode() == wanted)
        check.expect("docs/CLIENTS.md: " + block.strip().splitlines()[-1], right, done.stdout.decode(), done.stderr.decode())
    check.expect("docs/CLIENTS.md leaves out/ alone", sorted(os.listdir(top)) == sorted(before + ["out"]), os.listdir(top))


def one_command(check):
    """with_board in a repository, by a link, and in two kinds of installations."""
    top = make_top(check)
    unbuilt(check, top)
    words_of(check, Script(check, top + "with_board"))
    write_file(check.path("board.txt"), text_of("small.board"))
    board, late, wanted = "board.txt", check.path("tests/late"), (0, text_of("late.expected"), "")
    os.makedirs(check.path("links"))
    os.symlink("../a top/with_board", check.path("links/first"))
    os.symlink("links/first", check.path("second"))
    Script(check, check.path("second")).expect("by two links", [board, late], wanted)
    own = write_file(check.path("own/serve"), '#!/bin/sh\ncore=$(echo "%s")\nexec "$core"\n' % check.serve, True)
    Script(check, top + "with_board").expect("another program", [board, "sh", "-c", "echo $ZENDROUZ_CORE"], (0, own + "\n", ""), ZENDROUZ_CORE=own)
    Script(check, top + "with_board").expect("a script in its place", [board, late], wanted, ZENDROUZ_CORE=own)
    Script(check, top + "with_board").expect("no other program", [board, late], (6, "", "with_board: /nowhere: not a program (ZENDROUZ_CORE names it)\n"), ZENDROUZ_CORE="/nowhere")
    for folder in ("lib/", "lib/zendrouz/"):
        place = check.path("installed_" + folder.replace("/", "_")) + "/"
        script = Script(check, copy_file(WITH_BOARD, place + "bin/with_board"))
        script.expect("no library in " + folder, [board, late], (6, "", "with_board: libzendrouz_comedi.so isn't there\n"))
        copy_file(check.path(LIBRARY), place + folder + LIBRARY)
        script.expect("no comedi_serve beside " + folder, [board, late], (6, "", "with_board: comedi_serve isn't there\n"), PATH=make_tools(check))
        copy_file(check.serve, place + "bin/" + PROGRAM)
        script.expect("installed in " + folder, [board, late], wanted, PATH=make_tools(check))
    if os.path.isdir(DEMOS):
        os.rename(top, check.path("top"))
        document(check, check.path("top/"))
