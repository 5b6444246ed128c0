"""Boards, signals and commands as texts, and what is refused."""
import pickle
import random
import tempfile
import unittest
from pathlib import Path

from needed import TOP, Case, needs, run_python
from zendrouz import (FALLING, Board, Channel, ChannelForm, Command, Flag, Job, Missing, Reference, Refused, Signals,
                      Source, Subdevice, ask, const, expand, record, replay, saw, sine, square, table)

BOARDS = sorted((TOP / "examples" / "boards").glob("*.txt"))
DEMO = Board("demo", [Subdevice("ai", 2, bits=16, ranges=[(-10_000_000, 10_000_000, 0)], tick=100, list=4, buffer=8,
                                sources="now|ext timer now|timer count none|count", scan=(1000, 1_000_000),
                                convert=(200, 100_000), lines=1)])


class Boards(Case):
    def test_what_is_read_keeps_its_text(self) -> None:
        self.assertEqual(len(BOARDS), 13)
        for path in BOARDS:
            self.assertEqual(str(Board.read(path)), path.read_text())
            self.assertEqual(Board.named(path.stem).name, path.stem)

    def test_a_board_of_no_name(self) -> None:
        with self.assertRaisesRegex(Missing, "the board ni_pci_9999 isn't there .there are .*, ni_pci_6221, .*examples/boards"):
            Board.named("ni_pci_9999")

    def test_signals_and_session_of_a_job_are_no_part_of_its_board(self) -> None:
        path = TOP / "examples" / "scan_with_overrun.txt"
        text = path.read_text()
        board, signals, job = Board.read(path), Signals.read(path), Job.read(path)
        self.assertEqual(str(board), text[:text.index("signals")])
        self.assertEqual(str(signals), text[text.index("signals"):text.index("session")])
        self.assertEqual(signals.horizon, int(text[text.index("signals"):].split()[1]))
        self.assertEqual(str(job), text)

    @needs("comedi")
    def test_a_board_that_is_made_of_its_subdevices_answers_as_its_file(self) -> None:
        for path in BOARDS:
            board = Board.read(path)
            made = Board(board.name, board.subdevices, board.version)
            self.assertNotIn("#", str(made))
            session = TOP / "examples" / "replays" / (path.stem + ".session")
            answer = ask("replay", str(made) + session.read_text())
            self.assertEqual(answer, session.with_suffix(".answer").read_text(), path.stem)

    def test_all_lines_of_version_2(self) -> None:
        forms = {2: ChannelForm(ranges=[(0, 20_000_000, 1), (4_000_000, 20_000_000, 1)]),
                 3: ChannelForm(bits=12, munge="left 4")}
        board = Board("bench", [Subdevice(
            "ai", 4, bits=16, munge="offset", ranges=[(-10e6, 10e6, 0)],
            sources="now|ext timer|ext now|timer count none", tick=100, scan=(1000, 1e6), convert=(200, 1e5), list=4,
            scans=1000, lines=2, buffer=64, samerange=True, forbid=["start ext scan_begin ext"], invert=True,
            fifo=(512, 20_000), chans=forms)])
        wanted = """comedi 2
board bench
subdevice ai 4
bits 16
munge offset
sources now|ext timer|ext now|timer count none
tick 100
scan 1000 1000000
convert 200 100000
list 4
scans 1000
lines 2
buffer 64
fifo 512 20000
range -10000000 10000000 0
samerange
invert
forbid start ext scan_begin ext
chan 2 range 0 20000000 1
chan 2 range 4000000 20000000 1
chan 3 bits 12
chan 3 munge left 4
"""
        self.assertEqual(str(board), wanted)
        read = Board.parse(wanted)
        self.assertEqual(str(Board(read.name, read.subdevices, read.version)), wanted)

    def test_all_lines_of_version_3(self) -> None:
        board = Board("wide", [Subdevice(
            "ai", 4, bits=16, ranges=[(-10e6, 10e6, 0)], sources="now timer now count count", tick=100, scan=(1050, 1e6),
            convert=(200, 1e5), list=4, buffer=64, rounds="down", halfdown=True, perchan=250, scanfits=True,
            order="rising repeat", samearef=True, samepolarity=True, flags=["readable", "diff"])], version=3)
        wanted = """zendrouz 1
board wide
subdevice ai 4
bits 16
sources now timer now count count
tick 100
scan 1050 1000000
convert 200 100000
list 4
buffer 64
rounds down
perchan 250
channels rising repeat
range -10000000 10000000 0
halfdown
scanfits
samearef
samepolarity
flag readable
flag diff
"""
        self.assertEqual(str(board), wanted)
        read = Board.parse(wanted)
        self.assertEqual((str(Board(read.name, read.subdevices, read.version)), read.version), (wanted, 3))

    def test_a_changed_board_is_another_one(self) -> None:
        changed = DEMO.changed(0, buffer=64)
        self.assertEqual(str(changed), str(DEMO).replace("buffer 8", "buffer 64"))
        self.assertEqual(DEMO.subdevices[0].buffer, 8)

    def test_a_session_is_a_text_or_its_lines(self) -> None:
        lines = Job(DEMO, Signals(0), ["0 open 0", "# a comment", "1 close 0"])
        self.assertEqual(str(lines), "%ssignals 0\nsession\n0 open 0\n# a comment\n1 close 0\n" % DEMO)
        for session in ("0 open 0\n# a comment\n1 close 0", "0 open 0\n# a comment\n1 close 0\n"):
            self.assertEqual(str(Job(DEMO, Signals(0), session)), str(lines))
        self.assertEqual(lines.asked, ["0 open 0", "1 close 0"])

    def test_what_can_not_be_read_is_left_for_the_program(self) -> None:
        text = "comedi 1\nboard x\nsubdevice ai four\nbits 0x10\nrange 1\n"
        self.assertEqual(str(Board.parse(text)), text)


class SignalsOf(Case):
    def test_all_lines(self) -> None:
        signals = Signals(5_000_000, waves={(0, 0): saw(-10e6, 10e6, 1e6), (0, 1): const(2.5e6),
                                            (0, 2): square(0, 5, 10), (0, 3): table(1000, [1, -2, 3]),
                                            (0, 4): record(500, [3, -4])},
                          edges={0: [1000, 2000], 1: []}, falls={0: [1500]}, every={1: (0, 1000, 4)},
                          triggers={0: [1500, 2500]})
        self.assertEqual(str(signals), """signals 5000000
wave 0 0 saw -10000000 10000000 1000000
wave 0 1 const 2500000
wave 0 2 square 0 5 10
wave 0 3 table 1000 1 -2 3
wave 0 4 record 500 3 -4
every 1 0 1000 4
edges 0 1000 2000
falls 0 1500
int 0 1500 0
int 0 2500 0
""")

    @needs("comedi")
    def test_edges_of_a_line_may_be_given_in_any_order(self) -> None:
        signals = Signals(100_000, edges={0: [20_000, 21_000]}, every={0: [(30_000, 1000, 2), (0, 1000, 2)]})
        job = Job(DEMO, signals, ["expand 0 0 0 ext:0 timer:1000 now:0 count:1 count:1 0/0/ground",
                                  "expand 1001 0 0 ext:0 timer:1000 now:0 count:1 count:1 0/0/ground",
                                  "expand 21001 0 0 ext:0 timer:1000 now:0 count:1 count:1 0/0/ground"])
        self.assertEqual([made.conversions[0].time for made in expand(job)], [0, 20_000, 30_000])

    def test_a_number_that_is_not_whole_is_an_error(self) -> None:
        with self.assertRaises(ValueError):
            const(2.5)
        with self.assertRaises(ValueError):
            table(10, [1, 0.5])
        with self.assertRaises(ValueError):
            Signals(1.5)

    def test_arrays(self) -> None:
        try:
            import numpy
        except ImportError:
            self.skipTest("numpy isn't there")
        values = numpy.rint(1e6 * numpy.linspace(-1, 1, 5))
        self.assertEqual(str(table(100, values)), "table 100 -1000000 -500000 0 500000 1000000")
        self.assertEqual(str(table(100, values.astype(numpy.int32))), str(table(100, values)))
        self.assertEqual(str(Signals(numpy.int64(5), edges={0: numpy.arange(3)})), "signals 5\nedges 0 0 1 2\n")

    def test_a_sine_is_that_of_the_script(self) -> None:
        for amplitude, period, offset, steps in ((2.5, 20_000_000, 0, None), (1, 1000, -2, 8), (10, 63, 0.5, None)):
            words = [str(amplitude), str(period), str(offset)]
            options = ["-n", str(steps)] if steps else []
            said = run_python(TOP / "scripts" / "sine.py", *options, "0", "1", *words).stdout
            made = sine(amplitude * 1e6, period, offset * 1e6, steps)
            self.assertEqual("wave 0 1 %s\n" % made, said)

    def test_a_sine_whose_steps_do_not_divide_its_period(self) -> None:
        for period, steps in ((67, None), (1000, 7)):
            with self.assertRaises(ValueError):
                sine(1_000_000, period, steps=steps)


class Commands(Case):
    def test_a_timed_command(self) -> None:
        command = Command.timed([0, Channel(1, 2, Reference.DIFF)], 10_000, 1000, 2, flags=Flag.RAWDATA)
        self.assertEqual(str(command), "0 128 now:0 timer:10000 timer:1000 count:2 count:2 0/0/ground,1/2/diff")
        self.assertEqual(str(Command.timed([3], 1e6, subdev=1)),
                         "1 0 now:0 timer:1000000 now:0 count:1 none:0 3/0/ground")

    def test_no_entries_and_no_sources(self) -> None:
        text = "0 0 invalid:0 now|ext|int:5 timer:1 count:0 none:0 -"
        self.assertEqual(str(Command.parse(text)), text)
        self.assertEqual(str(Source.NOW | Source.OTHER), "now|other")
        self.assertEqual(Source.parse("none|now|follow|time|timer|count|ext|int|other"), 511)

    def test_random_commands_are_read_as_they_are_written(self) -> None:
        chance = random.Random(1)
        for _ in range(500):
            entries = [Channel(chance.randrange(65536), chance.randrange(256), Reference(chance.randrange(4)))
                       for _ in range(chance.randrange(4))]
            command = Command(chance.randrange(256), chance.randrange(2 ** 32), chanlist=entries)
            for name in Command.TRIGGERS:
                setattr(command, name + "_src", Source(chance.randrange(512)))
                setattr(command, name + "_arg", chance.choice([0, 1, FALLING, FALLING + 3, 2 ** 32 - 1]))
            self.assertEqual(Command.parse(str(command)), command)

    def test_a_text_that_is_no_command(self) -> None:
        for text in ("", "0 0 now:0", "0 0 later:0 timer:1 now:0 count:1 none:0 -"):
            with self.assertRaises((ValueError, KeyError)):
                Command.parse(text)


@needs("comedi")
class Refusals(Case):
    def refusal(self, old: str, new: str) -> Refused:
        job = str(Job(DEMO, Signals(100_000), ["0 open 1", "0 read 1 0 10"]))
        self.assertIn(old, job)
        with self.assertRaises(Refused) as caught:
            replay(job.replace(old, new))
        return caught.exception

    def test_a_number(self) -> None:
        error = self.refusal("bits 16", "bits 016")
        self.assertEqual((error.line, error.cause, error.text, error.word), (4, "BadNumber", "bits 016", "016"))
        self.assertEqual(error.form, "bits K    (codes go from 0 to 2^K - 1; 1 to 24; needed)")
        self.assertEqual(error.repair, "bits 16")
        self.assertEqual(error.answer, "refused 4 BadNumber")
        self.assertTrue(str(error).startswith("refused 4 BadNumber\nline 4:"))

    def test_a_line_of_the_session(self) -> None:
        error = self.refusal("0 read 1 0 10", "0 read 1 0 70000")
        self.assertEqual((error.line, error.cause, error.word), (16, "Limit", "70000"))
        self.assertEqual(error.form, "T read F SUB N    (as `2000 read 1 0 10`)")

    def test_a_rule_of_a_block(self) -> None:
        error = self.refusal("tick 100", "tick 300")
        self.assertEqual((error.line, error.cause, error.word), (13, "Bad", None))
        self.assertIn("MIN + TICK - 1", error.repair or "")

    def test_too_long(self) -> None:
        error = self.refusal("session\n", "# %s\nsession\n" % ("x" * 2 ** 20))
        self.assertEqual((error.line, error.cause, error.text), (0, "TooLong", ""))

    def test_a_byte_that_is_no_plain_ascii(self) -> None:
        error = self.refusal("bits 16", "# 100 \u00b5s\nbits 16")
        self.assertEqual((error.line, error.cause), (4, "BadLine"))
        self.assertIsNotNone(error.explanation)

    def test_it_goes_from_process_to_process(self) -> None:
        error = self.refusal("bits 16", "bits 016")
        again = pickle.loads(pickle.dumps(error))
        self.assertEqual((again.line, again.cause, again.word, again.job), (4, "BadNumber", "016", error.job))

    def test_a_file(self) -> None:
        with tempfile.TemporaryDirectory() as name:
            path = Path(name) / "job.txt"
            path.write_text("comedi 3\n")
            with self.assertRaises(Refused) as caught:
                replay(path)
        self.assertEqual((caught.exception.line, caught.exception.cause), (1, "Limit"))


if __name__ == "__main__":
    unittest.main()
