"""Answers to jobs, parsed: what is parsed holds all that the text does."""
import errno
import os
import tempfile
import unittest
from pathlib import Path
from typing import List
from unittest import mock

from needed import TOP, Case, needs
from zendrouz import (Board, ComediError, Command, Conversion, Done, Dry, Failed, Fifo, Idle, Job, Out, Overrun,
                      Refused, Sample, Signals, Subdevice, Taken, TimedOut, Underrun, ask, expand, insn, loop, replay,
                      run, saw, soak, test, watch)
from zendrouz.answers import Conversions, Outs, Samples, end_of
from zendrouz.jobs import Replay, Stream, session_lines

EXAMPLES = TOP / "examples"
KINDS = {"test": "test", "expand": "expand", "go": "run", "drive": "run", "loop": "loop"}


def command_of(path: Path) -> str:
    """The program's word for a job of examples/."""
    if path.stem == "lines_and_a_lock":
        return "insn"
    return "watch" if path.stem.startswith("watch") else KINDS.get(session_lines(path)[0].split()[0], "replay")


def text_of_samples(samples: Samples) -> str:
    return "".join("%d %s%d\n" % (index, "raw " if raw else "", level) for index, level, raw in samples)


def text_of_outs(outs: Outs) -> str:
    return "".join("out %d %d %d %d\n" % out for out in outs)


def text_of_replay(answer: Replay) -> str:
    return "".join(text_of_outs(reply.outs) + reply.text + "\n" + text_of_samples(reply.samples) for reply in answer)


def text_of_streams(streams: List[Stream]) -> str:
    return "".join(text_of_samples(made.samples) + text_of_outs(made.outs) + "%s\n" % made.end for made in streams)


def text_of(command: str, path: Path) -> str:
    """The text of an answer, made again of what was parsed."""
    if command == "test":
        return "".join("step %s %s\n" % made[:2] if made.errno is None else "err %d\n" % made.errno
                       for made in test(path))
    if command == "expand":
        return "".join("".join("%d %d %d\n" % row for row in made.conversions) + "%s\n" % made.end
                       for made in expand(path))
    if command in ("replay", "insn"):
        return text_of_replay(replay(path) if command == "replay" else insn(path))
    return text_of_streams([loop(path)] if command == "loop" else run(path) if command == "run" else watch(path))


def many_samples(samples: int, reads: int) -> Job:
    """So many samples, one a microsecond, that are taken by so many reads. One read more reports the end."""
    board = Board("fast", [Subdevice(
        "ai", 1, bits=16, ranges=[(-10e6, 10e6, 0)], sources="now timer now count none|count", tick=100,
        scan=(1000, 1e6), convert=(100, 100), list=1, buffer=65536)])
    last = 1000 * samples
    times = [*range(last // reads, last + 1, last // reads), last]
    return Job(board, Signals(last, {(0, 0): saw(-5e6, 5e6, 1e6)}),
               ["0 open 0", "0 cmd 0 %s" % Command.timed([0], 1000, scans=samples)] + ["%d read 0 0 65536" % time for time in times])


@needs("comedi")
class Examples(Case):
    def test_each_example_is_parsed_whole(self) -> None:
        paths = sorted(EXAMPLES.glob("*.txt"))
        self.assertEqual(len(paths), 16)
        for path in paths:
            wanted = path.with_suffix(".answer").read_text()
            self.assertEqual(ask(command_of(path), path), wanted, path.stem)
            self.assertEqual(text_of(command_of(path), path), wanted, path.stem)

    def test_each_session_on_a_real_board_is_parsed_whole(self) -> None:
        for path in sorted((EXAMPLES / "replays").glob("*.session")):
            board = (EXAMPLES / "boards" / (path.stem + ".txt")).read_text()
            answer = replay(board + path.read_text())
            self.assertEqual(answer.text, path.with_suffix(".answer").read_text())
            self.assertEqual(text_of_replay(answer), answer.text)


@needs("comedi")
class Replays(Case):
    def test_samples_and_ends(self) -> None:
        answer = replay(EXAMPLES / "scan_with_overrun.txt")
        self.assertEqual(len(answer), len(session_lines(EXAMPLES / "scan_with_overrun.txt")))
        self.assertEqual(answer.samples()[1], Sample(1, 2498168))
        self.assertEqual(list(answer.samples().list_indices), [0, 1, 2, 3])
        self.assertEqual([end for _, end in answer.ends], [Overrun(105536), Idle()])
        self.assertEqual(answer.errors[0].end, Overrun(105536))
        self.assertEqual(answer[-1].end, Idle())
        self.assertEqual(answer[4].values, [19996])

    def test_outputs(self) -> None:
        answer = replay(EXAMPLES / "waveform_output.txt")
        self.assertEqual(answer.outs(1)[:2], [Out(1, 50000, 0, 0), Out(1, 150000, 0, 1447)])
        self.assertEqual(answer.outs(1), answer.outs())
        self.assertEqual(len(answer.outs(0)), 0)
        self.assertEqual(list(answer.outs().words), [0, 1447, 2047, 1447, 0, 2648, 2048, 2648])
        self.assertEqual(answer.outs().times[7], 750_000)
        self.assertEqual(answer.errors[-1].end, Underrun(8))

    def test_the_error_of_a_command_has_the_step_and_the_repaired_command(self) -> None:
        path = EXAMPLES / "replays" / "dt2811_pgh.session"
        error = replay((EXAMPLES / "boards" / "dt2811_pgh.txt").read_text() + path.read_text())[1].error
        assert error is not None
        self.assertEqual((error.errno, error.step, error.end), (errno.EAGAIN, 4, None))
        self.assertEqual(str(error.command), "0 0 now:0 follow:0 timer:19992 count:1 count:3 3/8/ground")

    def test_instructions(self) -> None:
        answer = insn(EXAMPLES / "lines_and_a_lock.txt")
        self.assertEqual([error.errno for error in answer.errors], [errno.EACCES])
        self.assertEqual(answer[8].values, [3, 40959, 40959, 40959])

    def test_a_fifo(self) -> None:
        self.assertEqual([end for _, end in replay(EXAMPLES / "fifo_overflow.txt").ends], [Done(), Fifo(4), Idle()])

    def test_raw_samples(self) -> None:
        text = (EXAMPLES / "replay_done.txt").read_text().replace("cmd 1 0 0 ", "cmd 1 0 128 ")
        samples = replay(text).samples()
        self.assertTrue(samples.is_raw)
        self.assertEqual(samples[0], Sample(0, 8191, True))
        self.assertEqual(text_of_samples(samples), "0 raw 8191\n" * 3)

    def test_an_empty_session(self) -> None:
        job = Job(Board.named("comedi_test"), Signals(0))
        self.assertEqual((len(replay(job)), len(replay(job).samples()), replay(job).ends), (0, 0, []))

    def test_a_line_alone_is_the_path_of_a_job(self) -> None:
        path = EXAMPLES / "replay_done.txt"
        self.assertEqual(replay(str(path)).text, path.with_suffix(".answer").read_text())
        self.assertEqual(replay(str(path)).text, replay(path.read_text()).text)
        with self.assertRaises(FileNotFoundError):
            replay("no such job")


@needs("comedi")
class Others(Case):
    def test_expand(self) -> None:
        made = expand(EXAMPLES / "expand_lost_edges.txt")
        self.assertEqual(made[0].conversions[1], Conversion(600, 1, 36700))
        self.assertEqual([one.end for one in made], [Done(), Dry(), Done()])
        self.assertEqual(list(made[1].conversions.times), [0, 600, 2000, 2600])
        self.assertEqual(list(made[1].conversions.raws), [8191, 36700, 8191, 49807])

    def test_run(self) -> None:
        made = run(EXAMPLES / "run_four_lines.txt")
        self.assertEqual([one.end for one in made], [Done(), Taken(4), Done(), Done()])
        self.assertEqual([len(one.samples) for one in made], [12, 4, 4, 0])
        self.assertEqual([len(one.outs) for one in made], [0, 0, 0, 4])

    def test_test(self) -> None:
        steps = [made.step for made in test(EXAMPLES / "test_repaired_twice.txt")]
        self.assertEqual(steps, [3, 4, 0])
        head = str(Job(Board.named("ni_pci_6704"), Signals(0)))
        made = test(head + "test 0 0 now:0 timer:1 now:0 count:1 none:0 0/0/ground\n")
        self.assertEqual((made[0].step, made[0].errno), (None, errno.EIO))

    def test_soak(self) -> None:
        made = soak(16384)
        self.assertEqual([(one.samples, one.total, one.end) for one in made], [(4096, 134180858, Done())] * 4)

    def test_many_samples_of_many_reads(self) -> None:
        answer = replay(many_samples(100_000, 1000))
        samples = answer.samples()
        self.assertEqual(len(samples), 100_000)
        self.assertEqual(answer[-1].end, Done())
        self.assertEqual(list(samples.levels), [sample.level for reply in answer for sample in reply.samples])
        try:
            import numpy
        except ImportError:
            return
        self.assertEqual(samples.to_numpy().shape, (100_000, 2))
        self.assertEqual(samples.to_numpy()[:, 1].tolist(), list(samples.levels))
        self.assertIsInstance(samples.to_numpy(), numpy.ndarray)


class Parts(Case):
    def test_ends_are_read_as_they_are_written(self) -> None:
        for end in (Done(), Dry(), Idle(), Overrun(3), Underrun(0), Fifo(4), Taken(5)):
            self.assertEqual(end_of(str(end).split()), end)
        for words in ("", "runs", "100 100"):
            self.assertIsNone(end_of(words.split()))

    def test_rows(self) -> None:
        rows = Conversions("0 0 5\n10 1 6\n20 0 7\n")
        self.assertEqual((len(rows), rows[-1], rows[1:]), (3, Conversion(20, 0, 7), [Conversion(10, 1, 6),
                                                                                  Conversion(20, 0, 7)]))
        self.assertEqual(rows, [Conversion(0, 0, 5), Conversion(10, 1, 6), Conversion(20, 0, 7)])
        with self.assertRaises(IndexError):
            rows[3]
        self.assertEqual((len(Samples("")), list(Samples("")), list(Outs("").words)), (0, [], []))


class Programs(Case):
    """Programs that end otherwise than with an answer."""

    def program(self, script: str) -> None:
        made = tempfile.TemporaryDirectory()
        self.addCleanup(made.cleanup)
        path = Path(made.name) / "comedi"
        path.write_text("#!/bin/sh\n%s\n" % script)
        path.chmod(0o755)
        variables = mock.patch.dict(os.environ, ZENDROUZ_COMEDI=str(path))
        variables.start()
        self.addCleanup(variables.stop)

    def test_a_status(self) -> None:
        self.program("echo no memory >&2; exit 5")
        with self.assertRaises(Failed) as caught:
            replay("a\njob")
        self.assertEqual((caught.exception.status, caught.exception.error), (5, "no memory\n"))
        self.assertEqual(str(caught.exception), "comedi replay ended with status 5: memory ran out\nno memory\n")

    def test_a_signal(self) -> None:
        self.program("kill -9 $$")
        with self.assertRaises(Failed) as caught:
            replay("a\njob")
        self.assertEqual(caught.exception.status, -9)

    def test_a_timeout(self) -> None:
        self.program("exec sleep 20")
        with self.assertRaises(TimedOut) as caught:
            replay("a\njob", timeout=0.2)
        self.assertEqual(str(caught.exception), "comedi replay: killed after 0.2 s")

    def test_an_input_that_is_not_read(self) -> None:
        self.program("echo refused 0 TooLong; exit 1")
        with self.assertRaises(Refused):
            ask("replay", "#\n" * 2 ** 19)

    def test_errors_are_named(self) -> None:
        self.assertEqual(str(ComediError(errno.EPIPE, Overrun(3), "5 read 0 0 1")),
                         "err 32 EPIPE (Broken pipe), overrun 3: 5 read 0 0 1")


if __name__ == "__main__":
    unittest.main()
