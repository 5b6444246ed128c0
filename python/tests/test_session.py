"""Sessions held with comedi_serve, and their records played by `comedi replay`."""
import errno
import os
import tempfile
import unittest
from pathlib import Path
from typing import Any, Callable, Iterable, List, Union
from unittest import mock

from needed import SMALL, TOP, Case, needs
from zendrouz import (Board, Channel, ComediError, Command, Done, Dry, Failed, Flag, Idle, Info, Missing, Out, Overrun,
                      Refused, Sample, Session, Signals, Subdevice, TimedOut, Underrun, replay, table)

# A sample a microsecond of 10, 20, .. 100, in a buffer of four; an output with a buffer of four; digital lines.
# Codes are levels, so that what `codes` and `read` answer can be compared.
LEVELS = [(0, 255, 2)]
BOARD = Board("first", [
    Subdevice("ai", 1, bits=8, ranges=LEVELS, sources="now|int timer now count none|count", tick=1, scan=(1, 1_000_000),
              convert=(1, 1), list=1, buffer=4),
    Subdevice("ao", 1, bits=8, ranges=LEVELS, sources="int timer now count count", tick=1, scan=(1, 1_000_000),
              convert=(1, 1), list=1, buffer=4),
    Subdevice("dio", 8, bits=1, ranges=[(0, 5_000_000, 0)])])
SIGNALS = Signals(10_000, {(0, 0): table(1000, range(10, 101, 10))})
SIX = Command.timed([0], 1000, scans=6)
ENDLESS = Command.timed([0], 1000)
THREE_WORDS = Command.parse("1 0 int:0 timer:100 now:0 count:1 count:3 0/0/ground")


def levels_of(samples: Iterable[Sample]) -> List[int]:
    return [sample.level for sample in samples]


class Recorded(Case):
    """Tests whose sessions are played again."""

    def check_record(self, session: Session) -> None:
        """Whether a replay of the record gives the answers of the session, byte for byte."""
        played = replay(session.record)
        text = ""
        for turn, reply in zip(session.turns, played):
            text += turn.outs + (reply.text + "\n" + reply.samples.text if turn.answer is None else turn.answer)
        self.assertEqual(len(session.turns), len(played))
        self.assertEqual(text, played.text)


@needs("comedi")
@needs("comedi_serve")
class Dialogues(Recorded):
    def setUp(self) -> None:
        session = Session(BOARD, SIGNALS)
        self.session = session.__enter__()
        self.addCleanup(session.end)
        self.addCleanup(lambda: self.check_record(session))
        self.session.open()

    def fails(self, number: int, call: Callable[..., Any], *words: Any, **named: Any) -> ComediError:
        with self.assertRaises(ComediError) as caught:
            call(*words, **named)
        self.assertEqual(caught.exception.errno, number)
        return caught.exception

    def test_an_input_that_is_read_to_its_end(self) -> None:
        session = self.session
        self.assertEqual(session.info(), Info(0, 0, Idle()))
        session.command(SIX)
        self.assertEqual((session.poll(3), session.now), (2000, 2000))
        self.assertEqual(session.info(), Info(0, 3, None))
        self.assertEqual(session.contents(), 3)
        self.assertEqual(session.read(2), [Sample(0, 10), Sample(0, 20)])
        self.assertEqual(session.read_codes(9), [30])
        self.assertIsNone(session.ended())
        self.assertEqual(session.poll(9), 5000)
        self.assertEqual(levels_of(session.read(9)), [40, 50, 60])
        self.assertEqual((session.read_codes(9), session.ended()), ([], Done()))
        self.assertEqual((list(session.read(9)), session.ended()), ([], Idle()))
        session.command(SIX)
        self.assertIsNone(session.ended())

    def test_codes_in_an_array(self) -> None:
        try:
            import numpy
        except ImportError:
            self.skipTest("numpy isn't there")
        self.session.command(SIX)
        self.session.advance(3000)
        codes = self.session.read_codes(9, array=True)
        self.assertIsInstance(codes, numpy.ndarray)
        self.assertEqual(codes.tolist(), [10, 20, 30, 40])
        self.assertEqual(self.session.read_codes(9, array=True).tolist(), [])

    def test_an_overrun(self) -> None:
        self.session.command(ENDLESS)
        self.session.advance(4000)
        self.assertEqual(len(self.session.read(9)), 4)
        error = self.fails(errno.EPIPE, self.session.read, 9)
        self.assertEqual((error.end, self.session.ended()), (Overrun(4), Overrun(4)))

    def test_signals_that_end(self) -> None:
        self.session.now = 8000
        self.session.command(ENDLESS)
        self.assertEqual(self.session.poll(4), 10_000)
        self.assertEqual(levels_of(self.session.read(9)), [90, 100, 10])
        self.assertEqual((len(self.session.read(9)), self.session.ended()), (0, Dry()))

    def test_an_output(self) -> None:
        session = self.session
        session.command(THREE_WORDS)
        self.assertEqual(session.write([5]), 1)
        self.assertEqual((session.fill([6, 7, 8, 9]), session.contents()), (3, 1))
        self.assertEqual((session.mark(1), session.contents()), (1, 2))
        session.trigger()
        self.assertEqual(session.poll(1), 0)
        session.advance(500)
        self.assertEqual(session.info(), Info(2, 2, Underrun(2)))
        self.assertEqual(session.outs, [Out(1, 0, 0, 5), Out(1, 100, 0, 6)])
        error = self.fails(errno.EPIPE, session.fill, [7])
        self.assertEqual((error.end, session.ended(1)), (Underrun(2), Underrun(2)))

    def test_a_buffer_that_is_mapped(self) -> None:
        session = self.session
        session.command(SIX)
        session.advance(2500)
        self.assertEqual(session.map(2), 2)
        self.assertEqual(session.look(1), Sample(0, 20))
        self.assertEqual(session.peek(0, 9), [10, 20])
        self.assertEqual(session.peek(1, 9), [20])
        self.assertEqual(session.peek(5, 9), [])
        self.assertEqual(session.release(1), 1)
        self.assertEqual(session.peek(0, 9), [20])
        self.fails(errno.EINVAL, session.read_codes, 2)
        self.fails(errno.EINVAL, session.peek, 0, 9, file=3)

    def test_raw_samples(self) -> None:
        self.session.command(Command.timed([0], 1000, flags=Flag.RAWDATA))
        self.assertEqual(self.session.read(1), [Sample(0, 10, True)])

    def test_a_command_that_the_board_does_not_take(self) -> None:
        slow = Command.timed([0], 2_000_000)
        error = self.fails(errno.EAGAIN, self.session.command, slow)
        self.assertEqual((error.step, error.command), (3, Command.timed([0], 1_000_000)))
        self.assertEqual(self.session.command_test(slow), (3, Command.timed([0], 1_000_000)))
        self.assertEqual(self.session.command_test(SIX), (0, SIX))
        self.fails(errno.ENODEV, self.session.command_test, Command(7))
        self.fails(errno.EIO, self.session.command_test, Command(2))

    def test_locks_and_files(self) -> None:
        session = self.session
        session.open(file=3)
        session.lock(0, file=3)
        self.fails(errno.EACCES, session.command, SIX)
        session.unlock(0, file=3)
        session.command(SIX)
        self.fails(errno.EBUSY, session.command, SIX, file=3)
        session.cancel()
        session.close()
        self.fails(errno.EINVAL, session.read, 1)

    def test_instructions(self) -> None:
        session = self.session
        self.assertEqual(session.insn_read(0, 0, 2), [10, 10])
        self.assertEqual(session.insn_write(1, Channel(0), [1, 2, 3]), 3)
        self.assertEqual(session.insn_read(1, 0), [3])
        session.insn_config(2, 3, 1)
        self.assertEqual(session.insn_bits(2, 8, 8) & 8, 8)
        self.assertEqual(session.advance(9000), 9000)
        self.assertEqual(session.insn_gtod(), (0, 9))

    def test_a_line_that_is_not_taken(self) -> None:
        self.session.now = 2000
        self.session.contents()
        self.session.now = 1000
        with self.assertRaises(Refused) as caught:
            self.session.read(1)
        error = caught.exception
        self.assertEqual((error.cause, error.text, error.word), ("Bad", "1000 read 0 0 1", "1000"))
        self.assertEqual(error.line, self.session.record.count("\n") + 1)
        with self.assertRaises(Refused):
            self.session.insn_read(0, Channel(70000))
        self.session.now = 2000
        self.assertEqual(self.session.contents(), 0)

    def test_the_board_as_the_program_has_it(self) -> None:
        described = self.session.describe()
        self.assertEqual([sub.kind for sub in described.subdevices], ["ai", "ao", "dio"])
        self.assertEqual(described.subdevices[0].scans, 1_000_000)

    def test_a_board_that_is_made_of_its_subdevices_is_the_board(self) -> None:
        for path in sorted((TOP / "examples" / "boards").glob("*.txt")):
            read = Board.read(path)
            made = Board(read.name, read.subdevices, read.version)
            with Session(read) as one, Session(made) as other:
                self.assertEqual(str(one.describe()), str(other.describe()))


class Ends(Case):
    @needs("comedi_serve")
    def test_a_board_may_be_a_path_with_signals_of_its_own(self) -> None:
        boards: List[Union[str, Path]] = [SMALL, str(SMALL), SMALL.read_text()]
        for board in boards:
            with Session(board) as session:
                session.now = 7_000_000
                session.open()
                self.assertEqual(session.insn_read(0, 0), [7])
            self.assertTrue(session.record.startswith(SMALL.read_text()))

    @needs("comedi_serve")
    def test_without_signals_the_horizon_is_the_greatest(self) -> None:
        with Session(Board.named("comedi_test")) as session:
            session.open()
            session.now = 10 ** 12
            self.assertEqual(len(session.insn_read(0, 0)), 1)

    @needs("comedi_serve")
    def test_a_board_that_is_refused(self) -> None:
        with self.assertRaises(Refused) as caught:
            with Session(str(BOARD).replace("bits 8", "bits 08"), SIGNALS):
                self.fail("it was taken")
        self.assertEqual((caught.exception.line, caught.exception.cause), (4, "BadNumber"))
        self.assertEqual(caught.exception.text, "bits 08")

    @needs("comedi_serve")
    def test_signals_that_are_refused(self) -> None:
        with self.assertRaises(Refused) as caught:
            with Session(BOARD, "signals 10 10\n"):
                self.fail("it was taken")
        self.assertEqual(caught.exception.text, "signals 10 10")

    @needs("comedi_serve")
    def test_the_record_stays(self) -> None:
        with Session(BOARD, SIGNALS) as session:
            session.open()
            self.assertEqual(session.end(), 0)
        self.assertTrue(session.record.endswith("session\n0 open 0\n"))
        self.assertIsNone(session.end())
        with self.assertRaises(ValueError):
            session.close()


# Answers the board and one line more, and then does something else.
SERVES = "#!/bin/sh\nwhile read line && [ \"$line\" != describe ]; do :; done; echo ok; read line; echo ok\n"


class Breaks(Case):
    """Programs that answer nothing, or not for long."""

    def serve(self, script: str, timeout: float = 10, board: Union[Board, str] = BOARD) -> Session:
        folder = tempfile.TemporaryDirectory()
        self.addCleanup(folder.cleanup)
        path = Path(folder.name) / "serve"
        path.write_text(script)
        path.chmod(0o755)
        variables = mock.patch.dict(os.environ, ZENDROUZ_SERVE=str(path))
        variables.start()
        self.addCleanup(variables.stop)
        return Session(board, SIGNALS, timeout)

    def check_over(self, session: Session) -> None:
        """Whether a session is over whose first line was answered."""
        self.assertTrue(session.record.endswith("session\n0 open 0\n"))
        self.assertIsNone(session.end())
        with self.assertRaisesRegex(ValueError, "the session isn't open"):
            session.close()

    def test_a_program_that_ends_at_once(self) -> None:
        with self.assertRaises(Failed) as caught:
            self.serve("#!/bin/sh\nexit 5\n").__enter__()
        self.assertEqual((caught.exception.name, caught.exception.status), ("serve", 5))

    def test_a_program_that_dies_in_a_session(self) -> None:
        with self.serve(SERVES + "read line; printf 'ok 0'; kill -9 $$\n") as session:
            session.open()
            with self.assertRaisesRegex(Failed, "serve ended with status -9: a signal"):
                session.contents()
            self.check_over(session)

    def test_a_program_that_is_silent(self) -> None:
        with self.serve(SERVES + "sleep 60 & sleep 60\n", 2) as session:
            session.open()
            with self.assertRaisesRegex(TimedOut, "serve: killed after 2 s"):
                session.contents()
            self.check_over(session)

    def test_a_program_that_reads_nothing(self) -> None:
        with self.assertRaises(TimedOut):
            self.serve("#!/bin/sh\nsleep 60\n", 0.3, str(BOARD) + "# %s\n" % ("x" * 2 ** 19)).__enter__()

    def test_a_program_that_does_not_end(self) -> None:
        with self.assertRaises(TimedOut):
            with self.serve(SERVES + "sleep 60\n", 2) as session:
                session.open()
        self.check_over(session)

    def test_an_interrupted_answer_ends_the_session(self) -> None:
        with self.serve(SERVES + "read line; echo ok 5\n") as session:
            session.open()
            with mock.patch("os.read", side_effect=KeyboardInterrupt), self.assertRaises(KeyboardInterrupt):
                session.contents()
            self.check_over(session)

    def test_no_program(self) -> None:
        with mock.patch.dict(os.environ, ZENDROUZ_SERVE="/nowhere/serve"), self.assertRaises(Missing):
            Session(BOARD, SIGNALS).__enter__()


if __name__ == "__main__":
    unittest.main()
