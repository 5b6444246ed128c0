"""Programs of clib/tests on their boards, run from Python."""
import os
import pickle
import shutil
import signal
import tempfile
import time
import unittest
from pathlib import Path
from unittest import mock

from needed import CLIB_TESTS, CLIENTS, SMALL, Case, build_clients, needs
from zendrouz import Board, Overrun, ProgramTimedOut, RecordCut, Signals, const, find, replay
from zendrouz.bench import CommandEnd, ProgramRun, run_program
from zendrouz.facts import facts_of, head_of


def runs(process: str) -> bool:
    """Whether the process of a number runs."""
    try:
        return " Z " not in Path("/proc", process, "stat").read_text()
    except OSError:
        return False


class Head(Case):
    def test_a_board_may_be_a_text_a_path_or_a_board(self) -> None:
        text = SMALL.read_text()
        self.assertEqual(head_of(text), text)
        self.assertEqual(head_of(SMALL), text)
        self.assertEqual(head_of(str(SMALL)), text)

    @needs("comedi_facts")
    def test_a_board_without_signals_has_the_greatest_horizon_of_its_version(self) -> None:
        for name, horizon in (("ni_pci_6221", 10 ** 12), ("comedi_test.comedi_test", 10 ** 15)):
            board = Board.named(name)
            self.assertEqual(head_of(board), "%ssignals %d\nsession\n" % (board, horizon))
            self.assertEqual(facts_of(board).greatest_horizon, horizon)

    @needs("comedi_facts")
    def test_a_board_that_is_refused_is_left_for_the_program(self) -> None:
        self.assertEqual(head_of("comedi 1\nboard x\n"), "comedi 1\nboard x\nsignals 0\nsession\n")

    def test_signals_stand_in_place_of_the_boards_own(self) -> None:
        signals = Signals(5000, {(0, 0): const(7)})
        head = head_of(SMALL, signals)
        self.assertEqual(head, "%s%ssession\n" % (Board.read(SMALL), signals))
        self.assertEqual(head_of(SMALL, str(signals)), head)


@needs("comedi")
@needs("comedi_serve")
class Programs(Case):
    @classmethod
    def setUpClass(cls) -> None:
        build_clients()

    def test_a_loss_is_reported_and_its_record_replays(self) -> None:
        run = run_program([CLIENTS / "late"], board=SMALL)
        self.assertEqual((run.status, run.output), (0, (CLIB_TESTS / "late.expected").read_text()))
        self.assertEqual(run.ends, (CommandEnd(27507000, Overrun(14)),))
        self.assertEqual(run.lost, run.ends)
        played = replay(run.record)
        self.assertEqual([sample.level for sample in played.samples(0)], list(range(14)))
        self.assertEqual([end for _, end in played.ends], [Overrun(14)])

    def test_each_run_is_the_same(self) -> None:
        self.assertEqual(run_program([CLIENTS / "late"], board=SMALL), run_program([CLIENTS / "late"], board=SMALL))

    def test_a_call_takes_as_long_as_it_is_told(self) -> None:
        run = run_program([CLIENTS / "late"], board=SMALL, call_ns=5000)
        self.assertIn("\n5000 insn 0 0 gtod\n10000 insn 0 0 gtod\n", run.record)

    def test_the_date_is_the_same_in_each_run(self) -> None:
        run = run_program([CLIENTS / "date"], board=CLIB_TESTS / "wide.board")
        self.assertEqual(run.output, (CLIB_TESTS / "date.expected").read_text())
        later = run_program([CLIENTS / "date"], board=CLIB_TESTS / "wide.board", start="2031-02-03T04:05:05Z")
        self.assertEqual(later.output, "opened: 2031-02-03T04:05:05Z\nslept: 2031-02-03T04:05:10Z\nthe code: 155\n")
        self.assertNotIn("203", run_program([CLIENTS / "date"], board=CLIB_TESTS / "wide.board", start=None).output)

    def test_a_setting_that_cannot_be_read_is_said(self) -> None:
        run = run_program([CLIENTS / "late"], board=SMALL, environment={"ZENDROUZ_WAKE": "smaple"})
        self.assertEqual(run.output, "open: Invalid argument\n")
        self.assertIn("ZENDROUZ_WAKE=smaple: that can't be read. Give sample, scan or full, or unset it", run.error)

    def test_the_library_may_stand_in_any_folder(self) -> None:
        with tempfile.TemporaryDirectory(prefix="a b:c ") as folder:
            library = shutil.copy(find("libzendrouz_comedi.so"), folder)
            with mock.patch.dict(os.environ, ZENDROUZ_LIBRARY=library):
                self.assertEqual(len(run_program([CLIENTS / "late"], board=SMALL).lost), 1)

    def test_a_refused_board_is_said_on_standard_error(self) -> None:
        run = run_program([CLIENTS / "late"], board=CLIB_TESTS / "refused.board")
        self.assertNotEqual(run.status, 0)
        self.assertIn("refused", run.error)
        self.assertEqual(run.ends, ())

    def test_a_program_has_its_input_its_folder_and_its_variables(self) -> None:
        run = run_program(["sh", "-c", "cat; pwd; echo $WORD; echo said >&2; exit 3"], board=SMALL, input="given\n", folder="/",
                          environment={"WORD": "word"})
        self.assertEqual((run.status, run.output, run.error), (3, "given\n/\nword\n", "said\n"))
        self.assertEqual(run.record, SMALL.read_text())

    def test_a_program_that_a_signal_ends(self) -> None:
        self.assertEqual(run_program(["sh", "-c", "kill -9 $$"], board=SMALL).status, -signal.SIGKILL)

    def test_a_program_that_takes_too_long_is_killed_with_its_children(self) -> None:
        with tempfile.TemporaryDirectory() as folder:
            with self.assertRaises(ProgramTimedOut) as raised:
                run_program(["sh", "-c", "echo said; (while :; do :; done) & echo $! > child; wait"], board=SMALL, folder=folder, timeout=1)
            child = Path(folder, "child").read_text().strip()
        error = raised.exception
        self.assertEqual(error.run.output, "said\n")
        self.assertEqual(str(error), "sh: killed after 1 s. The last line of its record: session")
        self.assertEqual(str(pickle.loads(pickle.dumps(error))), str(error))
        while runs(child):  # it was killed, but that isn't awaited
            time.sleep(0.01)

    def test_a_record_that_is_cut_off_is_no_run_without_a_loss(self) -> None:
        """The record may have no more bytes than the device's memory needs."""
        words = ["sh", "-c", "trap '' XFSZ; ulimit -f 300; exec \"$0\" 2 10000", str(CLIENTS / "many")]
        with self.assertRaises(RecordCut) as raised:
            run_program(words, board=CLIB_TESTS / "wide.board")
        error = raised.exception
        self.assertIn("sh: the record isn't whole", str(error))
        self.assertIn("File too large", str(error))
        self.assertEqual(error.run.status, 0)
        self.assertGreater(len(replay(error.run.record).samples(0)), 1000)
        self.assertEqual(str(pickle.loads(pickle.dumps(error))), str(error))

    def test_a_record_is_whole_though_the_program_was_killed(self) -> None:
        run = run_program(["sh", "-c", "\"$0\" 2 1000; kill -9 $$", str(CLIENTS / "many")], board=CLIB_TESTS / "wide.board")
        self.assertEqual(run.status, -signal.SIGKILL)
        self.assertEqual(len(run.ends), 1)

    def test_a_record_ends_with_a_line_though_the_program_was_killed_in_its_reads(self) -> None:
        with self.assertRaises(ProgramTimedOut) as raised:
            run_program([CLIENTS / "many", "2", "4000000000"], board=CLIB_TESTS / "wide.board", timeout=0.5)
        self.assertRegex(str(raised.exception), r"The last line of its record: \d+ \w+ 0 0")

    def test_a_program_that_is_not_there(self) -> None:
        with self.assertRaises(FileNotFoundError):
            run_program(["./none"], board=SMALL)


if __name__ == "__main__":
    unittest.main()
