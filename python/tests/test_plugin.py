"""The fixture `bench`: a test that fails has its records in the report, and they replay."""
import re
import tempfile
import unittest
import xml.etree.ElementTree as ElementTree
from pathlib import Path

from needed import CLIENTS, SMALL, Case, build_clients, needs, run_python, wanted
from zendrouz import Overrun, replay

TESTS = '''
import pytest
from zendrouz import Board
SMALL, LATE = {small!r}, {late!r}
COMMAND = "0 0 now:0 timer:1000000 now:0 count:1 count:20 0/0/ground"

@pytest.mark.call_ns(2000)
def test_program(bench):
    assert not bench.run_program([LATE], board=SMALL).lost

def test_time(bench):
    bench.run_program(["sh", "-c", "while :; do :; done"], board=SMALL, timeout=0.2)

def test_session(bench):
    with bench.session(Board.read(SMALL), "signals 5000000\\nwave 0 0 const 9\\n") as session:
        session.open()
        session.command(COMMAND)
        session.advance(2_000_000)
        assert [sample.level for sample in session.read(8)] == [9, 9, 8]

def test_job(bench):
    with bench.session(SMALL) as session:
        session.open()
        for _ in range(300):
            session.unlock(0)
    assert bench.replay(session.record).text == ""

@pytest.fixture
def logged(bench):
    assert not bench.run_program([LATE], board=SMALL).lost

def test_fixture(logged):
    pass

def test_passes(bench):
    assert bench.run_program(["true"], board=SMALL).status == 0
'''


@needs("comedi")
@needs("comedi_serve")
class Reports(Case):
    folder: "tempfile.TemporaryDirectory[str]"
    output: str

    @classmethod
    def setUpClass(cls) -> None:
        wanted("pytest")
        build_clients()
        cls.folder = tempfile.TemporaryDirectory()
        cls.addClassCleanup(cls.folder.cleanup)
        tests = Path(cls.folder.name, "test_boards.py")
        tests.write_text(TESTS.format(small=str(SMALL), late=str(CLIENTS / "late")))
        cls.output = run_python("-m", "pytest", "-p", "zendrouz.pytest_plugin", "-p", "no:cacheprovider", "--strict-markers",
                                "--basetemp", Path(cls.folder.name, "base"), "--junitxml", Path(cls.folder.name, "report.xml"), tests,
                                cwd=cls.folder.name).stdout

    def shown(self, test: str, title: str) -> str:
        """A record that the report of a test shows."""
        report = re.search(r"^_+ %s _+$(.*?)(?=^_+ [A-Za-z].* _+$|^=+ |\Z)" % test, self.output, re.M | re.S)
        assert report, self.output
        section = re.search(r"^-+ record \d: %s -+\n(.*?)(?=^-+ |^=+ |\Z)" % re.escape(title), report.group(1), re.M | re.S)
        assert section, report.group(1)
        return section.group(1)

    def test_which_tests_fail(self) -> None:
        self.assertIn("4 failed, 1 passed, 1 error", self.output)
        self.assertNotIn("record 1: true", self.output)

    def test_the_record_of_a_program_replays(self) -> None:
        job = self.shown("test_program", "late")
        self.assertEqual([end for _, end in replay(job).ends], [Overrun(14)])
        self.assertIn("\n2000 insn 0 0 gtod\n", job)

    def test_the_record_of_a_fixture_that_fails(self) -> None:
        self.assertIn("\n1000 insn 0 0 gtod\n", self.shown("ERROR at setup of test_fixture", "late"))

    def test_the_record_of_a_program_that_took_too_long(self) -> None:
        self.assertEqual(replay(self.shown("test_time", "sh -c while :; do :; done")).text, "")
        self.assertIn("killed after 0.2 s", self.output)

    def test_the_record_of_a_session_replays(self) -> None:
        job = self.shown("test_session", "session")
        self.assertEqual(list(replay(job).samples(0).levels), [9, 9, 9])

    def test_a_long_record_is_shown_in_part_and_is_whole_in_its_file(self) -> None:
        shown = self.shown("test_job", "replay")
        self.assertIn("lines more stand in the file", shown)
        path = re.match(r"# comedi replay < (.*)\n", shown)
        assert path
        job = Path(path.group(1)).read_text()
        self.assertEqual(job.count(" unlock "), 300)
        self.assertEqual(replay(job).text, "ok\n" * 301)

    def test_a_server_gets_the_records_too(self) -> None:
        report = ElementTree.parse(Path(self.folder.name, "report.xml"))
        found = {case.get("name"): [item.get("value") or "" for item in case.iter("property")] for case in report.iter("testcase")}
        self.assertEqual(len(found["test_session"]), 1)
        self.assertEqual(list(replay(found["test_session"][0]).samples(0).levels), [9, 9, 9])
        self.assertEqual(found["test_passes"], [])


if __name__ == "__main__":
    unittest.main()
