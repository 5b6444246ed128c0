"""The examples of examples/python, run as their heads say."""
import unittest

from needed import TOP, Case, build_clients, needs, run_python, wanted

EXAMPLES = TOP / "examples" / "python"


@needs("comedi")
class Examples(Case):
    def test_the_greatest_interval_is_that_of_the_rule(self) -> None:
        done = run_python(EXAMPLES / "greatest_interval.py")
        self.assertEqual((done.returncode, done.stderr), (0, ""))
        rows = [line.split() for line in done.stdout.splitlines()[1:]]
        self.assertEqual([row[0] for row in rows], ["1", "2", "4", "8"])
        for row in rows:
            self.assertEqual(row[1], row[3])

    def test_a_controller_is_tuned(self) -> None:
        done = run_python(EXAMPLES / "tuned_controller.py")
        self.assertEqual((done.returncode, done.stderr), (0, ""))
        self.assertEqual(done.stdout.splitlines()[-1], "taken: a window of 4")

    @needs("comedi_serve")
    def test_cmd(self) -> None:
        wanted("pytest")
        build_clients()
        done = run_python("-m", "pytest", "-q", "-p", "no:cacheprovider", "-p", "zendrouz.pytest_plugin", EXAMPLES / "test_cmd.py")
        self.assertEqual(done.returncode, 0, done.stdout)
        self.assertRegex(done.stdout, "2 passed|2 skipped")


if __name__ == "__main__":
    unittest.main()
