"""A test of comedilib's demo program `cmd`, which samples channels and prints their codes.

    PYTHONPATH=python python3 -m pytest -p zendrouz.pytest_plugin examples/python/test_cmd.py
"""
import subprocess
from pathlib import Path

import pytest

from zendrouz import Board, Done, Overrun, Signals, const, saw
from zendrouz.pytest_plugin import Bench

BOARD = Board.named("ni_pci_6221")
# Channel 0 rises from -5 V to 5 V in a second, channel 1 has -1 V, and channel 2 has 2.5 V.
SIGNALS = Signals(10_000_000_000, {(0, 0): saw(-5_000_000, 5_000_000, 1_000_000_000), (0, 1): const(-1_000_000), (0, 2): const(2_500_000)})
DEMO = Path("/usr/share/doc/libcomedi-dev/demo")


@pytest.fixture(scope="module")
def cmd(tmp_path_factory: pytest.TempPathFactory) -> Path:
    """The program, built from Debian's sources."""
    if not (DEMO / "cmd.c").exists():
        pytest.skip("Debian's libcomedi-dev isn't there")
    program = tmp_path_factory.mktemp("built") / "cmd"
    sources = [str(DEMO / "cmd.c"), str(DEMO / "common.c")]
    subprocess.run(["gcc", "-w", "-I", str(DEMO), *sources, "-o", str(program), "-lcomedi", "-lm"], check=True)
    return program


def test_six_scans(bench: Bench, cmd: Path) -> None:
    run = bench.run_program([cmd, "-n", "3", "-N", "6", "-F", "100"], board=BOARD, signals=SIGNALS)
    assert run.status == 0
    assert [end.end for end in run.ends] == [Done()]
    scans = [list(map(int, line.split())) for line in run.output.splitlines()]
    # Codes of 16 bits from -10 V to 10 V, and a scan each 10 ms.
    assert scans == [[int((5 + 0.1 * number) / 20 * 65535), 29490, 40959] for number in range(6)]


@pytest.mark.call_ns(1_000_000_000)
def test_a_slow_machine(bench: Bench, cmd: Path) -> None:
    """Where each call takes a second, the buffer of 65536 samples is too small for 100,000 samples a second."""
    run = bench.run_program([cmd, "-n", "1", "-N", "1000000", "-F", "100000"], board=BOARD, signals=SIGNALS)
    assert [end.end for end in run.lost] == [Overrun(65536)]
    assert "Broken pipe" in run.error
