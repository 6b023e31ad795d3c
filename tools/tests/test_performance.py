"""The measuring script, over commands that are no board's."""

import contextlib
import io
import os
import sys
import tempfile
import unittest
from pathlib import Path
from unittest.mock import Mock, patch

from gate import performance
from gate.performance import (
    BODY_SIZES,
    INSTALLER_SIZES,
    INSTALLERS,
    MIB,
    SCRIPT_SIZES,
    SCRIPTS,
    Case,
    Cost,
)

LONGEST = 16_777_216
"""The most bytes of a script."""


class PerformanceTest(unittest.TestCase):
    """A test with a folder of its own."""

    def setUp(self) -> None:
        folder = tempfile.TemporaryDirectory()
        self.addCleanup(folder.cleanup)
        self.folder = Path(folder.name)

    def case(self, program: str) -> Case:
        """A run of a program in Python."""
        return Case(MIB, self.folder, [sys.executable, "-c", program])


class Inputs(PerformanceTest):
    def test_script_sizes(self) -> None:
        """Each is at most the size, and as near to it as whole pieces come."""
        for name, (begin, piece) in SCRIPTS.items():
            for size in SCRIPT_SIZES:
                with self.subTest(name, size=size):
                    path = self.folder / "script"
                    written = performance.write_repeated(path, begin, piece, size)
                    self.assertEqual(written, path.stat().st_size)
                    self.assertLessEqual(written, min(size, LONGEST))
                    self.assertLess(size - written, len(piece))

    def test_script_bytes(self) -> None:
        path = self.folder / "script"
        performance.write_repeated(path, b"flow * x\n", b"at 5 end\n", 200_000)
        text = path.read_bytes()
        self.assertEqual(text, b"flow * x\n" + b"at 5 end\n" * (len(text) // 9 - 1))

    def test_volumes_and_lines(self) -> None:
        """As many volumes, and as many lines that serve one file, as are asked for."""
        volumes = performance.volumes_case(self.folder, Path("/onie"), 3)
        self.assertEqual(volumes.size, 3)
        self.assertEqual(
            sorted(os.listdir(volumes.folder / "media")), ["net", "v00000", "v00001", "v00002"]
        )
        served = performance.served_case(self.folder, Path("/onie"), 2)
        self.assertEqual(
            (served.folder / "net.txt").read_text(),
            "tftp * 10.0.0.1:69 img img 1\ntftp * 10.0.0.2:69 img img 1\n",
        )
        self.assertEqual(
            (served.folder / "media/net/img").stat().st_size, performance.SERVED_FILE
        )

    def test_boards(self) -> None:
        """Each is a board of its own, with its script and its body."""
        first = performance.script_case(self.folder, Path("/onie"), b"", b"\n", 5)
        second = performance.body_case(self.folder, ["x"], 1000)
        self.assertEqual(first.command, ["/onie", "discover"])
        self.assertEqual((first.folder / "net.txt").read_bytes(), b"\n" * 5)
        self.assertEqual((second.size, second.command), (1000, ["x"]))
        self.assertEqual((second.folder / "media/net/img").stat().st_size, 1000)
        self.assertEqual((second.folder / "net.txt").read_bytes(), performance.BODY_SCRIPT)


class Costs(PerformanceTest):
    def test_memory(self) -> None:
        """A run that has 200 MiB at once is seen to, and one that has none isn't."""
        large = performance.cost_of(self.case(f"bytearray(200 * {MIB})[::4096]"))
        self.assertGreater(large.peak, 200 * MIB)
        self.assertLess(performance.cost_of(self.case("")).peak, 200 * MIB)

    def test_usage(self) -> None:
        """Time is what the run itself took, and the system tells a peak in KiB."""
        usage = Mock(ru_utime=1.5, ru_stime=7.0, ru_maxrss=2048)
        waited = os.wait4
        with patch.object(os, "wait4", lambda *words: (*waited(*words)[:2], usage)):
            cost = performance.cost_of(self.case(""))
        self.assertEqual(cost, Cost(1.5, 2 * MIB))

    def test_folder(self) -> None:
        performance.cost_of(self.case("open('made', 'w')"))
        self.assertTrue((self.folder / "made").exists())

    def test_failed_run(self) -> None:
        with self.assertRaisesRegex(performance.MeasureError, "ended with 3"):
            performance.cost_of(self.case("raise SystemExit(3)"))


class Tables(PerformanceTest):
    def test_rows(self) -> None:
        """The ratio is to the row before."""
        costs = [Cost(0.5, 1000 * MIB), Cost(1.0, 1500 * MIB), Cost(4.0, 1500 * MIB)]
        cases = [Case(size * MIB, self.folder, []) for size in (4, 8, 16)]
        with patch.object(performance, "least_cost", side_effect=costs):
            rows = list(performance.rows("x", cases, 1))
        self.assertEqual(
            rows,
            [
                "| x | 4.00 | 0.500 | - | 1000.0 | - |",
                "| x | 8.00 | 1.000 | 2.00 | 1500.0 | 1.50 |",
                "| x | 16.00 | 4.000 | 4.00 | 1500.0 | 1.00 |",
            ],
        )

    def run_main(self, *words: str) -> tuple[int, str, str]:
        """The exit status of the script, and what it prints."""
        printed, said = io.StringIO(), io.StringIO()
        with contextlib.redirect_stdout(printed), contextlib.redirect_stderr(said):
            status = performance.main(list(words))
        return status, printed.getvalue(), said.getvalue()

    def test_bodies(self) -> None:
        program = "import os; assert os.stat('media/net/img').st_size >= 8 << 20"
        status, text, said = self.run_main("--runs=1", "--bodies", sys.executable, "-c", program)
        self.assertEqual((status, said), (0, ""))
        self.assertEqual(len(text.splitlines()), 2 + len(BODY_SIZES))

    def test_installers(self) -> None:
        """A script with a fault is measured too."""
        probe = self.folder / "probe"
        probe.write_text('#!/bin/sh\n[ -f "$1" ] || exit 3\nexit 1\n')
        probe.chmod(0o755)
        status, text, said = self.run_main("--runs=1", "--probe", str(probe))
        self.assertEqual((status, said), (0, ""))
        self.assertEqual(len(text.splitlines()), 2 + len(INSTALLERS) * len(INSTALLER_SIZES))

    def test_refused_words(self) -> None:
        for words, why in (
            (["--bodies"], "--bodies wants a command"),
            (["--runs=0"], "--runs wants at least 1"),
            (["--runs=x"], "argument --runs: invalid int value: 'x'"),
        ):
            with self.subTest(words):
                self.assertEqual(self.run_main(*words), (2, "", f"performance: {why}\n"))

    def test_program_that_fails(self) -> None:
        command = [sys.executable, "-c", "raise SystemExit(1)"]
        status, _, said = self.run_main("--runs=1", "--bodies", *command)
        self.assertEqual(status, 2)
        self.assertRegex(said, r"performance: [^\n]+ ended with 1\n\Z")


if __name__ == "__main__":
    unittest.main()
