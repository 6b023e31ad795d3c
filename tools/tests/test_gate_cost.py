"""The script that tells what the gate costs, over processes and crates that are made up."""

import contextlib
import io
import os
import sys
import tempfile
import unittest
from pathlib import Path
from unittest.mock import patch

from gate import gate_cost
from gate.gate_cost import Costs, Process

BUILD = "bin/rattle build --crate-name board src/lib.rt"
"""The command line of the proof of a crate."""


class Steps(unittest.TestCase):
    def test_step_of(self) -> None:
        for command, step in (
            (f"{BUILD} --jobs 1 ", ("board", "proof")),
            (f"{BUILD} --test --jobs 1 ", ("board", "tests")),
            (BUILD.replace("build", "check"), ("board", "wrong bodies")),
            ("rattle run --crate-name board ", None),
            ("grep --crate-name board ", None),
            ("", None),
        ):
            with self.subTest(command):
                self.assertEqual(gate_cost.step_of(command), step)

    def test_is_below(self) -> None:
        processes = {n: Process(n - 1, "", 0) for n in (2, 3, 4)}
        for number, root, below in ((4, 2, True), (2, 2, True), (3, 4, False), (4, 1, True)):
            with self.subTest(number=number, root=root):
                self.assertEqual(gate_cost.is_below(processes, number, root), below)

    def test_costs(self) -> None:
        """The last look at a process counts; those of others, and those that are no step, don't."""
        costs = Costs()
        started = {
            5: Process(1, "rt ci", 90),
            6: Process(5, BUILD, 10),
            7: Process(1, BUILD, 500),
        }
        costs.add(started, 5)
        costs.add(started | {6: Process(5, BUILD, 30), 8: Process(6, BUILD, 60)}, 5)
        costs.add({}, 5)
        self.assertEqual(costs.minutes("board", "proof"), 1.5)
        self.assertEqual(costs.minutes("board", "tests"), 0)
        self.assertEqual(costs.minutes("cuts", "proof"), 0)


class Processes(unittest.TestCase):
    def setUp(self) -> None:
        folder = tempfile.TemporaryDirectory()
        self.addCleanup(folder.cleanup)
        self.folder = Path(folder.name)

    def put(self, name: str, command: bytes, stat: str) -> None:
        """Makes a process's folder."""
        (self.folder / name).mkdir()
        (self.folder / name / "cmdline").write_bytes(command)
        (self.folder / name / "stat").write_text(stat)

    def test_processes(self) -> None:
        """A program's name may hold spaces and parentheses; one that ended is left out."""
        ticks = os.sysconf("SC_CLK_TCK")
        self.put("12", b"rt\0ci\0", f"12 (a) b) S 3 1 1 0 -1 0 0 0 0 0 {ticks} {2 * ticks} 0 0")
        self.put("13", b"", "")
        (self.folder / "14").mkdir()
        self.put("self", b"rt\0", "1 (rt) S 3")
        self.assertEqual(gate_cost.processes_now(self.folder), {12: Process(3, "rt ci ", 3.0)})

    def test_own_process(self) -> None:
        own = gate_cost.processes_now()[os.getpid()]
        self.assertEqual(own.parent, os.getppid())
        self.assertIn("python", own.command)


class Tables(unittest.TestCase):
    def setUp(self) -> None:
        folder = tempfile.TemporaryDirectory()
        self.addCleanup(folder.cleanup)
        self.top = Path(folder.name)
        for path, text in (
            ("crates.txt", "# NAME: DEP\nlow:\nboard: low\n"),
            ("crates/low/src/lib.rt", "a\n" * 250),
            ("crates/board/src/a/b.rt", "a\n" * 1000),
            ("crates/board/specs/A.antt", "a\n" * 300),
            ("crates/board/proofs/a/B.antt", "a\n" * 700),
            ("crates/board/must-fail/one.edit", ""),
            ("crates/board/must-fail/two.edit", ""),
        ):
            (self.top / path).parent.mkdir(parents=True, exist_ok=True)
            (self.top / path).write_text(text)

    def test_table(self) -> None:
        costs = Costs()
        costs.add({6: Process(5, BUILD, 120), 7: Process(5, f"{BUILD} --test ", 180)}, 5)
        self.assertEqual(
            list(gate_cost.table_of(self.top, costs))[2:],
            [
                "| `low` | 0.0 | 0.0 | 0.0 | 250 | 0 | 0 | 0 | 0.0 |",
                "| `board` | 2.0 | 3.0 | 0.0 | 1,000 | 300 | 700 | 2 | 2.5 |",
                "| all | 2.0 | 3.0 | 0.0 | 1,250 | 300 | 700 | 2 | 2.2 |",
            ],
        )

    def test_main(self) -> None:
        """The status is the command's."""
        out = io.StringIO()
        with (
            patch.object(gate_cost, "TOP", self.top),
            patch.object(gate_cost, "PAUSE", 0.01),
            contextlib.redirect_stdout(out),
        ):
            status = gate_cost.main([sys.executable, "-c", "raise SystemExit(3)"])
        self.assertEqual(status, 3)
        self.assertTrue(out.getvalue().startswith("| Crate |"))


if __name__ == "__main__":
    unittest.main()
