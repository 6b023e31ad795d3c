"""The scripts of tools/, run by their names."""

import subprocess
import sys
import unittest

from gate.repository import TOP

SCRIPTS = [
    "make_board",
    "show_board",
    "trace_pcap",
    "script_of_pcap",
    "map_tables",
    "plant_bugs",
    "gate_cost",
    "performance",
]


def tools(*words: str) -> tuple[int, str, str]:
    """The status of `python3 tools ..`, and what it prints."""
    command = [sys.executable, "tools", *words]
    done = subprocess.run(command, cwd=TOP, capture_output=True, text=True, timeout=20, check=False)
    return done.returncode, done.stdout, done.stderr


class CommandLine(unittest.TestCase):
    def test_help(self) -> None:
        """The scripts are listed, and each says how it is used."""
        status, text, _ = tools("--help")
        self.assertEqual(status, 0)
        for script in SCRIPTS:
            with self.subTest(script):
                self.assertIn(f"\n  {script} ", text)
                status, own, said = tools(script, "--help")
                self.assertEqual((status, said), (0, ""))
                self.assertTrue(own.startswith(f"usage: python3 tools {script} "), own)
                self.assertIn(f"\nexamples:\n  python3 tools {script}", own)

    def test_refusals(self) -> None:
        """Each is one line, by the script that refuses."""
        for words, said in (
            ([], f"tools: name a script: {', '.join(SCRIPTS)}\n"),
            (["make"], f"tools: there is no script 'make', but {', '.join(SCRIPTS)}\n"),
            (["make_board"], "make_board: the following arguments are required: FOLDER\n"),
            (["show_board", "a", "b"], "show_board: unrecognized arguments: b\n"),
            (["plant_bugs", "try"], "plant_bugs: the following arguments are required: crate\n"),
            (["map_tables", "x"], "map_tables: argument table: invalid choice: 'x' "),
            (["plant_bugs", "table", "x"], "plant_bugs: x.txt: [Errno 2] No such file"),
        ):
            with self.subTest(words):
                status, text, error = tools(*words)
                self.assertEqual((status, text), (2, ""))
                self.assertEqual(error[: len(said)], said)
                self.assertEqual(error.count("\n"), 1)


if __name__ == "__main__":
    unittest.main()
