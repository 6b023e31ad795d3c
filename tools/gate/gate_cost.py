"""Runs the gate, and prints as a Markdown table what its steps took of the processors.

While it runs, each process that it started is looked at again and again: a process is a step of a
crate by its command line. What it took in its last moment is not seen. Of proofs that an earlier
run on this machine kept nothing is seen either, so a whole table asks for `rt ci --anew`.
"""

from __future__ import annotations

import argparse
import os
import re
import subprocess
import sys
import time
from collections.abc import Iterable, Iterator
from dataclasses import dataclass, field
from pathlib import Path

from command_line import command_line, run
from gate.repository import TOP, crates

PROCESSES = Path("/proc")
PROOF, TESTS, WRONG = "proof", "tests", "wrong bodies"
STEPS = (PROOF, TESTS, WRONG)
PAUSE = 0.5
"""How long to wait between two looks, in seconds."""

EXAMPLES = """\
examples:
  python3 tools gate_cost                 a plain run
  python3 tools gate_cost rt ci --anew    proves and tries all, also what an earlier run kept
"""


@dataclass(frozen=True)
class Process:
    """A process: the one that started it, its command line, and its seconds of a processor."""

    parent: int
    command: str
    seconds: float


@dataclass
class Costs:
    """The seconds of each process that is a step, and of which step of which crate."""

    seconds: dict[int, float] = field(default_factory=dict)
    steps: dict[int, tuple[str, str]] = field(default_factory=dict)

    def add(self, processes: dict[int, Process], root: int) -> None:
        """Takes in what the processes below one have taken so far."""
        for number, process in processes.items():
            step = step_of(process.command)
            if step and is_below(processes, number, root):
                self.steps[number] = step
                self.seconds[number] = process.seconds

    def minutes(self, crate: str, step: str) -> float:
        """What a step of a crate took, in minutes."""
        of_step = (n for n, found in self.steps.items() if found == (crate, step))
        return sum(self.seconds[number] for number in of_step) / 60


def step_of(command: str) -> tuple[str, str] | None:
    """The crate and the step that a command line of the prover is for."""
    found = re.search(r"rattle (build|check) --crate-name (\w+) ", command)
    if not found:
        return None
    if " --test " in command:
        return found[2], TESTS
    return found[2], PROOF if found[1] == "build" else WRONG


def is_below(processes: dict[int, Process], number: int, root: int) -> bool:
    """Whether a process was started by another one, or by one that it started, and so on."""
    while number in processes and number != root:
        number = processes[number].parent
    return number == root


def process_of(folder: Path) -> Process:
    """A process, by its folder below /proc."""
    command = (folder / "cmdline").read_bytes().replace(b"\0", b" ").decode(errors="replace")
    # The name of the program is in parentheses, and may have any character.
    words = (folder / "stat").read_text().rpartition(")")[2].split()
    ticks = int(words[11]) + int(words[12])
    return Process(int(words[1]), command, ticks / os.sysconf("SC_CLK_TCK"))


def processes_now(folder: Path = PROCESSES) -> dict[int, Process]:
    """All processes by their numbers, but those that end meanwhile."""
    found = {}
    for entry in folder.iterdir():
        if entry.name.isdecimal():
            try:
                found[int(entry.name)] = process_of(entry)
            except (OSError, IndexError):
                continue
    return found


def lines_of(crate: Path, folder: str, suffix: str) -> int:
    """How many lines the files of a kind have in a folder of a crate."""
    files = (crate / folder).rglob(f"*{suffix}")
    return sum(path.read_text(encoding="utf-8").count("\n") for path in files)


@dataclass(frozen=True)
class Row:
    """What the table has of one crate, or of several: minutes by steps, lines by kinds, edits."""

    minutes: list[float]
    lines: list[int]
    kept: int

    def text(self, name: str) -> str:
        """The row under a name."""
        each = 1000 * sum(self.minutes) / max(1, sum(self.lines))
        shown = [f"{value:.1f}" for value in self.minutes]
        cells = [name, *shown, *(f"{count:,}" for count in self.lines), f"{self.kept:,}"]
        return f"| {' | '.join(cells)} | {each:.1f} |"


def row_of(top: Path, name: str, costs: Costs) -> Row:
    """The table's row of a crate."""
    crate = top / "crates" / name
    lines = [
        lines_of(crate, "src", ".rt"),
        lines_of(crate, "specs", ".antt"),
        lines_of(crate, "proofs", ".antt"),
    ]
    kept = len(list((crate / "must-fail").glob("*.edit")))
    return Row([costs.minutes(name, step) for step in STEPS], lines, kept)


def sum_of(rows: Iterable[Row]) -> Row:
    """All rows in one."""
    total = Row([0.0] * len(STEPS), [0, 0, 0], 0)
    for row in rows:
        minutes = [one + other for one, other in zip(total.minutes, row.minutes)]
        lines = [one + other for one, other in zip(total.lines, row.lines)]
        total = Row(minutes, lines, total.kept + row.kept)
    return total


def table_of(top: Path, costs: Costs) -> Iterator[str]:
    """The table of all crates, lowest first, and of all in one; a step not seen is 0.0."""
    yield (
        "| Crate | Proof | Tests | Wrong bodies | Code | Definitions | Proofs "
        "| Wrong bodies kept | Minutes for 1,000 lines |"
    )
    yield "|---|---|---|---|---|---|---|---|---|"
    rows = {name: row_of(top, name, costs) for name in crates(top)}
    for name, row in rows.items():
        yield row.text(f"`{name}`")
    yield sum_of(rows.values()).text("all")


def act(options: argparse.Namespace) -> int:
    """Runs the command, prints the table, and gives the command's status."""
    costs = Costs()
    with subprocess.Popen(options.command or ["rt", "ci"], cwd=TOP, stdout=sys.stderr) as gate:
        while gate.poll() is None:
            costs.add(processes_now(), gate.pid)
            time.sleep(PAUSE)
    print("\n".join(table_of(TOP, costs)))
    return gate.returncode


def main(words: list[str]) -> int:
    """The exit status: that of the command."""
    line = command_line("gate_cost", __doc__, EXAMPLES)
    line.add_argument("command", nargs=argparse.REMAINDER, help="what is run: rt ci")
    return run("gate_cost", line, act, words)
