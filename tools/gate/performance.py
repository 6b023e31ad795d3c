"""Measures what a program takes for inputs of one, two and four sizes, and prints Markdown tables.

The first table is of `onie discover` over scripts of the network, in boards without local media, so
that reading the script is all it does. The second is of `onie discover` over many volumes of local
media without a file, the third over scripts that serve one file in many lines.
"""

from __future__ import annotations

import argparse
import os
import resource
import subprocess
import tempfile
from collections.abc import Callable, Iterator
from dataclasses import dataclass
from pathlib import Path

from boards import make_board
from command_line import Refusal, command_line, run
from gate.repository import TOP

MIB = 2**20
BOARD_FILE = "--file=net/img=x"
"""A board's one file: of the volume of served bodies, which is no local medium."""

SCRIPT_SIZES = (4 * MIB, 8 * MIB, 16 * MIB)
BODY_SIZES = (8 * MIB, 16 * MIB, 32 * MIB)
BODY_SCRIPT = b"tftp * 10.0.0.1:69 img img 1\n"
VOLUMES = (500, 1000, 2000, 4000)
"""How many volumes a board has; each lists ten candidates."""

SERVED_LINES = (1, 4, 16, 64)
"""How many lines serve one file."""

SERVED_FILE = 4 * MIB

SCRIPTS = {
    "comments": (b"", b"# nothing\n"),
    "empty lines": (b"", b"\n"),
    "datagrams to one flow": (b"flow * x\n", b"at 5 udp 1 00\n"),
    "a datagram to each flow": (b"", b"flow * x\nat 5 udp 1 00\n"),
    "one long line": (b"flow * ", b"x"),
    "one word after the other": (b"flow * ", b"x "),
}
"""The scripts that are measured: how each begins, and what comes again and again behind it."""

INSTALLER_SIZES = (MIB // 16, MIB // 4, MIB)

INSTALLERS = {"lines `:`": b":\n", "`(`": b"(", "one word": b"a"}
"""The installers' scripts that are measured: what comes in each again and again."""

EXAMPLES = """\
A run's time is the least user time of the runs; its peak is the most memory that it had at once, of
the greatest run. A ratio is to the row before: of an input twice as large, 2 is linear.

examples:
  python3 tools performance
  python3 tools performance --runs 5 --onie /tmp/onie
  python3 tools performance --probe crates/sh_probe/out/sh_probe
  python3 tools performance --bodies "$PWD/crates/fetch_probe/out/fetch_probe" tftp://10.0.0.1/img
"""


class MeasureError(Refusal):
    """Why there is no measurement, in one line."""


@dataclass(frozen=True)
class Cost:
    """What a run took: its user time in seconds, and its peak of memory in bytes."""

    seconds: float
    peak: int


@dataclass(frozen=True)
class Case:
    """A command that is measured in a folder, the size of its input, and how it may end.

    The size is one of bytes or of pieces.
    """

    size: int
    folder: Path
    command: list[str]
    statuses: tuple[int, ...] = (0,)


def cost_of(case: Case) -> Cost:
    """What one run took, which must end as its case says. What it prints is dropped."""
    with subprocess.Popen(
        case.command,
        cwd=case.folder,
        stdin=subprocess.DEVNULL,
        stdout=subprocess.DEVNULL,
    ) as run:
        _, status, usage = os.wait4(run.pid, 0)
        run.returncode = os.waitstatus_to_exitcode(status)
    if run.returncode not in case.statuses:
        raise MeasureError(f"{' '.join(case.command)!r} ended with {run.returncode}")
    return Cost(usage.ru_utime, usage.ru_maxrss * 1024)


def least_cost(case: Case, runs: int) -> Cost:
    """The least time and the greatest peak of several runs."""
    costs = [cost_of(case) for _ in range(runs)]
    return Cost(min(cost.seconds for cost in costs), max(cost.peak for cost in costs))


def own_peak() -> int:
    """The peak of this process, from which a run starts: a smaller one of a run can't be seen."""
    return resource.getrusage(resource.RUSAGE_SELF).ru_maxrss * 1024


def ratio(value: float, before: float) -> str:
    """How many times as large a value is as the one before."""
    return f"{value / before:.2f}" if before else "-"


def in_mib(size: int) -> str:
    """A size in MiB."""
    return f"{size / MIB:.2f}"


def rows(
    name: str, cases: list[Case], runs: int, shown: Callable[[int], str] = in_mib
) -> Iterator[str]:
    """The table's rows of any command, by the sizes of its input."""
    before: Cost | None = None
    for case in cases:
        cost = least_cost(case, runs)
        bound = "at most " if cost.peak <= own_peak() else ""
        times = "-" if before is None else ratio(cost.seconds, before.seconds)
        peaks = "-" if before is None else ratio(cost.peak, before.peak)
        yield (
            f"| {name} | {shown(case.size)} | {cost.seconds:.3f} | {times} "
            f"| {bound}{cost.peak / MIB:.1f} | {peaks} |"
        )
        before = cost


def heading(what: str, unit: str = "MiB") -> Iterator[str]:
    """The first two lines of a table."""
    yield f"| {what} | {unit} | Seconds | Ratio | Peak, MiB | Ratio |"
    yield "|---|---|---|---|---|---|"


def write_repeated(path: Path, begin: bytes, piece: bytes, size: int) -> int:
    """Writes a file of at most a size, a piece again and again behind its begin; gives its size.

    It is written in parts, since the memory of this process counts for each run that it starts.
    """
    times = (size - len(begin)) // len(piece)
    many = max(1, 65536 // len(piece))
    with path.open("wb") as file:
        file.write(begin)
        for _ in range(times // many):
            file.write(piece * many)
        file.write(piece * (times % many))
    return path.stat().st_size


def new_board(folder: Path, *options: str) -> Path:
    """A new board without a disk and a flash in a folder of folders."""
    board = folder / str(len(os.listdir(folder)))
    if make_board.main([str(board), "--no-disk", "--no-flash", *options]) != 0:
        raise MeasureError("the board can't be made")
    return board


def script_case(folder: Path, onie: Path, begin: bytes, piece: bytes, size: int) -> Case:
    """`discover` over a script of nearly a size."""
    board = new_board(folder, BOARD_FILE)
    written = write_repeated(board / "net.txt", begin, piece, size)
    return Case(written, board, [str(onie), "discover"])


def body_case(folder: Path, command: list[str], size: int) -> Case:
    """A command over a script that serves a body of a size, a block each millisecond."""
    board = new_board(folder, f"--file=net/img=@{size}")
    (board / "net.txt").write_bytes(BODY_SCRIPT)
    return Case(size, board, command)


def volumes_case(folder: Path, onie: Path, many: int) -> Case:
    """`discover` over so many volumes without a file."""
    board = new_board(folder, BOARD_FILE)
    for number in range(many):
        (board / f"media/v{number:05}").mkdir()
    return Case(many, board, [str(onie), "discover"])


def served_case(folder: Path, onie: Path, many: int) -> Case:
    """`discover` over so many lines that serve one file, each from a server of its own."""
    board = new_board(folder, f"--file=net/img=@{SERVED_FILE}")
    lines = (f"tftp * 10.0.0.{number}:69 img img 1\n" for number in range(1, many + 1))
    (board / "net.txt").write_text("".join(lines))
    return Case(many, board, [str(onie), "discover"])


def volumes_table(folder: Path, onie: Path, runs: int) -> Iterator[str]:
    """The table of `discover` over local media."""
    yield from heading("Media", "Volumes")
    cases = [volumes_case(folder, onie, many) for many in VOLUMES]
    yield from rows("volumes without a file", cases, runs, str)


def served_table(folder: Path, onie: Path, runs: int) -> Iterator[str]:
    """The table of `discover` over scripts that serve one file."""
    yield from heading("Script", "Lines")
    cases = [served_case(folder, onie, many) for many in SERVED_LINES]
    yield from rows("lines that serve a file of 4 MiB", cases, runs, str)


def script_table(folder: Path, onie: Path, runs: int) -> Iterator[str]:
    """The table of `discover` over scripts."""
    yield from heading("Script")
    for name, (begin, piece) in SCRIPTS.items():
        cases = [script_case(folder, onie, begin, piece, size) for size in SCRIPT_SIZES]
        yield from rows(name, cases, runs)


def body_table(folder: Path, command: list[str], runs: int) -> Iterator[str]:
    """The table of a command that fetches a body over TFTP."""
    yield from heading("Body")
    cases = [body_case(folder, command, size) for size in BODY_SIZES]
    yield from rows("one body", cases, runs)


def installer_case(folder: Path, probe: Path, piece: bytes, size: int) -> Case:
    """`sh_probe` over a script of a size, which may have a fault."""
    path = folder / str(len(os.listdir(folder)))
    return Case(write_repeated(path, b"", piece, size), folder, [str(probe), str(path)], (0, 1))


def installer_table(folder: Path, probe: Path, runs: int) -> Iterator[str]:
    """The table of `sh_probe` over installers' scripts."""
    yield from heading("Script")
    for name, piece in INSTALLERS.items():
        cases = [installer_case(folder, probe, piece, size) for size in INSTALLER_SIZES]
        yield from rows(name, cases, runs)


def in_new_folder(table: Callable[[Path], Iterator[str]]) -> None:
    """Prints a table, row by row, whose boards are made in a folder that is then taken away."""
    with tempfile.TemporaryDirectory() as folder:
        for line in table(Path(folder)):
            print(line, flush=True)


def act(options: argparse.Namespace) -> int:
    """Prints a table."""
    if options.bodies == []:
        raise Refusal("--bodies wants a command")
    if options.runs < 1:
        raise Refusal("--runs wants at least 1")
    if options.bodies:
        in_new_folder(lambda folder: body_table(folder, options.bodies, options.runs))
    elif options.probe:
        probe = options.probe.absolute()
        in_new_folder(lambda folder: installer_table(folder, probe, options.runs))
    else:
        onie = options.onie.absolute()
        for table in (script_table, volumes_table, served_table):
            in_new_folder(lambda folder, table=table: table(folder, onie, options.runs))
            print(flush=True)
    return 0


def main(words: list[str]) -> int:
    """Prints a table; gives 0, or 2 with one line on standard error where a run fails."""
    line = command_line("performance", __doc__, EXAMPLES)
    built = Path(os.environ.get("ONIE") or TOP / "crates/onie/out/onie")
    line.add_argument("--onie", metavar="FILE", type=Path, default=built, help="the program")
    line.add_argument("--runs", metavar="N", type=int, default=3, help="runs of each, by default 3")
    line.add_argument(
        "--probe", metavar="FILE", type=Path, help="the table of this sh_probe over scripts instead"
    )
    line.add_argument(
        "--bodies",
        metavar="WORD",
        nargs=argparse.REMAINDER,
        help="the table of this command instead, which is all the words that follow, run in "
        "boards whose script serves a body to flows of `tftp 10.0.0.1:69 img`",
    )
    return run("performance", line, act, words)
