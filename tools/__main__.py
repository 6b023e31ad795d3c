"""Runs a script of this folder: `python3 tools SCRIPT ..`. Each has --help with examples."""

from __future__ import annotations

import argparse
import importlib
import sys

from command_line import Refusal, command_line, run

SCRIPTS = {
    "make_board": ("boards", "makes a board's folder"),
    "show_board": ("boards", "shows a board's folder as text"),
    "trace_pcap": ("captures", "writes a trace as packets that Wireshark opens"),
    "script_of_pcap": ("captures", "makes lines of a network script from a capture"),
    "map_tables": ("gate", "prints the crates' levels, and who owns which definition"),
    "plant_bugs": ("gate", "plants the bugs that docs/planted-bugs/ lists"),
    "gate_cost": ("gate", "runs the gate, and prints what its steps took"),
    "performance": ("gate", "measures what a program takes for inputs of several sizes"),
}
"""The scripts by their names: the folder that each stands in, and what it is for."""


def listing() -> str:
    """A line for each script."""
    width = max(map(len, SCRIPTS))
    return "\n".join(f"  {name:{width}}  {what}" for name, (_, what) in SCRIPTS.items())


def act(options: argparse.Namespace) -> int:
    """Runs the script that is named."""
    names = ", ".join(SCRIPTS)
    if options.script is None:
        raise Refusal(f"name a script: {names}")
    if options.script not in SCRIPTS:
        raise Refusal(f"there is no script {options.script!r}, but {names}")
    folder, _ = SCRIPTS[options.script]
    status: int = importlib.import_module(f"{folder}.{options.script}").main(options.words)
    return status


def main(words: list[str]) -> int:
    """The exit status of the script, or 2 where none is named."""
    line = command_line("", __doc__, f"scripts:\n{listing()}")
    line.add_argument("script", metavar="SCRIPT", nargs="?", help="the script")
    line.add_argument("words", metavar="..", nargs=argparse.REMAINDER, help="its own words")
    return run("tools", line, act, words)


if __name__ == "__main__":
    sys.exit(main(sys.argv[1:]))
