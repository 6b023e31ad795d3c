"""The command line that all scripts share: how it looks, and how it refuses."""

from __future__ import annotations

import argparse
import sys
from collections.abc import Callable
from typing import NoReturn


class Refusal(Exception):
    """Why a script doesn't do what it was asked for, in one line."""


class CommandLine(argparse.ArgumentParser):
    """An argument parser that refuses in one line."""

    def error(self, message: str) -> NoReturn:
        """Hands the refusal on to `run`."""
        raise Refusal(" ".join(message.split()))


def command_line(script: str, description: str | None, examples: str) -> CommandLine:
    """The command line of a script, whose options and words are still to be added."""
    return CommandLine(
        prog=f"python3 tools {script}".rstrip(),
        description=description,
        epilog=examples,
        formatter_class=argparse.RawDescriptionHelpFormatter,
        allow_abbrev=False,
    )


def run(
    script: str,
    line: CommandLine,
    act: Callable[[argparse.Namespace], int],
    words: list[str],
) -> int:
    """Does what the words ask for, and gives its status.

    It is 2, with one line on standard error that says why, where that is refused or a file fails.
    """
    try:
        return act(line.parse_args(words))
    except (Refusal, OSError) as error:
        print(f"{script}: {error}", file=sys.stderr)
        return 2
