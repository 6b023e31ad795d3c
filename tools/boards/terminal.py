"""Texts for a terminal: sizes in units, names in plain ASCII, and colours where they are wanted."""

from __future__ import annotations

from dataclasses import dataclass

Lines = list[str]
"""Lines of text without their ends."""

UNITS = ["KiB", "MiB", "GiB", "TiB", "PiB", "EiB"]
BACKGROUNDS = [46, 42, 43, 45, 44, 47]
"""The colours of marks, one after the other: cyan, green, yellow, magenta, blue, white."""


def counted(number: int, what: str) -> str:
    """A number of things, as `1 byte` and `2 bytes`."""
    return f"{number} {what}" if number == 1 else f"{number} {what}s"


def size_text(size: int) -> str:
    """A number of bytes, from 1,024 on in a unit of which there is at least one."""
    if size < 1024:
        return counted(size, "byte")
    value = float(size)
    for unit in UNITS:
        value /= 1024
        if value < 1024 or unit == UNITS[-1]:
            break
    return f"{value:.1f} {unit}"


def plain(text: str) -> str:
    """A text with all but the characters from space to ~ written as `\\n` or `\\xe9`."""
    return "".join(
        mark if " " <= mark <= "~" else mark.encode("unicode_escape").decode()
        for mark in text
    )


@dataclass(frozen=True)
class Paint:
    """Writes in colours, or leaves texts as they are."""

    on: bool

    def heading(self, text: str) -> str:
        """A heading, bold."""
        return f"\x1b[1m{text}\x1b[0m" if self.on else text

    def warning(self, text: str) -> str:
        """What is wrong with a board, red."""
        return f"\x1b[31m{text}\x1b[0m" if self.on else text

    def area(self, text: str, place: int) -> str:
        """A part of a map: black on the colour of the thing at this place of a list."""
        colour = BACKGROUNDS[place % len(BACKGROUNDS)]
        return f"\x1b[30;{colour}m{text}\x1b[0m" if self.on else text
