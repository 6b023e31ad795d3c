"""The map of a disk: a bar of text with the partitions to scale, and what is free."""

from __future__ import annotations

import string
from itertools import groupby

from boards.terminal import Paint
from formats.gpt import COPY_SECTORS, FIRST_USABLE, Entry, Table

WIDTH = 72
"""How many columns the bar has: one for each copy of the table, and the sectors between."""

LETTERS = string.ascii_uppercase + string.ascii_lowercase
FURTHER = "+"
FREE = "."
UNKNOWN = "?"
READABLE = "#"
BROKEN = "!"


def by_place(table: Table) -> list[tuple[int, Entry]]:
    """The entries with their numbers, in the order in which they stand on the disk."""
    return sorted(table.entries.items(), key=lambda item: (item[1].first, item[0]))


def marks(table: Table) -> dict[int, str]:
    """The mark of each entry by its number: letters in the order of places, and `+` after them."""
    letters = LETTERS + FURTHER * len(table.entries)
    return {number: mark for (number, _), mark in zip(by_place(table), letters)}


def cells(table: Table, sectors: int) -> str:
    """The sectors between the copies: each entry has a column at least, small ones before large.

    Of an entry that lies partly elsewhere, the part between the copies is drawn.
    """
    width, between = WIDTH - 2, sectors - FIRST_USABLE - COPY_SECTORS
    row = [FREE] * width
    letters = marks(table)
    for number, entry in sorted(by_place(table), key=lambda item: item[1].first - item[1].last):
        first = max(entry.first - FIRST_USABLE, 0)
        last = min(entry.last - FIRST_USABLE, between - 1)
        if first <= last:
            start = first * width // between
            end = max((last + 1) * width // between, start + 1)
            row[start:end] = letters[number] * (end - start)
    return "".join(row)


def bar(table: Table | None, sectors: int, readable: tuple[bool, bool]) -> str:
    """The bar: the primary copy, the sectors between in order, and the backup copy."""
    front, end = (READABLE if copy else BROKEN for copy in readable)
    between = UNKNOWN * (WIDTH - 2) if table is None else cells(table, sectors)
    return front + between + end


def painted(text: str, paint: Paint) -> str:
    """A bar with each letter in its colour."""
    parts = ((mark, "".join(group)) for mark, group in groupby(text))
    return "".join(
        paint.area(part, LETTERS.index(mark)) if mark in LETTERS else part for mark, part in parts
    )


def free_runs(table: Table) -> list[tuple[int, int]]:
    """The first and the last sector of each run of usable sectors that no entry holds."""
    runs: list[tuple[int, int]] = []
    at = table.first_usable
    for _, entry in by_place(table):
        if entry.first > entry.last:
            continue
        if at < min(entry.first, table.last_usable + 1):
            runs.append((at, min(entry.first - 1, table.last_usable)))
        at = max(at, entry.last + 1)
    if at <= table.last_usable:
        runs.append((at, table.last_usable))
    return runs
