"""What is shown of a disk: its map, the copies of its table, its entries and what is free."""

from __future__ import annotations

from pathlib import Path
from typing import BinaryIO

from boards import disk_map, status
from boards.terminal import Lines, Paint, counted, size_text
from formats import gpt
from formats.gpt import Entry, Table, Which
from formats.onie_image import image_length

KINDS = {gpt.ONIE_BOOT: "ONIE boot", gpt.LINUX_DATA: "Linux data"}
LEGEND = "# readable copy of the table, ! broken copy, A to z entries, . free"


def sector_span(first: int, last: int) -> str:
    """The sectors from one to another."""
    return f"sector {first}" if first == last else f"sectors {first} to {last}"


def entry_notes(number: int, table: Table) -> Lines:
    """What is wrong with an entry of a table."""
    entry = table.entries[number]
    notes: Lines = []
    if entry.first > entry.last:
        notes.append("it ends before it begins")
    elif not status.in_limits(entry, table):
        limits = sector_span(table.first_usable, table.last_usable)
        notes.append(f"it isn't within the usable {limits}")
    for other, beside in table.entries.items():
        if other == number:
            continue
        if max(entry.first, beside.first) <= min(entry.last, beside.last):
            notes.append(f"it shares sectors with entry {other}")
        if entry.guid == beside.guid:
            notes.append(f"it has the GUID of entry {other}")
    return notes


def image_text(disk: BinaryIO, entry: Entry) -> str:
    """What an entry of ONIE's type holds."""
    length = None
    if entry.first < gpt.sectors_of(disk):
        disk.seek(entry.first * gpt.SECTOR_SIZE)
        length = image_length(disk.read(gpt.SECTOR_SIZE), entry.last - entry.first + 1)
    return "no image of ONIE" if length is None else f"ONIE's image of {size_text(length)}"


def entry_lines(disk: BinaryIO, table: Table, number: int, mark: str) -> Lines:
    """What is shown of an entry."""
    entry = table.entries[number]
    size = size_text(max(0, entry.last - entry.first + 1) * gpt.SECTOR_SIZE)
    name = status.printed_name(entry.name)
    kind = KINDS.get(entry.kind, f"type {entry.kind}")
    lines = [
        f"  {mark} entry {number}: {size}, {sector_span(entry.first, entry.last)}, '{name}'",
        f"      {kind}, GUID {entry.guid}",
    ]
    if entry.kind == gpt.ONIE_BOOT:
        lines.append(f"      {image_text(disk, entry)}")
    if entry.attributes:
        lines.append(f"      attributes {entry.attributes:#x}")
    return lines


def copy_lines(tables: dict[Which, Table | None], sectors: int, paint: Paint) -> Lines:
    """Which copies of the table are readable, which counts, and whether they differ."""
    lines: Lines = []
    for which, table in tables.items():
        start = gpt.copy_start(which, sectors - 1)
        word = "readable" if table else paint.warning("not readable")
        span = sector_span(start, start + gpt.COPY_SECTORS - 1)
        lines.append(f"  {which.value} copy, {span}: {word}")
    primary, backup = tables[Which.PRIMARY], tables[Which.BACKUP]
    if primary and backup and primary != backup:
        what = ", ".join(differences(primary, backup))
        lines.append("  " + paint.warning(f"the copies differ in {what}; the primary counts"))
    elif primary and backup:
        lines.append("  both copies are the same table")
    elif primary or backup:
        lines.append(f"  the {'primary' if primary else 'backup'} counts")
    else:
        lines.append("  " + paint.warning("there is no table"))
    return lines


def differences(one: Table, other: Table) -> Lines:
    """In what two tables differ."""
    what = ["the disk's GUID"] if one.disk != other.disk else []
    if (one.first_usable, one.last_usable) != (other.first_usable, other.last_usable):
        what.append("the usable sectors")
    numbers = sorted(one.entries.keys() | other.entries.keys())
    changed = [n for n in numbers if one.entries.get(n) != other.entries.get(n)]
    return what + [f"entry {number}" for number in changed]


def table_lines(disk: BinaryIO, table: Table, paint: Paint) -> Lines:
    """The entries in the order of their places, what is wrong with them, and what is free."""
    lines: Lines = []
    letters = disk_map.marks(table)
    for number, _ in disk_map.by_place(table):
        mark = disk_map.painted(letters[number], paint)
        lines += entry_lines(disk, table, number, mark)
        lines += ["      " + paint.warning(note) for note in entry_notes(number, table)]
    runs = disk_map.free_runs(table)
    free = sum(last + 1 - first for first, last in runs)
    usable = table.last_usable + 1 - table.first_usable
    amounts = [size_text(number * gpt.SECTOR_SIZE) for number in (free, usable)]
    lines.append(f"  . free: {amounts[0]} of {amounts[1]}, in {counted(len(runs), 'run')}")
    return lines


def disk_lines(path: Path, paint: Paint) -> Lines:
    """The disk: its map, the copies of its table, and the entries."""
    with path.open("rb") as disk:
        sectors = gpt.sectors_of(disk)
        lines = [f"  {size_text(sectors * gpt.SECTOR_SIZE)}, {counted(sectors, 'sector')}"]
        if sectors < gpt.LEAST_SECTORS:
            return [*lines, "  " + paint.warning("there is no table: too few sectors for one")]
        tables = gpt.tables_of(disk)
        readable = (tables[Which.PRIMARY] is not None, tables[Which.BACKUP] is not None)
        table = tables[Which.PRIMARY] or tables[Which.BACKUP]
        lines += ["  " + disk_map.painted(disk_map.bar(table, sectors, readable), paint)]
        lines += [f"  {LEGEND}"] + copy_lines(tables, sectors, paint)
        if table is not None:
            lines += [f"  disk GUID {table.disk}"] + table_lines(disk, table, paint)
    return lines
