"""What `onie status` says of a board, told from the formats apart from the program.

A disk is sound where it has a table whose entries fit together, exactly one entry of ONIE's type,
and ONIE's image there. What boots then follows from the variables on the flash.
"""

from __future__ import annotations

import struct
import uuid
from collections.abc import Iterable
from dataclasses import dataclass
from enum import Enum
from typing import BinaryIO

from formats import flash
from formats.decoding import DecodeError
from formats.flash import Mode, Variables
from formats.gpt import ONIE_BOOT, SECTOR_SIZE, Entry, Table, Which, counting_table
from formats.onie_image import image_length


class Lack(Enum):
    """What a board lacks, in the words of the program's console and in the order of its tests."""

    TABLE = "no table"
    ENTRIES = "entries"
    ONIE = "no onie"
    ONE_ONIE = "two onie"
    IMAGE = "no image"
    VARIABLES = "no variables"


class NotSound(Exception):
    """The first thing that a board lacks."""

    def __init__(self, lack: Lack) -> None:
        super().__init__(lack.value)
        self.lack = lack


@dataclass(frozen=True)
class Sound:
    """A sound disk: its table, the copy that counts, and ONIE's entry."""

    table: Table
    which: Which
    onie: Entry


def in_limits(entry: Entry, table: Table) -> bool:
    """Whether an entry has a sector, and all of them among the usable ones."""
    return table.first_usable <= entry.first <= entry.last <= table.last_usable


def fit_together(table: Table) -> bool:
    """Whether the used entries lie in the usable sectors, share none and differ in their GUIDs."""
    entries = sorted(table.entries.values(), key=lambda entry: entry.first)
    apart = all(one.last < other.first for one, other in zip(entries, entries[1:]))
    different = len({entry.guid for entry in entries}) == len(entries)
    return all(in_limits(entry, table) for entry in entries) and apart and different


def holds_image(disk: BinaryIO, entry: Entry) -> bool:
    """Whether ONIE's image stands in the partition of an entry within the disk."""
    disk.seek(entry.first * SECTOR_SIZE)
    return image_length(disk.read(SECTOR_SIZE), entry.last - entry.first + 1) is not None


def sound_disk(disk: BinaryIO) -> Sound:
    """What a disk image's file holds; NotSound: the first thing that it lacks."""
    found = counting_table(disk)
    if found is None:
        raise NotSound(Lack.TABLE)
    table, which = found
    if not fit_together(table):
        raise NotSound(Lack.ENTRIES)
    onies = [entry for entry in table.entries.values() if entry.kind == ONIE_BOOT]
    if not onies:
        raise NotSound(Lack.ONIE)
    if len(onies) > 1:
        raise NotSound(Lack.ONE_ONIE)
    if not holds_image(disk, onies[0]):
        raise NotSound(Lack.IMAGE)
    return Sound(table, which, onies[0])


def boots(entries: Iterable[Entry], variables: Variables) -> Mode | uuid.UUID:
    """What boots on a sound disk with these entries: ONIE in a mode, or the NOS of a GUID."""
    mode = flash.mode_of(variables)
    if mode is not None:
        return mode
    named = flash.named_by(variables)
    others = {entry.guid for entry in entries if entry.kind != ONIE_BOOT}
    return named if named is not None and named in others else Mode.INSTALL


def boots_text(what: Mode | uuid.UUID) -> str:
    """What boots, as the program writes it."""
    return f"boots onie {what.value}" if isinstance(what, Mode) else f"boots nos {what}"


def printed_name(name: str) -> str:
    """An entry's name, with each unit of UTF-16 outside 20 to 7E as `?`."""
    units = struct.iter_unpack("<H", name.encode("utf-16-le", "surrogatepass"))
    return "".join(chr(unit) if 0x20 <= unit <= 0x7E else "?" for (unit,) in units)


def entry_text(number: int, entry: Entry) -> str:
    """The line of an entry, without its end."""
    name = printed_name(entry.name)
    return f"entry {number} {entry.guid} {entry.kind} {entry.first} {entry.last} {name}"


def status_text(disk: BinaryIO, image: bytes) -> tuple[int, str]:
    """The exit status and the console's text of `onie status`, for a disk and a flash that read."""
    try:
        sound = sound_disk(disk)
        variables = variables_of(image)
    except NotSound as error:
        return 3, f"onie: not sound: {error.lack.value}\n"
    entries = sound.table.entries
    lines = [f"table {sound.which.value}"]
    lines += [entry_text(number, entries[number]) for number in sorted(entries)]
    lines.append(boots_text(boots(entries.values(), variables)))
    return 0, "".join(f"{line}\n" for line in lines)


def variables_of(image: bytes) -> Variables:
    """The variables of a flash; NotSound where it has none."""
    try:
        return flash.read_flash(image).variables
    except DecodeError as error:
        raise NotSound(Lack.VARIABLES) from error
