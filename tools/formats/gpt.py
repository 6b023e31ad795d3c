"""The GUID partition table of a disk image, written apart from the crate that reads it.

A disk of sectors of 512 bytes holds its table twice: the primary copy after the first sector, and
the backup copy at the end. A copy is a header sector and 32 sectors of entries, 33 sectors in all.
Here it is the bytes of these sectors in order of LBA: header and entries in the primary copy,
entries and header in the backup copy. docs/formats/gpt.md is the whole reference.
"""

from __future__ import annotations

import io
import struct
import uuid
import zlib
from dataclasses import dataclass
from enum import Enum
from typing import BinaryIO

SECTOR_SIZE = 512
SIGNATURE = b"EFI PART"
REVISION = bytes.fromhex("00000100")
HEADER_SIZE = 92
HEADER_CHECKSUM_AT = 16
ENTRIES_CHECKSUM_AT = 88
ENTRY_COUNT = 128
ENTRY_SIZE = 128
NAME_SIZE = 72
ENTRIES_SIZE = ENTRY_COUNT * ENTRY_SIZE
COPY_SIZE = SECTOR_SIZE + ENTRIES_SIZE
COPY_SECTORS = COPY_SIZE // SECTOR_SIZE
FIRST_USABLE = 1 + COPY_SECTORS
LEAST_SECTORS = FIRST_USABLE + 1 + COPY_SECTORS
GREATEST_NUMBER = 2**64 - 1

HEADER = struct.Struct("<8s4sIIIQQQQ16sQIII")
ENTRY = struct.Struct("<16s16sQQQ72s")

UNUSED = uuid.UUID(int=0)
ONIE_BOOT = uuid.UUID("7412F7D5-A156-4B13-81DC-867174929325")
LINUX_DATA = uuid.UUID("0FC63DAF-8483-4772-8E79-3D69D8477DE4")

HEADS = 255
TRACK_SECTORS = 63
CYLINDERS = 1024


class Which(Enum):
    """One of the two copies of a table."""

    PRIMARY = "primary"
    BACKUP = "backup"


@dataclass(frozen=True)
class Entry:
    """A used entry: its type, its own GUID, its first and last LBA, its attributes and name."""

    kind: uuid.UUID
    guid: uuid.UUID
    first: int
    last: int
    attributes: int = 0
    name: str = ""


@dataclass(frozen=True)
class Table:
    """The disk's GUID, the first and last LBA for partitions, and the used entries by number."""

    disk: uuid.UUID
    first_usable: int
    last_usable: int
    entries: dict[int, Entry]


class EncodeError(ValueError):
    """Why a table can't be written."""


def has_limits(first_usable: int, last_usable: int, last_lba: int) -> bool:
    """Whether the usable LBAs lie between the copies of a disk that ends with `last_lba`."""
    between = FIRST_USABLE <= first_usable <= last_usable <= last_lba - COPY_SECTORS
    return between and last_lba <= GREATEST_NUMBER


def copy_start(which: Which, last_lba: int) -> int:
    """The LBA of the first of a copy's 33 sectors."""
    return 1 if which is Which.PRIMARY else last_lba - COPY_SECTORS + 1


def joined(header: bytes, entries: bytes, which: Which) -> bytes:
    """The header sector and the entries in order of LBA."""
    return header + entries if which is Which.PRIMARY else entries + header


def parted(copy: bytes, which: Which) -> tuple[bytes, bytes]:
    """The header sector and the entries of a copy."""
    if which is Which.PRIMARY:
        return copy[:SECTOR_SIZE], copy[SECTOR_SIZE:]
    return copy[ENTRIES_SIZE:], copy[:ENTRIES_SIZE]


def with_checksum(header: bytes, place: int, checksum: int) -> bytes:
    """`header` with a checksum at `place`."""
    return header[:place] + checksum.to_bytes(4, "little") + header[place + 4 :]


def sealed(copy: bytes, which: Which) -> bytes:
    """`copy` with both checksums made to fit it, whatever it holds."""
    header, entries = parted(copy, which)
    header = with_checksum(header, ENTRIES_CHECKSUM_AT, zlib.crc32(entries))
    return joined(header_sealed(header), entries, which)


def header_sealed(header: bytes) -> bytes:
    """`header` with its own checksum made to fit it."""
    header = with_checksum(header, HEADER_CHECKSUM_AT, 0)
    return with_checksum(header, HEADER_CHECKSUM_AT, zlib.crc32(header[:HEADER_SIZE]))


def encode_copy(table: Table, which: Which, last_lba: int) -> bytes:
    """The 16,896 bytes of a copy; EncodeError where there are none.

    An entry's first and last LBA may be any numbers, as they may be at reading.
    """
    if not has_limits(table.first_usable, table.last_usable, last_lba):
        raise EncodeError(
            f"the usable LBAs {table.first_usable} to {table.last_usable} are none "
            f"of a disk that ends with LBA {last_lba}"
        )
    places = [bytes(ENTRY_SIZE)] * ENTRY_COUNT
    for number, entry in table.entries.items():
        if not 1 <= number <= ENTRY_COUNT:
            raise EncodeError(f"an entry has a number from 1 to {ENTRY_COUNT}, not {number}")
        places[number - 1] = _entry_bytes(number, entry)
    entries = b"".join(places)
    header = _header(table, which, last_lba, zlib.crc32(entries))
    return joined(header.ljust(SECTOR_SIZE, b"\0"), entries, which)


def _header(table: Table, which: Which, last_lba: int, entries_checksum: int) -> bytes:
    """The first 92 bytes of the header sector of a copy whose entries have the checksum."""
    primary = which is Which.PRIMARY
    header = HEADER.pack(
        SIGNATURE,
        REVISION,
        HEADER_SIZE,
        0,
        0,
        1 if primary else last_lba,
        last_lba if primary else 1,
        table.first_usable,
        table.last_usable,
        table.disk.bytes_le,
        2 if primary else last_lba - COPY_SECTORS + 1,
        ENTRY_COUNT,
        ENTRY_SIZE,
        entries_checksum,
    )
    return header_sealed(header)


def _entry_bytes(number: int, entry: Entry) -> bytes:
    """The 128 bytes of a used entry."""
    if entry.kind == UNUSED:
        raise EncodeError(f"entry {number}: the type of all zeros is that of an unused entry")
    for value in (entry.first, entry.last, entry.attributes):
        if not 0 <= value <= GREATEST_NUMBER:
            raise EncodeError(f"entry {number}: {value} is no number of eight bytes")
    name = entry.name.encode("utf-16-le", "surrogatepass")
    if len(name) > NAME_SIZE:
        raise EncodeError(f"entry {number}: the name has {len(name) // 2} units, more than 36")
    if "\0" in entry.name:
        raise EncodeError(f"entry {number}: a zero in the name would end it")
    kind, guid = entry.kind.bytes_le, entry.guid.bytes_le
    return ENTRY.pack(kind, guid, entry.first, entry.last, entry.attributes, name)


def decode_copy(copy: bytes, which: Which, last_lba: int) -> Table | None:
    """The table of a copy, or None where the copy isn't readable.

    What doesn't belong to the table is dropped: the bytes of an unused entry, the units of a name
    from its first zero on, and the bytes of the header sector after the header.
    """
    if len(copy) != COPY_SIZE:
        return None
    sector, entries = parted(copy, which)
    rows = HEADER.unpack_from(sector)
    first_usable, last_usable, disk = rows[7], rows[8], uuid.UUID(bytes_le=rows[9])
    if not has_limits(first_usable, last_usable, last_lba):
        return None
    table = Table(disk, first_usable, last_usable, _entries_of(entries))
    # All other rows have one value each, so a header is right where it is the one written here.
    if sector[:HEADER_SIZE] != _header(table, which, last_lba, zlib.crc32(entries)):
        return None
    return table


def _entries_of(entries: bytes) -> dict[int, Entry]:
    """The used entries by their numbers."""
    used: dict[int, Entry] = {}
    for number, row in enumerate(ENTRY.iter_unpack(entries), 1):
        kind, guid = uuid.UUID(bytes_le=row[0]), uuid.UUID(bytes_le=row[1])
        if kind != UNUSED:
            name = row[5].decode("utf-16-le", "surrogatepass").partition("\0")[0]
            used[number] = Entry(kind, guid, row[2], row[3], row[4], name)
    return used


def protective_sector(sectors: int) -> bytes:
    """Sector 0 of a disk of so many sectors: an MBR whose one partition covers all the rest."""
    size = min(sectors - 1, 0xFFFFFFFF)
    start, end = cylinder_address(1), cylinder_address(sectors - 1)
    record = b"\x00" + start + b"\xee" + end + struct.pack("<II", 1, size)
    return bytes(446) + record + bytes(48) + b"\x55\xaa"


def cylinder_address(lba: int) -> bytes:
    """The three bytes of a CHS address: head, sector and cylinder, or FF FF FF past the last."""
    track, sector = divmod(lba, TRACK_SECTORS)
    cylinder, head = divmod(track, HEADS)
    if cylinder >= CYLINDERS:
        return b"\xff\xff\xff"
    return bytes([head, sector + 1 | cylinder >> 8 << 6, cylinder & 0xFF])


def copies(table: Table, sectors: int) -> dict[int, bytes]:
    """Both copies for a disk of so many sectors, by the LBA at which each begins."""
    last_lba = sectors - 1
    return {copy_start(which, last_lba): encode_copy(table, which, last_lba) for which in Which}


def disk_image(table: Table, sectors: int) -> bytes:
    """A disk of so many sectors with a protective MBR and both copies; all else is zeros."""
    pieces = {0: protective_sector(sectors), **copies(table, sectors)}
    image = bytearray(sectors * SECTOR_SIZE)
    for lba, piece in pieces.items():
        start = lba * SECTOR_SIZE
        image[start : start + len(piece)] = piece
    return bytes(image)


def sectors_of(disk: BinaryIO) -> int:
    """The number of whole sectors of an image's file."""
    return disk.seek(0, io.SEEK_END) // SECTOR_SIZE


def tables_of(disk: BinaryIO) -> dict[Which, Table | None]:
    """The table of each copy in an image's file, or None where that copy isn't readable.

    Sector 0 isn't looked at, nor are bytes after the last whole sector.
    """
    sectors = sectors_of(disk)
    tables: dict[Which, Table | None] = {Which.PRIMARY: None, Which.BACKUP: None}
    if sectors >= LEAST_SECTORS:
        for which in tables:
            disk.seek(copy_start(which, sectors - 1) * SECTOR_SIZE)
            tables[which] = decode_copy(disk.read(COPY_SIZE), which, sectors - 1)
    return tables


def counting_table(disk: BinaryIO) -> tuple[Table, Which] | None:
    """The table that counts, and its copy: the primary if readable, else the backup if readable."""
    for which, table in tables_of(disk).items():
        if table is not None:
            return table, which
    return None


def read_disk(image: bytes) -> tuple[Table, Which] | None:
    """The table that counts, and its copy, of an image's bytes."""
    return counting_table(io.BytesIO(image))
