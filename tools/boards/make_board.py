"""Makes a board folder for `onie`.

It has `eeprom.bin`, `media/` with volumes, `disk.img`, `flash.img`, and `net.txt`.
"""

from __future__ import annotations

import argparse
import os
from collections.abc import Callable, Iterable
from dataclasses import dataclass
from operator import attrgetter, itemgetter
from pathlib import Path
from typing import TypeVar

from boards.board_options import (
    DISK,
    BoardError,
    MediaFile,
    entry_of,
    field_of,
    file_of,
    sectors_of,
    variable_of,
)
from command_line import CommandLine, command_line, run
from formats import flash, gpt, tlvinfo
from formats.onie_image import encode_image

EXAMPLES = """\
CODE is two hexadecimal digits, with or without 0x. TEXT is spelled by the kind of the code:
  21 22 23 27 28 29 2B 2D 2E 2F   text, as is
  24                              MAC address, 00:11:22:33:44:55
  25                              date, MM/DD/YYYY HH:MM:SS
  26, 2A                          decimal, 0 to 255 and 0 to 65535
  2C                              two letters
  FD and all other codes          hexadecimal bytes, as 00ff
The checksum FE is written by itself.

Fields are written in the order given. Without --field the EEPROM has the platform
x86_64-kvm_x86_64-r0 and the MAC address 00:11:22:33:44:55. Without --file there are
usb0/onie-installer of 5 bytes and usb1/onie-installer-x86_64-kvm_x86_64-r0 of 9 bytes.

The disk has the GUID 01234567-89ab-cdef-0123-456789abcdef and both copies of its table. What
holds no table and no image is zeros, sector 0 too: there is no protective MBR.
KIND is onie, linux or the GUID of a type. GUID may be empty: it is then
01234567-89ab-cdef-0123-4567 and the entry's number in 8 hexadecimal digits. NAME may be
empty or have commas. FIRST and LAST may be any sectors, so that a wrong table can be made.
Each entry of the kind onie holds ONIE's image of one byte, where it has two sectors and they
are usable ones. Without --entry there is ONIE's partition alone, entry 1, the sectors 2048 to
18431, with the name ONIE-BOOT.

A NAME of a variable is 1 to 64 letters, digits or _, and a VALUE has the characters from space
to ~. Variables are written in the order given, as number 1 into slot 0. Without --variable
there is onie_boot_reason=install.

The script of the network is a copy of the file given, wrong lines too. Without --script it is
empty: nothing comes over the network.

examples:
  python3 tools make_board board
  python3 tools make_board board --field 28=arm-acme_a1-r2 --field 24=02:00:00:00:00:01 \\
      --field 0x2A=4
  python3 tools make_board board --file usb0/onie-installer.bin=hello \\
      --file usb1/onie-installer=@33554433
  python3 tools make_board board --defaults --field 21=Switch --file usb2/onie-installer=more
  python3 tools make_board board --variable onie_boot_reason=rescue
  python3 tools make_board board --defaults --entry 2=linux,,18432,51199,NOS \\
      --variable onie_boot_reason= \\
      --variable "nos_bootcmd=boot 01234567-89ab-cdef-0123-456700000002"
  python3 tools make_board board --sectors 4096 --entry 1=onie,,34,99,ONIE-BOOT
  python3 tools make_board board --no-disk --no-flash
  python3 tools make_board board --defaults --file net/nos.bin=hi --script network.txt
"""

Item = TypeVar("Item")

DEFAULT_FIELDS = [field_of("28=x86_64-kvm_x86_64-r0"), field_of("24=00:11:22:33:44:55")]
DEFAULT_FILES = [
    file_of("usb0/onie-installer=hello"),
    file_of("usb1/onie-installer-x86_64-kvm_x86_64-r0=installer"),
]
DEFAULT_ENTRIES = [entry_of("1=onie,01234567-89ab-cdef-0123-4567000000ff,2048,18431,ONIE-BOOT")]
DEFAULT_VARIABLES = [variable_of("onie_boot_reason=install")]
DEFAULT_SECTORS = "131072"
IMAGE = encode_image(b"\x01")


@dataclass(frozen=True)
class SparseFile:
    """The pieces of a file by the offsets at which they begin, and its size; else zeros."""

    pieces: dict[int, bytes]
    size: int

    def write(self, path: Path) -> None:
        """Writes a new file. What is zeros takes no room where the file system allows it."""
        with path.open("xb") as file:
            for offset, piece in self.pieces.items():
                file.seek(offset)
                file.write(piece)
            file.truncate(self.size)


@dataclass(frozen=True)
class Board:
    """What a board folder holds, beside `media/`: its files by their names; and files of media."""

    parts: dict[str, SparseFile]
    media: list[MediaFile]


def whole(content: bytes) -> SparseFile:
    """A file that is one piece."""
    return SparseFile({0: content}, len(content))


def chosen(
    given: list[Item], defaults: list[Item], both: bool, name: Callable[[Item], str | int]
) -> list[Item]:
    """The items given, after the default ones where these are wanted and not given anew."""
    if given and not both:
        return given
    anew = {name(item) for item in given}
    return [item for item in defaults if name(item) not in anew] + given


def check_once(what: str, names: Iterable[str | int]) -> None:
    """Raises BoardError where a name comes twice."""
    seen: set[str | int] = set()
    for name in names:
        if name in seen:
            raise BoardError(f"{what} {name!r} is given twice")
        seen.add(name)


def eeprom_of(options: list[str], both: bool) -> SparseFile:
    """The EEPROM that the options --field ask for."""
    given = [field_of(option) for option in options]
    try:
        return whole(tlvinfo.encode(chosen(given, DEFAULT_FIELDS, both, itemgetter(0))))
    except tlvinfo.EncodeError as error:
        raise BoardError(str(error)) from error


def media_of(options: list[str], both: bool) -> list[MediaFile]:
    """The files of volumes that the options --file ask for."""
    files = chosen([file_of(option) for option in options], DEFAULT_FILES, both, attrgetter("path"))
    check_once("file", (file.path for file in files))
    return files


def flash_of(options: list[str], both: bool) -> SparseFile:
    """The flash with the variables that the options --variable ask for."""
    given = [variable_of(option) for option in options]
    variables = chosen(given, DEFAULT_VARIABLES, both, itemgetter(0))
    check_once("variable", (name for name, _ in variables))
    try:
        content = flash.encode_variables(dict(variables))
    except flash.EncodeError as error:
        raise BoardError(str(error)) from error
    return whole(flash.flash_image(flash.Slot(1, content)))


def disk_of(options: list[str], both: bool, size: str) -> SparseFile:
    """The disk with the entries that the options --entry ask for, and the images in them."""
    sectors = sectors_of(size)
    entries = chosen([entry_of(option) for option in options], DEFAULT_ENTRIES, both, itemgetter(0))
    check_once("entry", (number for number, _ in entries))
    table = gpt.Table(DISK, gpt.FIRST_USABLE, sectors - gpt.FIRST_USABLE, dict(entries))
    for number, entry in DEFAULT_ENTRIES:
        if (number, entry) in entries and entry.last > table.last_usable:
            raise BoardError(
                f"--sectors {size!r}: the default entry {number} ends with the sector "
                f"{entry.last}, so --entry must be given, without --defaults"
            )
    try:
        pieces = gpt.copies(table, sectors)
    except gpt.EncodeError as error:
        raise BoardError(str(error)) from error
    for entry in table.entries.values():
        if entry.kind == gpt.ONIE_BOOT and has_room(table, entry):
            pieces[entry.first] = IMAGE
    return SparseFile(
        {lba * gpt.SECTOR_SIZE: piece for lba, piece in pieces.items()},
        sectors * gpt.SECTOR_SIZE,
    )


def has_room(table: gpt.Table, entry: gpt.Entry) -> bool:
    """Whether ONIE's image fits an entry within the usable sectors."""
    last = entry.first + len(IMAGE) // gpt.SECTOR_SIZE - 1
    return table.first_usable <= entry.first and last <= min(entry.last, table.last_usable)


def board_of(options: argparse.Namespace) -> Board:
    """The board that the options ask for."""
    both = options.defaults
    parts = {
        "eeprom.bin": eeprom_of(options.field, both),
        "net.txt": whole(options.script.read_bytes() if options.script else b""),
    }
    if options.disk:
        parts["disk.img"] = disk_of(options.entry, both, options.sectors)
    elif options.entry or options.sectors != DEFAULT_SECTORS:
        raise BoardError("--no-disk makes no disk for --entry or --sectors")
    if options.flash:
        parts["flash.img"] = flash_of(options.variable, both)
    elif options.variable:
        raise BoardError("--no-flash makes no flash for --variable")
    return Board(parts, media_of(options.file, both))


def write_board(board: Board, folder: Path) -> None:
    """Writes the board into `folder`, which must not hold one and is made where it isn't there."""
    media = folder / "media"
    for taken in (*(folder / name for name in board.parts), media):
        if os.path.lexists(taken):
            raise BoardError(f"{str(taken)!r} is there already")
    media.mkdir(parents=True)
    for name, part in board.parts.items():
        part.write(folder / name)
    for file in board.media:
        place = media / file.volume
        place.mkdir(exist_ok=True)
        SparseFile({0: file.start}, file.size).write(place / file.name)


REPEATABLE = [
    ("--field", "CODE=TEXT", "a field of the EEPROM"),
    ("--file", "VOLUME/NAME=CONTENT", "a file of a volume, or with =@SIZE one of SIZE zeros"),
    ("--entry", "NUMBER=KIND,GUID,FIRST,LAST,NAME", "an entry of the partition table"),
    ("--variable", "NAME=VALUE", "a boot variable"),
]
"""The options that may come again: the option, its value, and what it asks for."""


def parser() -> CommandLine:
    """The command line."""
    line = command_line("make_board", __doc__, EXAMPLES)
    line.add_argument("folder", metavar="FOLDER", type=Path, help="made where it isn't there")
    for option, value, what in REPEATABLE:
        text = f"{what}; may come again"
        line.add_argument(option, metavar=value, action="append", default=[], help=text)
    line.add_argument(
        "--sectors",
        metavar="N",
        default=DEFAULT_SECTORS,
        help=f"how many sectors of 512 bytes the disk has, by default {DEFAULT_SECTORS}",
    )
    line.add_argument(
        "--script", metavar="FILE", type=Path, help="the script of the network, by default empty"
    )
    line.add_argument("--no-disk", dest="disk", action="store_false", help="make no disk.img")
    line.add_argument("--no-flash", dest="flash", action="store_false", help="make no flash.img")
    line.add_argument(
        "--defaults",
        action="store_true",
        help="put the default fields, files, entries and variables before those given, which "
        "replace the same ones",
    )
    return line


def act(options: argparse.Namespace) -> int:
    """Makes the board."""
    write_board(board_of(options), options.folder)
    return 0


def main(words: list[str]) -> int:
    """Makes the board; gives 0, or 2 with one line on standard error that says what is wrong."""
    return run("make_board", parser(), act, words)
