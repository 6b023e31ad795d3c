"""Shows a board folder: its disk as a map, its boot variables, its identity and its media."""

from __future__ import annotations

import argparse
import os
import sys
from collections.abc import Callable
from pathlib import Path

from boards import status
from boards.disk_view import disk_lines
from boards.flash_view import Entries, flash_lines
from boards.terminal import Lines, Paint, counted, plain, size_text
from command_line import Refusal, command_line, run
from formats import gpt, tlvinfo
from formats.decoding import DecodeError

EXAMPLES = """\
The map is one bar. Its first and its last column are the two copies of the partition table, and
the columns between are the sectors between the copies, to scale. Each entry has a letter, in the
order in which the entries stand on the disk, and at least one column.

What is missing is said, and what is wrong is said beside it. The text is plain ASCII; on a
terminal it has colours, but not where NO_COLOR is set.

examples:
  python3 tools show_board board
  python3 tools show_board board | less
"""


def entries_of(path: Path) -> Entries:
    """The entries of a disk's table, or None where there is no table."""
    with path.open("rb") as disk:
        found = gpt.counting_table(disk)
    return None if found is None else found[0].entries


def boots_line(disk_path: Path, flash_path: Path) -> str:
    """What the board boots, or why it boots nothing, as `onie status` says it."""
    with disk_path.open("rb") as disk:
        number, text = status.status_text(disk, flash_path.read_bytes())
    last = text.split("\n")[-2]
    return last if number == 0 else last.removeprefix("onie: ")


def eeprom_lines(path: Path, paint: Paint) -> Lines:
    """The fields of the EEPROM, or why there are none."""
    with path.open("rb") as file:
        eeprom = file.read(tlvinfo.EEPROM_SIZE)
    lines = [f"  {size_text(path.stat().st_size)}"]
    try:
        fields = tlvinfo.decode(eeprom)
    except DecodeError as error:
        return [*lines, "  " + paint.warning(f"no TlvInfo data: {error.fault.value}")]
    names = [tlvinfo.CODES[code].name if code in tlvinfo.CODES else "" for code, _ in fields]
    width = max(map(len, names), default=0)
    for (code, value), name in zip(fields, names):
        lines.append(f"  0x{code:02X} {name:{width}} {tlvinfo.printed(code, value)}".rstrip())
    return lines


def file_text(path: Path) -> str:
    """What stands in a volume at a path: a file with its size, or what is no file."""
    if path.is_file():
        return size_text(path.stat().st_size)
    if path.is_dir():
        return "a folder, no file"
    return "a link to nothing" if path.is_symlink() else "no regular file"


def media_lines(path: Path, paint: Paint) -> Lines:
    """The volumes in the order of the bytes of their names, and what stands in each."""
    volumes = [place for place in in_order(path) if place.is_dir()]
    lines = [f"  {counted(len(volumes), 'volume')}"]
    for volume in volumes:
        served = " (served bodies, no local medium)" if volume.name == "net" else ""
        lines.append(f"  {paint.heading(plain(volume.name))}{served}")
        lines += [f"      {plain(file.name)}: {file_text(file)}" for file in in_order(volume)]
    return lines


def in_order(folder: Path) -> list[Path]:
    """What stands in a folder, in the order of the bytes of the names."""
    return sorted(folder.iterdir(), key=lambda place: os.fsencode(place.name))


def section(path: Path, lines: Callable[[], Lines], paint: Paint) -> Lines:
    """A part of the board under its name; where it can't be read, that is said."""
    name = paint.heading(path.name)
    if not os.path.lexists(path):
        return [f"{name}: {paint.warning('missing')}"]
    if path.name == "media" and not path.is_dir():
        return [f"{name}: {paint.warning('no folder')}"]
    if path.name != "media" and not path.is_file():
        return [f"{name}: {paint.warning('no regular file')}"]
    try:
        return [name, *lines()]
    except OSError as error:
        return [f"{name}: {paint.warning(plain(error.strerror or str(error)))}"]


def board_lines(folder: Path, paint: Paint) -> Lines:
    """All that is shown of a board."""
    disk, image = folder / "disk.img", folder / "flash.img"
    eeprom, media = folder / "eeprom.bin", folder / "media"
    entries: Entries = None
    boots = paint.warning("plant fault")
    try:
        if disk.is_file():
            entries = entries_of(disk)
            boots = boots_line(disk, image) if image.is_file() else boots
    except OSError:
        pass
    return [
        *section(disk, lambda: disk_lines(disk, paint), paint),
        *section(image, lambda: flash_lines(image, entries, paint), paint),
        f"{paint.heading('status')}: {boots}",
        *section(eeprom, lambda: eeprom_lines(eeprom, paint), paint),
        *section(media, lambda: media_lines(media, paint), paint),
    ]


def act(options: argparse.Namespace) -> int:
    """Shows the board."""
    folder = options.folder
    if not folder.is_dir():
        raise Refusal(f"{plain(str(folder))} is no folder")
    paint = Paint(sys.stdout.isatty() and "NO_COLOR" not in os.environ)
    try:
        print("\n".join(board_lines(folder, paint)), flush=True)
    except BrokenPipeError:
        os.dup2(os.open(os.devnull, os.O_WRONLY), sys.stdout.fileno())
    return 0


def main(words: list[str]) -> int:
    """Shows the board; gives 0, or 2 with one line on standard error where there is no folder."""
    line = command_line("show_board", __doc__, EXAMPLES)
    line.add_argument("folder", metavar="BOARD", type=Path, help="a board's folder")
    return run("show_board", line, act, words)
