"""sgdisk, another writer and reader of partition tables, where it is installed."""

import re
import shutil
import subprocess
import sys
import uuid
from pathlib import Path

from formats.gpt import ONIE_BOOT, SECTOR_SIZE, Entry

SECTORS = 40 * 2048
"""The sectors of the disk that sgdisk makes."""

NAMED = uuid.UUID("01234567-89ab-cdef-0123-456700000001")
"""The GUID of its entry 5."""


def sgdisk() -> str | None:
    """Where sgdisk is; None, and a line on standard error, where it isn't."""
    program = shutil.which("sgdisk")
    if program is None:
        print("sgdisk is not on the PATH: what needs it is skipped", file=sys.stderr)
    return program


def make_disk(program: str, disk: Path) -> None:
    """Makes a disk with the entries 1, 2, 5 and 128, of which 1 is of ONIE's type."""
    with disk.open("xb") as image:
        image.truncate(SECTORS * SECTOR_SIZE)
    options = [
        *("-a", "1", "-n", "1:2048:18431", "-t", f"1:{ONIE_BOOT}", "-c", "1:ONIE-BOOT"),
        *("-n", "2:34:2047", "-c", "2:a b", "-A", "2:set:2"),
        *("-n", "128:18432:20000", "-t", "128:ef00", "-c", "128:" + "n" * 36),
        *("-n", "5:20001:0", "-u", f"5:{NAMED}", "-t", "5:8200"),
    ]
    subprocess.run([program, *options, str(disk)], check=True, capture_output=True)


def entry_at(program: str, disk: Path, number: int) -> Entry:
    """The entry that sgdisk tells of."""
    words = [program, "-i", str(number), str(disk)]
    told = subprocess.run(words, check=True, capture_output=True, text=True).stdout

    def value(pattern: str) -> str:
        found = re.search(pattern, told)
        assert found is not None, told
        return found[1]

    return Entry(
        uuid.UUID(value(r"Partition GUID code: (\S+)")),
        uuid.UUID(value(r"Partition unique GUID: (\S+)")),
        int(value(r"First sector: (\d+)")),
        int(value(r"Last sector: (\d+)")),
        int(value(r"Attribute flags: ([0-9A-F]+)"), 16),
        value(r"Partition name: '(.*)'"),
    )
