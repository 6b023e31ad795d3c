"""A board of which `onie status` is asked: of the program, and of Python."""

import os
import shutil
import subprocess
import tempfile
import unittest
import uuid
from pathlib import Path

from boards import make_board
from boards.status import status_text
from formats.flash import Slot, flash_image
from formats.gpt import LINUX_DATA, ONIE_BOOT, SECTOR_SIZE, Entry, Table, copies

from tests.program import PROGRAM, SECONDS

PROGRAM_IS_BUILT = PROGRAM.is_file() and os.access(PROGRAM, os.X_OK)
"""Whether the program is asked, beside Python."""

SECTORS = 131_072
LAST = SECTORS - 1
ONIE_GUID = uuid.UUID("01234567-89ab-cdef-0123-4567000000ff")
NOS_GUID = uuid.UUID("01234567-89ab-cdef-0123-456700000001")
ONIE = Entry(ONIE_BOOT, ONIE_GUID, 2048, 18431, name="ONIE-BOOT")
NOS = Entry(LINUX_DATA, NOS_GUID, 18432, 51199, name="NOS")
BOARD = Table(uuid.UUID("01234567-89ab-cdef-0123-456789abcdef"), 34, 131_038, {1: ONIE})
"""The table of the default board."""

ENTRY_1 = (
    "entry 1 01234567-89ab-cdef-0123-4567000000ff 7412f7d5-a156-4b13-81dc-867174929325"
    " 2048 18431 ONIE-BOOT\n"
)
ENTRY_2 = (
    "entry 2 01234567-89ab-cdef-0123-456700000001 0fc63daf-8483-4772-8e79-3d69d8477de4"
    " 18432 51199 NOS\n"
)
DEFAULT = f"table primary\n{ENTRY_1}boots onie install\n"
FAULT = (6, "onie: plant fault\n")


class StatusTest(unittest.TestCase):
    """A test with a board of its own."""

    def setUp(self) -> None:
        folder = tempfile.TemporaryDirectory()
        self.addCleanup(folder.cleanup)
        self.board = Path(folder.name) / "board"
        self.disk = self.board / "disk.img"
        self.flash = self.board / "flash.img"

    def make(self, *options: str) -> None:
        """Makes the board, in place of the one before."""
        shutil.rmtree(self.board, ignore_errors=True)
        self.assertEqual(make_board.main([str(self.board), *options]), 0)

    def patch(self, lba: int, piece: bytes) -> None:
        """Puts other bytes onto the disk, from the front of a sector."""
        with self.disk.open("r+b") as disk:
            disk.seek(lba * SECTOR_SIZE)
            disk.write(piece)

    def write_table(self, table: Table) -> None:
        """Writes both copies of a table onto a disk of the default size."""
        for lba, copy in copies(table, SECTORS).items():
            self.patch(lba, copy)

    def make_entries(self, entries: dict[int, Entry], first: int = 34, last: int = 131_038) -> None:
        """Makes the default board, with these entries and usable sectors."""
        self.make()
        self.write_table(Table(BOARD.disk, first, last, entries))

    def make_flash(self, first: Slot | None, second: Slot | None = None) -> None:
        """Makes a board with ONIE and a NOS, and with these slots."""
        self.make("--defaults", f"--entry=2=linux,{NOS_GUID},18432,51199,NOS")
        self.flash.write_bytes(flash_image(first, second))

    def told(self) -> tuple[int, str]:
        """The exit status and the console's text as Python tells them."""
        try:
            with self.disk.open("rb") as disk:
                return status_text(disk, self.flash.read_bytes())
        except FileNotFoundError:
            return FAULT

    def said(self) -> tuple[int, str]:
        """The exit status and the console's text of the program."""
        done = subprocess.run(
            [PROGRAM, "status"],
            cwd=self.board,
            stdin=subprocess.DEVNULL,
            capture_output=True,
            timeout=SECONDS,
            check=False,
        )
        self.assertEqual(done.stderr, b"")
        return done.returncode, done.stdout.decode("ascii")

    def check_said(self, status: int, text: str) -> None:
        """Python tells this, and the program says it."""
        self.assertEqual(self.told(), (status, text))
        if PROGRAM_IS_BUILT:
            self.assertEqual(self.said(), (status, text))

    def check(self, text: str) -> None:
        """The board is sound, and this is printed."""
        self.check_said(0, text)

    def check_sound(self) -> None:
        """The board is sound, and the program prints what Python tells."""
        self.check(self.told()[1])

    def check_boots(self, what: str) -> None:
        """This boots, on a board with ONIE and a NOS."""
        self.check(f"table primary\n{ENTRY_1}{ENTRY_2}boots {what}\n")

    def check_lacks(self, lack: str) -> None:
        """The board isn't sound, for this reason."""
        self.check_said(3, f"onie: not sound: {lack}\n")

    def check_fault(self) -> None:
        """The disk or the flash can't be read."""
        self.check_said(*FAULT)
