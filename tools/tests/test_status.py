"""`onie status` over disks: worked rows, tables, images, and random boards."""

import collections
import os
import random
import shutil
import subprocess
import unittest
import uuid
from dataclasses import replace

from boards.status import entry_text
from formats.flash import Slot, flash_image
from formats.gpt import (
    LINUX_DATA,
    SECTOR_SIZE,
    UNUSED,
    Entry,
    Which,
    copies,
    header_sealed,
    joined,
    parted,
    sealed,
)
from formats.onie_image import encode_image

from tests import sgdisk
from tests.program import PROGRAM, SECONDS, needs_program
from tests.random_boards import random_disk, random_flash
from tests.status_board import (
    BOARD,
    DEFAULT,
    ENTRY_1,
    ENTRY_2,
    LAST,
    NOS,
    NOS_GUID,
    ONIE,
    ONIE_GUID,
    SECTORS,
    StatusTest,
)
from tests.test_gpt import with_entries, with_header

RANDOM_BOARDS = 200


@needs_program
class Program(StatusTest):
    def test_no_board(self) -> None:
        """Without a disk and a flash the plant's first call fails."""
        self.board.mkdir()
        self.assertEqual(self.said()[0], 6)

    def test_files_of_no_length(self) -> None:
        """A file whose length the system doesn't tell is a fault, and no small disk."""
        for name in ("disk.img", "flash.img"):
            with self.subTest(name):
                self.make()
                (self.board / name).unlink()
                (self.board / name).symlink_to(name)
                self.assertEqual(self.said()[0], 6)

    def test_more_words(self) -> None:
        self.make()
        for words in (["status", ""], ["status", "status"], ["Status"], ["status "]):
            done = subprocess.run(
                [PROGRAM, *words], cwd=self.board, capture_output=True, timeout=SECONDS, check=False
            )
            self.assertEqual((done.returncode, done.stdout), (2, b"onie: usage\n"))

    def test_nothing_is_written(self) -> None:
        """A broken copy stays broken, and all files stay as they are."""
        self.make()
        self.patch(1, b"\0")
        before = self.disk.read_bytes(), self.flash.read_bytes(), sorted(os.listdir(self.board))
        self.assertEqual(self.said()[0], 0)
        after = self.disk.read_bytes(), self.flash.read_bytes(), sorted(os.listdir(self.board))
        self.assertTrue(before == after)

    def test_full_console(self) -> None:
        """A console that takes nothing is a fault of its own."""
        self.make()
        with open("/dev/full", "wb") as full:
            for size in (SECTORS * SECTOR_SIZE, 0):
                os.truncate(self.disk, size)
                words = [PROGRAM, "status"]
                done = subprocess.run(
                    words, cwd=self.board, stdout=full, timeout=SECONDS, check=False
                )
                self.assertEqual(done.returncode, 10)


class Boards(StatusTest):
    def test_default(self) -> None:
        self.make()
        self.check(DEFAULT)

    def test_nothing_else_is_needed(self) -> None:
        """The EEPROM and the media aren't used."""
        self.make()
        (self.board / "eeprom.bin").unlink()
        shutil.rmtree(self.board / "media")
        self.check(DEFAULT)

    def test_primary_is_broken(self) -> None:
        self.make()
        self.patch(1, b"\0")
        self.check(DEFAULT.replace("primary", "backup"))

    def test_no_table(self) -> None:
        self.make()
        self.patch(1, b"\0")
        self.patch(LAST, b"\0")
        self.check_lacks("no table")

    def test_entries_pass_the_last_usable_sector(self) -> None:
        self.make("--defaults", "--entry=2=linux,,131000,131039,")
        self.check_lacks("entries")
        self.make("--defaults", "--entry=2=linux,,131000,131038,")
        self.check_sound()

    def test_no_onie(self) -> None:
        self.make(f"--entry=1=linux,{ONIE_GUID},2048,18431,ONIE-BOOT")
        self.check_lacks("no onie")

    def test_two_onies(self) -> None:
        self.make("--defaults", f"--entry=2=onie,{NOS_GUID},18432,18439,")
        self.check_lacks("two onie")

    def test_no_image(self) -> None:
        self.make()
        self.patch(2048, bytes(512))
        self.check_lacks("no image")

    def test_no_variables(self) -> None:
        self.make()
        self.flash.write_bytes(bytes(34 * 512))
        self.check_lacks("no variables")
        self.flash.write_bytes(flash_image(Slot(1, b"a\0onie_boot_reason=install\0")))
        self.check_lacks("no variables")

    def test_order_of_the_refusals(self) -> None:
        """Of all that is lacking the first is named."""
        self.make()
        self.flash.write_bytes(b"")
        self.check_lacks("no variables")
        self.patch(2048, bytes(512))
        self.check_lacks("no image")
        other = replace(ONIE, guid=NOS_GUID, first=18432, last=18433)
        self.write_table(replace(BOARD, entries={1: ONIE, 7: other}))
        self.check_lacks("two onie")
        self.write_table(replace(BOARD, entries={}))
        self.check_lacks("no onie")
        self.write_table(replace(BOARD, entries={1: ONIE, 7: replace(other, guid=ONIE_GUID)}))
        self.check_lacks("entries")
        self.patch(1, b"\0")
        self.patch(LAST, b"\0")
        self.check_lacks("no table")

    def test_small_disks(self) -> None:
        """A disk of 67 sectors, or of none, has no table; bytes after whole sectors don't count."""
        self.make("--sectors=68", "--entry=1=linux,,34,34,")
        self.check_lacks("no onie")
        os.truncate(self.disk, 68 * 512 + 511)
        self.check_lacks("no onie")
        for size in (68 * 512 - 1, 67 * 512, 512, 1, 0):
            os.truncate(self.disk, size)
            self.check_lacks("no table")

    def test_another_size(self) -> None:
        """A table belongs to a disk of its size."""
        for size in (SECTORS + 1, SECTORS - 1, 2 * SECTORS):
            self.make()
            os.truncate(self.disk, size * 512)
            self.check_lacks("no table")

    def test_missing_files(self) -> None:
        """A fault of the device, whatever the other file holds."""
        self.make()
        self.flash.unlink()
        self.check_fault()
        self.patch(1, b"\0")
        self.patch(LAST, b"\0")
        self.check_fault()
        self.disk.unlink()
        self.check_fault()
        self.make()
        self.disk.unlink()
        self.check_fault()
        self.flash.write_bytes(b"")
        self.check_fault()


class Tables(StatusTest):
    def test_copies_that_differ(self) -> None:
        """The primary counts, though it may be the older one."""
        self.make()
        both = copies(replace(BOARD, entries={1: ONIE, 2: NOS}), SECTORS)
        self.patch(SECTORS - 33, both[SECTORS - 33])
        self.check(DEFAULT)
        self.patch(20, b"\1")
        self.check(f"table backup\n{ENTRY_1}{ENTRY_2}boots onie install\n")
        self.patch(1, both[1])
        self.patch(SECTORS - 2, b"\1")
        self.check(f"table primary\n{ENTRY_1}{ENTRY_2}boots onie install\n")

    def test_header_rows(self) -> None:
        """Another value in any row makes a copy unreadable, though its checksums fit."""
        rows = [(0, 8, int.from_bytes(b"EFI PARU", "little")), (8, 4, 1 << 17), (12, 4, 91)]
        rows += [(12, 4, 512), (20, 4, 1), (24, 8, 2), (32, 8, LAST - 1), (72, 8, 3), (80, 4, 127)]
        rows += [(80, 4, 129), (84, 4, 64), (84, 4, 256), (40, 8, 33), (40, 8, 131_039), (40, 8, 0)]
        rows += [(48, 8, 131_039), (48, 8, 33), (48, 8, 2**64 - 1)]
        self.make()
        for lba, copy in copies(BOARD, SECTORS).items():
            which = Which.PRIMARY if lba == 1 else Which.BACKUP
            for offset, size, value in rows:
                with self.subTest(which=which, offset=offset, value=value):
                    new = value.to_bytes(size, "little")
                    self.patch(lba, sealed(with_header(copy, which, offset, new), which))
                    if which is Which.PRIMARY:
                        self.check(DEFAULT.replace("primary", "backup"))
                    else:
                        self.check_lacks("no table")

    def test_checksums(self) -> None:
        """One that isn't that of its bytes makes a copy unreadable."""
        self.make()
        copy = copies(BOARD, SECTORS)[1]
        entry_turned = with_entries(copy, Which.PRIMARY, 127 * 128 + 127, b"\1")
        sums_turned = with_header(copy, Which.PRIMARY, 88, b"\0\0\0\0")
        header, entries = parted(sums_turned, Which.PRIMARY)
        for changed in (
            entry_turned,
            with_header(copy, Which.PRIMARY, 16, b"\0\0\0\0"),
            with_header(copy, Which.PRIMARY, 56, b"\0"),
            joined(header_sealed(header), entries, Which.PRIMARY),
        ):
            self.patch(1, changed)
            self.check(DEFAULT.replace("primary", "backup"))

    def test_what_is_not_looked_at(self) -> None:
        """Sector 0, and the header's sector after the header."""
        self.make()
        self.patch(0, b"\xff" * 512)
        self.patch(1, with_header(copies(BOARD, SECTORS)[1], Which.PRIMARY, 92, b"\xff" * 420))
        self.check(DEFAULT)

    def test_a_primary_that_is_not_sound(self) -> None:
        """A readable primary counts all the same; the backup doesn't take its place."""
        self.make()
        self.patch(1, copies(replace(BOARD, entries={}), SECTORS)[1])
        self.check_lacks("no onie")

    def test_names(self) -> None:
        """A unit outside 20 to 7E is `?`, and a character of two units is two of them."""
        names = [
            ("", ""),
            (" ", " "),
            ("a b ~", "a b ~"),
            ("\u00e9\u4e2d-\x1f\x7f\t\n", "??-????"),
            ("\U0001f980x", "??x"),
            ("\ud800x\udfff", "?x?"),
            ("n" * 36, "n" * 36),
            ("\U0001f980" * 18, "?" * 36),
            ("\u0141\u4e00\u2000", "???"),
        ]
        for name, printed in names:
            with self.subTest(printed):
                self.make_entries({1: replace(ONIE, name=name)})
                self.check(DEFAULT.replace("ONIE-BOOT", printed))

    def test_attributes(self) -> None:
        """They aren't shown and change nothing."""
        for attributes in (1, 4, 2**63, 2**64 - 1):
            self.make_entries({1: replace(ONIE, attributes=attributes)})
            self.check(DEFAULT)

    def test_last_entry(self) -> None:
        """Entries are listed by their numbers, wherever they stand on the disk."""
        last = ENTRY_1.replace("entry 1 ", "entry 128 ")
        self.make_entries({128: ONIE})
        self.check(f"table primary\n{last}boots onie install\n")
        self.make_entries({128: ONIE, 2: NOS})
        self.check(f"table primary\n{ENTRY_2}{last}boots onie install\n")
        self.make_entries({1: ONIE, 128: NOS})
        last = ENTRY_2.replace("entry 2 ", "entry 128 ")
        self.check(f"table primary\n{ENTRY_1}{last}boots onie install\n")

    def test_all_entries(self) -> None:
        """127 entries of a sector each, one after the other, and ONIE's."""
        entries = {
            number: Entry(LINUX_DATA, uuid.UUID(int=number), 33 + number, 33 + number, name="n")
            for number in range(1, 128)
        }
        self.make_entries({**entries, 128: ONIE})
        lines = "".join(
            f"entry {number} {entry.guid} {LINUX_DATA} {33 + number} {33 + number} n\n"
            for number, entry in entries.items()
        )
        last = ENTRY_1.replace("entry 1 ", "entry 128 ")
        self.check(f"table primary\n{lines}{last}boots onie install\n")

    def test_limits_of_the_usable_sectors(self) -> None:
        """Entries may begin with the first usable sector and end with the last."""
        front = replace(NOS, first=34, last=2047)
        back = replace(NOS, guid=uuid.UUID(int=1), first=18432, last=131_038)
        self.make_entries({1: ONIE, 2: front, 3: back})
        self.check_sound()
        self.make_entries({1: ONIE, 2: front, 3: back}, first=35)
        self.check_lacks("entries")
        self.make_entries({1: ONIE, 2: front, 3: back}, last=131_037)
        self.check_lacks("entries")
        self.make_entries({1: ONIE}, first=2048, last=18431)
        self.check(DEFAULT)
        self.make_entries({1: ONIE}, first=2049)
        self.check_lacks("entries")
        self.make_entries({1: ONIE}, last=18430)
        self.check_lacks("entries")

    def test_entries_that_do_not_fit_together(self) -> None:
        """Each is wrong by itself or beside ONIE's."""
        wrong = [
            replace(NOS, first=18431),
            replace(NOS, first=2047, last=2048),
            replace(NOS, first=3000, last=3000),
            replace(NOS, first=34, last=131_038),
            replace(NOS, first=2048, last=18431),
            replace(NOS, first=51200),
            replace(NOS, last=18431),
            replace(NOS, guid=ONIE_GUID),
            replace(NOS, first=33, last=40),
            replace(NOS, first=0, last=0),
            replace(NOS, last=2**64 - 1),
            replace(NOS, first=2**64 - 1, last=2**64 - 1),
            replace(NOS, first=2**64 - 1, last=0),
        ]
        for number in (2, 128):
            for entry in wrong:
                with self.subTest(number=number, entry=entry):
                    self.make_entries({1: ONIE, number: entry})
                    self.check_lacks("entries")
        self.make_entries({1: ONIE, 2: NOS, 3: replace(NOS, first=60000, last=60001)})
        self.check_lacks("entries")
        for entry in (replace(NOS, last=18432), replace(NOS, first=34, last=2047)):
            self.make_entries({1: ONIE, 2: entry})
            self.check_sound()

    def test_what_an_unused_entry_holds(self) -> None:
        """A type of zeros makes it unused, whatever else it holds."""
        wrong = Entry(LINUX_DATA, ONIE_GUID, 2**64 - 1, 0, 2**64 - 1, "n" * 36)
        self.make()
        for lba, copy in copies(replace(BOARD, entries={1: ONIE, 2: wrong}), SECTORS).items():
            which = Which.PRIMARY if lba == 1 else Which.BACKUP
            at = (512 if lba == 1 else 0) + 128
            self.patch(lba, sealed(copy[:at] + bytes(16) + copy[at + 16 :], which))
        self.check(DEFAULT)

    def test_guid_of_zeros(self) -> None:
        """It is a GUID like any other."""
        self.make_entries({1: ONIE, 2: replace(NOS, guid=UNUSED)})
        self.flash.write_bytes(flash_image(Slot(1, f"nos_bootcmd=boot {UNUSED}\0".encode())))
        entry = ENTRY_2.replace(str(NOS_GUID), str(UNUSED))
        self.check(f"table primary\n{ENTRY_1}{entry}boots nos {UNUSED}\n")

    def test_table_of_sgdisk(self) -> None:
        """A table that sgdisk makes, entry by entry as sgdisk tells of it."""
        program = sgdisk.sgdisk()
        if program is None:
            self.skipTest("sgdisk is not on the PATH")
        self.make("--no-disk")
        sgdisk.make_disk(program, self.disk)
        self.patch(2048, encode_image(b"\1"))
        command = f"nos_bootcmd=boot {sgdisk.NAMED}\0"
        self.flash.write_bytes(flash_image(Slot(1, command.encode())))
        text = "".join(
            entry_text(number, sgdisk.entry_at(program, self.disk, number)) + "\n"
            for number in (1, 2, 5, 128)
        )
        self.check(f"table primary\n{text}boots nos {sgdisk.NAMED}\n")
        self.patch(1, b"\0")
        self.check(f"table backup\n{text}boots nos {sgdisk.NAMED}\n")


class Images(StatusTest):
    def check_head(self, head: bytes, held: bool, last: int = 18431) -> None:
        """Whether a first sector that begins so makes an image, in a partition from 2048 on."""
        with self.subTest(head=head.hex(), last=last):
            self.make_entries({1: replace(ONIE, last=last)})
            self.patch(2048, head.ljust(512, b"\xff"))
            if held:
                self.check(DEFAULT.replace("18431", str(last)))
            else:
                self.check_lacks("no image")

    def test_signatures(self) -> None:
        for signature in (b"ONIEIMG2", b"onieimg1", b"ONIEIMG\0", b"\0ONIEIMG", b"ONIEOPEN"):
            self.check_head(signature + b"\1\0\0\0", False)
        self.check_head(b"ONIEIMG1\1\0\0\0", True)

    def test_lengths(self) -> None:
        """Little-endian, 1 to 2,097,140, and no more than the sectors after the first hold."""
        for length, last, held in [
            (0, 18431, False),
            (1, 18431, True),
            (2_097_140, 18431, True),
            (2_097_141, 18431, False),
            (2_097_140, 2048 + 4096, True),
            (2_097_140, 2048 + 4095, False),
            (2**24, 18431, False),
            (2**32 - 1, 18431, False),
            (1, 2048, False),
            (1, 2049, True),
            (512, 2049, True),
            (513, 2049, False),
            (513, 2050, True),
            (1024, 2050, True),
            (1025, 2050, False),
        ]:
            self.check_head(b"ONIEIMG1" + length.to_bytes(4, "little"), held, last)

    def test_an_image_elsewhere(self) -> None:
        """It must stand at the front of ONIE's entry."""
        self.make()
        self.patch(2048, bytes(512))
        for lba in (2047, 2049, 18431, 18432):
            self.patch(lba, encode_image(b"\1"))
        self.check_lacks("no image")


class RandomBoards(StatusTest):
    def test_random_boards(self) -> None:
        """The program says of each what Python tells, and each answer comes."""
        choose = random.Random(20260312)
        answers: collections.Counter[str] = collections.Counter()
        self.board.mkdir()
        for number in range(RANDOM_BOARDS):
            image, table = random_disk(choose)
            self.disk.write_bytes(image)
            self.flash.write_bytes(random_flash(choose, table))
            with self.subTest(number=number):
                status, text = self.told()
                self.check_said(status, text)
                last = text.split("\n")[-2]
                answers[last if "nos" not in last else "boots nos"] += 1
                answers[text.split("\n")[0]] += status == 0
        modes = ["install", "rescue", "uninstall", "update", "embed"]
        wanted = ["table primary", "table backup", "boots nos"]
        wanted += [f"boots onie {mode}" for mode in modes]
        lacks = ["no table", "entries", "no onie", "two onie", "no image", "no variables"]
        wanted += [f"onie: not sound: {lack}" for lack in lacks]
        for answer in wanted:
            self.assertGreaterEqual(answers[answer], 3, (answer, answers))


if __name__ == "__main__":
    unittest.main()
