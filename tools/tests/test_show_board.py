"""The board's picture: the map, each part and what is missing or wrong in it, and random boards."""

import contextlib
import io
import os
import pty
import random
import re
import subprocess
import sys
import tempfile
import unittest
import uuid
from pathlib import Path

from boards import disk_map, make_board, show_board
from boards.terminal import Paint, counted, plain, size_text
from formats.flash import Slot, flash_image
from formats.gpt import LINUX_DATA, ONIE_BOOT, Entry, Table, copies
from gate.repository import TOP

from tests.random_boards import random_disk, random_flash
from tests.status_board import BOARD, NOS, NOS_GUID, ONIE, ONIE_GUID, SECTORS

DEFAULT = """\
disk.img
  64.0 MiB, 131072 sectors
  #.AAAAAAAA.............................................................#
  # readable copy of the table, ! broken copy, A to z entries, . free
  primary copy, sectors 1 to 33: readable
  backup copy, sectors 131039 to 131071: readable
  both copies are the same table
  disk GUID 01234567-89ab-cdef-0123-456789abcdef
  A entry 1: 8.0 MiB, sectors 2048 to 18431, 'ONIE-BOOT'
      ONIE boot, GUID 01234567-89ab-cdef-0123-4567000000ff
      ONIE's image of 1 byte
  . free: 56.0 MiB of 64.0 MiB, in 2 runs
flash.img
  17.0 KiB, 34 sectors
  slot 0: open, number 1, 25 bytes, current
  slot 1: closed
  onie_boot_reason=install
      ONIE boots in mode install
status: boots onie install
eeprom.bin
  47 bytes
  0x28 platform name    x86_64-kvm_x86_64-r0
  0x24 base MAC address 00:11:22:33:44:55
media
  2 volumes
  usb0
      onie-installer: 5 bytes
  usb1
      onie-installer-x86_64-kvm_x86_64-r0: 9 bytes
"""


class Texts(unittest.TestCase):
    def test_sizes(self) -> None:
        cases = [
            (0, "0 bytes"),
            (1, "1 byte"),
            (1023, "1023 bytes"),
            (1024, "1.0 KiB"),
            (1536, "1.5 KiB"),
            (2**20, "1.0 MiB"),
            (33_554_433, "32.0 MiB"),
            (2**30, "1.0 GiB"),
            (2**49, "512.0 TiB"),
            (2**64 * 512, "8192.0 EiB"),
        ]
        for size, text in cases:
            self.assertEqual(size_text(size), text)
        runs = [counted(number, "run") for number in (0, 1, 2)]
        self.assertEqual(runs, ["0 runs", "1 run", "2 runs"])

    def test_plain(self) -> None:
        self.assertEqual(plain("a b~"), "a b~")
        self.assertEqual(plain("é\n\x1b\udcff\U0001f980"), r"\xe9\n\x1b\udcff\U0001f980")

    def test_paint(self) -> None:
        off, on = Paint(False), Paint(True)
        for text in (off.heading("a"), off.warning("a"), off.area("a", 3)):
            self.assertEqual(text, "a")
        for text in (on.heading("a"), on.warning("a"), on.area("a", 103)):
            self.assertRegex(text, r"\A\x1b\[[0-9;]+ma\x1b\[0m\Z")


class Maps(unittest.TestCase):
    def bar(self, *spans: tuple[int, int], sectors: int = 137) -> str:
        """The bar of a disk, here with 70 sectors between the copies, and of its entries."""
        entries = {
            number: Entry(LINUX_DATA, uuid.UUID(int=number), first, last)
            for number, (first, last) in enumerate(spans, 1)
        }
        table = Table(BOARD.disk, 34, sectors - 34, entries)
        text = disk_map.bar(table, sectors, (True, True))
        self.assertEqual((len(text), text[0], text[-1]), (72, "#", "#"))
        return text[1:-1]

    def test_a_sector_a_column(self) -> None:
        self.assertEqual(self.bar(), "." * 70)
        self.assertEqual(self.bar((34, 103)), "A" * 70)
        self.assertEqual(self.bar((35, 36), (34, 34), (102, 103)), "ABB" + "." * 65 + "CC")
        self.assertEqual(self.bar((34, 68), (69, 103)), "A" * 35 + "B" * 35)

    def test_small_entries_are_seen(self) -> None:
        """Each has a column, though the disk is large."""
        text = self.bar((34, 34), (2000, 2000), (9_999_966, 9_999_966), sectors=10_000_000)
        self.assertEqual(text, "B" + "." * 68 + "C")
        text = self.bar((34, 9_999_966), (5_000_100, 5_000_100), sectors=10_000_000)
        self.assertEqual(text, "A" * 35 + "B" + "A" * 34)

    def test_smallest_disk(self) -> None:
        self.assertEqual(self.bar((34, 34), sectors=68), "A" * 70)
        self.assertEqual(self.bar(sectors=68), "." * 70)

    def test_entries_that_pass_the_limits(self) -> None:
        """What lies between the copies is drawn, and nothing of what ends before it begins."""
        self.assertEqual(self.bar((0, 35), (100, 2**64 - 1)), "AA" + "." * 64 + "BBBB")
        for span in [(0, 33), (104, 200), (50, 40), (2**64 - 1, 0), (2**63, 2**64 - 1)]:
            self.assertEqual(self.bar(span), "." * 70, span)

    def test_many_entries(self) -> None:
        """Those after the 52nd have one mark in common."""
        text = self.bar(*((34 + place, 34 + place) for place in range(70)))
        self.assertEqual(text, disk_map.LETTERS + "+" * 18)

    def test_copies(self) -> None:
        for readable, ends in [((True, False), "#!"), ((False, True), "!#")]:
            text = disk_map.bar(BOARD, SECTORS, readable)
            self.assertEqual(text[0] + text[-1], ends)
        self.assertEqual(disk_map.bar(None, SECTORS, (False, False)), "!" + "?" * 70 + "!")

    def test_free_runs(self) -> None:
        def runs(*spans: tuple[int, int]) -> list[tuple[int, int]]:
            entries = {n: Entry(LINUX_DATA, NOS_GUID, *span) for n, span in enumerate(spans)}
            return disk_map.free_runs(Table(BOARD.disk, 40, 60, entries))

        self.assertEqual(runs(), [(40, 60)])
        self.assertEqual(runs((40, 60)), [])
        self.assertEqual(runs((50, 50)), [(40, 49), (51, 60)])
        self.assertEqual(runs((40, 41), (42, 58)), [(59, 60)])
        self.assertEqual(runs((45, 50), (48, 49), (50, 52)), [(40, 44), (53, 60)])
        self.assertEqual(runs((0, 40), (60, 2**64 - 1)), [(41, 59)])
        self.assertEqual(runs((0, 39), (61, 99), (50, 49)), [(40, 60)])
        self.assertEqual(runs((70, 80)), [(40, 60)])


class BoardTest(unittest.TestCase):
    """A test with a board of its own."""

    def setUp(self) -> None:
        folder = tempfile.TemporaryDirectory()
        self.addCleanup(folder.cleanup)
        self.board = Path(folder.name) / "board"

    def make(self, *options: str) -> None:
        """Makes the board."""
        self.assertEqual(make_board.main([str(self.board), *options]), 0)

    def patch(self, lba: int, piece: bytes) -> None:
        """Puts other bytes onto the disk, from the front of a sector."""
        with (self.board / "disk.img").open("r+b") as disk:
            disk.seek(lba * 512)
            disk.write(piece)

    def shown(self) -> str:
        """What is shown of the board, which is plain ASCII in lines."""
        with contextlib.redirect_stdout(io.StringIO()) as shown:
            self.assertEqual(show_board.main([str(self.board)]), 0)
        self.assertRegex(shown.getvalue(), r"\A([ -~]+\n)+\Z")
        return shown.getvalue()

    def check_shown(self, *lines: str) -> None:
        """These lines are shown, one directly after the other."""
        self.assertIn("".join(f"{line}\n" for line in lines), self.shown())


class Disks(BoardTest):
    def test_default(self) -> None:
        self.make()
        self.assertEqual(self.shown(), DEFAULT)

    def test_broken_copies(self) -> None:
        self.make()
        self.patch(1, b"\0")
        self.check_shown(
            "  primary copy, sectors 1 to 33: not readable",
            "  backup copy, sectors 131039 to 131071: readable",
            "  the backup counts",
        )
        self.assertIn("  !.AAAAAAAA....", self.shown())
        self.patch(SECTORS - 1, b"\0")
        self.check_shown(
            "  backup copy, sectors 131039 to 131071: not readable", "  there is no table"
        )
        self.assertIn("  !????", self.shown())
        self.check_shown("status: not sound: no table")

    def test_copies_that_differ(self) -> None:
        self.make()
        other = Table(uuid.UUID(int=1), 40, 131_038, {1: ONIE, 2: NOS, 128: NOS})
        self.patch(SECTORS - 33, copies(other, SECTORS)[SECTORS - 33])
        what = "the disk's GUID, the usable sectors, entry 2, entry 128"
        self.check_shown(f"  the copies differ in {what}; the primary counts")
        self.patch(SECTORS - 1, b"\0")
        self.check_shown("  the primary counts")

    def test_entries(self) -> None:
        """They stand in the order of their places; names are plain; wrong ones are told of."""
        self.make(
            "--defaults",
            "--entry=3=linux,,18432,18432,",
            "--entry=2=c12a7328-f81f-11d2-ba4b-00a0c93ec93b,,1000,2048,é",
            f"--entry=9=linux,{ONIE_GUID},60000,50000,",
            "--entry=8=onie,,131030,131039,x",
        )
        self.check_shown(
            "  A entry 2: 524.5 KiB, sectors 1000 to 2048, '?'",
            "      type c12a7328-f81f-11d2-ba4b-00a0c93ec93b,"
            " GUID 01234567-89ab-cdef-0123-456700000002",
            "      it shares sectors with entry 1",
            "  B entry 1: 8.0 MiB, sectors 2048 to 18431, 'ONIE-BOOT'",
            "      ONIE boot, GUID 01234567-89ab-cdef-0123-4567000000ff",
            "      ONIE's image of 1 byte",
            "      it shares sectors with entry 2",
            "      it has the GUID of entry 9",
            "  C entry 3: 512 bytes, sector 18432, ''",
            "      Linux data, GUID 01234567-89ab-cdef-0123-456700000003",
            "  D entry 9: 0 bytes, sectors 60000 to 50000, ''",
            "      Linux data, GUID 01234567-89ab-cdef-0123-4567000000ff",
            "      it ends before it begins",
            "      it has the GUID of entry 1",
            "  E entry 8: 5.0 KiB, sectors 131030 to 131039, 'x'",
            "      ONIE boot, GUID 01234567-89ab-cdef-0123-456700000008",
            "      ONIE's image of 1 byte",
            "      it isn't within the usable sectors 34 to 131038",
        )
        self.check_shown("status: not sound: entries")

    def test_attributes_and_no_image(self) -> None:
        self.make()
        entry = Entry(ONIE_BOOT, ONIE_GUID, 3000, 3000, 2**63, "")
        for lba, copy in copies(Table(BOARD.disk, 34, 131_038, {128: entry}), SECTORS).items():
            self.patch(lba, copy)
        self.check_shown(
            "  A entry 128: 512 bytes, sector 3000, ''",
            "      ONIE boot, GUID 01234567-89ab-cdef-0123-4567000000ff",
            "      no image of ONIE",
            "      attributes 0x8000000000000000",
        )

    def test_small_disk(self) -> None:
        self.make("--sectors=68", "--entry=1=onie,,34,34,")
        self.check_shown(
            "  34.0 KiB, 68 sectors",
            "  #" + "A" * 70 + "#",
            "  # readable copy of the table, ! broken copy, A to z entries, . free",
        )
        self.check_shown("  . free: 0 bytes of 512 bytes, in 0 runs")
        os.truncate(self.board / "disk.img", 67 * 512)
        self.check_shown("  33.5 KiB, 67 sectors", "  there is no table: too few sectors for one")


class Flashes(BoardTest):
    def check_variables(self, *lines: str, **variables: str) -> None:
        """These lines are shown of the variables, on a board with ONIE and a NOS."""
        content = "".join(f"{name}={value}\0" for name, value in variables.items())
        (self.board / "flash.img").write_bytes(flash_image(None, Slot(7, content.encode())))
        size = f"{len(content)} bytes"
        self.check_shown(
            "  slot 0: closed", f"  slot 1: open, number 7, {size}, current", *lines
        )

    def test_meanings(self) -> None:
        self.make("--defaults", f"--entry=2=linux,{NOS_GUID},18432,51199,NOS")
        self.check_variables("  no variable is set", "status: boots onie install")
        command = f"boot {str(NOS_GUID).upper()}"
        self.check_variables(
            "  onie_boot_reason=",
            "      no mode, so it counts as absent",
            f"  nos_bootcmd={command}",
            "      names the NOS in entry 2",
            "  a=b",
            f"status: boots nos {NOS_GUID}",
            onie_boot_reason="",
            nos_bootcmd=command,
            a="b",
        )
        self.check_variables(
            "  install_url=x",
            "      where an installer is looked for first",
            "  update_url=",
            "      empty, so it counts as absent",
            "  onie_switch_asic=bcm",
            "      the switch silicon",
            install_url="x",
            update_url="",
            onie_switch_asic="bcm",
        )
        absent = "      counts as absent"
        self.check_variables("  onie_switch_asic=a b", absent, onie_switch_asic="a b")

    def test_what_the_boot_command_names(self) -> None:
        self.make()
        for command, what in [
            ("", "names nothing: it isn't `boot`, one space and a GUID"),
            (f"boot {ONIE_GUID}", "names ONIE's own entry 1"),
            (f"boot {NOS_GUID}", "names a GUID that no entry has"),
        ]:
            self.check_variables(f"  nos_bootcmd={command}", f"      {what}", nos_bootcmd=command)
        os.truncate(self.board / "disk.img", 0)
        what = "      names a NOS, but there is no table"
        self.check_variables(f"  nos_bootcmd=boot {NOS_GUID}", what, nos_bootcmd=f"boot {NOS_GUID}")

    def test_no_variables(self) -> None:
        self.make()
        image = self.board / "flash.img"
        image.write_bytes(bytes(34 * 512))
        self.check_shown(
            "  slot 0: closed", "  slot 1: closed", "  no variables: no slot is open",
            "status: not sound: no variables",
        )
        image.write_bytes(flash_image(Slot(1, b"a=\0b\0"), Slot(0, b"c=d\0")))
        self.check_shown(
            "  slot 0: open, number 1, 5 bytes, current",
            "  slot 1: open, number 0, 4 bytes",
            "  no variables: the current slot has a wrong line at offset 3",
        )
        long = flash_image(Slot(2**64 - 1, b""))
        image.write_bytes(long[:520] + b"\xff\xff\0\0" + long[524:])
        self.check_shown("  slot 0: its gate is open, but its length of 65535 is too great")
        image.write_bytes(bytes(33 * 512))
        self.check_shown(
            "  16.5 KiB, 33 sectors", "  no room for two slots, which take 34 sectors"
        )


class Others(BoardTest):
    def test_eeprom(self) -> None:
        self.make("--field=21=a b", "--field=FD=00ff", "--field=30=", "--field=2A=258")
        self.check_shown(
            "eeprom.bin",
            "  32 bytes",
            "  0x21 product name            a b",
            "  0xFD vendor extension        00ff",
            "  0x30",
            "  0x2A number of MAC addresses 258",
            "media",
        )
        (self.board / "eeprom.bin").write_bytes(b"TlvInfo")
        self.check_shown("eeprom.bin", "  7 bytes", "  no TlvInfo data: not tlv")

    def test_media(self) -> None:
        """Volumes and what stands in them, in order of the bytes of names; links are followed."""
        self.make("--file=usb0/é=@1048576", "--file=net/nos.bin=a", "--file=.dot/a=")
        volume = self.board / "media/usb0"
        (volume / "folder").mkdir()
        os.mkfifo(volume / "fifo")
        (volume / "link").symlink_to("é")
        (volume / "nowhere").symlink_to("nothing")
        (volume / "a\nb").write_text("")
        (self.board / "media/plain").write_text("")
        self.check_shown(
            "media",
            "  3 volumes",
            "  .dot",
            "      a: 0 bytes",
            "  net (served bodies, no local medium)",
            "      nos.bin: 1 byte",
            "  usb0",
            "      a\\nb: 0 bytes",
            "      fifo: no regular file",
            "      folder: a folder, no file",
            "      link: 1.0 MiB",
            "      nowhere: a link to nothing",
            "      \\xe9: 1.0 MiB",
        )

    def test_missing(self) -> None:
        """An empty folder is shown too, and one with parts that are none."""
        self.board.mkdir()
        names = ["disk.img", "flash.img", "eeprom.bin", "media"]
        parts = [f"{name}: missing\n" for name in names]
        parts.insert(2, "status: plant fault\n")
        self.assertEqual(self.shown(), "".join(parts))
        os.mkfifo(self.board / "disk.img")
        (self.board / "flash.img").mkdir()
        (self.board / "eeprom.bin").symlink_to("nowhere")
        (self.board / "media").write_text("")
        text = self.shown()
        for name in names[:3]:
            self.assertIn(f"{name}: no regular file\n", text)
        self.assertIn("status: plant fault\n", text)
        self.assertIn("media: no folder\n", text)

    def test_one_file_is_missing(self) -> None:
        for name in ("disk.img", "flash.img", "eeprom.bin"):
            with self.subTest(name):
                self.board = self.board.parent / name
                self.make()
                (self.board / name).unlink()
                text = self.shown()
                self.assertIn(f"{name}: missing\n", text)
                self.assertEqual("plant fault" in text, name != "eeprom.bin")
                self.assertIn("      onie-installer: 5 bytes\n", text)

    def test_random_boards(self) -> None:
        """Whatever a board holds, it is shown in lines of plain ASCII, and not changed."""
        choose = random.Random(72)
        self.board.mkdir()
        for number in range(150):
            image, table = random_disk(choose)
            small = choose.randbytes(choose.randrange(3000))
            files = {"disk.img": image, "eeprom.bin": small}
            files["flash.img"] = random_flash(choose, table)
            for name, content in files.items():
                (self.board / name).write_bytes(content)
            with self.subTest(number=number):
                text = self.shown()
                bars = re.findall(r"(?m)^  ([#!][.?A-Za-z+]{70}[#!])$", text)
                self.assertEqual(len(bars), len(image) >= 68 * 512)
            for name, content in files.items():
                self.assertEqual((self.board / name).read_bytes(), content)


class Command(BoardTest):
    """The script as a command of its own."""

    def run_script(self, *words: str, stdout: int = subprocess.PIPE) -> tuple[int, str, str]:
        variables = {**os.environ, "LC_ALL": "C", "PYTHONIOENCODING": "ascii"}
        variables.pop("NO_COLOR", None)
        done = subprocess.run(
            [sys.executable, str(TOP / "tools"), "show_board", *words],
            stdin=subprocess.DEVNULL,
            stdout=stdout,
            stderr=subprocess.PIPE,
            env=variables,
            text=True,
            timeout=20,
            check=False,
        )
        return done.returncode, done.stdout, done.stderr

    def test_shows_a_board(self) -> None:
        self.make()
        self.assertEqual(self.run_script(str(self.board)), (0, DEFAULT, ""))

    def test_colours_on_a_terminal_alone(self) -> None:
        """What is left without them is the plain text."""
        self.make()
        master, slave = pty.openpty()
        self.assertEqual(self.run_script(str(self.board), stdout=slave)[0], 0)
        os.close(slave)
        shown = b""
        with contextlib.suppress(OSError):
            while piece := os.read(master, 65536):
                shown += piece
        os.close(master)
        text = shown.decode("ascii").replace("\r\n", "\n")
        self.assertIn("\x1b[1mdisk.img\x1b[0m\n", text)
        self.assertIn("\x1b[30;46mAAAAAAAA\x1b[0m", text)
        self.assertEqual(re.sub(r"\x1b\[[0-9;]*m", "", text), DEFAULT)

    def test_closed_pipe(self) -> None:
        self.make()
        reader, writer = os.pipe()
        os.close(reader)
        ended = self.run_script(str(self.board), stdout=writer)
        os.close(writer)
        self.assertEqual((ended[0], ended[2]), (0, ""))

    def test_no_folder(self) -> None:
        for path in (self.board, Path(__file__)):
            said = f"show_board: {path} is no folder\n"
            self.assertEqual(self.run_script(str(path)), (2, "", said))

    def test_help_has_examples(self) -> None:
        status, text, _ = self.run_script("--help")
        self.assertEqual(status, 0)
        self.assertIn("show_board board | less", text)


if __name__ == "__main__":
    unittest.main()
