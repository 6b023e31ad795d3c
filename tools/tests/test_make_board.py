"""The board maker: its defaults, each kind of field, files, entries, variables, and refusals."""

import contextlib
import io
import os
import subprocess
import sys
import tempfile
import unittest
import uuid
from pathlib import Path

from boards import make_board, status
from formats import flash, gpt, tlvinfo
from gate.repository import TOP

SMALLEST = (
    "546c76496e666f000100242814"
    "7838365f36342d6b766d5f7838365f36342d72302406001122334455fe049921ba7f"
)
"""The default EEPROM: the smallest identity."""

ONIE_GUID = uuid.UUID("01234567-89ab-cdef-0123-4567000000ff")
ONIE = gpt.Entry(gpt.ONIE_BOOT, ONIE_GUID, 2048, 18431, 0, "ONIE-BOOT")
"""The default entry 1."""

USB0 = "usb0/onie-installer"
USB1 = "usb1/onie-installer-x86_64-kvm_x86_64-r0"


class BoardTest(unittest.TestCase):
    """A test with a folder of its own, in which boards are made."""

    def setUp(self) -> None:
        folder = tempfile.TemporaryDirectory()
        self.addCleanup(folder.cleanup)
        self.folder = Path(folder.name)
        self.board = self.folder / "board"

    def make(self, *options: str) -> None:
        """Makes the board, which must work and say nothing."""
        self.assertEqual(self.run_main(*options), (0, ""))

    def run_main(self, *options: str) -> tuple[int, str]:
        """The exit status and the standard error of the board maker."""
        with contextlib.redirect_stderr(io.StringIO()) as said:
            status = make_board.main([str(self.board), *options])
        return status, said.getvalue()

    def eeprom(self) -> bytes:
        return (self.board / "eeprom.bin").read_bytes()

    def table(self) -> gpt.Table:
        """The table of the disk, both copies of which must be readable and the same."""
        with (self.board / "disk.img").open("rb") as disk:
            tables = gpt.tables_of(disk)
        primary, backup = tables.values()
        assert primary is not None
        self.assertEqual(primary, backup)
        return primary

    def variables(self) -> dict[str, str]:
        """The variables of the flash."""
        return flash.read_flash((self.board / "flash.img").read_bytes()).variables

    def status(self) -> tuple[int, str]:
        """What `onie status` would say."""
        image = (self.board / "flash.img").read_bytes()
        with (self.board / "disk.img").open("rb") as disk:
            return status.status_text(disk, image)

    def files(self) -> dict[str, bytes]:
        """The bytes of each file of the board's media, by volume and name."""
        media = self.board / "media"
        found = sorted(path for path in media.rglob("*") if path.is_file())
        return {str(path.relative_to(media)): path.read_bytes() for path in found}


class Defaults(BoardTest):
    def test_without_options(self) -> None:
        self.make()
        self.assertEqual(self.eeprom().hex(), SMALLEST)
        self.assertEqual(self.files(), {USB0: b"hello", USB1: b"installer"})

    def test_fields_replace_the_default_fields_alone(self) -> None:
        self.make("--field", "21=Switch")
        self.assertEqual(tlvinfo.decode(self.eeprom()), [(0x21, b"Switch")])
        self.assertEqual(list(self.files()), [USB0, USB1])

    def test_files_replace_the_default_files_alone(self) -> None:
        self.make("--file", "sd/a=b")
        self.assertEqual(self.eeprom().hex(), SMALLEST)
        self.assertEqual(self.files(), {"sd/a": b"b"})

    def test_defaults_before_what_is_given(self) -> None:
        self.make("--defaults", "--field", "21=Switch", "--field", "24=02:00:00:00:00:0a")
        platform = (0x28, b"x86_64-kvm_x86_64-r0")
        given = [(0x21, b"Switch"), (0x24, bytes.fromhex("02000000000a"))]
        self.assertEqual(tlvinfo.decode(self.eeprom()), [platform, *given])
        self.assertEqual(list(self.files()), [USB0, USB1])

    def test_default_file_given_anew(self) -> None:
        self.make("--defaults", "--file", f"{USB0}=other", "--file", "sd/a=b")
        self.assertEqual(self.files(), {"sd/a": b"b", USB0: b"other", USB1: b"installer"})

    def test_same_options_same_bytes(self) -> None:
        options = ["--defaults", "--field", "FD=00ff", "--file", "sd/zeros=@70000"]
        boards = []
        for place in "first", "again":
            self.board = self.folder / place
            self.make(*options)
            boards.append({
                str(path.relative_to(self.board)): path.read_bytes()
                for path in sorted(self.board.rglob("*"))
                if path.is_file()
            })
        self.assertEqual(boards[0], boards[1])


class Fields(BoardTest):
    def test_kinds(self) -> None:
        """Each spelling, and the value that it stands for in hexadecimal."""
        cases = [
            ("21=", "21", ""),
            ("0x22=a=b ~", "22", "613d62207e"),
            ("2f= ", "2f", "20"),
            ("24=00:11:aA:Bb:44:ff", "24", "0011aabb44ff"),
            ("25=01/28/2026 16:59:08", "25", b"01/28/2026 16:59:08".hex()),
            ("26=0", "26", "00"),
            ("0x26=255", "26", "ff"),
            ("2A=0", "2a", "0000"),
            ("2a=65535", "2a", "ffff"),
            ("0x2A=258", "2a", "0102"),
            ("2C=dE", "2c", "6445"),
            ("FD=", "fd", ""),
            ("fd=00fFAb", "fd", "00ffab"),
            ("00=01", "00", "01"),
            ("30=" + "5a" * 255, "30", "5a" * 255),
            ("0xff=", "ff", ""),
        ]
        for place, (option, code, value) in enumerate(cases):
            with self.subTest(option):
                self.board = self.folder / str(place)
                self.make("--field", option)
                fields = [(int(code, 16), bytes.fromhex(value))]
                self.assertEqual(tlvinfo.decode(self.eeprom()), fields)

    def test_order_and_repeats(self) -> None:
        options = ["FD=01", "30=02", "23=x", "FD=01", "30=02", "21=y"]
        self.make(*(word for option in options for word in ("--field", option)))
        fields = [(0xFD, b"\1"), (0x30, b"\2")]
        wanted = [*fields, (0x23, b"x"), *fields, (0x21, b"y")]
        self.assertEqual(tlvinfo.decode(self.eeprom()), wanted)

    def test_longest(self) -> None:
        """Seven fields of 257 bytes and one of 232 fill the 2,048 bytes."""
        full = ["--field", "FD=" + "00" * 255] * 7
        self.make(*full, "--field", "FD=" + "00" * 230)
        self.assertEqual(len(self.eeprom()), 2048)


class Files(BoardTest):
    def test_contents_and_sizes(self) -> None:
        options = ["u/empty=", "u/text=a=b/c", "v/zeros=@3", "v/none=@0", "v/é=é", ".w/at=a@1"]
        self.make(*(word for option in options for word in ("--file", option)))
        wanted = {
            "u/empty": b"",
            "u/text": b"a=b/c",
            "v/zeros": bytes(3),
            "v/none": b"",
            "v/é": "é".encode(),
            ".w/at": b"a@1",
        }
        self.assertEqual(self.files(), wanted)

    def test_large_file_takes_no_room(self) -> None:
        self.make("--file", "u/large=@33554433")
        status = (self.board / "media/u/large").stat()
        self.assertEqual(status.st_size, 33_554_433)
        self.assertLess(status.st_blocks * 512, 1_000_000)


class Disk(BoardTest):
    def test_default_bytes(self) -> None:
        """Fields at their offsets, spelled by hand; all that isn't named is zeros."""
        self.make()
        image = (self.board / "disk.img").read_bytes()
        header = bytes.fromhex(
            "4546492050415254" "00000100" "5c000000" "35c2bc1b" "00000000"
            "0100000000000000" "ffff010000000000" "2200000000000000" "deff010000000000"
            "67452301ab89efcd0123456789abcdef"
            "0200000000000000" "80000000" "80000000" "f982335e"
        )
        entry = bytes.fromhex(
            "d5f7127456a1134b81dc867174929325" "67452301ab89efcd01234567000000ff"
            "0008000000000000" "ff47000000000000" "0000000000000000"
            "4f004e00490045002d0042004f004f005400"
        )
        places = bytes.fromhex("f00eb095" "00000000" "ffff010000000000" "0100000000000000")
        entries_at = bytes.fromhex("dfff010000000000")
        backup = header[:16] + places + header[40:72] + entries_at + header[80:]
        pieces = {
            512: header,
            1024: entry,
            2048 * 512: b"ONIEIMG1\1\0\0\0",
            2049 * 512: b"\1",
            131039 * 512: entry,
            131071 * 512: backup,
        }
        wanted = bytearray(131072 * 512)
        for offset, piece in pieces.items():
            wanted[offset : offset + len(piece)] = piece
        self.assertTrue(image == wanted)

    def test_default_table(self) -> None:
        self.make()
        disk = uuid.UUID("01234567-89ab-cdef-0123-456789abcdef")
        self.assertEqual(self.table(), gpt.Table(disk, 34, 131038, {1: ONIE}))
        image = (self.board / "disk.img").read_bytes()
        self.assertEqual(gpt.read_disk(image), (self.table(), gpt.Which.PRIMARY))
        self.assertEqual(self.status()[1].split("\n")[-2:], ["boots onie install", ""])

    def test_takes_little_room(self) -> None:
        """Of a disk the pieces that hold something take room, however large it is."""
        for place, sectors in enumerate((131072, 2**24)):
            self.board = self.folder / str(place)
            self.make("--sectors", str(sectors))
            found = (self.board / "disk.img").stat()
            self.assertEqual(found.st_size, sectors * 512)
            self.assertLess(found.st_blocks * 512, 1_000_000)

    def test_entries(self) -> None:
        """Entries replace the default one; kinds have words, and a GUID may be left out."""
        kind = "c12a7328-f81f-11d2-ba4b-00a0c93ec93b"
        own = "0F0E0D0C-0B0A-0908-0706-050403020100"
        self.make(
            f"--entry=3=linux,{own},40,50,a, b",
            f"--entry=128={kind},,60,60,",
            "--entry=1=onie,,51,59,\u00e9",
            "--entry=2=" + kind.upper() + ",,18446744073709551615,0,wrong",
            "--sectors=100",
        )
        numbered = "01234567-89ab-cdef-0123-4567000000"
        efi, first, second = (uuid.UUID(text) for text in (kind, numbered + "01", numbered + "02"))
        entries = {
            1: gpt.Entry(gpt.ONIE_BOOT, first, 51, 59, 0, "\u00e9"),
            2: gpt.Entry(efi, second, 2**64 - 1, 0, 0, "wrong"),
            3: gpt.Entry(gpt.LINUX_DATA, uuid.UUID(own), 40, 50, 0, "a, b"),
            128: gpt.Entry(efi, uuid.UUID(numbered + "80"), 60, 60, 0, ""),
        }
        self.assertEqual(self.table().entries, entries)
        self.assertEqual((self.table().first_usable, self.table().last_usable), (34, 66))

    def test_defaults_before_the_entries(self) -> None:
        self.make("--defaults", "--entry=2=linux,,18432,51199,NOS")
        self.assertEqual(self.table().entries[1], ONIE)
        self.assertEqual(list(self.table().entries), [1, 2])
        self.board = self.folder / "again"
        self.make("--defaults", "--entry=1=linux,,18432,51199,NOS")
        self.assertEqual(self.table().entries[1].kind, gpt.LINUX_DATA)

    def test_images(self) -> None:
        """Each entry of ONIE's type that has two usable sectors holds an image."""
        self.make(
            *("--entry=1=onie,,34,35,", "--entry=2=onie,,36,36,", "--entry=3=linux,,37,39,"),
            *("--entry=4=onie,,66,67,", "--entry=5=onie,,50,40,", "--entry=6=onie,,65,70,"),
            *("--entry=7=onie,,33,40,", "--sectors=100"),
        )
        image = (self.board / "disk.img").read_bytes()
        begins = [lba for lba in range(100) if image[lba * 512 :].startswith(b"ONIEIMG1")]
        self.assertEqual(begins, [34, 65])
        self.assertEqual(image[65 * 512 : 67 * 512], image[34 * 512 : 36 * 512])

    def test_smallest_disk(self) -> None:
        self.make("--sectors=68", "--entry=1=linux,,34,34,")
        self.assertEqual((self.table().first_usable, self.table().last_usable), (34, 34))

    def test_none(self) -> None:
        self.make("--no-disk")
        names = ["eeprom.bin", "flash.img", "media", "net.txt"]
        self.assertEqual(sorted(os.listdir(self.board)), names)


class FlashImage(BoardTest):
    def test_default_bytes(self) -> None:
        self.make()
        image = (self.board / "flash.img").read_bytes()
        pieces = {0: b"ONIEOPEN", 512: b"\1", 520: b"\x19", 524: b"onie_boot_reason=install"}
        wanted = bytearray(34 * 512)
        for offset, piece in pieces.items():
            wanted[offset : offset + len(piece)] = piece
        self.assertEqual(image, bytes(wanted))
        read = flash.Flash(0, 1, {"onie_boot_reason": "install"})
        self.assertEqual(flash.read_flash(image), read)

    def test_variables(self) -> None:
        """They replace the default one, in the order given."""
        self.make("--variable", "b==", "--variable", "a=", "--variable", "_9=a b")
        self.assertEqual(list(self.variables().items()), [("b", "="), ("a", ""), ("_9", "a b")])

    def test_defaults_before_the_variables(self) -> None:
        self.make("--defaults", "--variable", "a=b")
        self.assertEqual(self.variables(), {"onie_boot_reason": "install", "a": "b"})
        self.board = self.folder / "again"
        self.make("--defaults", "--variable", "onie_boot_reason=rescue")
        self.assertEqual(self.variables(), {"onie_boot_reason": "rescue"})

    def test_longest(self) -> None:
        self.make("--variable", "a=" + "v" * 8177)
        self.assertEqual(len(self.variables()["a"]), 8177)

    def test_none(self) -> None:
        self.make("--no-flash")
        names = ["disk.img", "eeprom.bin", "media", "net.txt"]
        self.assertEqual(sorted(os.listdir(self.board)), names)

    def test_example_of_the_help(self) -> None:
        """A board that boots the NOS in entry 2."""
        guid = "01234567-89ab-cdef-0123-456700000002"
        self.make(
            *("--defaults", "--entry", "2=linux,,18432,51199,NOS"),
            *("--variable", "onie_boot_reason=", "--variable", f"nos_bootcmd=boot {guid}"),
        )
        self.assertIn(f"\nboots nos {guid}\n", self.status()[1])


class Script(BoardTest):
    def test_empty(self) -> None:
        self.make()
        self.assertEqual((self.board / "net.txt").read_bytes(), b"")

    def test_copied(self) -> None:
        """The bytes of the file, whatever they are; the file stays."""
        script = self.folder / "script"
        for place, text in enumerate((b"", b"iface eth0\n", b"\xff\r\nwrong\0")):
            script.write_bytes(text)
            self.board = self.folder / str(place)
            self.make("--script", str(script))
            self.assertEqual((self.board / "net.txt").read_bytes(), text)
            self.assertEqual(script.read_bytes(), text)


class Refusals(BoardTest):
    def check_refused(self, message: str, *options: str) -> None:
        """The options are refused in one line that has the message, and nothing is written."""
        status, said = self.run_main(*options)
        self.assertEqual(status, 2)
        self.assertRegex(said, r"\Amake_board: [^\n]+\n\Z")
        self.assertIn(message, said)
        self.assertFalse(self.board.exists())

    def test_fields(self) -> None:
        text = "text of the characters from space to ~"
        decimal = "a decimal of 0 to 255 without leading zeros"
        cases = [
            ("21", "is not CODE=TEXT"),
            ("2=a", "a code is two hexadecimal digits"),
            ("0X21=a", "a code is two hexadecimal digits"),
            ("021=a", "a code is two hexadecimal digits"),
            ("2g=a", "a code is two hexadecimal digits"),
            ("=a", "a code is two hexadecimal digits"),
            ("FE=00000000", "field FE is the checksum"),
            ("0xfe=", "field FE is the checksum"),
            ("21=é", text),
            ("28=a\nb", text),
            ("21=" + "a" * 256, "field 21 can't have 256 bytes"),
            ("24=00:11:22:33:44", "a MAC address"),
            ("24=00:11:22:33:44:55:66", "a MAC address"),
            ("24=00-11-22-33-44-55", "a MAC address"),
            ("24=00:11:22:33:44:5g", "a MAC address"),
            ("25=1/28/2026 16:59:08", "a date"),
            ("25=01-28-2026 16:59:08", "a date"),
            ("25=01/28/2026 16:59:08 ", "a date"),
            ("26=256", decimal),
            ("26=00", decimal),
            ("26=-1", decimal),
            ("26=", decimal),
            ("26=٣", decimal),
            ("2A=65536", "a decimal of 0 to 65535"),
            ("2A=99999999", "a decimal of 0 to 65535"),
            ("2A=0x10", "a decimal of 0 to 65535"),
            ("2C=D", "two letters"),
            ("2C=DEU", "two letters"),
            ("2C=U5", "two letters"),
            ("FD=0", "hexadecimal digits in pairs"),
            ("FD=00 11", "hexadecimal digits in pairs"),
            ("30=xy", "hexadecimal digits in pairs"),
            ("30=" + "00" * 256, "field 30 can't have 256 bytes"),
        ]
        for option, message in cases:
            with self.subTest(option):
                self.check_refused(message, "--field", option)

    def test_repeated_code(self) -> None:
        self.check_refused("field 21 comes twice", "--field", "21=a", "--field", "0x21=a")

    def test_too_long(self) -> None:
        full = ["--field", "FD=" + "00" * 255] * 7
        self.check_refused("2049 bytes", *full, "--field", "30=" + "00" * 231)

    def test_files(self) -> None:
        cases = [
            ("usb0/a", "is not VOLUME/NAME=CONTENT"),
            ("usb0=a", "is not VOLUME/NAME=CONTENT"),
            ("/a=b", "is not a volume, one slash and a file name"),
            ("usb0/=b", "is not a volume, one slash and a file name"),
            ("usb0/a/b=c", "is not a volume, one slash and a file name"),
            ("../a=b", "is not a volume, one slash and a file name"),
            ("usb0/.=b", "is not a volume, one slash and a file name"),
            ("usb0/a=@", "a size is @ and 1 to 18 decimal digits"),
            ("usb0/a=@x", "a size is @ and 1 to 18 decimal digits"),
            ("usb0/a=@-1", "a size is @ and 1 to 18 decimal digits"),
            ("usb0/a=@" + "1" * 19, "a size is @ and 1 to 18 decimal digits"),
        ]
        for option, message in cases:
            with self.subTest(option):
                self.check_refused(message, "--file", option)

    def test_file_given_twice(self) -> None:
        self.check_refused("'u/a' is given twice", "--file", "u/a=b", "--file", "u/a=@1")

    def test_entries(self) -> None:
        form = "is not NUMBER=KIND,GUID,FIRST,LAST,NAME"
        decimals = "FIRST and LAST are decimals"
        cases = [
            ("1", form),
            ("1,onie,,34,40,", form),
            ("1=onie,,34,40", form),
            ("0=onie,,34,40,", "a number from 1 to 128"),
            ("129=onie,,34,40,", "a number from 1 to 128"),
            ("01=onie,,34,40,", "a number from 1 to 128"),
            ("=onie,,34,40,", "a number from 1 to 128"),
            ("1=ONIE,,34,40,", "a kind is onie, linux or the GUID of a type"),
            ("1=,,34,40,", "a kind is onie, linux or the GUID of a type"),
            ("1=00000000-0000-0000-0000-000000000000,,34,40,", "that of an unused entry"),
            ("1=onie,1,34,40,", "'1' is no GUID"),
            ("1=onie,0123456789abcdef0123456789abcdef,34,40,", "is no GUID"),
            ("1=onie,,0x22,40,", decimals),
            ("1=onie,,34,,", decimals),
            ("1=onie,,034,40,", decimals),
            ("1=onie,,-1,40,", decimals),
            ("1=onie,,34,\u0664,", decimals),
            ("1=onie,,34,18446744073709551616,", "is no number of eight bytes"),
            ("1=onie,,34,40," + "n" * 37, "the name has 37 units, more than 36"),
        ]
        for option, message in cases:
            with self.subTest(option):
                self.check_refused(message, "--entry", option)
        twice = ("--entry", "7=onie,,34,40,", "--entry", "7=linux,,41,50,")
        self.check_refused("entry 7 is given twice", *twice)

    def test_sectors(self) -> None:
        for size in ("67", "0", "-1", "068", "", "x", "1099511627777", "9" * 30):
            message = "a disk with a table has 68 to 1099511627776 sectors"
            self.check_refused(message, f"--sectors={size}")
        message = "the default entry 1 ends with the sector 18431"
        self.check_refused(message, "--sectors=18464")
        self.check_refused(message, "--defaults", "--sectors=68", "--entry=2=linux,,34,34,")
        self.make("--sectors=18465")

    def test_variables(self) -> None:
        cases = [
            ("a", "is not NAME=VALUE"),
            ("=a", "a name is 1 to 64 letters, digits or _"),
            ("a-b=c", "a name is 1 to 64 letters, digits or _"),
            ("n" * 65 + "=", "a name is 1 to 64 letters, digits or _"),
            ("a=\u00e9", "a value has the characters from space to ~"),
            ("a=b\nc", "a value has the characters from space to ~"),
            ("a=" + "v" * 8178, "8181 bytes, more than 8180"),
        ]
        for option, message in cases:
            with self.subTest(message):
                self.check_refused(message, "--variable", option)
        self.check_refused("variable 'a' is given twice", "--variable=a=", "--variable=a=b")

    def test_options_without_their_file(self) -> None:
        self.check_refused("--no-disk makes no disk", "--no-disk", "--entry=1=onie,,34,40,")
        self.check_refused("--no-disk makes no disk", "--no-disk", "--sectors=100")
        self.check_refused("--no-flash makes no flash", "--no-flash", "--variable=a=b")

    def test_script_that_is_no_file(self) -> None:
        self.check_refused("nowhere", "--script", str(self.folder / "nowhere"))
        self.check_refused(self.folder.name, "--script", str(self.folder))

    def test_options(self) -> None:
        self.check_refused("unrecognized arguments: --files", "--files")
        self.check_refused("unrecognized arguments: a b", "a\nb")
        self.check_refused("expected one argument", "--field")

    def test_what_stands_in_the_folder_is_kept(self) -> None:
        for name in ("eeprom.bin", "media", "disk.img", "flash.img", "net.txt"):
            with self.subTest(name):
                self.board = self.folder / name / "board"
                self.board.mkdir(parents=True)
                (self.board / name).write_text("old")
                status, said = self.run_main()
                self.assertEqual(status, 2)
                self.assertIn("is there already", said)
                self.assertEqual([path.name for path in self.board.iterdir()], [name])
                self.assertEqual((self.board / name).read_text(), "old")

    def test_a_disk_and_a_flash_that_are_not_made(self) -> None:
        """They may stand there already, and stay."""
        self.board.mkdir()
        for name in ("disk.img", "flash.img"):
            (self.board / name).write_text("old")
        self.make("--no-disk", "--no-flash")
        self.assertEqual((self.board / "disk.img").read_text(), "old")
        self.assertEqual((self.board / "flash.img").read_text(), "old")
        self.assertEqual(self.eeprom().hex(), SMALLEST)

    def test_what_the_system_refuses(self) -> None:
        self.board.write_text("no folder")
        status, said = self.run_main()
        self.assertEqual(status, 2)
        self.assertRegex(said, r"\Amake_board: [^\n]+\n\Z")


class Command(BoardTest):
    """The script as a command of its own."""

    def run_script(self, *words: str) -> subprocess.CompletedProcess[str]:
        command = [sys.executable, str(TOP / "tools"), "make_board", *words]
        return subprocess.run(command, capture_output=True, text=True, timeout=20, check=False)

    def test_makes_a_board(self) -> None:
        done = self.run_script(str(self.board))
        self.assertEqual((done.returncode, done.stdout, done.stderr), (0, "", ""))
        self.assertEqual(self.eeprom().hex(), SMALLEST)

    def test_refuses(self) -> None:
        done = self.run_script(str(self.board), "--field", "FE=00")
        said = "make_board: field FE is the checksum, which is written by itself\n"
        self.assertEqual((done.returncode, done.stdout, done.stderr), (2, "", said))

    def test_help_has_examples(self) -> None:
        done = self.run_script("--help")
        self.assertEqual(done.returncode, 0)
        self.assertIn("make_board board --defaults --field 21=Switch", done.stdout)


if __name__ == "__main__":
    unittest.main()
