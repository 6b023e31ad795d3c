"""The built program over boards that make_board makes."""

import os
import shutil
import subprocess
import tempfile
import unittest
from pathlib import Path
from typing import BinaryIO

from boards import make_board
from formats import tlvinfo

from tests.program import PROGRAM, SECONDS, needs_program

PLATFORM = (0x28, b"x86_64-kvm_x86_64-r0")
MAC = (0x24, bytes.fromhex("001122334455"))

NAMES = [
    "onie-installer-x86_64-kvm_x86_64-r0",
    "onie-installer-x86_64-kvm_x86_64-r0.bin",
    "onie-installer-x86_64-kvm_x86_64",
    "onie-installer-x86_64-kvm_x86_64.bin",
    "onie-installer-kvm_x86_64",
    "onie-installer-kvm_x86_64.bin",
    "onie-installer-x86_64",
    "onie-installer-x86_64.bin",
    "onie-installer",
    "onie-installer.bin",
]
"""The names of the platform x86_64-kvm_x86_64-r0, in order."""

TWO_VOLUMES = """\
miss file://usb0/onie-installer-x86_64-kvm_x86_64-r0: no file
miss file://usb0/onie-installer-x86_64-kvm_x86_64-r0.bin: no file
miss file://usb0/onie-installer-x86_64-kvm_x86_64: no file
miss file://usb0/onie-installer-x86_64-kvm_x86_64.bin: no file
miss file://usb0/onie-installer-kvm_x86_64: no file
miss file://usb0/onie-installer-kvm_x86_64.bin: no file
miss file://usb0/onie-installer-x86_64: no file
miss file://usb0/onie-installer-x86_64.bin: no file
found file://usb0/onie-installer: 5 bytes
miss file://usb0/onie-installer.bin: no file
found file://usb1/onie-installer-x86_64-kvm_x86_64-r0: 9 bytes
miss file://usb1/onie-installer-x86_64-kvm_x86_64-r0.bin: no file
miss file://usb1/onie-installer-x86_64-kvm_x86_64: no file
miss file://usb1/onie-installer-x86_64-kvm_x86_64.bin: no file
miss file://usb1/onie-installer-kvm_x86_64: no file
miss file://usb1/onie-installer-kvm_x86_64.bin: no file
miss file://usb1/onie-installer-x86_64: no file
miss file://usb1/onie-installer-x86_64.bin: no file
miss file://usb1/onie-installer: no file
miss file://usb1/onie-installer.bin: no file
"""
"""What `discover` prints over the default board."""


def lines(volume: str, answers: dict[str, str], names: list[str] = NAMES) -> str:
    """The lines of one volume: each name is missed as no file, but for those with an answer.

    An answer is `N bytes` for a file that is found, and otherwise the cause of the miss.
    """
    text = ""
    for name in names:
        answer = answers.get(name, "no file")
        word = "found" if answer.endswith(" bytes") else "miss"
        text += f"{word} file://{volume}/{name}: {answer}\n"
    return text


@needs_program
class ProgramTest(unittest.TestCase):
    """A test with a board of its own."""

    def setUp(self) -> None:
        folder = tempfile.TemporaryDirectory()
        self.addCleanup(folder.cleanup)
        self.board = Path(folder.name) / "board"
        self.media = self.board / "media"
        self.eeprom = self.board / "eeprom.bin"

    def make(self, *options: str) -> None:
        """Makes the board."""
        self.assertEqual(make_board.main([str(self.board), *options]), 0)

    def run_program(
        self, words: list[str | bytes], console: BinaryIO | int = subprocess.PIPE
    ) -> tuple[int, str]:
        """The exit status and the console's text of the program, run in the board's folder."""
        try:
            done = subprocess.run(
                [PROGRAM, *words],
                cwd=self.board,
                stdin=subprocess.DEVNULL,
                stdout=console,
                stderr=subprocess.PIPE,
                timeout=SECONDS,
                check=False,
            )
        except subprocess.TimeoutExpired:
            self.fail(f"the program still runs after {SECONDS} s")
        return done.returncode, os.fsdecode(done.stdout or b"")

    def check(self, status: int, console: str, words: list[str | bytes] | None = None) -> None:
        """The program ends with this status and this text on its console; words: `discover`."""
        ended = self.run_program(["discover"] if words is None else words)
        self.assertEqual(ended[1], console)
        self.assertEqual(ended[0], status)


class Console(ProgramTest):
    def test_two_volumes(self) -> None:
        self.make()
        self.check(0, TWO_VOLUMES)

    def test_each_name_is_found(self) -> None:
        sizes = {name: place * 1000 for place, name in enumerate(NAMES)}
        self.make(*(f"--file=usb0/{name}=@{size}" for name, size in sizes.items()))
        self.check(0, lines("usb0", {name: f"{size} bytes" for name, size in sizes.items()}))

    def test_no_volumes(self) -> None:
        self.make("--file=usb0/other=x")
        shutil.rmtree(self.media / "usb0")
        self.check(0, "")

    def test_full_console(self) -> None:
        self.make()
        with open("/dev/full", "wb") as full:
            self.assertEqual(self.run_program(["discover"], full)[0], 10)
            self.assertEqual(self.run_program([], full)[0], 10)


class Usage(ProgramTest):
    """Words that are no command: no device is used."""

    def check_words(self, *words: str | bytes) -> None:
        """The words are refused."""
        with self.subTest(words):
            self.check(2, "onie: usage\n", list(words))

    def test_words(self) -> None:
        self.make()
        self.check_words()
        self.check_words("")
        self.check_words("Discover")
        self.check_words("discover ")
        self.check_words("discover", "")
        self.check_words("discover", "discover")

    def test_words_that_are_not_utf8(self) -> None:
        self.make()
        self.check_words(b"\xff")
        self.check_words(b"discover\xff")
        self.check_words(b"discover", b"\xff")

    def test_in_an_empty_folder(self) -> None:
        self.board.mkdir()
        self.check_words()
        self.check_words("disco")


class Names(ProgramTest):
    def check_names(self, platform: str, names: list[str]) -> None:
        """Discovery asks for these names, in this order, on a board of this platform."""
        self.make(f"--field=28={platform}", "--field=24=02:00:00:00:00:01", "--file=u/x=y")
        self.check(0, lines("u", {}, names))

    def test_parts_of_the_platform(self) -> None:
        """The first dash ends the arch, and the last -r begins the revision."""
        self.check_names(
            "arm-acme.x-r2-y-r10",
            [
                "onie-installer-arm-acme.x-r2-y-r10",
                "onie-installer-arm-acme.x-r2-y-r10.bin",
                "onie-installer-arm-acme.x-r2-y",
                "onie-installer-arm-acme.x-r2-y.bin",
                "onie-installer-acme.x-r2-y",
                "onie-installer-acme.x-r2-y.bin",
                "onie-installer-arm",
                "onie-installer-arm.bin",
                "onie-installer",
                "onie-installer.bin",
            ],
        )

    def test_machine_named_as_the_arch(self) -> None:
        """A name that came before doesn't come again."""
        self.check_names(
            "x-x-r0",
            [
                "onie-installer-x-x-r0",
                "onie-installer-x-x-r0.bin",
                "onie-installer-x-x",
                "onie-installer-x-x.bin",
                "onie-installer-x",
                "onie-installer-x.bin",
                "onie-installer",
                "onie-installer.bin",
            ],
        )

    def test_machine_named_as_the_arch_and_bin(self) -> None:
        """The machine's bare name is that of the arch with .bin, and comes once."""
        self.check_names(
            "x-x.bin-r0",
            [
                "onie-installer-x-x.bin-r0",
                "onie-installer-x-x.bin-r0.bin",
                "onie-installer-x-x.bin",
                "onie-installer-x-x.bin.bin",
                "onie-installer-x.bin",
                "onie-installer-x.bin.bin",
                "onie-installer-x",
                "onie-installer",
                "onie-installer.bin",
            ],
        )

    def test_longest_platform(self) -> None:
        """A platform of 200 bytes is one; one of 201 bytes is none."""
        machine = "m" * 195
        mac = "--field=24=02:00:00:00:00:01"
        name = f"onie-installer-a-{machine}-r0.bin"
        self.make(f"--field=28=a-{machine}-r0", mac, f"--file=u/{name}=four")
        self.assertIn(f"found file://u/{name}: 4 bytes\n", self.run_program(["discover"])[1])
        self.eeprom.write_bytes(tlvinfo.encode([(0x28, f"a-m{machine}-r0".encode()), MAC]))
        self.check(4, "onie: eeprom: platform\n")


class Eeprom(ProgramTest):
    def check_refused(self, word: str, eeprom: bytes) -> None:
        """These bytes are refused with this word."""
        with self.subTest(word, eeprom=eeprom.hex()):
            self.eeprom.write_bytes(eeprom)
            self.check(4, f"onie: eeprom: {word}\n")

    def test_missing(self) -> None:
        self.make()
        self.eeprom.unlink()
        self.check(7, "onie: eeprom fault\n")

    def test_no_tlvinfo(self) -> None:
        """Each way in which bytes are no TlvInfo, made from a right one of 47 bytes."""
        self.make()
        right = self.eeprom.read_bytes()
        header, platform, mac = right[:11], right[11:33], right[33:41]

        def changed(place: int, byte: int) -> bytes:
            return right[:place] + bytes([byte]) + right[place + 1 :]

        self.check_refused("not tlv", b"")
        self.check_refused("not tlv", changed(0, 0x74))
        self.check_refused("version", changed(8, 2))
        self.check_refused("length", right[:46])
        self.check_refused("cut", changed(42, 5))
        self.check_refused("bad length", changed(34, 5))
        self.check_refused("repeated", tlvinfo.sealed(platform + mac + mac))
        self.check_refused("after crc", tlvinfo.sealed(platform + b"\xfe\4abcd" + mac))
        self.check_refused("no crc", header[:10] + b"\x1e" + platform + mac)
        self.check_refused("crc", changed(46, 0x7E))
        self.check_refused("crc", changed(40, 0x56))

    def test_no_identity(self) -> None:
        self.make()
        self.check_refused("no platform", tlvinfo.encode([]))
        self.check_refused("no platform", tlvinfo.encode([MAC]))
        self.check_refused("no mac", tlvinfo.encode([PLATFORM]))
        for text in ("", "a", "a-b", "a-r1", "-b-r1", "a--r1", "a-b-r", "a-b-r1-r", "a b-c-r1"):
            self.check_refused("platform", tlvinfo.encode([(0x28, text.encode())]))

    def test_refused_before_the_media(self) -> None:
        self.make()
        shutil.rmtree(self.media)
        self.check_refused("no platform", tlvinfo.encode([MAC]))

    def test_bytes_that_are_not_looked_at(self) -> None:
        """Bytes after the total length, and those of the file after the first 2,048."""
        self.make()
        right = self.eeprom.read_bytes()
        for size in (1, 2001, 5000):
            with self.subTest(size):
                self.eeprom.write_bytes(right + b"\xff" * size)
                self.check(0, TWO_VOLUMES)

    def test_other_fields(self) -> None:
        """Fields that make no part of the identity, in any place, change nothing."""
        fields = [(0x30, b""), MAC, (0xFD, b"a"), (0xFD, b"a"), (0x21, b"\xff\n"), PLATFORM]
        self.make()
        self.eeprom.write_bytes(tlvinfo.encode(fields))
        self.check(0, TWO_VOLUMES)


class Media(ProgramTest):
    def test_missing(self) -> None:
        self.make()
        shutil.rmtree(self.media)
        self.check(8, "onie: media fault\n")

    def test_what_is_a_file(self) -> None:
        """Links are followed, and only a regular file is one; a FIFO isn't opened."""
        self.make("--file=usb0/target=seven b")
        usb0 = self.media / "usb0"
        places = [usb0 / name for name in NAMES]
        places[0].mkdir()
        os.mkfifo(places[1])
        places[2].symlink_to("nowhere")
        places[3].symlink_to("target")
        places[4].symlink_to(places[1].name)
        places[5].symlink_to(places[0].name)
        self.check(0, lines("usb0", {NAMES[3]: "7 bytes"}))

    def test_link_to_itself(self) -> None:
        self.make("--file=usb0/onie-installer=x")
        (self.media / "usb0" / NAMES[0]).symlink_to(NAMES[0])
        self.check(0, lines("usb0", {"onie-installer": "1 bytes"}))

    def test_largest_file(self) -> None:
        """A file of 33,554,432 bytes is found, and one of a byte more is too large."""
        self.make(f"--file=usb0/{NAMES[0]}=@33554433", f"--file=usb0/{NAMES[1]}=@33554432")
        answers = {NAMES[0]: "too large", NAMES[1]: "33554432 bytes"}
        self.check(0, lines("usb0", answers))

    def test_what_is_a_volume(self) -> None:
        """Folders are volumes, links followed; all else in media/ is skipped."""
        self.make("--file=usb1/onie-installer=one")
        (self.media / "plain").write_text("no folder")
        (self.media / "broken").symlink_to("nowhere")
        (self.media / "linked-file").symlink_to("plain")
        os.mkfifo(self.media / "fifo")
        elsewhere = self.board / "elsewhere"
        elsewhere.mkdir()
        (elsewhere / "onie-installer").write_text("linked")
        (self.media / "usb0").symlink_to("../elsewhere")
        first = lines("usb0", {"onie-installer": "6 bytes"})
        self.check(0, first + lines("usb1", {"onie-installer": "3 bytes"}))

    def test_order_of_volumes(self) -> None:
        """Volumes come in the order of the bytes of their names, those with a dot too."""
        self.make("--file=usb1/other=x")
        ordered = [".usb", "Usb", "a b", "usb", "usb-1", "usb0", "usb1", "usb10", "usb2", "é"]
        for name in reversed(ordered):
            (self.media / name).mkdir(exist_ok=True)
        self.check(0, "".join(lines(name, {}) for name in ordered))

    def test_volume_net(self) -> None:
        """The volume net is no local medium; names that are alike are."""
        self.make("--file=net/onie-installer=x", "--file=Net/a=b", "--file=net0/onie-installer=y")
        self.check(0, lines("Net", {}) + lines("net0", {"onie-installer": "1 bytes"}))


if __name__ == "__main__":
    unittest.main()
