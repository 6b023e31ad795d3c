"""`onie eeprom` and `onie eeprom set` against a reader and a writer of the format in Python."""

import random
import resource
import signal
import string
import subprocess
import tempfile
import unittest
from collections.abc import Callable
from pathlib import Path

from formats import tlvinfo
from formats.tlvinfo import CODES, EEPROM_SIZE, Field, Kind

from tests.program import PROGRAM, SECONDS, needs_program

SMALLEST = [(0x28, b"x86_64-kvm_x86_64-r0"), (0x24, bytes.fromhex("001122334455"))]
PRINTABLE = bytes(range(0x20, 0x7F))


def random_value(choose: random.Random, code: int, longest: int) -> bytes:
    """A value of `code` that a text can spell, of at most `longest` bytes where that is free."""
    kind = CODES[code].kind if code in CODES else Kind.RAW
    if kind is Kind.TEXT:
        return bytes(choose.choices(PRINTABLE, k=choose.randint(0, longest)))
    if kind is Kind.DATE:
        return "".join(
            choose.choice(string.digits) if mark.isalpha() else mark
            for mark in "MM/DD/YYYY HH:MM:SS"
        ).encode()
    if kind is Kind.LETTERS:
        return "".join(choose.choices(string.ascii_letters, k=2)).encode()
    if kind in (Kind.MAC, Kind.BYTE, Kind.WORD):
        return choose.randbytes(CODES[code].least)
    return choose.randbytes(choose.randint(0, longest))


def random_code(choose: random.Random) -> int:
    """A code other than the checksum's; known ones more often."""
    if choose.random() < 0.7:
        return choose.choice([code for code in CODES if code != tlvinfo.CHECKSUM_CODE])
    return choose.choice([code for code in range(256) if code != tlvinfo.CHECKSUM_CODE])


def random_fields(choose: random.Random) -> list[Field]:
    """Fields that may stand together, with values that texts can spell; some fill it all."""
    full = choose.random() < 0.2
    longest = 255 if full else 20
    fields: list[Field] = []
    for _ in range(40 if full else choose.randint(0, 14)):
        code = random_code(choose)
        if any(code == earlier for earlier, _ in fields) and not tlvinfo.may_repeat(code):
            continue
        more = [*fields, (code, random_value(choose, code, longest))]
        if len(tlvinfo.sealed(b"".join(bytes([c, len(v)]) + v for c, v in more))) <= EEPROM_SIZE:
            fields = more
    return fields


def refuse_writes() -> None:
    """Lets no file of this process grow past its front, so that a write to one fails."""
    signal.signal(signal.SIGXFSZ, signal.SIG_IGN)
    resource.setrlimit(resource.RLIMIT_FSIZE, (0, 0))


@needs_program
class EepromCommandsTest(unittest.TestCase):
    """The commands over a real file."""

    def setUp(self) -> None:
        folder = tempfile.TemporaryDirectory()
        self.addCleanup(folder.cleanup)
        self.folder = Path(folder.name)
        self.eeprom = self.folder / "eeprom.bin"

    def run_onie(
        self, *words: str, before: Callable[[], None] | None = None
    ) -> tuple[int, str]:
        """The status and the output of the program, in whose process `before` runs first."""
        ended = subprocess.run(
            [PROGRAM, *words],
            cwd=self.folder,
            capture_output=True,
            timeout=SECONDS,
            check=False,
            preexec_fn=before,
        )
        self.assertEqual(ended.stderr, b"")
        return ended.returncode, ended.stdout.decode("ascii")

    def test_worked_values(self) -> None:
        """The smallest identity, and 256 as its number of addresses."""
        self.eeprom.write_bytes(tlvinfo.encode(SMALLEST))
        fields = "0x28 x86_64-kvm_x86_64-r0\n0x24 00:11:22:33:44:55\n"
        self.assertEqual(self.run_onie("eeprom"), (0, fields))
        self.assertEqual(self.run_onie("eeprom", "set", "0x2A", "256"), (0, ""))
        self.assertEqual(self.eeprom.read_bytes()[:11].hex(), "546c76496e666f00010028")
        self.assertEqual(self.eeprom.read_bytes()[41:].hex(), "2a020100fe045e691504")
        self.assertEqual(self.run_onie("eeprom"), (0, fields + "0x2A 256\n"))

    def test_refusals_store_nothing(self) -> None:
        """The checksum's code, texts that spell no value, and words that are no command."""
        before = tlvinfo.encode(SMALLEST) + b"left alone"
        self.eeprom.write_bytes(before)
        for code, text, status, line in [
            ("0xFE", "00", 12, "onie: refused: bad code\n"),
            ("0x2A", "0256", 12, "onie: refused: bad value\n"),
            ("0x2A", "65536", 12, "onie: refused: bad value\n"),
            ("0x24", "00:11:22:33:44", 12, "onie: refused: bad value\n"),
            ("0x21", "\u00e9", 12, "onie: refused: bad value\n"),
            ("0x25", "1/02/2030 03:04:05", 12, "onie: refused: bad value\n"),
            ("0x2C", "D1", 12, "onie: refused: bad value\n"),
            ("0xFD", "abc", 12, "onie: refused: bad value\n"),
            ("21", "X", 2, "onie: usage\n"),
            ("0X21", "X", 2, "onie: usage\n"),
        ]:
            with self.subTest(code=code, text=text):
                self.assertEqual(self.run_onie("eeprom", "set", code, text), (status, line))
                self.assertEqual(self.eeprom.read_bytes(), before)

    def test_eeprom_that_is_no_tlvinfo(self) -> None:
        """Both commands name the fault; a missing file is the device's."""
        for words in [("eeprom",), ("eeprom", "set", "0x21", "X")]:
            with self.subTest(words=words):
                self.eeprom.unlink(missing_ok=True)
                self.assertEqual(self.run_onie(*words), (7, "onie: eeprom fault\n"))
                self.assertFalse(self.eeprom.exists())
                self.eeprom.write_bytes(tlvinfo.encode(SMALLEST)[:-1])
                self.assertEqual(self.run_onie(*words), (4, "onie: eeprom: length\n"))

    def test_a_store_that_fails(self) -> None:
        """A write that the system refuses is the device's fault."""
        before = tlvinfo.encode(SMALLEST)
        self.eeprom.write_bytes(before)
        words = ("eeprom", "set", "0x21", "X")
        self.assertEqual(self.run_onie(*words, before=refuse_writes), (7, "onie: eeprom fault\n"))
        self.assertEqual(self.eeprom.read_bytes(), before)

    def test_random_fields(self) -> None:
        """1,000 lists: printed as Python prints them, changed as Python changes them."""
        choose = random.Random(2048)
        too_long = 0
        for number in range(1000):
            fields = random_fields(choose)
            spelling = tlvinfo.encode(fields)
            behind = choose.randbytes(choose.randint(0, EEPROM_SIZE - len(spelling)))
            code = random_code(choose)
            value = random_value(choose, code, 255 if number % 2 else 20)
            with self.subTest(number=number):
                self.eeprom.write_bytes(spelling + behind)
                self.check_printed(fields)
                too_long += self.check_set(fields, behind, code, value)
        self.assertGreater(too_long, 10)

    def check_printed(self, fields: list[Field]) -> None:
        """`eeprom` prints the fields, and Python reads from its lines the same fields."""
        status, text = self.run_onie("eeprom")
        self.assertEqual(status, 0)
        self.assertEqual(text, "".join(f"0x{c:02X} {tlvinfo.printed(c, v)}\n" for c, v in fields))
        read = [(int(line[:4], 16), line[5:]) for line in text.split("\n")[:-1]]
        self.assertEqual([(code, tlvinfo.spelled(code, line)) for code, line in read], fields)

    def check_set(self, fields: list[Field], behind: bytes, code: int, value: bytes) -> bool:
        """`eeprom set` stores what Python makes of it, or refuses it as too long: then True."""
        before = self.eeprom.read_bytes()
        words = ("eeprom", "set", f"0x{code:02x}", tlvinfo.printed(code, value))
        changed = tlvinfo.with_value(fields, code, value)
        try:
            spelling = tlvinfo.encode(changed)
        except tlvinfo.EncodeError:
            self.assertEqual(self.run_onie(*words), (12, "onie: refused: too long\n"))
            self.assertEqual(self.eeprom.read_bytes(), before)
            return True
        self.assertEqual(self.run_onie(*words), (0, ""))
        self.assertEqual(self.eeprom.read_bytes(), spelling + before[len(spelling) :])
        self.check_printed(changed)
        return False


if __name__ == "__main__":
    unittest.main()
