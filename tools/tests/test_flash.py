"""The flash module: worked bytes, which slot is current, wrong lines, and random flashes."""

import random
import string
import unittest
import uuid

from formats import flash
from formats.decoding import DecodeError
from formats.flash import (
    CONTENT_LIMIT,
    FLASH_SECTORS,
    SLOT_SIZE,
    EncodeError,
    Fault,
    Flash,
    Mode,
    Slot,
    current_slot,
    decode_variables,
    encode_slot,
    encode_variables,
    flash_image,
    mode_of,
    named_by,
    read_flash,
)

INSTALL = b"onie_boot_reason=install\0"
GUID = "01234567-89ab-cdef-0123-456700000001"


def slot_bytes(gate: bytes, number: int, length: int, content: bytes) -> bytes:
    """A slot spelled by hand, which need not be one."""
    body = number.to_bytes(8, "little") + length.to_bytes(4, "little") + content
    return gate.ljust(512, b"\0") + body.ljust(16 * 512, b"\0")


class FlashTest(unittest.TestCase):
    def check_fault(self, image: bytes, fault: Fault, **numbers: int) -> None:
        """The flash has no variables, for this fault with these numbers."""
        with self.assertRaises(DecodeError) as raised:
            read_flash(image)
        self.assertEqual((raised.exception.fault, raised.exception.numbers), (fault, numbers))


class Worked(FlashTest):
    def test_sizes(self) -> None:
        self.assertEqual((FLASH_SECTORS, SLOT_SIZE, CONTENT_LIMIT), (34, 8704, 8180))

    def test_one_slot(self) -> None:
        """Slot 0 with number 1 and one variable: all bytes of the flash."""
        image = flash_image(Slot(1, INSTALL))
        head = bytes.fromhex("0100000000000000" "19000000")
        wanted = b"ONIEOPEN" + bytes(504) + head + INSTALL
        self.assertEqual(image, wanted + bytes(34 * 512 - len(wanted)))
        self.assertEqual(read_flash(image), Flash(0, 1, {"onie_boot_reason": "install"}))

    def test_place_of_slot_1(self) -> None:
        """Its gate is sector 17."""
        image = flash_image(None, Slot(2**64 - 1, b"a=\0"))
        self.assertEqual(image[: 17 * 512], bytes(17 * 512))
        self.assertEqual(image[17 * 512 : 18 * 512], b"ONIEOPEN" + bytes(504))
        self.assertEqual(image[18 * 512 :][:16].hex(), "ff" * 8 + "03000000" + "613d0000")
        self.assertEqual(read_flash(image), Flash(1, 2**64 - 1, {"a": ""}))

    def test_written_slots_are_read(self) -> None:
        self.assertEqual(flash_image(None), bytes(34 * 512))
        for content in (b"", b"x", bytes(CONTENT_LIMIT), b"\xff" * 500):
            for number in (0, 1, 2**64 - 1):
                slot = Slot(number, content)
                self.assertEqual(flash.decode_slot(encode_slot(slot)), slot)
                self.assertEqual(current_slot(flash_image(slot)), (0, slot))
                self.assertEqual(current_slot(flash_image(None, slot)), (1, slot))

    def test_slots_that_are_refused(self) -> None:
        for slot in (Slot(-1, b""), Slot(2**64, b""), Slot(1, bytes(CONTENT_LIMIT + 1))):
            self.assertRaises(EncodeError, encode_slot, slot)


class Current(FlashTest):
    def check_current(self, first: bytes, second: bytes, place: int) -> None:
        """This slot of the two is the current one."""
        self.assertEqual(current_slot(first + second)[0], place)

    def test_greater_number(self) -> None:
        cases = [(1, 2, 1), (2, 1, 0), (0, 0, 0), (7, 7, 0), (0, 2**64 - 1, 1), (2**64 - 1, 0, 0)]
        for first, second, place in [*cases, (255, 256, 1), (2**32, 2**32 - 1, 0)]:
            with self.subTest(first=first, second=second):
                one, other = Slot(first, b"a=0\0"), Slot(second, b"a=1\0")
                self.assertEqual(read_flash(flash_image(one, other)).variables, {"a": str(place)})

    def test_closed_slots(self) -> None:
        """A slot counts where its gate begins with all eight bytes; the rest of it may be any."""
        opened = slot_bytes(b"ONIEOPEN" + b"\xff" * 504, 1, 0, b"")
        for gate in (b"", b"ONIEOPEM", b"onieopen", b"ONIEOPE", b"\0ONIEOPEN", b"\xff" * 512):
            closed = slot_bytes(gate, 9, 0, b"")
            self.check_current(opened, closed, 0)
            self.check_current(closed, opened, 1)
            self.check_fault(closed + closed, Fault.NO_SLOT)

    def test_lengths(self) -> None:
        """A slot with a length of more than 8,180 isn't open, however great its number."""
        one = slot_bytes(b"ONIEOPEN", 1, 0, b"")
        self.check_current(one, slot_bytes(b"ONIEOPEN", 2, 8180, b""), 1)
        for length in (8181, 8192, 2**31, 2**32 - 1):
            long = slot_bytes(b"ONIEOPEN", 2, length, b"")
            self.check_current(one, long, 0)
            self.check_current(long, one, 1)
            self.check_fault(long + long, Fault.NO_SLOT)
            with self.assertRaises(DecodeError) as raised:
                flash.decode_slot(long)
            self.assertEqual(raised.exception.numbers, {"length": length})

    def test_sizes(self) -> None:
        """A flash of fewer than 34 sectors has no slots; what stands after them doesn't count."""
        image = flash_image(Slot(1, INSTALL))
        for size, sectors in [(0, 0), (511, 0), (33 * 512, 33), (34 * 512 - 1, 33)]:
            self.check_fault(image[:size], Fault.TOO_SMALL, sectors=sectors)
        for more in (1, 512, 17 * 512):
            self.assertEqual(read_flash(image + b"\xff" * more), read_flash(image))

    def test_a_wrong_line_in_the_current_slot(self) -> None:
        """The other slot doesn't take its place."""
        self.check_fault(flash_image(Slot(1, INSTALL), Slot(2, b"a")), Fault.BAD_LINE, at=0)
        self.check_fault(flash_image(Slot(2, b"a"), Slot(1, INSTALL)), Fault.BAD_LINE, at=0)
        self.assertEqual(read_flash(flash_image(Slot(2, INSTALL), Slot(1, b"a"))).number, 2)


class Lines(FlashTest):
    def test_right_lines(self) -> None:
        cases: list[tuple[bytes, dict[str, str]]] = [
            (b"", {}),
            (b"a=\0", {"a": ""}),
            (b"_=1\0009=2\0", {"_": "1", "9": "2"}),
            (b"a==b=\0", {"a": "=b="}),
            (b"a= ~\0A=b\0", {"a": " ~", "A": "b"}),
            (b"n" * 64 + b"=\0", {"n" * 64: ""}),
            (b"a=" + b"v" * 8177 + b"\0", {"a": "v" * 8177}),
        ]
        for content, variables in cases:
            with self.subTest(content[:70]):
                self.assertEqual(decode_variables(content), variables)
                self.assertEqual(list(decode_variables(content)), list(variables))
                self.assertEqual(encode_variables(variables), content)

    def test_wrong_lines(self) -> None:
        """Each is the second line, which begins at 4, or the end of the content."""
        wrong = [b"a", b"a\0", b"\0", b"=b\0", b"b=c", b"b-=c\0", b"b =c\0", b"\xe9=c\0", b"a=c\0"]
        wrong += [b"b=\x1f\0", b"b=\x7f\0", b"b=\xe9\0", b"b=\n\0", b"n" * 65 + b"=\0"]
        for line in wrong:
            with self.subTest(line):
                self.check_fault(flash_image(Slot(1, b"a=b\0" + line)), Fault.BAD_LINE, at=4)
                self.check_fault(
                    flash_image(Slot(1, b"a=b\0" + line + b"also wrong")), Fault.BAD_LINE, at=4
                )

    def test_variables_that_are_refused(self) -> None:
        cases = [
            ({"": "a"}, "a name is 1 to 64"),
            ({"n" * 65: "a"}, "a name is 1 to 64"),
            ({"a-b": "a"}, "a name is 1 to 64"),
            ({"é": "a"}, "a name is 1 to 64"),
            ({"a": "é"}, "a value has"),
            ({"a": "\0"}, "a value has"),
            ({"a": "v" * 8178}, "8181 bytes, more than 8180"),
        ]
        for variables, message in cases:
            with self.subTest(message), self.assertRaisesRegex(EncodeError, message):
                encode_variables(variables)


class Meanings(unittest.TestCase):
    def test_modes(self) -> None:
        for word in ("install", "rescue", "uninstall", "update", "embed"):
            self.assertEqual(mode_of({"onie_boot_reason": word}), Mode(word))
        for value in ("", "Install", "install ", " install", "diag", "boot"):
            self.assertIsNone(mode_of({"onie_boot_reason": value}))
        self.assertIsNone(mode_of({"boot_reason": "install"}))

    def test_named(self) -> None:
        for guid in (GUID, GUID.upper()):
            self.assertEqual(named_by({"nos_bootcmd": f"boot {guid}"}), uuid.UUID(GUID))
        bad = ["", GUID, f"boot{GUID}", f"boot  {GUID}", f" boot {GUID}", f"boot {GUID} "]
        bad += [f"Boot {GUID}", f"boot {{{GUID}}}", "boot " + GUID.replace("-", ""), "boot "]
        bad += [f"boot {GUID[:-1]}", f"boot {GUID}0", f"boot {GUID[:-1]}g", f"boot urn:uuid:{GUID}"]
        bad += [f"boot {GUID[:7]}-{GUID[7]}{GUID[9:]}"]
        for value in bad:
            with self.subTest(value):
                self.assertIsNone(named_by({"nos_bootcmd": value}))
        self.assertIsNone(named_by({}))


class Random(FlashTest):
    def test_round_trip(self) -> None:
        """500 lists of variables are read as they were written, from the slot that counts."""
        choose = random.Random(34)
        letters = string.ascii_letters + string.digits + "_"
        values = "".join(map(chr, range(0x20, 0x7F)))
        for _ in range(500):
            variables = {
                "".join(choose.choices(letters, k=choose.randint(1, 64))): "".join(
                    choose.choices(values, k=choose.randint(0, 200))
                )
                for _ in range(choose.randint(0, 30))
            }
            content = encode_variables(variables)
            self.assertEqual(decode_variables(content), variables)
            number = choose.getrandbits(choose.choice([1, 8, 63]))
            older = Slot(number, choose.randbytes(choose.randint(0, 8180)))
            pair = [older, Slot(number + 1, content)]
            choose.shuffle(pair)
            read = read_flash(flash_image(pair[0], pair[1]))
            self.assertEqual(read.variables, variables)
            self.assertEqual(read.number, number + 1)

    def test_one_byte_changed(self) -> None:
        """Another byte in a line makes it wrong, or what is written for what is then read."""
        choose = random.Random(35)
        content = b"onie_boot_reason=install\0nos_bootcmd=\0install_url=http://a/b?c=d\0"
        for at in range(len(content)):
            for byte in (0, 0x3D, 0x7F, choose.randrange(256)):
                changed = content[:at] + bytes([byte]) + content[at + 1 :]
                try:
                    variables = decode_variables(changed)
                except DecodeError as error:
                    begin = error.numbers["at"]
                    self.assertTrue(begin == 0 or changed[begin - 1] == 0)
                else:
                    self.assertEqual(encode_variables(variables), changed)


if __name__ == "__main__":
    unittest.main()
