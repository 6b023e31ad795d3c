"""The TlvInfo module: worked bytes, each fault, and both directions over random fields."""

import random
import unittest
import zlib

from formats.decoding import DecodeError
from formats.tlvinfo import (
    CODES,
    EEPROM_SIZE,
    EncodeError,
    Fault,
    Field,
    decode,
    encode,
    has_length,
    may_repeat,
    sealed,
)

PLATFORM = (0x28, b"x86_64-kvm_x86_64-r0")
MAC = (0x24, bytes.fromhex("001122334455"))

SMALLEST = bytes.fromhex(
    "546c76496e666f00" "01" "0024"
    "28" "14" "7838365f36342d6b766d5f7838365f36342d7230"
    "24" "06" "001122334455"
    "fe" "04" "9921ba7f"
)
"""The smallest identity: a platform name and a MAC address."""


def changed(eeprom: bytes, changes: dict[int, int]) -> bytes:
    """`eeprom` with other bytes at some places."""
    new = bytearray(eeprom)
    for place, byte in changes.items():
        new[place] = byte
    return bytes(new)


def raw_field(code: int, value: bytes) -> bytes:
    """The bytes of a field, of any code and length."""
    return bytes([code, len(value)]) + value


def random_fields(numbers: random.Random) -> list[Field]:
    """A list that the format allows, but that may be too long as a whole."""
    fields: list[Field] = []
    for _ in range(numbers.randrange(14)):
        known, unknown = numbers.randrange(0x21, 0x30), numbers.randrange(0x30, 0xFD)
        code = numbers.choice([known, known, unknown, 0xFD, 0xFF])
        row = CODES.get(code)
        least, greatest = (row.least, row.greatest) if row else (0, 255)
        if may_repeat(code) or all(code != earlier for earlier, _ in fields):
            fields.append((code, numbers.randbytes(numbers.randint(least, greatest))))
    return fields


class Checksum(unittest.TestCase):
    def test_check_value(self) -> None:
        self.assertEqual(zlib.crc32(b"123456789"), 0xCBF43926)


class Encoding(unittest.TestCase):
    def test_smallest_identity(self) -> None:
        self.assertEqual(len(SMALLEST), 47)
        self.assertEqual(encode([PLATFORM, MAC]), SMALLEST)

    def test_longest(self) -> None:
        """The header, fields of 22, 8, 7 times 257 and 202 bytes, and FE of 6: 2,048 bytes."""
        fields = [PLATFORM, MAC, *[(0xFD, bytes(255))] * 7, (0xFD, bytes(200))]
        eeprom = encode(fields)
        self.assertEqual(len(eeprom), EEPROM_SIZE)
        self.assertEqual(eeprom[9:11].hex(), "07f5")
        self.assertEqual(decode(eeprom), fields)
        with self.assertRaisesRegex(EncodeError, "2049 bytes"):
            encode([*fields[:-1], (0xFD, bytes(201))])

    def test_refusals(self) -> None:
        cases = [
            ([(0xFE, bytes(4))], "checksum"),
            ([(0x24, bytes(5))], "field 24 can't have 5 bytes"),
            ([(0x21, bytes(256))], "field 21 can't have 256 bytes"),
            ([(0x30, bytes(256))], "field 30 can't have 256 bytes"),
            ([MAC, PLATFORM, MAC], "field 24 comes twice"),
            ([(0x100, b"")], "one byte"),
        ]
        for fields, message in cases:
            with self.subTest(message), self.assertRaisesRegex(EncodeError, message):
                encode(fields)

    def test_lengths(self) -> None:
        """The lengths of each code, and which codes may repeat."""
        fixed = {0x24: 6, 0x25: 19, 0x26: 1, 0x2A: 2, 0x2C: 2, 0xFE: 4}
        for code in range(256):
            lengths = [length for length in range(257) if has_length(code, length)]
            wanted = [fixed[code]] if code in fixed else list(range(256))
            self.assertEqual(lengths, wanted, f"{code:02X}")
            known = 0x21 <= code <= 0x2F or code == 0xFE
            self.assertEqual(may_repeat(code), not known, f"{code:02X}")


class Decoding(unittest.TestCase):
    def test_smallest_identity(self) -> None:
        self.assertEqual(decode(SMALLEST), [PLATFORM, MAC])

    def test_bytes_after_the_total_length(self) -> None:
        self.assertEqual(decode(SMALLEST + b"\xff" * 2001), [PLATFORM, MAC])

    def test_no_fields(self) -> None:
        self.assertEqual(decode(sealed(b"")), [])

    def test_repeating_codes(self) -> None:
        fields = [(0xFD, b"a"), (0x30, b""), (0xFF, b"b")] * 2
        self.assertEqual(decode(encode(fields)), fields)

    def test_value_bytes_are_free(self) -> None:
        fields = [(0x25, bytes(19)), (0x2C, b"\xff\x00"), (0x21, b"\x80\n")]
        self.assertEqual(decode(encode(fields)), fields)

    def check_faults(self, fault: Fault, cases: list[tuple[bytes, dict[str, int]]]) -> None:
        """Each of the bytes has this first fault, with these numbers."""
        for place, (eeprom, numbers) in enumerate(cases):
            with self.subTest(fault=fault, case=place):
                with self.assertRaises(DecodeError) as caught:
                    decode(eeprom)
                self.assertEqual(caught.exception.fault, fault)
                self.assertEqual(caught.exception.numbers, numbers)

    def test_header_faults(self) -> None:
        self.check_faults(
            Fault.NOT_TLV,
            [
                (b"", {}),
                (SMALLEST[:10], {}),
                (changed(SMALLEST, {0: 0x74}), {}),
                (changed(SMALLEST, {7: 1, 8: 2}), {}),
            ],
        )
        self.check_faults(
            Fault.VERSION,
            [
                (changed(SMALLEST, {8: 0}), {"version": 0}),
                (changed(SMALLEST, {8: 2, 9: 0xFF}), {"version": 2}),
            ],
        )
        long = sealed(raw_field(0x30, bytes(255)) * 8)
        self.check_faults(
            Fault.LENGTH,
            [
                (SMALLEST[:46], {"total": 36, "given": 46}),
                (changed(SMALLEST, {10: 0x25}), {"total": 37, "given": 47}),
                (SMALLEST[:11], {"total": 36, "given": 11}),
                (long, {"total": 2062, "given": 2073}),
            ],
        )

    def test_field_faults(self) -> None:
        mac = raw_field(*MAC)
        self.check_faults(
            Fault.CUT,
            [
                (changed(SMALLEST, {42: 5}), {"at": 41}),
                (changed(SMALLEST, {10: 0x1F}), {"at": 41}),
                (changed(SMALLEST, {10: 1}), {"at": 11}),
                (changed(SMALLEST, {12: 0xFF}), {"at": 11}),
            ],
        )
        self.check_faults(
            Fault.BAD_LENGTH,
            [
                (changed(SMALLEST, {34: 5}), {"code": 0x24, "length": 5}),
                (sealed(raw_field(0x2A, b"\1")), {"code": 0x2A, "length": 1}),
                (sealed(raw_field(0xFE, bytes(3))), {"code": 0xFE, "length": 3}),
                (sealed(mac + raw_field(0x24, b"")), {"code": 0x24, "length": 0}),
            ],
        )
        self.check_faults(
            Fault.REPEATED,
            [
                (sealed(mac * 2), {"code": 0x24}),
                (sealed(raw_field(0x21, b"") + mac + raw_field(0x21, b"a")), {"code": 0x21}),
            ],
        )

    def test_checksum_faults(self) -> None:
        platform, mac = raw_field(*PLATFORM), raw_field(*MAC)
        header = SMALLEST[:11]
        early = header + platform + b"\xfe\x04"
        early += zlib.crc32(early).to_bytes(4, "big") + mac
        self.check_faults(
            Fault.AFTER_CRC,
            [
                (early, {"at": 39}),
                (changed(early, {38: early[38] ^ 1}), {"at": 39}),
                (sealed(raw_field(0xFE, bytes(4))), {"at": 17}),
            ],
        )
        self.check_faults(
            Fault.NO_CRC,
            [
                (header[:10] + b"\x1e" + platform + mac, {}),
                (header[:10] + b"\x00", {}),
                (header[:10] + b"\x16" + SMALLEST[11:], {}),
            ],
        )
        right = 0x9921BA7F
        other = changed(SMALLEST, {40: 0x56})
        self.check_faults(
            Fault.CRC,
            [
                (changed(SMALLEST, {46: 0x7E}), {"kept": right ^ 1, "computed": right}),
                (other, {"kept": right, "computed": zlib.crc32(other[:43])}),
            ],
        )

    def test_random_fields(self) -> None:
        """300 random lists are read as they were written, or are too long to be written."""
        numbers = random.Random(20240611)
        written = 0
        for _ in range(300):
            fields = random_fields(numbers)
            if 17 + sum(2 + len(value) for _, value in fields) > EEPROM_SIZE:
                self.assertRaises(EncodeError, encode, fields)
                continue
            self.assertEqual(decode(encode(fields)), fields)
            written += 1
        self.assertGreater(written, 200)


if __name__ == "__main__":
    unittest.main()
