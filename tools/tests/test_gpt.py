"""The partition table module: worked bytes, each row of a copy, and random tables and bytes."""

import random
import subprocess
import tempfile
import unittest
import uuid
import zlib
from dataclasses import replace
from pathlib import Path

from formats.gpt import (
    COPY_SIZE,
    ENTRIES_SIZE,
    ENTRY_COUNT,
    HEADER_SIZE,
    LINUX_DATA,
    ONIE_BOOT,
    SECTOR_SIZE,
    UNUSED,
    EncodeError,
    Entry,
    Table,
    Which,
    decode_copy,
    disk_image,
    encode_copy,
    header_sealed,
    joined,
    parted,
    protective_sector,
    read_disk,
    sealed,
    tables_of,
)

from tests import sgdisk

SECTORS = 128
LAST = SECTORS - 1
BOOT = Entry(
    ONIE_BOOT, uuid.UUID("01020304-0506-0708-090a-0b0c0d0e0f10"), 40, 71, name="ONIE-BOOT"
)
SMALL = Table(uuid.UUID("00112233-4455-6677-8899-aabbccddeeff"), 34, 94, {1: BOOT})
"""A table with one partition, for a disk of 128 sectors."""

HEADERS = {
    Which.PRIMARY: bytes.fromhex(
        "4546492050415254" "00000100" "5c000000" "70865c49" "00000000"
        "0100000000000000" "7f00000000000000" "2200000000000000" "5e00000000000000"
        "33221100554477668899aabbccddeeff"
        "0200000000000000" "80000000" "80000000" "7465560f"
    ),
    Which.BACKUP: bytes.fromhex(
        "4546492050415254" "00000100" "5c000000" "74beed95" "00000000"
        "7f00000000000000" "0100000000000000" "2200000000000000" "5e00000000000000"
        "33221100554477668899aabbccddeeff"
        "5f00000000000000" "80000000" "80000000" "7465560f"
    ),
}
BOOT_BYTES = bytes.fromhex(
    "d5f7127456a1134b81dc867174929325" "0403020106050807090a0b0c0d0e0f10"
    "2800000000000000" "4700000000000000" "0000000000000000"
    "4f004e00490045002d0042004f004f005400"
).ljust(128, b"\0")


def long(number: int) -> bytes:
    """The eight bytes of a number."""
    return number.to_bytes(8, "little")


def with_header(copy: bytes, which: Which, offset: int, new: bytes) -> bytes:
    """`copy` with other bytes in its header sector, and checksums as they were."""
    header, entries = parted(copy, which)
    return joined(header[:offset] + new + header[offset + len(new) :], entries, which)


def with_entries(copy: bytes, which: Which, offset: int, new: bytes) -> bytes:
    """`copy` with other bytes in its entries, and checksums as they were."""
    header, entries = parted(copy, which)
    return joined(header, entries[:offset] + new + entries[offset + len(new) :], which)


def broken(image: bytes, lba: int) -> bytes:
    """`image` with the last bit of the first byte of a sector turned."""
    place = lba * SECTOR_SIZE
    return image[:place] + bytes([image[place] ^ 1]) + image[place + 1 :]


def random_guid(numbers: random.Random) -> uuid.UUID:
    """A GUID of random bytes, which are hardly ever all zeros."""
    return uuid.UUID(bytes=numbers.randbytes(16))


def random_name(numbers: random.Random) -> str:
    """A name of at most 36 units: letters, other characters of one unit, and some of two."""
    name, units = "", numbers.choice([0, numbers.randrange(37), 36])
    while units > 0:
        one = chr(numbers.choice([numbers.randint(1, 0x7F), numbers.randint(0xA0, 0xD7FF)]))
        two = chr(numbers.randint(0x10000, 0x10FFFF))
        character = two if units > 1 and numbers.random() < 0.2 else one
        name += character
        units -= len(character.encode("utf-16-le")) // 2
    return name


def random_entry(numbers: random.Random, first_usable: int, last_usable: int) -> Entry:
    """An entry in the usable LBAs, or in one of eight with any numbers."""
    kind = numbers.choice([ONIE_BOOT, LINUX_DATA, random_guid(numbers)])
    first = numbers.randint(first_usable, last_usable)
    last = numbers.randint(first, last_usable)
    if numbers.random() < 0.125:
        first, last = numbers.getrandbits(64), numbers.getrandbits(64)
    attributes = numbers.choice([0, numbers.getrandbits(64)])
    name = random_name(numbers)
    return Entry(kind, random_guid(numbers), first, last, attributes, name)


def random_table(numbers: random.Random, sectors: int) -> Table:
    """A table for a disk of so many sectors, in one of four with an entry 128."""
    first_usable = numbers.randint(34, sectors - 34)
    last_usable = numbers.randint(first_usable, sectors - 34)
    used = set(numbers.sample(range(1, ENTRY_COUNT), numbers.choice([0, 1, 4, 20, 127])))
    used |= {ENTRY_COUNT} if numbers.random() < 0.25 else set()
    entries = {
        number: random_entry(numbers, first_usable, last_usable) for number in sorted(used)
    }
    return Table(random_guid(numbers), first_usable, last_usable, entries)


class Encoding(unittest.TestCase):
    def test_types(self) -> None:
        """The bytes of the two types at the front of an entry."""
        cases = [
            (ONIE_BOOT, "d5f71274" "56a1134b" "81dc8671" "74929325"),
            (LINUX_DATA, "af3dc60f" "83847247" "8e793d69" "d8477de4"),
        ]
        for kind, wanted in cases:
            table = replace(SMALL, entries={1: replace(BOOT, kind=kind)})
            _, entries = parted(encode_copy(table, Which.PRIMARY, LAST), Which.PRIMARY)
            self.assertEqual(entries[:16], bytes.fromhex(wanted))

    def test_small_table(self) -> None:
        entries = BOOT_BYTES + bytes(127 * 128)
        primary = HEADERS[Which.PRIMARY] + bytes(420) + entries
        backup = entries + HEADERS[Which.BACKUP] + bytes(420)
        self.assertEqual(encode_copy(SMALL, Which.PRIMARY, LAST), primary)
        self.assertEqual(encode_copy(SMALL, Which.BACKUP, LAST), backup)
        for header in HEADERS.values():
            kept = int.from_bytes(header[16:20], "little")
            self.assertEqual(zlib.crc32(header[:16] + bytes(4) + header[20:]), kept)
            self.assertEqual(zlib.crc32(entries), int.from_bytes(header[88:], "little"))

    def test_places_of_entries(self) -> None:
        """Entry 1 is the first of 128 places, and entry 128 the last."""
        for number in (1, 2, 127, 128):
            copy = encode_copy(replace(SMALL, entries={number: BOOT}), Which.BACKUP, LAST)
            before, after = bytes(128 * (number - 1)), bytes(128 * (128 - number))
            self.assertEqual(copy[:ENTRIES_SIZE], before + BOOT_BYTES + after)

    def test_image(self) -> None:
        """Sector 0, both copies where they belong, and zeros between."""
        image = disk_image(SMALL, SECTORS)
        self.assertEqual(len(image), SECTORS * 512)
        self.assertEqual(image[:512], protective_sector(SECTORS))
        self.assertEqual(image[512 : 34 * 512], encode_copy(SMALL, Which.PRIMARY, LAST))
        self.assertEqual(image[34 * 512 : 95 * 512], bytes(61 * 512))
        self.assertEqual(image[95 * 512 :], encode_copy(SMALL, Which.BACKUP, LAST))

    def test_protective_sector(self) -> None:
        """The one partition: its last head, sector and cylinder, and its size in sectors."""
        cases = [
            (68, "01 05 00", "43 00 00 00"),
            (128, "02 02 00", "7f 00 00 00"),
            (255 * 63, "fe 3f 00", "c0 3e 00 00"),
            (255 * 63 + 1, "00 01 01", "c1 3e 00 00"),
            (255 * 63 * 1024, "fe ff ff", "ff 03 fb 00"),
            (255 * 63 * 1024 + 1, "ff ff ff", "00 04 fb 00"),
            (2**32, "ff ff ff", "ff ff ff ff"),
            (2**32 + 1, "ff ff ff", "ff ff ff ff"),
        ]
        for sectors, end, size in cases:
            with self.subTest(sectors):
                record = bytes.fromhex(f"00 000200 ee {end} 01000000 {size}")
                wanted = bytes(446) + record + bytes(48) + bytes.fromhex("55aa")
                self.assertEqual(protective_sector(sectors), wanted)

    def test_names(self) -> None:
        """Names of 36 units are kept as they are; one unit more is refused."""
        for name in ("", "a", "n" * 36, "é" * 36, "\U0001f980" * 18, "\ud800" * 36):
            table = replace(SMALL, entries={1: replace(BOOT, name=name)})
            copy = encode_copy(table, Which.PRIMARY, LAST)
            self.assertEqual(decode_copy(copy, Which.PRIMARY, LAST), table)
        for name in ("n" * 37, "\U0001f980" * 18 + "n", "a\0b"):
            table = replace(SMALL, entries={1: replace(BOOT, name=name)})
            self.assertRaises(EncodeError, encode_copy, table, Which.PRIMARY, LAST)

    def test_refusals(self) -> None:
        cases = [
            (replace(SMALL, first_usable=33), "33 to 94"),
            (replace(SMALL, first_usable=95), "95 to 94"),
            (replace(SMALL, last_usable=95), "34 to 95"),
            (replace(SMALL, last_usable=33), "34 to 33"),
            (replace(SMALL, entries={0: BOOT}), "not 0"),
            (replace(SMALL, entries={129: BOOT}), "not 129"),
            (replace(SMALL, entries={7: replace(BOOT, kind=UNUSED)}), "entry 7: the type"),
            (replace(SMALL, entries={1: replace(BOOT, first=-1)}), "-1 is no number"),
            (replace(SMALL, entries={1: replace(BOOT, last=2**64)}), "is no number"),
            (replace(SMALL, entries={1: replace(BOOT, attributes=2**64)}), "is no number"),
        ]
        for table, message in cases:
            with self.subTest(message), self.assertRaisesRegex(EncodeError, message):
                encode_copy(table, Which.PRIMARY, LAST)
        with self.assertRaises(EncodeError):
            encode_copy(SMALL, Which.PRIMARY, 2**64)


class Rows(unittest.TestCase):
    def setUp(self) -> None:
        self.copies = {which: encode_copy(SMALL, which, LAST) for which in Which}

    def test_header_rows(self) -> None:
        """Another value in any row makes a copy unreadable, even with checksums that fit it."""
        both: list[tuple[int, list[bytes]]] = [
            (0, [b"EFI PARU", b"efi part", bytes(8)]),
            (8, [b"\0\0\2\0", b"\1\0\1\0", b"\0\1\0\0"]),
            (12, [b"\x5b\0\0\0", b"\x5d\0\0\0", b"\0\2\0\0"]),
            (20, [b"\1\0\0\0", b"\0\0\0\x80"]),
            (40, [long(33), long(95), long(0), long(2**64 - 1)]),
            (48, [long(33), long(95), long(0), long(2**64 - 1)]),
            (80, [b"\x7f\0\0\0", b"\x81\0\0\0", b"\0\0\0\0"]),
            (84, [b"\x7f\0\0\0", b"\0\1\0\0", b"\0\0\0\0"]),
        ]
        places = {
            Which.PRIMARY: [(24, [0, 2, LAST]), (32, [0, 1, 126, 128]), (72, [1, 3, 95])],
            Which.BACKUP: [(24, [0, 1, 126, 128]), (32, [0, 2, LAST]), (72, [2, 94, 96])],
        }
        for which, copy in self.copies.items():
            own = [(at, [long(number) for number in values]) for at, values in places[which]]
            for offset, values in both + own:
                for value in values:
                    with self.subTest(which=which, offset=offset, value=value.hex()):
                        bad = sealed(with_header(copy, which, offset, value), which)
                        self.assertIsNone(decode_copy(bad, which, LAST))

    def test_checksums(self) -> None:
        """A checksum that isn't that of its bytes, with the other one right."""
        for which, copy in self.copies.items():
            header, entries = parted(copy, which)
            other = header[:88] + bytes([header[88] ^ 1]) + header[89:]
            cases = [
                with_header(copy, which, 16, bytes([header[16] ^ 1])),
                with_header(copy, which, 16, bytes(4)),
                joined(header_sealed(other), entries, which),
                joined(header_sealed(header[:88] + bytes(4) + header[92:]), entries, which),
                with_entries(copy, which, 56, b"P"),
                with_entries(copy, which, ENTRIES_SIZE - 1, b"\1"),
            ]
            for place, bad in enumerate(cases):
                with self.subTest(which=which, case=place):
                    self.assertIsNone(decode_copy(bad, which, LAST))

    def test_each_bit_of_the_header(self) -> None:
        """With checksums that fit, only the GUID and usable LBAs within limits may be others."""
        for which, copy in self.copies.items():
            header, _ = parted(copy, which)
            for place in range(HEADER_SIZE):
                for bit in range(8):
                    turned = bytes([header[place] ^ 1 << bit])
                    bad = with_header(copy, which, place, turned)
                    self.assertIsNone(decode_copy(bad, which, LAST))
                    first = int.from_bytes(parted(bad, which)[0][40:48], "little")
                    last = int.from_bytes(parted(bad, which)[0][48:56], "little")
                    free = 40 <= place < 72 and 34 <= first <= last <= 94
                    mended = 16 <= place < 20 or 88 <= place < 92
                    table = decode_copy(sealed(bad, which), which, LAST)
                    self.assertEqual(table is not None, free or mended, (which, place, bit))

    def test_limits_of_the_usable(self) -> None:
        """The widest and the narrowest are readable."""
        for which, copy in self.copies.items():
            for first, last in [(34, 94), (34, 34), (94, 94), (60, 61)]:
                other = with_header(copy, which, 40, long(first) + long(last))
                table = decode_copy(sealed(other, which), which, LAST)
                self.assertEqual(table, replace(SMALL, first_usable=first, last_usable=last))

    def test_other_places(self) -> None:
        """A copy is readable as what it is alone, on a disk of its size, and as a whole."""
        for which, copy in self.copies.items():
            self.assertEqual(decode_copy(copy, which, LAST), SMALL)
            for last_lba in (0, 31, 66, LAST - 1, LAST + 1, 2**64 - 1, 2**64 + LAST):
                self.assertIsNone(decode_copy(copy, which, last_lba))
            header, entries = parted(copy, which)
            other = Which.BACKUP if which is Which.PRIMARY else Which.PRIMARY
            self.assertIsNone(decode_copy(joined(header, entries, other), other, LAST))
            for bad in (b"", copy[:-1], copy[1:], copy + b"\0", b"\0" + copy):
                self.assertIsNone(decode_copy(bad, which, LAST))

    def test_what_does_not_matter(self) -> None:
        """The 420 bytes, and with checksums that fit an unused entry and a name after its zero."""
        for which, copy in self.copies.items():
            cases = [
                with_header(copy, which, HEADER_SIZE, b"\xff" * 420),
                sealed(with_entries(copy, which, 128 + 56, b"n\0a\0m\0e\0"), which),
                sealed(with_entries(copy, which, 127 * 128 + 16, b"\xff" * 112), which),
                sealed(with_entries(copy, which, 56 + 20, b"x\0" * 26), which),
            ]
            for place, changed in enumerate(cases):
                with self.subTest(which=which, case=place):
                    self.assertNotEqual(changed, copy)
                    self.assertEqual(decode_copy(changed, which, LAST), SMALL)

    def test_entries_are_free(self) -> None:
        """First and last LBA aren't tested: outside, in the wrong order, and over one another."""
        entries = {
            1: BOOT,
            2: BOOT,
            3: replace(BOOT, first=71, last=40),
            128: replace(BOOT, first=0, last=2**64 - 1, attributes=2**64 - 1),
        }
        table = replace(SMALL, entries=entries)
        for which in Which:
            self.assertEqual(decode_copy(encode_copy(table, which, LAST), which, LAST), table)


class Disks(unittest.TestCase):
    def test_primary_is_preferred(self) -> None:
        other = replace(SMALL, entries={5: BOOT})
        image = disk_image(SMALL, SECTORS)[: 95 * 512] + disk_image(other, SECTORS)[95 * 512 :]
        self.assertEqual(read_disk(image), (SMALL, Which.PRIMARY))
        for lba in (1, 2):
            self.assertEqual(read_disk(broken(image, lba)), (other, Which.BACKUP))

    def test_broken_copies(self) -> None:
        """Each sector broken alone, and each sector of one copy with the header of the other."""
        image = disk_image(SMALL, SECTORS)
        for lba in range(SECTORS):
            counts = Which.BACKUP if 1 <= lba <= 33 else Which.PRIMARY
            self.assertEqual(read_disk(broken(image, lba)), (SMALL, counts), lba)
        for lba in range(1, 34):
            self.assertIsNone(read_disk(broken(broken(image, lba), LAST)), lba)
        for lba in range(95, 128):
            self.assertIsNone(read_disk(broken(broken(image, 1), lba)), lba)

    def test_smallest_disk(self) -> None:
        """68 sectors leave one for partitions; 67 leave none, and are no disk."""
        table = Table(SMALL.disk, 34, 34, {128: replace(BOOT, first=34, last=34)})
        image = disk_image(table, 68)
        self.assertEqual(read_disk(image), (table, Which.PRIMARY))
        self.assertEqual(read_disk(broken(image, 1)), (table, Which.BACKUP))
        self.assertRaises(EncodeError, disk_image, table, 67)
        self.assertIsNone(read_disk(image[: 67 * 512]))
        self.assertIsNone(read_disk(image[:-1]))
        self.assertIsNone(read_disk(image[512:]))

    def test_other_sizes(self) -> None:
        """Bytes after the last whole sector don't count; a sector more or less does."""
        image = disk_image(SMALL, SECTORS)
        self.assertEqual(read_disk(image + b"\xff" * 511), (SMALL, Which.PRIMARY))
        self.assertIsNone(read_disk(image + bytes(512)))
        self.assertIsNone(read_disk(image[:-512]))

    def test_no_table(self) -> None:
        for image in (b"", bytes(512), bytes(68 * 512), b"\xff" * (SECTORS * 512)):
            self.assertIsNone(read_disk(image))

    def test_sgdisk(self) -> None:
        """Another reader finds no problem in an image, where it is installed."""
        program = self.sgdisk()
        data = Entry(LINUX_DATA, uuid.UUID(int=7), 4096, 6143, 4, "n" * 36)
        boot = replace(BOOT, first=2048, last=4095)
        table = Table(SMALL.disk, 34, 8192 - 34, {1: boot, 128: data})
        with tempfile.TemporaryDirectory() as folder:
            disk = Path(folder) / "disk.img"
            disk.write_bytes(disk_image(table, 8192))
            words = [program, "-v", str(disk)]
            done = subprocess.run(words, capture_output=True, text=True, check=False)
        # A copy that it could mend is no problem to it, but is told of before.
        self.assertEqual((done.returncode, done.stderr), (0, ""))
        self.assertRegex(done.stdout, r"\A\s*No problems found")

    def test_table_of_sgdisk(self) -> None:
        """An image that another writer makes is read from both copies, as that writer tells."""
        program = self.sgdisk()
        with tempfile.TemporaryDirectory() as folder:
            disk = Path(folder) / "disk.img"
            sgdisk.make_disk(program, disk)
            told = {number: sgdisk.entry_at(program, disk, number) for number in (1, 2, 5, 128)}
            with disk.open("rb") as image:
                primary, backup = tables_of(image).values()
        assert primary is not None
        self.assertEqual(primary, backup)
        self.assertEqual(primary.entries, told)
        self.assertEqual(told[1].kind, ONIE_BOOT)
        self.assertEqual((primary.first_usable, primary.last_usable), (34, sgdisk.SECTORS - 34))

    def sgdisk(self) -> str:
        """Where sgdisk is; skips the test where it isn't."""
        program = sgdisk.sgdisk()
        if program is None:
            self.skipTest("sgdisk is not on the PATH")
        return program


class RandomTables(unittest.TestCase):
    def test_round_trip(self) -> None:
        """200 random tables are read from each copy as they were written."""
        numbers = random.Random(20240612)
        with_last = 0
        for _ in range(200):
            sectors = numbers.choice([68, 69, 200, numbers.randint(68, 300)])
            table = random_table(numbers, sectors)
            with_last += ENTRY_COUNT in table.entries
            for which in Which:
                copy = encode_copy(table, which, sectors - 1)
                self.assertEqual(len(copy), COPY_SIZE)
                self.assertEqual(decode_copy(copy, which, sectors - 1), table)
            image = disk_image(table, sectors)
            self.assertEqual(read_disk(image), (table, Which.PRIMARY))
            self.assertEqual(read_disk(broken(image, 1)), (table, Which.BACKUP))
        self.assertGreater(with_last, 25)

    def test_random_entry_bytes(self) -> None:
        """Entries of any bytes are readable with checksums that fit, and the same written again."""
        numbers = random.Random(20240613)
        for which in Which:
            header, _ = parted(encode_copy(SMALL, which, LAST), which)
            for _ in range(20):
                copy = sealed(joined(header, numbers.randbytes(ENTRIES_SIZE), which), which)
                table = decode_copy(copy, which, LAST)
                assert table is not None
                self.assertEqual(len(table.entries), ENTRY_COUNT)
                again = encode_copy(table, which, LAST)
                self.assertEqual(decode_copy(again, which, LAST), table)


if __name__ == "__main__":
    unittest.main()
