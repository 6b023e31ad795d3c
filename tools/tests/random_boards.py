"""Random disks and flashes, most of them nearly right, for the tests of `onie status`."""

import random
import string
import uuid
from dataclasses import replace

from formats.flash import CONTENT_LIMIT, GATE, SECTOR_SIZE, SLOT_SIZE
from formats.gpt import (
    COPY_SIZE,
    ENTRIES_SIZE,
    ENTRY_COUNT,
    ENTRY_SIZE,
    HEADER_SIZE,
    LINUX_DATA,
    ONIE_BOOT,
    Entry,
    Table,
    Which,
    copy_start,
    encode_copy,
    joined,
    parted,
    sealed,
)
from formats.onie_image import SIGNATURE

from tests.test_gpt import random_guid, random_name

NAME_AT = 56


def random_layout(choose: random.Random, first: int, last: int) -> list[Entry]:
    """Entries that fit together between two sectors, often one right after the other."""
    entries: list[Entry] = []
    at = first
    for _ in range(choose.choice([1, 2, 3, 10, 60])):
        at += choose.choice([0, 0, choose.randint(0, 20)])
        end = min(at + choose.choice([0, 1, *(choose.randint(1, 40) for _ in range(3))]), last)
        if at > last:
            break
        kind = choose.choice([LINUX_DATA, random_guid(choose)])
        attributes = choose.choice([0, choose.getrandbits(64)])
        own, name = random_guid(choose), random_name(choose)
        entries.append(Entry(kind, own, at, end, attributes, name))
        at = end + 1
    choose.shuffle(entries)
    if choose.random() < 0.9:
        entries.sort(key=lambda entry: entry.last == entry.first)
    for place in range(min(len(entries), choose.choice([1] * 15 + [0, 2]))):
        entries[place] = replace(entries[place], kind=ONIE_BOOT)
    return entries


def with_flaw(choose: random.Random, entries: list[Entry]) -> list[Entry]:
    """The entries with one of them changed, most often so that they fit together no longer."""
    if not entries:
        return entries
    one, other = choose.choice(entries), choose.choice(entries)
    changed = choose.choice([
        replace(one, first=one.last + 1),
        replace(one, first=one.first - 1),
        replace(one, last=one.last + 1),
        replace(one, guid=other.guid),
        replace(one, first=other.first, last=other.last),
        replace(one, first=choose.getrandbits(64)),
        replace(one, last=choose.choice([0, 2**64 - 1, choose.getrandbits(64)])),
    ])
    return [changed if entry is one else entry for entry in entries]


def random_table(choose: random.Random, sectors: int) -> Table:
    """A table for a disk of so many sectors, one of eight with a flaw."""
    first = choose.choice([34, 34, 34, choose.randint(34, sectors - 34)])
    last = choose.choice([sectors - 34, sectors - 34, choose.randint(first, sectors - 34)])
    entries = random_layout(choose, first, last)
    if choose.random() < 0.125:
        entries = with_flaw(choose, entries)
    numbers = choose.sample(range(1, ENTRY_COUNT + 1), len(entries))
    if numbers and ENTRY_COUNT not in numbers and choose.random() < 0.25:
        numbers[choose.randrange(len(numbers))] = ENTRY_COUNT
    return Table(random_guid(choose), first, last, dict(zip(numbers, entries)))


def with_noise(choose: random.Random, copy: bytes, which: Which, table: Table) -> bytes:
    """A copy of the table with other bytes where they mean nothing, and checksums that fit."""
    header, bare = parted(copy, which)
    header = header[:HEADER_SIZE] + choose.randbytes(SECTOR_SIZE - HEADER_SIZE)
    entries = bytearray(bare)
    for number in range(1, ENTRY_COUNT + 1):
        start = (number - 1) * ENTRY_SIZE
        if number not in table.entries:
            entries[start + 16 : start + ENTRY_SIZE] = choose.randbytes(ENTRY_SIZE - 16)
            continue
        name = table.entries[number].name.encode("utf-16-le", "surrogatepass")
        tail = start + NAME_AT + len(name) + 2
        if tail < start + ENTRY_SIZE:
            entries[tail : start + ENTRY_SIZE] = choose.randbytes(start + ENTRY_SIZE - tail)
    return sealed(joined(header, bytes(entries), which), which)


def torn(choose: random.Random, copy: bytes, which: Which) -> bytes:
    """A copy with another byte in its header or its entries, or with the rest of a sector lost."""
    header_at = 0 if which is Which.PRIMARY else ENTRIES_SIZE
    at = choose.choice([header_at + choose.randrange(HEADER_SIZE), choose.randrange(COPY_SIZE)])
    if choose.random() < 0.5:
        return copy[:at] + bytes([copy[at] ^ 1 << choose.randrange(8)]) + copy[at + 1 :]
    end = at - at % SECTOR_SIZE + SECTOR_SIZE
    return copy[:at] + choose.choice([b"\0", b"\xff"]) * (end - at) + copy[end:]


def random_copies(choose: random.Random, table: Table, sectors: int) -> dict[Which, bytes]:
    """Both copies: as a rule of the one table, at times torn, or of two tables."""
    copies = {}
    other = random_table(choose, sectors) if choose.random() < 0.1 else table
    for which, of in zip(Which, choose.choice([(table, other), (other, table)])):
        copy = encode_copy(of, which, sectors - 1)
        if choose.random() < 0.3:
            copy = with_noise(choose, copy, which, of)
        copies[which] = torn(choose, copy, which) if choose.random() < 0.2 else copy
    return copies


def random_image(choose: random.Random, entry: Entry) -> bytes:
    """The front of ONIE's image, nine of ten times of a length that fits the entry."""
    room = (entry.last - entry.first) * SECTOR_SIZE
    fits = choose.choice([1, max(1, room), choose.randint(1, max(1, room))])
    wrong = choose.choice([0, room + 1, 2_097_141, 2**32 - 1])
    length = fits if choose.random() < 0.9 else wrong
    signature = SIGNATURE if choose.random() < 0.97 else b"ONIEIMG2"
    return signature + length.to_bytes(4, "little") + choose.randbytes(8)


def random_disk(choose: random.Random) -> tuple[bytes, Table]:
    """A disk, and a table of it."""
    sectors = choose.choice([68, 69, 70, *(choose.randint(71, 500) for _ in range(20))])
    table = random_table(choose, sectors)
    image = bytearray(choose.choice([bytes, choose.randbytes])(sectors * SECTOR_SIZE))
    for which, copy in random_copies(choose, table, sectors).items():
        start = copy_start(which, sectors - 1) * SECTOR_SIZE
        image[start : start + COPY_SIZE] = copy
    for entry in table.entries.values():
        if entry.kind == ONIE_BOOT and 34 <= entry.first <= entry.last <= sectors - 34:
            front, start = random_image(choose, entry), entry.first * SECTOR_SIZE
            image[start : start + len(front)] = front
    return resized(bytes(image), choose.choice([0] * 24 + [1, 511, 512, -1])), table


def resized(image: bytes, more: int) -> bytes:
    """An image with so many bytes more, or less where the number is negative."""
    return image[:more] if more < 0 else image + bytes(more)


def random_command(choose: random.Random, guids: list[uuid.UUID]) -> str:
    """A value of `nos_bootcmd`: most often `boot` and the GUID of an entry."""
    guid = str(choose.choice([*guids, *guids, random_guid(choose)]))
    cased = choose.choice([guid, guid.upper()])
    wrong = [f"boot  {cased}", f"boot {cased} ", f"run {cased}", "", f"boot {cased[:-1]}"]
    return choose.choice(wrong) if choose.random() < 0.1 else f"boot {cased}"


def random_line(choose: random.Random, guids: list[uuid.UUID]) -> bytes:
    """A line, one of 40 of them wrong."""
    modes = ["install", "rescue", "uninstall", "update", "embed", "", "Install", "diag"]
    name = "".join(choose.choices(string.ascii_letters + "_", k=choose.choice([1, 8, 64])))
    value = "".join(choose.choices(string.printable[:95], k=choose.choice([0, 5, 300])))
    line = choose.choice([
        f"onie_boot_reason={choose.choice(modes)}",
        f"onie_boot_reason={choose.choice(modes)}",
        f"nos_bootcmd={random_command(choose, guids)}",
        f"nos_bootcmd={random_command(choose, guids)}",
        f"{name}={value}",
    ])
    wrong = [b"\0", b"a\0", b"a-b=c\0", b"a=\x7f\0", b"=\0", b"n" * 65 + b"=\0", b"a=b", b"\xff=\0"]
    return choose.choice(wrong) if choose.random() < 0.025 else line.encode() + b"\0"


def random_content(choose: random.Random, guids: list[uuid.UUID]) -> bytes:
    """Lines of differing names, but for one of eight contents."""
    content = b""
    names: set[bytes] = set()
    repeats = choose.random() < 0.125
    for _ in range(choose.choice([0, 1, 2, 4, 4, 12])):
        line = random_line(choose, guids)
        name = line.partition(b"=")[0]
        if repeats or name not in names:
            content += line
        names.add(name)
    return content[:CONTENT_LIMIT]


def random_slot(choose: random.Random, guids: list[uuid.UUID]) -> bytes:
    """The sectors of a slot, one of five closed, with any bytes where they mean nothing."""
    content = random_content(choose, guids)
    gate = GATE if choose.random() < 0.8 else choose.choice([bytes(8), b"ONIEOPEM", b"\xff" * 8])
    number = choose.choice([0, 1, 2, 3, 255, 256, 2**32, 2**64 - 1])
    length = len(content) if choose.random() < 0.9 else choose.choice([8180, 8181, 2**32 - 1])
    fill = choose.choice([bytes, choose.randbytes])
    body = number.to_bytes(8, "little") + length.to_bytes(4, "little") + content
    front = gate + fill(SECTOR_SIZE - len(gate)) + body
    return front + fill(SLOT_SIZE - len(front))


def random_flash(choose: random.Random, table: Table) -> bytes:
    """A flash for a disk with the table, now and then too small or larger."""
    guids = [entry.guid for entry in table.entries.values()]
    image = random_slot(choose, guids) + random_slot(choose, guids)
    return resized(image, choose.choice([0] * 24 + [-1, 1, 511, 512]))
