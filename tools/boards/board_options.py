"""The options of the board maker: what each text on its command line stands for."""

from __future__ import annotations

import os
import re
import uuid
from collections.abc import Callable
from dataclasses import dataclass

from command_line import Refusal
from formats.gpt import LEAST_SECTORS, LINUX_DATA, ONIE_BOOT, Entry
from formats.tlvinfo import CHECKSUM_CODE, CODES, Field, Kind

DISK = uuid.UUID("01234567-89ab-cdef-0123-456789abcdef")
"""The GUID of the disk."""

GREATEST_SECTORS = 2**40

KINDS = {"onie": ONIE_BOOT, "linux": LINUX_DATA}
"""The types of partitions that have words."""


class BoardError(Refusal):
    """What is wrong with the board that was asked for, in one line."""


@dataclass(frozen=True)
class Spelling:
    """How a value is written on the command line: its form, and the bytes that it stands for."""

    form: str
    pattern: str
    value: Callable[[str], bytes]


def decimal(size: int) -> Spelling:
    """The spelling of a big-endian number of `size` bytes."""
    return Spelling(
        f"a decimal of 0 to {256**size - 1} without leading zeros",
        "0|[1-9][0-9]{0,4}",
        lambda text: int(text).to_bytes(size, "big"),
    )


SPELLINGS: dict[Kind, Spelling] = {
    Kind.TEXT: Spelling("text of the characters from space to ~", "[ -~]*", str.encode),
    Kind.MAC: Spelling(
        "a MAC address as 00:11:22:33:44:55",
        "[0-9A-Fa-f]{2}(:[0-9A-Fa-f]{2}){5}",
        lambda text: bytes.fromhex(text.replace(":", "")),
    ),
    Kind.DATE: Spelling(
        "a date as MM/DD/YYYY HH:MM:SS",
        "[0-9]{2}/[0-9]{2}/[0-9]{4} [0-9]{2}:[0-9]{2}:[0-9]{2}",
        str.encode,
    ),
    Kind.BYTE: decimal(1),
    Kind.WORD: decimal(2),
    Kind.LETTERS: Spelling("two letters", "[A-Za-z]{2}", str.encode),
    Kind.RAW: Spelling("hexadecimal digits in pairs", "([0-9A-Fa-f]{2})*", bytes.fromhex),
}


def value_of(code: int, text: str) -> bytes:
    """The value that `text` spells for `code`."""
    spelling = SPELLINGS[CODES[code].kind if code in CODES else Kind.RAW]
    if re.fullmatch(spelling.pattern, text):
        try:
            return spelling.value(text)
        except OverflowError:
            pass
    raise BoardError(f"field {code:02X}: {text!r} is not {spelling.form}")


def field_of(option: str) -> Field:
    """The field that an option CODE=TEXT asks for."""
    digits, equals, text = option.partition("=")
    if not equals:
        raise BoardError(f"--field {option!r} is not CODE=TEXT")
    if not re.fullmatch("(0x)?[0-9A-Fa-f]{2}", digits):
        raise BoardError(f"--field {option!r}: a code is two hexadecimal digits, as 28 or 0x28")
    code = int(digits, 16)
    if code == CHECKSUM_CODE:
        raise BoardError(f"field {code:02X} is the checksum, which is written by itself")
    return code, value_of(code, text)


@dataclass(frozen=True)
class MediaFile:
    """A file of a volume: its first bytes, and its size. What follows the first bytes is zeros."""

    volume: str
    name: str
    start: bytes
    size: int

    @property
    def path(self) -> str:
        """Where the file stands below `media/`."""
        return f"{self.volume}/{self.name}"


def file_of(option: str) -> MediaFile:
    """The file that an option VOLUME/NAME=CONTENT or VOLUME/NAME=@SIZE asks for."""
    path, equals, content = option.partition("=")
    volume, slash, name = path.partition("/")
    if not equals or not slash:
        raise BoardError(f"--file {option!r} is not VOLUME/NAME=CONTENT or VOLUME/NAME=@SIZE")
    if "/" in name or {volume, name} & {"", ".", ".."}:
        raise BoardError(f"--file {option!r}: {path!r} is not a volume, one slash and a file name")
    if not content.startswith("@"):
        start = os.fsencode(content)
        return MediaFile(volume, name, start, len(start))
    if not re.fullmatch("@[0-9]{1,18}", content):
        raise BoardError(f"--file {option!r}: a size is @ and 1 to 18 decimal digits")
    return MediaFile(volume, name, b"", int(content[1:]))


def variable_of(option: str) -> tuple[str, str]:
    """The name and the value that an option NAME=VALUE asks for."""
    name, equals, value = option.partition("=")
    if not equals:
        raise BoardError(f"--variable {option!r} is not NAME=VALUE")
    return name, value


def guid_of(text: str) -> uuid.UUID | None:
    """The GUID that a text spells, or None."""
    groups = "[0-9A-Fa-f]{8}(-[0-9A-Fa-f]{4}){3}-[0-9A-Fa-f]{12}"
    return uuid.UUID(text) if re.fullmatch(groups, text) else None


def numbered_guid(number: int) -> uuid.UUID:
    """The GUID of an entry for which none is given: the disk's with the number at its end."""
    return uuid.UUID(bytes=DISK.bytes[:12] + number.to_bytes(4, "big"))


def is_number(text: str) -> bool:
    """Whether a text is a decimal of at most 20 digits without leading zeros."""
    return re.fullmatch("0|[1-9][0-9]{0,19}", text) is not None


def entry_of(option: str) -> tuple[int, Entry]:
    """The number and the entry that an option NUMBER=KIND,GUID,FIRST,LAST,NAME asks for."""
    number, equals, rest = option.partition("=")
    parts = rest.split(",", 4)
    if not equals or len(parts) < 5:
        raise BoardError(f"--entry {option!r} is not NUMBER=KIND,GUID,FIRST,LAST,NAME")
    kind, guid, first, last, name = parts
    if not (is_number(number) and 1 <= int(number) <= 128):
        raise BoardError(f"--entry {option!r}: an entry has a number from 1 to 128")
    kind_guid = KINDS.get(kind) or guid_of(kind)
    if kind_guid is None:
        raise BoardError(f"--entry {option!r}: a kind is onie, linux or the GUID of a type")
    own = guid_of(guid) if guid else numbered_guid(int(number))
    if own is None:
        raise BoardError(f"--entry {option!r}: {guid!r} is no GUID of 8-4-4-4-12 digits")
    if not (is_number(first) and is_number(last)):
        raise BoardError(f"--entry {option!r}: FIRST and LAST are decimals without leading zeros")
    return int(number), Entry(kind_guid, own, int(first), int(last), name=name)


def sectors_of(option: str) -> int:
    """The number of sectors that an option asks for."""
    if is_number(option) and LEAST_SECTORS <= int(option) <= GREATEST_SECTORS:
        return int(option)
    raise BoardError(
        f"--sectors {option!r}: a disk with a table has {LEAST_SECTORS} "
        f"to {GREATEST_SECTORS} sectors"
    )
