"""The TlvInfo format of a board's identity EEPROM, written apart from the program that reads it.

TlvInfo is the "Board EEPROM information format" of the ONIE design specification. A header of
eleven bytes (`TlvInfo` and 00, the version 01, a two-byte total length) stands before fields of
a code byte, a length byte and so many value bytes. The last field, FE, is a CRC-32.
docs/formats/tlvinfo.md is the whole reference.
"""

from __future__ import annotations

import zlib
from dataclasses import dataclass
from enum import Enum

from formats.decoding import DecodeError

Field = tuple[int, bytes]
"""The code and the value of one field."""

SIGNATURE = b"TlvInfo\0"
VERSION = 1
HEADER_SIZE = 11
EEPROM_SIZE = 2048
CHECKSUM_CODE = 0xFE
CHECKSUM_FIELD_SIZE = 6


class Kind(Enum):
    """What the value of a code is."""

    TEXT = "text"
    MAC = "MAC address"
    DATE = "date"
    BYTE = "byte"
    WORD = "word"
    LETTERS = "letters"
    RAW = "raw bytes"
    CHECKSUM = "CRC-32"


@dataclass(frozen=True)
class Row:
    """A known code: its name, its kind, and the least and greatest length of its value."""

    code: int
    name: str
    kind: Kind
    least: int = 0
    greatest: int = 255

    @property
    def may_repeat(self) -> bool:
        """Whether one EEPROM may hold the code more than once."""
        return self.kind is Kind.RAW


CODES: dict[int, Row] = {
    row.code: row
    for row in (
        Row(0x21, "product name", Kind.TEXT),
        Row(0x22, "part number", Kind.TEXT),
        Row(0x23, "serial number", Kind.TEXT),
        Row(0x24, "base MAC address", Kind.MAC, 6, 6),
        Row(0x25, "manufacture date", Kind.DATE, 19, 19),
        Row(0x26, "device version", Kind.BYTE, 1, 1),
        Row(0x27, "label revision", Kind.TEXT),
        Row(0x28, "platform name", Kind.TEXT),
        Row(0x29, "ONIE version", Kind.TEXT),
        Row(0x2A, "number of MAC addresses", Kind.WORD, 2, 2),
        Row(0x2B, "manufacturer", Kind.TEXT),
        Row(0x2C, "country code", Kind.LETTERS, 2, 2),
        Row(0x2D, "vendor name", Kind.TEXT),
        Row(0x2E, "diag version", Kind.TEXT),
        Row(0x2F, "service tag", Kind.TEXT),
        Row(0xFD, "vendor extension", Kind.RAW),
        Row(CHECKSUM_CODE, "CRC-32", Kind.CHECKSUM, 4, 4),
    )
}


class Fault(Enum):
    """Why bytes are no TlvInfo, in the words of the program's console."""

    NOT_TLV = "not tlv"
    VERSION = "version"
    LENGTH = "length"
    CUT = "cut"
    BAD_LENGTH = "bad length"
    REPEATED = "repeated"
    AFTER_CRC = "after crc"
    NO_CRC = "no crc"
    CRC = "crc"


class EncodeError(ValueError):
    """Why fields can't be written."""


def may_repeat(code: int) -> bool:
    """Whether one EEPROM may hold `code` more than once: FD and each unknown code."""
    return code not in CODES or CODES[code].may_repeat


def has_length(code: int, length: int) -> bool:
    """Whether a value of `code` may have `length` bytes."""
    if code not in CODES:
        return 0 <= length <= 255
    return CODES[code].least <= length <= CODES[code].greatest


def encode(fields: list[Field]) -> bytes:
    """The EEPROM of `fields` in their order and the checksum; EncodeError where there is none."""
    seen: set[int] = set()
    body = b""
    for code, value in fields:
        _check_field(code, value, seen)
        seen.add(code)
        body += bytes([code, len(value)]) + value
    size = HEADER_SIZE + len(body) + CHECKSUM_FIELD_SIZE
    if size > EEPROM_SIZE:
        raise EncodeError(f"the EEPROM would have {size} bytes, more than {EEPROM_SIZE}")
    return sealed(body)


def sealed(body: bytes) -> bytes:
    """`body` between a header and a checksum that fit it, whatever it holds."""
    total = len(body) + CHECKSUM_FIELD_SIZE
    header = SIGNATURE + bytes([VERSION]) + total.to_bytes(2, "big")
    covered = header + body + bytes([CHECKSUM_CODE, 4])
    return covered + zlib.crc32(covered).to_bytes(4, "big")


def _check_field(code: int, value: bytes, seen: set[int]) -> None:
    """Raises EncodeError where the field can't follow fields with the codes `seen`."""
    if not 0 <= code <= 0xFF:
        raise EncodeError(f"a code is one byte, not {code}")
    if code == CHECKSUM_CODE:
        raise EncodeError("field FE is the checksum, which is written by itself")
    if not has_length(code, len(value)):
        raise EncodeError(f"field {code:02X} can't have {len(value)} bytes")
    if code in seen and not may_repeat(code):
        raise EncodeError(f"field {code:02X} comes twice")


def decode(eeprom: bytes) -> list[Field]:
    """The fields of `eeprom` in their order, without the checksum; DecodeError: its first fault."""
    at = HEADER_SIZE
    end = HEADER_SIZE + _total_length(eeprom)
    fields: list[Field] = []
    while at < end:
        code, value = _field_at(eeprom, at, end)
        at += 2 + len(value)
        if code == CHECKSUM_CODE:
            _check_last(eeprom, at, end)
            return fields
        if not may_repeat(code) and any(code == earlier for earlier, _ in fields):
            raise DecodeError(Fault.REPEATED, code=code)
        fields.append((code, value))
    raise DecodeError(Fault.NO_CRC)


def _total_length(eeprom: bytes) -> int:
    """The header's total length: how many bytes follow the header."""
    if len(eeprom) < HEADER_SIZE or not eeprom.startswith(SIGNATURE):
        raise DecodeError(Fault.NOT_TLV)
    if eeprom[8] != VERSION:
        raise DecodeError(Fault.VERSION, version=eeprom[8])
    total = int.from_bytes(eeprom[9:HEADER_SIZE], "big")
    if HEADER_SIZE + total > min(EEPROM_SIZE, len(eeprom)):
        raise DecodeError(Fault.LENGTH, total=total, given=len(eeprom))
    return total


def _field_at(eeprom: bytes, at: int, end: int) -> Field:
    """The field that starts at `at` and may not pass `end`."""
    if at + 2 > end:
        raise DecodeError(Fault.CUT, at=at)
    code, length = eeprom[at], eeprom[at + 1]
    if at + 2 + length > end:
        raise DecodeError(Fault.CUT, at=at)
    if not has_length(code, length):
        raise DecodeError(Fault.BAD_LENGTH, code=code, length=length)
    return code, eeprom[at + 2 : at + 2 + length]


def _check_last(eeprom: bytes, after: int, end: int) -> None:
    """Raises DecodeError unless the checksum that ends before `after` ends all and is right."""
    if after != end:
        raise DecodeError(Fault.AFTER_CRC, at=after)
    kept = int.from_bytes(eeprom[after - 4 : after], "big")
    computed = zlib.crc32(eeprom[: after - 4])
    if kept != computed:
        raise DecodeError(Fault.CRC, kept=kept, computed=computed)


def printed(code: int, value: bytes) -> str:
    """The text of a value, as `onie eeprom` prints it: unprintable bytes of a text as `?`."""
    kind = CODES[code].kind if code in CODES else Kind.RAW
    if kind in (Kind.TEXT, Kind.DATE, Kind.LETTERS):
        return "".join(chr(byte) if 0x20 <= byte <= 0x7E else "?" for byte in value)
    if kind is Kind.MAC:
        return value.hex(":").upper()
    if kind in (Kind.BYTE, Kind.WORD):
        return str(int.from_bytes(value, "big"))
    return value.hex()


def spelled(code: int, text: str) -> bytes:
    """The value that a printed text spells, where no byte of it was unprintable."""
    kind = CODES[code].kind if code in CODES else Kind.RAW
    if kind in (Kind.TEXT, Kind.DATE, Kind.LETTERS):
        return text.encode("ascii")
    if kind is Kind.MAC:
        return bytes.fromhex(text.replace(":", ""))
    if kind in (Kind.BYTE, Kind.WORD):
        return int(text).to_bytes(CODES[code].least, "big")
    return bytes.fromhex(text)


def with_value(fields: list[Field], code: int, value: bytes) -> list[Field]:
    """`fields` with the value in place of the first of its code, or at the end; FD at the end."""
    places = [place for place, field in enumerate(fields) if field[0] == code]
    if code == 0xFD or not places:
        return [*fields, (code, value)]
    return [*fields[: places[0]], (code, value), *fields[places[0] + 1 :]]
