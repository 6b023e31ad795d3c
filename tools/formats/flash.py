"""The flash of a board: two slots with the boot variables, read and written apart from the program.

A slot is a gate sector and 16 sectors of a body: a number, a length and the content. Slot 0 stands
at the front of the flash and slot 1 right after it. The current slot is the open one with the
greater number. Its content is lines `name=value`, each ended by a zero byte.
docs/formats/flash.md is the whole reference.
"""

from __future__ import annotations

import re
import struct
import uuid
from dataclasses import dataclass
from enum import Enum

from formats.decoding import DecodeError

Variables = dict[str, str]
"""The values of variables by their names, in the order of their lines."""

SECTOR_SIZE = 512
BODY_SECTORS = 16
SLOT_SECTORS = 1 + BODY_SECTORS
SLOT_SIZE = SLOT_SECTORS * SECTOR_SIZE
FLASH_SECTORS = 2 * SLOT_SECTORS
GATE = b"ONIEOPEN"
HEAD = struct.Struct("<QI")
CONTENT_LIMIT = BODY_SECTORS * SECTOR_SIZE - HEAD.size
GREATEST_NUMBER = 2**64 - 1

NAME = re.compile("[0-9A-Za-z_]{1,64}")
VALUE = re.compile("[ -~]*")
BOOT_COMMAND = re.compile("boot ([0-9A-Fa-f]{8}(?:-[0-9A-Fa-f]{4}){3}-[0-9A-Fa-f]{12})")


class Mode(Enum):
    """What ONIE does when it boots: the values of `onie_boot_reason` that mean something."""

    INSTALL = "install"
    RESCUE = "rescue"
    UNINSTALL = "uninstall"
    UPDATE = "update"
    EMBED = "embed"


@dataclass(frozen=True)
class Slot:
    """What an open slot holds: its number and its content."""

    number: int
    content: bytes


@dataclass(frozen=True)
class Flash:
    """The place of the current slot, 0 or 1, its number, and the variables of its content."""

    current: int
    number: int
    variables: Variables


class Fault(Enum):
    """Why a slot isn't open, or why a flash has no variables."""

    CLOSED = "closed"
    LENGTH = "length"
    TOO_SMALL = "too small"
    NO_SLOT = "no slot"
    BAD_LINE = "bad line"


class EncodeError(ValueError):
    """Why variables or slots can't be written."""


def encode_variables(variables: Variables) -> bytes:
    """The lines of variables in their order; EncodeError where there are none."""
    content = b""
    for name, value in variables.items():
        if not NAME.fullmatch(name):
            raise EncodeError(f"variable {name!r}: a name is 1 to 64 letters, digits or _")
        if not VALUE.fullmatch(value):
            raise EncodeError(f"variable {name!r}: a value has the characters from space to ~")
        content += f"{name}={value}\0".encode("ascii")
    if len(content) > CONTENT_LIMIT:
        raise EncodeError(
            f"the variables would take {len(content)} bytes, more than {CONTENT_LIMIT}"
        )
    return content


def decode_variables(content: bytes) -> Variables:
    """The variables of a content; DecodeError: the offset of its first wrong line."""
    variables: Variables = {}
    at = 0
    while at < len(content):
        line, end, _ = content[at:].partition(b"\0")
        name, equals, value = line.decode("latin-1").partition("=")
        right = end and equals and NAME.fullmatch(name) and VALUE.fullmatch(value)
        if not right or name in variables:
            raise DecodeError(Fault.BAD_LINE, at=at)
        variables[name] = value
        at += len(line) + 1
    return variables


def encode_slot(slot: Slot | None) -> bytes:
    """The 17 sectors of an open slot, or of a closed one, which are zeros."""
    if slot is None:
        return bytes(SLOT_SIZE)
    if not 0 <= slot.number <= GREATEST_NUMBER:
        raise EncodeError(f"{slot.number} is no number of eight bytes")
    if len(slot.content) > CONTENT_LIMIT:
        raise EncodeError(f"a slot has no room for {len(slot.content)} bytes")
    body = HEAD.pack(slot.number, len(slot.content)) + slot.content
    return (GATE.ljust(SECTOR_SIZE, b"\0") + body).ljust(SLOT_SIZE, b"\0")


def decode_slot(sectors: bytes) -> Slot:
    """What the 17 sectors of a slot hold; DecodeError: it isn't open."""
    if not sectors.startswith(GATE):
        raise DecodeError(Fault.CLOSED)
    number, length = HEAD.unpack_from(sectors, SECTOR_SIZE)
    if length > CONTENT_LIMIT:
        raise DecodeError(Fault.LENGTH, length=length)
    start = SECTOR_SIZE + HEAD.size
    return Slot(number, sectors[start : start + length])


def flash_image(first: Slot | None, second: Slot | None = None) -> bytes:
    """A flash of 34 sectors: slot 0 and slot 1, each of which may be closed."""
    return encode_slot(first) + encode_slot(second)


def slot_at(image: bytes, place: int) -> Slot:
    """Slot 0 or 1 of a flash; DecodeError: it isn't open, or the flash has no room for slots."""
    sectors = len(image) // SECTOR_SIZE
    if sectors < FLASH_SECTORS:
        raise DecodeError(Fault.TOO_SMALL, sectors=sectors)
    return decode_slot(image[place * SLOT_SIZE : (place + 1) * SLOT_SIZE])


def current_slot(image: bytes) -> tuple[int, Slot]:
    """The place of the current slot, and what it holds; DecodeError: there is none."""
    found: tuple[int, Slot] | None = None
    for place in (0, 1):
        try:
            slot = slot_at(image, place)
        except DecodeError as error:
            if error.fault is Fault.TOO_SMALL:
                raise
            continue
        if found is None or slot.number > found[1].number:
            found = place, slot
    if found is None:
        raise DecodeError(Fault.NO_SLOT)
    return found


def read_flash(image: bytes) -> Flash:
    """The current slot and its variables; DecodeError: why there are none.

    Bytes after the two slots don't count. Where the current slot has a wrong line, the other slot
    doesn't take its place.
    """
    place, slot = current_slot(image)
    return Flash(place, slot.number, decode_variables(slot.content))


def mode_of(variables: Variables) -> Mode | None:
    """The mode that `onie_boot_reason` asks for; None where it is absent or no mode."""
    reason = variables.get("onie_boot_reason")
    return next((mode for mode in Mode if mode.value == reason), None)


def named_by(variables: Variables) -> uuid.UUID | None:
    """The GUID in `nos_bootcmd`, where it reads `boot` and a GUID after one space."""
    command = BOOT_COMMAND.fullmatch(variables.get("nos_bootcmd", ""))
    return uuid.UUID(command[1]) if command else None
