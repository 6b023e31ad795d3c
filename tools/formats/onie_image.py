"""ONIE's image in its partition: a sector with a signature and a length, and then the content.

docs/formats/flash.md has the format, under "ONIE's image".
"""

from __future__ import annotations

SECTOR_SIZE = 512
SIGNATURE = b"ONIEIMG1"
HEAD_SIZE = len(SIGNATURE) + 4
CONTENT_LIMIT = 2_097_140


class EncodeError(ValueError):
    """Why an image can't be written."""


def encode_image(content: bytes) -> bytes:
    """The sectors of an image, the last filled with zeros; EncodeError where there are none."""
    if not 1 <= len(content) <= CONTENT_LIMIT:
        raise EncodeError(f"an image has 1 to {CONTENT_LIMIT} bytes, not {len(content)}")
    head = SIGNATURE + len(content).to_bytes(4, "little")
    size = -(-len(content) // SECTOR_SIZE) * SECTOR_SIZE
    return head.ljust(SECTOR_SIZE, b"\0") + content.ljust(size, b"\0")


def image_length(first_sector: bytes, sectors: int) -> int | None:
    """The content's length, or None where a partition of so many sectors holds no image."""
    length = int.from_bytes(first_sector[len(SIGNATURE) : HEAD_SIZE], "little")
    room = (sectors - 1) * SECTOR_SIZE
    right = first_sector.startswith(SIGNATURE) and 1 <= length <= min(CONTENT_LIMIT, room)
    return length if right else None
