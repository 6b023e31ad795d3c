"""What the readers of formats say of bytes that they can't read."""

from __future__ import annotations

from enum import Enum


class DecodeError(Exception):
    """The first fault of some bytes, with the numbers that belong to it by their names."""

    def __init__(self, fault: Enum, **numbers: int) -> None:
        super().__init__(fault.value)
        self.fault = fault
        self.numbers = numbers
