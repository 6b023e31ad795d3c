"""What is shown of a flash: its slots, and its variables with what they mean."""

from __future__ import annotations

import re
import uuid
from collections.abc import Mapping
from pathlib import Path

from boards.terminal import Lines, Paint, counted, size_text
from formats import flash
from formats.decoding import DecodeError
from formats.flash import Fault
from formats.gpt import ONIE_BOOT, Entry

SILICON = re.compile("[0-9A-Za-z_.-]{1,64}")
URLS = {
    "install_url": "where an installer is looked for first",
    "update_url": "where an updater is looked for first",
}

Entries = Mapping[int, Entry] | None
"""The entries of the disk's table by their numbers, or None where there is no table."""


def slot_text(image: bytes, place: int, current: int | None) -> str:
    """What is shown of slot 0 or 1."""
    try:
        slot = flash.slot_at(image, place)
    except DecodeError as error:
        if error.fault is Fault.LENGTH:
            return f"its gate is open, but its length of {error.numbers['length']} is too great"
        return "closed"
    size = counted(len(slot.content), "byte")
    return f"open, number {slot.number}, {size}" + (", current" if place == current else "")


def named_text(named: uuid.UUID | None, entries: Entries) -> str:
    """What `nos_bootcmd` means."""
    if named is None:
        return "names nothing: it isn't `boot`, one space and a GUID"
    if entries is None:
        return "names a NOS, but there is no table"
    for number, entry in entries.items():
        if entry.guid == named:
            own = "names ONIE's own entry" if entry.kind == ONIE_BOOT else "names the NOS in entry"
            return f"{own} {number}"
    return "names a GUID that no entry has"


def meaning(name: str, value: str, variables: flash.Variables, entries: Entries) -> str:
    """What a variable means, where it means something to ONIE."""
    if name == "onie_boot_reason":
        mode = flash.mode_of(variables)
        return f"ONIE boots in mode {mode.value}" if mode else "no mode, so it counts as absent"
    if name == "nos_bootcmd":
        return named_text(flash.named_by(variables), entries)
    if name in URLS:
        return URLS[name] if value else "empty, so it counts as absent"
    if name == "onie_switch_asic":
        return "the switch silicon" if SILICON.fullmatch(value) else "counts as absent"
    return ""


def variable_lines(variables: flash.Variables, entries: Entries) -> Lines:
    """Each variable, and what it means."""
    lines: Lines = []
    for name, value in variables.items():
        what = meaning(name, value, variables, entries)
        lines += [f"  {name}={value}", *([f"      {what}"] if what else [])]
    return lines or ["  no variable is set"]


def flash_lines(path: Path, entries: Entries, paint: Paint) -> Lines:
    """The flash: its slots and variables, or why there are none."""
    image = path.read_bytes()
    sectors = len(image) // flash.SECTOR_SIZE
    lines = [f"  {size_text(len(image))}, {counted(sectors, 'sector')}"]
    if sectors < flash.FLASH_SECTORS:
        few = f"no room for two slots, which take {flash.FLASH_SECTORS} sectors"
        return [*lines, "  " + paint.warning(few)]
    current: int | None = None
    try:
        current = flash.current_slot(image)[0]
        variables = variable_lines(flash.read_flash(image).variables, entries)
    except DecodeError as error:
        variables = ["  " + paint.warning(fault_text(error))]
    lines += [f"  slot {place}: {slot_text(image, place, current)}" for place in (0, 1)]
    return lines + variables


def fault_text(error: DecodeError) -> str:
    """Why there are no variables."""
    if error.fault is Fault.BAD_LINE:
        return f"no variables: the current slot has a wrong line at offset {error.numbers['at']}"
    return "no variables: no slot is open"
