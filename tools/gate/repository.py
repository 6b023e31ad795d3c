"""The repository: where it stands, and its crates."""

from __future__ import annotations

import re
from pathlib import Path

TOP = Path(__file__).resolve().parents[2]


def crates(top: Path) -> dict[str, list[str]]:
    """The crates by their names, lowest first, each with the libraries that it uses."""
    text = (top / "crates.txt").read_text(encoding="utf-8")
    lines = re.findall(r"^(\w+)[^:#\n]*:([^#\n]*)", text, re.MULTILINE)
    return {name: used.split() for name, used in lines}
