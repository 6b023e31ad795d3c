"""The built program, which tests run in folders of their own.

The environment variable ONIE names the executable; without it, it is crates/onie/out/onie.
"""

import os
import unittest
from pathlib import Path

from gate.repository import TOP

PROGRAM = Path(os.environ.get("ONIE") or TOP / "crates/onie/out/onie").absolute()
SECONDS = 20
"""How long a run may take."""

needs_program = unittest.skipUnless(
    PROGRAM.is_file() and os.access(PROGRAM, os.X_OK),
    f"no executable stands at {PROGRAM}: build the program first",
)
"""Skips a test where the program isn't built."""
