"""The demo, with and without the proved program, over stand-ins for it and for rt."""

import os
import shutil
import subprocess
import tempfile
import unittest
from pathlib import Path

from gate.repository import TOP

ONIE = """#!/bin/sh
echo "onie says: $*"
test -f disk.img -a -f net.txt -a -d media/usb0
"""
RT = """#!/bin/sh
basename "$PWD"
echo "$@" | tr ' ' '\\n' | sed 's/=.*//' | LC_ALL=C sort
for last; do :; done
for case in "$last"/*.args; do printf '== '; basename "$case" .args; cat "$case"; done
exit "${STATUS:-0}"
"""
FILES = ["disk.img", "eeprom.bin", "flash.img", "net.txt"]
MEDIA = ["usb0/onie-installer", "usb1/onie-installer-x86_64-kvm_x86_64-r0"]


class Demo(unittest.TestCase):
    def setUp(self) -> None:
        folder = tempfile.TemporaryDirectory()
        self.addCleanup(folder.cleanup)
        self.top = Path(folder.name)
        shutil.copy(TOP / "demo", self.top)
        (self.top / "tools").symlink_to(TOP / "tools")
        self.write("crates/onie/src/main.rt", "")
        self.write("bin/rt", RT).chmod(0o755)

    def write(self, path: str, text: str) -> Path:
        place = self.top / path
        place.parent.mkdir(parents=True, exist_ok=True)
        place.write_text(text, encoding="utf-8")
        return place

    def demo(self, **variables: str) -> tuple[int, str]:
        """The status of the demo, and what it prints."""
        path = f"{self.top / 'bin'}:{os.environ['PATH']}"
        done = subprocess.run(
            [self.top / "demo"],
            env={**os.environ, "PATH": path, **variables},
            stdout=subprocess.PIPE,
            stderr=subprocess.STDOUT,
            text=True,
            timeout=60,
            check=False,
        )
        return done.returncode, done.stdout

    def test_without_the_proved_program(self) -> None:
        """It says that nothing is proved and how to prove it, and hands rt the board's files."""
        status, text = self.demo()
        self.assertEqual(status, 0, text)
        said, _, tried = text.partition("+ rt try")
        self.assertIn("# THIS RUN IS NOT PROVED", said)
        self.assertIn("(cd crates/onie && rt run)", said)
        lines = tried.splitlines()
        self.assertEqual(lines[1], "onie")
        for file in [*FILES, *(f"media/{path}" for path in MEDIA)]:
            self.assertIn(file, lines)
        asked = ["status", "discover", "eeprom"]
        for word in asked:
            self.assertIn(f"== onie {word}", lines)
        self.assertEqual([line for line in lines if line in asked], asked)

    def test_with_the_proved_program(self) -> None:
        self.write("crates/onie/out/onie", ONIE).chmod(0o755)
        status, text = self.demo()
        self.assertEqual(status, 0, text)
        self.assertNotIn("NOT PROVED", text)
        self.assertIn("onie says: discover\n", text)
        self.assertIn("onie says: set onie_boot_reason rescue\n", text)

    def test_with_an_older_program(self) -> None:
        program = self.write("crates/onie/out/onie", ONIE)
        program.chmod(0o755)
        os.utime(program, (0, 0))
        self.assertIn("# THIS RUN IS NOT PROVED", self.demo()[1])

    def test_where_rt_fails(self) -> None:
        self.assertEqual(self.demo(STATUS="4")[0], 4)


if __name__ == "__main__":
    unittest.main()
