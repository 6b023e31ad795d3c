"""Scripts that sh_probe and `dash -n` both judge.

The environment variable SH_PROBE names the executable; without it, it is crates/sh_probe/out/sh_probe. Where dash isn't
on the PATH, a line says so, and what needs it is skipped.
"""

import os
import random
import shutil
import subprocess
import sys
import tempfile
import unittest
from pathlib import Path

from tests.program import SECONDS
from tests.test_sh_probe import FAULTS, PROBE, SOUND

TAKEN_BY_DASH: dict[bytes, str] = {
    b"echo ${a!b}": "dash tells of a malformed ${ when it runs it",
    b"echo ${}": "dash tells of a malformed ${ when it runs it",
    b"echo ${a:b}": "dash tells of a malformed ${ when it runs it",
    b"echo a${b-\n${c,}}": "dash tells of a malformed ${ when it runs it",
    b"f() a": "dash takes any command as the body of a function",
    b"a\\": "dash takes a last \\ as itself",
}
"""Scripts outside the grammar that dash takes, and why."""

LEFT_OUT = ("left out", "too deep", "a 00 byte")
"""What sh_probe says of forms that dash has and this shell has not."""

SEED = 20170901
SCRIPTS = 400

COMMANDS = [
    "a", "x=1 b", "( C )", "{ C; }", "if C; then C; fi", "if C; then C; elif C; then C; else C; fi",
    "while C; do C; done", "until C; do C; done", "for i in W W; do C; done", "for i do C; done",
    "case W in W) C;; W|W) C;; esac", "! a", "a | C", "a && a || a", "C; C", "C\nC", "echo W W", "{ C; } >/dev/null",
    "a 2>&1",
]  # fmt: skip
"""Commands, in which C is a command and W a word."""

WORDS = [
    "a", "'c'", '"b $x"', "$x", "$1", "${x-W}", "${x%W}", "${#x}", "$(C)", '"$(C)"', "$((1 + 2))", "$(( (1) * $x ))",
    "\\;", "a#b",
]  # fmt: skip
"""Words, likewise."""

PIECES = [
    "(", ")", "{", "}", "if", "then", "else", "elif", "fi", "while", "do", "done", "for", "in", "case", "esac", ";", ";;",
    "\n", "&&", "||", "|", "!", "'", '"', "$x", "$(", "${x-", "$((", "))", ">/dev/null", "#", "\\\n", " ",
]  # fmt: skip
"""What is put into a script at random."""


def grown(source: random.Random, kinds: list[str], depth: int) -> str:
    """A random command or word."""
    text = source.choice(kinds) if depth else "a"
    grow = {"C": COMMANDS, "W": WORDS}
    return "".join(grown(source, grow[letter], depth - 1) if letter in grow else letter for letter in text)


def changed(source: random.Random, script: str) -> str:
    """The script with a byte less or a piece more, or cut off."""
    at = source.randrange(len(script) + 1)
    match source.randrange(3):
        case 0:
            return script[:at] + script[at + 1 :]
        case 1:
            return script[:at] + source.choice(PIECES) + script[at:]
        case _:
            return script[:at]


def random_scripts() -> list[bytes]:
    """Programs, and as many scripts near to one."""
    source = random.Random(SEED)
    scripts = []
    for _ in range(SCRIPTS // 2):
        script = grown(source, COMMANDS, 3)
        scripts += [script.encode(), changed(source, script).encode()]
    return scripts


def dash() -> str | None:
    """Where dash is; says so where it is nowhere."""
    program = shutil.which("dash")
    if program is None:
        print("dash is not on the PATH: what needs it is skipped", file=sys.stderr)
    return program


@unittest.skipUnless(PROBE.is_file() and os.access(PROBE, os.X_OK), f"no executable stands at {PROBE}")
class DashTests(unittest.TestCase):
    def setUp(self) -> None:
        program = dash()
        if program is None:
            self.skipTest("dash is not on the PATH")
        self.dash: str = program

    def judged(self, script: bytes) -> tuple[str, bool]:
        """What sh_probe prints of a script, and whether dash takes it."""
        with tempfile.TemporaryDirectory() as folder:
            path = Path(folder) / "script"
            path.write_bytes(script)
            ours = subprocess.run([PROBE, path], capture_output=True, timeout=SECONDS, check=False)
            theirs = subprocess.run([self.dash, "-n", path], capture_output=True, timeout=SECONDS, check=False)
            return ours.stdout.decode().strip(), theirs.returncode == 0

    def compare(self, script: bytes) -> None:
        """Both take the script, or neither does, but for what this shell leaves out, and for a last `\\`."""
        said, taken = self.judged(script)
        if said.endswith(LEFT_OUT) or (said.endswith("unclosed") and script.endswith(b"\\")):
            return
        self.assertEqual(said == "no fault", taken, said)

    def test_scripts(self) -> None:
        scripts = [script for script, _, _ in FAULTS] + [script for script in SOUND if b"exit_marker" not in script]
        for script in scripts:
            if script not in TAKEN_BY_DASH:
                with self.subTest(script=script):
                    self.compare(script)

    def test_what_dash_takes(self) -> None:
        for script, why in TAKEN_BY_DASH.items():
            with self.subTest(script=script, why=why):
                said, taken = self.judged(script)
                self.assertNotEqual(said, "no fault")
                self.assertTrue(taken)

    def test_random_scripts(self) -> None:
        for script in random_scripts():
            with self.subTest(script=script):
                self.compare(script)


if __name__ == "__main__":
    unittest.main()
