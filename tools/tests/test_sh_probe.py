"""The faults that sh_probe finds in scripts.

The environment variable SH_PROBE names the executable; without it, it is crates/sh_probe/out/sh_probe. The kinds and the
lines were worked out by hand from POSIX.1-2017, "Shell Command Language", and the rules of docs/shell.md.
"""

import os
import subprocess
import tempfile
import unittest
from pathlib import Path

from gate.repository import TOP

from tests.program import SECONDS

PROBE = Path(os.environ.get("SH_PROBE") or TOP / "crates/sh_probe/out/sh_probe").absolute()

FAULTS: list[tuple[bytes, str, int]] = [
    (b"fi", "unexpected", 1),
    (b"a &", "left out", 1),
    (b"\0", "a 00 byte", 1),
    (b'echo "x', "unclosed", 1),
    (b"( ( ( true ) )", "unclosed", 1),
    (b"{ a; } b$(fi)", "unexpected", 1),
    (b"x${a-$(fi)}", "unexpected", 1),
    (b"for a$$ in", "unexpected", 1),
    (b"for `x`", "left out", 1),
    (b"fi\0", "a 00 byte", 1),
    (b"fi \0", "unexpected", 1),
    (b">x\0", "left out", 1),
    (b"${a!\0", "unexpected", 1),
    (b"echo (a)", "unexpected", 1),
    (b"echo b (a)", "unexpected", 1),
    (b"a > & b", "left out", 1),
    (b"a >", "unclosed", 1),
    (b"a >\nb", "unexpected", 1),
    (b"a >$(fi)", "left out", 1),
    (b"a 2>&2", "left out", 1),
    (b"a 2 >&1", "left out", 1),
    (b"${", "unclosed", 1),
    (b"${a", "unclosed", 1),
    (b"echo ${a!b}", "unexpected", 1),
    (b"echo ${}", "unexpected", 1),
    (b"echo ${a:b}", "unexpected", 1),
    (b"echo a${b-\n${c,}}", "unexpected", 2),
    (b'echo "`b`"', "left out", 1),
    (b'a "$$"', "left out", 1),
    (b"echo $((1) + 2)", "unexpected", 1),
    (b"echo $((1)", "unclosed", 1),
    (b"{ }", "unexpected", 1),
    (b"if then", "unexpected", 1),
    (b"a; ; b", "unexpected", 1),
    (b"! ! a", "unexpected", 1),
    (b"a | ! b", "unexpected", 1),
    (b"in", "unexpected", 1),
    (b"f() a", "unexpected", 1),
    (b"f(a", "unexpected", 1),
    (b"x=(a)", "unexpected", 1),
    (b"{ { a; } >/dev/null }", "unexpected", 1),
    (b"case a in b) c; fi", "unexpected", 1),
    (b"a\\", "unclosed", 1),
    (b"a &&\n", "unclosed", 2),
    (b"if\n", "unclosed", 2),
    (b"case a", "unclosed", 1),
    (b"done() { a; }", "unexpected", 1),
    (b"a;;", "unexpected", 1),
    (b"'a\n\0", "a 00 byte", 2),
]
"""Scripts, with the kind of their first fault and its line."""

SOUND: list[bytes] = [
    b"",
    b"f() { :; }; f; f",
    b"( a ); { b; }; if c; then d; fi",
    b"a | b | c",
    b"x=$(a; b)",
    b"while false; do :; done",
    b"case a in a) b;; esac",
    b"f() { f; }; f",
    b"set -e\nsgdisk -d 2 /dev/sda || true\nonie-payload | dd of=/dev/sda2\nsync\n"
    b'fw_setenv nos_bootcmd "boot $(blkid -s PARTUUID -o value /dev/sda2)"\nexit 0\nexit_marker\nfi \0',
    b"echo $((1/0))",
    b"for i in 1 2 3; do :; done",
    b"! a && b || c",
    b"echo a |\n\ncat &&\n# c\necho b ||\necho no",
    b"for i\nin a b\ndo\necho $i\ndone",
    b"case esac in (esac) echo y; esac",
    b"echo $(echo \")\" ')' # )\n) $(case a in a) echo b;; esac)",
]
"""Scripts without a fault, and one whose payload is none."""

NESTED: list[tuple[bytes, bytes]] = [
    (b"( ", b"a )"),
    (b"{ ", b"a; }"),
    (b"$(", b"a)"),
    (b"${x-", b"a}"),
    (b"if a; then ", b"b; fi"),
]
"""What opens a form, and what ends the innermost one."""


def closing(opens: bytes, times: int) -> bytes:
    """What ends the forms around the innermost one."""
    ends = {b"( ": b" )", b"{ ": b"; }", b"$(": b")", b"${x-": b"}", b"if a; then ": b"; fi"}
    return ends[opens] * (times - 1)


@unittest.skipUnless(PROBE.is_file() and os.access(PROBE, os.X_OK), f"no executable stands at {PROBE}")
class ScriptTests(unittest.TestCase):
    def said(self, script: bytes) -> tuple[int, str]:
        """The exit status, and what is printed of a script."""
        with tempfile.TemporaryDirectory() as folder:
            path = Path(folder) / "script"
            path.write_bytes(script)
            run = subprocess.run([PROBE, path], capture_output=True, timeout=SECONDS, check=False)
            return run.returncode, run.stdout.decode()

    def test_first_faults(self) -> None:
        for script, kind, line in FAULTS:
            with self.subTest(script=script):
                self.assertEqual(self.said(script), (1, f"line {line}: {kind}\n"))

    def test_programs(self) -> None:
        for script in SOUND:
            with self.subTest(script=script):
                self.assertEqual(self.said(script), (0, "no fault\n"))

    def test_64_forms_and_65(self) -> None:
        for opens, innermost in NESTED:
            with self.subTest(opens=opens):
                for times, told in ((64, (0, "no fault\n")), (65, (1, "line 1: too deep\n"))):
                    self.assertEqual(self.said(opens * times + innermost + closing(opens, times)), told)

    def test_long_scripts(self) -> None:
        rows = [
            (b"(" * 1048576, (1, "line 1: too deep\n")),
            (b"$(" * 524288, (1, "line 1: too deep\n")),
            (b"'" * 1048576, (0, "no fault\n")),
            (b"\\" * 1048576, (0, "no fault\n")),
            (b":\n" * 524288, (0, "no fault\n")),
            (b":\n" * 524288 + b":", (3, "")),
        ]
        for script, told in rows:
            with self.subTest(script=script[:4]):
                self.assertEqual(self.said(script), told)

    def test_words_and_files(self) -> None:
        for words, status in (([], 2), (["a", "b"], 2), (["/nonexistent/script"], 3)):
            with self.subTest(words=words):
                run = subprocess.run([PROBE, *words], capture_output=True, timeout=SECONDS, check=False)
                self.assertEqual((run.returncode, run.stdout), (status, b""))


if __name__ == "__main__":
    unittest.main()
