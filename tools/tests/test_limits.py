"""What the program needs of its process: a small stack, little memory, and files that may grow to a sector."""

import resource
import signal
import subprocess

from tests.program import PROGRAM, SECONDS, needs_program
from tests.status_board import StatusTest

COMMANDS = [
    [],
    ["status"],
    ["discover"],
    ["eeprom"],
    ["eeprom", "set", "0x21", "Switch 48"],
    ["set", "onie_boot_reason", "rescue"],
    ["unset", "onie_boot_reason"],
]

CHANGES = [words for words in COMMANDS if "set" in words or "unset" in words]

STACK = 256 * 1024
MEMORY = 4 * 1024 * 1024


@needs_program
class LimitsTest(StatusTest):
    def setUp(self) -> None:
        super().setUp()
        self.make()

    def ends(self, words: list[str], limits: dict[int, int]) -> int:
        """How the program ends with these words and these limits of its process."""

        def limit() -> None:
            for what, least in limits.items():
                resource.setrlimit(what, (least, least))

        return subprocess.run(
            [PROGRAM, *words],
            cwd=self.board,
            stdin=subprocess.DEVNULL,
            stdout=subprocess.DEVNULL,
            stderr=subprocess.DEVNULL,
            timeout=SECONDS,
            check=False,
            preexec_fn=limit,
        ).returncode

    def test_little_is_needed(self) -> None:
        small = {resource.RLIMIT_STACK: STACK, resource.RLIMIT_AS: MEMORY}
        for words in COMMANDS:
            with self.subTest(words=words):
                self.make()
                free = self.ends(words, {})
                self.make()
                self.assertEqual(self.ends(words, small), free)

    def test_a_file_that_may_not_grow_ends_a_change_by_a_signal(self) -> None:
        for words in CHANGES:
            with self.subTest(words=words):
                self.make()
                self.assertEqual(self.ends(words, {resource.RLIMIT_FSIZE: 0}), -signal.SIGXFSZ)
