"""`onie set` and `onie unset` over real files, against a model in Python."""

import random
import shutil
import subprocess

from formats.flash import (
    CONTENT_LIMIT,
    GREATEST_NUMBER,
    NAME,
    SLOT_SIZE,
    VALUE,
    Slot,
    Variables,
    encode_variables,
    flash_image,
    read_flash,
)

from tests.program import PROGRAM, SECONDS, needs_program
from tests.status_board import StatusTest

INSTALL = encode_variables({"onie_boot_reason": "install"})
DONE = (0, "")


def refused(why: str) -> tuple[int, str]:
    return 12, f"onie: refused: {why}\n"


def change(variables: Variables, name: str, value: str | None) -> Variables | str:
    """The variables with this value of the name, or without it; or why that is refused."""
    if not NAME.fullmatch(name):
        return "bad name"
    if value is not None and not VALUE.fullmatch(value):
        return "bad text"
    changed = dict(variables)
    if value is None:
        changed.pop(name, None)
    else:
        changed[name] = value
    length = sum(len(name) + len(value) + 2 for name, value in changed.items())
    return "variables full" if length > CONTENT_LIMIT else changed


@needs_program
class SetTest(StatusTest):
    def setUp(self) -> None:
        super().setUp()
        self.make()

    def run_words(self, *words: str) -> tuple[int, str]:
        """The exit status and the console's text of the program with these words."""
        done = subprocess.run(
            [PROGRAM, *words],
            cwd=self.board,
            stdin=subprocess.DEVNULL,
            stdout=subprocess.PIPE,
            timeout=SECONDS,
            check=False,
        )
        return done.returncode, done.stdout.decode()

    def test_one_change_each(self) -> None:
        """A new content goes into the other slot, under the next number; the old one stays."""
        disk = self.disk.read_bytes()
        self.assertEqual(self.run_words("set", "a", "1"), DONE)
        self.assertEqual(
            self.flash.read_bytes(), flash_image(Slot(1, INSTALL), Slot(2, INSTALL + b"a=1\0"))
        )
        self.assertEqual(self.run_words("unset", "onie_boot_reason"), DONE)
        self.assertEqual(
            self.flash.read_bytes(), flash_image(Slot(3, b"a=1\0"), Slot(2, INSTALL + b"a=1\0"))
        )
        self.assertEqual(self.disk.read_bytes(), disk)

    def test_nothing_is_written(self) -> None:
        """A refused change, and an unset of an absent variable, leave the flash as it was."""
        before = self.flash.read_bytes()
        for words, want in [
            (("unset", "zzz"), DONE),
            (("set", "a-b", "x"), refused("bad name")),
            (("set", "", "x"), refused("bad name")),
            (("set", "n" * 65, "x"), refused("bad name")),
            (("set", "a", "x\ty"), refused("bad text")),
            (("set", "a", "é"), refused("bad text")),
            (("set", "a", "v" * 8153), refused("variables full")),
            (("unset", "a b"), refused("bad name")),
        ]:
            with self.subTest(words[:2]):
                self.assertEqual(self.run_words(*words), want)
                self.assertEqual(self.flash.read_bytes(), before)

    def test_the_longest_text(self) -> None:
        self.assertEqual(self.run_words("set", "a", "v" * 8152), DONE)
        self.assertEqual(len(read_flash(self.flash.read_bytes()).variables["a"]), 8152)
        self.assertEqual(self.run_words("set", "b", ""), refused("variables full"))
        self.assertEqual(self.run_words("unset", "a"), DONE)
        self.assertEqual(self.run_words("set", "b", ""), DONE)

    def test_the_greatest_number(self) -> None:
        self.make_flash(Slot(GREATEST_NUMBER, INSTALL))
        before = self.flash.read_bytes()
        self.assertEqual(self.run_words("set", "a", "b"), refused("sequence end"))
        self.assertEqual(self.run_words("unset", "onie_boot_reason"), refused("sequence end"))
        self.assertEqual(self.run_words("unset", "a"), DONE)
        self.assertEqual(self.flash.read_bytes(), before)

    def test_without_variables(self) -> None:
        for image in (bytes(2 * SLOT_SIZE), flash_image(Slot(1, b"wrong")), b""):
            with self.subTest(len(image)):
                self.flash.write_bytes(image)
                for words in (("set", "a", "b"), ("unset", "a")):
                    self.assertEqual(self.run_words(*words), (3, "onie: not sound: no variables\n"))
                self.assertEqual(self.flash.read_bytes(), image)

    def test_without_a_flash(self) -> None:
        self.flash.unlink()
        self.assertEqual(self.run_words("set", "a", "b"), (6, "onie: plant fault\n"))
        self.assertFalse(self.flash.exists())

    def test_the_flash_alone_is_asked(self) -> None:
        """Neither the disk, nor the identity, nor the media need be there."""
        self.disk.unlink()
        (self.board / "eeprom.bin").unlink()
        shutil.rmtree(self.board / "media")
        self.assertEqual(self.run_words("set", "a", "b"), DONE)

    def test_what_boots_is_changed(self) -> None:
        self.assertEqual(self.run_words("set", "onie_boot_reason", "rescue"), DONE)
        status, text = self.run_words("status")
        self.assertEqual((status, text.splitlines()[-1]), (0, "boots onie rescue"))

    def test_random_changes(self) -> None:
        """Each change of 40 sequences is the model's, or is refused for the model's reason."""
        choose = random.Random(5)
        names = ["a", "B_2", "onie_boot_reason", "nos_bootcmd", "n" * 64, "", "a-b"]
        printable = [chr(code) for code in range(0x20, 0x7F)]
        for _ in range(40):
            variables: Variables = {"onie_boot_reason": "install"}
            self.flash.write_bytes(flash_image(Slot(7, INSTALL), None) + b"\xaa" * 512)
            number = 7
            for _ in range(choose.randint(1, 8)):
                name = choose.choice(names)
                length = choose.choice([0, 1, 12, 490, 3000, 8000])
                value = "".join(choose.choices(printable, k=length))
                if choose.random() < 0.1:
                    value += choose.choice(["\n", "\x1f", "\x7f"])
                given = None if choose.random() < 0.4 else value
                words = ("unset", name) if given is None else ("set", name, given)
                want = change(variables, name, given)
                if isinstance(want, str):
                    self.assertEqual(self.run_words(*words), refused(want))
                    continue
                self.assertEqual(self.run_words(*words), DONE)
                number += given is not None or name in variables
                variables = want
                flash = read_flash(self.flash.read_bytes())
                self.assertEqual(list(flash.variables.items()), list(variables.items()))
                self.assertEqual(flash.number, number)
            self.assertEqual(self.flash.read_bytes()[2 * SLOT_SIZE :], b"\xaa" * 512)
