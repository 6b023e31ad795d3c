"""`onie status` over flashes: which slot is current, its lines, and what then boots."""

import unittest

from formats.flash import Slot, encode_slot

from tests.status_board import NOS_GUID, ONIE_GUID, StatusTest

RESCUE = b"onie_boot_reason=rescue\0"
UPDATE = b"onie_boot_reason=update\0"
WRONG = b"onie_boot_reason"
GREATEST = 2**64 - 1


def slot(number: int, length: int, content: bytes, gate: bytes = b"ONIEOPEN") -> bytes:
    """The sectors of a slot with this gate, number and length, which need not fit the content."""
    body = number.to_bytes(8, "little") + length.to_bytes(4, "little") + content
    return gate.ljust(512, b"\xff") + body.ljust(16 * 512, b"\xff")


class Slots(StatusTest):
    def setUp(self) -> None:
        super().setUp()
        self.make_flash(None)

    def check_slots(self, first: bytes, second: bytes, what: str | None) -> None:
        """This boots with these slots; None: they give no variables."""
        self.flash.write_bytes(first + second)
        if what is None:
            self.check_lacks("no variables")
        else:
            self.check_boots(what)

    def test_numbers(self) -> None:
        """The greater number is the current slot's, and on a tie slot 0 is."""
        for first, second, what in [
            (1, 2, "onie update"),
            (2, 1, "onie rescue"),
            (5, 5, "onie rescue"),
            (0, 0, "onie rescue"),
            (0, 1, "onie update"),
            (GREATEST, GREATEST, "onie rescue"),
            (0, GREATEST, "onie update"),
            (GREATEST, 0, "onie rescue"),
            (255, 256, "onie update"),
            (2**32 - 1, 2**32, "onie update"),
            (2**63, 2**63 - 1, "onie rescue"),
        ]:
            with self.subTest(first=first, second=second):
                one, other = encode_slot(Slot(first, RESCUE)), encode_slot(Slot(second, UPDATE))
                self.check_slots(one, other, what)

    def test_one_open_slot(self) -> None:
        """It is current whatever its number; a closed one is none, whatever its body holds."""
        opened = slot(0, len(RESCUE), RESCUE)
        for gate in (b"", bytes(512), b"ONIEOPEM", b"onieopen", b"\0ONIEOPEN"):
            with self.subTest(gate):
                closed = slot(GREATEST, len(UPDATE), UPDATE, gate)
                self.check_slots(opened, closed, "onie rescue")
                self.check_slots(closed, opened, "onie rescue")
                self.check_slots(closed, closed, None)

    def test_gates(self) -> None:
        """A gate is open by its first eight bytes."""
        for rest in (bytes(504), b"\xff" * 504, b"ONIEOPEN" * 63):
            opened = slot(2, len(UPDATE), UPDATE, b"ONIEOPEN" + rest)
            self.check_slots(slot(1, len(RESCUE), RESCUE), opened, "onie update")

    def test_lengths(self) -> None:
        """A slot with a length of more than 8,180 isn't open, though its gate is."""
        right = slot(1, len(RESCUE), RESCUE)
        for length in (8181, 8192, 2**31, 2**32 - 1):
            long = slot(2, length, UPDATE)
            self.check_slots(right, long, "onie rescue")
            self.check_slots(long, right, "onie rescue")
            self.check_slots(long, long, None)

    def test_shorter_lengths(self) -> None:
        """The content ends where the length says, and not where the bytes do."""
        both = RESCUE + b"nos_bootcmd=\0"
        self.check_slots(slot(1, len(RESCUE), both), bytes(17 * 512), "onie rescue")
        self.check_slots(slot(1, 0, both), bytes(17 * 512), "onie install")
        self.check_slots(slot(1, len(RESCUE) - 1, both), bytes(17 * 512), None)
        self.check_slots(slot(1, len(RESCUE) + 1, both), bytes(17 * 512), None)

    def test_no_second_choice(self) -> None:
        """Where the current slot has a wrong line, the other one doesn't take its place."""
        right, wrong = slot(1, len(RESCUE), RESCUE), slot(2, len(WRONG), WRONG)
        self.check_slots(right, wrong, None)
        self.check_slots(wrong, right, None)
        older = slot(0, len(WRONG), WRONG)
        self.check_slots(right, older, "onie rescue")
        self.check_slots(older, right, "onie rescue")

    def test_sizes(self) -> None:
        """34 whole sectors are needed, and what stands after them doesn't count."""
        right = slot(1, len(RESCUE), RESCUE) + bytes(17 * 512)
        for size in (0, 512, 17 * 512, 33 * 512, 34 * 512 - 1):
            self.check_slots(right[:size], b"", None)
        for more in (1, 511, 512, 34 * 512):
            self.check_slots(right, slot(2, 0, b"")[:more] + bytes(more), "onie rescue")


class Lines(StatusTest):
    def setUp(self) -> None:
        super().setUp()
        self.make_flash(None)

    def check_lines(self, content: bytes, what: str | None) -> None:
        """This boots with this content; None: its lines are wrong."""
        with self.subTest(content[:80]):
            self.flash.write_bytes(slot(1, len(content), content) + bytes(17 * 512))
            if what is None:
                self.check_lacks("no variables")
            else:
                self.check_boots(what)

    def test_right_lines(self) -> None:
        self.check_lines(b"", "onie install")
        self.check_lines(b"a=\0" + RESCUE, "onie rescue")
        self.check_lines(RESCUE + b"a==b=\0_= ~\0009=\0A=\0", "onie rescue")
        self.check_lines(b"n" * 64 + b"=\0" + RESCUE, "onie rescue")
        self.check_lines(b"a=" + bytes(range(0x20, 0x7F)) + b"\0" + RESCUE, "onie rescue")

    def test_longest(self) -> None:
        """8,180 bytes fill the slot."""
        fill = b"a=" + b"v" * (8180 - 3 - len(RESCUE)) + b"\0"
        self.check_lines(fill + RESCUE, "onie rescue")
        self.check_lines(RESCUE + fill, "onie rescue")
        self.check_lines(RESCUE + fill[:-1] + b"v", None)
        many = b"".join(b"%04x=\0" % number for number in range(1362))
        self.check_lines(many + b"abcdef=\0", "onie install")
        self.check_lines(many + b"0000=\0", None)

    def test_wrong_lines(self) -> None:
        """Each is wrong before, between and after right ones."""
        wrong = [b"\0", b"a\0", b"=\0", b"=b\0", b"a-b=c\0", b"a b=c\0", b" a=c\0"]
        wrong += [b"\xe9=c\0", b"\xc3\xa9=c\0", b"a=\x1f\0", b"a=\x7f\0", b"a=\xff\0", b"a=b\nc\0"]
        wrong += [b"n" * 65 + b"=\0", b"onie_boot_reason=install\0", b"onie_boot_reason=\0"]
        for line in wrong:
            self.check_lines(RESCUE + line, None)
            self.check_lines(RESCUE + line + b"b=c\0", None)
            self.check_lines(line + RESCUE, None)

    def test_a_last_line_without_its_end(self) -> None:
        for line in (b"b", b"b=", b"b=c", b"onie_boot_reason=update"):
            self.check_lines(line, None)
            self.check_lines(b"a=\0" + line, None)


class Boots(StatusTest):
    """What boots, on a board with ONIE in entry 1 and a NOS in entry 2."""

    def setUp(self) -> None:
        super().setUp()
        self.make_flash(None)

    def check_variables(self, what: str, **variables: str) -> None:
        """This boots with these variables."""
        with self.subTest(variables):
            content = "".join(f"{name}={value}\0" for name, value in variables.items())
            self.flash.write_bytes(encode_slot(Slot(1, content.encode())) + bytes(17 * 512))
            self.check_boots(what)

    def test_modes(self) -> None:
        """A boot reason comes before the NOS."""
        nos = f"boot {NOS_GUID}"
        for mode in ("install", "rescue", "uninstall", "update", "embed"):
            self.check_variables(f"onie {mode}", onie_boot_reason=mode)
            self.check_variables(f"onie {mode}", onie_boot_reason=mode, nos_bootcmd=nos)
            self.check_variables(f"onie {mode}", nos_bootcmd=nos, onie_boot_reason=mode)

    def test_reasons_that_are_no_mode(self) -> None:
        """They count as absent."""
        nos = f"boot {NOS_GUID}"
        for reason in ("", "Install", "install ", " rescue", "RESCUE", "diag", "installx", "boot"):
            self.check_variables("onie install", onie_boot_reason=reason)
            self.check_variables(f"nos {NOS_GUID}", onie_boot_reason=reason, nos_bootcmd=nos)

    def test_named(self) -> None:
        """The digits are read in either case, and printed as small letters."""
        for guid in (str(NOS_GUID), str(NOS_GUID).upper()):
            self.check_variables(f"nos {NOS_GUID}", nos_bootcmd=f"boot {guid}")
            self.check_variables(f"nos {NOS_GUID}", a="b", nos_bootcmd=f"boot {guid}", c="")

    def test_what_names_nothing(self) -> None:
        guid = str(NOS_GUID)
        bad = ["", "boot", "boot ", guid, f"boot{guid}", f"boot  {guid}", f" boot {guid}"]
        bad += [f"boot {guid} ", f"Boot {guid}", f"boot {{{guid}}}", f"boot {guid[:-1]}"]
        bad += [f"boot {guid}0", f"boot {guid[:-1]}g", f"boot {guid.replace('-', '')}"]
        bad += [f"boot {guid.replace('-', '_')}", f"boot {guid[:7]}-{guid[7]}{guid[9:]}"]
        for command in bad:
            self.check_variables("onie install", nos_bootcmd=command)

    def test_guids_that_are_no_nos(self) -> None:
        """ONIE's own, one of no entry, that of the disk, and that of a type."""
        for guid in (
            str(ONIE_GUID),
            "01234567-89ab-cdef-0123-456700000002",
            "01234567-89ab-cdef-0123-456789abcdef",
            "0fc63daf-8483-4772-8e79-3d69d8477de4",
            "00000000-0000-0000-0000-000000000000",
        ):
            self.check_variables("onie install", nos_bootcmd=f"boot {guid}")

    def test_other_variables(self) -> None:
        """They change nothing here, nor do names that are nearly the known ones."""
        self.check_variables("onie install", install_url="http://10.0.0.1/a", update_url="")
        self.check_variables("onie install", onie_switch_asic="bcm", Onie_boot_reason="rescue")
        self.check_variables("onie install", onie_boot_reason_="rescue", boot_reason="rescue")
        self.check_variables("onie install", NOS_BOOTCMD=f"boot {NOS_GUID}")


if __name__ == "__main__":
    unittest.main()
