"""`onie discover` over the script of a network, and the trace that it leaves."""

import os
import shutil
import unittest

from tests.program import needs_program
from tests.test_program import TWO_VOLUMES, ProgramTest

LONGEST = 16_777_216
"""The most bytes of a script."""

LARGEST_BODY = 268_435_456
"""The most bytes of a file that a script serves."""

SERVES = b"tftp * 10.0.0.1:69 img img 10\n"

WRONG_FIRST_LINES = {
    "unknown": [
        b"Iface eth0",
        b"\ttftp",
        b"http * 10.0.0.5:80 /a a 1",
        b"lease * eth0 50 10.0.0.20 10.0.0.1",
        b"at 5 fin",
        b"at 5 fin x",
        b"\0",
        b"\xff\xfe",
    ],
    "missing": [
        b" ",
        b"iface",
        b"flow *",
        b"at 2",
        b"at 2 udp 1",
        b"at 2 tcp",
        b"tftp * 10.0.0.1:69 img img",
    ],
    "extra": [
        b"iface eth0 v6",
        b"at 2 end x",
        b"at 2 udp 1 00 00",
        b"tftp * 10.0.0.1:69 img img 10 x",
        b"tftp * 10.0.0.1:69 img img 10 \r",
    ],
    "number": [
        b"flow 0 a",
        b"flow 100 a",
        b"flow 01 a",
        b"flow +1 a",
        b"tftp x 10.0.0.1:69 img img 10",
        b"tftp * 10.0.0.1:0 img img 10",
        b"tftp * 10.0.0.1:65536 img img 10",
        b"tftp * 10.0.0.1:69 img img 86400001",
        b"tftp * 10.0.0.1:69 img img 10\r",
    ],
    "address": [
        b"tftp * 10.0.0.1 img img 10",
        b"tftp * :69 img img 10",
        b"tftp * 10.0.0.256:69 img img 10",
        b"tftp * server:69 img img 10",
        b"tftp * [fe80::1%]:69 img img 10",
        b"tftp * fe80::1:69 img img 10",
    ],
    "iface": [b"iface eth0\r", b"iface Eth0", b"iface abcdefghijklmnop"],
    "no flow": [b"at 5 end", b"at x udp 0 0g"],
}
"""Lines that are wrong as the first ones, by the kind of what is wrong."""

WRONG_AFTER_A_FLOW = {
    "number": [
        b"at 86400001 end",
        b"at -1 end",
        b"at 1 udp 0 00",
        b"at 1 udp 65536 00",
        b"flow 0 b",
    ],
    "hex": [b"at 1 udp 1 0", b"at 1 udp 1 0g", b"at 1 tcp --", b"at 1 echo ::1 x", b"at 1 tcp -\r"],
    "address": [b"at 1 echo fe80::g -", b"at 1 echo 10.0.0.1 -", b"at 1 echo fe80::1%eth0 -"],
    "unknown": [b"at 1 UDP 1 00"],
    "missing": [b"at 1 echo ::1"],
    "extra": [b"at 1 reset now"],
}
"""Those that are wrong behind a line `flow`."""

OTHER_COMMANDS: list[list[str | bytes]] = [
    ["status"],
    ["eeprom"],
    ["eeprom", "set", "0x21", "a"],
    ["set", "a", "b"],
    ["unset", "a"],
]
"""Each command but `discover`."""


@needs_program
class NetworkTest(ProgramTest):
    """A test of `discover` over scripts."""

    def setUp(self) -> None:
        super().setUp()
        self.script = self.board / "net.txt"
        self.trace = self.board / "net.trace"

    def check_script(self, script: bytes, status: int, console: str) -> None:
        """`discover` over this script ends so."""
        with self.subTest(script=script[:80]):
            self.script.write_bytes(script)
            self.check(status, console)

    def check_wrong(self, script: bytes, line: int, kind: str) -> None:
        """`discover` over this script tells its first wrong line, and nothing else."""
        self.check_script(script, 5, f"onie: script line {line}: {kind}\n")


class Scripts(NetworkTest):
    """What is wrong with a script."""

    def test_each_kind(self) -> None:
        self.make()
        for kind, wrong in WRONG_FIRST_LINES.items():
            for line in wrong:
                self.check_wrong(line, 1, kind)
                self.check_wrong(b"# what follows is wrong\n\n" + line + b"\n", 3, kind)
        for kind, wrong in WRONG_AFTER_A_FLOW.items():
            for line in wrong:
                self.check_wrong(b"flow * a\n" + line + b"\n", 2, kind)

    def test_interfaces(self) -> None:
        self.make()
        self.check_wrong(b"iface a\niface b\n\niface a\n", 4, "iface")
        eight = b"".join(b"iface eth%d\n" % number for number in range(8))
        self.check_script(eight, 0, TWO_VOLUMES)
        self.check_wrong(eight + b"iface eth8\n", 9, "iface")

    def test_the_first_is_told(self) -> None:
        self.make()
        self.check_wrong(b"flow 1 a\nat 1 end\nat 2 no\nwrong\n", 3, "unknown")
        self.check_wrong(SERVES + b"wrong\n", 2, "unknown")

    def test_longest(self) -> None:
        """A byte too many is told before a wrong line."""
        self.make()
        self.check_script(b"#" * LONGEST, 0, TWO_VOLUMES)
        self.check_script(b"\n" * LONGEST, 0, TWO_VOLUMES)
        self.check_wrong(b"\n" * (LONGEST - 1) + b"x", LONGEST, "unknown")
        self.check_wrong(b"#" * (LONGEST + 1), 0, "too long")
        self.check_wrong(b"x" * (LONGEST + 100_000), 0, "too long")

    def test_the_identity_comes_first(self) -> None:
        self.make()
        self.script.write_bytes(b"wrong")
        self.eeprom.write_bytes(b"")
        self.check(4, "onie: eeprom: not tlv\n")
        self.eeprom.unlink()
        self.check(7, "onie: eeprom fault\n")

    def test_the_media_come_later(self) -> None:
        self.make()
        shutil.rmtree(self.media)
        self.check_wrong(b"wrong", 1, "unknown")
        self.check_script(b"iface eth0\n", 8, "onie: media fault\n")

    def test_only_discover_reads_it(self) -> None:
        self.make()
        for words in OTHER_COMMANDS:
            with self.subTest(words):
                self.script.write_bytes(b"wrong")
                self.assertEqual(self.run_program(words)[0], 0)
                self.script.unlink()
                self.assertEqual(self.run_program(words)[0], 0)
                self.assertFalse(self.script.exists())


class Bodies(NetworkTest):
    """The files that a script serves."""

    def test_served(self) -> None:
        """Nothing is asked for over the network yet, so what it serves changes nothing."""
        self.make("--defaults", "--file=net/img=@1000")
        for script in (b"", SERVES, SERVES * 3, b"iface eth0\nflow * a\nat 1 end\n" + SERVES):
            self.check_script(script, 0, TWO_VOLUMES)

    def test_missing(self) -> None:
        """Also where its round never comes, or there is no volume net."""
        self.make()
        self.check_wrong(SERVES, 1, "no body")
        (self.media / "net").mkdir()
        self.check_wrong(b"# x\n\n" + SERVES, 3, "no body")
        (self.media / "net" / "img").write_bytes(b"x")
        self.check_wrong(SERVES + b"tftp 99 10.0.0.1:69 img other 10", 2, "no body")

    def test_what_is_no_file(self) -> None:
        self.make()
        volume = self.media / "net"
        (volume / "folder").mkdir(parents=True)
        os.mkfifo(volume / "fifo")
        (volume / "broken").symlink_to("nowhere")
        for name in (b"folder", b"fifo", b"broken", b"..", b".", b"a/b"):
            self.check_wrong(b"tftp * 10.0.0.1:69 img %b 10\n" % name, 1, "no body")

    def test_too_large(self) -> None:
        self.make("--defaults", f"--file=net/img=@{LARGEST_BODY + 1}")
        self.check_wrong(SERVES, 1, "no body")

    def test_other_volumes_serve_nothing(self) -> None:
        self.make("--defaults", "--file=usb0/img=x")
        self.check_wrong(SERVES, 1, "no body")

    def test_no_media(self) -> None:
        self.make()
        shutil.rmtree(self.media)
        self.check_wrong(SERVES, 1, "no body")


class Source(NetworkTest):
    """The file of the script."""

    def check_fault(self) -> None:
        """The file is none that can be read."""
        self.check(9, "onie: source fault\n")

    def test_missing(self) -> None:
        self.make()
        self.script.unlink()
        self.check_fault()
        self.assertFalse(self.script.exists())

    def test_no_regular_file(self) -> None:
        self.make()
        self.script.unlink()
        os.mkfifo(self.script)
        self.check_fault()
        self.script.unlink()
        self.script.mkdir()
        self.check_fault()
        self.script.rmdir()
        self.script.symlink_to("nowhere")
        self.check_fault()

    def test_link(self) -> None:
        self.make()
        self.script.rename(self.board / "elsewhere")
        self.script.symlink_to("elsewhere")
        self.check(0, TWO_VOLUMES)

    def test_it_stays(self) -> None:
        self.make("--defaults", "--file=net/img=x")
        self.script.write_bytes(SERVES)
        self.check(0, TWO_VOLUMES)
        self.assertEqual(self.script.read_bytes(), SERVES)


class Trace(NetworkTest):
    """The file of what is sent, of which nothing is yet."""

    def test_made(self) -> None:
        self.make("--defaults", "--file=net/img=x")
        self.script.write_bytes(SERVES)
        self.check(0, TWO_VOLUMES)
        self.assertEqual(self.trace.read_bytes(), b"")

    def test_emptied(self) -> None:
        self.make()
        self.trace.write_text("1 0 an earlier run -> 69 00\n")
        self.check(0, TWO_VOLUMES)
        self.assertEqual(self.trace.read_bytes(), b"")

    def test_emptied_where_discover_is_refused(self) -> None:
        """What an earlier run sent is never taken for what this one sends."""
        self.make()
        self.script.write_bytes(b"wrong")
        for old in (None, "1 0 an earlier run -> 69 00\n"):
            with self.subTest(old):
                self.trace.unlink(missing_ok=True)
                if old is not None:
                    self.trace.write_text(old)
                self.assertEqual(self.run_program(["discover"])[0], 5)
                self.assertEqual(self.trace.read_bytes(), b"")

    def test_a_link_is_replaced(self) -> None:
        """What a link leads to stays, and the trace is a file of its own."""
        self.make()
        identity = self.eeprom.read_bytes()
        self.trace.symlink_to("eeprom.bin")
        self.check(0, TWO_VOLUMES)
        self.assertEqual(self.eeprom.read_bytes(), identity)
        self.assertFalse(self.trace.is_symlink())
        self.assertEqual(self.trace.read_bytes(), b"")

    def test_a_fifo_is_replaced(self) -> None:
        self.make()
        os.mkfifo(self.trace)
        self.check(0, TWO_VOLUMES)
        self.assertTrue(self.trace.is_file())

    def test_a_folder_stays(self) -> None:
        """Nothing is sent, so that it can't be replaced is no fault yet."""
        self.make()
        self.trace.mkdir()
        self.check(0, TWO_VOLUMES)
        self.assertTrue(self.trace.is_dir())

    def test_only_discover_makes_it(self) -> None:
        """No other command makes it or empties it."""
        self.make()
        no_commands: list[list[str | bytes]] = [[], ["discover", "x"]]
        for words in OTHER_COMMANDS + no_commands:
            with self.subTest(words):
                self.run_program(words)
                self.assertFalse(self.trace.exists())
        self.trace.write_text("old")
        for words in OTHER_COMMANDS + no_commands:
            with self.subTest(words):
                self.run_program(words)
                self.assertEqual(self.trace.read_text(), "old")


if __name__ == "__main__":
    unittest.main()
