"""Traces as captures, and scripts from captures, read back byte by byte."""

import struct
import tempfile
import unittest
from pathlib import Path

from formats.packets import V6, Ends, checksum, icmpv6_frame
from tests.test_command_line import tools

OPTIONS = b"\x35\x01\x01\x3c\x20onie_vendor:x86_64-kvm_x86_64-r0\x37\x09\x01\x03\x06BCHr}\x96\xff"
DISCOVER = (
    bytes.fromhex("01010600 22334454 0000 8000".replace(" ", ""))
    + bytes(16)
    + bytes.fromhex("001122334455")
    + bytes(202)
    + b"\x63\x82\x53\x63"
    + OPTIONS
)

REAL_CLIENT = bytes.fromhex("80a2354f4e10")
REAL_NUMBER = bytes.fromhex("354f4e11")


def real_reply(address: str, options: str) -> bytes:
    """A reply of dnsmasq 2.90 to a client of this project, as it was recorded."""
    head = bytes.fromhex("02010600") + REAL_NUMBER + bytes.fromhex("0000800000000000")
    addresses = bytes.fromhex(address) + bytes.fromhex("0a09000100000000")
    return head + addresses + REAL_CLIENT + bytes(202) + bytes.fromhex("63825363" + options)


OFFER = real_reply(
    "0a090014",
    "35010236040a090001330400000e103a04000007083b0400000c4e0104ffffff001c040a0900ff03040a090001"
    "7211687474703a2f2f31302e392e302e312f78ff",
)
ACK = real_reply(
    "0a090014",
    "35010536040a090001330400000e103a04000007083b0400000c4e0104ffffff001c040a0900ff03040a090001"
    "7211687474703a2f2f31302e392e302e312f78ff",
)


def ones_sum(data: bytes) -> int:
    """The sum that is FFFF over bytes with a right checksum (RFC 1071)."""
    total = 0
    for place in range(0, len(data), 2):
        total += int.from_bytes((data[place : place + 2] + b"\0")[:2], "big")
    while total > 0xFFFF:
        total = (total >> 16) + (total & 0xFFFF)
    return total


def read_back(data: bytes) -> list[tuple[int, bytes]]:
    """The times in microseconds and the frames of a capture in the little-endian form."""
    assert data[:24] == bytes.fromhex("d4c3b2a1 0200 0400 00000000 00000000 00000400 01000000")
    found, at = [], 24
    while at < len(data):
        seconds, micro, size, whole = struct.unpack_from("<IIII", data, at)
        assert size == whole
        found.append((1_000_000 * seconds + micro, data[at + 16 : at + 16 + size]))
        at += 16 + size
    return found


def captured(frames: list[tuple[int, bytes]], order: str, parts: int) -> bytes:
    """A capture of frames with their milliseconds, in an order of bytes and parts of a second."""
    magic = 0xA1B2C3D4 if parts == 10**6 else 0xA1B23C4D
    data = struct.pack(order + "IHHiIII", magic, 2, 4, 0, 0, 65535, 1)
    for at, frame in frames:
        seconds, rest = divmod(at, 1000)
        head = (1_700_000_000 + seconds, rest * parts // 1000, len(frame), len(frame))
        data += struct.pack(order + "IIII", *head) + frame
    return data


def udp(source: int, target: int, payload: bytes, tag: bytes = b"") -> bytes:
    """A frame over IPv4, with no checksums and perhaps a tag of a VLAN."""
    size = 8 + len(payload)
    addresses = b"\n\t\0\1" + b"\xff" * 4
    head = struct.pack(">BBHHHBBH", 0x45, 0, 20 + size, 1, 0, 64, 17, 0) + addresses
    ports = struct.pack(">HHHH", source, target, size, 0)
    return bytes(12) + tag + b"\x08\0" + head + ports + payload


class Checksums(unittest.TestCase):
    def test_worked_sums(self) -> None:
        """RFC 1071's example, and an echo request of the Linux kernel as it was recorded."""
        self.assertEqual(checksum(bytes.fromhex("0001f203f4f5f6f7")), 0x220D)
        ends = Ends(bytes(6), bytes(6), V6("fe80::82a2:35ff:fe4f:4e10"), V6("ff02::1"))
        frame = icmpv6_frame(ends, bytes.fromhex("800000004f4e0001"))
        self.assertEqual(frame[54:].hex(), "80002de74f4e0001")


class TracePcap(unittest.TestCase):
    def setUp(self) -> None:
        self.folder = Path(self.enterContext(tempfile.TemporaryDirectory()))

    def made(self, trace: bytes) -> list[tuple[int, bytes]]:
        """The packets that a trace is written as."""
        (self.folder / "trace").write_bytes(trace)
        out = self.folder / "out.pcap"
        done = tools("trace_pcap", str(self.folder / "trace"), str(out))
        packets = read_back(out.read_bytes())
        self.assertEqual(done, (0, f"{len(packets)} packets\n", ""))
        return packets

    def test_an_empty_trace(self) -> None:
        self.assertEqual(self.made(b""), [])

    def test_datagrams(self) -> None:
        """Each has its time, its ends, its ports and its bytes, and right checksums."""
        lines = [
            (0, "dhcp eth0", 67, DISCOVER, "00000000", "ffffffff", 68),
            (50, "dns 10.0.0.1 img.example", 53, b"\x4f\x4e", "c0000201", "0a000001", 49153),
            (61_234, "tftp 10.0.0.1:69 a -> 69 b", 69, b"odd", "c0000201", "0a000001", 49154),
            (61_235, "tftp 10.0.0.1:69 a -> 69 b", 40000, b"", "c0000201", "0a000001", 49154),
        ]
        trace = ""
        for at, label, port, payload, *_ in lines:
            trace += f"1 {at} {label} -> {port} {payload.hex()}\n"
        packets = self.made(trace.encode())
        self.assertEqual(len(packets), len(lines))
        for (at, _, port, payload, source, target, own), (micro, frame) in zip(lines, packets):
            with self.subTest(at):
                self.assertEqual(micro, 1000 * at)
                self.assertEqual(frame[12:14], b"\x08\0")
                head, body = frame[14:34], frame[34:]
                self.assertEqual((head[0], head[9]), (0x45, 17))
                self.assertEqual(int.from_bytes(head[2:4], "big"), len(frame) - 14)
                self.assertEqual(head[12:].hex(), source + target)
                self.assertEqual(ones_sum(head), 0xFFFF)
                self.assertEqual(struct.unpack(">HHH", body[:6]), (own, port, len(body)))
                self.assertEqual(body[8:], payload)
                pseudo = head[12:] + b"\0\x11" + struct.pack(">H", len(body))
                self.assertEqual(ones_sum(pseudo + body), 0xFFFF)
        self.assertEqual(packets[0][1][:12], b"\xff" * 6 + DISCOVER[28:34])

    def test_echoes_and_streams(self) -> None:
        """An echo request goes to all nodes, and a request over HTTP to its server's port."""
        request = b"GET /a HTTP/1.1\r\n\r\n"
        trace = (
            "1 100 nbr eth0 -> 0 800000004f4e0001\n"
            f"2 3100 http [fe80::2%eth0]:8080 /a -> 0 {request.hex()}\n"
            f"2 3101 http [2001:db8::5]:80 /a b -> 0 {request.hex()}\n"
        )
        (_, echo), (_, near), (_, far) = self.made(trace.encode())
        self.assertEqual(echo[:6].hex(), "333300000001")
        self.assertEqual(echo[54:56] + echo[58:], bytes.fromhex("80004f4e0001"))
        for frame, target, port, protocol in (
            (echo, "ff020000000000000000000000000001", None, 58),
            (near, "fe800000000000000000000000000002", 8080, 6),
            (far, "20010db8000000000000000000000005", 80, 6),
        ):
            with self.subTest(target):
                self.assertEqual(frame[12:14], b"\x86\xdd")
                head, body = frame[14:54], frame[54:]
                self.assertEqual((head[0] >> 4, head[6]), (6, protocol))
                self.assertEqual(int.from_bytes(head[4:6], "big"), len(body))
                self.assertEqual(head[24:].hex(), target)
                pseudo = head[8:] + struct.pack(">II", len(body), protocol)
                self.assertEqual(ones_sum(pseudo + body), 0xFFFF)
                if port is not None:
                    self.assertEqual(int.from_bytes(body[2:4], "big"), port)
                    self.assertEqual(body[4 * (body[12] >> 4) :], request)

    def test_refusals(self) -> None:
        """Each is one line, and no capture is written."""
        for trace, said in (
            (b"\n", "line 1 is no line of a trace"),
            (b"1 0 dhcp eth0 -> 67 0\n", "line 1 is no line of a trace"),
            (b"1 0 tftp 10.0.0.1:69 a -> 65536 00\n", "line 1 is no line of a trace"),
            (b"1 0 tftp 10.0.0.1:69 a -> 69 00\n1 0 a -> 1 00\n", "line 2 has no label of a flow, or too few bytes for it"),
            (b"1 0 tftp host:69 a -> 69 00\n", "line 1 has no label of a flow, or too few bytes for it"),
            (b"1 0 http 10.0.0.1:x /a -> 0 00\n", "line 1 has no label of a flow, or too few bytes for it"),
            (b"1 0 tftp 10.0.0.1:69 a -> 69 " + b"00" * 65_001, "line 1 has more than 65000 bytes"),
        ):
            with self.subTest(trace[:40]):
                (self.folder / "trace").write_bytes(trace)
                out = self.folder / "out.pcap"
                done = tools("trace_pcap", str(self.folder / "trace"), str(out))
                self.assertEqual(done, (2, "", f"trace_pcap: {said}\n"))
                self.assertFalse(out.exists())


class ScriptOfPcap(unittest.TestCase):
    def setUp(self) -> None:
        self.folder = Path(self.enterContext(tempfile.TemporaryDirectory()))

    def script(self, data: bytes, *words: str) -> tuple[int, str, str]:
        """What the script prints for a capture."""
        (self.folder / "in.pcap").write_bytes(data)
        status, text, error = tools("script_of_pcap", str(self.folder / "in.pcap"), *words)
        return status, text, error.replace(str(self.folder) + "/", "")

    def exchange(self) -> list[tuple[int, bytes]]:
        """What was on the wire of a real exchange, with other packets between."""
        asked = b"\x01" + OFFER[1:16] + bytes(4) + OFFER[20:]
        discover = asked.replace(b"\x35\x01\x02", b"\x35\x01\x01", 1)
        request = asked.replace(b"\x35\x01\x02", b"\x35\x01\x03", 1)
        return [
            (7, bytes(12) + b"\x08\x06" + bytes(28)),
            (50, udp(68, 67, request)),
            (100, udp(68, 67, discover)),
            (118, udp(67, 68, OFFER)),
            (118, udp(53, 4000, OFFER)),
            (119, udp(68, 67, request)),
            (1119, udp(67, 68, ACK, b"\x81\0\0\x07")),
            (1120, udp(67, 68, OFFER[:28] + bytes(6) + OFFER[34:])),
        ]

    def test_real_replies(self) -> None:
        """They come as they were sent, in each form of a capture."""
        want = "iface eth0\nflow 1 dhcp eth0\n"
        want += f"at 18 udp 67 {OFFER.hex()}\nat 1019 udp 67 {ACK.hex()}\n"
        for order in "<>":
            for parts in (10**6, 10**9):
                with self.subTest(order + str(parts)):
                    done = self.script(captured(self.exchange(), order, parts))
                    self.assertEqual(done, (0, want, ""))

    def test_for_a_board(self) -> None:
        """The number and the client's address are the board's, and all else stays."""
        words = ["--mac", "00:11:22:33:44:55", "--round", "3"]
        status, text, _ = self.script(captured(self.exchange(), "<", 10**6), *words)
        self.assertEqual(status, 0)
        lines = text.splitlines()
        self.assertEqual(lines[:2], ["iface eth0", "flow 3 dhcp eth0"])
        for line, real in zip(lines[2:], (OFFER, ACK), strict=True):
            message = bytes.fromhex(line.split(" ")[4])
            self.assertEqual(message[4:8].hex(), "22334456")
            self.assertEqual(message[28:34].hex(), "001122334455")
            for part in (slice(4), slice(8, 28), slice(34, None)):
                self.assertEqual(message[part], real[part])

    def test_refusals(self) -> None:
        """Each is one line."""
        whole = captured(self.exchange(), "<", 10**6)
        for data, words, said in (
            (b"", [], "in.pcap: it is no capture in libpcap's form"),
            (b"\n\r\r\n" + bytes(40), [], "in.pcap: it is no capture in libpcap's form"),
            (whole[:20] + b"\x71" + whole[21:], [], "in.pcap: its packets are not Ethernet's"),
            (whole[:-1], [], "in.pcap: it ends within a packet"),
            (whole[:30], [], "in.pcap: it ends within a packet"),
            (whole[:24], [], "in.pcap: no client asks by DHCP"),
            (whole, ["--mac", "00:11"], "argument --mac: '00:11' is no Ethernet address"),
            (whole, ["--round", "0"], "argument --round: '0' is no round of 1 to 99"),
        ):
            with self.subTest(said):
                self.assertEqual(self.script(data, *words), (2, "", f"script_of_pcap: {said}\n"))


if __name__ == "__main__":
    unittest.main()
