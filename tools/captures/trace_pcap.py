"""Writes a trace as packets: a capture that Wireshark opens.

A trace holds what was sent, and not how: the heads of Ethernet, IP, UDP, TCP and ICMPv6 are made
up. The switch is the station 02:00:00:00:00:01, but for DHCP, whose packets name its interface; its
addresses are 192.0.2.1, 2001:db8::1 and fe80::ff:fe00:1, and its ports those from 49152 on. What
answered it stands in no trace. docs/discovery.md says more.
"""

from __future__ import annotations

import argparse
import ipaddress
import re
from dataclasses import dataclass
from pathlib import Path

from command_line import Refusal, command_line, run
from formats.packets import V4, V6, Ends, Packet, capture, icmpv6_frame, tcp_frame, udp_frame

EXAMPLES = """\
examples:
  python3 tools trace_pcap net.trace out.pcap
  python3 tools trace_pcap board/net.trace board.pcap && wireshark board.pcap
"""

LINE = re.compile(rb"([0-9]+) ([0-9]+) (.*) -> ([0-9]+) ((?:[0-9a-f]{2})*)", re.DOTALL)
"""A line of a trace: the round, the time in milliseconds, the label, the port and the bytes."""

HOST = re.compile(r"\[([0-9a-f:]+)(?:%[a-z0-9]+)?\]|([0-9.]+)")
"""A host of a label: an IPv6 address in brackets, perhaps with an interface, or an IPv4 address."""

SWITCH = bytes.fromhex("020000000001")
SERVER = bytes.fromhex("020000000002")
EVERY_STATION = b"\xff" * 6
ALL_NODES_STATION = bytes.fromhex("333300000001")
SWITCH_V4 = V4("192.0.2.1")
SWITCH_V6 = V6("2001:db8::1")
SWITCH_LINK = V6("fe80::ff:fe00:1")
ALL_NODES = V6("ff02::1")
FIRST_PORT = 49_152
PORTS = 65_536 - FIRST_PORT
CHADDR = slice(28, 34)
LONGEST = 65_000
"""The most bytes that are put behind one head."""


@dataclass(frozen=True)
class Line:
    """What was sent."""

    at: int
    label: str
    port: int
    payload: bytes


def line_of(text: bytes) -> Line | None:
    """The line that a text is, if it is one."""
    found = LINE.fullmatch(text)
    if found is None:
        return None
    _, at, label, port, payload = found.groups()
    if int(port) > 65_535:
        return None
    return Line(int(at), label.decode("latin-1"), int(port), bytes.fromhex(payload.decode("ascii")))


def address_of(host: str) -> V4 | V6 | None:
    """The address that a host of a label is, if it is one."""
    found = HOST.fullmatch(host)
    try:
        return None if found is None else ipaddress.ip_address(found[1] or found[2])
    except ValueError:
        return None


def ends_to(target: V4 | V6) -> Ends:
    """From the switch to a server."""
    if target.version == 4:
        return Ends(SWITCH, SERVER, SWITCH_V4, target)
    return Ends(SWITCH, SERVER, SWITCH_LINK if target.is_link_local else SWITCH_V6, target)


def frame_of(line: Line, own_port: int) -> bytes | None:
    """The frame of what was sent, by its label; none for a label that no flow has."""
    words = line.label.split(" ", 2)
    if words[0] == "dhcp" and len(line.payload) >= CHADDR.stop:
        ends = Ends(line.payload[CHADDR], EVERY_STATION, V4("0.0.0.0"), V4("255.255.255.255"))
        return udp_frame(ends, 68, line.port, line.payload)
    if words[0] == "nbr" and len(line.payload) >= 4:
        return icmpv6_frame(Ends(SWITCH, ALL_NODES_STATION, SWITCH_LINK, ALL_NODES), line.payload)
    if len(words) < 3:
        return None
    host, port = (words[1], "") if words[0] == "dns" else words[1].rpartition(":")[::2]
    target = address_of(host)
    if target is None:
        return None
    if words[0] in ("dns", "tftp"):
        return udp_frame(ends_to(target), own_port, line.port, line.payload)
    if words[0] == "http" and port.isascii() and port.isdigit() and int(port) <= 65_535:
        return tcp_frame(ends_to(target), own_port, int(port), line.payload)
    return None


def packets(trace: bytes) -> list[Packet]:
    """The packets of a trace. Each label has a port of its own."""
    made: list[Packet] = []
    labels: dict[str, int] = {}
    for number, text in enumerate(trace.removesuffix(b"\n").split(b"\n") if trace else [], 1):
        line = line_of(text)
        if line is None:
            raise Refusal(f"line {number} is no line of a trace")
        if len(line.payload) > LONGEST:
            raise Refusal(f"line {number} has more than {LONGEST} bytes")
        own_port = FIRST_PORT + labels.setdefault(line.label, len(labels)) % PORTS
        frame = frame_of(line, own_port)
        if frame is None:
            raise Refusal(f"line {number} has no label of a flow, or too few bytes for it")
        made.append(Packet(line.at, frame))
    return made


def act(options: argparse.Namespace) -> int:
    """Writes the capture."""
    made = packets(options.trace.read_bytes())
    options.pcap.write_bytes(capture(made))
    print(f"{len(made)} packets")
    return 0


def main(words: list[str]) -> int:
    """Writes the capture; gives 0, or 2 with one line on standard error where a line is none."""
    line = command_line("trace_pcap", __doc__, EXAMPLES)
    line.add_argument("trace", metavar="TRACE", type=Path, help="the trace, as net.trace")
    line.add_argument("pcap", metavar="PCAP", type=Path, help="the capture that is written")
    return run("trace_pcap", line, act, words)
