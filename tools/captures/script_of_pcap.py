"""Makes lines of a network script from a capture of DHCP exchanges.

Each client of the capture is an interface, in the order in which they first ask. What servers sent
to it comes to its flow at the time since its first DISCOVER, which is when it first asked; a reply
that came more than a day later is left out, since no script has such a time. With --mac the replies are made to
fit a board of this base address: the number and the client's address are written anew, and nothing
else. The capture is one in libpcap's classic form, over Ethernet.
"""

from __future__ import annotations

import argparse
import re
import sys
from dataclasses import dataclass, field
from pathlib import Path

from command_line import Refusal, command_line, run
from formats.decoding import DecodeError
from formats.packets import Datagram, datagram_in, packets_of

EXAMPLES = """\
examples:
  python3 tools script_of_pcap dhcp.pcap > net.txt
  python3 tools script_of_pcap dhcp.pcap --mac 00:11:22:33:44:55 --round 1 > net.txt
  tcpdump -i eth0 -w dhcp.pcap port 67 or port 68       makes such a capture
"""

MAC = re.compile("[0-9A-Fa-f]{2}(:[0-9A-Fa-f]{2}){5}")
SHORTEST = 240
"""The bytes of a message's fixed fields and its cookie."""

REQUEST, REPLY = 1, 2
OPTIONS = 240
MESSAGE_TYPE, PAD, END = 53, 0, 255
DISCOVER = 1
XID = slice(4, 8)
CHADDR = slice(28, 34)
COOKIE_PLACE = slice(236, 240)
COOKIE = b"\x63\x82\x53\x63"
MOST_CLIENTS = 8
LATEST = 86_400_000


@dataclass
class Client:
    """A client: when it first asked, in milliseconds, and what came to it since."""

    since: int
    replies: list[tuple[int, int, bytes]] = field(default_factory=list)


def base_address(text: str) -> int:
    """The number of an Ethernet address."""
    if MAC.fullmatch(text) is None:
        raise argparse.ArgumentTypeError(f"{text!r} is no Ethernet address")
    return int(text.replace(":", ""), 16)


def round_number(text: str) -> int:
    """A round, 1 to 99."""
    if not (text.isascii() and text.isdigit() and 1 <= int(text) <= 99):
        raise argparse.ArgumentTypeError(f"{text!r} is no round of 1 to 99")
    return int(text)


def message_in(datagram: Datagram | None) -> bytes | None:
    """The DHCP message of a datagram, if it carries one."""
    if datagram is None or not {datagram.source, datagram.target} & {67, 68}:
        return None
    payload = datagram.payload
    return payload if len(payload) >= SHORTEST and payload[COOKIE_PLACE] == COOKIE else None


def message_type(message: bytes) -> int | None:
    """The value of option 53 among the options, if it is there (RFC 2132, section 9.6)."""
    place = OPTIONS
    while place + 1 < len(message) and message[place] != END:
        if message[place] == PAD:
            place += 1
            continue
        value = message[place + 2 : place + 2 + message[place + 1]]
        if message[place] == MESSAGE_TYPE:
            return value[0] if len(value) == 1 else None
        place += 2 + message[place + 1]
    return None


def clients_in(data: bytes) -> list[Client]:
    """The clients of a capture, with what came to each."""
    clients: dict[bytes, Client] = {}
    for packet in packets_of(data):
        datagram = datagram_in(packet.frame)
        message = message_in(datagram)
        if message is None or datagram is None:
            continue
        client = clients.get(message[CHADDR])
        if message[0] == REQUEST and client is None and message_type(message) == DISCOVER:
            clients[message[CHADDR]] = Client(packet.at)
        elif message[0] == REPLY and client is not None and packet.at - client.since <= LATEST:
            client.replies.append((max(0, packet.at - client.since), datagram.source, message))
    return list(clients.values())


def fitted(message: bytes, base: int | None, place: int, of_round: int) -> bytes:
    """The message for the interface of this place, where there is a base address."""
    if base is None:
        return message
    station = ((base + place) % 2**48).to_bytes(6, "big")
    number = int.from_bytes(station[2:], "big") ^ of_round
    return message[:4] + number.to_bytes(4, "big") + message[8:28] + station + message[34:]


def script(clients: list[Client], base: int | None, of_round: int) -> str:
    """The lines: all interfaces, and then what comes to the flow of each."""
    lines = [f"iface eth{place}" for place in range(len(clients))]
    for place, client in enumerate(clients):
        lines.append(f"flow {of_round} dhcp eth{place}")
        for at, port, message in client.replies:
            lines.append(f"at {at} udp {port} {fitted(message, base, place, of_round).hex()}")
    return "".join(line + "\n" for line in lines)


def act(options: argparse.Namespace) -> int:
    """Prints the lines."""
    try:
        clients = clients_in(options.pcap.read_bytes())
    except DecodeError as error:
        raise Refusal(f"{options.pcap}: {error}") from error
    if not clients:
        raise Refusal(f"{options.pcap}: no client asks by DHCP")
    if len(clients) > MOST_CLIENTS:
        raise Refusal(f"{options.pcap}: {len(clients)} clients, more than {MOST_CLIENTS}")
    sys.stdout.write(script(clients, options.mac, options.round))
    return 0


def main(words: list[str]) -> int:
    """Prints the lines; gives 0, or 2 with one line on standard error where there are none."""
    line = command_line("script_of_pcap", __doc__, EXAMPLES)
    line.add_argument("pcap", metavar="PCAP", type=Path, help="the capture")
    line.add_argument("--mac", type=base_address, help="the base address of the board")
    line.add_argument("--round", type=round_number, default=1, help="the round, 1 if not given")
    return run("script_of_pcap", line, act, words)
