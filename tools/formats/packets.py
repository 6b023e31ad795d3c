"""Ethernet packets and files of them: heads that are made for bytes, and what stands behind heads.

A capture is a file in the classic form of libpcap (draft-ietf-opsawg-pcap): a head of 24 bytes,
then each packet behind a head of 16 bytes. The heads are those of Ethernet, IPv4 (RFC 791), IPv6
(RFC 8200), UDP (RFC 768), TCP (RFC 9293) and ICMPv6 (RFC 4443).
"""

from __future__ import annotations

import ipaddress
import struct
from collections.abc import Iterator
from dataclasses import dataclass
from enum import Enum

from formats.decoding import DecodeError

V4 = ipaddress.IPv4Address
V6 = ipaddress.IPv6Address

ETHERNET = 1
"""The link type of Ethernet."""

SNAP_LENGTH = 262_144
"""The most bytes of a packet."""

CAPTURE_HEAD = "IHHiIII"
PACKET_HEAD = "IIII"
MAGIC_MICRO = 0xA1B2C3D4
MAGIC_NANO = 0xA1B23C4D
TYPE_V4, TYPE_V6, TYPE_VLAN = 0x0800, 0x86DD, 0x8100
TCP, UDP, ICMPV6 = 6, 17, 58
HOP_LIMIT = 64
PUSH_AND_ACK = 0x18
WINDOW = 65_535


class CaptureFault(Enum):
    """Why bytes are no capture that is read here."""

    MAGIC = "it is no capture in libpcap's form"
    LINK = "its packets are not Ethernet's"
    CUT = "it ends within a packet"


@dataclass(frozen=True)
class Ends:
    """Where a packet comes from and goes to: Ethernet addresses and IP addresses."""

    from_station: bytes
    to_station: bytes
    source: V4 | V6
    target: V4 | V6


@dataclass(frozen=True)
class Packet:
    """A packet and its time, in milliseconds."""

    at: int
    frame: bytes


@dataclass(frozen=True)
class Datagram:
    """What a UDP datagram over IPv4 says: its ports and its bytes."""

    source: int
    target: int
    payload: bytes


def checksum(data: bytes) -> int:
    """The Internet checksum (RFC 1071)."""
    padded = data + b"\0" * (len(data) % 2)
    total = sum(word for (word,) in struct.iter_unpack(">H", padded))
    while total >> 16:
        total = (total & 0xFFFF) + (total >> 16)
    return ~total & 0xFFFF


def pseudo_head(ends: Ends, protocol: int, size: int) -> bytes:
    """What the checksums of UDP, TCP and ICMPv6 count beside their own bytes."""
    addresses = ends.source.packed + ends.target.packed
    if ends.source.version == 4:
        return addresses + struct.pack(">BBH", 0, protocol, size)
    return addresses + struct.pack(">II", size, protocol)


def framed(ends: Ends, protocol: int, body: bytes) -> bytes:
    """The frame of a body, behind the heads of IP and Ethernet."""
    if ends.source.version == 4:
        head = struct.pack(">BBHHHBBH", 0x45, 0, 20 + len(body), 0, 0, HOP_LIMIT, protocol, 0)
        head += ends.source.packed + ends.target.packed
        head = head[:10] + struct.pack(">H", checksum(head)) + head[12:]
        kind = TYPE_V4
    else:
        head = struct.pack(">IHBB", 6 << 28, len(body), protocol, HOP_LIMIT)
        head += ends.source.packed + ends.target.packed
        kind = TYPE_V6
    return ends.to_station + ends.from_station + struct.pack(">H", kind) + head + body


def udp_frame(ends: Ends, source: int, target: int, payload: bytes) -> bytes:
    """The frame of a datagram between two ports."""
    size = 8 + len(payload)
    head = struct.pack(">HHH", source, target, size)
    summed = checksum(pseudo_head(ends, UDP, size) + head + b"\0\0" + payload)
    return framed(ends, UDP, head + struct.pack(">H", summed or 0xFFFF) + payload)


def tcp_frame(ends: Ends, source: int, target: int, payload: bytes) -> bytes:
    """The frame of the first bytes of a stream between two ports."""
    size = 20 + len(payload)
    head = struct.pack(">HHIIBBH", source, target, 1, 1, 5 << 4, PUSH_AND_ACK, WINDOW)
    summed = checksum(pseudo_head(ends, TCP, size) + head + b"\0\0\0\0" + payload)
    return framed(ends, TCP, head + struct.pack(">HH", summed, 0) + payload)


def icmpv6_frame(ends: Ends, message: bytes) -> bytes:
    """The frame of a message of ICMPv6, with its checksum filled in."""
    blank = message[:2] + b"\0\0" + message[4:]
    summed = checksum(pseudo_head(ends, ICMPV6, len(blank)) + blank)
    return framed(ends, ICMPV6, blank[:2] + struct.pack(">H", summed) + blank[4:])


def capture(packets: list[Packet]) -> bytes:
    """A capture of these packets, whose clock begins at 0."""
    parts = [struct.pack("<" + CAPTURE_HEAD, MAGIC_MICRO, 2, 4, 0, 0, SNAP_LENGTH, ETHERNET)]
    for packet in packets:
        seconds, milliseconds = divmod(packet.at, 1000)
        size = len(packet.frame)
        parts.append(struct.pack("<" + PACKET_HEAD, seconds, 1000 * milliseconds, size, size))
        parts.append(packet.frame)
    return b"".join(parts)


def packets_of(data: bytes) -> Iterator[Packet]:
    """The packets of a capture, in their order. A fault is told once it is come to."""
    for order in "<>":
        head = struct.Struct(order + CAPTURE_HEAD)
        if len(data) < head.size:
            break
        magic, _, _, _, _, _, link = head.unpack_from(data)
        if magic in (MAGIC_MICRO, MAGIC_NANO):
            if link & 0xFFFF != ETHERNET:
                raise DecodeError(CaptureFault.LINK)
            parts = 1000 if magic == MAGIC_MICRO else 10**6
            yield from packets_behind(data, head.size, order, parts)
            return
    raise DecodeError(CaptureFault.MAGIC)


def packets_behind(data: bytes, at: int, order: str, parts: int) -> Iterator[Packet]:
    """The packets from a place on; so many of the clock's parts are a millisecond."""
    head = struct.Struct(order + PACKET_HEAD)
    while at < len(data):
        if len(data) - at < head.size:
            raise DecodeError(CaptureFault.CUT)
        seconds, rest, size, _ = head.unpack_from(data, at)
        at += head.size
        if len(data) - at < size:
            raise DecodeError(CaptureFault.CUT)
        yield Packet(1000 * seconds + rest // parts, data[at : at + size])
        at += size


def datagram_in(frame: bytes) -> Datagram | None:
    """The datagram over IPv4 that a frame carries whole, if it carries one."""
    at = 12
    while frame[at : at + 2] == struct.pack(">H", TYPE_VLAN):
        at += 4
    if frame[at : at + 2] != struct.pack(">H", TYPE_V4):
        return None
    head = frame[at + 2 :]
    if len(head) < 20 or head[0] >> 4 != 4 or head[9] != UDP:
        return None
    size, fragment = struct.unpack_from(">H2xH", head, 2)
    start = 4 * (head[0] & 15)
    if fragment & 0x3FFF or not start + 8 <= size <= len(head):
        return None
    source, target, length = struct.unpack_from(">HHH", head, start)
    if not 8 <= length <= size - start:
        return None
    return Datagram(source, target, head[start + 8 : start + length])
