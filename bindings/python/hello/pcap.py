"""Packets in pcap and pcapng files, by the library dpkt (Debian: python3-dpkt).

    packets = hello.pcap.read(octets)                                # a list of Timed
    octets = hello.pcap.write(packets, pcapng=True, ethernet=True)

Files of link type raw IP and Ethernet are read and written. Times are kept to the microsecond.
"""

from __future__ import annotations

import decimal
import io
from typing import Any, Iterable, NamedTuple

from .structures import octets_of

ETHERNET = 1
RAW_IP = 101
RAW_IP_TYPES = (RAW_IP, 12, 14, 228)
"""Raw IP by the numbers of several systems, and IPv4 alone."""
SNAPSHOT = 65_535
_ETHERNET_OCTETS = 14
_TAG_OCTETS = 4
_IPV4 = 0x0800
_IP_OCTETS = 20


class Timed(NamedTuple):
    """A packet, IP header first, and its time in microseconds since 1970."""

    time: int
    packet: bytes


def _dpkt() -> Any:
    try:
        import dpkt
        import dpkt.pcapng
    except ImportError:
        raise ImportError("the Debian package python3-dpkt is needed for pcap files") from None
    return dpkt


def read(octets: bytes) -> list[Timed]:
    """The IPv4 packets of a pcap or pcapng file; frames that have none are passed over.

    ValueError if it is no such file, has another link type, or cuts a packet off.
    """
    dpkt = _dpkt()
    try:
        reader = dpkt.pcap.UniversalReader(io.BytesIO(octets_of(octets)))
        frames = list(reader)
    except (ValueError, dpkt.Error, dpkt.UnpackError, EOFError) as error:
        raise ValueError(f"this is no pcap or pcapng file: {error}") from None
    link = reader.datalink()
    if link != ETHERNET and link not in RAW_IP_TYPES:
        raise ValueError(f"the link type is {link}: raw IP ({RAW_IP}) and Ethernet ({ETHERNET}) can be read")
    found = []
    for number, (time, frame) in enumerate(frames, 1):
        packet = _of_ethernet(dpkt, frame) if link == ETHERNET else bytes(frame)
        if packet is None or not packet or packet[0] >> 4 != 4:
            continue
        length = int.from_bytes(packet[2:4], "big")
        if len(packet) < _IP_OCTETS or len(packet) < length:
            raise ValueError(f"packet {number} is cut off: capture it with a longer snapshot length")
        # A frame may be longer than its packet: Ethernet pads it.
        found.append(Timed(round(time * 1_000_000), packet[:length] if link == ETHERNET else packet))
    return found


def _of_ethernet(dpkt: Any, frame: bytes) -> bytes | None:
    """The octets of a frame's IPv4 packet as they are, or None."""
    try:
        ethernet = dpkt.ethernet.Ethernet(frame)
    except dpkt.Error:
        return None
    tags = getattr(ethernet, "vlan_tags", [])
    if (tags[-1] if tags else ethernet).type != _IPV4:
        return None
    return bytes(frame[_ETHERNET_OCTETS + _TAG_OCTETS * len(tags) :])


def write(packets: Iterable[Timed], pcapng: bool = False, ethernet: bool = False) -> bytes:
    """The octets of a file with these packets."""
    dpkt = _dpkt()
    out = io.BytesIO()
    kind = dpkt.pcapng.Writer if pcapng else dpkt.pcap.Writer
    writer = kind(out, snaplen=SNAPSHOT, linktype=ETHERNET if ethernet else RAW_IP)
    for time, packet in packets:
        frame = packet
        if ethernet:
            header = dpkt.ethernet.Ethernet(dst=bytes(6), src=bytes(6), type=_IPV4)
            frame = bytes(header)[:_ETHERNET_OCTETS] + packet
        seconds: Any = time / 1_000_000 if pcapng else decimal.Decimal(time) / 1_000_000
        writer.writepkt_time(frame, seconds)
    return out.getvalue()
