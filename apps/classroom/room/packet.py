"""A HELLO written by hand, with an IP header in front of it as a sender makes one."""

import hello

HEADER = 20


def packet(message, source, destination):
    """The octets of a packet from source to destination that carries the message."""
    length = (HEADER + len(message)).to_bytes(2, "big")
    front = bytes([0x45, 0]) + length + bytes(4) + bytes([255, 63])
    addresses = bytes(source) + bytes(destination)
    # The checksum of all words and a zero in its own place is the one that is sent.
    checksum = hello.checksum(front + bytes(2) + addresses)
    return front + checksum.to_bytes(2, "big") + addresses + message
