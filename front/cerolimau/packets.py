"""Packets of Git's protocol (gitprotocol-common, "pkt-line Format")."""
from .streams import Refused, read_exactly

FLUSH = b"0000"
MAX_LENGTH = 65520
HEX_DIGITS = b"0123456789abcdefABCDEF"


def packet(payload):
    return b"%04x" % (len(payload) + 4) + payload


def read_packet(source):
    """The payload of the next packet, or None for a flush."""
    return read_payload(source, read_exactly(source, 4))


def read_payload(source, digits):
    """The same behind the four digits of the packet's length."""
    if digits == FLUSH:
        return None
    length = int(digits, 16) if not digits.strip(HEX_DIGITS) else 0
    if not 4 <= length <= MAX_LENGTH:
        raise Refused("a packet of a bad length: %s" % ascii(digits))
    return read_exactly(source, length - 4)
