"""The sequence numbers that a feedback datagram of one generic NACK names (RFC 4585, section 6.2.1)."""
from refusals import Refused


def nack(datagram):
    """The datagram without the latency that a relay may tell behind a NACK, in a packet of its own (RFC 3550, section 6.7)."""
    end = datagram[-16:]
    is_told = len(datagram) > 16 and end[:4] == b"\x81\xcc\x00\x03" and end[8:12] == b"Gozd"
    return datagram[:-16] if is_told else datagram


def named(where, datagram):
    """The numbers in the order of the pairs, each pair's PID first."""
    datagram = nack(datagram)
    pairs = len(datagram) // 4 - 3
    whole = len(datagram) % 4 == 0 and pairs >= 1 and datagram[:2] == b"\x81\xcd"
    if not whole or int.from_bytes(datagram[2:4], "big") != 2 + pairs:
        raise Refused(where, "the datagram of an ask is no generic NACK")
    numbers = []
    for at in range(12, len(datagram), 4):
        first = int.from_bytes(datagram[at : at + 2], "big")
        mask = int.from_bytes(datagram[at + 2 : at + 4], "big")
        numbers.append(first)
        numbers += [(first + bit) % 65536 for bit in range(1, 17) if mask >> (bit - 1) & 1]
    return numbers


def places(where, datagram, highest):
    """The places that an ask is for: the greatest ones below the highest place that have its numbers. What is missing lies below
    the highest place and less than a cycle from it."""
    if highest is None:
        raise Refused(where, "an ask stands before any packet was taken")
    return [highest - (highest - number) % 65536 for number in named(where, datagram)]
