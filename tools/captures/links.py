"""The UDP datagrams of captured packets: links, VLAN tags, IPv4 and IPv6. dpkt reads the headers."""
import struct

import dpkt

from refusals import Refused

IP4, IP6, VLANS = 0x0800, 0x86DD, (0x8100, 0x88A8, 0x9100)
NULL, ETHERNET, RAW, LOOP, SLL, IPV4, IPV6, SLL2 = 0, 1, 101, 108, 113, 228, 229, 276
# What kind of packet is behind how many octets, for the links that say so by a type of Ethernet.
TYPED = {ETHERNET: (12, 14), SLL: (14, 16), SLL2: (0, 20)}
# Extension headers of IPv6 that are passed over (RFC 8200, section 4): hop by hop, routing, destination.
PASSED = (0, 43, 60)


class Passed(Exception):
    """A packet without a whole UDP datagram, and why."""


def network(count, link, packet):
    """The octets from the IP header on. The version in it says which IP it is."""
    if link in (RAW, IPV4, IPV6, 12, 14):
        return packet
    if link in (NULL, LOOP):  # four octets of the family, in whichever order the machine had
        return packet[4:]
    if link not in TYPED:
        raise Refused(f"packet {count}", f"the link type {link} is not known here")
    at, start = TYPED[link]
    while int.from_bytes(packet[at : at + 2], "big") in VLANS:  # a tag is two octets, and then the type of what follows
        at, start = start + 2, start + 4
    if int.from_bytes(packet[at : at + 2], "big") not in (IP4, IP6):
        raise Passed("no UDP")
    return packet[start:]


def of_ip4(packet):
    """The UDP part of an IPv4 packet."""
    ip = dpkt.ip.IP(packet)
    if ip.p != 17:
        raise Passed("no UDP")
    if ip.mf or ip.offset:
        raise Passed("fragments")
    if len(packet) < ip.len:
        raise Passed("cut")
    return packet[ip.hl * 4 : ip.len]


def of_ip6(packet):
    """The UDP part of an IPv6 packet, behind its extension headers."""
    length, following = struct.unpack_from(">4xHB", packet)
    whole, at = packet[: 40 + length], 40
    while following in PASSED:
        if len(whole) < at + 8:
            raise Passed("cut")
        following, at = whole[at], at + 8 + 8 * whole[at + 1]
    if following == 44:
        raise Passed("fragments")
    if following != 17:
        raise Passed("no UDP")
    if len(packet) < 40 + length:
        raise Passed("cut")
    return whole[at:]


def udp(count, link, packet, is_cut):
    """Both ports and the payload of a captured packet, or Passed."""
    octets = network(count, link, packet)
    version = octets[0] >> 4 if octets else 0
    if version not in (4, 6):
        raise Passed("cut" if is_cut else "no UDP")
    try:
        part = of_ip4(octets) if version == 4 else of_ip6(octets)
        header = dpkt.udp.UDP(part)
    except (dpkt.UnpackError, struct.error):
        raise Passed("cut" if is_cut else "no UDP") from None
    if header.ulen < 8 or header.ulen > len(part):
        raise Passed("cut")
    return header.sport, header.dport, part[8 : header.ulen]
