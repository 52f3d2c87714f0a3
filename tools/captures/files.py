"""Packets of capture files: pcap with either octet order and either clock, and pcapng."""
import struct

from refusals import Refused

ORDERS = {b"\xa1\xb2\xc3\xd4": ">", b"\xa1\xb2\x3c\x4d": ">", b"\xd4\xc3\xb2\xa1": "<", b"\x4d\x3c\xb2\xa1": "<"}
SECTION, INTERFACE, SIMPLE, ENHANCED = 0x0A0D0D0A, 1, 3, 6


def packets(data):
    """Each packet as its link type, its octets, and whether the capture kept only a beginning of it."""
    if data[:4] in ORDERS:
        yield from of_pcap(data, ORDERS[data[:4]])
    elif data[:4] == b"\x0a\x0d\x0d\x0a":
        yield from of_pcapng(data)
    else:
        raise Refused("packet 1", "the file is neither pcap nor pcapng")


def of_pcap(data, order):
    """A header of 24 octets, and before each packet one of 16."""
    if len(data) < 24:
        raise Refused("packet 1", "the file ends in the midst of its header")
    link = struct.unpack_from(order + "I", data, 20)[0] & 0x0FFFFFFF
    at, count = 24, 0
    while at < len(data):
        count += 1
        if len(data) - at < 16:
            raise Refused(f"packet {count}", "the file ends in the midst of it")
        kept, was = struct.unpack_from(order + "8xII", data, at)
        if len(data) - at - 16 < kept:
            raise Refused(f"packet {count}", "the file ends in the midst of it")
        yield link, data[at + 16 : at + 16 + kept], kept < was
        at += 16 + kept


def blocks(data):
    """The blocks of a pcapng file: the octet order of their section, their type and their body, with a number."""
    at, count, order = 0, 0, "<"
    while at < len(data):
        count += 1
        if data[at : at + 4] == b"\x0a\x0d\x0d\x0a":
            order = ">" if data[at + 8 : at + 12] == b"\x1a\x2b\x3c\x4d" else "<"
        if len(data) - at < 12:
            raise Refused(f"block {count}", "the file ends in the midst of it")
        kind, length = struct.unpack_from(order + "II", data, at)
        if length < 12 or length % 4 or len(data) - at < length:
            raise Refused(f"block {count}", "the file ends in the midst of it, or its length is none")
        if data[at + length - 4 : at + length] != data[at + 4 : at + 8]:
            raise Refused(f"block {count}", "its length stands otherwise at its end")
        yield count, order, kind, data[at + 8 : at + length - 4]
        at += length


def of_pcapng(data):
    """Each section has interfaces of its own, each with its link type."""
    links = []
    for count, order, kind, body in blocks(data):
        least = {SECTION: 16, INTERFACE: 8, SIMPLE: 4, ENHANCED: 20}.get(kind, 0)
        if len(body) < least:
            raise Refused(f"block {count}", "it is too short for its type")
        if kind == SECTION:
            links = []
        elif kind == INTERFACE:
            links.append(struct.unpack_from(order + "H2xI", body))
        elif kind in (SIMPLE, ENHANCED):
            interface = struct.unpack_from(order + "I", body)[0] if kind == ENHANCED else 0
            if interface >= len(links):
                raise Refused(f"block {count}", "it names no interface of its section")
            link, most = links[interface]
            if kind == ENHANCED:
                kept, was = struct.unpack_from(order + "12xII", body)
            else:
                was = struct.unpack_from(order + "I", body)[0]
                kept = min(was, most or was)
            if len(body) - least < kept:
                raise Refused(f"block {count}", "it is shorter than its packet")
            yield link, body[least : least + kept], kept < was


def pcap(datagrams):
    """A pcap file of packets that begin with their IP header, one each millisecond: a trace has no moments."""
    parts = [struct.pack("<IHHIIII", 0xA1B2C3D4, 2, 4, 0, 0, 65535, 101)]
    for count, datagram in enumerate(datagrams):
        parts.append(struct.pack("<IIII", count // 1000, count % 1000 * 1000, len(datagram), len(datagram)))
        parts.append(datagram)
    return b"".join(parts)
