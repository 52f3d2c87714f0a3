"""UDP over IPv4 around datagrams, with their checksums."""
import struct

import dpkt

SENDER, RECEIVER = bytes([10, 0, 0, 1]), bytes([10, 0, 0, 2])


def wrap(datagram, back, port):
    """RTP goes from the sender's port to the same one of the receiver; RTCP comes back from and to the port above."""
    source, target = (RECEIVER, SENDER) if back else (SENDER, RECEIVER)
    port += 1 if back else 0
    length = 8 + len(datagram)
    pseudo = source + target + struct.pack(">BBH", 0, 17, length)
    checked = dpkt.in_cksum(pseudo + struct.pack(">HHHH", port, port, length, 0) + datagram)
    header = struct.pack(">BBHHHBBH4s4s", 0x45, 0, 20 + length, 0, 0, 64, 17, 0, source, target)
    header = header[:10] + struct.pack(">H", dpkt.in_cksum(header)) + header[12:]
    return header + struct.pack(">HHHH", port, port, length, checked or 0xFFFF) + datagram
