"""RTP packets, retransmissions and NACKs as octets, and contents in which every field varies."""
import random
import struct
from typing import NamedTuple


class Content(NamedTuple):
    """What a session carries of a packet. The extension is b"" for none, or the profile's two octets and the words."""
    time: int
    marker: int
    payload: bytes
    csrc: bytes = b""
    ext: bytes = b""

    def words(self):
        """As a log has it: TIMESTAMP MARKER PAYLOAD CSRC EXT."""
        return [str(self.time), str(self.marker), *(one.hex() or "-" for one in self[2:])]


class Packet(NamedTuple):
    kind: int
    number: int
    ssrc: int
    content: Content


def packet(kind, number, ssrc, content, padding=0):
    """The octets of an RTP packet."""
    first = 0x80 | (0x20 if padding else 0) | (0x10 if content.ext else 0) | len(content.csrc) // 4
    ext = content.ext and content.ext[:2] + struct.pack(">H", (len(content.ext) - 2) // 4) + content.ext[2:]
    tail = bytes(padding - 1) + bytes([padding]) if padding else b""
    head = struct.pack(">BBHII", first, content.marker << 7 | kind, number & 65535, content.time, ssrc)
    return head + content.csrc + ext + content.payload + tail


def parse(octets):
    """The packet that octets are, whose padding has to be none, or None."""
    if len(octets) < 12 or octets[0] >> 6 != 2 or octets[0] & 0x20:
        return None
    at = 12 + 4 * (octets[0] & 15)
    csrc, ext = octets[12:at], b""
    if octets[0] & 0x10:
        end = at + 4 + 4 * struct.unpack(">H", octets[at + 2:at + 4])[0]
        ext, at = octets[at:at + 2] + octets[at + 4:end], end
    number, time, ssrc = struct.unpack(">HII", octets[2:12])
    return Packet(octets[1] & 127, number, ssrc, Content(time, octets[1] >> 7, octets[at:], csrc, ext))


def repair(kind, number, ssrc, original, content):
    """The octets of a retransmission of the packet with the number `original`."""
    return packet(kind, number, ssrc, content._replace(payload=struct.pack(">H", original & 65535) + content.payload))


def original(one):
    """The number and the content of what a retransmission repeats."""
    payload = one.content.payload
    return struct.unpack(">H", payload[:2])[0], one.content._replace(payload=payload[2:])


def nack(media, numbers, reporter=0x0f0f0f0f):
    """The octets of a generic NACK that names these numbers, each by a pair of its own."""
    pairs = b"".join(struct.pack(">HH", one & 65535, 0) for one in numbers)
    return struct.pack(">BBHII", 0x81, 205, 2 + len(numbers), reporter, media) + pairs


REPORT = b"\x81\xcc\x00\x03"  # how the report of a latency begins (RFC 3550, section 6.7): version 2, subtype 1, APP, four words


def told_latency(octets):
    """The milliseconds of the latency that a relay tells behind a NACK, or None."""
    end = octets[-16:]
    return struct.unpack(">I", end[12:])[0] if len(octets) > 16 and end[:4] == REPORT and end[8:12] == b"Gozd" else None


def nacked(octets):
    """The reporter, the media and the numbers of a NACK, or None where it is no datagram of one generic NACK, behind which a latency may be told."""
    octets = octets if told_latency(octets) is None else octets[:-16]
    if len(octets) < 16 or octets[:2] != b"\x81\xcd" or len(octets) != 4 + 4 * struct.unpack(">H", octets[2:4])[0]:
        return None
    numbers = []
    for at in range(12, len(octets), 4):
        pid, mask = struct.unpack(">HH", octets[at:at + 4])
        numbers += [pid] + [pid + 1 + bit & 65535 for bit in range(16) if mask >> bit & 1]
    return (*struct.unpack(">II", octets[4:12]), numbers)


def drawn(seed, count, most=300):
    """So many contents, in which every field varies. The payload begins with the index of four octets."""
    draw, time, made = random.Random(seed), random.Random(seed).getrandbits(32), []
    for index in range(count):
        time = time + draw.choice((0, 160, 3000, 90000)) & 0xffffffff
        length = draw.choice((0, 1, 20, draw.randrange(most)))
        if draw.random() < 0.01:
            length = 1196  # the most that a payload may have, with the index
        csrc = draw.randbytes(4 * draw.choice((0, 0, 0, 1, 2, 15)))
        ext = draw.choice((b"", b"", draw.randbytes(2), draw.randbytes(6), b"\xbe\xde" + draw.randbytes(4 * draw.randrange(17))))
        made.append(Content(time, draw.getrandbits(1), struct.pack(">I", index) + draw.randbytes(length), csrc, ext))
    return made


def plain(count, length=100, first=0, step=160):
    """So many contents without a list or an extension, of one length."""
    return [Content((first + i) * step & 0xffffffff, i & 1, struct.pack(">I", first + i) + bytes(length - 4)) for i in range(count)]


def index(one):
    """The index that a payload of `drawn` or `plain` begins with."""
    return struct.unpack(">I", one.content.payload[:4])[0]
