"""SRTP and SRTCP (RFC 3711) by another hand than the crates': what a relay with a key puts on the wire is opened here, and packets are made that
it has to open or to refuse. AES-128 is FIPS 197's, octet by octet."""
import base64
import hashlib
import hmac
import os
import struct

TAG = 10


def doubled(octet):
    return octet << 1 & 0xff ^ 0x1b * (octet >> 7)


def box():
    """The S-box: the inverse of each octet, by the powers of 3, and the affine map."""
    made, power, powers = [0x63] * 256, 1, []
    for _ in range(255):
        powers.append(power)
        power ^= doubled(power)
    for at, octet in enumerate(powers):
        inverse = powers[-at % 255]
        made[octet] = 0x63 ^ inverse ^ (turned := inverse << 8 | inverse) >> 7 & 0xff ^ turned >> 6 & 0xff ^ turned >> 5 & 0xff ^ turned >> 4 & 0xff
    return made


BOX = box()


class Aes:
    """AES-128 under a key."""

    def __init__(self, key):
        words, rcon = [list(key[i:i + 4]) for i in range(0, 16, 4)], 1
        for at in range(4, 44):
            word = list(words[-1])
            if at % 4 == 0:
                word = [BOX[one] for one in word[1:] + word[:1]]
                word[0], rcon = word[0] ^ rcon, doubled(rcon)
            words.append([a ^ b for a, b in zip(words[-4], word)])
        self.keys = [sum(words[i:i + 4], []) for i in range(0, 44, 4)]

    def block(self, octets):
        state = [a ^ b for a, b in zip(octets, self.keys[0])]
        for number, key in enumerate(self.keys[1:], 1):
            state = [BOX[state[(i + 4 * (i % 4)) % 16]] for i in range(16)]
            if number < 10:
                state = [doubled(column[i]) ^ doubled(column[(i + 1) % 4]) ^ column[(i + 1) % 4] ^ column[(i + 2) % 4] ^ column[(i + 3) % 4]
                         for column in (state[j:j + 4] for j in range(0, 16, 4)) for i in range(4)]
            state = [a ^ b for a, b in zip(state, key)]
        return bytes(state)

    def stream(self, start, count):
        """So many octets of the keystream from a counter of 16 octets on (section 4.1.1)."""
        first = int.from_bytes(start, "big")
        return b"".join(self.block((first + i).to_bytes(16, "big")) for i in range((count + 15) // 16))[:count]


class Keys:
    """The keys of one direction: of RTP by the labels 0 to 2, or of RTCP by 3 to 5 (section 4.3)."""

    def __init__(self, master, label, encrypts):
        key, salt, self.encrypts = Aes(master[:16]), int.from_bytes(master[16:], "big"), encrypts
        cipher, self.auth, self.salt = (key.stream((salt ^ (label + i) << 48).to_bytes(14, "big") + b"\0\0", count) for i, count in enumerate((16, 20, 14)))
        self.aes = Aes(cipher)

    def turned(self, octets, clear, ssrc, index):
        """What is behind so many octets, encrypted or decrypted."""
        if not self.encrypts:
            return octets
        counter = int.from_bytes(self.salt, "big") << 16 ^ ssrc << 64 ^ index << 16
        stream = self.aes.stream(counter.to_bytes(16, "big"), len(octets) - clear)
        return octets[:clear] + bytes(a ^ b for a, b in zip(octets[clear:], stream))

    def tag(self, octets):
        return hmac.new(self.auth, octets, hashlib.sha1).digest()[:TAG]


def header(octets):
    """How many octets the header of a packet has."""
    end = 12 + 4 * (octets[0] & 15)
    return end + 4 + 4 * struct.unpack(">H", octets[end + 2:end + 4])[0] if octets[0] & 0x10 else end


class Srtp:
    """All under one master key: 16 octets, and its salt of 14."""

    def __init__(self, encrypts=True, master=None):
        self.master = master or os.urandom(30)
        self.rtp, self.rtcp = Keys(self.master, 0, encrypts), Keys(self.master, 3, encrypts)

    def text(self):
        return base64.b64encode(self.master).decode()

    def seal(self, packet, rollover):
        """A packet as it is protected under this rollover counter."""
        number, ssrc = struct.unpack(">H", packet[2:4])[0], struct.unpack(">I", packet[8:12])[0]
        body = self.rtp.turned(packet, header(packet), ssrc, rollover << 16 | number)
        return body + self.rtp.tag(body + struct.pack(">I", rollover))

    def open(self, octets, rollover=0):
        """The packet that comes out of octets, or None where their tag is wrong."""
        body, tag = octets[:-TAG], octets[-TAG:]
        if len(body) < 12 or self.rtp.tag(body + struct.pack(">I", rollover)) != tag:
            return None
        number, ssrc = struct.unpack(">H", body[2:4])[0], struct.unpack(">I", body[8:12])[0]
        return self.rtp.turned(body, header(body), ssrc, rollover << 16 | number)

    def open_rtcp(self, octets):
        """The packet of RTCP and its index, or None where its tag or its flag is wrong."""
        body, trailer, tag = octets[:-TAG - 4], octets[-TAG - 4:-TAG], octets[-TAG:]
        word = struct.unpack(">I", trailer)[0] if len(body) >= 8 else 0
        if len(body) < 8 or self.rtcp.tag(body + trailer) != tag or word >> 31 != self.rtcp.encrypts:
            return None
        return self.rtcp.turned(body, 8, struct.unpack(">I", body[4:8])[0], word & 0x7fffffff), word & 0x7fffffff

    def file(self, stage, mode=0o600, text=None):
        """A file with the key."""
        path = stage.room / f"key{len(list(stage.room.iterdir()))}"
        path.write_text(text or self.text() + "\n")
        path.chmod(mode)
        return path


def is_rtcp(octets):
    """RFC 5761, section 4."""
    return len(octets) > 1 and 192 <= octets[1] <= 223
