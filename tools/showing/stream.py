"""A stream of RTP packets that tell when they were sent, and a player that notes when each came."""
import struct
import threading
import time

from .path import udp

HEAD = struct.Struct(">BBHII")  # the fixed header of RTP (RFC 3550, section 5.1)
MARK = struct.Struct(">Id")  # which packet it is, and when it was sent
KIND, SSRC, FIRST, SIZE = 96, 0x11111111, 1000, 1000


def send(many, rate, targets):
    """Sends so many packets, so many in a second, each to every target."""
    sock, began = udp(), time.monotonic()
    for index in range(many):
        time.sleep(max(0, began + index / rate - time.monotonic()))
        head = HEAD.pack(0x80, KIND, (FIRST + index) & 65535, index * 90000 // rate, SSRC)
        packet = (head + MARK.pack(index, time.monotonic())).ljust(SIZE, b"\0")
        for target in targets:
            sock.sendto(packet, target)
    sock.close()


class Player:
    """What comes at an address: for each packet how long it took, in milliseconds."""

    def __init__(self):
        self.sock, self.took = udp(), {}
        self.at = self.sock.getsockname()
        self.sock.setblocking(True)
        self.sock.settimeout(0.1)
        self.ends = threading.Event()
        self.thread = threading.Thread(target=self.run, daemon=True)
        self.thread.start()

    def run(self):
        while not self.ends.is_set():
            try:
                octets = self.sock.recv(65536)
            except TimeoutError:
                continue
            index, sent = MARK.unpack_from(octets, HEAD.size)
            self.took.setdefault(index, (time.monotonic() - sent) * 1000)

    def close(self):
        self.ends.set()
        self.thread.join()
        self.sock.close()
