"""A path between two addresses that delays each datagram, and drops some of those that go either way."""
import heapq
import random
import selectors
import socket
import threading
import time


def udp():
    """A socket at a port of the loopback that was free."""
    one = socket.socket(socket.AF_INET, socket.SOCK_DGRAM)
    one.setsockopt(socket.SOL_SOCKET, socket.SO_RCVBUF, 1 << 22)
    one.bind(("127.0.0.1", 0))
    one.setblocking(False)
    return one


class Path:
    """From who sends to `at` to the address `to`, and back from there to him."""

    def __init__(self, to, loss, delay, seed):
        self.near, self.far, self.to = udp(), udp(), to
        self.at, self.loss, self.delay = self.near.getsockname(), loss, delay
        self.draws, self.waiting, self.back, self.dropped = random.Random(seed), [], None, 0
        self.ends = threading.Event()
        self.thread = threading.Thread(target=self.run, daemon=True)
        self.thread.start()

    def run(self):
        """Goes on until it is closed."""
        ready = selectors.DefaultSelector()
        ready.register(self.near, selectors.EVENT_READ, self.near)
        ready.register(self.far, selectors.EVENT_READ, self.far)
        while not self.ends.is_set():
            wait = self.waiting[0][0] - time.monotonic() if self.waiting else 0.05
            for key, _ in ready.select(max(0, min(wait, 0.05))):
                self.take(key.data)
            while self.waiting and self.waiting[0][0] <= time.monotonic():
                _, _, out, octets = heapq.heappop(self.waiting)
                to = self.to if out is self.far else self.back
                if to:
                    out.sendto(octets, to)

    def take(self, sock):
        """All that came at one side."""
        while True:
            try:
                octets, source = sock.recvfrom(65536)
            except (BlockingIOError, ConnectionError):
                return
            if sock is self.near:
                self.back = source
            if self.draws.random() < self.loss:
                self.dropped += 1
                continue
            out = self.far if sock is self.near else self.near
            heapq.heappush(self.waiting, (time.monotonic() + self.delay, self.draws.random(), out, octets))

    def close(self):
        self.ends.set()
        self.thread.join()
        self.near.close()
        self.far.close()
