"""Sockets of a test: an application that sends, an end that collects, and a path between the relays that loses what a rule says."""
import heapq
import itertools
import pathlib
import random
import select
import socket
import threading
import time

from base import WATCH, soon
from rtp import original, packet, parse

ROOM = 4000000  # octets that the system may keep for a socket of a test
FORCED = 33  # SO_RCVBUFFORCE, which has room beyond net.core.rmem_max for who may have it (socket(7))
MUCH = 60000  # octets that wait at a socket before more is sent to it
GIVEN, GIVING = set(), threading.Lock()  # the ports that scenes were given


def udp(host="127.0.0.1", port=0):
    """A bound socket."""
    made = socket.socket(socket.AF_INET6 if ":" in host else socket.AF_INET, socket.SOCK_DGRAM)
    try:
        made.setsockopt(socket.SOL_SOCKET, FORCED, ROOM)
    except PermissionError:
        made.setsockopt(socket.SOL_SOCKET, socket.SO_RCVBUF, ROOM)
    made.bind((host, port))
    return made


def free_ports(count, host="127.0.0.1"):
    """The first of so many ports in a row that nobody has, that no other scene of this process was given, and that the system gives nobody who asks for
    any: they lie below all of those."""
    least = int(pathlib.Path("/proc/sys/net/ipv4/ip_local_port_range").read_text().split()[0])
    while True:
        first = random.randrange(least // 2, least - count + 1)
        ports = range(first, first + count)
        try:
            for port in ports:
                udp(host, port).close()
        except OSError:
            continue  # somebody has it
        with GIVING:
            if GIVEN.isdisjoint(ports):
                GIVEN.update(ports)
                return first


def free_port(host="127.0.0.1"):
    """Such a port alone."""
    return free_ports(1, host)


def queued(ports):
    """The most octets that wait at the sockets of these ports, and how many datagrams the system dropped there."""
    most = dropped = 0
    for table in ("udp", "udp6"):
        for line in pathlib.Path("/proc/net", table).read_text().splitlines()[1:]:
            words = line.split()
            if int(words[1].rpartition(":")[2], 16) in ports:
                most, dropped = max(most, int(words[4].split(":")[1], 16)), dropped + int(words[-1])
    return most, dropped


class App:
    """An application that sends a stream. It waits where a socket of `heed` is full: what the system drops there would be no
    fault of a relay."""

    def __init__(self, stage, to, ssrc=0x1a2b3c4d, kind=96, number=65000, heed=()):
        self.at = stage.keep(udp(to[0] if to[0] != "0.0.0.0" else "127.0.0.1"))
        self.to, self.ssrc, self.kind, self.number, self.heed = to[:2], ssrc, kind, number, {to[1], *heed}

    def raw(self, octets):
        self.at.sendto(octets, self.to)

    def send(self, content, padding=0):
        self.raw(packet(self.kind, self.number, self.ssrc, content, padding))
        self.number = self.number + 1 & 65535

    def stream(self, contents, rate, padded=0):
        """Sends contents at so many a second, at most eight of them at once; each `padded`th one has padding."""
        due = time.monotonic()
        for i, content in enumerate(contents):
            due = max(due + 1 / rate, time.monotonic() - 8 / rate)
            if i % 16 == 0:
                soon(lambda: queued(self.heed)[0] < MUCH)
            time.sleep(max(0, due - time.monotonic()))
            WATCH.tell(due)
            self.send(content, i % 255 + 1 if padded and content.payload and i % padded == 0 else 0)


class End:
    """A socket that keeps what comes to it, with the moment and where it came from: a player, or a far side."""

    def __init__(self, stage, host="127.0.0.1", port=0):
        self.socket, self.came, self.open = udp(host, port), [], True
        self.at = self.socket.getsockname()[:2]
        self.thread = threading.Thread(target=self.collect, daemon=True)
        self.thread.start()
        stage.keep(self)

    def collect(self):
        while self.open:
            if select.select([self.socket], [], [], 0.2)[0]:
                octets, source = self.socket.recvfrom(65536)
                self.came.append((time.monotonic(), source[:2], octets))

    def close(self):
        self.open = False
        self.thread.join()
        self.socket.close()

    def send(self, octets, to):
        self.socket.sendto(octets, to)

    def octets(self):
        return [one for _, _, one in list(self.came)]

    def packets(self):
        """What came as packets, None for each datagram that is none."""
        return [parse(one) for one in self.octets()]

    def waits_for(self, count, seconds=40):
        """Waits until so many datagrams came, and tells whether they did."""
        return soon(lambda: len(self.came) >= count, seconds)


def settled(far, number):
    """Waits until the far side has the retransmission of the last packet, which a silent end makes, and gives how much came. Where
    the machine halts an application, its stream was silent before, and an earlier packet was retransmitted too."""
    def has_last():
        last = far.packets()[-1] if far.came else None
        return last and len(last.content.payload) >= 2 and last.ssrc != far.packets()[0].ssrc and original(last)[0] == number & 65535
    soon(has_last)
    return len(far.came)


class Path:
    """A path between the relays: what comes to `at` goes on to `to`, and what comes back goes to `back`, or else to who sent last. The rule is asked
    of each datagram, by its way ("forth" or "back") and its octets, and gives the delays of its copies in seconds, none to lose it.
    All is kept in `passed`: the way and the octets."""

    def __init__(self, stage, to, rule=lambda way, octets: (0,), back=None):
        self.front, self.rear, self.rule, self.to, self.back = udp(), udp(), rule, to[:2], back
        self.at, self.home, self.passed, self.old, self.open = self.front.getsockname(), back, [], [], True
        self.thread = threading.Thread(target=self.carry, daemon=True)
        self.thread.start()
        stage.keep(self)

    def carry(self):
        under, order = [], itertools.count()
        while self.open:
            wait = max(0, min(0.2, under[0][0] - time.monotonic())) if under else 0.2
            for one in select.select([self.front, self.rear], [], [], wait)[0]:
                octets, source = one.recvfrom(65536)
                way = "forth" if one is self.front else "back"
                self.home = source if way == "forth" and not self.back else self.home
                self.passed.append((way, octets))
                for delay in self.rule(way, octets):
                    heapq.heappush(under, (time.monotonic() + delay, next(order), way, octets))
            while under and under[0][0] <= time.monotonic():
                _, _, way, octets = heapq.heappop(under)
                if way == "forth":
                    self.rear.sendto(octets, self.to)
                elif self.home:
                    self.front.sendto(octets, self.home)

    def rebind(self):
        """From now on it sends from another port, as a NAT that binds anew, and what comes to the old one is lost."""
        self.old.append(self.rear)
        self.rear = udp()

    def close(self):
        self.open = False
        self.thread.join()
        for one in (self.front, self.rear, *self.old):
            one.close()
