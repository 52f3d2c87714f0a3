#!/usr/bin/env python3
"""To whom a session falls, who is heard at all, and what a NACK may cost.

    strangers.py PROGRAM"""
import random
import threading
import time

from base import on_time, part, soon
from net import MUCH, App, End, queued, udp
from rtp import Content, nack, packet, plain

OWN, OTHER = 0x1a2b3c4d, 0x55667788
RATE = 50


class Stranger(threading.Thread):
    """It sends packets in sequence, or what else is made, so many seconds apart, until it is stopped."""

    def __init__(self, stage, to, apart, host="127.0.0.1", made=lambda sent: packet(96, 7000 + sent & 65535, OTHER, Content(1, 0, b"strange"))):
        super().__init__(daemon=True)
        self.socket, self.to, self.apart, self.made = stage.keep(udp(host)), to[:2], apart, made
        self.sent, self.open = 0, True
        self.start()

    def run(self):
        while self.open:
            self.socket.sendto(self.made(self.sent), self.to)
            self.sent += 1
            time.sleep(self.apart)

    def stop(self):
        self.open = False
        self.join()


class Flood(threading.Thread):
    """It sends so many packets a second, each of another SSRC with another number, until it is stopped. It waits where the relay's socket is
    full: what the system drops there would be no fault of a relay."""

    def __init__(self, stage, to, rate):
        super().__init__(daemon=True)
        self.socket, self.to, self.rate, self.sent, self.open = stage.keep(udp()), to[:2], rate, 0, True
        self.start()

    def run(self):
        draw, due = random.Random(self.rate), time.monotonic()
        while self.open:
            time.sleep(0.002)
            if queued({self.to[1]})[0] > MUCH // 4:
                due = time.monotonic()
            while due < time.monotonic():
                strange = packet(96, draw.getrandbits(16), draw.getrandbits(32), Content(1, 0, b"strange"))
                self.socket.sendto(strange, self.to)
                self.sent, due = self.sent + 1, due + 1 / self.rate

    def stop(self):
        self.open = False
        self.join()


def played(player, contents):
    """How many of these a player has, and how much else. (A retransmission, as of the last packet behind a silence, is of another type.)"""
    wanted = {one.payload for one in contents}
    came = [one.content.payload for one in player.packets() if one and one.kind != 97]
    return len([one for one in came if one in wanted]), len([one for one in came if one not in wanted])


def streams(stage, receiver, contents, **more):
    App(stage, receiver.at, ssrc=OWN, **more).stream(contents, RATE)


def one_packet(checks, stage):
    """A packet of a stranger that comes first: the stream has the session with its tenth one."""
    player = End(stage)
    receiver = stage.receive(player.at)
    stage.keep(udp()).sendto(packet(96, 9, OTHER, Content(1, 0, b"strange")), receiver.at)
    soon(lambda: len(receiver.logged("session")) == 1)
    contents = plain(60)
    streams(stage, receiver, contents)
    checks.count(soon(lambda: played(player, contents)[0] >= 51, 5), f"one packet: {played(player, contents)} of 60 are played")


def now_and_then(checks, stage):
    """A stranger that came first and sends on, twice a second."""
    player = End(stage)
    receiver = stage.receive(player.at)
    stranger = Stranger(stage, receiver.at, 0.5)
    soon(lambda: stranger.sent > 2)
    contents = plain(120)
    streams(stage, receiver, contents)
    stranger.stop()
    checks.count(soon(lambda: played(player, contents)[0] >= 111, 5), f"now and then: {played(player, contents)} of 120 are played")


def once_a_stream(checks, stage):
    """A stranger that sent a stream, and then a packet each .9 seconds: it has the session for 3.4 seconds at most, beside four of its packets."""
    player = End(stage)
    receiver = stage.receive(player.at)
    stranger = Stranger(stage, receiver.at, 0.01)
    soon(lambda: stranger.sent > 20)
    stranger.apart = 0.9
    time.sleep(0.1)
    contents = plain(250)
    streams(stage, receiver, contents)
    stranger.stop()
    checks.count(soon(lambda: played(player, contents)[0] >= 75, 5), f"once a stream: {played(player, contents)} of 250 are played")


def is_heard(checks, name, player, contents, began):
    """A stream of 50 a second that began at this moment is heard with its tenth packet, a fifth of a second later, and all behind that are played."""
    ninth = len(contents) - 9
    checks.count(soon(lambda: played(player, contents)[0] >= ninth, 5), f"{name}: {played(player, contents)} of {len(contents)} are played")
    own = {one.payload for one in contents}
    first = next((moment for moment, _, octets in list(player.came) if octets[12:] in own), None)
    checks.count(first and first - began < 10 / RATE + 0.2, f"{name}: heard after {first and first - began}")


def among_many(checks, stage, rate):
    """Before and beside a stream come packets of other SSRCs, none of them twice: it is heard none the less, and so it is behind a pause of 1.5 seconds."""
    name, player = f"among {rate} a second", End(stage)
    receiver = stage.receive(player.at)
    flood = Flood(stage, receiver.at, rate)
    soon(lambda: flood.sent > 200)
    contents = plain(200)
    app = App(stage, receiver.at, ssrc=OWN)
    for some, words in ((contents[:100], name), (contents[100:], f"{name}, behind a pause")):
        began = time.monotonic()
        app.stream(some, RATE)
        is_heard(checks, words, player, some, began)
        time.sleep(1.5)
    flood.stop()
    checks.count(flood.sent > 1000, f"{name}: {flood.sent} came")


@on_time(0.03)
def flooded_by_others(checks, stage):
    among_many(checks, stage, 5000)


@on_time(0.03)
def among_others(checks, stage):
    among_many(checks, stage, random.randrange(200, 5000))


@on_time(0.05)
def slow(checks, stage):
    """A stream of five packets a second, beside a stranger that came first and sends one each .9 seconds, or beside many: it is heard with its tenth."""
    for many in (False, True):
        player = End(stage)
        receiver = stage.receive(player.at)
        stranger = Flood(stage, receiver.at, random.randrange(200, 2000)) if many else Stranger(stage, receiver.at, 0.9)
        soon(lambda: len(receiver.logged("session")) > 0)
        contents = plain(25)
        app, began = App(stage, receiver.at, ssrc=OWN), time.monotonic()
        app.stream(contents, 5)
        stranger.stop()
        checks.count(soon(lambda: played(player, contents)[0] >= 16, 5), f"slow: {played(player, contents)} of 25 are played, many: {many}")
        own = {one.payload for one in contents}
        first = next((moment for moment, _, octets in list(player.came) if octets[12:] in own), None)
        checks.count(first and first - began < 2.2, f"slow: heard after {first and first - began}, many: {many}")


@on_time(0.05)
def slow_and_flooded(checks, stage):
    """A stream of two packets a second that has the session keeps it beside two hundred of one stranger."""
    player = End(stage)
    receiver = stage.receive(player.at)
    contents = plain(32)
    app = App(stage, receiver.at, ssrc=OWN)
    app.stream(contents[:20], RATE)
    stranger = Stranger(stage, receiver.at, 0.005)
    app.stream(contents[20:], 2)
    stranger.stop()
    checks.count(soon(lambda: played(player, contents)[0] == 32, 5), f"slow and flooded: {played(player, contents)} of 32 are played")
    checks.same(played(player, contents)[1], 0, "slow and flooded: packets of the stranger")
    checks.count(stranger.sent > 600, f"slow and flooded by {stranger.sent}")


@on_time(0.05)
def flooded(checks, stage):
    """A stream beside which a stranger sends twenty times as much is played whole, and nothing of the stranger's."""
    player = End(stage)
    receiver = stage.receive(player.at)
    contents = plain(200)
    app = App(stage, receiver.at, ssrc=OWN)
    app.stream(contents[:20], RATE)
    stranger = Stranger(stage, receiver.at, 0.001)
    app.stream(contents[20:], RATE)
    stranger.stop()
    checks.count(soon(lambda: played(player, contents)[0] == 200, 5), f"flooded: {played(player, contents)} of 200 are played")
    checks.same(played(player, contents)[1], 0, "flooded: packets of the stranger")
    checks.count(stranger.sent > 500, f"flooded by {stranger.sent}")
    lines = [one for one in receiver.errors().splitlines() if one.startswith("turned away ")]
    port = stranger.socket.getsockname()[1]
    checks.count(lines and len(lines) == 1 and lines[0].endswith(f"from 127.0.0.1:{port}"), f"flooded: who was turned away: {lines}")


def applications(checks, stage):
    """Before the network: a packet of another type that comes first does not keep the application's stream out."""
    far = End(stage)
    sender = stage.send(far.at)
    stage.keep(udp()).sendto(packet(33, 9, OTHER, Content(1, 0, b"strange")), sender.at)
    soon(lambda: len(far.came) == 1)
    contents = plain(60)
    streams(stage, sender, contents)
    checks.count(soon(lambda: played(far, contents)[0] >= 51, 5), f"applications: {played(far, contents)} of 60 are sent")


def peers(checks, stage):
    """Nobody but the peers begins a session: by address, by port, by a name, by a prefix, at either relay."""
    own = End(stage, "127.0.0.3")
    for side in ("receive", "send"):
        for words in ("127.0.0.3", f"127.0.0.9,127.0.0.3:{own.at[1]}", "127.0.0.2/31", "localhost,127.0.0.3", "127.0.0.3/32,::1"):
            other = End(stage)
            relay = getattr(stage, side)(other.at, "--peer", words, "--log", "/dev/null", listen="0.0.0.0:0", log=False)
            to = ("127.0.0.1", relay.at[1])
            stranger = Stranger(stage, to, 0.005, "127.0.0.5")
            soon(lambda: stranger.sent > 30)
            for i, content in enumerate(plain(30)):
                own.send(packet(96, 100 + i, OWN, content), to)
            checks.count(soon(lambda: played(other, plain(30)) == (30, 0), 5), f"{side} --peer {words}: {played(other, plain(30))}")
            stranger.stop()
            relay.stop()


def other_port(checks, stage):
    """A peer with a port is none at another one."""
    player, own = End(stage), End(stage)
    receiver = stage.receive(player.at, "--peer", f"127.0.0.1:{own.at[1]}")
    streams(stage, receiver, plain(30))
    checks.same(len(player.came), 0, "a port: played of another one")
    own.send(packet(96, 1, OWN, plain(1)[0]), receiver.at)
    checks.count(soon(lambda: len(player.came) == 1, 5), "a port: played")


@on_time(0.03)
def gun(checks, stage):
    """Whatever NACKs come: over any second at most twice the octets of the media are retransmitted, and 32 KiB more; and in all no more than the
    media's octets, and 32 KiB."""
    far, count, length = End(stage), 600, 1000
    sender = stage.send(far.at, "--min-resend", 0)
    app = App(stage, sender.at, ssrc=OWN, number=0)
    contents = [Content(i, 0, i.to_bytes(4, "big") + bytes(length - 4)) for i in range(count)]
    stream = threading.Thread(target=app.stream, args=(contents, 300), daemon=True)
    stream.start()
    far.waits_for(20)
    asks = [nack(OWN, range(first, first + 16)) for first in range(0, count, 16)]
    while stream.is_alive():
        for one in asks:
            far.send(one, ("127.0.0.1", sender.source[1]))
        time.sleep(0.01)
    came = [(moment, len(octets), int.from_bytes(octets[8:12], "big") == OWN) for moment, _, octets in far.came]
    media, again = (in_a_second([(at, size) for at, size, is_media in came if is_media == one]) for one in (True, False))
    checks.count(media < again <= 2 * 1.05 * media + 32768, f"the gun: of {media} octets in a second {again} are retransmitted")
    media, again = (sum(size for _, size, is_media in came if is_media == one) for one in (True, False))
    checks.count(again <= media + 32768, f"the gun: of {media} octets in all {again} are retransmitted")


def in_a_second(came):
    """The most octets in any second, of moments and sizes."""
    return max((sum(size for at, size in came if 0 <= at - moment < 1) for moment, _ in came), default=0)


if __name__ == "__main__":
    part(one_packet, now_and_then, once_a_stream, flooded, flooded_by_others, among_others, slow, slow_and_flooded, applications, peers, other_port, gun)
