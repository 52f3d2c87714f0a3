#!/usr/bin/env python3
"""What leaves as feedback is earned by what came: nobody has a relay ask an address for more than that sent.

    earned.py PROGRAM"""
import random
import time

from base import on_time, part, soon
from net import App, End, Path
from rtp import Content, nacked, packet, plain, repair

SSRC, RTX = 0x1a2b3c4d, 77
LEAST, SHARE, DEPTH = 24, 20, 268  # octets that a datagram earns, one in so many of its octets, and what is saved up


def worth(octets):
    """What a datagram of so many octets earns."""
    return min(max(octets // SHARE, LEAST), octets)


def within(checks, name, came, sent):
    """What came back is no more than was sent, in octets and datagrams, and all are NACKs. A datagram may have left in the moment that the next one
    came, so sums are compared at the end."""
    octets, wanted = sum(map(len, came)), sum(map(len, sent))
    checks.count(octets <= wanted, f"{name}: {octets} octets came back for {wanted}")
    checks.count(len(came) <= len(sent), f"{name}: {len(came)} datagrams came back for {len(sent)}")
    earned = sum(worth(len(one)) for one in sent)
    checks.count(octets <= earned, f"{name}: {octets} octets came back where {earned} were earned")
    checks.count(all(map(nacked, came)), f"{name}: something came back that is no NACK")


def jumps(draw, number):
    """A stream that jumps: each packet lies so far ahead of the one before, and is as long, as is drawn."""
    while True:
        number = number + draw.choice((1, 2, 50, 700, 3000, 8000)) & 65535
        yield packet(96, number, SSRC, Content(draw.getrandbits(32), 0, bytes(draw.choice((0, 1, 20, 160, 1188)))))


def flood(checks, stage, seed):
    """Two packets begin a session, others lie thousands of numbers ahead, and empty retransmissions make the round trip as short as may be. At the
    address that they come from no more comes back than left there, however long it is waited for."""
    draw, name = random.Random(seed), f"a flood, seed {seed}"
    victim, player = End(stage), End(stage)
    receiver = stage.receive(player.at, "--latency", draw.choice((200, 1000, 5000)))
    made, number = jumps(draw, 5), 5
    sent = [packet(96, number + i, SSRC, Content(0, 0, b"")) for i in range(2)]
    sent += [next(made) for _ in range(draw.choice((1, 20, 50)))]
    sent[3:3] = [repair(97, i, RTX, number + 10 + i, Content(0, 0, b"")) for i in range(2)]
    for one in sent:
        victim.send(one, receiver.at)
        time.sleep(draw.choice((0, 0.001, 0.022)))
    time.sleep(3)
    within(checks, name, victim.octets(), sent)


def first_flood(checks, stage):
    flood(checks, stage, 1)


def second_flood(checks, stage):
    flood(checks, stage, random.randrange(1 << 32))


def third_flood(checks, stage):
    flood(checks, stage, random.randrange(1 << 32))


def another_address(checks, stage):
    """A stream earns much, and goes on from another address with a jump: there no more comes back than what left there."""
    name, old, new, player = "another address", End(stage), End(stage), End(stage)
    receiver = stage.receive(player.at, "--latency", 5000)
    for i in range(50):
        old.send(packet(96, i, SSRC, plain(1, first=i, length=1000)[0]), receiver.at)
    checks.count(soon(lambda: len(player.came) == 50), f"{name}: {len(player.came)} came to the player")
    time.sleep(1.1)
    sent = [packet(96, 300 + i, SSRC, plain(1, first=300 + i)[0]) for i in range(7)]
    for one in sent:
        new.send(one, receiver.at)
    time.sleep(2)
    checks.count(new.came, f"{name}: nothing was asked for there")
    checks.same(len(old.came), 0, f"{name}: NACKs at the old one")
    within(checks, name, new.octets(), sent[3:])  # three show that it is there, and earn nothing


@on_time(0.1)
def sound(checks, stage):
    """Fifty packets of sound a second, of which three in ten are lost both ways, have all the NACKs that they want."""
    name, player, draw = "sound", End(stage), random.Random(5)
    receiver = stage.receive(player.at, "--latency", 1000)
    path = Path(stage, receiver.at, lambda way, octets: () if draw.random() < 0.3 else (0.01,))
    sender = stage.send(path.at)
    App(stage, sender.at, ssrc=SSRC).stream(plain(500, length=160), 50)
    time.sleep(1.5)
    checks.count(len(player.came) >= 497, f"{name}: {len(player.came)} of 500 came")


if __name__ == "__main__":
    part(first_flood, second_flood, third_flood, another_address, sound)
