#!/usr/bin/env python3
"""The latency that the relay behind a network tells the one before it, and what is too old by it to be retransmitted.

    latency.py PROGRAM"""
import struct
import time

from base import ends, on_time, part, soon
from net import App, End, Path
from overload import asks, repaired, sends
from rtp import REPORT, nack, nacked, parse, plain, told_latency

MEDIA, REPORTER = 0x1a2b3c4d, 0x0f0f0f0f


def report(latency):
    """A latency as it is told behind a NACK."""
    return REPORT + struct.pack(">I4sI", REPORTER, b"Gozd", latency)


def came(far):
    """The NACKs that came to an application, each with its latency or None, and who has sent it."""
    found = []
    far.at.settimeout(0.3)
    while True:
        try:
            octets = far.at.recv(2048)
        except TimeoutError:
            return found
        found.append((nacked(octets), told_latency(octets)))


@on_time(0.05)
def told(checks, stage):
    """The first NACK tells it, and its copy; what is asked for again within a second does not, and behind a second one does."""
    player = End(stage)
    receiver = stage.receive(player.at, "--latency", 300, log=False)
    far = App(stage, receiver.at, ssrc=MEDIA, number=100)
    sent = plain(80, 300)
    for one in sent[:20]:
        far.send(one)
    far.number += 1
    far.send(sent[20])
    first = came(far)
    checks.same(first[:1], [((MEDIA + 2, MEDIA, [120]), 300)], "told: the first NACK")
    checks.same([latency for _, latency in first], [300, 300] + [None] * (len(first) - 2), "told: both copies tell it, and what comes next does not")
    time.sleep(0.8)
    for one in sent[21:40]:
        far.send(one)
    far.number += 1
    far.send(sent[40])
    checks.same(came(far)[:1], [((MEDIA + 2, MEDIA, [141]), 300)], "told: behind a second")


@on_time(0.05)
def too_old(checks, stage):
    """By a latency of 100 a packet is too old behind 725 milliseconds, and is not where 1000 is told then; where none is told none is."""
    for latency in (100, None):
        far, name = End(stage), f"a latency of {latency}"
        sender = stage.send(far.at, "--packets", 3)
        app = App(stage, sender.at, ssrc=MEDIA, number=0)
        sends(app, sender, plain(2))
        if latency:
            far.send(nack(MEDIA, [0], REPORTER) + report(latency), ("127.0.0.1", sender.source[1]))
            checks.count(soon(lambda: len(sender.logged("marked")) == 1, 5), f"{name}: it is heard")
        time.sleep(1.1)
        asks(far, sender, [0])
        time.sleep(0.3)
        checks.same(repaired(far).count(0), 1, f"{name}: how often the packet went")  # as it told the latency, or as none was told
        if latency:
            far.send(nack(MEDIA, [0], REPORTER) + report(1000), ("127.0.0.1", sender.source[1]))
            checks.count(soon(lambda: repaired(far).count(0) == 2, 5), f"{name}: where 1000 is told it goes")
        sends(app, sender, plain(1, first=2))
        ends(checks, name, sender)
        checks.same(sender.counts().get("expired"), 1 if latency else 0, f"{name}: expired")


@on_time(0.05)
def through(checks, stage):
    """Between two relays it is told, and nothing is lost by it: each tenth packet is lost once."""
    player, lost, seen = End(stage), set(), []

    def rule(way, octets):
        one = parse(octets)
        if way == "back" and told_latency(octets) is not None:
            seen.append(told_latency(octets))
        if one and one.kind == 96 and one.number % 10 == 5 and one.number not in lost:
            lost.add(one.number)
            return ()
        return (0.02,)

    receiver = stage.receive(player.at, "--latency", 250, log=False)
    path = Path(stage, receiver.at, rule)
    sender = stage.send(path.at, log=False)
    app = App(stage, sender.at, ssrc=MEDIA, number=0)
    app.stream(plain(400, 500), 200)
    checks.count(soon(lambda: len(player.octets()) >= 400, 10), f"through both: {len(player.octets())} of 400 came")
    checks.count(2 <= len(seen) <= 8 and set(seen) == {250}, f"through both: told {seen}")


if __name__ == "__main__":
    part(told, too_old, through)
