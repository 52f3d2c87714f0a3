#!/usr/bin/env python3
"""A side that isn't there: the relays go on, and end by their bounds with their last line.

    absent.py PROGRAM"""
import time

from base import ends, part, soon
from net import App, End, Path, free_port
from rtp import index, parse, plain


def closed():
    """An address that nobody listens at."""
    return "127.0.0.1", free_port()


def no_player(checks, stage):
    """Nobody listens where the player should be, and then somebody does."""
    name, port = "no player", closed()
    receiver = stage.receive(port, "--packets", 400)
    sender = stage.send(receiver.at, "--packets", 400)
    app = App(stage, sender.at)
    app.stream(plain(200), 1000)
    soon(lambda: len(receiver.logged("play")) == 200)
    player = End(stage, port=port[1])
    app.stream(plain(200, first=200), 1000)
    ends(checks, name, sender, receiver)
    checks.same([receiver.counts().get(one) for one in ("taken", "played", "gaps")], [400, 400, 0], f"{name}: taken, played, gaps")
    checks.same([index(one) for one in player.packets()], list(range(200, 400)), f"{name}: what came once it was there")


def no_far_side(checks, stage):
    """Nobody listens at the far side: all is sent, and what the system says of the port changes nothing."""
    name = "no far side"
    sender = stage.send(closed(), "--packets", 200)
    App(stage, sender.at).stream(plain(200), 1000)
    ends(checks, name, sender)
    checks.same([sender.counts().get(one) for one in ("sent", "unsent", "stray")], [200, 0, 0], f"{name}: sent, unsent, stray")


def nobody(checks, stage):
    """Nothing ever comes. The bound of seconds ends both, and neither ends before."""
    name = "nobody"
    relays = stage.send(closed(), "--seconds", 2, "--packets", 3), stage.receive(closed(), "--seconds", 2, "--packets", 3)
    ends(checks, name, *relays)
    for one in relays:
        checks.count(2 <= time.monotonic() - one.began < 30, f"{name}: {one.side} ended after {time.monotonic() - one.began} seconds")
        checks.count(not any(one.counts().values()), f"{name}: the counts of {one.side}: {one.counts()}")
        checks.same(len(one.errors().splitlines()), 2, f"{name}: lines of {one.side}")
        checks.same(one.log.read_text(), "", f"{name}: the log of {one.side}")
    checks.count(relays[1].counts() and relays[1].counts()["rtt"] is None, f"{name}: no round-trip time: {relays[1].counts()}")


def leaves(checks, stage):
    """The far side leaves where packets are missing. What is missing is given up after the patience, and the bound is met."""
    name, player = "a far side that leaves", End(stage)
    receiver = stage.receive(player.at, "--packets", 100, "--latency", 500)
    path = Path(stage, receiver.at, lambda way, octets: () if way == "back" or parse(octets).number % 10 == 5 else (0,))
    sender = stage.send(path.at)
    App(stage, sender.at, number=0).stream(plain(100), 1000)
    soon(lambda: len(sender.logged("sent")) == 100)
    began = time.monotonic()
    sender.stop()
    ends(checks, name, receiver)
    counts = receiver.counts()
    checks.count(counts.get("played") == 90 and counts.get("gaps") == 10, f"{name}: {counts}")
    checks.count(time.monotonic() - began >= 2, f"{name}: it ended before two seconds")
    checks.same([one.number for one in player.packets()], [i for i in range(100) if i % 10 != 5], f"{name}: the numbers")
    checks.same([int(one[1]) - 65536 for one in receiver.logged("gap")], list(range(5, 100, 10)), f"{name}: gaps in the log")


def lingers(checks, stage):
    """The sending relay still answers in the two seconds after the last packet, and ends only then."""
    name, far = "two seconds", End(stage)
    sender = stage.send(far.at, "--packets", 20)
    App(stage, sender.at).stream(plain(20), 1000)
    last = time.monotonic()
    ends(checks, name, sender)
    checks.count(1.9 < time.monotonic() - last < 30, f"{name}: it ended {time.monotonic() - last} seconds after the last packet")
    times, media = [one[0] for one in far.came], [one for one in far.packets() if one.ssrc == 0x1a2b3c4d]
    checks.same([index(one) for one in media], list(range(20)), f"{name}: what came")
    checks.same(len(far.came) - 20, len(sender.logged("tail")), f"{name}: retransmissions")
    tail = far.packets()[-1]
    came = tail.ssrc, tail.kind, tail.content.payload[2:]
    checks.same(came, (0x1a2b3c4e, 97, plain(20)[19].payload), f"{name}: the last packet once more")
    checks.count(times[-1] - last >= 0.08, f"{name}: it came {times[-1] - last} seconds after the last packet")


if __name__ == "__main__":
    part(no_player, no_far_side, nobody, leaves, lingers)
