#!/usr/bin/env python3
"""An hour of fifty packets a second, as fast as they go, with one in ten datagrams lost both ways: memory stays as it was.

    hour.py PROGRAM"""
import time

from base import ends, part
from net import App, End
from rtp import index, plain

PACKETS, WARM = 180000, 20000
RATE = 8000  # a second, where the relays keep up
MUCH = 512  # KiB that a relay may grow by


def hour(checks, stage):
    name, player = "an hour", End(stage)
    wide = ("--latency", 8000, "--window", 8192)
    receiver = stage.receive(player.at, "--loss", 100, "--seed", 2, *wide, "--packets", PACKETS, log=False)
    sender = stage.send(receiver.at, "--loss", 100, "--seed", 1, "--history", 8192, "--packets", PACKETS, log=False)
    app, began = App(stage, sender.at, number=0, heed=(receiver.at[1], player.at[1])), time.monotonic()
    app.stream(plain(WARM, 160), RATE)
    player.waits_for(WARM - 100)
    before = sender.memory(), receiver.memory()
    app.stream(plain(PACKETS - WARM, 160, first=WARM), RATE)
    app.stream(plain(20, 160, first=PACKETS), 40)  # the last ones may be lost, and their repair too
    player.waits_for(PACKETS)
    seconds, after = time.monotonic() - began, (sender.memory(), receiver.memory())
    ends(checks, name, sender, receiver)
    print(f"{name}: {len(player.came)} packets in {seconds:.0f} seconds; {before} KiB before, {after} KiB after; {receiver.counts()}")
    came = player.packets()
    checks.count([index(one) for one in came] == list(range(len(came))) and len(came) >= PACKETS, f"{name}: {len(came)} came in order")
    checks.count([one.number for one in came] == [i & 65535 for i in range(len(came))], f"{name}: the numbers have no holes")
    checks.same(receiver.counts().get("gaps"), 0, f"{name}: gaps")
    checks.count(receiver.counts().get("repaired", 0) > PACKETS * 0.09, f"{name}: {receiver.counts()}")
    for side, was, now in zip(("send", "receive"), before, after):
        checks.count(now - was <= MUCH, f"{name}: {side} grew from {was} to {now} KiB")


if __name__ == "__main__":
    part(hour)
