#!/usr/bin/env python3
"""The processor time of relays that have little to do: none of them polls.

    idle.py PROGRAM"""
import time

from base import part
from net import App, End, udp
from rtp import Content, packet, plain

SECONDS = 3
LITTLE = 0.02 * SECONDS  # processor time of one that waits


def spend(checks, name, most, *relays, does=lambda: time.sleep(SECONDS)):
    """What it does costs each of the relays at most so much."""
    before = [one.spent() for one in relays]
    does()
    for one, was in zip(relays, before):
        spent = one.spent() - was
        checks.count(one.run.poll() is None and spent <= most, f"{name}: {one.side} took {spent:.3f} of {SECONDS} seconds")


def relays(checks, stage):
    """Before anything came, with a stream of fifty packets a second, and after it fell silent."""
    player = End(stage)
    sender, receiver = stage.pair(player, send=("--stats", 1), receive=("--stats", 1))
    spend(checks, "before a session", LITTLE, sender, receiver)
    app, slow = App(stage, sender.at), plain(50 * SECONDS)
    spend(checks, "fifty packets a second", 0.1 * SECONDS, sender, receiver, does=lambda: app.stream(slow, 50))
    checks.count(player.waits_for(len(slow)), f"fifty packets a second: {len(player.came)} came")
    time.sleep(0.5)
    spend(checks, "after a session", LITTLE, sender, receiver)


def missing(checks, stage):
    """With a missing place that nobody repairs."""
    player, far = End(stage), stage.keep(udp())
    receiver = stage.receive(player.at, "--latency", 600000)
    for number in (1, 3):
        far.sendto(packet(96, number, 1, Content(1, 1, b"one")), receiver.at)
    player.waits_for(1)
    spend(checks, "a missing place", 2 * LITTLE, receiver)
    checks.same(len(player.came), 1, "a missing place: what came")


def held(checks, stage):
    """With packets that are held for the player."""
    name, player = "packets that are held", End(stage)
    sender, receiver = stage.pair(player, receive=("--hold", 8000, "--latency", 500))
    app, slow = App(stage, sender.at), plain(50 * SECONDS)
    spend(checks, name, 0.1 * SECONDS, receiver, does=lambda: app.stream(slow, 50))
    checks.count(player.waits_for(len(slow)), f"{name}: {len(player.came)} came")


if __name__ == "__main__":
    part(relays, missing, held)
