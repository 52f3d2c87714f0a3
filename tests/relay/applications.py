#!/usr/bin/env python3
"""Whose packets the relay before the network sends on: those of one application, at one address, under one SSRC.

    applications.py PROGRAM"""
import random
import time

from base import on_time, part, soon
from net import App, End, udp
from rtp import Content, packet, plain

OWN, OTHER = 0x1a2b3c4d, 0x55667788
PAUSE = 1.3  # longer than the second for which a stream has to be silent


def stranger(stage, to, ssrc, many, rate, kind=96):
    """Packets of another application in sequence, under an SSRC, and the address that they came from."""
    socket, first = stage.keep(udp()), random.randrange(65536)
    for i in range(many):
        socket.sendto(packet(kind, first + i & 65535, ssrc, Content(i, 0, b"strange")), to[:2])
        time.sleep(1 / rate)
    return socket.getsockname()[:2]


def sent(far, contents):
    """How many of these left for the far side, and how many of a stranger's."""
    came = [one.content.payload for one in far.packets() if one and one.ssrc in (OWN, OTHER)]
    wanted = [one.payload for one in contents]
    return len(set(came) & set(wanted)), came.count(b"strange")


def turned_away(sender):
    """The addresses of those that were turned away, of the lines that tell it."""
    return [line.split(" ")[4] for line in sender.errors().splitlines() if line.startswith("turned away ")]


@on_time(0.2)
def copied(checks, stage):
    """Beside a living application another one sends under its SSRC and type, at any rate, and nothing of it is sent on; it is told who it was."""
    rate, far, contents = random.choice((30, 90, 400)), End(stage), plain(100)
    sender = stage.send(far.at)
    app = App(stage, sender.at, ssrc=OWN)
    app.stream(contents[:20], 100)
    where = None
    for i in range(20, 100, 20):
        where = stranger(stage, sender.at, OWN, 20, rate)
        app.stream(contents[i:i + 20], 100)
    checks.count(soon(lambda: sent(far, contents)[0] == 100, 5), f"copied, {rate} a second: {sent(far, contents)} left")
    checks.same(sent(far, contents)[1], 0, f"copied, {rate} a second: of the stranger")
    checks.same(len(sender.logged("unsent")), 80, f"copied, {rate} a second: unsent")
    told = turned_away(sender)
    checks.count(len(told) == 1 and told[0].startswith(where[0]), f"copied: who was turned away: {told}")


@on_time(0.2)
def comes_back(checks, stage):
    """An application that comes back from another port, under its SSRC, is sent on again: each packet behind a second of silence."""
    far, contents = End(stage), plain(80)
    sender = stage.send(far.at)
    App(stage, sender.at, ssrc=OWN, number=100).stream(contents[:40], 200)
    time.sleep(PAUSE)
    App(stage, sender.at, ssrc=OWN, number=7000).stream(contents[40:], 200)
    checks.count(soon(lambda: sent(far, contents)[0] == 80, 5), f"it comes back: {sent(far, contents)} of 80 left")
    checks.same(len(sender.logged("session")), 1, "it comes back: sessions")


@on_time(0.2)
def bound(checks, stage):
    """Under the SSRC that an option gives, a stream is followed for as long as the program runs, and no other one takes its place in a pause."""
    far, contents = End(stage), plain(60)
    sender = stage.send(far.at, "--ssrc", f"{OWN:08x}")
    App(stage, sender.at, ssrc=OWN).stream(contents[:30], 200)
    time.sleep(PAUSE)
    stranger(stage, sender.at, OTHER, 40, 200)
    App(stage, sender.at, ssrc=OWN, number=900).stream(contents[30:], 200)
    checks.count(soon(lambda: sent(far, contents)[0] == 60, 5), f"bound: {sent(far, contents)} left")
    checks.same(sent(far, contents)[1], 0, "bound: of the stranger")
    checks.same(len(sender.logged("session")), 1, "bound: sessions")


if __name__ == "__main__":
    part(copied, comes_back, bound)
