#!/usr/bin/env python3
"""What a sending relay does not retransmit, or turns away: each has a count, and a line tells of it, at most each ten seconds.

    overload.py PROGRAM"""
import re
import time

from base import ends, on_time, part, soon
from net import App, End, settled
from rtp import nack, original, plain

MEDIA, OTHER = 0x1a2b3c4d, 0x55667788
TOLD = re.compile(r"not retransmitted: (\d+) too old, (\d+) not in the history, (\d+) as often as may be, (\d+) of more than may leave; (\d+) NACKs were for others")
WORDS = "expired", "unknown", "exhausted", "crowded", "others"


def told(sender):
    """The numbers of each line of what was not retransmitted."""
    return [tuple(map(int, found.groups())) for found in map(TOLD.fullmatch, sender.errors().splitlines()) if found]


def repaired(far):
    """The numbers of the packets that were retransmitted, one after the other."""
    return [original(one)[0] for one in far.packets() if one and one.ssrc != far.packets()[0].ssrc]


def sends(app, sender, contents):
    """Sends these, and waits until all of them have left the relay."""
    sent = len(sender.logged("sent"))
    for one in contents:
        app.send(one)
    if not soon(lambda: len(sender.logged("sent")) == sent + len(contents), 5):
        raise RuntimeError(f"what was sent did not leave: {sender.errors()[-300:]}")


def asks(far, sender, numbers, media=MEDIA):
    """Names these numbers, and waits until the relay has heard it."""
    def heard():
        return len(sender.logged("marked")) + len(sender.logged("refused"))
    before = heard()
    far.send(nack(media, numbers), ("127.0.0.1", sender.source[1]))
    if not soon(lambda: heard() > before, 5):
        raise RuntimeError(f"a NACK of {numbers} was not heard: {sender.errors()[-300:]}")


@on_time(0.05)
def on_the_way(checks, stage):
    """Two packets past their deadline and one that is not: what is skipped on the way to a packet that goes is counted, once nothing goes."""
    far = End(stage)
    sender = stage.send(far.at, "--deadline", 150, "--packets", 3)
    app = App(stage, sender.at, ssrc=MEDIA, number=0)
    sends(app, sender, plain(2))
    settled(far, 1)
    time.sleep(0.2)
    sends(app, sender, plain(1, first=2))
    asks(far, sender, [0, 1, 2])
    asks(far, sender, [0])
    ends(checks, "on the way", sender)
    counts = sender.counts()
    checks.same((counts.get("expired"), counts.get("early")), (3, 0), "on the way to a packet that goes: expired and early")
    checks.same(repaired(far)[:2], [1, 2], "on the way: what was retransmitted")  # 1 as the last packet of a stream that was silent
    checks.same(told(sender), [(3, 0, 0, 0, 0)], "on the way: told")


@on_time(0.03)
def sessions(checks, stage):
    """The counts of a session that ended stay: each of two sessions has two packets past their deadline, and one that is named twice."""
    far, name = End(stage), "two sessions"
    sender = stage.send(far.at, "--deadline", 300, "--min-resend", 60, "--packets", 6)
    for kind in (96, 98):  # a stream of another type begins a session
        app = App(stage, sender.at, ssrc=MEDIA, number=0, kind=kind)
        sends(app, sender, plain(2))
        time.sleep(0.4)
        sends(app, sender, plain(1, first=2))
        asks(far, sender, [0, 1, 2])
        asks(far, sender, [2])
        time.sleep(1.2)
    ends(checks, name, sender)
    checks.same(len(sender.logged("session")), 2, f"{name}: how many there were")
    counts = sender.counts()
    checks.same((counts.get("expired"), counts.get("early")), (4, 2), f"{name}: expired and early")


@on_time(0.1)  # the relay ends behind nine seconds
def reasons(checks, stage):
    """Numbers that the history has no packet of, NACKs for other media, and a packet that was retransmitted as often as may be."""
    far, name = End(stage), "reasons"
    sender = stage.send(far.at, "--min-resend", 0, "--rate", 0, "--seconds", 9)
    app = App(stage, sender.at, ssrc=MEDIA, number=0)
    sends(app, sender, plain(1))
    settled(far, 0)
    asks(far, sender, [100, 101, 102])
    asks(far, sender, [0], media=OTHER)
    asks(far, sender, [0], media=OTHER + 5)
    far.send(nack(OTHER, [0]) + nack(MEDIA, [200]), ("127.0.0.1", sender.source[1]))
    soon(lambda: len(sender.logged("marked")) == 2, 5)
    for _ in range(260):
        asks(far, sender, [0])
    ends(checks, name, sender)
    counts = sender.counts()
    checks.same([counts.get(one) for one in WORDS], [0, 4, 6, 0, 3], f"{name}: {WORDS}")
    checks.same(counts.get("refused"), 2, f"{name}: NACKs for nothing but other media are refused")
    checks.same((counts.get("marked"), counts.get("retransmitted")), (254, 255), f"{name}: marked and retransmitted")
    checks.same(told(sender), [(0, 3, 0, 0, 0)], f"{name}: what was told at once")


@on_time(0.5)
def seldom(checks, stage):
    """What is asked for in vain all the time is told twice in twelve seconds, and the second line has what came since the first one."""
    far, name = End(stage), "in vain"
    sender = stage.send(far.at, "--seconds", 12)
    app = App(stage, sender.at, ssrc=MEDIA, number=0)
    began = time.monotonic()
    for at in range(110):
        app.send(plain(1, first=at)[0])
        far.send(nack(OTHER, [0]), ("127.0.0.1", sender.source[1]))
        # What each sleep takes too long does not add up: the relay ends behind twelve seconds.
        time.sleep(max(0, began + 0.1 * (at + 1) - time.monotonic()))
    ends(checks, name, sender)
    lines = told(sender)
    checks.same(len(lines), 2, f"{name}: how many lines in twelve seconds")
    checks.count(lines and lines[0] == (0, 0, 0, 0, 1) and 90 <= lines[-1][4] <= 101, f"{name}: {lines}")
    checks.same(sender.counts().get("others"), 110, f"{name}: NACKs for others")


def usual(checks, stage):
    """Where all that is lost is repaired, nothing of it is told: that a NACK comes twice is no overload."""
    player = End(stage)
    sender, receiver = stage.pair(player, "--packets", 300, "--loss", 100)
    App(stage, sender.at).stream(plain(300), 300)
    ends(checks, "as usual", sender, receiver)
    counts = sender.counts()
    checks.count(counts.get("early", 0) > 5 and counts.get("retransmitted", 0) > 5, f"as usual: {counts}")
    checks.same(told(sender), [], "as usual: told")


def strangers(checks, stage):
    """Packets of another application beside the one that is heard are counted as strangers, and what is no packet is not."""
    far, name = End(stage), "strangers"
    sender = stage.send(far.at, "--packets", 50)
    app = App(stage, sender.at, ssrc=MEDIA, number=0)
    app.raw(b"no packet")
    sends(app, sender, plain(25))
    App(stage, sender.at, ssrc=MEDIA, number=900).stream(plain(7), 1000)
    soon(lambda: len(sender.logged("unsent")) == 8, 5)
    app.raw(b"no packet")
    sends(app, sender, plain(25, first=25))
    ends(checks, name, sender)
    counts = sender.counts()
    checks.same((counts.get("unsent"), counts.get("strangers")), (9, 7), f"{name}: unsent, and of others")


if __name__ == "__main__":
    part(on_the_way, sessions, reasons, seldom, usual, strangers)
