#!/usr/bin/env python3
"""An outage that the window and the history bridge loses nothing; where they are too short, that is told and counted.

    outage.py PROGRAM"""
import random
import re
import time

import ledger
from base import ends, on_time, part, soon
from net import App, End, Path, settled, udp
from restarts import PAUSE, goes_on
from rtp import index, nack, original, packet, parse, plain

MANY, RATE = 6000, 2000
SHORT = 3000  # a stream that ends right behind the outage
OUT = range(500, 2700)  # what is lost when it is sent first: less than the 3000 that any window takes for a gap
MEDIA = 0x1a2b3c4d
WINDOW = re.compile(r"the window of (\d+) packets is too short for (\d+) packets a second and a latency of (\d+) ms"
                    r"(?:, which want (\d+) where 8192 are the most)?: give (--window|--window 8192 and --latency) (\d+) or (more|less)")
HISTORY = re.compile(r"the history of (\d+) packets is too short, and (\d+) asked for are gone: give .*--latency")


def told(relay, form):
    """What a relay told of a store that is too short: the words of each such line."""
    return [found.groups() for found in map(form.fullmatch, relay.errors().splitlines()) if found]


def through(stage, player, *words, many=MANY):
    """A stream through a path that is out for much of it. Both relays have the sizes that they have by default, but for what the words
    say of the receiving one's. The sending one goes on, since with a bound it would not wait for what is still to be retransmitted."""
    receiver = stage.receive(player.at, "--packets", many, *words)
    path = Path(stage, receiver.at,
                lambda way, octets: () if way == "forth" and parse(octets).ssrc == MEDIA and parse(octets).number in OUT else (0,))
    sender = stage.send(path.at)
    app = App(stage, sender.at, number=0, heed=(path.at[1], receiver.at[1], player.at[1]))
    app.stream(plain(many), RATE)
    return app, path, sender, receiver


@on_time(0.05)
def bridged(checks, stage):
    """More packets in a row are lost than a window of 2048 holds, the stream goes on, and all of them are played. On a machine that is too busy to
    pass them on, some are asked for in vain as often as they may be."""
    name, player = "an outage", End(stage)
    app, path, sender, receiver = through(stage, player, "--latency", 20000)
    ends(checks, name, receiver)
    lost = {parse(octets).number for way, octets in path.passed if way == "forth" and parse(octets).ssrc == MEDIA} & set(OUT)
    checks.same(len(lost), len(OUT), f"{name}: packets that were lost")
    checks.count([one.content for one in player.packets()] == plain(MANY), f"{name}: {len(player.came)} of {MANY} packets came")
    goes_on(checks, name, player.packets(), app.ssrc)
    counts = {one: receiver.counts().get(one) for one in ("repaired", "played", "gaps", "overrun", "abandoned", "restarts")}
    counts["repaired"] = (counts["repaired"] or 0) >= len(OUT)
    checks.same(counts, {"repaired": True, "played": MANY, "gaps": 0, "overrun": 0, "abandoned": 0, "restarts": 0}, f"{name}: counts")
    checks.same(told(sender, HISTORY), [], f"{name}: a history that is too short")
    ledger.whole(checks, name, sender)
    ledger.whole(checks, name, receiver)
    ledger.sums(checks, name, receiver)


@on_time(0.05)
def ended(checks, stage):
    """The same stream ends 150 milliseconds behind it. What the last second of it earned is retransmitted, as far as feedback asks for it before that
    has run out, on a machine that wakes in time nine of ten that were lost; the rest is given up, and counted."""
    name, player = "a stream that ends behind an outage", End(stage)
    _, _, sender, receiver = through(stage, player, "--latency", 3000, many=SHORT)
    ends(checks, name, receiver)
    counts = {one: receiver.counts().get(one) for one in ("played", "gaps", "overrun", "abandoned", "restarts")}
    checks.count(len(player.came) >= 1600, f"{name}: {len(player.came)} of {SHORT} came")
    checks.same(counts, {"played": len(player.came), "gaps": SHORT - len(player.came), "overrun": 0, "abandoned": 0, "restarts": 0}, f"{name}: counts")
    ledger.whole(checks, name, sender)
    ledger.sums(checks, name, receiver)


def left_behind(checks, stage):
    """A jump past a window of fifty overruns what it has no room for, and a restart abandons what it waited for."""
    name, player, far = "a window of fifty", End(stage), stage.keep(udp())
    receiver = stage.receive(player.at, "--packets", 12, "--window", 50, "--latency", 60000)
    contents = plain(13)

    def send(number):
        far.sendto(packet(96, number, MEDIA, contents.pop(0)), receiver.at)
    for number in range(10):
        send(number)
    checks.count(player.waits_for(10), f"{name}: {len(player.came)} came")
    send(100)  # 10 to 50 go, and 51 to 100 are the fifty
    soon(lambda: len(receiver.logged("taken")) == 11)
    time.sleep(0.4)  # so that the stream before is silent
    send(30000)
    send(30001)
    checks.count(player.waits_for(12), f"{name}: {len(player.came)} came")
    ends(checks, name, receiver)
    checks.same([one[1:] for one in receiver.logged("taken")][-1:], [[str(65536 + 100), "41"]], f"{name}: what is taken last")
    checks.same(receiver.logged("overrun") + receiver.logged("abandoned") + receiver.logged("skipped"),
                [["overrun", "41"], ["abandoned", "50"], ["skipped", "29899"]], f"{name}: the log")
    counts = {one: receiver.counts().get(one) for one in ("taken", "played", "gaps", "overrun", "abandoned", "skipped", "restarts")}
    checks.same(counts, {"taken": 13, "played": 12, "gaps": 0, "overrun": 41, "abandoned": 50, "skipped": 29899, "restarts": 1}, f"{name}: counts")
    checks.same([one.number for one in player.packets()], [*range(10), 30000, 30001], f"{name}: what is not played is a hole")
    ledger.whole(checks, name, receiver)


@on_time(0.1)
def swallowed(checks, stage):
    """More packets in a row are lost than any window bridges: each is counted, and they are a hole at the player."""
    name, player, first, many, out = "an outage that swallows 12504", End(stage), 60000, 14004, range(1000, 13504)
    receiver = stage.receive(player.at, "--packets", many - len(out))

    def rule(way, octets):
        one = parse(octets)
        return () if way == "forth" and one.ssrc == MEDIA and (one.number - first & 65535) in out else (0,)
    path = Path(stage, receiver.at, rule)
    sender = stage.send(path.at, "--packets", many)
    App(stage, sender.at, number=first, heed=(path.at[1], receiver.at[1], player.at[1])).stream(plain(many), 5000)
    checks.count(player.waits_for(many - len(out)), f"{name}: {len(player.came)} came")
    ends(checks, name, sender, receiver)
    lost = {parse(octets).number for way, octets in path.passed if way == "forth" and parse(octets).ssrc == MEDIA and not rule(way, octets)}
    checks.same(len(lost), len(out), f"{name}: packets that were lost")
    wanted = [(first + i & 65535, i) for i in range(many) if i not in out]
    checks.count([(one.number, index(one)) for one in player.packets()] == wanted, f"{name}: all but what was lost came, with its number")
    counts = {one: receiver.counts().get(one) for one in ("played", "gaps", "overrun", "abandoned", "skipped", "restarts")}
    checks.same(counts, {"played": many - len(out), "gaps": 0, "overrun": 0, "abandoned": 0, "skipped": len(out), "restarts": 1}, f"{name}: counts")
    checks.same(receiver.logged("skipped"), [["skipped", str(len(out))]], f"{name}: the log")
    ledger.whole(checks, name, receiver)


def overran(checks, stage):
    """Such an outage overruns a window of 2048 by what has no room there, and each packet is played, overrun or given up."""
    name, player = "an outage over a window of 2048", End(stage)
    _, _, sender, receiver = through(stage, player, "--window", 2048, "--latency", 2000, "--stats", 1)
    soon(lambda: len(sender.logged("sent")) == MANY)
    time.sleep(4)  # what is missing is given up, and counted
    counts = receiver.counts()
    left = MANY - len(player.came)
    checks.count(left > 100 and counts.get("overrun", 0) + counts.get("gaps", 0) == left,
                 f"{name}: {left} did not come, {counts}")
    ledger.sums(checks, name, receiver)


def streams(checks, stage, latency, *words, seconds=3.6):
    """A receiving relay that took a hundred packets a second of two sessions, and what it told in each."""
    player, lines = End(stage), []
    receiver = stage.receive(player.at, "--latency", latency, *words)
    for ssrc in (1, 5):
        App(stage, receiver.at, ssrc=ssrc, number=0).stream(plain(int(100 * seconds)), 100)
        soon(lambda: len(receiver.logged("play")) >= int(100 * seconds) * (1 + (ssrc > 1)))
        lines.append(told(receiver, WINDOW))
        time.sleep(PAUSE)
    return lines


@on_time(0.05)
def too_fast(checks, stage):
    """The rate is more than a window of fifty holds for a second: told in each session, with the window that is wanted."""
    first, both = streams(checks, stage, 1000, "--window", 50)
    checks.same((len(first), len(both)), (1, 2), f"a window that is too short is told: {both}")
    for window, rate, latency, wanted, option, value, bound in both:
        checks.same((window, latency, wanted, option, value, bound), ("50", "1000", None, "--window", rate, "more"), "what is told of the window")
        checks.count(95 <= int(rate) <= 110, f"the rate that is told: {rate}")


@on_time(0.05)
def faster(checks, stage):
    """Half of a stream is lost at random, and then it is twice as fast: the window that is told is what its sender sends a second, and it
    is told again once that has grown."""
    player, far = End(stage), stage.keep(udp())
    receiver = stage.receive(player.at, "--latency", 1000, "--window", 50)
    draw, number, began = random.Random(7), 0, time.monotonic()
    while number < 400 + 2400:
        number += 1
        due = began + min(number, 400) / 100 + max(0, number - 400) / 200
        time.sleep(max(0, due - time.monotonic()))
        if number <= 20 or draw.random() < 0.5:
            far.sendto(packet(96, number, MEDIA, plain(1)[0]), receiver.at)
    lines = told(receiver, WINDOW)
    checks.same(len(lines), 2, f"a window that is too short is told, and again: {lines}")
    rates = [int(one[1]) for one in lines]
    checks.count(len(rates) == 2 and 90 <= rates[0] <= 110 and 190 <= rates[1] <= 210, f"the rates that are told: {rates}")
    checks.same([one[5] for one in lines], [one[1] for one in lines], "the windows that are told")


@on_time(0.05)
def too_long(checks, stage):
    """The latency is more than any window holds at this rate: the latency that it can have is told."""
    _, both = streams(checks, stage, 200000)
    checks.same(len(both), 2, f"a latency that is too long is told: {both}")
    for window, rate, latency, wanted, option, value, bound in both:
        came, longest = (window, latency, wanted, option, value, bound), str(8192000 // int(rate))
        checks.same(came, ("8192", "200000", str(200 * int(rate)), "--window 8192 and --latency", longest, "less"), "what is told of the latency")


@on_time(0.05)
def enough(checks, stage):
    """A window that is long enough is told by nothing."""
    checks.same(streams(checks, stage, 1000, "--window", 130), [[], []], "a window that is long enough")


def gone(checks, stage):
    """Feedback names what a history of twenty has no more: that is told once. What was never sent is none of it."""
    name, far = "a history of twenty", End(stage)
    sender = stage.send(far.at, "--history", 20, "--min-resend", 0)
    app, at = App(stage, sender.at, number=0), ("127.0.0.1", sender.source[1])
    app.stream(plain(20), 1000)
    came = settled(far, 19)
    for numbers in ([500], [0, 900]):
        far.send(nack(MEDIA, numbers), at)
    checks.count(far.waits_for(came + 1), f"{name}: {len(far.came)} came")
    checks.same((original(far.packets()[-1])[0], told(sender, HISTORY)), (0, []), f"{name}: what is told while all is kept")
    app.stream(plain(30, first=20), 1000)
    settled(far, 49)
    for numbers in ([3, 7, 45], [4]):
        far.send(nack(MEDIA, numbers), at)
    soon(lambda: len(sender.logged("marked")) == 4)
    checks.count(soon(lambda: original(far.packets()[-1])[0] == 45), f"{name}: what is retransmitted")
    checks.same(told(sender, HISTORY), [("20", "2")], f"{name}: what is told")
    sender.stop()


if __name__ == "__main__":
    part(bridged, ended, left_behind, swallowed, overran, too_fast, faster, too_long, enough, gone)
