#!/usr/bin/env python3
"""How fast retransmissions leave, and that media does not wait for them.

    rate.py PROGRAM"""
import struct
import threading
import time

from base import ends, on_time, part, soon
from net import App, End, settled
from rtp import index, nack, original, plain

MEDIA, KIND = 0x1a2b3c4d, 97


def burst(stage, many, length, *words):
    """A sending relay that has sent so many packets of an application, and its silent end's retransmission."""
    far = End(stage)
    sender = stage.send(far.at, "--packets", many, *words)
    app = App(stage, sender.at, ssrc=MEDIA, number=0)
    app.stream(plain(many, length), 2000)
    settled(far, many - 1)
    return app, far, sender


def asks(far, sender, many):
    """Asks for all of them, and gives the seconds that their retransmissions took and the octets but for the first one's."""
    before, began = len(far.came), time.monotonic()
    for at in range(0, many, 100):  # a datagram has room for fewer than 400 pairs
        far.send(nack(MEDIA, range(at, min(at + 100, many))), ("127.0.0.1", sender.source[1]))
    far.waits_for(before + many)
    came = far.came[before:]
    return (came[-1][0] if came else 0) - began, sum(len(one[2]) for one in came[1:])


@on_time(0.08)
def paced(checks, stage):
    """At 400 kilobits a second, fifty retransmissions of a thousand octets take a second: none leaves early, all leave in order."""
    name = "400 kilobits"
    _, far, sender = burst(stage, 50, 1000, "--rate", 400)
    seconds, octets = asks(far, sender, 50)
    checks.count(octets >= 49000, f"{name}: {octets} octets came")
    checks.count(octets * 8 <= 400000 * seconds + 8 * 1100, f"{name}: {octets} octets in {seconds} seconds")
    checks.count(seconds < 10, f"{name}: {octets} octets took {seconds} seconds")
    checks.same([original(one)[0] for one in far.packets()[-50:]], list(range(50)), f"{name}: the order")
    ends(checks, name, sender)
    times = [(int(one.split()[0]), int(one.split()[3]), len(one.split()[4]) // 2) for one in sender.log.read_text().splitlines()
             if one.split()[1] == "repair"][-50:]
    early = [one for one in times if one[0] < times[0][0] + (one[1] - times[0][1]) * 1014 * 8 / 400 - 2]
    checks.same((len(times), early[:2]), (50, []), f"{name}: retransmissions in the log, and those that left too early")


@on_time(0.05)
def at_once(checks, stage):
    """With a rate of 0 they leave as fast as they are asked for. What was asked for just before is asked for again at once, so nothing is
    too early here."""
    name, best = "no rate", 99
    _, far, sender = burst(stage, 50, 1000, "--rate", 0, "--min-resend", 0)
    for _ in range(5):
        seconds, octets = asks(far, sender, 50)
        checks.count(octets >= 49000, f"{name}: {octets} octets came")
        best = min(best, seconds)
    checks.count(best < 0.5, f"{name}: the best of five took {best} seconds")
    ends(checks, name, sender)


def named(many):
    """The octets of a NACK that names packets from 0 on, so many and some more: seventeen by a pair."""
    pairs = b"".join(struct.pack(">HH", first, 65535) for first in range(0, many, 17))
    return struct.pack(">BBHII", 0x81, 205, 2 + len(pairs) // 4, 0x0f0f0f0f, MEDIA) + pairs


def events(sender):
    """What a relay's log has of media that left, of retransmissions and of feedback: the moment, the word and the octets of the packet."""
    lines = [one.split(" ") for one in sender.log.read_text().splitlines()]
    return [(int(one[0]), one[1], len(one[4]) // 2 if one[1] != "marked" else 0) for one in lines if one[1] in ("sent", "repair", "marked")]


def saved_up(log, share):
    """The bits that are saved up before each retransmission of a log, and at its end: 32 KiB at first, and half of the share of media as it
    leaves; never more than 32 KiB and half of the share of what is left of the last second's media, also where feedback is heard."""
    credit, bits, last, before = 262144, 0, 0, []
    for now, word, octets in log:
        left = bits * max(0, 1000 - (now - last)) // 1000
        if word == "repair":
            before.append(credit)
            credit -= octets * 8
        elif word == "sent":
            bits, last = left + octets * 8, now
            credit = min(credit + share * octets * 8 // 200, 262144 + share * bits // 200)
        else:
            credit = min(credit, 262144 + share * left // 200)
    return [*before, credit]


def rests(far, seconds=0.5):
    """Waits until nothing comes for so long."""
    before = -1
    while before != len(far.came):
        before = len(far.came)
        time.sleep(seconds)


@on_time(0.02)
def shared(checks, stage, *words, share=200, many=400):
    """By a share of the media's rate as much may leave as half of that share of a second has, and 32 KiB: 64 KiB at once, and the rest eight times as
    fast as the rate, or by 64 megabits. What may leave does."""
    name, long = f"{share} per cent", 1014 * 8
    _, far, sender = burst(stage, many, 1000, *words)
    far.send(named(many), ("127.0.0.1", sender.source[1]))
    rests(far)
    ends(checks, name, sender)
    log = events(sender)
    saved, least = saved_up(log, share), 8 * 1600
    times = [now for now, word, _ in log if word == "repair"][1:]  # but for the last packet's own
    numbers = [original(one)[0] for one in far.packets()[many + 1:]]
    checks.same(numbers, list(range(len(times))), f"{name}: the order")
    checks.count(min(saved[:-1]) >= least, f"{name}: {min(saved[:-1])} bits were saved up as one left")
    checks.count(len(times) == many or saved[-1] < least, f"{name}: {len(times)} left, and {saved[-1]} bits stayed")
    at_once = sum(one <= times[0] + 100 for one in times)
    checks.count(at_once >= 50, f"{name}: {at_once} retransmissions left in a tenth of a second")
    rate = share * many * 1012 * 8 / 200 / 1000
    fast = max(2 * rate, min(8 * rate, 64000))
    early = [i for i, one in enumerate(times) if i * long > 524288 + fast * (one - times[0] + 1)]
    checks.same(early[:2], [], f"{name}: retransmissions that left too early")


@on_time(0.02)
def halved(checks, stage):
    shared(checks, stage, "--rate", "50%", share=50, many=150)


@on_time(0.08)  # who is halted for a tenth of a second is silent, and its last packet leaves once more
def silent(checks, stage):
    """A second behind a stream 262,144 bits are left of what it earned. 31 retransmissions of 8112 leave fewer than the longest datagram has,
    12,800; and whatever is asked for then, no other leaves."""
    name, many = "a silent stream", 400
    _, far, sender = burst(stage, many, 1000)
    time.sleep(1.1)
    for _ in range(20):
        far.send(named(many), ("127.0.0.1", sender.source[1]))
        time.sleep(0.02)
    ends(checks, name, sender)
    checks.same(len(far.came) - many - 1, 31, f"{name}: retransmissions")


def asked_each_10(sender, far, many, runs):
    """Names so many packets each ten milliseconds, as long as that runs."""
    octets = named(many)
    while runs():
        far.send(octets, ("127.0.0.1", sender.source[1]))
        time.sleep(0.01)


def stopped(checks, stage):
    """A stream of 20 megabits stops after two seconds, and 340 packets are asked for each ten milliseconds, sixteen times as many as leave, until
    three seconds after that. In any second no more is retransmitted than twice the media of that and of the one before it, 32 KiB and two
    packets; and from a second after the stop on no more than 32 KiB."""
    name, many, rate = "a stream that stops", 4166, 2083
    far = End(stage)
    sender = stage.send(far.at, "--min-resend", 0)
    app = App(stage, sender.at, ssrc=MEDIA, number=0)
    stream = threading.Thread(target=app.stream, args=(plain(many, 1188), rate), daemon=True)
    stream.start()
    far.waits_for(20)
    asked_each_10(sender, far, 340, stream.is_alive)
    until = time.monotonic() + 3
    asked_each_10(sender, far, 340, lambda: time.monotonic() < until)
    sender.stop()
    log = events(sender)
    media, again = ([(now, octets) for now, word, octets in log if word == kind] for kind in ("sent", "repair"))
    stop = media[-1][0]
    checks.same(len(media), many, f"{name}: what was sent")
    checks.count(2 * sum(size for _, size in again) >= sum(size for _, size in media), f"{name}: {len(again)} were retransmitted")
    over = [(at, these, those) for at in range(0, stop + 3000, 50)
            for these, those in [(between(again, at, at + 1000), between(media, at - 1000, at + 1000))] if these > 2 * those + 32768 + 2 * 1202]
    checks.same(over[:2], [], f"{name}: seconds with too much, their octets, and the media's of two")
    behind = between(again, stop + 1000, stop + 9000)
    checks.count(behind <= 32768, f"{name}: {behind} octets left more than a second behind it")


def between(packets, start, end):
    """The octets of what left between two moments."""
    return sum(octets for now, octets in packets if start <= now < end)


def seldom(checks, stage):
    """Beside a packet each 1.1 seconds, and NACKs for all each ten milliseconds, no more is retransmitted in all than the media's octets and
    32 KiB."""
    name, many = "a packet now and then", 5
    far = End(stage)
    sender = stage.send(far.at, "--min-resend", 0)
    app = App(stage, sender.at, ssrc=MEDIA, number=0)
    for one in plain(many, 1188):
        app.send(one)
        until = time.monotonic() + 1.1
        asked_each_10(sender, far, many, lambda: time.monotonic() < until)
    sender.stop()
    log = events(sender)
    media, again = (sum(octets for _, word, octets in log if word == kind) for kind in ("sent", "repair"))
    checks.same(media, many * 1200, f"{name}: the media's octets")
    checks.count(30000 <= again <= media + 32768, f"{name}: {again} octets were retransmitted, of {media}")


@on_time(0.05)
def media_first(checks, stage):
    """At 8 kilobits a second a retransmission takes a second. Media that comes meanwhile leaves at once."""
    name = "8 kilobits"
    app, far, sender = burst(stage, 20, 1000, "--rate", 8)
    first = len(far.came)
    far.send(nack(MEDIA, range(20)), ("127.0.0.1", sender.source[1]))
    soon(lambda: sender.logged("marked"))
    took = []
    for one in plain(40, first=20):
        before, began = len(far.came), time.monotonic()
        app.send(one)
        soon(lambda: any(other.ssrc == MEDIA for other in far.packets()[before:]), 5)
        took.append(time.monotonic() - began)
    checks.count(sorted(took)[20] < 0.1, f"{name}: a packet took {sorted(took)[20]} seconds in the mean, {max(took)} at most")
    media = [index(one) for one in far.packets() if one.ssrc == MEDIA]
    checks.same(media, list(range(60)), f"{name}: the media that left")
    repaired = [one for one in far.packets()[first:] if one.ssrc != MEDIA]
    checks.count(len(repaired) <= 2 + sum(took), f"{name}: {len(repaired)} retransmissions left in {sum(took)} seconds")
    sender.stop()


def named_again(stage, again, *words):
    """Between two packets lie 80 milliseconds, and a path takes 5 at most for a retransmission. How often the first is retransmitted that is
    named twenty milliseconds behind the second, again seconds later as `again` says, and again once all has been taken; and the relay."""
    far = End(stage)
    sender = stage.send(far.at, "--packets", 2, *words)
    app, at = App(stage, sender.at, ssrc=MEDIA, number=0), ("127.0.0.1", sender.source[1])
    came = []
    for one, pause in zip(plain(2, 100), (0.08, 0.02)):
        app.send(one)
        time.sleep(pause)
    for pause in (again, 0.3, 0.1):  # the last packet's own retransmission is taken meanwhile, as the stream is silent
        far.send(nack(MEDIA, [0]), at)
        time.sleep(pause)
        came.append(sum(one.ssrc != MEDIA and original(one)[0] == 0 for one in far.packets()))
    return came, sender


@on_time(0.01)
def queued(checks, stage):
    """What is named again while its answer may wait in a queue is not retransmitted, and what is named later is."""
    came, sender = named_again(stage, 0.001)
    checks.same(came[1:], [1, 2], "a queue: retransmissions of the first packet")
    ends(checks, "a queue", sender)
    checks.same(sender.counts().get("early"), 1, "a queue: what was passed over")


@on_time(0.01)
def ruled(checks, stage):
    """Where a time is given it is that alone."""
    came, sender = named_again(stage, 0.03, "--min-resend", "20")
    checks.same(came, [1, 2, 3], "a given time: retransmissions of the first packet")
    ends(checks, "a given time", sender)
    checks.same(sender.counts().get("early"), 0, "a given time: what was passed over")


if __name__ == "__main__":
    part(paced, at_once, shared, halved, silent, stopped, seldom, media_first, queued, ruled)
