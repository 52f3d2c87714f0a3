#!/usr/bin/env python3
"""What each option changes on the wire or at the player, and what is learnt where it isn't given.

    learning.py PROGRAM"""
import time

from base import ends, on_time, part, soon
from net import App, End, Path, settled
from rtp import Content, index, nack, nacked, original, packet, parse, plain, repair

SSRC = 0x1a2b3c4d


def on_the_wire(stage, *words, ssrc=SSRC, kind=96, number=100):
    """What a sending relay sends of twelve packets, and what it retransmits of the fifth, of the seventh, and of all."""
    far = End(stage)
    sender = stage.send(far.at, "--seconds", 8, "--min-resend", 0, *words)
    app = App(stage, sender.at, ssrc=ssrc, kind=kind, number=number)
    app.stream(plain(12), 1000)
    first = settled(far, far.packets()[0].number + 11 if far.waits_for(1) else 0)
    media = [one for one in far.packets() if one.ssrc == far.packets()[0].ssrc]
    asked = [media[4].number], [media[6].number], [one.number for one in media]
    for i, numbers in enumerate(asked):
        far.send(nack(media[0].ssrc, numbers), ("127.0.0.1", sender.source[1]))
        far.waits_for(first + i + 1)
    soon(lambda: len(sender.logged("marked")) == 3 and len(sender.logged("repair")) == len(far.came) - 12)
    time.sleep(0.3)
    return media, far.packets()[first:], sender


def types(checks, stage):
    """What follows of the application's type and SSRC, where nothing else is given."""
    for kind, rtx in ((96, 97), (126, 127), (127, 126), (33, 97), (0, 97), (100, 101)):
        media, repairs, sender = on_the_wire(stage, ssrc=0xffffffff, kind=kind, number=65530)
        checks.same({(one.ssrc, one.kind) for one in media}, {(0xffffffff, kind)}, f"type {kind}: media")
        checks.same({(one.ssrc, one.kind) for one in repairs}, {(0, rtx)}, f"type {kind}: retransmissions")
        checks.same([one.number for one in media], [65530 + i & 65535 for i in range(12)], f"type {kind}: numbers")
        line = f"session ffffffff type {kind} rtx-ssrc 00000000 rtx-type {rtx} first 65530 with {sender.to[0]}:{sender.to[1]}"
        checks.same(sender.errors().splitlines()[1], line, f"type {kind}: what it tells")
        checks.same(sender.logged("session"), [["session", "ffffffff", str(kind), "00000000", str(rtx), "65530"]], f"type {kind}: log")
        sender.stop()


def sending(checks, stage):
    """Each option of the sending relay on the wire."""
    media, repairs, sender = on_the_wire(stage, "--ssrc", "deadBEEF", "--rtx-ssrc", "01020304", "--rtx-type", 120, "--first", 65534,
                                         "--rtx-first", 65535, "--history", 8)
    checks.same({(one.ssrc, one.kind) for one in media}, {(0xdeadbeef, 96)}, "media")
    checks.same([one.number for one in media], [65534 + i & 65535 for i in range(12)], "the numbers of media")
    checks.count([one.content for one in media] == plain(12), "the contents of media")
    checks.same({(one.ssrc, one.kind) for one in repairs}, {(0x01020304, 120)}, "retransmissions")
    first = repairs[0].number  # behind that of the silent end
    checks.same([one.number for one in repairs], [first + i for i in range(10)], "the numbers of retransmissions")
    checks.same(first, len(sender.logged("tail")) - 1, "the numbers of retransmissions begin with 65535")
    checks.same([original(one)[0] for one in repairs], [2, 4, *range(2, 10)], "retransmitted: eight are kept")
    checks.count(all(original(one)[1] == plain(12)[original(one)[0] + 2] for one in repairs), "the contents of retransmissions")
    checks.count("\nsession deadbeef type 96 rtx-ssrc 01020304 rtx-type 120 first 65534 with " in sender.errors(), sender.errors())
    sender.stop()


def one_type(checks, stage):
    """With a type, other packets of the application are not sent, whichever come first."""
    far = End(stage)
    sender = stage.send(far.at, "--type", 100, "--packets", 10)
    app = App(stage, sender.at)
    for app.kind, app.ssrc in ((96, 1), (100, 2), (101, 2), (100, 2)):
        app.number = 10
        app.stream(plain(5, first=app.kind), 1000)
    ends(checks, "a type", sender)
    media = [one for one in far.packets() if one.kind == 100]
    checks.same({(one.ssrc, one.kind) for one in far.packets()}, {(2, 100), (3, 101)}, "a type: SSRCs and types")
    checks.same([one.number for one in media], list(range(10, 20)), "a type: numbers")
    checks.same([sender.counts().get(one) for one in ("sent", "unsent")], [10, 10], "a type: sent and unsent")


@on_time(0.03)
def first_asks(checks, stage):
    """Before a round trip was measured four asks fit into the latency: two answers that are lost cost no packet."""
    name, player, lost = "the first asks", End(stage), []

    def rule(way, octets):
        one = parse(octets) if way == "forth" else None
        is_first = one and one.ssrc == SSRC and one.number == 10
        is_answer = one and one.ssrc != SSRC and original(one)[0] == 10 and len(lost) < 2
        if is_answer:
            lost.append(one)
        return () if is_first or is_answer else (0,)

    receiver = stage.receive(player.at, "--packets", 40)
    sender = stage.send(Path(stage, receiver.at, rule).at)
    App(stage, sender.at, number=0).stream(plain(40), 100)
    ends(checks, name, receiver)
    checks.same([index(one) for one in player.packets()], list(range(40)), f"{name}: what came to the player")
    checks.same(len(lost), 2, f"{name}: answers that were lost")
    sender.stop()


def plays(stage, player, sent, *words):
    """A receiving relay to which the far side has sent packets, of kinds, numbers and SSRCs."""
    far = End(stage)
    receiver = stage.receive(player.at, *words)
    for i, (kind, number, ssrc) in enumerate(sent):
        far.last = time.monotonic()
        far.send(packet(kind, number, ssrc, plain(1, first=i)[0]), receiver.at)
    return far, receiver


def choosing(checks, stage):
    """Which packet makes the session at the receiving relay."""
    sent, runs = [(96, 5, 1), (100, 7, 2), (100, 8, 2), (33, 9, 3), (100, 70, 4), (33, 10, 3)], []
    for words, wanted in (((), [(96, 5, 1, 0)]), (("--type", 100), [(100, 7, 2, 1), (100, 8, 2, 2)]),
                          (("--ssrc", "00000004"), [(100, 70, 4, 4)]), (("--type", 33, "--ssrc", 3), [(33, 9, 3, 3), (33, 10, 3, 5)])):
        player = End(stage)
        runs.append((words, wanted, player, plays(stage, player, sent, *words, "--packets", len(wanted))[1]))
    for words, wanted, player, receiver in runs:
        ends(checks, f"a session by {words}", receiver)
        came = [(one.kind, one.number, one.ssrc, index(one)) for one in player.packets()]
        checks.same(came, wanted, f"a session by {words}: what is played")


def first(checks, stage):
    """With a first number, what is lost before the first packet that comes is asked for, and given up after the patience."""
    player = End(stage)
    far, receiver = plays(stage, player, [(96, i & 65535, SSRC) for i in range(65537, 65540)], "--first", 65535, "--packets", 5, "--latency", 2000)
    checks.count(far.waits_for(1), "a first number: no NACK came")
    asked = nacked(far.octets()[0])
    checks.count(asked and asked[1:] == (SSRC, [65535, 0]) and asked[0] != SSRC, f"a first number: what is asked for: {asked}")
    far.send(repair(97, 500, 77, 0, Content(1, 0, b"zero")), receiver.at)
    ends(checks, "a first number", receiver)
    checks.same([one.number for one in player.packets()], [0, 1, 2, 3], "a first number: what is played")
    checks.same([receiver.counts().get(one) for one in ("repaired", "gaps", "played")], [1, 1, 4], "a first number: counts")
    checks.same(receiver.logged("session"), [["session", "1a2b3c4d", "96", "-", "97", "65535"]], "a first number: the log")


def burst(checks, stage):
    """Of 299 missing places the first 256 are asked for in one datagram, and the others in the next one."""
    player = End(stage)
    sent = [65391 + i for i in range(10)] + [65400 + 300 & 65535]  # so many that two NACKs of 76 octets and two of 24 are earned
    far, receiver = plays(stage, player, [(96, number, SSRC) for number in sent], "--latency", 20000)
    checks.count(far.waits_for(4), f"a burst: {len(far.came)} NACKs came")
    missing = [65400 + i & 65535 for i in range(1, 300)]
    asked = [nacked(one) for one in far.octets()[:4]]  # each NACK leaves twice
    checks.same([one and one[2] for one in asked], [missing[:256]] * 2 + [missing[256:]] * 2, "a burst: what is asked for")
    checks.same({one and one[1] for one in asked}, {SSRC}, "a burst: the media")
    receiver.stop()


def retransmissions(checks, stage):
    """Which retransmissions are taken, by their SSRC and type."""
    runs = []
    for words, ssrc, kind, taken in (((), 5, 97, 1), ((), 5, 98, 0), (("--rtx-type", 98), 5, 98, 1), (("--rtx-type", 98), 5, 97, 0),
                                     (("--rtx-ssrc", "5"), 5, 97, 1), (("--rtx-ssrc", "00000006"), 5, 97, 0)):
        player, name = End(stage), f"{words} and a retransmission {ssrc} of type {kind}"
        far, receiver = plays(stage, player, [(96, 1, SSRC), (96, 3, SSRC)], "--packets", 3, "--latency", 2000, *words)
        checks.count(far.waits_for(1), f"{name}: no NACK came")
        far.send(repair(kind, 9, ssrc, 2, Content(1, 0, b"two")), receiver.at)
        runs.append((name, player, receiver, taken))
    for name, player, receiver, taken in runs:
        ends(checks, name, receiver)
        counts = [receiver.counts().get(one) for one in ("repaired", "gaps", "refused")]
        checks.same(counts, [taken, 1 - taken, 1 - taken], f"{name}: repaired, gaps, refused")
        checks.same([one.number for one in player.packets()], [1, 2, 3] if taken else [1, 3], f"{name}: what is played")


@on_time(0.2)
def fitting(checks, stage):
    """A NACK that comes twice is answered once, and one for what is past its deadline not at all."""
    far = End(stage)
    sender = stage.send(far.at, "--seconds", 6, "--min-resend", 2000, "--deadline", 3000)
    App(stage, sender.at, number=100).stream(plain(12), 1000)
    first = settled(far, far.packets()[0].number + 11 if far.waits_for(1) else 0)
    media = far.packets()[0].ssrc
    for _ in range(2):
        far.send(nack(media, [104]), ("127.0.0.1", sender.source[1]))
    far.waits_for(first + 1)
    time.sleep(4)
    far.send(nack(media, [104, 105]), ("127.0.0.1", sender.source[1]))
    ends(checks, "what fits the time", sender)
    counts = sender.counts()
    tails = len(sender.logged("tail"))
    checks.same([original(one)[0] for one in far.packets()[first:]], [104], "what fits the time: retransmitted")
    wanted = {"marked": 4, "retransmitted": 1 + tails, "early": 1, "expired": 2}
    checks.same({one: counts.get(one) for one in wanted}, wanted, "what fits the time: counts")


def patience(checks, stage):
    """How long a missing place is waited for."""
    runs = []
    for words, least in (((), 0.2), (("--latency", 700), 0.7), (("--latency", 0), 0)):
        player = End(stage)
        runs.append((words, least, player, *plays(stage, player, [(96, 1, SSRC), (96, 3, SSRC)], "--packets", 3, *words)))
    for words, least, player, far, receiver in runs:
        ends(checks, f"patience {words}", receiver)
        checks.same([one.number for one in player.packets()], [1, 3], f"patience {words}: what is played")
        log = [(int(one.split()[0]), one.split()[1]) for one in receiver.log.read_text().splitlines()]
        waited = [one for one, word in log if word == "gap"][0] - [one for one, word in log if word == "taken"][1]
        checks.count(1000 * least - 2 <= waited < 1000 * least + 5000, f"patience {words}: the log has {waited} milliseconds")
        checks.count(player.came[1][0] - far.last >= least - 0.002, f"patience {words}: it was played too early")


def window(checks, stage):
    """How many places are kept: one more overruns the missing one."""
    player = End(stage)
    sent = [(96, i, SSRC) for i in (1, *range(3, 13))]
    _, receiver = plays(stage, player, sent, "--window", 8, "--latency", 20000, "--seconds", 3)
    ends(checks, "a window of 8", receiver)
    checks.same([one.number for one in player.packets()], [1, *range(3, 13)], "a window of 8: what is played")
    overrun = [one[1:] for one in receiver.logged("taken") if one[2] != "0"]
    checks.same(overrun, [["65546", "1"]], "a window of 8: the place that overruns")


@on_time(0.05)
def round_trip(checks, stage):
    """A round-trip time is measured where there is one."""
    player = End(stage)
    receiver = stage.receive(player.at, "--packets", 300, "--latency", 3000)
    path = Path(stage, receiver.at, lambda way, octets: () if way == "forth" and lost(octets) else (0.06,))
    sender = stage.send(path.at, "--packets", 300)
    App(stage, sender.at, number=0).stream(plain(300), 300)
    ends(checks, "a round trip", sender, receiver)
    counts = receiver.counts()
    checks.count(counts.get("rtt") is not None and 118 <= counts["rtt"] < 1000, f"a round trip of 120 milliseconds: {counts}")
    checks.same([index(one) for one in player.packets()], list(range(300)), "a round trip: what is played")
    asks = [nacked(octets)[2] for way, octets in path.passed if way == "back"]
    checks.same(len(asks), counts.get("asked"), "a round trip: asks on the path")
    asked = set(sum(asks, []))  # but for one before a halt of the machine, which the silent end repairs
    checks.count(len(asked) >= 25 and all(one % 10 == 5 for one in asked), f"a round trip: what is asked for: {sorted(asked)}")
    checks.count(receiver.logged("rtt") and all(int(one[1]) >= 118 for one in receiver.logged("rtt")), f"{receiver.logged('rtt')[:3]}")


def lost(octets):
    """Every tenth packet of the media."""
    one = parse(octets)
    return one.ssrc == SSRC and one.number % 10 == 5


if __name__ == "__main__":
    part(types, sending, one_type, choosing, first, first_asks, burst, retransmissions, fitting, patience, window, round_trip)
