#!/usr/bin/env python3
"""Both relays over the loopback with one in ten datagrams lost in both directions: everything is played as it was sent.

    lossy.py PROGRAM"""
import time

import ledger
from base import ends, on_time, part
from net import App, End, queued
from rtp import drawn, index, nacked, parse, plain

MANY = 10000
TRAIL = 20  # packets behind those that are counted: the last ones may be lost, and their repair too
FIRST = 60000  # so that the numbers wrap
WIDE = ("--latency", 4000, "--window", 8192)  # on a busy machine too nothing is given up
LOSSY = ("--loss", 100)


def all_played(checks, name, player, contents, first, ssrc, kind=96):
    """What came is the beginning of what was sent: content for content, with numbers without holes, under one SSRC and type."""
    came = player.packets()
    wrong = next((i for i, (one, other) in enumerate(zip(came, contents)) if one is None or one.content != other), None)
    checks.count(wrong is None, f"{name}: packet {wrong} came as {came[wrong] if wrong is not None else ''}")
    numbers = [one and one.number for one in came]
    checks.count(numbers == [first + i & 65535 for i in range(len(came))], f"{name}: the numbers have no holes")
    checks.same({(one.ssrc, one.kind) for one in came if one}, {(ssrc, kind)}, f"{name}: SSRCs and types at the player")


def agree(checks, name, sender, receiver):
    """What the receiving relay took and refused is what the sending one let go, but for what the system dropped."""
    left, lost = ledger.wire(checks, name, sender)
    asks, _ = ledger.wire(checks, name, receiver)
    counts = receiver.counts()
    heard = sum(counts[one] for one in ("taken", "refused", "padding", "unasked"))
    went = len(left) - len(lost)
    checks.count(went >= heard >= went * 0.97, f"{name}: {heard} heard of {went} that left and were not lost")
    checks.count(counts["repaired"] <= sender.counts()["retransmitted"], f"{name}: {counts} beside {sender.counts()}")
    media = {parse(one).number for one in lost if parse(one).ssrc == parse(left[0]).ssrc}
    checks.count(counts["repaired"] >= len(media) - TRAIL, f"{name}: {counts['repaired']} repaired of {len(media)} lost")
    checks.count(all(nacked(one) for one in asks), f"{name}: asks are NACKs")
    checks.count(len({nacked(one)[:2] for one in asks if nacked(one)}) == 1, f"{name}: the asks have one reporter and one media")
    asked = {number for one in asks if nacked(one) for number in nacked(one)[2]}
    checks.count(len(media - asked) <= TRAIL, f"{name}: lost and not asked for: {sorted(media - asked)[:5]}")


@on_time(0.1)
def long_run(checks, stage):
    """Ten thousand packets with a pause, at 2,500 a second."""
    name, contents = "ten thousand packets", drawn(1, MANY + TRAIL)
    player = End(stage)
    sender, receiver = stage.pair(player, *LOSSY, "--packets", MANY, send=("--seed", 5, "--history", 8192),
                                  receive=("--seed", 6, *WIDE))
    app = App(stage, sender.at, number=FIRST, heed=(receiver.at[1], player.at[1]))
    app.stream(contents[:MANY // 2], 2500, padded=3)
    time.sleep(1.3)
    app.stream(contents[MANY // 2:MANY], 2500, padded=3)
    checks.count(queued({sender.at[1]})[1] == 0, f"{name}: the system dropped packets before the relay: the machine is too busy")
    app.stream(contents[MANY:], 40)
    ends(checks, name, sender, receiver)
    checks.count(MANY <= len(player.came) <= MANY + TRAIL, f"{name}: {len(player.came)} came to the player")
    all_played(checks, name, player, contents, FIRST, app.ssrc)
    checks.same([receiver.counts()[one] for one in ("gaps", "restarts", "stray")], [0, 0, 0], f"{name}: gaps, restarts, stray")
    checks.same([sender.counts()[one] for one in ("sent", "unsent", "refused", "stray")], [MANY + TRAIL, 0, 0, 0], f"{name}: sent, ..")
    checks.count(receiver.counts()["played"] == len(player.came), f"{name}: played: {receiver.counts()}")
    checks.count(0 <= (receiver.counts()["rtt"] or 0) < 2000 and receiver.counts()["rtt"] is not None, f"{name}: {receiver.counts()}")
    for relay, total in ((sender, sender.counts()["sent"] + sender.counts()["retransmitted"]), (receiver, receiver.counts()["asked"])):
        ledger.whole(checks, name, relay)
        ledger.sums(checks, name, relay)
        lost = relay.counts()["lost"]
        checks.count(abs(lost - total / 10) < 5 * (0.09 * total) ** 0.5 + 1, f"{name}: {relay.side} lost {lost} of {total}")
    ledger.sent(checks, name, sender, contents, app.ssrc, 96, FIRST)
    ledger.played(checks, name, receiver, player)
    agree(checks, name, sender, receiver)


@on_time(0.1)
def version6(checks, stage):
    """The same over IPv6, with fewer."""
    name, contents = "IPv6", drawn(2, 520)
    player = End(stage, "::1")
    receiver = stage.receive(player.at, *LOSSY, *WIDE, "--packets", 500, listen="[::1]:0")
    sender = stage.send(receiver.at, *LOSSY, "--packets", 500, listen="[::1]:0")
    checks.same((sender.source[0], receiver.source[0]), ("::", "::"), f"{name}: what they send from")
    app = App(stage, sender.at, ssrc=0xffffffff, number=0, kind=127)
    app.stream(contents[:500], 1000)
    app.stream(contents[500:], 40)
    ends(checks, name, sender, receiver)
    checks.count(len(player.came) >= 500, f"{name}: {len(player.came)} came to the player")
    all_played(checks, name, player, contents, 0, app.ssrc, 127)
    session = f"session ffffffff type 127 rtx-ssrc 00000000 rtx-type 126 first 0 with [::1]:{receiver.at[1]}\n"
    checks.count(session in sender.errors(), f"{name}: {sender.errors()!r} has {session!r}")
    session = f"session ffffffff type 127 rtx-ssrc - rtx-type 126 first 0 with [::1]:{sender.source[1]}\n"
    checks.count(session in receiver.errors(), f"{name}: {receiver.errors()!r} has {session!r}")
    for relay in (sender, receiver):
        ledger.whole(checks, name, relay)
        ledger.sums(checks, name, relay)


def seeds(checks, stage):
    """The seed alone decides what is lost, and 0 and 1000 lose nothing and everything, retransmissions too."""
    runs = []
    for loss, seed in ((300, 7), (300, 7), (300, 8), (1000, 7), (0, 7)):
        far = End(stage)
        sender = stage.send(far.at, "--loss", loss, "--seed", seed, "--packets", 400)
        App(stage, sender.at, number=0).stream(plain(400), 3000)
        runs.append((far, sender))
    for _, sender in runs:
        sender.status()
    first, again, other, everything, nothing = ([int(one[1]) for one in sender.logged("lost")] for _, sender in runs)
    first, again, other = ([one for one in some if one < 400] for some in (first, again, other))
    checks.count(60 < len(first) < 180 and first == again, f"seed 7 loses {first[:9]}.. and {again[:9]}..")
    checks.count(first != other, f"seed 8 loses {other[:9]}..")
    came = [len(far.came) for far, _ in runs]
    left = [400 + len(sender.logged("tail")) for _, sender in runs]
    checks.same((came[3], everything, runs[3][1].counts().get("lost")), (0, list(range(left[3])), left[3]), "1000 of 1000 are lost")
    checks.same((came[4], nothing, runs[4][1].counts().get("lost")), (left[4], [], 0), "0 of 1000 are lost")
    checks.same(came[0], left[0] - len(runs[0][1].logged("lost")), "what came where 300 of 1000 are lost")
    media = [index(one) for one in runs[4][0].packets() if one.ssrc == 0x1a2b3c4d]
    checks.same(media, list(range(400)), "what came without a loss")


if __name__ == "__main__":
    part(long_run, version6, seeds, beside=False)
