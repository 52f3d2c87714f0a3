#!/usr/bin/env python3
"""What leaves for the player by --hold: each packet at its RTP time, whenever it came.

    held.py PROGRAM"""
import statistics
import time

from base import WATCH, ends, on_time, part
from net import App, End, Path
from rtp import index, parse, plain

MANY, BURST, STEP = 200, 10, 0.01  # packets, ten of them at once, of a stream that has one each ten milliseconds
LATENCY = 300
SSRC = 0x1a2b3c4d


def bursts(app):
    """A stream of which ten packets come at once, each hundred milliseconds."""
    contents, due = plain(MANY, step=900), time.monotonic()
    for at in range(0, MANY, BURST):
        time.sleep(max(0, due - time.monotonic()))
        WATCH.tell(due)
        for one in contents[at:at + BURST]:
            app.send(one)
        due += BURST * STEP


def through(stage, *words):
    """When each packet of such a stream came to the player, beside its own time, in milliseconds; and by which numbers."""
    player = End(stage)
    sender, receiver = stage.pair(player, "--packets", MANY, send=("--loss", 50, "--seed", 1), receive=("--latency", LATENCY, *words))
    bursts(App(stage, sender.at, number=0))
    player.waits_for(MANY, 5)
    came = [(moment, index(one)) for (moment, _, _), one in zip(player.came, player.packets())]
    return sender, receiver, [1000 * (moment - number * STEP) for moment, number in came], [number for _, number in came]


def spread(times):
    """How far nine in ten of them lie apart."""
    parts = statistics.quantiles(times, n=20)
    return parts[-1] - parts[0]


@on_time(0.01)
def evenly(checks, stage):
    """Held, nine in ten leave within a few milliseconds of their times; else they lie as far apart as they came."""
    name = "--hold 90000"
    sender, receiver, held, numbers = through(stage, "--hold", 90000)
    checks.same(numbers, list(range(MANY)), f"{name}: what came to the player")
    checks.count(spread(held) < 20, f"{name}: nine in ten lie {spread(held):.1f} milliseconds apart")
    ends(checks, name, sender, receiver)
    sender, receiver, free, numbers = through(stage)
    checks.same(numbers, list(range(MANY)), "without --hold: what came to the player")
    checks.count(spread(free) > 50, f"without --hold: nine in ten lie {spread(free):.1f} milliseconds apart")
    ends(checks, "without --hold", sender, receiver)


@on_time(0.03)
def steps(checks, stage):
    """Timestamps that step back or ahead end no repair: one in ten packets is lost at first, and all come. What is held as the step is
    believed leaves at once, and all behind it evenly again."""
    for step in (-90000, 90000 * 3600):
        name, player, lost = f"a step of {step // 90000} seconds", End(stage), set()

        def rule(way, octets, lost=lost):
            one = parse(octets) if way == "forth" else None
            is_first = one and one.ssrc == SSRC and one.number % 10 == 4 and one.number not in lost
            if is_first:
                lost.add(one.number)
            return () if is_first else (0,)

        receiver = stage.receive(player.at, "--packets", MANY, "--latency", LATENCY, "--hold", 90000)
        sender = stage.send(Path(stage, receiver.at, rule).at)
        contents = plain(MANY, step=900)
        stepped = [one._replace(time=(one.time + 9000000 + (step if i >= MANY // 2 else 0)) & 0xffffffff) for i, one in enumerate(contents)]
        App(stage, sender.at, number=0).stream(stepped, 1 / STEP)
        ends(checks, name, receiver)
        checks.same([index(one) for one in player.packets()], list(range(MANY)), f"{name}: what came to the player")
        checks.same(len(lost), MANY // 10, f"{name}: packets that were lost")
        times = [1000 * (moment - number * STEP) for number, (moment, _, _) in enumerate(player.came)]
        for part_of in times[:MANY // 2 - 40], times[MANY // 2 + 40:]:
            checks.count(spread(part_of) < 20, f"{name}: nine in ten lie {spread(part_of):.1f} milliseconds apart")
        sender.stop()


@on_time(0.05)
def latency(checks, stage):
    """A packet that comes alone leaves as much later as the latency says."""
    name, player = "one packet", End(stage)
    sender, receiver = stage.pair(player, receive=("--latency", LATENCY, "--hold", 8000))
    began = time.monotonic()
    App(stage, sender.at, number=0).send(plain(1)[0])
    player.waits_for(1)
    took = 1000 * (player.came[0][0] - began)
    checks.count(LATENCY - 2 <= took < LATENCY + 200, f"{name}: it took {took:.1f} milliseconds")
    sender.stop()
    receiver.stop()


if __name__ == "__main__":
    part(evenly, steps, latency)
