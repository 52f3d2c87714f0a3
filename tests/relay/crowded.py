#!/usr/bin/env python3
"""What is retransmitted where more is asked for than may leave: what can still be in time.

    crowded.py PROGRAM"""
import random
import threading
import time

from base import on_time, part
from net import App, End, Path
from rtp import index, parse, plain
from rate import named

MEDIA, WAY = 0x1a2b3c4d, 0.01  # the SSRC, and the seconds that the path takes each way
FIRST = 3  # seconds of the stream that are not looked at: more has to stand for one before anything is passed over


def lossy(draw, loss):
    """A rule by which a path loses such a part both ways."""
    return lambda way, octets: () if draw.random() < loss else (WAY,)


def streams(stage, draw, rate, seconds, loss, send=(), receive=()):
    """A stream through both relays and such a path, as it runs: the player, the path and the application, and who waits for its end."""
    player = End(stage)
    receiver = stage.receive(player.at, *receive, log=False)
    path = Path(stage, receiver.at, lossy(draw, loss))
    sender = stage.send(path.at, *send, log=False)
    app = App(stage, sender.at, ssrc=MEDIA, number=0)
    running = threading.Thread(target=app.stream, args=(plain(int(rate * seconds), 1000), rate), daemon=True)
    running.start()
    return player, path, app, running


def missed(player, first, end):
    """Of the packets from one to another, how many in a hundred did not come to the player."""
    came = {index(one) for one in map(parse, player.octets())}
    return 100 * sum(one not in came for one in range(first, end)) / (end - first)


@on_time(0.05)
def named_again(checks, stage):
    """Somebody writes the far side's address, and names all packets each time, some ten times a second. Of a stream that loses one in twenty both
    ways most of what is lost is repaired still; where the oldest went first nothing was in time."""
    draw = random.Random()
    rate, nacks, seconds = draw.randrange(200, 300), draw.randrange(8, 16), 9
    name = f"{rate} packets and {nacks} NACKs a second"
    player, path, app, running = streams(stage, draw, rate, seconds, 0.05)
    time.sleep(1)
    while running.is_alive():
        path.front.sendto(named(app.number), path.home)
        time.sleep(1 / nacks)
    time.sleep(1)
    lost = missed(player, FIRST * rate, seconds * rate)
    checks.count(lost < 2, f"{name}: {lost:.2f} in a hundred did not come")


@on_time(0.05)
def below_the_loss(checks, stage):
    """Of two megabits a second 15 in a hundred are lost both ways, 300 kilobits, and 200 may be retransmitted: of 15 some 6.6 stay lost where each one that
    leaves is in time, and of so few packets one in a hundred more or less by chance. Where the oldest went first none was, and 14 to 16 stayed lost."""
    draw = random.Random()
    rate, seconds, latency = 250, 12, draw.choice((500, 700, 1000))
    name = f"--rate 200 of 300, latency {latency}"
    player, _, _, running = streams(stage, draw, rate, seconds, 0.15, ("--rate", 200), ("--latency", latency))
    running.join()
    time.sleep(latency / 1000 + 0.5)
    lost = missed(player, FIRST * rate, seconds * rate)
    checks.count(lost < 10, f"{name}: {lost:.2f} in a hundred did not come")


if __name__ == "__main__":
    part(named_again, below_the_loss)
