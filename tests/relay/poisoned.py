#!/usr/bin/env python3
"""A stranger's retransmission comes before the first real one, and its SSRC is learnt: it falls to who repairs.

    poisoned.py PROGRAM"""
import random
import struct
import threading

from base import ends, on_time, part
from net import App, End, Path
from rtp import Content, nacked, plain, repair

STRANGE = Content(0, 0, b"strange")
FIRST = struct.pack(">H", 65000)  # the number with which an application of a test begins


class Stranger:
    """He answers the first asks sooner than the far side can, so many of them and from its address, under an SSRC of his own."""

    def __init__(self, draw, loss, answers):
        self.draw, self.loss, self.answers, self.path, self.ssrc = draw, loss, answers, None, draw.getrandbits(32)
        self.named = set()

    def rule(self, way, octets):
        """Media is lost, but for what the session begins with, and what answers an ask comes after the stranger's."""
        if way == "back":
            feedback = nacked(octets)
            for number in feedback[2] if feedback else ():
                self.answer(number)
            return (0.02,)
        is_media, is_first = octets[1] & 127 == 96, octets[2:4] == FIRST
        return () if is_media and not is_first and self.draw.random() < self.loss else (0.02,)

    def answer(self, number):
        if len(self.named) < self.answers and number not in self.named:
            self.named.add(number)
            self.path.rear.sendto(repair(97, len(self.named), self.ssrc, number, STRANGE), self.path.to)


def poisons(checks, stage, answers):
    """All is played but what he answered: that is his."""
    draw = random.Random()
    loss, rate = draw.choice((0.05, 0.1, 0.2)), draw.randrange(150, 400)
    contents, player, stranger = plain(4 * rate), End(stage), Stranger(draw, loss, answers)
    name = f"{answers} of a stranger, {rate} packets a second, {loss:.0%} lost"
    receiver = stage.receive(player.at, "--packets", len(contents), "--latency", 2000)
    path = stranger.path = Path(stage, receiver.at, stranger.rule)
    sender = stage.send(path.at, "--packets", len(contents))
    app = App(stage, sender.at)
    running = threading.Thread(target=app.stream, args=(contents, rate), daemon=True)
    running.start()
    ends(checks, name, sender, receiver)
    running.join()
    came = [one.content for one in player.packets()]
    checks.same(sum(one.payload == STRANGE.payload for one in came), answers, f"{name}: what came of his")
    lost = len(contents) - answers - sum(one in came for one in contents)
    checks.same(lost, 0, f"{name}: what the application sent and nobody answered for")


@on_time(0.2)
def once(checks, stage):
    poisons(checks, stage, 1)


@on_time(0.2)
def some_times(checks, stage):
    poisons(checks, stage, random.randrange(2, 6))


part(once, some_times)
