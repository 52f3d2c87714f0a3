#!/usr/bin/env python3
"""The far side's address changes in mid-stream, as where a NAT binds anew: the session goes on. Nobody else takes it so.

    moving.py PROGRAM"""
import random
import threading
import time

from base import ends, on_time, part, soon
from net import App, End, Path, udp
from restarts import goes_on
from rtp import Content, packet, plain

STEP = 300  # packets, and as many a second


@on_time(0.2)
def moves(checks, stage, pause=0.0, step=STEP, rate=STEP):
    """The port changes twice. What came before four packets in sequence and a silence of the old one showed it is asked for at the new one."""
    name, player, contents = f"another port after {pause} seconds, {rate} packets a second", End(stage), plain(3 * step)
    receiver = stage.receive(player.at, "--packets", len(contents), "--latency", 3000)
    path = Path(stage, receiver.at)
    sender = stage.send(path.at, "--packets", len(contents))
    app = App(stage, sender.at, number=65400)
    for i in range(3):
        if i:
            time.sleep(pause)
            path.rebind()
        app.stream(contents[i * step:(i + 1) * step], rate)
    checks.count(player.waits_for(len(contents)), f"{name}: {len(player.came)} of {len(contents)} packets came")
    ends(checks, name, sender, receiver)
    checks.count([one.content for one in player.packets()] == contents, f"{name}: the contents")
    goes_on(checks, name, player.packets(), app.ssrc)
    counts = receiver.counts()
    checks.same({one: counts.get(one) for one in ("moved", "restarts", "gaps")}, {"moved": 2, "restarts": 0, "gaps": 0}, f"{name}: counts")
    checks.same((len(receiver.logged("session")), len(receiver.logged("moved"))), (1, 2), f"{name}: sessions and moves in the log")
    told = [line for line in receiver.errors().splitlines() if line.startswith("moved to 127.0.0.1:")]
    checks.same(len(told), 2, f"{name}: the lines on standard error")


@on_time(0.2)
def paused(checks, stage):
    """The same where the application has paused for longer than the second after which another session may begin."""
    moves(checks, stage, 1.3)


@on_time(0.2)
def slowly(checks, stage):
    """The same with so few packets a second that a tenth of a second without any is no silence."""
    moves(checks, stage, step=14, rate=random.choice((5, 8)))


class Copier:
    """Somebody who knows a stream, and sends its next packets before it does, from another address."""

    def __init__(self, stage, app, gap):
        self.app, self.gap, self.socket, self.open = app, gap, stage.keep(udp()), True
        self.thread = threading.Thread(target=self.copy, daemon=True)
        self.thread.start()

    def copy(self):
        while self.open:
            for ahead in range(6):
                number = self.app.number + ahead & 65535
                self.socket.sendto(packet(self.app.kind, number, self.app.ssrc, Content(0, 0, b"strange")), self.app.to)
                time.sleep(self.gap / 7)

    def end(self):
        self.open = False
        self.thread.join()


@on_time(0.2)
def copied(checks, stage):
    """Between two packets of a slow stream somebody else goes on with it from another address, as soon as it is a stream (ten packets and one),
    and not one of his is played."""
    gap, player, contents = random.choice((0.11, 0.15, 0.2, 0.24)), End(stage), plain(40)
    receiver = stage.receive(player.at)
    app = App(stage, receiver.at)
    for content in contents[:11]:
        app.send(content)
        time.sleep(gap)
    copier = Copier(stage, app, gap)
    for content in contents[11:]:
        app.send(content)
        time.sleep(gap)
    soon(lambda: len(player.came) >= len(contents), 5)
    copier.end()
    came = [one.content for one in player.packets()]
    checks.same((sum(one in came for one in contents), len(came)), (len(contents), len(contents)),
                f"a packet each {gap} seconds beside a copier: of its own, and in all")
    checks.same(receiver.logged("moved"), [], f"a packet each {gap} seconds beside a copier: moves")


if __name__ == "__main__":
    part(moves, paused, slowly, copied)
