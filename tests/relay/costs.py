#!/usr/bin/env python3
"""What a relay costs beside socat, which forwards datagrams and does nothing else; and what both relays add to a packet's way.

    costs.py PROGRAM

The machine may be busy, so each number is the best of some tries."""
import pathlib
import shutil
import statistics
import subprocess
import time

from base import part, soon
from net import App, End, free_port, queued, udp
from rtp import packet, plain

MANY, RATE, TRIES = 10000, 5000, 3
MOST = 2  # times what socat takes
ADDED = 0.001  # seconds that both relays may add


def spent(pid):
    """The seconds of processor time that a program has used so far."""
    return sum(int((one / "schedstat").read_text().split()[0]) for one in pathlib.Path(f"/proc/{pid}/task").iterdir()) / 1e9


def each(stage, pid, to, far):
    """Microseconds of processor time that a packet of a thousand octets costs the program that takes it at an address."""
    app, tries = App(stage, to, number=0), []
    for _ in range(TRIES):
        at, was = len(far.came), spent(pid)
        app.stream(plain(MANY, 1000), RATE)
        far.waits_for(at + MANY, 10)
        came = len(far.came) - at
        tries.append((spent(pid) - was) * 1e6 / came if came >= MANY * 0.99 else 1e9)
    return min(tries)


def socat(stage):
    """What socat costs."""
    far, at = End(stage), ("127.0.0.1", free_port())
    words = ["socat", "-u", "-b", "2000", f"UDP4-RECV:{at[1]},bind=127.0.0.1", f"UDP4-SENDTO:127.0.0.1:{far.at[1]}"]
    program = subprocess.Popen(words)
    try:
        soon(lambda: any(f":{at[1]:04X} " in one for one in pathlib.Path("/proc/net/udp").read_text().splitlines()))
        return each(stage, program.pid, at, far)
    finally:
        program.kill()
        program.wait()


def processor(checks, stage):
    """The processor time of a packet."""
    if not shutil.which("socat"):
        print("skipped: there is no socat")
        return
    wanted, took = socat(stage), {}
    for side in ("send", "receive"):
        far = End(stage)
        relay = getattr(stage, side)(far.at, log=False)
        took[side] = each(stage, relay.run.pid, relay.at, far)
        checks.count(took[side] <= MOST * wanted, f"a packet costs {side} {took[side]:.1f} microseconds, and socat {wanted:.1f}")
    print(f"a packet costs send {took['send']:.1f}, receive {took['receive']:.1f} and socat {wanted:.1f} microseconds", flush=True)


def way(stage, to, player, first):
    """The median of the seconds that a packet takes from the application to the player."""
    app, took = App(stage, to, number=first), []
    for content in plain(500, 200):
        octets = packet(96, app.number, app.ssrc, content)
        began = time.perf_counter()
        app.raw(octets)
        player.recv(2048)
        took.append(time.perf_counter() - began)
        app.number = app.number + 1 & 65535
        time.sleep(0.002)
    return statistics.median(took)


def latency(checks, stage):
    """What both relays add to a packet's way where nothing is lost."""
    player, added = stage.keep(udp()), []
    player.settimeout(20)
    receiver = stage.receive(player.getsockname(), log=False)
    sender = stage.send(receiver.at, log=False)
    for i in range(TRIES):
        direct = way(stage, player.getsockname(), player, 0)
        added.append(way(stage, sender.at, player, 500 * i) - direct)
    print("both relays add", ", ".join(f"{one * 1e6:.0f}" for one in added), "microseconds", flush=True)
    checks.count(min(added) <= ADDED, f"both relays add {min(added) * 1e6:.0f} microseconds")
    checks.same(queued({receiver.at[1]})[1], 0, "datagrams that the system dropped")


if __name__ == "__main__":
    part(processor, latency, beside=False)
