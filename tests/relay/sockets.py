#!/usr/bin/env python3
"""How much the system keeps for a relay's sockets, and what it does not take of what leaves.

    sockets.py PROGRAM"""
import concurrent.futures
import ctypes
import os
import pathlib
import re
import shutil
import socket
import subprocess
import time

from base import ends, on_time, part, soon
from net import App, End, queued, udp
from rtp import packet, plain

LIMITS = [int(pathlib.Path(f"/proc/sys/net/core/{one}").read_text()) for one in ("rmem_max", "wmem_max")]
MANY = 300  # datagrams of a thousand octets: more than three times as many as 212,992 octets have room for, by the system's books
NEW_NET = 0x40000000  # CLONE_NEWNET of unshare(2)


def kept(checks, stage):
    """What comes while a relay can't read it is kept, as far as was asked for and the system grants it."""
    for words, most in (((), LIMITS[0]), (("--socket-buffer", "16KiB"), 16384)):
        if LIMITS[0] < 1048576:
            print(f"skipped: net.core.rmem_max is {LIMITS[0]}")
            return
        for side in ("send", "receive"):
            relay = getattr(stage, side)(End(stage).at, *words, log=False)
            relay.freeze()
            app, name = udp(), f"{side} {words}"
            for at in range(MANY):
                app.sendto(packet(96, at, 7, plain(1, 1000)[0]), relay.at)
            dropped = queued({relay.at[1]})[1]
            app.close()
            checks.count(dropped == 0 if most > 1048576 else dropped > MANY - 40, f"{name}: {dropped} of {MANY} were dropped at its socket")
            relay.stop()


def told(checks, stage):
    """Where the system keeps less than is asked for it is told, with how to have more, and else it is not."""
    relay = stage.receive(("127.0.0.1", 9), "--socket-buffer", "1073741824", "--seconds", 1)
    relay.status()
    text = "the system keeps {} octets of what comes and {} of what leaves, where 1073741824 are wanted: raise net.core.rmem_max and net.core.wmem_max"
    checks.same(relay.errors().splitlines()[1], text.format(*LIMITS), "asked for too much")
    relay = stage.receive(("127.0.0.1", 9), "--socket-buffer", "65536", "--seconds", 1)
    relay.status()
    checks.count("the system keeps" not in relay.errors(), f"asked for little: {relay.errors()}")


def forbidden(checks, stage):
    """Nothing may be sent to all addresses: each packet is counted as failed, and told once with the system's reason."""
    sender = stage.send(("255.255.255.255", 9), "--packets", 5)
    app = App(stage, sender.at, number=0)
    for one in plain(5):
        app.send(one)
    ends(checks, "forbidden", sender)
    counts = sender.counts()
    wanted = counts.get("sent", 0) + counts.get("retransmitted", 0)
    checks.same((counts.get("failed"), counts.get("unreachable")), (wanted, 0), "forbidden: failed and unreachable")
    lines = [one for one in sender.lines() if one.startswith("could not send")]
    checks.same(lines, ["could not send 1, the last one to 255.255.255.255:9: Permission denied (os error 13)"], "forbidden: told")


def apart(play):
    """Plays something in a network namespace of its own, by a thread of its own; False where none can be had."""
    def run():
        if ctypes.CDLL(None).unshare(NEW_NET) or subprocess.run(["ip", "link", "set", "lo", "up"], check=False).returncode:
            return False
        play()
        return True
    with concurrent.futures.ThreadPoolExecutor(1) as pool:
        return pool.submit(run).result()


def without_way(checks, stage):
    """Where no way leads to the far side each packet is counted as unreachable, and told once; where there is a way again, no more are."""
    def play():
        sender = stage.send(("192.0.2.1", 9), "--packets", 40)
        app = App(stage, sender.at, number=0)
        for one in plain(20):
            app.send(one)
        soon(lambda: len(sender.logged("repair")) == 1)
        subprocess.run(["ip", "route", "add", "192.0.2.0/24", "dev", "lo"], check=True)
        for one in plain(20, first=20):
            app.send(one)
        ends(checks, "without a way", sender)
        counts = sender.counts()
        checks.same((counts.get("unreachable"), counts.get("failed")), (21, 0), "without a way: unreachable and failed")
        lines = [one for one in sender.lines() if one.startswith("could not send")]
        checks.same(lines, ["could not send 1, the last one to 192.0.2.1:9: Network is unreachable (os error 101)"], "without a way: told")
    if os.geteuid() or not shutil.which("ip") or not apart(play):
        print("skipped: no network namespace can be had")


def slow(checks, stage):
    """Where the interface takes less than is sent, what finds no room is counted as full, and told with the system's reason."""
    def play():
        shape = "dev", "lo", "root", "tbf", "burst", "3000", "limit", "1000000", "rate"
        if subprocess.run(["tc", "qdisc", "add", *shape, "80kbit"], check=False, capture_output=True).returncode:
            print("skipped: no interface can be made slow")
            return
        sender = stage.send(("127.0.0.1", 9), "--seconds", 6, "--socket-buffer", 4096)
        app = App(stage, sender.at, number=0)
        for one in plain(20, 1000):
            app.send(one)
        subprocess.run(["tc", "qdisc", "change", *shape, "800kbit"], check=True)
        for one in plain(60, 1000, first=20):
            app.send(one)
            time.sleep(0.01)
        ends(checks, "a slow interface", sender)
        counts = sender.counts()
        checks.count(counts.get("full", 0) > 0 and counts.get("failed") == 0, f"a slow interface: {counts}")
        lines = [one for one in sender.lines() if re.fullmatch(r"could not send \d+, the last one to 127.0.0.1:9: Resource temporarily unavailable .*", one)]
        checks.count(lines, f"a slow interface: {sender.lines()}")
    if os.geteuid() or not shutil.which("tc") or not apart(play):
        print("skipped: no network namespace can be had")


@on_time(0.05)
def later(checks, stage):
    """What finds no room at the moment leaves a little later, in its order: bursts that are longer than the system's room for a socket, each let
    go before the next one."""
    def play():
        shape = "dev", "lo", "root", "tbf", "burst", "3000", "limit", "1000000", "rate", "16mbit"
        if subprocess.run(["tc", "qdisc", "add", *shape], check=False, capture_output=True).returncode:
            print("skipped: no interface can be made slow")
            return
        for side in ("send", "receive"):
            far = End(stage)
            # Where it listens there is room for all.
            words = "--socket-buffer", 4096, "--packets", 160, *(("--rate", 0) if side == "send" else ())
            relay = getattr(stage, side)(far.at, *words, listen="fd:3", handed=stage.keep(udp()))
            app = App(stage, relay.at, number=0)
            app.at.setsockopt(socket.SOL_SOCKET, socket.SO_SNDBUF, 400000)
            for first in range(0, 160, 40):
                for one in plain(40, 1000, first=first):
                    app.send(one)
                time.sleep(0.3)
            ends(checks, f"later: {side}", relay)
            numbers = [one.number for one in far.packets() if one.ssrc == app.ssrc]
            counts = relay.counts()
            checks.same((numbers, counts.get("full"), counts.get("failed")), (list(range(160)), 0, 0), f"later: {side}: what came, full and failed")
    if os.geteuid() or not shutil.which("tc") or not apart(play):
        print("skipped: no network namespace can be had")


if __name__ == "__main__":
    part(kept, told, forbidden, without_way, slow, later)
