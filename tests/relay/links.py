#!/usr/bin/env python3
"""What comes in time over a path that loses, by relays, by a program that calls the library for C as it is by default (header.c), by no relays,
and by librist and SRT where they are installed (ristsender and ristreceiver of Debian's rist-tools, main profile; srt-live-transmit of
srt-tools). The library is the archive that tools/archive or `rt lib` left.

    links.py PROGRAM

A stream of 208 packets a second (2 megabits, of 1200 octets) goes over a path with a round trip of 50 milliseconds and a latency of 200
behind that, or as a row says. A packet is in time that comes no later than 50 milliseconds after that, and than the queue of the path. It
fails where less comes in time by relays or in C than by no relays, than by librist or SRT (less two in a thousand, for the draws), or than a
floor of its own."""
import random
import shutil
import struct
import subprocess
import sys
import tempfile
import threading
import time
from pathlib import Path as File

from base import on_time, part
from net import App, End, Path, free_port, udp
from rtp import index, plain

RATE, SECONDS, DELAY, LATENCY, SLACK = 208, 14, 0.025, 0.2, 0.05
MANY, OUT = RATE * SECONDS, (4.0, 5.0)  # packets, and when an outage is, in seconds since the first one
RIST = [shutil.which("ristsender"), shutil.which("ristreceiver")]
SRT = shutil.which("srt-live-transmit")
QUEUE = 0.15  # seconds that what passes forth may wait at a link
ROOT = File(__file__).resolve().parents[2]
LIBRARY = ROOT / "crates/gozdrit/out/libgozdrit.a"
OURS = "relays", "C"


class Rule:
    """Loses what a seed draws: so much of what passes, in bursts of so many in the mean, both ways; and everything in an outage. What passes
    forth goes over a link of so many times the stream, if it is one, and is lost where its queue is full."""

    def __init__(self, seed, loss=0, burst=1, out=None, link=None):
        self.draw, self.loss, self.burst, self.out, self.began = random.Random(seed), loss, burst, out, None
        self.is_bad = {"forth": False, "back": False}
        self.rate, self.until = link and link * RATE * 1212, 0.0

    def __call__(self, way, octets):
        delays, now = self.drawn(way), time.monotonic()
        if self.rate is None or way == "back" or not delays:
            return delays
        self.until = max(self.until, now)
        if self.until - now > QUEUE:
            return ()
        self.until += len(octets) / self.rate
        return (DELAY + self.until - now,)

    def drawn(self, way):
        self.began = self.began or time.monotonic()
        if self.out and self.out[0] <= time.monotonic() - self.began < self.out[1]:
            return ()
        leaves = 1 / self.burst if self.is_bad[way] else 1 - self.loss / ((1 - self.loss) * self.burst)
        self.is_bad[way] = (self.draw.random() >= leaves) if self.burst > 1 else self.draw.random() < self.loss
        return () if self.is_bad[way] else (DELAY,)


def in_time(sent, came, latency, rule):
    """How many of those that were sent came in time, by number."""
    last = DELAY + latency + SLACK + (QUEUE if rule.rate else 0)
    return sum(1 for number, moment in sent.items() if number in came and came[number] - moment <= last)


def streamed(send, player, number_of):
    """Sends the stream, and gives when each packet was sent and when it came first."""
    sent, due = {}, time.monotonic()
    for number in range(MANY):
        due += 1 / RATE
        time.sleep(max(0, due - time.monotonic()))
        sent[number] = time.monotonic()
        send(number)
    time.sleep(2)
    came = {}
    for moment, _, octets in list(player.came):
        came.setdefault(number_of(octets), moment)
    return sent, came


def by_relays(stage, rule, latency):
    """How much comes in time by relays."""
    player, contents = End(stage), plain(MANY, 1200)
    receiver = stage.receive(player.at, "--latency", round(latency * 1000), log=False)
    path = Path(stage, receiver.at, rule)
    sender = stage.send(path.at, log=False)
    app = App(stage, sender.at, number=0)
    sent, came = streamed(lambda number: app.send(contents[number]), player, lambda octets: struct.unpack(">I", octets[12:16])[0])
    return in_time(sent, came, latency, rule)


def by_nothing(stage, rule, latency):
    """How much comes in time by no relays."""
    player, contents = End(stage), plain(MANY, 1200)
    path = Path(stage, player.at, rule)
    app = App(stage, path.at, number=0)
    sent, came = streamed(lambda number: app.send(contents[number]), player, lambda octets: struct.unpack(">I", octets[12:16])[0])
    return in_time(sent, came, latency, rule)


def by_c(stage, rule, latency):
    """How much comes in time by a program in C."""
    player, near, far = End(stage), free_port(), free_port()
    path = Path(stage, ("127.0.0.1", far), rule)
    runs = [subprocess.Popen([HEADER, "receive", str(far), str(player.at[1]), str(round(latency * 1000))]),
            subprocess.Popen([HEADER, "send", str(near), str(path.at[1])])]
    time.sleep(1)
    app, contents = App(stage, ("127.0.0.1", near), number=0), plain(MANY, 1200)
    sent, came = streamed(lambda number: app.send(contents[number]), player, lambda octets: struct.unpack(">I", octets[12:16])[0])
    for one in runs:
        one.kill()
        one.wait()
    return in_time(sent, came, latency, rule)


def by_librist(stage, rule, latency):
    """How much comes in time by librist."""
    player, near, far = End(stage), free_port(), free_port()
    path = Path(stage, ("127.0.0.1", far), rule)
    common = ["-p", "1", "-b", str(round(latency * 1000)), "-v", "3"]
    runs = [subprocess.Popen([RIST[1], *common, "-i", f"rist://@127.0.0.1:{far}", "-o", f"udp://127.0.0.1:{player.at[1]}"],
                             stdout=subprocess.DEVNULL, stderr=subprocess.DEVNULL),
            subprocess.Popen([RIST[0], *common, "-i", f"udp://@127.0.0.1:{near}", "-o", f"rist://127.0.0.1:{path.at[1]}"],
                             stdout=subprocess.DEVNULL, stderr=subprocess.DEVNULL)]
    time.sleep(2)
    app = stage.keep(udp())
    rule.began = None
    sent, came = streamed(lambda number: app.sendto(struct.pack(">I", number) + bytes(1196), ("127.0.0.1", near)), player,
                          lambda octets: struct.unpack(">I", octets[:4])[0])
    for one in runs:
        one.kill()
        one.wait()
    return in_time(sent, came, latency, rule)


def by_srt(stage, rule, latency):
    """How much comes in time by SRT."""
    player, near, far = End(stage), free_port(), free_port()
    path = Path(stage, ("127.0.0.1", far), rule)
    option = f"latency={round(latency * 1000)}"
    runs = [subprocess.Popen([SRT, "-q", f"srt://:{far}?mode=listener&{option}", f"udp://127.0.0.1:{player.at[1]}"],
                             stdout=subprocess.DEVNULL, stderr=subprocess.DEVNULL),
            subprocess.Popen([SRT, "-q", f"udp://:{near}", f"srt://127.0.0.1:{path.at[1]}?mode=caller&{option}"],
                             stdout=subprocess.DEVNULL, stderr=subprocess.DEVNULL)]
    time.sleep(2)
    app = stage.keep(udp())
    rule.began = None
    sent, came = streamed(lambda number: app.sendto(struct.pack(">I", number) + bytes(1196), ("127.0.0.1", near)), player,
                          lambda octets: struct.unpack(">I", octets[:4])[0])
    for one in runs:
        one.kill()
        one.wait()
    return in_time(sent, came, latency, rule)


def beside(stage, seed, latency, **rule):
    """How much comes in time by each of them, over paths of their own with the same draws."""
    ways = {"relays": by_relays, **({"C": by_c} if HEADER else {}), "nothing": by_nothing, **({"librist": by_librist} if all(RIST) else {}), **({"SRT": by_srt} if SRT else {})}
    came = dict.fromkeys(ways, 0)

    def one(way):
        came[way] = ways[way](stage, Rule(seed, **rule), latency)

    threads = [threading.Thread(target=one, args=(way,)) for way in ways]
    for thread in threads:
        thread.start()
    for thread in threads:
        thread.join()
    return came


def faults(came, floor):
    """What is wrong with a row."""
    return [f"{who}: {what}" for who in OURS if who in came for what, bad in (
        (f"below {floor}", came[who] < floor), ("no better than nothing", came[who] <= came["nothing"]),
        *((f"worse than {way}", came[who] < came.get(way, 0) - MANY * 0.002) for way in ("librist", "SRT"))) if bad]


def row(checks, stage, name, floor, latency=LATENCY, **rule):
    """One path. A machine that halts for some milliseconds loses more than the path does."""
    came = beside(stage, 7, latency, **rule)
    print(f"{name}: in time of {MANY}: " + ", ".join(f"{way} {many}" for way, many in came.items()), flush=True)
    checks.same(faults(came, floor * MANY), [], f"{name}: {came}")
    for way, is_there in (("librist", all(RIST)), ("SRT", SRT), ("the library for C", HEADER)):
        if not is_there:
            print(f"{name}: {way} is not installed: not beside it", flush=True)


@on_time(0.02)
def one_in_ten(checks, stage):
    row(checks, stage, "10 % lost", 0.995, loss=0.1)


@on_time(0.02)
def two_in_ten(checks, stage):
    row(checks, stage, "20 % lost", 0.985, loss=0.2)


@on_time(0.02)
def bursts(checks, stage):
    row(checks, stage, "5 % lost in bursts of 20", 0.97, loss=0.05, burst=20)


@on_time(0.02)
def outage(checks, stage):
    """What was sent in all but the last 200 milliseconds of it can't be in time."""
    row(checks, stage, "2 % lost and a second's outage", 1 - 0.92 / SECONDS, loss=0.02, out=OUT)


@on_time(0.02)
def thin(checks, stage):
    """A link of 1.1 of the stream, whose queue takes what an outage of three tenths of a second left, but for a tenth."""
    row(checks, stage, "a thin link, and an outage of 0.3 s", 0.98, latency=1.0, link=1.1, out=(4.0, 4.3))


def built(room):
    """The program in C, or None without the library."""
    if subprocess.run([ROOT / "tools/need", "rt", "cc"]).returncode:
        sys.exit(2)
    kit = File(subprocess.run(["rt", "doc"], stdout=subprocess.PIPE, text=True, check=True).stdout.strip()).parent
    if not LIBRARY.is_file():
        return None
    subprocess.run(["cc", "-std=c99", "-O2", "-I", ROOT / "include", File(__file__).parent / "header.c", LIBRARY, kit / "c/liblibc_c.a", "-o", f"{room}/header"],
                   check=True)
    return f"{room}/header"


if __name__ == "__main__":
    ROOM = tempfile.TemporaryDirectory()  # goes with the program
    HEADER = built(ROOM.name)
    part(one_in_ten, two_in_ten, bursts, outage, thin, beside=False)
