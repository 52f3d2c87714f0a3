#!/usr/bin/env python3
"""A call between two programs of examples/c/call.c, sound and a picture both ways over one port, of which datagrams are lost: what the
encoders of one side send the players of the other get, each packet under its own type.

    call.py PROGRAM"""
import pathlib
import random
import subprocess
import sys
import threading

sys.dont_write_bytecode = True
sys.path.insert(0, str(pathlib.Path(__file__).resolve().parents[1] / "relay"))
from base import on_time, part, soon  # noqa: E402
from net import App, End, free_ports  # noqa: E402
from rtp import drawn, plain  # noqa: E402

SECONDS = 20  # that a call lasts: the encoders take seven where the machine lets them
SEEDS = {"a": 71, "b": 202}  # of the losses: none of the first packets, nor three datagrams in a row where a stream ends
TYPES = ((111, 101, 13), (96,))  # of sound, and of the picture


def free_port_is(port):
    """Whether nobody has a port."""
    return f":{port:04X} " not in pathlib.Path("/proc/net/udp").read_text()


def drawn_types(kind, ssrc, contents):
    """Contents, each under one of a stream's types."""
    draw = random.Random(ssrc)
    return [(draw.choice(TYPES[kind]), one) for one in contents]


def encode(stage, port, ssrc, packets, rate):
    """An encoder sends packets, so many a second."""
    app = App(stage, ("127.0.0.1", port), ssrc=ssrc, number=0)
    for kind, content in packets:
        app.kind = kind
        app.stream([content], rate)


def talk(checks, stage, loss):
    """Two ends talk while so many of 1000 datagrams are lost each way: each packet comes, and as it was sent."""
    name, sides = f"{loss} of 1000 lost", (("a", "b"), ("b", "a"))
    network, encoders, players = ({side: free_ports(count) for side in "ab"} for count in (1, 2, 2))
    ends = {(side, kind): End(stage, port=players[side] + kind) for side in "ab" for kind in (0, 1)}
    running = [subprocess.Popen([stage.program, side, str(network[side]), "127.0.0.1", str(network[other]), str(encoders[side]), str(players[side]),
                                 "--loss", str(loss), "--seed", str(SEEDS[side]), "--seconds", str(SECONDS)], stdout=subprocess.PIPE, text=True)
               for side, other in sides]
    soon(lambda: not any(free_port_is(encoders[side] + 1) for side in "ab"))
    sound, picture = plain(350, 120), [one for one in drawn(20, 900, 900) if len(one.payload) < 1150][:800]
    sent, threads = {}, []
    for side in "ab":
        for kind, (contents, rate) in enumerate(((sound, 50), (picture, 120))):
            ssrc = 16 * ord(side) + kind
            sent[side, kind] = drawn_types(kind, ssrc, contents)
            threads.append(threading.Thread(target=encode, args=(stage, encoders[side] + kind, ssrc, sent[side, kind], rate)))
    for one in threads:
        one.start()
    for one in threads:
        one.join()
    told = [one.communicate()[0] for one in running]
    checks.same([one.returncode for one in running], [0, 0], f"{name}: how both ended")
    for side, other in sides:
        for kind in (0, 1):
            wanted, came = sent[side, kind], [(one.kind, one.content) for one in ends[other, kind].packets()]
            lacks = [at for at, one in enumerate(wanted) if one not in came]
            checks.count(came == wanted, f"{name}: {len(came)} of {len(wanted)} came of stream {kind} of {side}, without {lacks[:9]}: {told}")
    checks.count(loss == 0 or not any("retransmissions 0 " in one for one in told), f"{name}: {told}")


@on_time(0.1)
def all_come(checks, stage):
    talk(checks, stage, 0)


@on_time(0.1)
def one_in_twenty_is_lost(checks, stage):
    talk(checks, stage, 50)


@on_time(0.1)
def three_in_twenty_are_lost(checks, stage):
    talk(checks, stage, 150)


if __name__ == "__main__":
    part(all_come, one_in_twenty_is_lost, three_in_twenty_are_lost)
