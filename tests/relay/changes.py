#!/usr/bin/env python3
"""What a client changes of a relay that runs: where what leaves goes, and who may send a stream.

    changes.py PROGRAM"""
import json
import random
import re
import signal
import time

from base import address, ends, on_time, part, soon
from control import asks, ctl, dial
from net import App, End, Path
from rtp import nack, packet, plain

MANY, RATE = 300, 500


def done(checks, stage, path, request, word):
    """Asks by the program's own client for what has to be done."""
    checks.same(ctl(stage, path, word, request), (0, word + "\n", ""), f"ctl {word} {request}")


@on_time(0.1)
def players(checks, stage):
    """A stream goes on at another player, and at a third one, under its SSRC and its numbers, without a packet that is lost or comes twice."""
    for host in "127.0.0.1", "::1":
        path, ends_of = stage.room / "one.sock", [End(stage, host) for _ in range(3)]
        receiver = stage.receive(ends_of[0].at, "--control", path, "--loss", 100, "--latency", 4000)
        sender = stage.send(receiver.at, "--loss", 100)
        app = App(stage, sender.at, number=0)
        for at, player in enumerate(ends_of):
            if at:
                done(checks, stage, path, address(*player.at), "to")
            app.stream(plain(MANY, first=at * MANY), RATE)
            soon(lambda: sum(len(one.came) for one in ends_of) == (at + 1) * MANY)
        came = [one for player in ends_of for one in player.packets()]
        checks.same([one.content for one in came], plain(3 * MANY), f"{host}: what came at all of them")
        checks.same([(one.ssrc, one.number) for one in came], [(app.ssrc, at) for at in range(3 * MANY)], f"{host}: SSRC and numbers")
        checks.count(all(player.came for player in ends_of), f"{host}: {[len(player.came) for player in ends_of]} came")
        checks.same(receiver.errors().count("sending to "), 3, f"{host}: lines that say where")
        told = [f"sending to {address(*player.at)}\n" in receiver.errors() for player in ends_of[1:]]
        checks.same(told, [True, True], f"{host}: where it went")
        checks.same(json.loads(asks(stage, path, b"stats\n"))["played"], 3 * MANY, f"{host}: played")
        asks(stage, path, b"stop\n")
        ends(checks, f"{host}: players", receiver)
        sender.stop()


@on_time(0.1)
def far_sides(checks, stage):
    """A stream goes on to another far side, which is answered, and the one before is a stranger then; and back."""
    path, first, second = stage.room / "one.sock", End(stage), End(stage)
    sender = stage.send(first.at, "--control", path)
    app = App(stage, sender.at, number=0)
    own = 0x1a2b3c4d
    for turn, (far, other) in enumerate([(first, second), (second, first), (first, second)]):
        if turn:
            done(checks, stage, path, address(*far.at), "to")
        before, elsewhere = len(far.came), len(other.came)
        app.stream(plain(20, first=20 * turn), RATE)
        far.waits_for(before + 20)
        back = far.came[-1][1]
        wanted = nack(own, [20 * turn + 3])
        strays = json.loads(asks(stage, path, b"stats\n"))["stray"]
        other.send(nack(own, [20 * turn + 5]), back)
        soon(lambda: json.loads(asks(stage, path, b"stats\n"))["stray"] == strays + 1)
        far.send(wanted, back)
        soon(lambda: any(one and one.ssrc == own + 1 and one.content.payload[:2] == (20 * turn + 3).to_bytes(2, "big") for one in far.packets()))
        repaired = {int.from_bytes(one.content.payload[:2], "big") for one in far.packets()[before:] if one.ssrc == own + 1}
        checks.count(20 * turn + 3 in repaired and 20 * turn + 5 not in repaired, f"turn {turn}: retransmitted {repaired}")
        checks.same([one.number for one in far.packets()[before:] if one.ssrc == own], list(range(20 * turn, 20 * turn + 20)), f"turn {turn}: sent")
        checks.same(len(other.came), elsewhere, f"turn {turn}: what came elsewhere")
    asks(stage, path, b"stop\n")
    ends(checks, "far sides", sender)


@on_time(0.1)
def relays(checks, stage):
    """A pair whose receiving relay moves to another machine: `to` at the sending one, and a stream of one in ten lost is repaired there too, from
    the first packet on that comes there."""
    path, player, draw = stage.room / "one.sock", End(stage), random.Random(7)
    relays = [stage.receive(player.at, "--loss", 100, "--latency", 4000) for _ in range(2)]
    # A session begins with its first packet, and what tells of the last one may be lost too.
    ends_of = [at.to_bytes(2, "big") for at in (0, MANY - 1, MANY, 2 * MANY - 1)]
    ways = [Path(stage, relay.at, lambda way, octets: () if draw.random() < 0.1 and octets[2:4] not in ends_of else (0,)) for relay in relays]
    sender = stage.send(ways[0].at, "--control", path)
    app = App(stage, sender.at, number=0)
    app.stream(plain(MANY), RATE)
    player.waits_for(MANY)
    done(checks, stage, path, f"localhost:{ways[1].at[1]}", "to")
    app.stream(plain(MANY, first=MANY), RATE)
    player.waits_for(2 * MANY)
    checks.same([came.content for came in player.packets()], plain(2 * MANY), "what came of both")
    for relay in sender, *relays:
        relay.stop()


def refused(checks, stage):
    """What can't be sent to is refused, as is what lists no peers, and changes nothing."""
    path, player = stage.room / "one.sock", End(stage)
    relay = stage.receive(player.at, "--control", path)
    for word in ("", "nowhere", "127.0.0.1", "127.0.0.1:0", "127.0.0.1:65536", "[::1]:5004", address(*relay.at), " 127.0.0.1:9", "127.0.0.1:9 ", "localhost:9", "\xe4:9"):
        shown = re.sub(r"[^ -~]", "??", f"to {word}")
        checks.same(asks(stage, path, f"to {word}\n".encode()), f"fault request: {shown} says no address that can be sent to\n", f"to {word!r}")
    for word in ("", "nowhere", "127.0.0.1,", ",127.0.0.1", "127.0.0.1/33", "::1/129", "127.0.0.1:65536", "[::1", "any,127.0.0.1", " any", "localhost"):
        checks.same(asks(stage, path, f"peer {word}\n".encode()), f"fault request: peer {word} lists no peers by their addresses\n", f"peer {word!r}")
    for line in "to", "peer", "To 127.0.0.1:9", "peers any":
        checks.same(asks(stage, path, f"{line}\n".encode()), f"fault request: {line} is none of stats, to, peer, reopen and stop\n", line)
    checks.same(ctl(stage, path, "to", "[::1]:9"), (1, "fault request: to [::1]:9 says no address that can be sent to\n", ""), "ctl to of the other family")
    checks.same(ctl(stage, path, "to", "nowhere"), (3, "", "can't find nowhere\n"), "ctl to nowhere")
    checks.same(ctl(stage, path, "peer", "127.0.0.1/33"), (1, "fault request: peer 127.0.0.1/33 lists no peers by their addresses\n", ""), "ctl peer")
    App(stage, relay.at, number=0).send(plain(1)[0])
    checks.count(player.waits_for(1) and relay.errors().count("sending to ") == 1, f"what was refused changed something: {relay.errors()}")
    asks(stage, path, b"stop\n")
    ends(checks, "refused", relay)


@on_time(0.2)
def peers(checks, stage):
    """Who may send is another one from a request on: a session goes on where its sender may, is turned away where it may not, and `any` ends that."""
    path, player = stage.room / "one.sock", End(stage)
    relay = stage.receive(player.at, "--control", path, "--peer", "127.0.0.0/8")
    app = App(stage, relay.at, number=0)
    own = address(*app.at.getsockname()[:2])
    for at, (request, may) in enumerate((("127.0.0.1,192.0.2.0/24", True), ("192.0.2.1", False), (own, True), ("127.0.0.1:9", False), ("::1,localhost", True),
                                         ("::/0", True), ("127.0.0.2", False), ("any", True))):
        if request:
            done(checks, stage, path, request, "peer")
        before, strays = len(player.came), json.loads(asks(stage, path, b"stats\n"))["stray"]
        app.stream(plain(20, first=20 * at), RATE)
        if may:
            checks.count(soon(lambda: len(player.came) == before + 20, 5), f"{request}: {len(player.came) - before} came")
        else:
            soon(lambda: json.loads(asks(stage, path, b"stats\n"))["stray"] == strays + 20)
            checks.same((len(player.came) - before, json.loads(asks(stage, path, b"stats\n"))["stray"] - strays), (0, 20), request)
            app.number -= 20  # so that nothing is missing behind it
        checks.count(relay.run.poll() is None, f"{request}: it ended")
    asks(stage, path, b"stop\n")
    ends(checks, "peers", relay)


@on_time(0.1)
def in_mid_stream(checks, stage):
    """Forty changes beside a stream that loses a tenth both ways cost it nothing, and a bound ends it as before."""
    path, player, many = stage.room / "one.sock", End(stage), 2000
    receiver = stage.receive(player.at, "--control", path, "--latency", 4000, "--loss", 100, "--packets", many)
    way = Path(stage, receiver.at)
    sender = stage.send(way.at, "--loss", 100)
    app = App(stage, sender.at, number=0)
    for at in range(40):
        app.stream(plain(many // 40, first=at * many // 40), RATE)
        checks.same(asks(stage, path, (b"peer any\n", b"peer 127.0.0.1\n", b"to %s\n" % address(*player.at).encode())[at % 3]), ("peer\n", "peer\n", "to\n")[at % 3], f"change {at}")
    player.waits_for(many)
    checks.same([one.content for one in player.packets()], plain(many), "what came beside forty changes")
    ends(checks, "forty changes", receiver)
    checks.same((receiver.counts().get("gaps"), receiver.counts().get("restarts")), (0, 0), "gaps and restarts")
    sender.stop()


@on_time(0.1)
def who_is_gone(checks, stage):
    """What a client asked for is done though it is gone before it hears so, and stop goes before all else."""
    path, player, other = stage.room / "one.sock", End(stage), End(stage)
    relay = stage.receive(player.at, "--control", path)
    gone = dial(stage, path)
    gone.sendall(b"to %s\n" % address(*other.at).encode())
    gone.close()
    soon(lambda: f"sending to {address(*other.at)}\n" in relay.errors())
    App(stage, relay.at, number=0).send(plain(1)[0])
    checks.count(other.waits_for(1) and not player.came, "what who is gone asked for")
    relay.freeze()
    asking = [dial(stage, path) for _ in range(2)]
    asking[0].sendall(b"peer 192.0.2.1\n")
    asking[1].sendall(b"stop\n")
    time.sleep(0.1)
    relay.run.send_signal(signal.SIGCONT)
    ends(checks, "stop beside peer", relay)


if __name__ == "__main__":
    part(players, far_sides, relays, refused, peers, in_mid_stream, who_is_gone)
