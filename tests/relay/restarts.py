#!/usr/bin/env python3
"""The application, the relay before the network and the one behind it each start anew: the player sees one stream go on.

    restarts.py PROGRAM"""
import threading
import time

from base import ends, on_time, part, soon
from net import App, End, Path
from rtp import index, parse, plain

PAUSE = 1.4  # longer than the second for which a stream has to be silent


def goes_on(checks, name, came, ssrc, kind=96, hole=(0, 0)):
    """One SSRC, one type, and numbers without holes, or with one of so many behind so many packets."""
    numbers, (behind, many) = [one.number for one in came], hole
    wanted = [numbers[0] + i + (many if i >= behind else 0) & 65535 for i in range(len(came))]
    checks.count(numbers == wanted, f"{name}: the numbers have no other holes: {numbers[:3]}, {numbers[behind - 1:behind + 2]}")
    checks.same({(one.ssrc, one.kind) for one in came}, {(ssrc, kind)}, f"{name}: SSRCs and types at the player")


def application(checks, stage):
    """The application comes back with another SSRC, numbers and timestamps."""
    name, player = "another application", End(stage)
    sender, receiver = stage.pair(player, "--packets", 600)
    contents = plain(300), plain(300, first=300, step=77777)
    App(stage, sender.at, ssrc=0x11111111, number=65500).stream(contents[0], 2000)
    time.sleep(PAUSE)
    App(stage, sender.at, ssrc=0x99999999, number=17).stream(contents[1], 2000)
    checks.count(player.waits_for(600), f"{name}: {len(player.came)} packets came")
    ends(checks, name, sender, receiver)
    came = player.packets()
    checks.count([one.content for one in came] == contents[0] + contents[1], f"{name}: the contents")
    goes_on(checks, name, came, 0x11111111)
    checks.same([sender.counts().get(one) for one in ("sent", "unsent")], [600, 0], f"{name}: sent and unsent")
    checks.same(len(sender.logged("session")), 1, f"{name}: sessions of the sending relay")


@on_time(0.1)
def foreign(checks, stage):
    """Packets of another SSRC are not sent until the stream was silent for a second; then they are."""
    name, far = "another SSRC", End(stage)
    sender = stage.send(far.at, "--packets", 150)
    one, other = App(stage, sender.at, ssrc=1), App(stage, sender.at, ssrc=2)
    other_sent = []
    for i in range(340):
        if i < 100:
            one.send(plain(1, first=i)[0])
            silent = time.monotonic()
        other.send(plain(1, first=1000 + i)[0])
        other_sent.append(time.monotonic() - silent)
        time.sleep(0.01)
    ends(checks, name, sender)
    came = {index(packet) for packet in far.packets() if packet.ssrc == 1}
    checks.count(set(range(100)) <= came, f"{name}: the stream itself is sent")
    early = [i for i, after in enumerate(other_sent) if after < 0.8 and 1000 + i in came]
    late = [i for i, after in enumerate(other_sent) if after > 1.6 and 1000 + i not in came]
    checks.same((early[:3], late[:3]), ([], []), f"{name}: sent too early, and not sent at last")
    checks.count(any(after > 1.6 for after in other_sent), f"{name}: nothing was sent late enough")
    counts = sender.counts()
    checks.same((counts.get("sent", 0) + counts.get("unsent", 0), counts.get("sent")), (440, len(came)), f"{name}: {counts}")
    checks.same(len(sender.logged("unsent")), counts.get("unsent"), f"{name}: unsent in the log")


def sending(checks, stage):
    """The sending relay is killed and started anew, at another address, in an application's pause."""
    name, player = "another sending relay", End(stage)
    sender, receiver = stage.pair(player, "--packets", 400)
    contents = plain(400)
    app = App(stage, sender.at, number=500)
    app.stream(contents[:200], 1000)
    checks.count(player.waits_for(200), f"{name}: {len(player.came)} packets came before")
    checks.same(sender.stop(), -9, f"{name}: how it ended")
    time.sleep(PAUSE)
    again = stage.send(receiver.at, "--packets", 200)
    fresh = App(stage, again.at, ssrc=0xabcdef01, number=3)
    fresh.stream(contents[200:], 1000)
    checks.count(player.waits_for(400), f"{name}: {len(player.came)} packets came")
    ends(checks, name, again, receiver)
    checks.count([one.content for one in player.packets()] == contents, f"{name}: the contents")
    goes_on(checks, name, player.packets(), app.ssrc)
    sessions = [one[1] for one in receiver.logged("session")]
    checks.same(sessions, ["1a2b3c4d", "abcdef01"], f"{name}: sessions in the receiving relay's log")
    checks.count(receiver.errors().count("\nsession ") == 2, f"{name}: sessions that it tells: {receiver.errors()!r}")


@on_time(0.05)
def running(checks, stage):
    """The sending relay is killed and started anew at once, at another port, while the application goes on: so does the session, and
    what nobody sent is given up."""
    name, player = "a sending relay anew", End(stage)
    sender, receiver = stage.pair(player, receive=("--seconds", 25))
    app = App(stage, sender.at, number=65400)
    stop = threading.Event()

    def speak():
        for content in plain(100000):
            if stop.is_set():
                return
            app.send(content)
            time.sleep(0.004)

    speaker = threading.Thread(target=speak)
    speaker.start()
    checks.count(player.waits_for(100), f"{name}: {len(player.came)} packets came before")
    sender.stop()
    time.sleep(0.1)
    before = len(player.came)
    again = stage.send(receiver.at, listen=f"127.0.0.1:{sender.at[1]}")
    checks.count(player.waits_for(before + 200), f"{name}: {len(player.came) - before} packets came afterwards")
    stop.set()
    speaker.join()
    again.stop()
    came = player.packets()
    checks.same({(one.ssrc, one.kind) for one in came}, {(app.ssrc, 96)}, f"{name}: SSRCs and types at the player")
    indices = [index(one) for one in came]
    checks.same([one.number for one in came], [65400 + i & 65535 for i in indices], f"{name}: the numbers")
    checks.count(all(one < other for one, other in zip(indices, indices[1:])), f"{name}: the contents are in order")
    checks.count(indices[:before] == list(range(before)), f"{name}: the contents before")
    checks.same((len(receiver.logged("session")), len(receiver.logged("moved"))), (1, 1), f"{name}: sessions and moves")


def same_address(checks, stage):
    """The sending relay is started anew at the same address with the same SSRC and other numbers: the stream restarts. From numbers that
    lie behind, the player's go on; ahead it looks like a loss of all between, which is a hole and counted."""
    for first, skipped in ((60000, 0), (30000, 29300)):
        restarted(checks, stage, first, skipped)


def restarted(checks, stage, first, skipped):
    name, player = f"a sending relay at the same address from {first} on", End(stage)
    receiver = stage.receive(player.at, "--packets", 400)
    sender = stage.send(receiver.at, "--from", "127.0.0.1:0")
    contents = plain(400)
    App(stage, sender.at, number=500).stream(contents[:200], 1000)
    checks.count(player.waits_for(200), f"{name}: {len(player.came)} packets came before")
    sender.stop()
    again = stage.send(receiver.at, "--from", f"127.0.0.1:{sender.source[1]}", "--packets", 200)
    App(stage, again.at, number=first).stream(contents[200:], 1000)
    checks.count(player.waits_for(400), f"{name}: {len(player.came)} packets came")
    ends(checks, name, again, receiver)
    checks.count([one.content for one in player.packets()] == contents, f"{name}: the contents")
    goes_on(checks, name, player.packets(), 0x1a2b3c4d, hole=(200, skipped))
    checks.same([receiver.counts().get(one) for one in ("stray", "restarts", "skipped")], [0, 1, skipped], f"{name}: counts")


def receiving(checks, stage):
    """The receiving relay is killed and started anew at the same port, while the stream goes on."""
    name, player = "another receiving relay", End(stage)
    sender, receiver = stage.pair(player, send=("--packets", 600))
    app = App(stage, sender.at, number=65200)
    app.stream(plain(200), 1000)
    checks.count(player.waits_for(200), f"{name}: {len(player.came)} packets came before")
    receiver.stop()
    app.stream(plain(100, first=200), 1000)
    soon(lambda: len(sender.logged("sent")) == 300)
    time.sleep(0.3)  # the last one of these is retransmitted, to nobody
    again = stage.receive(player.at, "--packets", 300, listen=f"127.0.0.1:{receiver.at[1]}")
    app.stream(plain(300, first=300), 1000)
    checks.count(player.waits_for(500), f"{name}: {len(player.came)} packets came")
    ends(checks, name, sender, again)
    came = player.packets()
    checks.same({(one.ssrc, one.kind) for one in came}, {(app.ssrc, 96)}, f"{name}: SSRCs and types at the player")
    wanted = [(65200 + i & 65535, i) for i in [*range(200), *range(300, 600)]]
    checks.count([(one.number, index(one)) for one in came] == wanted, f"{name}: all but what nobody heard came, with its number")


@on_time(0.1)
def silence(checks, stage):
    """The last packet before a silence of seconds is lost, and so is the retransmission that would show it: it is asked for once the
    stream goes on, and the session stays."""
    name, player, lost = "a loss before a silence", End(stage), []

    def rule(way, octets):
        one = parse(octets)
        wanted = (one.ssrc, one.number) == (7, 99) if not lost else one.ssrc == 8 and len(lost) == 1
        if way == "forth" and wanted:
            lost.append(one)
            return ()
        return (0,)

    receiver = stage.receive(player.at, "--packets", 200, "--latency", 4000)
    path = Path(stage, receiver.at, rule)
    sender = stage.send(path.at, "--packets", 200)
    app = App(stage, sender.at, ssrc=7, number=0)
    app.stream(plain(100), 1000)
    time.sleep(2)
    checks.same([one.ssrc for one in lost], [7, 8], f"{name}: what was lost")
    app.stream(plain(100, first=100), 1000)
    checks.count(player.waits_for(200), f"{name}: {len(player.came)} packets came")
    ends(checks, name, sender, receiver)
    checks.count([one.content for one in player.packets()] == plain(200), f"{name}: the contents")
    goes_on(checks, name, player.packets(), 7)
    checks.same(len(receiver.logged("session")), 1, f"{name}: sessions")
    checks.same(receiver.counts().get("gaps"), 0, f"{name}: gaps")


def repeats(checks, stage):
    """Old datagrams that the network repeats in a pause restart nothing, and nothing is played a second time."""
    for back in (300, 900):
        name, player = f"datagrams of {back} packets ago", End(stage)
        receiver = stage.receive(player.at, "--packets", 1100)
        path = Path(stage, receiver.at)
        sender = stage.send(path.at)
        contents = plain(1100)
        app = App(stage, sender.at, number=65000, heed=(path.at[1], receiver.at[1], player.at[1]))
        app.stream(contents[:1000], 2000)
        checks.count(player.waits_for(1000), f"{name}: {len(player.came)} packets came before")
        time.sleep(0.4)
        media = [octets for way, octets in path.passed if way == "forth" and parse(octets).ssrc == app.ssrc]
        for octets in media[1000 - back:1003 - back]:
            path.rear.sendto(octets, path.to)
        time.sleep(0.05)
        app.stream(contents[1000:], 500)
        ends(checks, name, receiver)
        checks.same([index(one) for one in player.packets()], list(range(1100)), f"{name}: what came to the player")
        checks.same([receiver.counts().get(one) for one in ("restarts", "played", "gaps")], [0, 1100, 0], f"{name}: counts")
        sender.stop()


if __name__ == "__main__":
    part(application, foreign, sending, running, same_address, receiving, silence, repeats)
