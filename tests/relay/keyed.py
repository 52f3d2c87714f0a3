#!/usr/bin/env python3
"""Relays with a key: what passes the network is SRTP, which another hand opens, and nothing else is heard.

    keyed.py PROGRAM"""
import itertools
import os
import random
import signal
import struct
import subprocess
import threading
import time

from base import ends, on_time, part, soon
from net import App, End, Path
from rtp import Content, nack, nacked, packet, plain
from srtp import Srtp, is_rtcp
from strangers import OTHER, RATE, Flood, Stranger

NULL = "SRTP_NULL_HMAC_SHA1_80"
XR = 207  # the packet type of extended reports (RFC 3611)
FEW = 10  # packets at either end of a stream that are not lost


def by(key, profile):
    """The profile's words for a relay, and what opens what it makes."""
    return (() if profile is None else ("--profile", profile)), Srtp(profile != NULL, key)


def is_whole(checks, name, player, contents, relay):
    """All of these were played, in order, and nothing else."""
    came = [one and one.content for one in player.packets()]
    lacks = [at for at, one in enumerate(contents) if one not in came]
    checks.count(came == contents, f"{name}: {len(came)} of {len(contents)} were played, without {lacks[:9]}: {relay.lines()[-1:]}")


def streamed(draw, path, app, contents, rate):
    """Streams contents while the path loses one in ten both ways, but of the first and the last few: a session begins with what comes first, and
    what tells of the last one may be lost too."""
    before = len(path.passed)
    app.stream(contents[:FEW], rate)
    soon(lambda: len(path.passed) >= before + FEW)
    whole, path.rule = path.rule, lambda way, octets: () if draw.random() < 0.1 else whole(way, octets)
    app.stream(contents[FEW:-FEW], rate)
    path.rule = whole
    app.stream(contents[-FEW:], rate)


def may_ask(seconds):
    """How many questions leave in so many seconds at most: of the media's and of the retransmissions' SSRC one each tenth of a second."""
    return 2 * (1 + int(10 * seconds))


def protected(checks, stage, profile):
    """One in ten is lost both ways. All is played, and on the wire is nothing that a right key does not open: each SSRC is one that was drawn,
    each index comes once, and without the key nobody reads a payload."""
    draw, key = random.Random(), os.urandom(30)
    words, srtp = by(key, profile)
    contents, player = plain(600), End(stage)
    words = ("--key-file", srtp.file(stage), *words, "--packets", len(contents))
    receiver = stage.receive(player.at, *words, "--latency", 4000)  # on a busy machine too nothing is given up
    path = Path(stage, receiver.at, lambda way, octets: (0.01,))
    sender, began = stage.send(path.at, *words), time.monotonic()
    app = App(stage, sender.at)
    streamed(draw, path, app, contents, 150)
    name = f"{profile or 'the first profile'}"
    ends(checks, name, sender, receiver)
    is_whole(checks, name, player, contents, receiver)
    forth = [octets for way, octets in path.passed if way == "forth" and not is_rtcp(octets)]
    back = [octets for way, octets in path.passed if way == "back"]
    opened = [srtp.open(one, rollover) for one in draw.sample(forth, 40) for rollover in (0, 1)]
    checks.same(sum(one is not None for one in opened), 40, f"{name}: packets that the key opens, of 40")
    feedback = [srtp.open_rtcp(one) for one in back]
    checks.count(all(feedback) and len(feedback) > 20, f"{name}: feedback that the key opens: {sum(map(bool, feedback))} of {len(feedback)}")
    checks.same([one[1] for one in feedback], list(range(len(feedback))), f"{name}: the indices of feedback")
    asks = [one[0] for one in feedback if one[0][1] == XR]
    checks.same(len(set(asks)), 1, f"{name}: questions")
    checks.count(0 < len(asks) <= may_ask(time.monotonic() - began), f"{name}: questions {asks}")
    behind = itertools.dropwhile(lambda one: one[0] == "back", [one for one in path.passed if is_rtcp(one[1])])
    late = sum(way == "back" and srtp.open_rtcp(octets)[0][1] == XR for way, octets in behind)
    checks.count(late <= may_ask(0.5), f"{name}: {late} questions behind the first answer")
    checks.count(all(nacked(one[0]) for one in feedback if one[0][1] != XR), f"{name}: feedback that is no NACK")
    sources = {struct.unpack(">I", one[8:12])[0] for one in forth}
    checks.count(len(sources) == 2 and app.ssrc not in sources, f"{name}: SSRCs on the wire {sources}")
    checks.same(len({one[2:4] + one[8:12] for one in forth}), len(forth), f"{name}: numbers of packets that came once")
    if profile != NULL:
        seen = sum(contents[i].payload[:64] in one for i in range(0, len(contents), 50) for one in forth)
        checks.same(seen, 0, f"{name}: payloads that anybody reads")


@on_time(0.5)
def encrypted(checks, stage):
    protected(checks, stage, None)


@on_time(0.5)
def tagged(checks, stage):
    protected(checks, stage, NULL)


def changed(draw, octets):
    """The octets with one bit turned."""
    at = draw.randrange(8 * len(octets))
    made = bytearray(octets)
    made[at // 8] ^= 1 << at % 8
    return bytes(made)


@on_time(0.1)
def strangers(checks, stage):
    """Beside a stream come datagrams without a tag, under another key, with a bit turned, recorded ones once more, and noise, from its own address and
    others: none is heard, at either end."""
    draw, srtp, other = random.Random(), Srtp(False), Srtp(False)
    contents, player = plain(600), End(stage)
    words = ("--key-file", srtp.file(stage), "--profile", NULL, "--packets", len(contents))
    receiver = stage.receive(player.at, *words, "--latency", 4000)
    path, rivals = Path(stage, receiver.at), [End(stage) for _ in range(3)]
    sender = stage.send(path.at, *words)
    strange, over = [0, 0], threading.Event()

    def attack():
        while not over.is_set():
            passed = [octets for way, octets in path.passed if way == "forth" and not is_rtcp(octets)]
            if len(passed) < 20:
                time.sleep(0.005)
                continue
            old = draw.choice(passed)
            made = packet(96, draw.getrandbits(16), struct.unpack(">I", old[8:12])[0], Content(draw.getrandbits(32), 0, b"strange"))
            octets = draw.choice((made, other.seal(made, 0), changed(draw, old), old, os.urandom(draw.randrange(1500))))
            if draw.random() < 0.5:
                path.rear.sendto(octets, path.to)
            else:
                draw.choice(rivals).send(octets, receiver.at)
            ask = struct.pack(">BBHIIHH", 0x81, 205, 3, draw.getrandbits(32), struct.unpack(">I", old[8:12])[0], draw.getrandbits(16), 65535)
            path.front.sendto(draw.choice((ask, ask + os.urandom(14), os.urandom(60))), sender.source)
            strange[0] += 1
            strange[1] += 1
            time.sleep(0.001)
    running = threading.Thread(target=attack, daemon=True)
    app = App(stage, sender.at)
    running.start()
    app.stream(contents[:-FEW], 300)
    over.set()
    running.join()
    app.stream(contents[-FEW:], 300)
    ends(checks, "strangers", sender, receiver)
    is_whole(checks, "strangers", player, contents, receiver)
    for relay, count in ((receiver, strange[0]), (sender, strange[1])):
        checks.same(relay.counts()["unauthenticated"], count, f"strangers: what {relay.side} refused")
        told = [line for line in relay.lines() if line.startswith("refused ")]
        checks.count(told and " by SRTP, the last one from " in told[0], f"strangers: what {relay.side} tells: {told}")
    checks.same((sender.counts()["marked"], receiver.counts()["taken"]), (0, len(contents)), "strangers: marked, and taken")
    checks.same(receiver.counts()["stray"], 0, "strangers: strays")


@on_time(0.1)
def attacked(checks, stage):
    """Who sends a stream of his own, packets of many SSRCs or NACKs for all there is, before a stream with a key, beside it and behind a pause of it,
    has no effect at all: it is played whole, each part from its first packet on at once, and nothing is retransmitted, asked for or moved."""
    def all_there_is(path):
        """A NACK for all that went by, once something did."""
        sources = [struct.unpack(">I", octets[8:12])[0] for way, octets in path.passed[:1] if way == "forth" and not is_rtcp(octets)]
        return nack(*sources or [OTHER], range(65000, 65100))
    attacks = (("a stream", lambda path, sender: Stranger(stage, path.to, 0.001)), ("many SSRCs", lambda path, sender: Flood(stage, path.to, 5000)),
               ("NACKs", lambda path, sender: Stranger(stage, sender.source, 0.001, made=lambda sent: all_there_is(path))))
    for name, attack in attacks:
        srtp, contents, player = Srtp(False), plain(100), End(stage)
        words = ("--key-file", srtp.file(stage), "--profile", NULL, "--packets", len(contents))
        receiver = stage.receive(player.at, *words)
        path = Path(stage, receiver.at)
        sender = stage.send(path.at, *words)
        stranger = attack(path, sender)
        soon(lambda: stranger.sent > 200)
        app = App(stage, sender.at)
        for some in (contents[:50], contents[50:]):
            came, began = len(player.came), time.monotonic()
            app.stream(some, RATE)
            checks.count(player.came[came:] and player.came[came][0] - began < 0.7, f"{name}: heard behind less than a second")
            time.sleep(1.5)
        stranger.stop()
        ends(checks, name, sender, receiver)
        is_whole(checks, name, player, contents, receiver)
        told = {one: receiver.counts()[one] for one in ("stray", "moved", "restarts", "gaps", "asked", "taken")}
        checks.same(told, {"stray": 0, "moved": 0, "restarts": 0, "gaps": 0, "asked": 0, "taken": len(contents)}, f"{name}: what the receiving relay counts")
        checks.same((sender.counts()["marked"], sender.counts()["stray"]), (0, 0), f"{name}: what the sending one counts")
        refused = receiver.counts()["unauthenticated"] + sender.counts()["unauthenticated"]
        checks.count(refused > 400, f"{name}: {refused} are refused of {stranger.sent}")


def another_key(checks, stage):
    """Under another key, or none, at one end nothing is played, and the other end tells."""
    srtp, contents, player = Srtp(), plain(60), End(stage)
    for name, words in (("another key", ("--key-file", Srtp().file(stage))), ("no key", ())):
        receiver = stage.receive(player.at, "--key-file", srtp.file(stage))
        sender = stage.send(receiver.at, *words)
        App(stage, sender.at).stream(contents, 100)
        soon(lambda: any(line.startswith("refused") for line in receiver.lines()), 10)
        receiver.stop(signal.SIGKILL)
        sender.stop(signal.SIGKILL)
        checks.count(any(line.endswith(": the tag is wrong: another key, or none") for line in receiver.lines()), f"{name}: {receiver.lines()}")
    checks.same(player.came, [], "another key: what was played")


@on_time(0.5)
def starts_anew(checks, stage):
    """Each relay is killed and started anew in mid-stream: the sender with other SSRCs, the receiver with another one of its own. What is sent behind
    that is played, from its first packet on, which waits for an answer, and repaired."""
    draw, srtp, player = random.Random(), Srtp(False), End(stage)
    words = ("--key-file", srtp.file(stage), "--profile", NULL)
    receiver = stage.receive(player.at, *words, "--latency", 1000)
    path = Path(stage, receiver.at, lambda way, octets: (0.01,))
    port = f"127.0.0.1:{path.to[1]}"
    sender = stage.send(path.at, *words)
    listen, app = f"127.0.0.1:{sender.at[1]}", App(stage, sender.at)
    parts = [plain(1800)[at:at + 600] for at in (0, 600, 1200)]
    streamed(draw, path, app, parts[0], 200)
    time.sleep(1.5)
    sender.stop()
    sender = stage.send(path.at, *words, listen=listen)
    streamed(draw, path, app, parts[1], 200)
    time.sleep(1.5)
    receiver.stop()
    receiver = stage.receive(player.at, *words, "--latency", 1000, listen=port)
    streamed(draw, path, app, parts[2], 200)
    soon(lambda: parts[2][-1] in [one.content for one in player.packets()], 10)
    time.sleep(0.5)
    came = [one.content for one in player.packets()]
    for number, part_of in enumerate(parts):
        checks.same(sum(one not in came for one in part_of), 0, f"part {number}: those that are missing")
    sources = {struct.unpack(">I", octets[8:12])[0] for way, octets in path.passed if way == "forth" and not is_rtcp(octets)}
    reporters = {struct.unpack(">I", octets[4:8])[0] for way, octets in path.passed if way == "back" and is_rtcp(octets)}
    checks.same((len(sources), len(reporters)), (4, 2), "SSRCs of senders and receivers, over a start of either")
    checks.same(len(came), len(set(came)), "packets that were played twice")


@on_time(0.5)
def applications(checks, stage):
    """Another application goes on with the session behind a silence, and one with another payload type begins one: under other SSRCs than that before,
    and no number comes twice under one."""
    srtp, player, contents = Srtp(False), End(stage), plain(120)
    key = ("--key-file", srtp.file(stage), "--profile", NULL)
    receiver = stage.receive(player.at, *key)
    path = Path(stage, receiver.at)
    sender, seen = stage.send(path.at, *key), []
    for at, (ssrc, kind) in enumerate(((7, 96), (8, 96), (7, 98))):
        app, before = App(stage, sender.at, ssrc=ssrc, kind=kind), len(path.passed)
        app.stream(contents[40 * at:40 * at + 40], 100)
        time.sleep(1.5)
        seen.append({octets[8:12] for way, octets in path.passed[before:] if way == "forth" and not is_rtcp(octets)})
    checks.count(seen[2] and not seen[2] & (seen[0] | seen[1]), f"SSRCs on the wire: {seen}")
    indices = [octets[2:4] + octets[8:12] for way, octets in path.passed if way == "forth" and not is_rtcp(octets)]
    checks.same(len(set(indices)), len(indices), "numbers under an SSRC that came once")
    is_whole(checks, "three applications", player, contents, receiver)


@on_time(0.5)
def searches(checks, stage):
    """A receiver that begins in the middle of a stream finds its rollover counter by the tags, beside noise; so it does behind a loss of half a
    cycle and more. What was recorded before is refused."""
    draw, srtp, player, far = random.Random(), Srtp(False), End(stage), End(stage)
    receiver = stage.receive(player.at, "--key-file", srtp.file(stage), "--profile", NULL, "--challenge", "off")
    rollover, number, sent = draw.randrange(1, 400), draw.randrange(65536), []
    place = rollover << 16 | number

    def stream(count):
        nonlocal place
        for _ in range(count):
            content = Content(place * 90 & 0xffffffff, 0, struct.pack(">Q", place))
            sent.append(srtp.seal(packet(96, place & 65535, 7, content), place >> 16))
            far.send(sent[-1], receiver.at)
            far.send(os.urandom(60), receiver.at) if draw.random() < 0.1 else None
            place += 1
            time.sleep(0.002)
        return content
    last = stream(1000)
    checks.count(soon(lambda: last in [one.content for one in player.packets()], 5), f"from {rollover} cycles on: the last one is not played")
    place += draw.choice((draw.randrange(33000, 65536), draw.randrange(65536, 400000)))
    last = stream(1000)
    checks.count(soon(lambda: last in [one.content for one in player.packets()], 5), f"behind a loss of half a cycle and more, at {place}: the last one is not played")
    played = len(player.came)
    for one in draw.sample(sent, 300):
        far.send(one, receiver.at)
    time.sleep(1)
    checks.same(len(player.came), played, "what was recorded, once more")


@on_time(0.5)
def recorded(checks, stage):
    """All that passed before both relays started anew, in order, from the address where it came from and another one, answers too: none of it is played
    while nobody sends, nor beside a stream, which is played whole. Where no sender has to answer all of it is played."""
    srtp, contents = Srtp(False), plain(300)
    key = ("--key-file", srtp.file(stage), "--profile", NULL)
    player, receiver = End(stage), None
    receiver = stage.receive(player.at, *key)
    path = Path(stage, receiver.at, lambda way, octets: (0.02,))
    sender, port = stage.send(path.at, *key), f"127.0.0.1:{receiver.at[1]}"
    App(stage, sender.at).stream(contents, 300)
    soon(lambda: len(player.came) == len(contents), 5)
    is_whole(checks, "what is recorded", player, contents, receiver)
    record = [octets for way, octets in path.passed if way == "forth"]
    sender.stop()
    sender = stage.send(path.at, *key, listen=f"127.0.0.1:{sender.at[1]}")
    for off in (), ("--challenge", "off"):
        receiver.stop()
        player, far, before, began = End(stage), End(stage), len(path.passed), time.monotonic()
        receiver = stage.receive(player.at, *key, *off, listen=port)
        for at, one in enumerate(record):
            if at % 10 == 9:
                far.send(one, receiver.at)
            path.rear.sendto(one, path.to)
            time.sleep(0.003)
        time.sleep(0.5)
        if off:
            checks.count(len(player.came) > 250, f"without a challenge: {len(player.came)} of {len(contents)} recorded ones are played")
            continue
        checks.same(len(player.came), 0, "recorded packets that are played")
        asked = [srtp.open_rtcp(one) for one in far.octets() + [octets for way, octets in path.passed[before:] if way == "back"]]
        checks.count(all(one and one[0][1] == XR for one in asked), f"what comes back: {asked}")
        checks.count(0 < len(asked) <= may_ask(time.monotonic() - began), f"what comes back: {asked}")
        over, rest = threading.Event(), plain(300, first=300)

        def replay():
            for at in itertools.count():
                path.rear.sendto(record[at % len(record)], path.to)
                far.send(record[at % len(record)], receiver.at)
                time.sleep(0.002)
                if over.is_set():
                    return
        running = threading.Thread(target=replay, daemon=True)
        running.start()
        App(stage, sender.at, number=65300).stream(rest, 300)
        soon(lambda: len(player.came) == len(rest), 5)
        over.set()
        running.join()
        is_whole(checks, "beside recorded ones", player, rest, receiver)


@on_time(0.5)
def the_past(checks, stage):
    """A receiver that starts anew in the midst of a stream plays nothing that left more than two seconds before, whoever sends that, while nobody else
    sends and beside the stream, of which it plays all from its start on."""
    srtp, contents, player = Srtp(False), plain(1200), End(stage)
    key = ("--key-file", srtp.file(stage), "--profile", NULL)
    receiver = stage.receive(player.at, *key)
    path = Path(stage, receiver.at, lambda way, octets: (0.01,))
    sender, port = stage.send(path.at, *key), f"127.0.0.1:{receiver.at[1]}"
    app = App(stage, sender.at)
    app.stream(contents[:800], 200)
    soon(lambda: len(player.came) == 800, 5)
    record = [octets for way, octets in path.passed if way == "forth" and not is_rtcp(octets)][:150]
    receiver.stop()
    player, far, over = End(stage), End(stage), threading.Event()
    receiver = stage.receive(player.at, *key, "--packets", 400, listen=port)

    def replay():
        for at in itertools.count():
            path.rear.sendto(record[at % len(record)], path.to)
            far.send(record[at % len(record)], receiver.at)
            time.sleep(0.002)
            if over.is_set():
                return
    running = threading.Thread(target=replay, daemon=True)
    running.start()
    time.sleep(1)
    checks.same(len(player.came), 0, "what is played of the past")
    app.stream(contents[800:], 200)
    ends(checks, "beside its past", receiver)
    over.set()
    running.join()
    is_whole(checks, "beside its past", player, contents[800:], receiver)
    counts = receiver.counts()
    checks.count(counts["unauthenticated"] > 300, f"what is refused: {counts}")


@on_time(0.2)
def moves(checks, stage):
    """A far side that is heard at another address is there with its first packet: nothing is lost, and NACKs go there. A packet that came before, sent
    once more from elsewhere, moves nothing."""
    srtp, contents, player, other = Srtp(False), plain(400), End(stage), End(stage)
    key = ("--key-file", srtp.file(stage), "--profile", NULL)
    receiver = stage.receive(player.at, *key, "--latency", 2000)
    draw = random.Random()
    path = Path(stage, receiver.at, lambda way, octets: (0.005,))
    sender = stage.send(path.at, *key)
    app = App(stage, sender.at)
    for at in range(0, len(contents), 100):
        app.stream(contents[at:at + FEW], 200)
        path.rule = lambda way, octets: () if draw.random() < 0.1 else (0.005,)
        app.stream(contents[at + FEW:at + 100 - FEW], 200)
        path.rule = lambda way, octets: (0.005,)
        app.stream(contents[at + 100 - FEW:at + 100], 200)
        time.sleep(0.2)
        for way, octets in path.passed[-60:]:
            if way == "forth":
                other.send(octets, receiver.at)
        path.rebind()
    soon(lambda: len(player.came) == len(contents), 10)
    is_whole(checks, "moves", player, contents, receiver)
    receiver.stop(signal.SIGTERM)
    told = [line for line in receiver.lines() if line.startswith("moved to ")]
    checks.same(len(told), 3, f"moves that are told: {told}")
    checks.same(len(other.came), 0, "what came to who sent copies")


def files(checks, stage):
    """What is no key, or open to others, is refused before a socket is had, and in hex or base64 it is one."""
    srtp = Srtp()
    where = ("--listen", "127.0.0.1:0", "--to", "127.0.0.1:9")
    good = [(srtp.file(stage), ()), (srtp.file(stage, text=srtp.master.hex()), ()), (srtp.file(stage, mode=0o400, text=srtp.master.hex().upper() + "\n"), ("--profile", NULL))]
    for path, more in good:
        for side in ("send", "receive"):
            ran = subprocess.run([stage.program, side, *where, "--key-file", path, *more, "--seconds", "1"], capture_output=True, text=True, timeout=60)
            checks.same(ran.returncode, 0, f"{side} with {path.read_text()!r} {more}: {ran.stderr!r}")
    wrong = [(srtp.file(stage, mode=mode), (), "others than its owner may read or write it") for mode in (0o640, 0o604, 0o620, 0o644)]
    for text in ("", "x", srtp.text()[:-4], srtp.text() + "AAAA", srtp.master.hex()[:-2], srtp.master.hex() + "00", srtp.master.hex() + "\n" + srtp.master.hex()):
        wrong.append((srtp.file(stage, text=text or " "), (), "a master key of 16 octets and its salt of 14 are wanted"))
    wrong += [(stage.room / "none", (), "it can't be read"), (srtp.file(stage), ("--profile", "AES"), f"or {NULL}")]
    for path, more, why in wrong:
        for side in ("send", "receive"):
            ran = subprocess.run([stage.program, side, *where, "--key-file", path, *more, "--seconds", "1"], capture_output=True, text=True, timeout=60)
            checks.count(ran.returncode == 2 and why in ran.stderr, f"{side} {path} {more}: {ran.returncode} {ran.stderr!r}")
    for side in ("send", "receive"):
        ran = subprocess.run([stage.program, side, *where, "--profile", NULL, "--seconds", "1"], capture_output=True, text=True, timeout=60)
        checks.same((ran.returncode, ran.stderr), (2, "fault value: --key-file is wanted\n"), f"{side} with a profile and no key")
    for words, why in (("--challenge", "off"), "--key-file is wanted"), (("--challenge", "no", "--key-file", srtp.file(stage)), "--challenge no: on or off"):
        ran = subprocess.run([stage.program, "receive", *where, *words, "--seconds", "1"], capture_output=True, text=True, timeout=60)
        checks.same((ran.returncode, ran.stderr), (2, f"fault value: {why}\n"), f"{words}")
    for option in ("ssrc", "rtx-ssrc"):
        ran = subprocess.run([stage.program, "send", *where, "--key-file", srtp.file(stage), f"--{option}", "1234"], capture_output=True, text=True, timeout=60)
        checks.count(ran.returncode == 2 and "drawn anew" in ran.stderr, f"--{option} with a key: {ran.returncode} {ran.stderr!r}")


if __name__ == "__main__":
    part(encrypted, tagged, strangers, attacked, another_key, starts_anew, recorded, the_past, moves, applications, searches, files)
