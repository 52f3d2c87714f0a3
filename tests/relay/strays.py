#!/usr/bin/env python3
"""What comes from elsewhere is not taken, and what is no packet changes nothing of what is played.

    strays.py PROGRAM"""
import random
import struct

import ledger
from base import ends, part, soon
from net import App, End, settled, udp
from rtp import Content, drawn, index, nack, original, packet, plain, repair

MEDIA, OTHER = 0x1a2b3c4d, 0x55667788
HEAD = struct.pack(">BBHII", 0x80, 96, 7, 1, MEDIA)


def no_packets(seed, longest):
    """Datagrams that are no packet of the session, in any order: too short, with too long a payload, of another version, cut off, drawn."""
    draw = random.Random(seed)
    made = [HEAD[:length] for length in range(12)]
    made += [bytes([version << 6 | 0]) + HEAD[1:] + b"bad" for version in (0, 1, 3)]
    made += [packet(96, 9, MEDIA, Content(5, 0, bytes(length))) for length in (longest + 1, 1500, 9000, 65000)]
    made += [packet(96, 9, MEDIA, Content(5, 0, b"x", ext=bytes(2 + 4 * 17))), bytes([0x8f]) + HEAD[1:] + bytes(59)]
    made += [bytes([0x90]) + HEAD[1:] + b"\xbe\xde\0", bytes([0x90]) + HEAD[1:] + b"\xbe\xde\0\2" + bytes(7)]
    made += [bytes([0xa0]) + HEAD[1:] + b"four" + bytes([count]) for count in (0, 7, 255)]
    made += [packet(97, 9, MEDIA, Content(5, 0, b"of another type")), packet(96, 9, OTHER, Content(5, 0, b"of another source"))]
    made += [packet(97, 9, MEDIA + 1, Content(5, 0, b"")), packet(97, 9, MEDIA + 1, Content(5, 0, b"\0"))]
    for _ in range(200):  # of another version, and no RTCP
        front = draw.choice((0x00, 0x40, 0xc0)) | draw.getrandbits(6), draw.getrandbits(7)
        made.append(bytes(front) + draw.randbytes(draw.randrange(1500)))
    draw.shuffle(made)
    return made


def reports():
    """RTCP of each type, as browsers and cameras send it, and as nobody should."""
    made = [struct.pack(">BBHI", 0x80 | low, kind, 1, MEDIA) for kind in range(192, 224) for low in (0, 1, 15)]
    made += [struct.pack(">BBHIIIIII", 0x80, 200, 6, MEDIA, 1, 2, 3, 4, 5), struct.pack(">BBHI", 0x80, 201, 1, MEDIA)]
    return made + [struct.pack(">BBHII", 0x81, 206, 2, 1, MEDIA), struct.pack(">BBH", 0x80, 201, 900), b"\x80\xc8", b"\x80\xcd\0\0"]


def behind(checks, stage):
    """At the receiving relay: a third address, the player's side, and what is no packet, from the far side itself."""
    name, player, far, third = "behind the network", End(stage), End(stage), stage.keep(udp())
    receiver = stage.receive(player.at, "--packets", 200)
    contents, bad, rtcp = drawn(3, 200), no_packets(3, receiver.longest), reports()
    for one in reports():
        far.send(one, receiver.at)  # before the session, which none of them makes
    for i, content in enumerate(contents):
        far.send(packet(96, 65500 + i, MEDIA, content), receiver.at)
        for one in bad[i::200] + rtcp[i::200]:
            far.send(one, receiver.at)
        if i % 10 == 0:  # the next packet, but with another content, and from elsewhere
            third.sendto(packet(96, 65501 + i, MEDIA, Content(1, 1, b"forged")), receiver.at)
            third.sendto(b"", ("127.0.0.1", receiver.source[1]))
            for one in (player, far):
                one.send(packet(96, 65502 + i, MEDIA, Content(1, 1, b"forged")), ("127.0.0.1", receiver.source[1]))
        if not soon(lambda: len(player.came) > i, 10):
            break
    ends(checks, name, receiver)
    came = player.packets()
    checks.count([one and one.content for one in came] == contents, f"{name}: {len(came)} came, and not as they were sent")
    checks.same({one and (one.ssrc, one.kind) for one in came}, {(MEDIA, 96)}, f"{name}: SSRCs and types at the player")
    checks.count([one and one.number for one in came] == [65500 + i & 65535 for i in range(len(came))], f"{name}: the numbers")
    counts = receiver.counts()
    strays = 80 + len(rtcp)  # and what began no session
    wanted = {"taken": 200, "repaired": 0, "played": 200, "gaps": 0, "asked": 0, "restarts": 0, "stray": strays}
    checks.same({one: counts.get(one) for one in wanted}, wanted, f"{name}: counts")
    checks.count(counts.get("refused", 0) >= len(bad), f"{name}: {counts.get('refused')} refused of {len(bad)}")
    checks.same(len(receiver.logged("session")), 1, f"{name}: sessions")
    ledger.whole(checks, name, receiver)
    ledger.sums(checks, name, receiver)


def before(checks, stage):
    """At the sending relay: feedback from a third address, and what is no feedback, from the far side itself."""
    name, far, third = "before the network", End(stage), stage.keep(udp())
    sender = stage.send(far.at, "--packets", 100)
    at, contents = ("127.0.0.1", sender.source[1]), plain(100)
    App(stage, sender.at, ssrc=MEDIA, number=0).stream(contents, 1000)
    first = settled(far, 99)
    for i in range(20):
        third.sendto(nack(MEDIA, [i]), at)
    soon(lambda: len(sender.logged("stray")) == 20)
    checks.same(len(far.came), first, f"{name}: after feedback from a third address")
    wrong = [nack(OTHER, [1]), nack(MEDIA, [2])[:-1], nack(MEDIA, [])[:12], b"\x81\xcd", b"\xc1" + nack(MEDIA, [3])[1:],
             b"\x41" + nack(MEDIA, [4])[1:], b"\xa1" + nack(MEDIA, [5])[1:], nack(MEDIA, [6]) + b"\x80"]
    for one in wrong + reports() + [packet(96, 3, MEDIA, Content(1, 1, b"media"))]:
        far.send(one, at)
    far.send(nack(MEDIA, [50, 40, 40]), at)
    far.waits_for(first + 2)
    repaired = [(number, one.payload) for number, one in map(original, far.packets()[first:])]
    checks.same(repaired, [(i, contents[i].payload) for i in (40, 50)], f"{name}: repaired")
    ends(checks, name, sender)
    counts = sender.counts()
    tails = len(sender.logged("tail"))
    wanted = {"sent": 100, "marked": 2, "retransmitted": 2 + tails, "stray": 20, "unsent": 0}
    checks.same({one: counts.get(one) for one in wanted}, wanted, f"{name}: counts")
    checks.count(counts.get("refused", 0) >= len(wrong), f"{name}: {counts.get('refused')} refused of {len(wrong)}")
    ledger.whole(checks, name, sender)
    ledger.sums(checks, name, sender)


def application(checks, stage):
    """At the application's socket: what is no packet of the stream is not sent, and counted."""
    name, far = "the application's side", End(stage)
    sender = stage.send(far.at, "--packets", 100)
    app, contents = App(stage, sender.at, ssrc=MEDIA, number=0), drawn(4, 100)
    bad = [one for one in no_packets(4, sender.longest) if len(one) < 12 or one[0] >> 6 != 2 or len(one) > sender.longest + 12 or one[8:12] == b"\x55\x66\x77\x88"]
    for one in reports():
        app.raw(one)  # before the session, which none of them makes
    for i, content in enumerate(contents):
        app.send(content)
        for one in bad[i::100] + reports()[i::100]:
            app.raw(one)
        if not soon(lambda: len(far.came) > i, 10):
            break
    ends(checks, name, sender)
    came = [one for one in far.packets() if one and one.ssrc == MEDIA]
    checks.count([one.content for one in came] == contents, f"{name}: what was sent")
    checks.same([one.number for one in came], list(range(100)), f"{name}: the numbers")
    counts = sender.counts()
    checks.same((counts.get("sent"), counts.get("stray"), counts.get("refused")), (100, 0, 0), f"{name}: sent, stray, refused")
    checks.same(counts.get("unsent"), len(bad) + 2 * len(reports()), f"{name}: unsent")
    ledger.whole(checks, name, sender)
    ledger.sums(checks, name, sender)


def too_long(checks, stage):
    """A packet with a longer payload than the program carries is left out, and told with what to do: once in ten seconds."""
    player, far, network = End(stage), End(stage), End(stage)
    sender, receiver = stage.send(network.at, "--seconds", 2), stage.receive(player.at, "--seconds", 2)
    app = App(stage, sender.at, ssrc=MEDIA, number=0)
    for relay, hand in (sender, app.raw), (receiver, lambda one: far.send(one, receiver.at)):
        for i, length in enumerate((10, relay.longest, relay.longest + 1, relay.longest + 2, relay.longest + 300, 10)):
            hand(packet(96, i, MEDIA, Content(5, 0, bytes(length))))
    ends(checks, "payloads that are too long", sender, receiver)
    for relay, came, count in (sender, network, "unsent"), (receiver, player, "refused"):
        line = rf"left out 1 packets whose payload has more than {relay.longest} octets: make relay PAYLOAD=N builds a relay that carries N"
        checks.same(relay.errors().splitlines().count(line), 1, f"{relay.side}: the line of payloads that are too long: {relay.errors()!r}")
        checks.same(relay.counts().get(count), 3, f"{relay.side}: {count}")
        lengths = {len(one.content.payload) for one in came.packets() if one and one.ssrc == MEDIA}
        checks.same(lengths, {10, relay.longest}, f"{relay.side}: the lengths that came")


def no_rtp(checks, stage):
    """What an application sends that is no RTP is told by its name, before a session and in one: once in ten seconds."""
    stream, odd = (b"\x47" + bytes(187)) * 7, (b"\x47" + bytes(187)) * 7 + b"\0"
    for what, hint in (stream, "datagrams of MPEG-TS without RTP, which want --input ts, or RTP (RFC 2250), as ffmpeg makes it by -f rtp_mpegts"), \
            (reports()[0], "datagrams of RTCP, which does not pass: it has to reach the player by another way"):
        for is_begun in False, True:
            network = End(stage)
            sender = stage.send(network.at, "--seconds", 1)
            app = App(stage, sender.at, ssrc=MEDIA, number=0)
            if is_begun:
                app.raw(packet(96, 0, MEDIA, Content(5, 0, b"media")))
            for one in what, odd, what:
                app.raw(one)
            ends(checks, "what is no RTP", sender)
            told = [one for one in sender.errors().splitlines() if one.startswith("left out")]
            checks.same(told, [f"left out 1 {hint}"], f"what is no RTP, {what[:2].hex()}, begun {is_begun}: told")
            checks.same(sender.counts().get("unsent"), 3, f"what is no RTP, {what[:2].hex()}, begun {is_begun}: unsent")


def forged(checks, stage):
    """Retransmissions: one from elsewhere is stray, one that nobody asked for, as padding, is told apart, one that was asked for is played once."""
    name, player, far, third = "retransmissions", End(stage), End(stage), stage.keep(udp())
    receiver = stage.receive(player.at, "--packets", 20, "--latency", 5000)
    contents = plain(20)
    for i in [*range(10), *range(11, 20)]:
        far.send(packet(96, i, MEDIA, contents[i]), receiver.at)
    checks.count(far.waits_for(1), f"{name}: nothing was asked for")
    third.sendto(repair(97, 0, OTHER, 10, Content(1, 1, b"forged")), receiver.at)
    far.send(repair(97, 0, OTHER, 30, Content(1, 1, b"nobody asked for it")), receiver.at)
    far.send(repair(98, 0, OTHER, 10, Content(1, 1, b"of another type")), receiver.at)
    far.send(packet(97, 0, OTHER, Content(1, 1, b""), padding=4), receiver.at)
    far.send(repair(97, 1, OTHER, 10, contents[10]), receiver.at)
    far.send(repair(97, 2, OTHER, 10, Content(1, 1, b"once more")), receiver.at)
    far.send(repair(97, 3, OTHER + 1, 10, Content(1, 1, b"of another source")), receiver.at)
    checks.count(player.waits_for(20), f"{name}: {len(player.came)} packets came")
    ends(checks, name, receiver)
    checks.same([index(one) for one in player.packets()], list(range(20)), f"{name}: what came")
    checks.count([one.content for one in player.packets()] == contents, f"{name}: the contents")
    wanted = {"taken": 20, "repaired": 1, "played": 20, "gaps": 0, "refused": 3, "padding": 1, "unasked": 1, "stray": 1}
    checks.same({one: receiver.counts().get(one) for one in wanted}, wanted, f"{name}: counts")


if __name__ == "__main__":
    part(behind, before, application, too_long, no_rtp, forged)
