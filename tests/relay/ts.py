#!/usr/bin/env python3
"""MPEG-TS without RTP, as encoders send it and players take it: in packets of RTP from one relay to the other, and out of them.

    ts.py PROGRAM"""
import pathlib
import random
import re
import shutil
import subprocess
import time

from base import ends, on_time, part, soon
from net import MUCH, App, End, Path, queued
from rtp import packet, plain

PACKET = 188
RATE = 400  # datagrams a second


def transport(count, seed=1):
    """The octets of so many packets of MPEG-TS."""
    draw = random.Random(seed)
    return [b"\x47" + draw.randbytes(PACKET - 1) for _ in range(count)]


def most(relay):
    """How many octets of MPEG-TS a payload of this relay holds."""
    soon(lambda: "carrying payloads" in relay.errors())
    return int(re.search(r"carrying payloads of up to (\d+) octets", relay.errors())[1]) // PACKET * PACKET


def media(far):
    """What came but for retransmissions, which have a type of their own."""
    return [one for one in far.packets() if one and one.kind == 33]


def pour(app, datagrams, rate=RATE):
    """Sends datagrams at so many a second, and waits where the relay's socket is full."""
    due = time.monotonic()
    for one in datagrams:
        due += 1 / rate
        soon(lambda: queued(app.heed)[0] < MUCH)
        time.sleep(max(0, due - time.monotonic()))
        app.raw(one)


@on_time(0.1)
def sent(checks, stage):
    """Each datagram goes in as many packets as it needs, of type 33, under one SSRC, with numbers in sequence and times of 90,000 a second."""
    far = End(stage)
    sender = stage.send(far.at, "--input", "ts")
    room, app, packets = most(sender), App(stage, sender.at), transport(1 + 7 * 30 + 8)
    datagrams = [packets[0], *(b"".join(packets[1 + 7 * at:8 + 7 * at]) for at in range(30)), b"".join(packets[211:])]
    wanted = [one[at:at + room] for one in datagrams for at in range(0, len(one), room)]
    began = time.monotonic()
    pour(app, datagrams, 20)
    took = time.monotonic() - began
    soon(lambda: len(media(far)) >= len(wanted))
    came = media(far)
    checks.same([one.content.payload for one in came], wanted, "what left")
    checks.same({(one.ssrc, one.content.marker) for one in came}, {(came[0].ssrc, 0)}, "SSRC and marker")
    checks.same([one.number - came[0].number & 65535 for one in came], list(range(len(wanted))), "numbers")
    ticks = came[-1].content.time - came[0].content.time & 0xffffffff
    checks.count(abs(ticks / 90000 - took) < 0.3, f"{ticks} ticks in {took:.2f} seconds")
    checks.count(f"session {came[0].ssrc:08x} type 33 " in sender.errors(), f"the session: {sender.errors()}")
    other = End(stage)  # the first one's retransmission of its last packet may still be on its way to the old one
    second = stage.send(other.at, "--input", "ts", "--ssrc", "1a2b3c4d", "--type", 100, "--first", 65535)
    for one in transport(2):
        App(stage, second.at).raw(one)
    other.waits_for(1)
    first = other.packets()[0]
    checks.same((first.ssrc, first.kind, first.number), (0x1a2b3c4d, 100, 65535), "what options say")
    another = End(stage)
    third = stage.send(another.at, "--input", "ts")
    App(stage, third.at).raw(transport(1)[0])
    another.waits_for(1)
    checks.count(another.packets()[0].ssrc != came[0].ssrc, "two streams have one SSRC")
    for relay in sender, second, third:
        relay.stop()


@on_time(0.1)
def through(checks, stage):
    """What a player gets is what the encoder sent, octet for octet, though one in ten datagrams is lost both ways and one in ten is held back."""
    draw = random.Random(7)
    player, many = End(stage), 1200
    receiver = stage.receive(player.at, "--output", "ts", "--latency", 4000)
    path = Path(stage, receiver.at, lambda way, octets: () if draw.random() < 0.1 else (0.01 if draw.random() < 0.1 else 0.002,))
    sender = stage.send(path.at, "--input", "ts")
    room, packets = most(sender), transport(7 * many)
    datagrams = [b"".join(packets[7 * at:7 * at + 7]) for at in range(many)]
    app = App(stage, sender.at)
    pour(app, datagrams[:-3])
    path.rule = lambda way, octets: (0.002,)  # what tells of the last one may be lost too
    pour(app, datagrams[-3:])
    wanted = [one[at:at + room] for one in datagrams for at in range(0, len(one), room)]
    player.waits_for(len(wanted))
    checks.same(player.octets(), wanted, "what the player got")
    checks.count(receiver.run.poll() is None and sender.run.poll() is None, "a relay ended")
    for relay in sender, receiver:
        relay.stop()


def left_out(checks, stage):
    """What is no MPEG-TS goes nowhere, which is told; and without the option MPEG-TS goes nowhere, with what to do."""
    far = End(stage)
    sender = stage.send(far.at, "--input", "ts", "--packets", 1)
    app, good = App(stage, sender.at), transport(2)
    bad = [b"", b"\x47", good[0][:-1], good[0] + b"\x47", b"\x48" + good[0][1:], packet(33, 1, 7, plain(1, 188)[0]), good[0] + good[1][:100]]
    for one in bad:
        app.raw(one)
    app.raw(good[0])
    ends(checks, "left out", sender)
    checks.same((sender.counts().get("sent"), sender.counts().get("unsent")), (1, len(bad)), "sent and unsent")
    checks.count("left out 1 datagrams that are no MPEG-TS, which alone --input ts takes\n" in sender.errors(), f"left out: {sender.errors()}")
    checks.same([one.content.payload for one in media(far)], [good[0]], "what left")
    for side, option in ("send", "--input"), ("receive", "--output"):
        words = [stage.program, side, "--listen", "127.0.0.1:0", "--to", "127.0.0.1:9", "--seconds", "5"]
        for form in "", "mpegts", "TS":
            one = subprocess.run([*words, option, form], capture_output=True, text=True, timeout=60)
            checks.same((one.returncode, one.stderr), (2, f"fault value: {option} {form}: rtp or ts\n"), f"{option} {form!r}")
        other = {"--input": "--output", "--output": "--input"}[option]
        checks.same(subprocess.run([*words, other, "ts"], capture_output=True, timeout=60).returncode, 2, f"{side} {other}")


@on_time(0.2)
def as_rtp(checks, stage):
    """A player of RTP gets packets of RTP from an encoder without, and one without gets payloads from an application of RTP: none where a packet
    carries nothing."""
    player, bare = End(stage), End(stage)
    both = stage.receive(player.at), stage.receive(bare.at, "--output", "ts")
    senders = stage.send(both[0].at, "--input", "ts"), stage.send(both[1].at)
    packets = transport(20)
    pour(App(stage, senders[0].at), packets)
    app = App(stage, senders[1].at, kind=33, number=5)
    for at, one in enumerate(packets):
        app.send(plain(1, 188)[0]._replace(payload=one), padding=at % 3)
        if at % 7 == 3:
            app.send(plain(1, 188)[0]._replace(payload=b""))
    player.waits_for(20)
    bare.waits_for(20)
    checks.same([(one.kind, one.content.payload) for one in player.packets()], [(33, one) for one in packets], "to a player of RTP")
    checks.same(bare.octets(), packets, "to a player without")
    for relay in *both, *senders:
        relay.stop()


@on_time(0.03)
def encoder(checks, stage):
    """FFmpeg's stream through both relays, one in ten datagrams lost both ways: no continuity counter jumps, and each frame is there."""
    if not shutil.which("ffmpeg") or not shutil.which("ffprobe"):
        print("skipped: there is no ffmpeg")
        return
    taken = stage.room / "taken.ts"
    player, frames = End(stage), 150
    receiver = stage.receive(player.at, "--output", "ts", "--latency", 1000, "--loss", 100)
    sender = stage.send(receiver.at, "--input", "ts", "--loss", 100)
    to = "udp://{}:{}?pkt_size=1316".format(*sender.at)
    words = ["ffmpeg", "-v", "error", "-re", "-f", "lavfi", "-i", "testsrc2=size=320x240:rate=30", "-frames:v", str(frames), "-c:v", "mpeg2video", "-b:v", "2M",
             "-f", "mpegts", to]
    subprocess.run(words, check=True, timeout=120)
    # All that came in time for a second, of which nothing more came.
    soon(lambda: len(player.came) == len(sender.logged("sent")) == [len(player.came), time.sleep(1)][0])
    pathlib.Path(taken).write_bytes(b"".join(player.octets()))
    octets, last, jumps = taken.read_bytes(), {}, 0
    for at in range(0, len(octets), PACKET):
        head = octets[at:at + 4]
        pid, has_payload = (head[1] & 31) << 8 | head[2], head[3] & 16
        if has_payload and pid != 8191:
            jumps += pid in last and head[3] & 15 != last[pid] + 1 & 15
            last[pid] = head[3] & 15
    checks.same((len(octets) % PACKET, jumps), (0, 0), f"of {len(octets)} octets, and jumps of continuity counters")
    probe = ["ffprobe", "-v", "warning", "-count_frames", "-select_streams", "v", "-show_entries", "stream=nb_read_frames", "-of", "csv=p=0", str(taken)]
    one = subprocess.run(probe, capture_output=True, text=True, timeout=120)
    checks.same((one.returncode, one.stdout.split(",")[0].strip(), "ontinuity" in one.stderr), (0, str(frames), False), f"what ffprobe counts: {one.stderr}")
    for relay in sender, receiver:
        relay.stop()


if __name__ == "__main__":
    part(sent, through, left_out, as_rtp, encoder)
