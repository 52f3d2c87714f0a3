#!/usr/bin/env python3
"""Relays with several payload types beside GStreamer's own retransmission: rtprtxsend before a relay, and rtprtxreceive behind one.

    type_peers.py PROGRAM

It says that it is skipped where GStreamer is missing."""
import random
import shutil
import subprocess
import time

from base import on_time, part, soon
from net import App, End, Path, udp
from payload_types import KINDS, MEDIA, PAIRS, RTX, WORDS, exact, pour, turns
from rtp import original, parse, plain

MANY, TAIL = 2000, 100
MAP = "payload-type-map=application/x-rtp-pt," + ",".join(f"{media}=(uint){rtx}" for media, rtx in PAIRS.items())
STREAM = "application/x-rtp,media=(string)audio,clock-rate=(int)48000,encoding-name=(string)X-MANY"  # 160 ticks a packet, 300 packets a second


def has_gstreamer():
    """Whether GStreamer is there, and else it says so."""
    if not shutil.which("gst-launch-1.0"):
        print("skipped: it wants gst-launch-1.0", flush=True)
        return False
    return True


def free():
    """A port that nobody has."""
    one = udp()
    port = one.getsockname()[1]
    one.close()
    return port


def launched(stage, line):
    """GStreamer with this pipeline, which ends with the stage."""
    running = subprocess.Popen(["gst-launch-1.0", "-q", *line.split()], stdout=subprocess.DEVNULL, stderr=open(stage.room / "gst", "w"))
    running.close = lambda: (running.kill(), running.wait())
    stage.keep(running)
    time.sleep(2)
    return running


def losing(draw, first):
    """One in twenty is lost both ways, but of the first ones."""
    def rule(way, octets):
        one = parse(octets) if way == "forth" else None
        spared = one and one.ssrc == MEDIA and (one.number - first & 65535) < 20
        return (0.01,) if spared or draw.random() >= 0.05 else ()
    return rule


@on_time(0.5)
def from_gstreamer(checks, stage):
    """What rtprtxsend retransmits under the types that belong to its originals' is played under these, and nothing is lost."""
    if not has_gstreamer():
        return
    name, player, inlet, home = "rtprtxsend", End(stage), free(), free()
    receiver = stage.receive(player.at, *WORDS, "--latency", 2000)
    path = Path(stage, receiver.at, losing(random.Random(), 100), ("127.0.0.1", home))
    launched(stage, f"""rtpsession name=s rtp-profile=avpf
        udpsrc address=127.0.0.1 port={inlet} caps={STREAM},ssrc=(uint){MEDIA} ! rtprtxsend {MAP}
          ssrc-map=application/x-rtp-ssrc-map,{MEDIA}=(uint){RTX} max-size-packets=2000 ! s.send_rtp_sink
        s.send_rtp_src ! udpsink host=127.0.0.1 port={path.at[1]} sync=false async=false
        udpsrc address=127.0.0.1 port={home} ! s.recv_rtcp_sink""")
    contents, kinds = plain(MANY + TAIL, 300), turns(1, MANY + TAIL)
    pour(App(stage, ("127.0.0.1", inlet), number=100), contents, kinds, 300)
    soon(lambda: len(player.came) >= MANY, 5)
    came = player.packets()[:MANY]
    player.came = player.came[:MANY]
    exact(checks, name, player, contents[:MANY], kinds[:MANY], 100)
    again = [one for way, octets in path.passed if way == "forth" for one in [parse(octets)] if one and one.ssrc == RTX]
    checks.count(len(again) > MANY / 40, f"{name}: {len(again)} retransmissions")
    checks.same({one.kind for one in again}, set(PAIRS.values()), f"{name}: types of retransmissions")
    print(f"{name}: {len(came)} of {MANY} played, {len(again)} retransmitted", flush=True)


@on_time(0.5)
def to_gstreamer(checks, stage):
    """What a relay retransmits is what rtprtxreceive takes for its original: each that comes has its type. All come but for two at most: GStreamer's
    jitter buffer now and then asks for a packet until it is given up, though it came on time again and again."""
    if not has_gstreamer():
        return
    name, inlet, outlet = "rtprtxreceive", free(), End(stage)
    path = Path(stage, ("127.0.0.1", inlet), losing(random.Random(), 100))
    sender = stage.send(path.at, *WORDS)
    launched(stage, f"""rtpsession name=s rtp-profile=avpf bandwidth=40000000 rtcp-min-interval=20000000
        udpsrc address=127.0.0.1 port={inlet} caps={STREAM},rtcp-fb-nack=(boolean)true ! s.recv_rtp_sink
        s.recv_rtp_src ! rtprtxreceive {MAP} ssrc-map=application/x-rtp-ssrc-map,{MEDIA}=(uint){RTX} ! rtpssrcdemux name=d
        d.src_{MEDIA} ! rtpjitterbuffer do-retransmission=true latency=2000 rtx-next-seqnum=false
          ! udpsink host=127.0.0.1 port={outlet.at[1]} sync=false async=false
        s.send_rtcp_src ! udpsink host=127.0.0.1 port={path.rear.getsockname()[1]} sync=false async=false""")
    contents, kinds = plain(MANY + TAIL, 300), turns(2, MANY + TAIL)
    app = App(stage, sender.at, number=100)
    pour(app, contents, kinds, 300)
    time.sleep(3)
    sent = {100 + i & 65535: (kind, one) for i, (kind, one) in enumerate(zip(kinds, contents))}
    came = {one.number: (one.kind, one.content) for one in outlet.packets() if one}
    wanted = [100 + i & 65535 for i in range(MANY)]
    missing = [number for number in wanted if number not in came]
    checks.count(len(missing) <= 2, f"{name}: numbers that did not come: {missing[:9]}")
    checks.same([number for number in came if came[number] != sent[number]][:5], [], f"{name}: numbers with another type or content")
    again = [one for way, octets in path.passed if way == "forth" for one in [parse(octets)] if one and one.ssrc == RTX]
    wrong = [one for one in again if (PAIRS[sent[original(one)[0]][0]], sent[original(one)[0]][1]) != (one.kind, original(one)[1])]
    checks.same(wrong[:1], [], f"{name}: a retransmission on the wire")
    checks.count(len(again) > MANY / 40, f"{name}: {len(again)} retransmissions")
    print(f"{name}: {len(came)} of {MANY + TAIL} came, {len(again)} retransmitted", flush=True)


if __name__ == "__main__":
    part(from_gstreamer, to_gstreamer)
