#!/usr/bin/env python3
"""Streams of GStreamer and FFmpeg through both relays and a lossy path: each frame is what a decoder makes of the clip itself.

    video.py PROGRAM"""
import pathlib
import random
import shutil
import signal
import subprocess

from base import ends, part, soon
from net import ROOM, Path, free_port, queued

FRAMES, RATE = 150, 15
TAIL = 15  # frames behind those that are compared: a decoder keeps the last ones back until more comes
PATIENCE = ("--latency", 3000)  # on a busy machine too every packet is there in time
# Noise, so that each frame takes packets.
CLIP = f"testsrc2=size=320x240:rate={RATE}:duration={(FRAMES + TAIL) // RATE},noise=alls=30:allf=t"
SLOW = "-b:v", "1000k", "-maxrate", "1000k", "-bufsize", "200k"  # a frame has few enough packets for the relay's socket


def lossy(seed):
    """The rule of a path with 20 ms each way. It spares the first datagrams, since no relay can know what was lost before them."""
    draw, came = random.Random(seed), {"forth": 0, "back": 0}

    def rule(way, _octets):
        came[way] += 1
        drop, late, twice = (draw.random() < part for part in (0.1, 0.1, 0.01))
        if came[way] <= 3:
            return (0.02,)
        rule.lost += drop
        return () if drop else (0.02 + 0.02 * late, 0.023)[:1 + twice]

    rule.lost = 0
    return rule


def lacks(*tools):
    """Says that a part is skipped where a program is missing."""
    missing = [one for one in tools if not shutil.which(one)]
    if missing:
        print("skipped: there is no", *missing)
    return bool(missing)


def run(stage, *words, log="errors", **more):
    """A program that is ended with the stage at the latest."""
    with open(stage.room / log, "a") as errors:
        one = subprocess.Popen([*map(str, words)], stdin=subprocess.DEVNULL, stdout=errors, stderr=errors, **more)
    stage.programs.append(one)
    return one


def port_pair():
    """An even port that nobody has, and its neighbour, which FFmpeg takes for RTCP."""
    while True:
        port = free_port()
        if port % 2 == 0 and queued({port, port + 1}) == (0, 0):
            return port


def relays(stage, player):
    """Both relays with a lossy path between them, before a player's port."""
    receiver = stage.receive(("127.0.0.1", player), *PATIENCE)
    rule = lossy(1)
    path = Path(stage, receiver.at, rule)
    return stage.send(path.at, log=False), receiver, rule


def frames_of(path):
    """The hashes of frames that FFmpeg wrote."""
    text = path.read_text() if path.exists() else ""
    return [one.rsplit(",", 1)[1].strip() for one in text[:text.rfind("\n") + 1].splitlines() if not one.startswith("#")]


def hashes(stage, source, name, *words):
    """FFmpeg decodes a source and keeps the hash of each frame, as soon as it has it."""
    out = stage.room / name
    words = ["ffmpeg", "-nostdin", "-y", "-threads", "1", *words, "-i", source, "-map", "0:v", "-fps_mode", "passthrough"]
    return out, run(stage, *words, "-pix_fmt", "yuv420p", "-flush_packets", "1", "-f", "framemd5", out)


def clip(stage, name, *codec):
    """A clip, and the hashes of its frames as a decoder has them without a network."""
    path = stage.room / name
    run(stage, "ffmpeg", "-nostdin", "-y", "-f", "lavfi", "-i", CLIP, "-pix_fmt", "yuv420p", *codec, path).wait(120)
    out, decoder = hashes(stage, path, name + ".md5")
    decoder.wait(120)
    return path, frames_of(out)


def compare(checks, name, relays, wanted, came):
    """Each frame, and that something was lost and repaired at all."""
    (sender, relay, rule), dropped = relays, queued({relays[0].at[1]})[1]
    counts = relay.logged("play"), relay.logged("gap"), {one[1] for one in relay.logged("taken")}
    wanted, came = wanted[:FRAMES], came[:FRAMES]
    same = sum(one == other for one, other in zip(wanted, came))
    checks.count(len(set(wanted)) == FRAMES, f"{name}: the clip has {len(set(wanted))} frames that differ")
    print(f"{name}: {same} of {len(wanted)} frames are bit-exact; {len(counts[0])} packets, {rule.lost} datagrams lost", flush=True)
    checks.count(came == wanted, f"{name}: {same} of {len(wanted)} frames are bit-exact")
    checks.count(dropped == 0 and sender.run.poll() is None, f"{name}: the system dropped {dropped} packets before the relay")
    checks.count(rule.lost * 20 > len(counts[0]) > FRAMES and not counts[1], f"{name}: {rule.lost} lost, gaps {counts[1][:3]}")


def gstreamer(checks, stage):
    """GStreamer packs VP8, and unpacks and decodes what comes."""
    if lacks("gst-launch-1.0", "ffmpeg"):
        return
    name, raw, size = "GStreamer's VP8", stage.room / "raw", 320 * 240 * 3 // 2
    path, _ = clip(stage, "vp8.mkv", "-c:v", "libvpx", "-deadline", "realtime", "-b:v", "1500k", "-g", "30")
    decode = "vp8dec ! videoconvert ! video/x-raw,format=I420 ! filesink sync=false async=false buffer-mode=unbuffered location="
    launch = "gst-launch-1.0", "-q", "-e"
    run(stage, *launch, *f"filesrc location={path} ! matroskademux ! {decode}{raw}0".split()).wait(120)
    player = port_pair()
    both = relays(stage, player)
    listen = f"udpsrc address=127.0.0.1 port={player} buffer-size={ROOM}"
    caps = "application/x-rtp,media=video,clock-rate=90000,payload=96,encoding-name=VP8"
    decoder = run(stage, *launch, *f"{listen} caps={caps} ! rtpvp8depay ! {decode}{raw}1".split())
    soon(lambda: bound(player))
    source = f"filesrc location={path} ! matroskademux ! clocksync ! rtpvp8pay pt=96 mtu=1200 ! udpsink host=127.0.0.1"
    run(stage, *launch, *f"{source} port={both[0].at[1]} sync=false async=false".split()).wait(120)
    soon(lambda: pathlib.Path(f"{raw}1").stat().st_size >= FRAMES * size)
    decoder.send_signal(signal.SIGINT)
    decoder.wait(30)
    frames = [[octets[at:at + size] for at in range(0, len(octets), size)]
              for octets in (pathlib.Path(f"{raw}{i}").read_bytes() for i in (0, 1))]
    compare(checks, name, both, *frames)


def bound(port):
    """Whether somebody has a port."""
    return any(f":{port:04X} " in one[:24] for one in pathlib.Path("/proc/net/udp").read_text().splitlines())


def ffmpeg(checks, stage):
    """FFmpeg packs H.264, and unpacks and decodes what comes."""
    if lacks("ffmpeg"):
        return
    name, sdp = "FFmpeg's H.264", stage.room / "stream.sdp"
    path, wanted = clip(stage, "h264.mkv", "-c:v", "libx264", "-tune", "zerolatency", "-g", "30", *SLOW)
    player = port_pair()
    both = relays(stage, player)
    words = ("-c", "copy", "-sdp_file", sdp, "-f", "rtp")
    to = f"rtp://127.0.0.1:{both[0].at[1]}?pkt_size=1200"
    run(stage, "ffmpeg", "-nostdin", "-y", "-i", path, "-t", "0.1", *words, f"rtp://127.0.0.1:{port_pair()}").wait(60)
    text = sdp.read_text()
    sdp.write_text("".join(f"m=video {player} RTP/AVP 96\n" if one.startswith("m=video") else one + "\n" for one in text.splitlines()))
    out, decoder = hashes(stage, sdp, "came.md5", "-protocol_whitelist", "file,udp,rtp", "-reorder_queue_size", "0",
                          "-buffer_size", ROOM)
    soon(lambda: bound(player))
    run(stage, "ffmpeg", "-nostdin", "-y", "-re", "-i", path, *words, to).wait(120)
    soon(lambda: len(frames_of(out)) >= FRAMES)
    decoder.send_signal(signal.SIGINT)
    decoder.wait(30)
    compare(checks, name, both, wanted, frames_of(out))


def guarded(play):
    """A scene whose programs are ended with it."""
    def scene(checks, stage):
        stage.programs = []
        try:
            play(checks, stage)
        finally:
            for one in stage.programs:
                if one.poll() is None:
                    one.kill()
                    one.wait()
    scene.__name__ = play.__name__
    return scene


if __name__ == "__main__":
    part(guarded(gstreamer), guarded(ffmpeg), beside=False)
