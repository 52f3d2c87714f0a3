#!/usr/bin/env python3
"""Relays with a key beside others that speak SRTP: GStreamer's srtpenc and srtpdec (libsrtp), and ffmpeg's srtp://.

    srtp_peers.py PROGRAM

A part whose program is missing says that it is skipped."""
import random
import shutil
import signal
import subprocess
import time

from base import on_time, part, soon
from net import App, End, Path
from rtp import plain
from srtp import Srtp


def has(*programs):
    """Whether programs are there, and else it says which is not."""
    missing = [one for one in programs if not shutil.which(one)]
    if not missing and "gst-launch-1.0" in programs and subprocess.run(["gst-inspect-1.0", "--exists", "srtpenc"]).returncode:
        missing = ["srtpenc of gstreamer1.0-plugins-bad"]
    if missing:
        print(f"skipped: it wants {' '.join(missing)}", flush=True)
    return not missing


def shaken(draw, losses, way, octets):
    """One in twenty is lost, one in ten comes later than those behind it, and one in fifty comes twice."""
    delay = draw.choice((0.005,) * 9 + (0.03,))
    if draw.random() < losses:
        return ()
    return (delay,) if draw.random() < 0.98 else (delay, delay + 0.01)


@on_time(0.5)
def from_gstreamer(checks, stage):
    """What GStreamer protects is played as it was before, in order and each once, but for what the path lost: there nobody answers NACKs."""
    if not has("gst-launch-1.0"):
        return
    draw, srtp, player, own = random.Random(), Srtp(), End(stage), End(stage)
    receiver = stage.receive(player.at, "--key-file", srtp.file(stage), "--challenge", "off", "--latency", 300)
    path = Path(stage, receiver.at, lambda way, octets: shaken(draw, 0.05, way, octets))
    line = (f"videotestsrc num-buffers=100 pattern=snow ! video/x-raw,width=320,height=240,framerate=60/1 ! vp8enc deadline=1 ! rtpvp8pay mtu=1100 ! tee name=t "
            f"t. ! queue ! udpsink sync=false host=127.0.0.1 port={own.at[1]} "
            f"t. ! queue ! srtpenc key={srtp.master.hex()} ! identity sleep-time=2000 ! udpsink sync=false host=127.0.0.1 port={path.at[1]}")
    ran = subprocess.run(["gst-launch-1.0", "-q", *line.split()], capture_output=True, text=True, timeout=120)
    checks.same(ran.returncode, 0, f"gst-launch-1.0 ended: {ran.stderr[-300:]}")
    time.sleep(2)
    receiver.stop(signal.SIGTERM)
    sent, came = [one.content for one in own.packets()], [one.content for one in player.packets()]
    checks.count(len(came) > 0.9 * len(sent) > 300, f"srtpenc: {len(came)} of {len(sent)} came, one in twenty is lost")
    places = [sent.index(one) if one in sent else None for one in came]
    checks.count(None not in places and places == sorted(set(places)), "srtpenc: what came is not what was sent, in order and once")


@on_time(0.5)
def to_gstreamer(checks, stage):
    """What a relay protects GStreamer opens: all of it, over a path that loses nothing and has some come twice and late."""
    if not has("gst-launch-1.0"):
        return
    draw, srtp, own, contents = random.Random(), Srtp(), End(stage), plain(600)
    inlet = End(stage)  # (its port is that of GStreamer, once it is closed)
    port = inlet.at[1]
    inlet.close()
    path = Path(stage, ("127.0.0.1", port), lambda way, octets: shaken(draw, 0, way, octets))
    sender = stage.send(path.at, "--key-file", srtp.file(stage), "--rate", "1%")
    app = App(stage, sender.at)
    app.send(contents[0])
    soon(lambda: path.passed)
    ssrc = int.from_bytes(path.passed[0][1][8:12], "big")
    caps = (f"application/x-srtp,media=video,clock-rate=90000,encoding-name=VP8,payload=96,ssrc=(uint){ssrc},srtp-key=(buffer){srtp.master.hex()},"
            "srtp-cipher=aes-128-icm,srtp-auth=hmac-sha1-80,srtcp-cipher=aes-128-icm,srtcp-auth=hmac-sha1-80")
    line = ["udpsrc", f"port={port}", f"caps={caps}", "!", "srtpdec", "!", "udpsink", "sync=false", "host=127.0.0.1", f"port={own.at[1]}"]
    running = subprocess.Popen(["gst-launch-1.0", "-q", *line], stdout=subprocess.DEVNULL, stderr=subprocess.DEVNULL)
    time.sleep(1.5)
    app.stream(contents[1:], 300)
    time.sleep(1)
    running.terminate()
    came = [one.content for one in own.packets()]
    checks.same(sum(one not in came for one in contents[1:]), 0, f"srtpdec: of {len(contents) - 1}, those that did not come")
    checks.same([one for one in came if one not in contents], [], "srtpdec: what came and was not sent")


@on_time(0.5)
def from_ffmpeg(checks, stage):
    """What ffmpeg protects is played, and nothing of it is refused."""
    if not has("ffmpeg"):
        return
    srtp, player = Srtp(), End(stage)
    receiver = stage.receive(player.at, "--key-file", srtp.file(stage), "--challenge", "off")
    line = ["-f", "lavfi", "-i", "testsrc2=duration=4:size=320x240:rate=30", "-c:v", "libvpx", "-deadline", "realtime", "-f", "rtp",
            "-srtp_out_suite", "AES_CM_128_HMAC_SHA1_80", "-srtp_out_params", srtp.text(), f"srtp://127.0.0.1:{receiver.at[1]}?pkt_size=1100"]
    ran = subprocess.run(["ffmpeg", "-re", "-v", "error", "-nostdin", *line], capture_output=True, text=True, timeout=120)
    checks.same(ran.returncode, 0, f"ffmpeg ended: {ran.stderr[-300:]}")
    time.sleep(1)
    receiver.stop(signal.SIGTERM)
    checks.count(len(player.came) > 100, f"ffmpeg: {len(player.came)} came")
    checks.same([line for line in receiver.lines() if line.startswith("refused")], [], "ffmpeg: what was refused")
    numbers = [one.number for one in player.packets()]
    checks.same([b - a & 65535 for a, b in zip(numbers, numbers[1:])], [1] * (len(numbers) - 1), "ffmpeg: numbers that follow one another")


part(from_gstreamer, to_gstreamer, from_ffmpeg)
