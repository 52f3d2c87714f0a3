"""What the comparisons with GStreamer's own elements share: clips, their frames as a decoder beside the encoder has them, and the path."""
import os
import pathlib
import re
import subprocess
import sys

sys.path.insert(0, str(pathlib.Path(__file__).resolve().parents[3] / "tests/peers"))
sys.dont_write_bytecode = True
import stage

MEDIA, RTX, REPORTER, FIRST = stage.MEDIA, stage.REPAIR, stage.REPORTER, 1000
PATH_PROGRAM = os.environ.get("PATH_PROGRAM", "path")
# Encoder and payloader, depayloader and decoder, encoding name. VP8's encoder has a fixed speed: else it looks at the time that it takes, and no
# two runs have the same frames.
CODECS = {
    "vp8": ("vp8enc deadline=1 cpu-used=-4 threads=1 keyframe-max-dist=30 target-bitrate=1000000", "rtpvp8pay",
            "rtpvp8depay ! vp8dec", "VP8"),
    "jpeg": ("jpegenc", "rtpjpegpay", "rtpjpegdepay ! jpegdec", "JPEG"),
    "h264": ("x264enc tune=zerolatency threads=1 key-int-max=30 bitrate=1000 ! video/x-h264,profile=constrained-baseline",
             "rtph264pay config-interval=-1", "rtph264depay ! avdec_h264 max-threads=1", "H264"),
}
CLIP = "videotestsrc pattern=ball num-buffers=%d ! video/x-raw,format=I420,width=320,height=240,framerate=30/1"
SUMS = "videoconvert ! video/x-raw,format=I420 ! checksumsink sync=false"


def clip(codec, frames):
    """The packets of a clip, as fast as its encoder makes them."""
    encode, pay, _, _ = CODECS[codec]
    return f"{CLIP % frames} ! {encode} ! {pay} pt=96 ssrc={MEDIA} seqnum-offset={FIRST} mtu=1200"


def sums_of(text):
    """The checksums of frames, of the lines that checksumsink prints."""
    return re.findall(r"^\S+ ([0-9a-f]{32,})", text, re.M)


def direct(codec, frames):
    """The checksums of what no path has touched. Without the payloader between, x264enc has another profile."""
    done = subprocess.run(["gst-launch-1.0", "-q", *f"{clip(codec, frames)} ! {CODECS[codec][2]} ! {SUMS}".split()],
                          capture_output=True, text=True, timeout=60)
    return sums_of(done.stdout)


def exact(came, wanted):
    """How many of the frames that came are the wanted ones, in order."""
    at = count = 0
    for one in came:
        if one in wanted[at:]:
            at = wanted.index(one, at) + 1
            count += 1
    return count


def missing_for(codec, *more):
    """The elements that are not there."""
    chains = " ! ".join(CODECS[codec][:3]).split(" ! ")
    elements = [chain.split()[0] for chain in chains if "/" not in chain]
    return stage.missing(" ".join([*elements, *more]))


def path(options, ports, *streams):
    """A lossy path between the ports FRONT, AHEAD, BACK and HOME; its counts are what it prints at its end."""
    words = [PATH_PROGRAM, *options.split(), *map(str, ports), *streams]
    return subprocess.Popen(words, stdout=subprocess.PIPE, text=True)


def hurry(*processes):
    """Has this process, and others, run at the priority of real time, where the system lets: else a busy machine is taken for the path."""
    try:
        for one in (0, *(it.pid for it in processes)):
            os.sched_setscheduler(one, os.SCHED_FIFO, os.sched_param(20))
    except PermissionError:
        pass


def counts_of(path):
    """The counts of a path, which is ended."""
    path.terminate()
    return {name: int(number) for name, number in re.findall(r"([a-z_]+) (\d+)", path.communicate()[0])}
