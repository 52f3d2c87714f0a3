#!/usr/bin/env python3
"""GStreamer's encoder, the near end, a lossy path, the far end, GStreamer's decoder: VP8 and JPEG, and once without NACKs.

    through.py FOLDER SEED

Every packet has to come out as it went in, in its order, with its timestamp and marker, and every frame bit by bit. Without
NACKs frames have to be lost: else these checks could not fail."""
import sys

from ends import Far, contents, sink, source, tell
from stage import (FIRST, FRAMES, JPEG, LOSSY, VP8, Checks, Stage, counts_of, encode, number, packets_of, same, skip_without,
                   wait_for_ports)

ELEMENTS = """videotestsrc videoconvert vp8enc vp8dec rtpvp8pay rtpvp8depay jpegenc jpegdec rtpjpegpay rtpjpegdepay
    matroskamux matroskademux clocksync rtpstreampay rtpstreamdepay udpsink tee queue filesink"""


class Through:
    """One clip from end to end."""

    def __init__(self, stage, codec, name, *far):
        self.clip, self.frames = encode(stage, codec)
        kept = stage.room / f"sent{codec.kind}"
        front, ahead, back, home, encoder = stage.ports(5)
        stream = codec.stream()
        path = stage.path((front, ahead, back, home), [stream], *LOSSY)
        near = stage.run("near", "--seconds", 120, home, front, encoder, stream)
        far = Far(stage, codec, ahead, back, stream, *far)
        wait_for_ports((front, ahead, back, home, encoder))
        stage.play(f"{source(self.clip, codec, kept)} ! {sink(encoder)}").wait(60)
        self.far = counts_of(far.words(), "far")[0]
        self.near = counts_of(near.end(), "session")[0]
        self.path = counts_of(path.end(), "stream")[0]
        stage.clear()
        self.status, self.sent, self.came, self.raw = far.status, packets_of(kept), far.packets(), far.frames()
        tell(name, len(self.sent), self.path, self.frames, self.raw, f"{self.far['gaps']} given up")


def whole(checks, stage, name, codec):
    """Everything comes whole."""
    run = Through(stage, codec, name)
    largest, lost = max(map(len, run.sent)), run.path["lost"]
    checks.count(run.status == (0, 0), f"{name}: the far end and the decoder ended with {run.status}")
    checks.count(len(run.frames) == len(set(run.frames)) == FRAMES, f"{name}: the clip has {len(run.frames)} frames")
    checks.count(run.raw == run.frames, f"{name}: the frames")
    checks.count(contents(run.came) == contents(run.sent), f"{name}: the packets")
    checks.count([number(one) for one in run.came] == [(FIRST + i) & 65535 for i in range(len(run.sent))], f"{name}: the numbers")
    checks.count(largest == 1400, f"{name}: the largest packet has {largest} octets")
    checks.count(run.near["gaps"] == run.near["bad"] == 0 and run.near["taken"] == len(run.sent), f"{name}: near: {run.near}")
    checks.count(lost * 20 > len(run.sent) and run.path["repaired"] == lost, f"{name}: path: {run.path}")
    checks.count(run.path["vain"] * 10 <= len(run.sent), f"{name}: {run.path['vain']} asked for in vain")
    checks.count(run.far["gaps"] == run.far["refused"] == run.far["overrun"] == 0, f"{name}: far: {run.far}")


def control(checks, stage):
    """Without NACKs nothing is repaired, and frames are not what they were."""
    run = Through(stage, VP8, "VP8 without NACKs", "--nacks", 0, "--patience", 100)
    checks.count(run.far["gaps"] * 20 > len(run.sent), f"without NACKs: far: {run.far}")
    checks.count(same(run.frames, run.raw) * 2 < len(run.frames), "without NACKs: the frames")
    checks.count(contents(run.came) != contents(run.sent), "without NACKs: the packets")


def main():
    skip_without(ELEMENTS)
    checks = Checks()
    with Stage(*sys.argv[1:3]) as stage:
        whole(checks, stage, "VP8", VP8)
        control(checks, stage)
        whole(checks, stage, "JPEG", JPEG)
    checks.tell()


main()
