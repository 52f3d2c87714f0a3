#!/usr/bin/env python3
"""Two streams of two near ends to one session of GStreamer, whose NACKs for both share datagrams.

    two.py FOLDER SEED

Each datagram of feedback is handed to the senders of both streams, and each hears what is its own. GStreamer has so little
bandwidth that it sends some fifteen such datagrams a second, and one in four has NACKs of both."""
import sys

from ends import sink, source
from rtx import ELEMENTS, check_stream, receives, stop
from stage import FRAMES, LOSSY, TAIL, VP8, Checks, Stage, counts_of, encode, packets_of, skip_without, wait_for_ports

# The pattern, the two SSRCs and the first sequence number of each.
STREAMS = [("smpte", 0x11111111, 0x22222222, 65300), ("snow", 0x44444444, 0x55555555, 1000)]
BANDWIDTH = 1000000


def run(stage, clips, kept, files):
    """Sends both clips. It gives what the path and the near ends told."""
    front, ahead, back, home, *encoders = stage.ports(6)
    words = [VP8.stream(media, repair, 0, first) for _, media, repair, first in STREAMS]
    path = stage.path((front, ahead, back, home), words, *LOSSY, "--spare", 200)  # both first frames
    near = stage.run("near", "--seconds", 120, home, front, *(one for pair in zip(encoders, words) for one in pair))
    player = receives(stage, ahead, back, [(one[1], one[2], *two) for one, two in zip(STREAMS, files)], BANDWIDTH)
    wait_for_ports((front, ahead, back, home, *encoders))
    stage.play(" ".join(f"{source(clip, VP8, keep)} ! {sink(port)}"
                        for (clip, _), keep, port in zip(clips, kept, encoders))).wait(60)
    stop(player, files, [packets_of(one) for one in kept])
    stage.clear()
    return path.said, near.said


def main():
    skip_without(ELEMENTS)
    checks = Checks()
    with Stage(*sys.argv[1:3]) as stage:
        clips = [encode(stage, VP8, FRAMES + TAIL, pattern) for pattern, *_ in STREAMS]
        kept = [stage.room / f"sent{pattern}" for pattern, *_ in STREAMS]
        files = [(stage.room / f"packets{pattern}", stage.room / f"shown{pattern}") for pattern, *_ in STREAMS]
        path, near = run(stage, clips, kept, files)
        books, sessions, both = counts_of(path, "stream"), counts_of(near, "session"), counts_of(near, "near")[0]
        for at, (pattern, *_) in enumerate(STREAMS):
            name = f"two streams, {pattern}"
            check_stream(checks, name, clips[at], packets_of(kept[at]), files[at], books[at], sessions[at])
            checks.count(sessions[at]["nacks"] > 0 and sessions[at]["others"] >= 10, f"{name}: near: {sessions[at]}")
        print(f"two streams: {both['feedback']} datagrams of feedback, {both['shared']} of them with NACKs of both")
        checks.count(both["shared"] >= 10 and both["neither"] == 0, f"two streams: near: {both}")
    checks.tell()


main()
