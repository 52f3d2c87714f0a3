#!/usr/bin/env python3
"""GStreamer's own retransmission on one side: rtprtxsend into the far end, and the near end into rtprtxreceive.

    rtx.py FOLDER SEED

GStreamer's sender repeats nothing when it falls silent, and its jitter buffer drops a retransmission that it did not ask for,
as that of the last packet. So the last second and a half of a clip is only there to show what is missing before: the
packets and frames in front of it are compared. GStreamer's receiver can't be told with which packet a stream begins, so the
path spares the first ones."""
import signal
import sys
import time

from ends import Far, contents, head, sink, source, tell
from stage import (FIRST, FRAMES, LOSSY, MEDIA, RAW, REPAIR, TAIL, VP8, Checks, Stage, counts_of, encode, frames_of, number,
                   packets_of, skip_without, wait_for_ports)

ELEMENTS = """videotestsrc videoconvert vp8enc vp8dec rtpvp8pay rtpvp8depay matroskamux matroskademux clocksync rtpstreampay
    rtpstreamdepay udpsink udpsrc tee queue filesink fakesink rtpsession rtprtxsend rtprtxreceive rtpssrcdemux rtpjitterbuffer"""
LATENCY = 3000
TYPES = "payload-type-map=application/x-rtp-pt,96=(uint)97"


def sends(stage, clip, kept, port, rtcp_port):
    """GStreamer sends the clip, keeps its packets, and retransmits."""
    return stage.play(f"""rtpsession name=s rtp-profile=avpf
        {source(clip, VP8, kept, f'ssrc={MEDIA} seqnum-offset={FIRST}')}
          ! rtprtxsend {TYPES} ssrc-map=application/x-rtp-ssrc-map,{MEDIA}=(uint){REPAIR} max-size-packets=2000
          ! s.send_rtp_sink  s.send_rtp_src ! {sink(port)}
        udpsrc address=127.0.0.1 port={rtcp_port} reuse=false ! s.recv_rtcp_sink
        s.send_rtcp_src ! {sink(port)}""")


def from_gstreamer(checks, stage):
    """rtprtxsend answers the far end's NACKs."""
    name = "rtprtxsend"
    clip, frames = encode(stage, VP8, FRAMES + TAIL)
    front, ahead, back, home = stage.ports(4)
    kept, stream = stage.room / "sentrtx", VP8.stream()
    path = stage.path((front, ahead, back, home), [stream], *LOSSY)
    end = Far(stage, VP8, ahead, back, stream)
    wait_for_ports((front, ahead, back))
    sends(stage, clip, kept, front, home)
    far = counts_of(end.words(), "far")[0]
    stage.clear()
    counts = counts_of(path.said, "stream")[0]
    sent, came, raw = packets_of(kept), end.packets(), end.frames()
    tell(name, len(sent), counts, frames[:FRAMES], raw, f"{far['gaps']} given up, {far['rtcp']} reports passed over")
    sent, came = head(sent), head(came)
    checks.count(end.status == (0, 0), f"{name}: the far end and the decoder ended with {end.status}")
    checks.count(raw[:FRAMES] == frames[:FRAMES], f"{name}: the frames")
    checks.count(contents(came) == contents(sent), f"{name}: the packets")
    checks.count([number(one) for one in came] == [number(one) for one in sent], f"{name}: the numbers")
    checks.count(counts["lost"] > 20 and counts["repaired"] * 100 >= counts["lost"] * 90, f"{name}: path: {counts}")
    checks.count(far["refused"] == far["overrun"] == 0 and far["rtcp"] > 0, f"{name}: far: {far}")


def receives(stage, port, rtcp_port, streams, bandwidth=40000000):
    """GStreamer receives streams, each with the SSRCs and the files of its packets and its frames, and asks for what is lost. It
    may send a datagram of feedback the more often the more bandwidth it has, in octets a second."""
    maps = ",".join(f"{media}=(uint){repair}" for media, repair, _, _ in streams)
    ends = "\n".join(f"""d.src_{media} ! rtpjitterbuffer do-retransmission=true do-lost=true latency={LATENCY} rtx-next-seqnum=false
        ! tee name=t{media} ! queue ! rtpstreampay ! filesink buffer-mode=unbuffered sync=false async=false location={packets}
        t{media}. ! queue ! {VP8.unpack} ! {RAW}{raw}""" for media, _, packets, raw in streams)
    return stage.play(f"""rtpsession name=s rtp-profile=avpf bandwidth={bandwidth} rtcp-min-interval=20000000
        udpsrc address=127.0.0.1 port={port} reuse=false buffer-size=1000000
          caps=application/x-rtp{VP8.caps},rtcp-fb-nack=(boolean)true ! s.recv_rtp_sink
        s.recv_rtp_src ! rtprtxreceive {TYPES} ssrc-map=application/x-rtp-ssrc-map,{maps} ! rtpssrcdemux name=d
        {ends}
        s.send_rtcp_src ! {sink(rtcp_port)}""")


def wait_for_packets(path, count):
    """Waits until a file has so many packets, or does not grow for longer than the jitter buffer keeps one."""
    size, grown = -1, time.monotonic()
    while time.monotonic() - grown < LATENCY / 1000 + 2:
        now = path.stat().st_size if path.exists() else 0
        if now != size:
            size, grown = now, time.monotonic()
            if now and len(packets_of(path)) >= count:
                return
        time.sleep(0.1)


def stop(player, files, sent):
    """Ends a pipeline that receives, by an EOS, once all that was sent has come out of its jitter buffers."""
    for (packets, _), one in zip(files, sent):
        wait_for_packets(packets, len(one))
    player.send_signal(signal.SIGINT)
    player.wait(20)


def check_stream(checks, name, clip, sent, files, books, session):
    """What became of a stream of the near end at GStreamer: what it lost came back, but for what is not compared."""
    frames, packets, shown = clip[1][:FRAMES], packets_of(files[0]), frames_of(files[1])
    tell(name, len(sent), books, frames, shown, f"{len(packets)} packets came out of the jitter buffer")
    checks.count(session["gaps"] == session["bad"] == session["unknown"] == session["exhausted"] == 0, f"{name}: near: {session}")
    checks.count(books["lost"] > 20 and books["repaired"] * 100 >= books["lost"] * 95, f"{name}: path: {books}")
    checks.count(contents(head(packets)) == contents(head(sent)), f"{name}: the packets")
    checks.count(shown[:FRAMES] == frames, f"{name}: the frames")


def to_gstreamer(checks, stage):
    """The near end answers GStreamer's NACKs, whatever SSRC it reports under."""
    clip = encode(stage, VP8, FRAMES + TAIL)
    front, ahead, back, home, encoder = stage.ports(5)
    kept, files = stage.room / "sentnear", (stage.room / "packets", stage.room / "shown")
    stream = VP8.stream(reporter=0)
    path = stage.path((front, ahead, back, home), [stream], *LOSSY, "--spare", 20)
    near = stage.run("near", "--seconds", 120, home, front, encoder, stream)
    player = receives(stage, ahead, back, [(MEDIA, REPAIR, *files)])
    wait_for_ports((front, ahead, back, home, encoder))
    stage.play(f"{source(clip[0], VP8, kept)} ! {sink(encoder)}").wait(60)
    stop(player, [files], [packets_of(kept)])
    stage.clear()
    check_stream(checks, "rtprtxreceive", clip, packets_of(kept), files, counts_of(path.said, "stream")[0],
                 counts_of(near.said, "session")[0])


def main():
    skip_without(ELEMENTS)
    checks = Checks()
    with Stage(*sys.argv[1:3]) as stage:
        from_gstreamer(checks, stage)
        to_gstreamer(checks, stage)
    checks.tell()


if __name__ == "__main__":
    main()
