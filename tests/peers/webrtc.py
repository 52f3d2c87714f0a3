#!/usr/bin/python3
"""aiortc's RTP sender into the far end, and the near end into aiortc's RTP receiver, both over plain UDP.

    webrtc.py FOLDER SEED

These are aiortc's own RTCRtpSender and RTCRtpReceiver, with what they have of a history, RTX, NACKs, a jitter buffer and VP8.
What they take for a DTLS transport here sends and hands on datagrams as they are. aiortc asks again only when it notices
another loss, so the last second and a half of a clip is only there to show what is missing before, as in rtx.py."""
import asyncio
import hashlib
import sys
import time

try:
    import aiortc
    import aiortc.rtcrtpsender
    import av
    from aiortc.rtcrtpparameters import (RTCRtpCodecParameters, RTCRtpDecodingParameters, RTCRtpHeaderExtensionParameters,
                                         RTCRtpReceiveParameters, RTCRtpRtxParameters, RTCRtpSendParameters)
    from aiortc.rtcrtpreceiver import RemoteStreamTrack
    from aiortc.rtp import HeaderExtensionsMap, RtcpPacket, RtpPacket, is_rtcp
except ImportError as lack:
    aiortc = lack

from ends import Far, contents, head, sink, source, tell
from stage import (FIRST, FRAMES, LOSSY, MEDIA, RATE, REPAIR, REPORTER, TAIL, VP8, Checks, Stage, counts_of, encode, number,
                   packets_of, skip_without, wait_for_ports)

ELEMENTS = """videotestsrc videoconvert vp8enc vp8dec rtpvp8pay rtpvp8depay matroskamux matroskademux clocksync rtpstreampay
    rtpstreamdepay udpsink tee queue filesink"""
EXTENSIONS = {1: "urn:ietf:params:rtp-hdrext:sdes:mid", 3: "http://www.webrtc.org/experiments/rtp-hdrext/abs-send-time"}


class Transport(asyncio.DatagramProtocol):
    """What an RTP sender or receiver takes for its DTLS transport: datagrams of UDP, one after another."""

    state, _stats_id = "connected", "udp"

    def __init__(self, to):
        self.to, self.end, self.extensions, self.sent, self.rtcp = ("127.0.0.1", to), None, HeaderExtensionsMap(), [], 0
        self.came = asyncio.Queue()

    @classmethod
    async def between(cls, at, to):
        """One at a port, that sends to another one."""
        loop = asyncio.get_running_loop()
        one = (await loop.create_datagram_endpoint(lambda: cls(to), local_addr=("127.0.0.1", at)))[1]
        one.handling = asyncio.ensure_future(one.handle())
        return one

    def connection_made(self, transport):
        self.udp = transport

    def datagram_received(self, octets, address):
        self.came.put_nowait(octets)

    async def handle(self):
        """Hands each datagram on, as aiortc's own transport does."""
        while True:
            octets = await self.came.get()
            if is_rtcp(octets):
                for packet in RtcpPacket.parse(octets):
                    await self.end._handle_rtcp_packet(packet)
            else:
                packet = RtpPacket.parse(octets, self.extensions)
                await self.end._handle_rtp_packet(packet, arrival_time_ms=int(time.time() * 1000))

    async def _send_rtp(self, octets):
        self.sent.append(octets)
        self.udp.sendto(octets, self.to)

    def _register(self, end, parameters):
        self.end = end
        self.extensions.configure(parameters)

    _register_rtp_sender = _register_rtp_receiver = _register

    def _unregister(self, end):
        """An end that stops still says BYE afterwards."""

    _unregister_rtp_sender = _unregister_rtp_receiver = _unregister

    def close(self):
        self.handling.cancel()
        self.udp.close()


def parameters(make):
    """VP8 as type 96, retransmissions as 97, and two header extensions."""
    one = make(codecs=[RTCRtpCodecParameters("video/VP8", 90000, payloadType=96),
                       RTCRtpCodecParameters("video/rtx", 90000, payloadType=97, parameters={"apt": 96})],
               headerExtensions=[RTCRtpHeaderExtensionParameters(*one) for one in EXTENSIONS.items()])
    one.muxId = "0"
    return one


def track_of(clip):
    """The clip's encoded frames as a track, in real time."""

    class Clip(aiortc.MediaStreamTrack):
        kind = "video"

        def __init__(self):
            super().__init__()
            self.packets, self.began = av.open(str(clip)).demux(video=0), None

        async def recv(self):
            packet = next(self.packets, None)
            if packet is None or packet.pts is None:
                await asyncio.Event().wait()  # it stays silent: a track that ends would end the sender too
            self.began = self.began or time.monotonic()
            await asyncio.sleep(max(0, self.began + float(packet.pts * packet.time_base) - time.monotonic()))
            return packet

    return Clip()


async def from_aiortc(checks, stage):
    """aiortc's sender answers the far end's NACKs."""
    name = "aiortc's sender"
    clip, frames = encode(stage, VP8, FRAMES + TAIL)
    front, ahead, back, home = stage.ports(4)
    transport = await Transport.between(home, front)
    aiortc.rtcrtpsender.random16 = lambda: FIRST  # the first number is signalled nowhere
    sender = aiortc.RTCRtpSender(track_of(clip), transport)
    stream = VP8.stream(sender._ssrc, sender._rtx_ssrc)
    path = stage.path((front, ahead, back, home), [stream], *LOSSY)
    end = Far(stage, VP8, ahead, back, stream)
    wait_for_ports((front, ahead, back, home))
    await sender.send(parameters(RTCRtpSendParameters))
    far = counts_of(await asyncio.to_thread(end.words), "far")[0]
    await asyncio.wait_for(sender.stop(), 10)
    transport.close()
    stage.clear()
    counts, came, raw = counts_of(path.said, "stream")[0], end.packets(), end.frames()
    sent = [one for one in transport.sent if not is_rtcp(one) and one[1] & 127 == 96]
    tell(name, len(sent), counts, frames[:FRAMES], raw, f"{far['gaps']} given up, {far['rtcp']} reports passed over")
    checks.count(end.status == (0, 0), f"{name}: the far end and the decoder ended with {end.status}")
    checks.count(raw[:FRAMES] == frames[:FRAMES], f"{name}: the frames")
    checks.count(head(came) == head(sent), f"{name}: the packets, octet by octet")
    checks.count(all(one[0] & 16 for one in sent), f"{name}: the header extensions")
    checks.count(counts["lost"] > 20 and counts["repaired"] * 100 >= counts["lost"] * 90, f"{name}: path: {counts}")
    checks.count(far["refused"] == far["overrun"] == 0 and far["rtcp"] > 0, f"{name}: far: {far}")


async def frames_from(track, count):
    """The hashes of a track's frames, until there are so many, or none comes for 6 seconds."""
    found = []
    try:
        while len(found) < count:
            frame = await asyncio.wait_for(track.recv(), 6)
            found.append(hashlib.sha256(frame.to_ndarray(format="yuv420p").tobytes()).hexdigest())
    except asyncio.TimeoutError:
        pass
    return found


def receiver_of(transport):
    """aiortc's receiver, and the packets that get to its jitter buffer, by their numbers."""
    receiver, packets = aiortc.RTCRtpReceiver("video", transport), {}
    receiver._track = RemoteStreamTrack(kind="video")
    receiver._set_rtcp_ssrc(REPORTER)
    buffer = receiver._RTCRtpReceiver__jitter_buffer
    add = buffer.add

    def keep(packet):
        packets.setdefault(packet.sequence_number, packet.serialize(HeaderExtensionsMap()))
        return add(packet)

    buffer.add = keep
    return receiver, packets


async def to_aiortc(checks, stage):
    """The near end answers the NACKs of aiortc's receiver."""
    name = "aiortc's receiver"
    clip, frames = encode(stage, VP8, FRAMES + TAIL)
    front, ahead, back, home, encoder = stage.ports(5)
    kept, stream = stage.room / "sentaiortc", VP8.stream()
    path = stage.path((front, ahead, back, home), [stream], *LOSSY, "--spare", 20)
    near = stage.run("near", "--seconds", 120, home, front, encoder, stream)
    transport = await Transport.between(ahead, back)
    receiver, packets = receiver_of(transport)
    wished = parameters(RTCRtpReceiveParameters)
    wished.encodings = [RTCRtpDecodingParameters(MEDIA, 96, RTCRtpRtxParameters(REPAIR))]
    await receiver.receive(wished)
    wait_for_ports((front, ahead, back, home, encoder))
    stage.play(f"{source(clip, VP8, kept)} ! {sink(encoder)}")
    raw = await frames_from(receiver.track, FRAMES)
    await asyncio.sleep(TAIL / RATE + 1)
    await asyncio.wait_for(receiver.stop(), 10)
    transport.close()
    stage.clear()
    counts, session = counts_of(path.said, "stream")[0], counts_of(near.said, "session")[0]
    sent = packets_of(kept)
    tell(name, len(sent), counts, frames[:FRAMES], raw, f"{len(packets)} packets came to its jitter buffer")
    come = {(FIRST + at) & 65535: one for at, one in enumerate(sent)}
    good = [number(one) == key and contents([one]) == contents([come[key]]) for key, one in packets.items() if key in come]
    checks.count(raw == frames[:FRAMES], f"{name}: the frames")
    checks.count(len(good) == len(packets) and all(good), f"{name}: the packets")
    checks.count(all((FIRST + at) & 65535 in packets for at in range(len(head(sent)))), f"{name}: packets that did not come")
    checks.count(counts["lost"] > 20 and counts["repaired"] * 100 >= counts["lost"] * 90, f"{name}: path: {counts}")
    checks.count(session["gaps"] == session["bad"] == session["refused"] == session["unknown"] == 0, f"{name}: near: {session}")


async def main():
    checks = Checks()
    with Stage(*sys.argv[1:3]) as stage:
        await from_aiortc(checks, stage)
        await to_aiortc(checks, stage)
    checks.tell()


if isinstance(aiortc, ImportError):
    print("skipped: there is no aiortc:", aiortc)
    Checks().tell()
skip_without(ELEMENTS)
asyncio.run(main())
