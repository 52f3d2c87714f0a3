#!/usr/bin/python3
"""A browser's camera into the far end: chromium sends VP8 to a page's peer, over ICE, DTLS and SRTP.

    browser.py FOLDER SEED

The peer is aiortc's connection. It decrypts each packet and reports to the browser as ever, but asks for nothing; a copy of each
goes over a lossy path to the far end, whose NACKs come back over it, and go to the browser as SRTCP. The far end follows the path,
and waits for 200 milliseconds. What it plays has the payload, timestamp and marker of what the browser sent."""
import asyncio
import json
import shutil
import subprocess
import sys

try:
    import aiortc
    from aiortc.rtcdtlstransport import RTCDtlsTransport
    from aiortc.rtcrtpreceiver import RTCRtpReceiver
except ImportError as lack:
    aiortc = lack

from stage import REPORTER, Checks, Stage, counts_of, number, packets_of, wait_for_ports

BROWSER = shutil.which("chromium")
SECONDS = 12
LATENCY = 200
PAGE = """<!doctype html><script>
(async () => {
  const pc = new RTCPeerConnection();
  const media = await navigator.mediaDevices.getUserMedia({video: {width: 320, height: 240}});
  pc.addTrack(media.getVideoTracks()[0], media);
  await pc.setLocalDescription(await pc.createOffer());
  while (pc.iceGatheringState != 'complete') await new Promise(next => setTimeout(next, 20));
  const answer = await fetch('/offer', {method: 'POST', body: JSON.stringify(pc.localDescription)});
  await pc.setRemoteDescription(await answer.json());
})();
</script>"""


class Session:
    """The peer of one page, and the way of its media to the far end and back."""

    def __init__(self, stage, drop):
        self.stage, self.drop, self.sent, self.far, self.udp = stage, drop, {}, None, None
        self.front, self.ahead, self.back, self.home = stage.ports(4)
        self.waiting, self.connection = asyncio.Queue(), aiortc.RTCPeerConnection()

    async def answer(self, offer):
        """Answers a page's offer, of which the types and SSRCs of VP8 and its retransmissions are kept."""
        await self.connection.setRemoteDescription(aiortc.RTCSessionDescription(**offer))
        await self.connection.setLocalDescription(await self.connection.createAnswer())
        told = self.connection.localDescription.sdp.splitlines()
        self.kind = next(int(one[9:].split()[0]) for one in told if one.startswith("a=rtpmap:") and "VP8/" in one)
        self.rtx_kind = next(int(one[7:].split()[0]) for one in told if one.startswith("a=fmtp:") and one.endswith(f"apt={self.kind}"))
        group = next(one for one in offer["sdp"].splitlines() if one.startswith("a=ssrc-group:FID"))
        self.media, self.rtx = (int(one) for one in group.split()[1:3])
        self.carrying = asyncio.ensure_future(self.carry())
        return {"type": "answer", "sdp": self.connection.localDescription.sdp}

    def begin(self, first):
        """Starts the path and the far end, which begins with this packet."""
        stream = f"{self.media}:{self.rtx}:{REPORTER}:{self.kind}:{self.rtx_kind}:{number(first)}"
        self.path = self.stage.path((self.front, self.ahead, self.back, self.home), [stream], "--drop", self.drop, "--delay", 30)
        self.came = self.stage.room / f"came{self.drop}"
        with open(self.came, "wb") as kept:
            self.far = self.stage.run("far", "--patience", LATENCY, "--delay", 0, "--retry", 70, "--nacks", 255, "--follows", 1,
                                      "--seconds", SECONDS + 5, self.ahead, self.back, stream, stdout=kept, stderr=subprocess.PIPE)

    async def carry(self):
        """Hands what comes of the two streams on, from the first media packet on."""
        while True:
            octets = await self.waiting.get()
            source = int.from_bytes(octets[8:12], "big")
            if source not in (self.media, self.rtx) or (source == self.rtx and not self.far):
                continue
            if not self.far:
                self.begin(octets)
                await asyncio.to_thread(wait_for_ports, (self.front, self.ahead, self.back))
                loop = asyncio.get_running_loop()
                self.udp = (await loop.create_datagram_endpoint(lambda: Feedback(self), local_addr=("127.0.0.1", self.home)))[0]
            if source == self.media:
                self.sent.setdefault(number(octets), octets)
            self.udp.sendto(octets, ("127.0.0.1", self.front))

    async def end(self):
        self.carrying.cancel()
        await self.connection.close()
        if self.udp:
            self.udp.close()


class Feedback(asyncio.DatagramProtocol):
    """NACKs of the far end, on their way to the browser."""

    def __init__(self, session):
        self.session, self.transport = session, session.connection.getTransceivers()[0].receiver.transport

    def datagram_received(self, octets, address):
        asyncio.ensure_future(self.transport._send_rtp(octets))


def listen_to_all(session):
    """Has aiortc hand the session a copy of each packet, and ask for none itself."""
    handle = RTCDtlsTransport._handle_rtp_data

    async def kept(transport, octets, arrival_time_ms):
        session().waiting.put_nowait(octets)
        await handle(transport, octets, arrival_time_ms=arrival_time_ms)

    async def nothing(*_):
        pass

    RTCDtlsTransport._handle_rtp_data = kept
    RTCRtpReceiver._send_rtcp_nack = nothing


async def serve(session):
    """A page, and the answer to its offer. It gives the server and its address."""

    async def handle(reader, writer):
        try:
            head = (await reader.readuntil(b"\r\n\r\n")).decode()
        except asyncio.IncompleteReadError:  # a connection ahead of its need
            return writer.close()
        length = next((int(one.split(":")[1]) for one in head.lower().split("\r\n") if one.startswith("content-length")), 0)
        body = await reader.readexactly(length)
        kind, said = ("application/json", json.dumps(await session().answer(json.loads(body)))) if head.startswith("POST") else ("text/html", PAGE)
        writer.write(f"HTTP/1.1 200 OK\r\nContent-Type: {kind}\r\nContent-Length: {len(said)}\r\nConnection: close\r\n\r\n{said}".encode())
        await writer.drain()
        writer.close()

    server = await asyncio.start_server(handle, "127.0.0.1", 0)
    return server, "http://127.0.0.1:%d/" % server.sockets[0].getsockname()[1]


async def at_loss(checks, session, address, most):
    """One run of a browser, over a path that drops so many of a thousand: at most so many packets may be lost for good."""
    stage, name = session.stage, f"chromium, {session.drop / 10:g} % lost"
    page = stage.start([BROWSER, "--headless=new", "--no-sandbox", "--disable-gpu", f"--user-data-dir={stage.room}/profile",
                        "--use-fake-device-for-media-stream", "--use-fake-ui-for-media-stream",
                        "--allow-loopback-in-peer-connection", address], stdout=stage.errors, stderr=stage.errors)
    await asyncio.sleep(SECONDS)
    page.end()
    await session.end()
    checks.count(session.far, f"{name}: no packet came")
    if not session.far:
        return
    far = counts_of(await asyncio.to_thread(session.far.words, 30), "far")[0]
    session.path.end()
    path, came = counts_of(session.path.said, "stream")[0], packets_of(session.came)
    wrong = [number(one) for one in came if content(session.sent.get(number(one))) != content(one)]
    print(f"{name}: {len(session.sent)} packets sent, {path['lost']} lost, {far['retransmissions']} repaired, {far['gaps']} given up; "
          f"padding {far['padding']}, unasked {far['unasked']}, late {far['too_late']} of {far['late']}; round trip {far['rtt']}", flush=True)
    checks.count(len(came) == far["played"] and not wrong, f"{name}: {len(came)} played, and these are not what was sent: {wrong[:5]}")
    checks.count(far["played"] > 100 and far["gaps"] <= most, f"{name}: {far}")
    checks.count(far["played"] + far["gaps"] >= len(session.sent) - 5, f"{name}: {len(session.sent)} sent, and {far}")


def content(packet):
    """What a session keeps of a packet: marker, timestamp and payload. The browser has other values in the header extension of a
    retransmission, as the moment at which that was sent."""
    if packet is None:
        return None
    at = 12 + 4 * (packet[0] & 15)
    if packet[0] & 16:
        at += 4 + 4 * int.from_bytes(packet[at + 2:at + 4], "big")
    return packet[1] >> 7, packet[4:8], packet[at:len(packet) - (packet[-1] if packet[0] & 32 else 0)]


async def main(checks, stage):
    now = [None]
    listen_to_all(lambda: now[0])
    server, address = await serve(lambda: now[0])
    for drop, most in ((10, 1), (50, 3), (100, 8), (200, 25)):
        now[0] = Session(stage, drop)
        await at_loss(checks, now[0], address, most)
    server.close()


if __name__ == "__main__":
    checks = Checks()
    if isinstance(aiortc, ImportError) or not BROWSER:
        print("skipped:", aiortc if BROWSER else "there is no chromium")
        checks.tell()
    with Stage(*sys.argv[1:]) as stage:
        asyncio.run(main(checks, stage))
    checks.tell()
