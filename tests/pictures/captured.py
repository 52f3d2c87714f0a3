#!/usr/bin/python3
"""Captures: each link and file format to a trace and back, cut and strange ones, and what tshark reads beside `rtxtool show`."""
import os
import random
import resource
import shutil
import struct
import subprocess

import checks

MEDIA = bytes.fromhex("806000010000006411111111aa")
NACK = bytes.fromhex("81cd0003333333331111111100010000")
REASONS = ("taken", "no UDP", "other ports", "neither RTP nor RTCP", "fragments", "cut", "too long")


def udp(payload, source=7000, target=7002, length=None):
    """A UDP datagram; no checksum, which IPv4 leaves open and IPv6 does not look at here."""
    return struct.pack(">HHHH", source, target, 8 + len(payload) if length is None else length, 0) + payload


def ip4(part, protocol=17, fragment=0, options=b"", length=None):
    """An IPv4 packet, with options or a fragment's word."""
    size = 20 + len(options) + len(part) if length is None else length
    return struct.pack(">BBHHHBBH8s", 0x45 + len(options) // 4, 0, size, 1, fragment, 9, protocol, 0, bytes(8)) + options + part


def ip6(part, following=17, headers=b"", length=None):
    """An IPv6 packet, with extension headers before its part."""
    size = len(headers) + len(part) if length is None else length
    return struct.pack(">IHBB32s", 6 << 28, size, following, 9, bytes(32)) + headers + part


def ethernet(packet, *tags, kind=0x0800):
    """A frame of Ethernet, with VLAN tags."""
    return bytes(12) + b"".join(struct.pack(">HH", tag, 5) for tag in tags) + struct.pack(">H", kind) + packet


def pcap(link, packets, order="<", magic=0xA1B2C3D4):
    """A pcap file; a packet may be a pair of what was kept and how long it was."""
    parts = [struct.pack(order + "IHHIIII", magic, 2, 4, 0, 0, 65535, link)]
    for packet in packets:
        octets, was = packet if isinstance(packet, tuple) else (packet, len(packet))
        parts.append(struct.pack(order + "IIII", 0, 0, len(octets), was) + octets)
    return b"".join(parts)


def block(kind, body, order="<"):
    """A block of pcapng."""
    body += bytes(-len(body) % 4)
    return struct.pack(order + "II", kind, 12 + len(body)) + body + struct.pack(order + "I", 12 + len(body))


def section(order="<"):
    """The block that begins a section."""
    return block(0x0A0D0D0A, struct.pack(order + "IHHq", 0x1A2B3C4D, 1, 0, -1), order)


def enhanced(packet, interface=0, order="<", was=None):
    """A packet's block."""
    head = struct.pack(order + "IIIII", interface, 0, 0, len(packet), len(packet) if was is None else was)
    return block(6, head + packet, order)


def interface(link, order="<", most=0):
    """An interface's block."""
    return block(1, struct.pack(order + "HHI", link, 0, most), order)


def trace(*datagrams):
    """A trace."""
    return b"".join(struct.pack(">H", len(datagram)) + datagram for datagram in datagrams)


def taken(name, capture, wanted, counts, *words):
    """What a capture gives, and what is said of it."""
    out = checks.path("out.trace")
    checks.put("out.trace", b"old")
    status, said, err = checks.tool("pcap2trace", checks.put("in.pcap", capture), out, *words)
    counts = ", ".join(f"{word} {counts.get(word, 0)}" for word in REASONS if counts.get(word) or word == "taken") + "\n"
    checks.same(name, (status, said, err, checks.get(out)), (0, "", counts, trace(*wanted)))


def refused(name, tool, octets, err):
    """Input that a tool refuses; what stands at the output stays as it is."""
    out = checks.put("out", b"old")
    checks.same(name, (*checks.tool(tool, checks.put("in", octets), out), checks.get(out)), (1, "", err + "\n", b"old"))


def links():
    """Each link, with IPv4 and IPv6, RTP and RTCP."""
    for kind, wrap in ((0x0800, ip4), (0x86DD, ip6)):
        packets = [wrap(udp(MEDIA)), wrap(udp(NACK))]
        typed = struct.pack(">H", kind)
        for name, link, frames in (
            ("Ethernet", 1, [ethernet(packet, kind=kind) for packet in packets]),
            ("one VLAN tag", 1, [ethernet(packet, 0x8100, kind=kind) for packet in packets]),
            ("two VLAN tags", 1, [ethernet(packet, 0x88A8, 0x8100, kind=kind) for packet in packets]),
            ("Ethernet's padding", 1, [ethernet(packet, kind=kind) + bytes(9) for packet in packets]),
            ("raw IP", 101, packets),
            ("raw IP by its version", 228 if kind == 0x0800 else 229, packets),
            ("loopback", 0, [struct.pack("<I", 2 if kind == 0x0800 else 30) + packet for packet in packets]),
            ("loopback of OpenBSD", 108, [struct.pack(">I", 2 if kind == 0x0800 else 24) + packet for packet in packets]),
            ("Linux cooked", 113, [bytes(14) + typed + packet for packet in packets]),
            ("Linux cooked with a tag", 113, [bytes(14) + b"\x81\x00\x00\x05" + typed + packet for packet in packets]),
            ("Linux cooked, the second", 276, [typed + bytes(18) + packet for packet in packets]),
        ):
            taken(f"{name}, type {kind:x}", pcap(link, frames), [MEDIA, NACK], {"taken": 2})


def formats():
    """File formats: octet orders, clocks, and blocks."""
    packet = ip4(udp(MEDIA))
    for order in "<>":
        for magic in (0xA1B2C3D4, 0xA1B23C4D):
            taken(f"pcap {order} {magic:x}", pcap(101, [packet], order, magic), [MEDIA], {"taken": 1})
        body = section(order) + interface(1, order) + interface(101, order) + block(5, bytes(12), order)
        taken(f"pcapng {order}", body + enhanced(packet, 1, order) + enhanced(ethernet(packet), 0, order), [MEDIA] * 2, {"taken": 2})
    simple = block(3, struct.pack("<I", len(packet)) + packet)
    taken("a simple packet", section() + interface(101) + simple, [MEDIA], {"taken": 1})
    part = block(3, struct.pack("<I", len(packet)) + packet[:40])
    taken("a simple packet cut", section() + interface(101, most=40) + part, [], {"cut": 1})
    for was, why in ((99, "cut"), (10, "no UDP")):
        taken(f"ten octets of {was}", section() + interface(101) + enhanced(packet[:10], was=was), [], {why: 1})
    both = section() + interface(101) + enhanced(packet) + section(">") + interface(1, ">") + enhanced(ethernet(packet), 0, ">")
    taken("two sections", both, [MEDIA] * 2, {"taken": 2})
    taken("no packet", pcap(1, []), [], {"taken": 0})


def strange():
    """What is passed over, and why."""
    good, media = ip4(udp(MEDIA)), udp(MEDIA)
    for name, packet, wanted, why in (
        ("options of IPv4", ip4(media, options=bytes(8)), [MEDIA], "taken"),
        ("extension headers", ip6(media, 0, bytes([60]) + bytes(7) + bytes([17, 1]) + bytes(14)), [MEDIA], "taken"),
        ("a first fragment", ip4(media, fragment=0x2000), [], "fragments"),
        ("a later fragment", ip4(media, fragment=0x0004), [], "fragments"),
        ("do not fragment", ip4(media, fragment=0x4000), [MEDIA], "taken"),
        ("a fragment of IPv6", ip6(media, 44, bytes([17]) + bytes(7)), [], "fragments"),
        ("TCP", ip4(media, protocol=6), [], "no UDP"),
        ("TCP over IPv6", ip6(media, 6), [], "no UDP"),
        ("a cut packet", (good[:-3], len(good)), [], "cut"),
        ("a cut packet of IPv6", (ip6(media)[:-3], 99), [], "cut"),
        ("a cut header", (good[:24], len(good)), [], "cut"),
        ("a cut IP header", (good[:10], len(good)), [], "cut"),
        ("ten octets that are whole", good[:10], [], "no UDP"),
        ("all of it cut off", (b"", len(good)), [], "cut"),
        ("a UDP length too long", ip4(udp(MEDIA, length=99)), [], "cut"),
        ("a UDP length too short", ip4(udp(MEDIA, length=7)), [], "cut"),
        ("a UDP length within its packet", ip4(udp(MEDIA + b"x", length=8 + len(MEDIA))), [MEDIA], "taken"),
        ("an empty packet", b"", [], "no UDP"),
        ("version 1", ip4(udp(b"\x40" + MEDIA[1:])), [], "neither RTP nor RTCP"),
        ("an RTP header cut", ip4(udp(MEDIA[:11])), [], "neither RTP nor RTCP"),
        ("a header alone", ip4(udp(MEDIA[:12])), [MEDIA[:12]], "taken"),
        ("RTCP of four octets", ip4(udp(b"\x80\xcb\x00\x00")), [b"\x80\xcb\x00\x00"], "taken"),
        ("RTCP of the least type", ip4(udp(b"\x80\xc0\x00\x00")), [b"\x80\xc0\x00\x00"], "taken"),
        ("RTCP of the greatest type", ip4(udp(b"\x80\xdf\x00\x00")), [b"\x80\xdf\x00\x00"], "taken"),
        ("below RTCP", ip4(udp(b"\x80\xbf\x00\x00")), [], "neither RTP nor RTCP"),
        ("above RTCP", ip4(udp(b"\x80\xe0\x00\x00")), [], "neither RTP nor RTCP"),
        ("an empty payload", ip4(udp(b"")), [], "neither RTP nor RTCP"),
        ("the longest", ip4(udp(MEDIA + bytes(1587))), [MEDIA + bytes(1587)], "taken"),
        ("too long", ip4(udp(MEDIA + bytes(1588))), [], "too long"),
    ):
        taken(name, pcap(101, [packet]), wanted, {why: 1})
    taken("ARP", pcap(1, [ethernet(bytes(28), kind=0x0806)]), [], {"no UDP": 1})
    both = pcap(101, [ip4(udp(MEDIA, 1, 2)), ip4(udp(NACK, 3, 1)), ip4(udp(MEDIA, 4, 5))])
    taken("one port, from and to", both, [MEDIA, NACK], {"taken": 2, "other ports": 1}, "--port", "1")
    taken("two ports", both, [NACK, MEDIA], {"taken": 2, "other ports": 1}, "--port", "3", "--port", "5")


def refusals():
    """Files that are none."""
    good = pcap(101, [ip4(udp(MEDIA))] * 2)
    size = (len(good) - 24) // 2
    for length in range(24 + 1, len(good)):
        at = (length - 24) // size + 1
        if (length - 24) % size:
            refused(f"a pcap of {length} octets", "pcap2trace", good[:length], f"packet {at}: the file ends in the midst of it")
    refused("a pcap's header", "pcap2trace", good[:23], "packet 1: the file ends in the midst of its header")
    refused("no capture", "pcap2trace", b"RIFF" + bytes(40), "packet 1: the file is neither pcap nor pcapng")
    refused("an empty file", "pcap2trace", b"", "packet 1: the file is neither pcap nor pcapng")
    refused("another link", "pcap2trace", pcap(127, [b"x"]), "packet 1: the link type 127 is not known here")
    start, packet = section() + interface(101), enhanced(ip4(udp(MEDIA)))
    end = "block 3: the file ends in the midst of it, or its length is none"
    refused("a block cut", "pcap2trace", start + packet[:-1], end)
    refused("a block's head cut", "pcap2trace", start + packet[:9], "block 3: the file ends in the midst of it")
    refused("two lengths", "pcap2trace", start + packet[:-4] + bytes(4), "block 3: its length stands otherwise at its end")
    refused("a length of none", "pcap2trace", start + struct.pack("<II", 6, 8) + bytes(4), end)
    refused("no interface", "pcap2trace", section() + packet, "block 2: it names no interface of its section")
    refused("a short block", "pcap2trace", start + block(6, bytes(16)), "block 3: it is too short for its type")
    longer = block(6, struct.pack("<IIIII", 0, 0, 0, 5, 5) + bytes(4))
    refused("a packet longer than its block", "pcap2trace", start + longer, "block 3: it is shorter than its packet")
    whole = trace(MEDIA, NACK)
    for length in range(len(trace(MEDIA)) + 1, len(whole)):
        refused(f"a trace of {length} octets", "trace2pcap", whole[:length], "frame 2: the trace ends in the midst of it")
    refused("a frame too long", "trace2pcap", trace(bytes(65508)), "frame 1: no UDP datagram has more than 65507 octets")
    for port in ("0", "65535", "x"):
        status, _, _ = checks.tool("trace2pcap", checks.put("in", whole), checks.path("none"), "--port", port)
        checks.same(f"port {port}", (status, checks.get(checks.path("none"))), (2, None))
    checks.same("no trace", checks.tool("trace2pcap", checks.path("gone"), checks.path("none"))[0], 3)
    checks.same("no folder", checks.tool("trace2pcap", checks.put("in", whole), checks.path("gone/none"))[0], 3)


def full():
    """A device that takes nothing more: what stands at the output stays, and no part of a file is left beside it."""
    def limit():
        resource.setrlimit(resource.RLIMIT_FSIZE, (10, 10))

    os.mkdir(checks.path("full"))
    out = checks.put("full/out", b"old")
    came = checks.tool("trace2pcap", checks.put("in", trace(MEDIA)), out, preexec_fn=limit)
    checks.same("a full device", (came, checks.get(out)), ((3, "", out + ": File too large\n"), b"old"))
    checks.same("no part is left", os.listdir(checks.path("full")), ["out"])


def random_datagrams(seed):
    """RTP packets and NACKs with drawn fields."""
    draw = random.Random(seed)
    found = []
    for _ in range(draw.randrange(1, 40)):
        if draw.random() < 0.3:
            pairs = [draw.randrange(2**32) for _ in range(draw.randrange(1, 5))]
            found.append(struct.pack(">BBHII", 0x81, 205, 2 + len(pairs), draw.randrange(2**32), draw.randrange(2**32))
                         + b"".join(struct.pack(">I", pair) for pair in pairs))
        else:
            kind, number = draw.choice((96, 224)), draw.randrange(65536)
            head = struct.pack(">BBHII", 0x80, kind, number, draw.randrange(2**32), draw.randrange(2**32))
            found.append(head + bytes(draw.randrange(256) for _ in range(draw.randrange(1, 60))))
    return found


def convert(datagrams, name, *words):
    """A capture of datagrams by the tool."""
    capture = checks.path(name + ".pcap")
    came = checks.tool("trace2pcap", checks.put(name + ".trace", trace(*datagrams)), capture, *words)
    checks.same(f"{name}: status", came, (0, "", ""))
    return capture


def round_trips():
    """A trace to pcap to trace to pcap: both ends are the same; and a capture from elsewhere."""
    for seed in range(12):
        datagrams = random_datagrams(seed)
        capture = convert(datagrams, f"seed {seed}")
        back = checks.path("back.trace")
        came = checks.tool("pcap2trace", capture, back, "--port", "5004", "--port", "5005")
        checks.same(f"seed {seed}: back", (came, checks.get(back)), ((0, "", f"taken {len(datagrams)}\n"), trace(*datagrams)))
        again = convert(datagrams, "again")
        checks.same(f"seed {seed}: again", checks.get(again), checks.get(capture))


def read_by_tshark(capture, rtp, rtcp):
    """One list of fields for each packet."""
    fields = ("udp.checksum.status", "ip.checksum.status", "udp.srcport", "udp.dstport", "rtp.p_type", "rtp.seq", "rtp.ssrc",
              "rtp.timestamp", "rtp.marker", "rtp.payload", "rtcp.senderssrc", "rtcp.mediassrc", "rtcp.rtpfb.nack_pid",
              "rtcp.rtpfb.nack_blp", "ip.src", "frame.time_relative")
    words = [word for field in fields for word in ("-e", field)]
    done = subprocess.run(["tshark", "-r", capture, "-o", "udp.check_checksum:TRUE", "-o", "ip.check_checksum:TRUE",
                           "-d", f"udp.port=={rtp},rtp", "-d", f"udp.port=={rtcp},rtcp", "-T", "fields", *words],
                          capture_output=True, check=True)
    return [dict(zip(fields, line.split("\t"))) for line in done.stdout.decode().splitlines()]


def as_shown(packet, rtp):
    """What `show` has to say of a packet, from what tshark read of it."""
    if packet["udp.dstport"] == rtp:
        marker = {"0": "0", "1": "1", "False": "0", "True": "1"}[packet["rtp.marker"]]
        return ["rtp", packet["rtp.p_type"], packet["rtp.seq"], packet["rtp.ssrc"][2:], packet["rtp.timestamp"], marker, "0",
                packet["rtp.payload"].replace(":", ""), "-", "-"]
    # tshark gives the numbers of a pair one by one: the PID and one for each bit, which it lets go past 65535.
    numbers = {int(word) % 65536 for word in packet["rtcp.rtpfb.nack_pid"].split(",")}
    return ["nack", packet["rtcp.senderssrc"].split(",")[0][2:], packet["rtcp.mediassrc"].split(",")[0][2:], numbers]


def shown(line):
    """A line of `show`, with the numbers of its pairs as a set."""
    words = line.split()
    if words[0] != "nack":
        return words
    numbers = set()
    for pair in words[3:]:
        pid, blp = int(pair[:4], 16), int(pair[5:], 16)
        numbers |= {pid} | {(pid + bit) % 65536 for bit in range(1, 17) if blp & 1 << (bit - 1)}
    return [*words[:3], numbers]


def beside_tshark():
    """Every RTP packet and NACK of drawn traces, read by tshark and by `show`."""
    for seed in range(6):
        rtp, rtcp = ("5004", "5005") if seed % 2 else ("6000", "6001")
        datagrams = random_datagrams(100 + seed)
        packets = read_by_tshark(convert(datagrams, f"tshark {seed}", "--port", rtp), rtp, rtcp)
        checks.same(f"tshark {seed}: packets", len(packets), len(datagrams))
        lines = checks.program("show", checks.path(f"tshark {seed}.trace")).decode().splitlines()
        for count, (packet, line) in enumerate(zip(packets, lines)):
            checks.same(f"tshark {seed}, packet {count}", as_shown(packet, rtp), shown(line))
            sums = (packet["udp.checksum.status"], packet["ip.checksum.status"])
            checks.same(f"tshark {seed}, packet {count}: checksums", sums, ("1", "1"))
            way = (packet["udp.srcport"], packet["udp.dstport"], packet["ip.src"])
            checks.same(f"tshark {seed}, packet {count}: its way", way,
                        (rtcp, rtcp, "10.0.0.2") if line.startswith("nack") else (rtp, rtp, "10.0.0.1"))
            checks.same(f"tshark {seed}, packet {count}: its moment", float(packet["frame.time_relative"]), count / 1000)


links()
formats()
strange()
refusals()
full()
round_trips()
if shutil.which("tshark") and checks.has_program():
    beside_tshark()
checks.end()
