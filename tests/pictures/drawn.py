#!/usr/bin/python3
"""Pictures: the same octets for the same log, the ones that docs/pictures has, and marks of each kind in them."""
import io
import os
import struct

import checks
import matplotlib
from matplotlib import image

# What docs/pictures was made with: another one draws letters and lines otherwise.
VERSION = "3.6.3"
COLOURS = {"sent": "56B4E9", "played": "009E73", "asked": "E69F00", "retransmitted": "0072B2", "lost": "D55E00"}


def chunks(octets):
    """The types of a PNG's chunks."""
    at, found = 8, []
    while at < len(octets):
        length, kind = struct.unpack_from(">I4s", octets, at)
        found.append(kind)
        at += 12 + length
    return found


def drawn(log, name, **more):
    """The octets of a log's picture."""
    picture = checks.path(name)
    status, out, err = checks.tool("plot", log, picture, **more)
    checks.same(f"{log}: status", (status, out, err), (0, "", ""))
    return checks.get(picture) or b""


def pixels(octets):
    """How many pixels have each colour."""
    rows = (image.imread(io.BytesIO(octets))[:, :, :3] * 255).round().astype(int).reshape(-1, 3)
    found = {}
    for red, green, blue in rows:
        colour = f"{red:02X}{green:02X}{blue:02X}"
        found[colour] = found.get(colour, 0) + 1
    return found


def golden():
    """The pictures of the docs."""
    black = {}
    for name in ("burst", "outage"):
        octets = drawn(f"{checks.ROOT}/examples/{name}.log", name + ".png")
        if matplotlib.__version__ == VERSION:
            checks.same(f"docs/pictures/{name}.png", octets == checks.get(f"{checks.ROOT}/docs/pictures/{name}.png"), True)
        else:
            print(f"skipped: docs/pictures/{name}.png was drawn with matplotlib {VERSION}")
        checks.same(f"{name}: less than 200 kB", 10000 < len(octets) < 200000, True)
        checks.same(f"{name}: no text of day or machine", set(chunks(octets)) <= {b"IHDR", b"pHYs", b"IDAT", b"IEND"}, True)
        found = pixels(octets)
        for kind, colour in COLOURS.items():
            checks.same(f"{name}: the colour of what is {kind}", found.get(colour, 0) > 20, True)
        black[name] = found["000000"]
    checks.same("only the outage has black squares", black["outage"] > black["burst"] + 300, True)


def same_again():
    """The same log on another day, in another zone and folder."""
    log = f"{checks.ROOT}/examples/repair.log"
    other = dict(os.environ, TZ="Asia/Tokyo", SOURCE_DATE_EPOCH="1", LANG="C", PYTHONHASHSEED="7")
    first = drawn(log, "first.png")
    checks.same("the same picture again", first == drawn(log, "again.png", env=other, cwd=checks.room.name), True)
    checks.same("another run, another picture", first != drawn(f"{checks.ROOT}/examples/loss.log", "loss.png"), True)


def sides():
    """A receiver's log and a sender's, small ones and ones without any place."""
    for name, log in (
        ("receiver", b"1 taken 65536 0\n5 taken 65538 0\n6 play 65536 0 0 - - -\n9 ask 0 81cd0003333333331111111100010000\n"
         b"12 rtt 3\n12 taken 65537 0\n13 play 65537 0 0 - - -\n14 gap 65538\n"),
        ("latency", b"1 taken 65536 0\n5 taken 65538 0\n9 ask 0 81cd000333333333111111110001000081cc000333333333476f7a64000000c8\n12 taken 65537 0\n"),
        ("sender", b"1 sent 65537 0 00\n3 repair 65537 1 00\n3 lost 1\n"),
        ("little", b"1 stray\n"),
        ("gaps", b"18446744073709551615 gap 281474976710655\n"),
    ):
        octets = drawn(checks.put(name + ".log", log), name + ".png")
        heights = struct.unpack_from(">II", octets, 16) if octets else (0, 0)
        checks.same(f"a picture of {name}", (octets[:8], heights[0] > 700), (b"\x89PNG\r\n\x1a\n", True))
    heights = {name: struct.unpack_from(">II", checks.get(checks.path(name + ".png")), 16)[1] for name in ("receiver", "sender")}
    checks.same("a sender has no window to draw", heights["receiver"] > heights["sender"] + 50, True)


golden()
same_again()
sides()
checks.end()
