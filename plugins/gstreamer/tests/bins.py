"""What the tests of two rtpbins share: their elements, what the far one is told of a payload type, and ways over sockets."""
import sys

try:
    import gi

    gi.require_version("Gst", "1.0")
    from gi.repository import GLib, Gst

    Gst.init(None)
except (ImportError, ValueError):
    print("skipped: python3-gi with GStreamer is missing (Debian's python3-gi, gir1.2-gstreamer-1.0)\n0 passed, 0 failed")
    sys.exit(0)

# By the payload type of the media; that of its retransmissions is one above it.
KINDS = {96: ("audio", "OPUS", 48000), 98: ("video", "VP8", 90000)}
MAP = "application/x-rtp-pt-map," + ",".join(f"{payload}=(uint){payload + 1}" for payload in KINDS)
CAPS = "application/x-rtp,media={},clock-rate={},encoding-name={},payload={},rtcp-fb-nack=true"


def is_missing(*elements):
    """Tells that elements are missing, if any is."""
    missing = [name for name in elements if not Gst.ElementFactory.find(name)]
    if missing:
        print(f"skipped: {', '.join(missing)} is missing\n0 passed, 0 failed")
    return bool(missing)


def make(name, **properties):
    element = Gst.ElementFactory.make(name)
    for key, value in properties.items():
        Gst.util_set_object_arg(element, key.replace("_", "-"), str(value))
    return element


def in_bin(element, session):
    """An auxiliary element, whose pads have a session's number."""
    made = Gst.Bin()
    made.add(element)
    for name in "sink", "src":
        made.add_pad(Gst.GhostPad.new(f"{name}_{session}", element.get_static_pad(name)))
    return made


def caps_of(payload, kinds=None):
    """What the far rtpbin is told of a payload type."""
    media, name, rate = (kinds or KINDS)[payload - payload % 2]
    name, more = ("RTX", f",apt=(string){payload - 1}") if payload % 2 else (name, "")
    return Gst.Caps.from_string(CAPS.format(media, rate, name, payload) + more)


def listen(pipeline, caps, sink, into):
    """A socket of a pipeline that leads into a pad, and its port."""
    comes = make("udpsrc", port=0, address="127.0.0.1", caps=caps)
    comes.set_state(Gst.State.READY)  # it has a port then
    pipeline.add(comes)
    comes.link_pads("src", sink, into)
    return comes, comes.get_property("port")


def leave(pipeline, source, out, port):
    """What leaves a pad for a port: the element that sends."""
    goes = make("udpsink", host="127.0.0.1", port=port, sync="false", **{"async": "false"})
    pipeline.add(goes)
    source.link_pads(out, goes, "sink")
    return goes


def link(one, source, out, other, sink, into, caps):
    """A way over a socket from a pipeline to another one: the element that sends, and the one that receives."""
    comes, port = listen(other, caps, sink, into)
    return leave(one, source, out, port), comes


def runs_of(pipelines, milliseconds):
    """Runs pipelines, the last one first, for so long."""
    loop = GLib.MainLoop()
    for pipeline in reversed(pipelines):
        pipeline.set_state(Gst.State.PLAYING)
    GLib.timeout_add(milliseconds, loop.quit)
    loop.run()
