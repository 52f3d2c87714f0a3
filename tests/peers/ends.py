"""How the parts start GStreamer at both ends: a source that sends a clip in real time, and a decoder behind the far end."""
import subprocess

from stage import FRAMES, RAW, content, frames_of, packets_of, same


def source(clip, codec, kept, pay=""):
    """A pipeline's beginning: the clip as RTP packets in real time, which are kept in a file too."""
    return (f"filesrc location={clip} ! matroskademux ! clocksync ! {codec.pay} {pay} ! tee name={kept.name} ! queue ! "
            f"rtpstreampay ! filesink sync=false async=false location={kept} {kept.name}. ! queue")


def sink(port):
    """A pipeline's end: what comes there is sent to a port at once."""
    return f"udpsink host=127.0.0.1 port={port} sync=false async=false"


class Far:
    """The far end, and GStreamer's decoder behind it. What goes between them is kept."""

    def __init__(self, stage, codec, at, to, stream, *options):
        self.came, self.raw = stage.room / f"came{codec.kind}", stage.room / f"raw{codec.kind}"
        self.far = stage.run("far", "--seconds", 100, *options, at, to, stream, stderr=subprocess.PIPE)
        keep = stage.start(["tee", self.came], stdin=self.far.stdout, stdout=subprocess.PIPE)
        self.decoder = stage.play(f"fdsrc ! application/x-rtp-stream{codec.caps} ! rtpstreamdepay ! {codec.unpack} ! "
                                  f"{RAW}{self.raw}", stdin=keep.stdout)
        self.far.stdout = self.far.stdout.close()  # the pipes are the other programs'
        keep.stdout = keep.stdout.close()

    def words(self):
        """Waits for the end of the stream. It gives what the far end told, and keeps the status of both."""
        said = self.far.words(90)
        self.status = self.far.returncode, self.decoder.wait(30)
        return said

    def packets(self):
        return packets_of(self.came)

    def frames(self):
        return frames_of(self.raw)


def contents(packets):
    return [content(one) for one in packets]


def head(packets, frames=FRAMES):
    """The packets of the first frames, by their timestamps."""
    times = dict.fromkeys(one[4:8] for one in packets)
    wanted = set(list(times)[:frames])
    return [one for one in packets if one[4:8] in wanted]


def tell(name, sent, path, frames, raw, more):
    """The line of a run: what was sent, lost, asked for and repaired, and how many frames came as they were."""
    print(f"{name}: {sent} packets sent, {path['lost']} lost; {path['wanted']} of these asked for, {path['repaired']} repaired by"
          f" {path['rtx']} retransmissions ({path['rtx_lost']} lost, {path['useless']} no use, {path['last']} of a silent end);"
          f" {path['again']} asked for again, {path['vain']} in vain; {more};"
          f" {same(frames, raw)} of {len(frames)} frames are bit-exact, of {len(raw)} that came", flush=True)
