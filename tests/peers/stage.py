"""What the parts of the tests beside peers share: ports, programs, the clip that is sent, its frames, and checks that are counted.

A part is run as PART FOLDER SEED, where FOLDER has the programs of the Makefile. Its last line is `N passed, M failed`."""
import hashlib
import pathlib
import random
import shutil
import signal
import subprocess
import sys
import tempfile
import time

MEDIA, REPAIR, REPORTER = 0x11111111, 0x22222222, 0x33333333
FIRST = 65300  # so that the sequence numbers wrap in the middle of a clip
WIDTH, HEIGHT, RATE = 320, 240, 15
FRAME = WIDTH * HEIGHT * 3 // 2  # octets of a frame as I420
FRAMES = 150
TAIL = 3 * RATE // 2  # frames behind those that are compared, where an end of a peer can't be repaired
LOSSY = "--drop 100 --reorder 100 --hold 20 --double 10 --delay 20".split()


class Codec:
    """How GStreamer encodes, packs, unpacks and decodes, with the default sizes of packets."""

    def __init__(self, kind, name, encoder, decoder):
        self.kind, self.encoder, self.decoder, self.pay = kind, encoder, decoder, f"rtp{name}pay pt={kind}"
        self.caps = f",media=video,clock-rate=90000,payload={kind},encoding-name={name.upper()}"
        self.unpack = f"rtp{name}depay ! {decoder}"

    def stream(self, media=MEDIA, repair=REPAIR, reporter=REPORTER, first=FIRST):
        """The stream as net.h has it."""
        return f"{media}:{repair}:{reporter}:{self.kind}:97:{first}"


VP8 = Codec(96, "vp8", "vp8enc threads=1 deadline=1 target-bitrate=1500000 keyframe-max-dist=60", "vp8dec")
JPEG = Codec(26, "jpeg", "jpegenc quality=60", "jpegdec")
RAW = f"videoconvert ! video/x-raw,format=I420,width={WIDTH},height={HEIGHT} ! filesink sync=false async=false location="


class Checks:
    """Counts checks, and names those that fail."""

    def __init__(self):
        self.passed = self.failed = 0

    def count(self, good, name):
        if good:
            self.passed += 1
        else:
            self.failed += 1
            print("FAILED:", name, flush=True)

    def tell(self):
        print(f"{self.passed} passed, {self.failed} failed")
        sys.exit(1 if self.failed else 0)


class Program(subprocess.Popen):
    """A program whose output is kept in `said` once it ended."""

    said = None

    def end(self):
        """Ends it by SIGTERM, and by SIGKILL where that is not enough."""
        if self.poll() is None:
            self.terminate()
        return self.words(10)

    def words(self, seconds):
        """What it said, once it ends, for which it is given some seconds."""
        if self.said is None:
            try:
                said = self.communicate(timeout=seconds)
            except subprocess.TimeoutExpired:
                self.kill()
                said = self.communicate()
            except (OSError, ValueError):  # another thread reads it too: the part is ended from outside
                said = "", ""
            self.said = (said[0] or "") + (said[1] or "")
        return self.said


class Stage:
    """A folder of files, the built programs, and what runs. It ends all of it where its block ends, also by SIGTERM."""

    def __init__(self, programs, seed):
        self.programs, self.seed, self.running = pathlib.Path(programs).resolve(), int(seed), []
        self.room = pathlib.Path(tempfile.mkdtemp())
        self.errors = open(self.room / "errors", "w")
        self.drawn = random.Random()
        signal.signal(signal.SIGTERM, lambda *_: sys.exit(1))

    def __enter__(self):
        return self

    def __exit__(self, *error):
        self.clear()
        self.errors.close()
        shutil.rmtree(self.room)

    def clear(self):
        """Ends what runs."""
        for one in reversed(self.running):
            one.end()
        self.running = []

    def start(self, words, **where):
        """Starts a program, which is ended at the latest with the stage."""
        self.running.append(Program([str(one) for one in words], text=True, **where))
        return self.running[-1]

    def run(self, name, *words, **where):
        """One of the built programs. Its counts are read from its output."""
        return self.start([self.programs / name, *words], **{"stdout": subprocess.PIPE, **where})

    def play(self, pipeline, **where):
        """A pipeline of GStreamer, which ends by itself, and after two minutes at the latest."""
        words = ["timeout", "-k", "3", "120", "gst-launch-1.0", "-q", "-e", *pipeline.split()]
        return self.start(words, **{"stdout": subprocess.DEVNULL, "stderr": self.errors, **where})

    def ports(self, count):
        return free_ports(count, self.drawn)

    def path(self, ports, streams, *options):
        """A lossy path of this stage's seed between FRONT, AHEAD, BACK and HOME."""
        return self.run("path", "--seed", self.seed, "--seconds", 120, *options, *ports, *streams)


def free_ports(count, drawn=random):
    """Ports of UDP that nobody has, and that the system gives to nobody by itself."""
    taken = bound_ports()
    return drawn.sample([one for one in range(20000, 32000) if one not in taken], count)


def bound_ports():
    """The UDP ports that are bound."""
    lines = pathlib.Path("/proc/net/udp").read_text().splitlines()[1:]
    return {int(one.split()[1].split(":")[1], 16) for one in lines}


def wait_for_ports(ports, seconds=30):
    """Waits until all ports are bound."""
    until = time.monotonic() + seconds
    while not set(ports) <= bound_ports():
        if time.monotonic() > until:
            raise TimeoutError(f"no socket at one of the ports {ports}")
        time.sleep(0.02)


def counts_of(text, front):
    """The counts of each line of a text that begins with a word: pairs of a name and a number."""
    lines = [one.split() for one in text.splitlines()]
    found = [dict(zip(one[1::2], map(int, one[2::2]))) for one in lines if one and one[0] == front]
    return found or [{}]


def packets_of(path):
    """The RTP packets of a file that has its length before each (RFC 4571)."""
    octets, at, found = pathlib.Path(path).read_bytes(), 0, []
    while at + 2 <= len(octets):
        end = at + 2 + int.from_bytes(octets[at:at + 2], "big")
        found.append(octets[at + 2:end])
        at = end
    return found


def content(packet):
    """What a session keeps of a packet without extension: marker, timestamp and payload."""
    return packet[1] >> 7, packet[4:8], packet[12:]


def number(packet):
    return int.from_bytes(packet[2:4], "big")


def frames_of(path):
    """The hashes of the raw frames of a file."""
    octets = pathlib.Path(path).read_bytes() if pathlib.Path(path).exists() else b""
    return [hashlib.sha256(octets[at:at + FRAME]).hexdigest() for at in range(0, len(octets), FRAME)]


def same(sent, came):
    """How many frames came as they were sent, each at its place."""
    return sum(one == other for one, other in zip(sent, came))


def encode(stage, codec, frames=FRAMES, pattern="smpte"):
    """Encodes a clip once, into a file. It gives this file and the frames that a decoder makes of it without a network."""
    clip, raw = stage.room / f"clip{codec.kind}{pattern}", stage.room / f"raw{codec.kind}{pattern}"
    stage.play(f"videotestsrc num-buffers={frames} pattern={pattern} ! video/x-raw,format=I420,width={WIDTH},height={HEIGHT},"
               f"framerate={RATE}/1 ! {codec.encoder} ! matroskamux ! filesink location={clip}").wait(60)
    stage.play(f"filesrc location={clip} ! matroskademux ! {codec.decoder} ! {RAW}{raw}").wait(60)
    return clip, frames_of(raw)


def missing(elements):
    """What there is not: tools and elements of GStreamer."""
    tools = [one for one in ("gst-launch-1.0", "gst-inspect-1.0") if not shutil.which(one)]
    quiet = {"stdout": subprocess.DEVNULL, "stderr": subprocess.DEVNULL}
    return tools or [one for one in elements.split() if subprocess.call(["gst-inspect-1.0", "--exists", one], **quiet)]


def skip_without(elements):
    """Ends a part with a word where something is missing."""
    lacks = missing(elements)
    if lacks:
        print("skipped: there is no", *lacks)
        Checks().tell()
