"""What a packet costs the relays' own code, in instructions: of both programs, over the loopback."""
import shlex
import tempfile
import time
from pathlib import Path

from base import LONG, Stage
from callgrind import Broken, collected, tool
from figures import Counted
from net import App, udp
from rtp import plain

FEW, MANY = 300, 1500  # packets of the two streams whose difference is counted
OCTETS = 1000
PAUSE = 0.001  # seconds in which a relay that has handed a packet on finds that nothing more came, and waits: else it does so now and then
SPREAD = 0.03  # how long a stream takes is the machine's matter, and relays look at a clock


def behind_callgrind(program, room):
    """A program that runs this one under callgrind, which tells its count in the folder, by the number of the process."""
    words, environment = tool("/dev/null", f"--log-file={room}/%p.log", program)
    script = Path(room) / "relay"
    settings = shlex.quote(f"GLIBC_TUNABLES={environment['GLIBC_TUNABLES']}")
    script.write_text(f'#!/bin/sh\nexec env {settings} {shlex.join(map(str, words))} "$@"\n')
    script.chmod(0o755)
    return script


def stream(script, room, many):
    """The instructions that so many packets took each relay. A packet is sent once the player has the one before, and both wait."""
    with Stage(script) as stage:
        player = stage.keep(udp())
        player.settimeout(LONG)
        receiver = stage.receive(player.getsockname(), "--packets", many, log=False)
        sender = stage.send(receiver.at, "--packets", many, log=False)
        app = App(stage, sender.at)
        for content in plain(many, OCTETS):
            app.send(content)
            player.recv(2048)
            time.sleep(PAUSE)
        if [one.status() for one in (sender, receiver)] != [0, 0]:
            raise Broken(f"relays that failed: {sender.errors()} {receiver.errors()}")
        return [collected((Path(room) / f"{one.run.pid}.log").read_text()) for one in (sender, receiver)]


def packets(program):
    """What a packet costs each relay."""
    with tempfile.TemporaryDirectory() as room:
        script = behind_callgrind(program, room)
        less, more = (stream(script, room, many) for many in (FEW, MANY))
    each = [(long - short) / (MANY - FEW) for short, long in zip(less, more)]
    return [Counted(f"a packet of the {side} relay", f"{cost:.0f}", SPREAD) for side, cost in zip(("sending", "receiving"), each)]
