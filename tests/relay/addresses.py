#!/usr/bin/env python3
"""Where a relay listens, sends from and sends to: ports that it chooses, ports that it is given, IPv6, and names.

    addresses.py PROGRAM"""
import socket

from base import ends, part
from net import App, End, free_port, settled, udp
from rtp import index, nack, plain


def through(checks, stage, name, far, source, *words, listen, heard="127.0.0.1"):
    """A sending relay that sends from a place, and answers what comes there. It gives the relay."""
    sender = stage.send(far, *words, "--packets", 20, listen=listen)
    App(stage, (heard, sender.at[1])).stream(plain(20), 1000)
    first = settled(source, 65019)
    came = {one[1] for one in source.came}
    checks.same(len(came), 1, f"{name}: addresses that it sends from")
    source.send(nack(0x1a2b3c4d, [source.packets()[3].number]), came.pop())
    checks.count(source.waits_for(first + 1), f"{name}: a NACK was not answered")
    ends(checks, name, sender)
    checks.same([index(one) for one in source.packets() if one.ssrc == 0x1a2b3c4d], list(range(20)), f"{name}: what came")
    return sender


def given(checks, stage):
    """The ports that it was given."""
    far, listen, source = End(stage), free_port(), free_port()
    sender = through(checks, stage, "given ports", far.at, far, "--from", f"127.0.0.1:{source}", listen=f"127.0.0.1:{listen}")
    checks.same((sender.at[1], sender.source), (listen, ("127.0.0.1", source)), "given ports: what it tells")
    checks.same({one[1] for one in far.came}, {("127.0.0.1", source)}, "given ports: where it sends from")


def chosen(checks, stage):
    """The ports that the system chose, which it tells."""
    for words, host in (((), "0.0.0.0"), (("--from", "127.0.0.1:0"), "127.0.0.1")):
        far = End(stage)
        sender = through(checks, stage, "chosen ports", far.at, far, *words, listen="0.0.0.0:0")
        checks.same((sender.source[0], sender.at[0], sender.to), (host, "0.0.0.0", far.at), f"chosen ports: {sender.errors()!r}")
        checks.same({one[1] for one in far.came}, {("127.0.0.1", sender.source[1])}, "chosen ports: where it sends from")


def version6(checks, stage):
    """IPv6, and an application's IPv4 before a far side's IPv6."""
    for words, host in (((), "::"), (("--from", "[::1]:0"), "::1")):
        far = End(stage, "::1")
        sender = through(checks, stage, "IPv6", far.at, far, *words, listen="127.0.0.1:0")
        checks.same((sender.source[0], sender.to), (host, far.at), f"IPv6: {sender.errors()!r}")
        checks.same({one[1] for one in far.came}, {("::1", sender.source[1])}, "IPv6: where it sends from")


def names(checks, stage):
    """A name that is looked up, for either family that this machine has for it."""
    family = socket.getaddrinfo("localhost", 9, type=socket.SOCK_DGRAM)[0][4][0]
    far = End(stage, family)
    sender = through(checks, stage, "localhost", ("localhost", far.at[1]), far, listen="127.0.0.1:0")
    checks.same(sender.to, far.at, f"localhost: {sender.errors()!r}")


def behind(checks, stage):
    """What the receiving relay plays leaves from the place that it was given, and NACKs from where it listens."""
    player, far, source = End(stage), End(stage), free_port()
    receiver = stage.receive(player.at, "--packets", 3, "--from", f"127.0.0.1:{source}")
    for number in (0, 2):
        app = App(stage, receiver.at, number=number)
        app.at = far.socket
        app.send(plain(1)[0])
    checks.count(far.waits_for(1), "behind: no NACK came")
    ends(checks, "behind", receiver)
    checks.same({one[1] for one in player.came}, {("127.0.0.1", source)}, "behind: where it plays from")
    checks.same({one[1] for one in far.came}, {receiver.at}, "behind: where it asks from")


if __name__ == "__main__":
    part(given, chosen, version6, names, behind)
