#!/usr/bin/env python3
"""What a relay has of who runs it as a service, and tells them: a socket that is handed over, that it is ready, names that are known later,
how far what goes to a group goes, and how it stands.

    service.py PROGRAM"""
import contextlib
import json
import os
import pathlib
import shutil
import signal
import socket
import struct
import subprocess
import threading
import time

from base import DROPPED, STANDS, address, ends, on_time, part, soon
from control import asks, page, told
from net import App, End, free_port, udp
from rtp import plain
from sockets import LIMITS, MANY, apart

DNS = 53
IP_RECVTTL = 12  # of Linux; Python has no name for it


def handed(checks, stage):
    """What came to a socket before its relay was there is played by it, and by the next one that has it; what is none is refused."""
    player, listening, many = End(stage), stage.keep(udp()), 40
    app = App(stage, listening.getsockname(), number=0)
    for first in range(0, 2 * many, many):
        for one in plain(many, first=first):
            app.send(one)
        receiver = stage.receive(player.at, "--packets", many, listen="fd:3", handed=listening)
        ends(checks, "a socket that is handed over", receiver)
        checks.same((receiver.at, receiver.counts().get("played")), (listening.getsockname(), many), "where it listens, and what it played")
    checks.same([one.content for one in player.packets()], plain(2 * many), "what came of both")
    checks.same([(one.ssrc, one.number) for one in player.packets()], [(app.ssrc, at) for at in range(2 * many)], "under which SSRC and numbers")
    sender = stage.send(player.at, "--packets", 1, listen="fd:3", handed=stage.keep(udp("::1")))
    App(stage, sender.at, number=0).send(plain(1)[0])
    ends(checks, "a socket of IPv6", sender)
    for word in ("fd:3", "fd:0", "fd:2", "fd:", "fd:x", "fd:-1", "fd:1048576"):
        words = [stage.program, "receive", "--listen", word, "--to", "127.0.0.1:9", "--seconds", "5"]
        one = subprocess.run(words, capture_output=True, text=True, timeout=60)
        refusal = f"can't take --listen {word}: no socket of datagrams was handed over there\n"
        checks.same((one.returncode, one.stdout, one.stderr), (3, "", refusal), word)
    with socket.create_server(("127.0.0.1", 0)) as streams:
        words = [stage.program, "receive", "--listen", f"fd:{streams.fileno()}", "--to", "127.0.0.1:9", "--seconds", "5"]
        one = subprocess.run(words, capture_output=True, text=True, timeout=60, pass_fds=[streams.fileno()])
        refusal = f"can't take --listen fd:{streams.fileno()}: no socket of datagrams was handed over there\n"
        checks.same((one.returncode, one.stdout, one.stderr), (3, "", refusal), "a socket of streams")


def ready(checks, stage):
    """Who started a relay is told once that its sockets and its log are open, at a file or at a name without one. Where nobody hears it, it runs
    as well."""
    for name in (str(stage.room / "ready"), "@" + stage.room.name + "/ready"):
        hears = stage.keep(socket.socket(socket.AF_UNIX, socket.SOCK_DGRAM))
        hears.bind(name.replace("@", "\0", 1))
        hears.settimeout(20)
        relay = stage.receive(("127.0.0.1", 9), "--seconds", 1, env={**os.environ, "NOTIFY_SOCKET": name})
        checks.same(hears.recv(100), b"READY=1", f"ready at {name}")
        ends(checks, f"ready at {name}", relay)
        hears.setblocking(False)
        words = [stage.program, "receive", "--listen", "127.0.0.1:0", "--to", "127.0.0.1:9", "--seconds", "1", "--log", "/nowhere/log"]
        one = subprocess.run(words, capture_output=True, timeout=60, env={**os.environ, "NOTIFY_SOCKET": name})
        checks.same(one.returncode, 3, f"ready at {name}: a log that can't be opened")
        with contextlib.suppress(BlockingIOError):
            checks.count(False, f"ready at {name} is told twice, or without a log: {hears.recv(100)}")
    for name in ("", "ready", "/nowhere/ready", "/" + 200 * "x", str(stage.room)):
        relay = stage.send(("127.0.0.1", 9), "--seconds", 1, env={**os.environ, "NOTIFY_SOCKET": name})
        ends(checks, f"nobody hears that it is ready at {name!r}", relay)


def groups(checks, stage):
    """What goes to a group of IPv4 goes over as many networks as are said, one else. An address that is no group is refused."""
    def play():
        subprocess.run(["ip", "route", "add", "239.0.0.0/8", "dev", "lo"], check=True)
        for words, wanted in (((), 1), (("--ttl", 7), 7), (("--ttl", 255), 255)):
            joined = stage.keep(udp("239.1.2.3"))
            joined.setsockopt(socket.IPPROTO_IP, socket.IP_ADD_MEMBERSHIP, socket.inet_aton("239.1.2.3") + socket.inet_aton("127.0.0.1"))
            joined.setsockopt(socket.IPPROTO_IP, IP_RECVTTL, 1)
            joined.settimeout(20)
            receiver = stage.receive(joined.getsockname(), "--packets", 1, *words)
            App(stage, receiver.at).send(plain(1)[0])
            known = joined.recvmsg(2000, 100)[1]
            checks.same([struct.unpack("i", one[2])[0] for one in known], [wanted], f"to a group with {words}")
            ends(checks, f"to a group with {words}", receiver)
        # Another process is a member of the group, and the relay hears what comes for it.
        unit = pathlib.Path(__file__).parents[2].joinpath("packaging/gozdrit-join@.service").read_text()
        member = next(line for line in unit.splitlines() if line.startswith("ExecStart=")).removeprefix("ExecStart=").replace("%i", "239.1.2.4:lo")
        if not shutil.which("socat"):
            print("skipped: there is no socat")
            return
        run = subprocess.Popen(member.split())
        soon(lambda: "040201EF" in pathlib.Path("/proc/thread-self/net/igmp").read_text())
        far = End(stage)
        sender = stage.send(far.at, "--packets", 1, listen="0.0.0.0:0")
        app = App(stage, sender.at)
        app.to = "239.1.2.4", sender.at[1]
        app.send(plain(1)[0])
        ends(checks, "from a group", sender)
        checks.same(sender.counts().get("sent"), 1, "from a group: sent")
        run.kill()
        run.wait()
    if os.geteuid() or not shutil.which("ip") or not apart(play):
        print("skipped: no network namespace can be had")
    for to in ("127.0.0.1:9", "[ff15::1]:9"):
        words = [stage.program, "receive", "--listen", "127.0.0.1:0", "--to", to, "--seconds", "5", "--ttl", "4"]
        one = subprocess.run(words, capture_output=True, text=True, timeout=60)
        checks.same((one.returncode, one.stderr), (2, f"fault value: --ttl: --to {to} is no group of IPv4\n"), f"--ttl and {to}")


class NameServer:
    """A name server that knows 127.0.0.1 for each name that begins with `known`, and no other one."""

    def __init__(self, at):
        self.socket = udp(at, DNS)
        threading.Thread(target=self.serve, daemon=True).start()

    def serve(self):
        with contextlib.suppress(OSError):
            while True:
                asked, client = self.socket.recvfrom(512)
                self.socket.sendto(self.answer(asked), client)

    def answer(self, asked):
        end = 12
        while asked[end]:
            end += 1 + asked[end]
        is_known, kind = asked[13:18] == b"known", struct.unpack(">H", asked[end + 1:end + 3])[0]
        found = b"\xc0\x0c" + struct.pack(">HHIH", 1, 1, 60, 4) + b"\x7f\0\0\1" if is_known and kind == 1 else b""
        return asked[:2] + struct.pack(">HHHHH", 0x8180 if is_known else 0x8183, 1, bool(found), 0, 0) + asked[12:end + 5] + found

    def close(self):
        self.socket.close()


@on_time(0.3)
def later(checks, stage):
    """Where no name server answers, names are asked for again behind pauses of one second, two and so on; one that there is not is refused."""
    said = pathlib.Path("/etc/resolv.conf")
    lines = said.read_text().splitlines() if said.exists() else []
    server = next((line.split()[1] for line in lines if line.startswith("nameserver ")), "127.0.0.1")
    pauses = "can't find known.example for now: tried again in {} s"

    def play():
        words = "--listen", "127.0.0.1:0", "--seconds", "3"
        began, said = time.monotonic(), stage.room / "later"
        with open(said, "w") as to:
            run = subprocess.Popen([stage.program, "receive", *words, "--to", "known.example:9", "--peer", "known.example"], stderr=to)
        soon(lambda: pauses.format(2) in said.read_text())
        subprocess.run(["ip", "addr", "add", server, "dev", "lo"], check=False, capture_output=True)
        stage.keep(NameServer(server))
        soon(lambda: "listening at" in said.read_text())
        checks.count(3 <= time.monotonic() - began < 5, f"known after {time.monotonic() - began:.1f} s")
        checks.same(said.read_text().splitlines()[:2], [pauses.format(1), pauses.format(2)], "names that are known later")
        checks.count(" sending to 127.0.0.1:9 from " in said.read_text(), f"what is known then: {said.read_text()}")
        checks.same(run.wait(60), 0, "its end")
        for option in "--to", "--peer", "--listen", "--from", "--metrics":
            given = {"--listen": "127.0.0.1:0", "--to": "127.0.0.1:9", option: "none.example:9"}
            one = subprocess.run([stage.program, "receive", "--seconds", "1", *sum(given.items(), ())], capture_output=True, text=True, timeout=60)
            checks.same((one.returncode, one.stderr), (3, "can't find none.example:9\n"), f"{option} that there is not")
    if os.geteuid() or not shutil.which("ip") or not apart(play):
        print("skipped: no network namespace can be had")


def asked(stage, path):
    """How a relay stands. Where sockets come and go meanwhile the system may pass one over, and what that dropped is left out for a second."""
    told_so_far = []
    soon(lambda: told_so_far.append(json.loads(asks(stage, path, b"stats\n"))) or DROPPED in told_so_far[-1])
    return told_so_far[-1]


def shown(stage, path, relay):
    """The same as metrics, by the names of the figures with their units."""
    prefix = f"gozdrit_{relay.side}_"
    asked(stage, path)
    return {key.removeprefix(prefix): one for key, one in told(page(relay)[2]).items()}


def stands(checks, stage):
    """How a relay stands is told beside its counts: since when it runs and has a session, its latency, its sockets' room, and what found none."""
    size = 65536
    if LIMITS[0] < size:
        print(f"skipped: net.core.rmem_max is {LIMITS[0]}")
        return
    for side, host, words in (("send", "127.0.0.1", ()), ("receive", "127.0.0.1", ("--latency", 345)), ("receive", "::1", ())):
        path, far, name = stage.room / "stands", End(stage, host), f"{side} at {host}"
        where = address(host, free_port(host))
        began = time.monotonic()
        relay = getattr(stage, side)(far.at, *words, "--socket-buffer", "64KiB", "--control", path, "--metrics", "127.0.0.1:0", listen=where, log=False)
        beside = stage.keep(udp("127.0.0.2", relay.at[1])) if host != "::1" else None
        if beside:
            beside.setsockopt(socket.SOL_SOCKET, socket.SO_RCVBUF, size)
        first = asked(stage, path)
        checks.same((first["session"], first["dropped"], first["buffer_in"], first["buffer_out"]), (None, 0, size, size), f"{name} at first")
        checks.same(first.get("latency"), {"send": None, "receive": 345 if words else 200}[side], f"{name}: latency")
        app, session = App(stage, relay.at), time.monotonic()
        app.send(plain(1)[0])
        far.waits_for(1)
        relay.freeze()
        for one in plain(MANY, 1000, first=1):
            app.send(one)
            if beside:
                App(stage, beside.getsockname()).send(one)
        found = drops(relay.at[1])
        dropped = sum(count for inode, count in found.items() if inode != inode_of(beside))
        checks.count(not beside or found[inode_of(beside)] > 0, f"{name}: beside it {found} were dropped")
        relay.run.send_signal(signal.SIGCONT)
        time.sleep(1.3)  # what was dropped is looked for once a second
        since, now = time.monotonic(), asked(stage, path)
        checks.count(dropped > MANY / 2, f"{name}: {dropped} were dropped")
        checks.same(now["dropped"], dropped, f"{name}: what found no room")
        ran, had = 1000 * (time.monotonic() - began), 1000 * (time.monotonic() - session)
        checks.count(1000 <= now["session"] <= now["running"] <= ran + 1 and now["session"] <= had + 1, f"{name}: {now}, {ran}, {had}")
        metrics = shown(stage, path, relay)
        kinds = {"running_seconds": "gauge", "session_seconds": "gauge", "latency_seconds": "gauge", "buffer_in_bytes": "gauge", "buffer_out_bytes": "gauge",
                 "dropped_total": "counter"}
        for one, kind in kinds.items():
            base, _, unit = one.rpartition("_")
            if base in [*STANDS[side], DROPPED]:
                scale = 1000 if unit == "seconds" else 1
                later = 1000 * (time.monotonic() - since) + 1 if base in ("running", "session") else 0.5
                is_right = -0.5 <= scale * metrics[one][1] - now[base] <= later
                checks.count(metrics[one][0] == kind and is_right, f"{name}: {one} is {metrics[one]} beside {now[base]}")
        asks(stage, path, b"stop\n")
        ends(checks, name, relay)


def inode_of(one):
    return str(os.fstat(one.fileno()).st_ino) if one else None


def drops(port):
    """What the system dropped at each socket of a port, by its inode: of some reads, since one may pass a socket over, or have it twice."""
    found = {}
    for table in ("udp", "udp6") * 5:
        for line in pathlib.Path("/proc/net", table).read_text().splitlines()[1:]:
            words = line.split()
            if int(words[1].rpartition(":")[2], 16) == port:
                found[words[9]] = int(words[12])
    return found


if __name__ == "__main__":
    part(handed, ready, groups, later, stands)
