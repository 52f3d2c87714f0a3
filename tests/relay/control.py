#!/usr/bin/env python3
"""A relay that is asked how it does, and has it stop, while it runs: by its control socket, by `ctl`, and by its metrics.

    control.py PROGRAM"""
import contextlib
import http.client
import json
import os
import pathlib
import re
import shutil
import socket
import stat
import subprocess
import sys
import time

from base import COUNTS, DROPPED, STANDS, counts_of, ends, on_time, part, soon
from net import App, End
from rtp import plain
from sockets import apart

PATIENCE = 5  # seconds that a client may take
SEATS = 64
POUR = """import socket, sys, time
out, until = socket.socket(socket.AF_INET, socket.SOCK_DGRAM), time.monotonic() + float(sys.argv[2])
while time.monotonic() < until:
    out.sendto(b"x" * 40, ("127.0.0.1", int(sys.argv[1])))
"""
NEITHER = "fault request: {} is none of stats, to, peer, reopen and stop\n"


def dial(stage, path):
    """A connection to a control socket."""
    made = stage.keep(socket.socket(socket.AF_UNIX, socket.SOCK_STREAM))
    made.settimeout(20)
    for _ in range(1000):
        with contextlib.suppress(BlockingIOError):  # as many wait to be let in as may
            made.connect(str(path))
            return made
        time.sleep(0.01)
    raise RuntimeError("nobody is let in")


def call(stage, relay):
    """A connection to a relay's metrics."""
    made = stage.keep(socket.create_connection(metrics_of(relay), 20))
    return made


def rest(client):
    """What comes until the other end closes."""
    came = b""
    with contextlib.suppress(ConnectionResetError):
        while more := client.recv(65536):
            came += more
    return came


def asks(stage, path, octets):
    """What is answered to these octets."""
    client = dial(stage, path)
    client.sendall(octets)
    came = rest(client)
    client.close()
    return came.decode()


def ctl(stage, path, *request):
    """Status, output and error output of the client."""
    words = [stage.program, "ctl", str(path), *request]
    one = subprocess.run(words, stdin=subprocess.DEVNULL, capture_output=True, text=True, timeout=60)
    return one.returncode, one.stdout, one.stderr


def metrics_of(relay):
    """Where the metrics of a relay are."""
    told = re.compile(r"^metrics at http://([0-9.]+):(\d+)/metrics$", re.M)
    soon(lambda: told.search(relay.errors()))
    found = told.search(relay.errors())
    return found[1], int(found[2])


def page(relay, method="GET", target="/metrics"):
    """Status, head and body of a page."""
    with contextlib.closing(http.client.HTTPConnection(*metrics_of(relay), timeout=20)) as connection:
        connection.request(method, target)
        response = connection.getresponse()
        return response.status, response.headers, response.read().decode()


def open_files(relay):
    return len(os.listdir(f"/proc/{relay.run.pid}/fd"))


def alone(stage, relay, path):
    """The files of a relay that answers, and has no client: they are as many for half a second, since it may not have seen yet that one is gone."""
    asks(stage, path, b"stats\n")
    files = []
    soon(lambda: files.append(open_files(relay)) or len(files) >= 50 and len(set(files[-50:])) == 1)
    return files[-1]


def stats(checks, stage, relay, path):
    """The counts that a relay answers: those of its line, in their number and by their names. How it stands is told beside them."""
    told = json.loads(asks(stage, path, b"stats\n"))
    checks.same(sorted(told.keys() - {DROPPED}), sorted(COUNTS[relay.side] + STANDS[relay.side]), f"{relay.side}: the names of the counts")
    checks.count(all(isinstance(one, int) or (name in ("rtt", "session") and one is None) for name, one in told.items()), f"{relay.side}: {told}")
    return {name: told[name] for name in COUNTS[relay.side]}


@on_time(0.1)
def beside_a_stream(checks, stage):
    """Both kinds are asked while a stream runs that loses a tenth: what they tell grows, is right at the end, and is what the last line has."""
    player, many = End(stage), 2000
    paths = stage.room / "send.sock", stage.room / "receive.sock"
    sender, receiver = stage.pair(player, "--loss", 100, send=("--control", paths[0]), receive=("--control", paths[1], "--latency", 1000))
    relays = tuple(zip((sender, receiver), paths))
    told = [[stats(checks, stage, *one)] for one in relays]
    app = App(stage, sender.at, number=0)
    for first in range(0, many, 250):
        app.stream(plain(250, first=first), 500)
        for known, one in zip(told, relays):
            known.append(stats(checks, stage, *one))
    player.waits_for(many)
    time.sleep(1.5)
    for known, one in zip(told, relays):
        known.append(stats(checks, stage, *one))
        grows = all(before[name] <= after[name] for before, after in zip(known, known[1:]) for name in before if name != "rtt")
        checks.count(grows, f"{one[0].side}: a count falls: {known}")
    for known, (relay, path) in zip(told, relays):
        line = asks(stage, path, b"stop\n")
        ends(checks, "beside a stream", relay)
        checks.same(line, relay.errors().splitlines(True)[-1], f"{relay.side}: what stop answers")
        checks.same(counts_of(line.rstrip("\n"), relay.side), known[-1], f"{relay.side}: the last line beside stats")
        checks.count(not path.exists(), f"{relay.side}: its socket's file is left")
        checks.count(sum(1 for one in relay.errors().splitlines() if counts_of(one, relay.side)) == 1, f"{relay.side}: lines of counts")
    sent, taken = told[0][-1], told[1][-1]
    checks.same((told[0][0]["sent"], told[1][0]["played"], told[1][0]["rtt"]), (0, 0, None), "before the stream")
    checks.same((sent["sent"], taken["played"] + taken["gaps"], len(player.came)), (many, many, taken["played"]), "sent, and played or given up")
    checks.count(sent["lost"] > many / 20 and taken["repaired"] > many / 20 and taken["rtt"] is not None, f"losses: {sent} {taken}")
    checks.count(0 < told[0][4]["sent"] < many, f"in mid-stream: {told[0][4]}")


def files(checks, stage):
    """A socket is its owner's alone. Where a relay listens no other one can; what a killed one left makes way, and nothing else does."""
    path, player = stage.room / "one.sock", End(stage)
    first = stage.receive(player.at, "--control", path)
    checks.same(oct(stat.S_IMODE(path.stat().st_mode)), "0o600", "the mode")
    for side in ("send", "receive"):
        words = [stage.program, side, "--listen", "127.0.0.1:0", "--to", "127.0.0.1:9", "--seconds", "5", "--control", str(path)]
        one = subprocess.run(words, capture_output=True, text=True, timeout=60)
        checks.same((one.returncode, one.stderr), (3, f"can't bind --control {path}: in use\n"), f"{side} where a relay listens")
    checks.count(stats(checks, stage, first, path)["played"] == 0, "the first one answers still")
    first.freeze()
    one = subprocess.run(words, capture_output=True, text=True, timeout=60)
    checks.same((one.returncode, one.stderr), (3, f"can't bind --control {path}: in use\n"), "where a relay listens that does not run")
    first.stop()
    checks.count(path.is_socket(), "a killed relay left no file")
    checks.same(ctl(stage, path, "stats"), (1, "", f"no answer at {path}: no relay listens there\n"), "a killed relay")
    second = stage.receive(player.at, "--control", path)
    checks.same(ctl(stage, path, "stats")[0], 0, "in the place of a killed one")
    checks.same(ctl(stage, path, "stop")[0], 0, "stop in the place of a killed one")
    ends(checks, "in the place of a killed one", second)
    path.write_text("precious")
    one = subprocess.run(words, capture_output=True, text=True, timeout=60)
    checks.same((one.returncode, one.stderr, path.read_text()), (3, f"can't bind --control {path}: in use\n", "precious"), "where a file is")
    for name, why in (("none/one.sock", "there is no such folder"), ("x" * 120, "too long for a socket's name")):
        one = subprocess.run([*words[:-1], str(stage.room / name)], capture_output=True, text=True, timeout=60)
        checks.same((one.returncode, one.stderr), (3, f"can't bind --control {stage.room / name}: {why}\n"), name[:10])
    bounded = stage.receive(player.at, "--control", stage.room / "two.sock", "--seconds", 1)
    ends(checks, "a bound", bounded)
    checks.count(not (stage.room / "two.sock").exists(), "a bound leaves a file")


def client(checks, stage):
    """`ctl` prints what is answered, and its status tells whether that is a refusal."""
    path = stage.room / "one.sock"
    relay = stage.send(End(stage).at, "--control", path)
    status, out, err = ctl(stage, path, "stats")
    checks.same((status, err, sorted(json.loads(out).keys() - {DROPPED})), (0, "", sorted(COUNTS["send"] + STANDS["send"])), "ctl stats")
    checks.same(ctl(stage, path, "restart"), (1, NEITHER.format("restart"), ""), "ctl restart")
    checks.same(ctl(stage, stage.room / "none.sock", "stats"), (1, "", f"no answer at {stage.room / 'none.sock'}: there is no such file\n"), "no relay")
    checks.same(ctl(stage, path, "stats", "more"), (1, NEITHER.format("stats more"), ""), "ctl stats more")
    for words in ([], [path], [path, "to", "127.0.0.1:9", "more"]):
        one = subprocess.run([stage.program, "ctl", *map(str, words)], capture_output=True, text=True, timeout=60)
        checks.count(one.returncode == 2 and one.stderr.startswith("error: "), f"ctl {words}: {one}")
    status, out, err = ctl(stage, path, "stop")
    checks.same((status, out, err), (0, relay.errors().splitlines(True)[-1], ""), "ctl stop, which comes back behind the last line of counts")
    ends(checks, "ctl stop", relay)
    relay = stage.send(End(stage).at, "--control", path)
    gone = dial(stage, path)
    gone.sendall(b"stop\n")
    gone.close()
    ends(checks, "stop by who is gone", relay)


@on_time(0.2)
def silent(checks, stage):
    """A hundred clients say nothing beside a stream of 500 packets a second, which loses nothing: the first are gone at once, and all within
    five seconds. Who asks meanwhile is answered."""
    player, path, many = End(stage), stage.room / "one.sock", 3500
    receiver = stage.receive(player.at, "--control", path, "--metrics", "127.0.0.1:0")
    sender = stage.send(receiver.at)
    app, before = App(stage, sender.at, number=0), alone(stage, receiver, path)
    app.stream(plain(100), 500)
    began, clients = time.monotonic(), []
    for at in range(100):
        clients.append(dial(stage, path) if at % 2 else call(stage, receiver))
        if at == 99:
            clients[-1].sendall(b"sta")
        app.stream(plain(1, first=100 + at), 500)
    soon(lambda: open_files(receiver) == before + SEATS, 2)
    checks.same(open_files(receiver) - before, SEATS, "how many are let in")
    asked = time.monotonic()
    checks.count(json.loads(asks(stage, path, b"stats\n"))["played"] > 0, "asked beside a hundred")
    checks.same(page(receiver)[0], 200, "metrics beside a hundred")
    checks.count(time.monotonic() - asked < 1, f"asked beside a hundred: {time.monotonic() - asked} seconds")
    app.stream(plain(many - 200, first=200), 500)
    lasted = time.monotonic() - began
    checks.count(lasted > PATIENCE + 0.5 and soon(lambda: open_files(receiver) == before, 1), f"{open_files(receiver) - before} are there still")
    checks.same([rest(one) for one in clients], [b""] * 100, "what silent clients hear")
    checks.count(player.waits_for(many), f"{len(player.came)} of {many} packets came")
    told = stats(checks, stage, receiver, path)
    checks.same([told[one] for one in ("played", "asked", "gaps")], [many, 0, 0], "played, asked, gaps")


@on_time(0.2)
def halves(checks, stage):
    """What is no request ends at its five seconds, or is refused in one line: too long, garbage, a half."""
    path = stage.room / "one.sock"
    relay = stage.receive(End(stage).at, "--control", path, "--metrics", "127.0.0.1:0")
    before = alone(stage, relay, path)
    began, waiting = time.monotonic(), [dial(stage, path), call(stage, relay), dial(stage, path), call(stage, relay)]
    for one, octets in zip(waiting, (b"stat", b"GET /metrics HT", b"stats\n", b"GET /metrics HTTP/1.1\r\n\r\n")):
        one.sendall(octets)
    gone = dial(stage, path)
    gone.sendall(b"stats")
    gone.shutdown(socket.SHUT_WR)
    checks.same(rest(gone), b"", "a line without its end")
    for octets, named in ((b"\n", ""), (b"STATS\n", "STATS"), (b"stats \n", "stats "), (b"stats\r\n", "stats?"), (b"stop!\nstop\n", "stop!"),
                          (b"\x00\xff\x1b[2J\xc3\xa4\n", "???[2J??"), (b"x" * 65 + b"\n", "x" * 64), (b"GET / HTTP/1.1\r\n\r\n", "GET / HTTP/1.1?")):
        checks.same(asks(stage, path, octets), NEITHER.format(named), f"{octets[:20]!r}")
    long = "fault request: " + "x" * 64 + " has more than 8192 octets\n"
    checks.same(asks(stage, path, b"x" * 9216), long, "a request of 9 KiB")
    checks.same(asks(stage, path, b"x" * 9215 + b"\n"), long, "a request of 9 KiB with its end")
    checks.same(asks(stage, path, b"x" * 8191 + b"\n"), NEITHER.format("x" * 64), "a request of 8 KiB")
    checks.count(relay.run.poll() is None and soon(lambda: open_files(relay) == before + 4, 1), f"{open_files(relay) - before} are there")
    heard = [rest(one) for one in waiting[:2]]
    checks.same(heard, [b"", b""], "what half a request hears")
    lasted = time.monotonic() - began
    checks.count(PATIENCE - 0.1 < lasted < PATIENCE + 1, f"half a request lasted {lasted} seconds")
    checks.count(soon(lambda: open_files(relay) == before, 1), "who does not end a connection is there still")
    checks.count(all(rest(one) for one in waiting[2:]), "who does not read at once hears nothing")


def told(text):
    """The metrics of a text: kind, help and value by name."""
    kinds, helps, values = {}, {}, {}
    for line in text.splitlines():
        if found := re.fullmatch(r"# HELP (\w+) (\S.*\.)", line):
            helps[found[1]] = found[2]
        elif found := re.fullmatch(r"# TYPE (\w+) (counter|gauge)", line):
            kinds[found[1]] = found[2]
        elif found := re.fullmatch(r"(\w+) (\d+|\d+\.\d{3})", line):
            values[found[1]] = float(found[2])
        else:
            raise ValueError(f"no line of metrics: {line!r}")
    if not list(kinds) == list(helps) == list(values):
        raise ValueError(f"kinds {list(kinds)}, helps {list(helps)}, values {list(values)}")
    return {name: (kinds[name], value) for name, value in values.items()}


def counted(text):
    """The metrics of a text that are counts of a line."""
    return {name: one for name, one in told(text).items() if name.split("_", 2)[2].rpartition("_")[0] not in [*STANDS["receive"], DROPPED]}


def metrics(checks, stage):
    """Each count is a counter and the round-trip time a gauge, with the figures of the line; other pages and methods are refused."""
    player, many = End(stage), 300
    receiver = stage.receive(player.at, "--metrics", "127.0.0.1:0", "--loss", 100, "--control", stage.room / "receive.sock", "--latency", 1000)
    sender = stage.send(receiver.at, "--metrics", "127.0.0.1:0", "--loss", 100, "--control", stage.room / "send.sock")
    checks.count("gozdrit_receive_rtt_seconds" not in told(page(receiver)[2]), "a round-trip time before any")
    App(stage, sender.at, number=0).stream(plain(many), 500)
    player.waits_for(many)
    time.sleep(1)
    for relay in (sender, receiver):
        side, (status, head, body) = relay.side, page(relay)
        checks.same((status, head["Content-Type"], head["Connection"]), (200, "text/plain; version=0.0.4; charset=utf-8", "close"), f"{side}: head")
        known = stats(checks, stage, relay, stage.room / f"{side}.sock")
        wanted = {f"gozdrit_{side}_{name}_total": ("counter", value) for name, value in known.items() if name != "rtt"}
        if side == "receive":
            wanted["gozdrit_receive_rtt_seconds"] = ("gauge", known["rtt"] / 1000)
        checks.same(counted(body), wanted, f"{side}: metrics")
        for tool, words in (("curl", ["-sfS"]), ("promtool", ["check", "metrics"])):
            if not shutil.which(tool):
                print(f"skipped: there is no {tool}")
            elif tool == "curl":
                one = subprocess.run([tool, *words, "http://{}:{}/metrics".format(*metrics_of(relay))], capture_output=True, text=True, timeout=60)
                checks.same((one.returncode, counted(one.stdout)), (0, wanted), f"{side}: {tool}")
            else:
                one = subprocess.run([tool, *words], input=body, capture_output=True, text=True, timeout=60)
                checks.same((one.returncode, one.stdout + one.stderr), (0, ""), f"{side}: {tool}")
    for method, target, wanted in (("GET", "/", 404), ("GET", "/metric", 404), ("GET", "/metrics/", 404), ("GET", "/metrics?x=1", 404), ("POST", "/", 404),
                                   ("POST", "/metrics", 405), ("HEAD", "/metrics", 405), ("DELETE", "/metrics", 405), ("get", "/metrics", 405)):
        status, head, _ = page(sender, method, target)
        checks.same((status, head["Allow"]), (wanted, "GET" if wanted == 405 else None), f"{method} {target}")
    many = b"".join(b"a%d: b\r\n" % at for at in range(70))
    for octets, wanted in ((b"stats\n", 400), (b"\x00\xff\n\n", 400), (b"GET /metrics HTTP/1.1\r\n" + many + b"\r\n", 431), (b"GET /" + b"x" * 9211, 431),
                           (b"GET /metrics HTTP/1.1\r\nx: " + b"y" * 9184 + b"\r\n\r\n", 431), (b"GET /metrics HTTP/1.0\n\n", 200)):
        one = call(stage, sender)
        one.sendall(octets)
        came = rest(one)
        checks.count(came.startswith(b"HTTP/1.1 %d " % wanted), f"{octets[:30]!r}: {came[:60]!r}, where {wanted} is right")
    port = metrics_of(sender)[1]
    words = [stage.program, "send", "--listen", "127.0.0.1:0", "--to", "127.0.0.1:9", "--seconds", "5", "--metrics"]
    one = subprocess.run([*words, f"127.0.0.1:{port}"], capture_output=True, text=True, timeout=60)
    checks.same((one.returncode, one.stderr), (3, f"can't bind --metrics 127.0.0.1:{port}: in use\n"), "a port that is taken")
    one = subprocess.run([*words, "nowhere"], capture_output=True, text=True, timeout=60)
    checks.same((one.returncode, one.stderr), (3, "can't find nowhere\n"), "metrics nowhere")


@on_time(0.03)
def idle(checks, stage):
    """Nobody who asks: a relay whose doors are open takes no processor time, nor does one whose client waits."""
    path = stage.room / "one.sock"
    relay = stage.receive(End(stage).at, "--control", path, "--metrics", "127.0.0.1:0")
    for _ in range(2):
        before = relay.spent()
        time.sleep(3)
        checks.count(relay.spent() - before < 0.06, f"it took {relay.spent() - before:.3f} of 3 seconds")
        one = dial(stage, path)
        one.sendall(b"st")
    checks.same(ctl(stage, path, "stop")[0], 0, "stop")
    ends(checks, "idle", relay)


def floods(checks, stage):
    """Who connects and is gone at once, and who sends what never ends, cost the relay no client and no stop."""
    path = stage.room / "one.sock"
    relay = stage.receive(End(stage).at, "--control", path, "--metrics", "127.0.0.1:0")
    before = alone(stage, relay, path)
    for at in range(500):
        one = dial(stage, path) if at % 2 else call(stage, relay)
        with contextlib.suppress(BrokenPipeError, ConnectionResetError):
            one.sendall((b"stats\n", b"", b"x" * 3000, b"GET /metrics HTTP/1.1\r\n\r\n")[at % 4])
        one.close()
    checks.count(soon(lambda: open_files(relay) == before, PATIENCE + 2), f"{open_files(relay) - before} are left")
    checks.count(asks(stage, path, b"stats\n").startswith("{"), "asked behind a flood")
    endless, began = dial(stage, path), time.monotonic()
    endless.sendall(b"stats\n")
    with contextlib.suppress(BrokenPipeError, ConnectionResetError):
        while time.monotonic() - began < PATIENCE + 2:
            endless.sendall(b"x" * 1000)
    checks.count(time.monotonic() - began < PATIENCE + 1, "who never ends is heard for too long")
    checks.same(ctl(stage, path, "stop")[0], 0, "stop behind a flood")
    ends(checks, "floods", relay)


@on_time(0.2)
def in_pieces(checks, stage):
    """A page that the system takes in pieces comes whole to who reads it late; who never reads is let go at his five seconds, and the rest is."""
    def play():
        pathlib.Path("/proc/sys/net/ipv4/tcp_wmem").write_text("1024 1024 1024")
        subprocess.run(["ip", "link", "set", "lo", "mtu", "576"], check=True)
        relay, clients = stage.receive(("127.0.0.1", 9), "--metrics", "127.0.0.1:0", log=False), []
        for _ in range(2):
            clients.append(stage.keep(socket.socket()))
            clients[-1].setsockopt(socket.SOL_SOCKET, socket.SO_RCVBUF, 1)
            clients[-1].connect(metrics_of(relay))
            clients[-1].sendall(b"GET /metrics HTTP/1.1\r\n\r\n")
        time.sleep(1)
        texts = [rest(clients[0])]
        time.sleep(PATIENCE)
        texts.append(rest(clients[1]))
        lengths = [int(re.search(rb"Content-Length: (\d+)", one)[1]) - len(one.partition(b"\r\n\r\n")[2]) for one in texts]
        checks.count(lengths[0] == 0 and lengths[1] > 0, f"octets of a page that are lacking where it is read late, and not: {lengths}")
    if os.geteuid() or not shutil.which("ip") or not apart(play):
        print("skipped: no network namespace can be had")


@on_time(0.2)
def without_a_pause(checks, stage):
    """Who asks is heard though datagrams come faster than they are read."""
    path = stage.room / "one.sock"
    relay = stage.send(End(stage).at, "--control", path, log=False)
    pouring = [subprocess.Popen([sys.executable, "-c", POUR, str(relay.at[1]), "4"]) for _ in range(2)]
    soon(lambda: json.loads(asks(stage, path, b"stats\n"))["unsent"] > 1000)
    began = time.monotonic()
    for _ in range(10):
        asks(stage, path, b"stats\n")
    checks.count(time.monotonic() - began < 2, f"ten answers took {time.monotonic() - began} seconds")
    checks.count(all(one.poll() is None for one in pouring), "nothing was poured any longer")
    checks.same(ctl(stage, path, "stop")[0], 0, "stop without a pause")
    ends(checks, "without a pause", relay)
    for one in pouring:
        one.wait()


if __name__ == "__main__":
    part(beside_a_stream, files, client, silent, halves, metrics, idle, floods, in_pieces, without_a_pause)
