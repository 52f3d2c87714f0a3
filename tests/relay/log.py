#!/usr/bin/env python3
"""The log of a relay: what its two forms have, how it goes on behind a rotation, and that neither it nor standard error stops the stream.

    log.py PROGRAM"""
import fcntl
import json
import os
import pathlib
import re
import subprocess
import threading

from base import counts_of, ends, on_time, part, soon
from control import asks, ctl
from net import App, End, free_port, udp
from rtp import packet, plain

EVENTS = {"events": 0, "session": 5, "moved": 0, "restarted": 1, "overrun": 1, "abandoned": 1, "skipped": 1, "gap": 2}
SIZE = 1031  # F_SETPIPE_SZ of fcntl(2)
PAGE = 4096


def words_of(path):
    """The words of each line of a log, all of which are whole."""
    text = pathlib.Path(path).read_text()
    assert not text or text.endswith("\n"), text[-80:]
    return [line.split(" ") for line in text.splitlines()]


def all_sent(stage, control, many):
    """Waits until a relay has sent so many packets on. (What comes to the player may be one of them once more.)"""
    return soon(lambda: json.loads(asks(stage, control, b"stats\n"))["sent"] >= many)


def is_event(words, side):
    """Whether a line of a log of events is one."""
    if words[1] == "counts":
        return counts_of(" ".join(words[2:]), side) is not None
    return EVENTS.get(words[1]) == len(words) - 2


def events(checks, stage):
    """By default the log has events, and the counts of each second in which there was more than the stream as it flows."""
    player, paths = End(stage), {side: stage.room / f"{side}.log" for side in ("send", "receive")}
    receiver = stage.receive(player.at, "--log", paths["receive"], "--loss", 300, "--latency", 5, log=False)
    sender = stage.send(receiver.at, "--log", paths["send"], "--loss", 300, "--seconds", 6, log=False)
    app = App(stage, sender.at, number=0)
    app.stream(plain(1500), 500)
    ends(checks, "events", sender)
    receiver.stop()
    for side, relay in (("send", sender), ("receive", receiver)):
        lines = words_of(paths[side])
        checks.same([one for one in lines if not is_event(one, side)], [], f"{side}: no events")
        checks.same((lines[0], lines[1][1]), (["0", "events"], "session"), f"{side}: how the log begins")
        moments = [int(one[0]) for one in lines]
        checks.count(moments == sorted(moments), f"{side}: moments {moments[:20]}")
        told = [counts_of(" ".join(one[2:]), side) for one in lines if one[1] == "counts"]
        checks.count(3 <= len(told) <= relay.lasted + 2, f"{side}: {len(told)} lines of counts in {relay.lasted} seconds")
        checks.count(len(pathlib.Path(paths[side]).read_bytes()) < 40000, f"{side}: {len(lines)} lines")
    last = counts_of(" ".join(words_of(paths["send"])[-1][2:]), "send")
    checks.same(last, sender.counts(), "the last line is that of standard error")
    gaps = [(int(one[2]), int(one[3])) for one in words_of(paths["receive"]) if one[1] == "gap"]
    checks.count(all(one + many < another for (one, many), (another, _) in zip(gaps, gaps[1:])), f"places that are given up: {gaps[:20]}")
    checks.count(0 < len(gaps) and any(many > 1 for _, many in gaps), "no place was given up where three of ten are lost and the latency is short")


def far_ahead(checks, stage):
    """Packets that lie far ahead have thousands of places given up, and the log a line for those of each."""
    player, path = End(stage), stage.room / "ahead.log"
    receiver = stage.receive(player.at, "--log", path, "--latency", 50, "--seconds", 4, log=False)
    app = stage.keep(udp())
    for number in (0, 1, 2, 3, *(3 + 3000 * i for i in range(1, 6))):
        app.sendto(packet(96, number, 7, plain(1)[0]), receiver.at)
    ends(checks, "far ahead", receiver)
    lines, counts = words_of(path), receiver.counts()
    gaps = [int(one[3]) for one in lines if one[1] == "gap"]
    checks.same((sum(gaps), counts.get("gaps", 0) > 7000), (counts.get("gaps"), True), "far ahead: what is given up, and told")
    checks.count(len(lines) < 30, f"far ahead: {len(lines)} lines: {lines[:40]}")


@on_time(0.2)
def quiet(checks, stage):
    """A stream that loses nothing has no counts within a minute, and no line for its packets."""
    player, path = End(stage), stage.room / "quiet.log"
    receiver = stage.receive(player.at, "--log", path, "--seconds", 4, log=False)
    sender = stage.send(receiver.at)
    App(stage, sender.at, number=0).stream(plain(300), 100)
    ends(checks, "quiet", receiver)
    lines = words_of(path)
    # What was not acknowledged for 100 ms is retransmitted once, which is no flow.
    checks.count([one[1] for one in lines[:2]] == ["events", "session"] and lines[-1][1] == "counts" and len(lines) <= 8, f"quiet: {lines}")
    checks.same(counts_of(" ".join(lines[-1][2:]), "receive"), receiver.counts(), "quiet: the last line")


def forms(checks, stage):
    """Another form is none; and what draws a log of packets refuses one of events by name."""
    for side in ("send", "receive"):
        words = [stage.program, side, "--listen", "127.0.0.1:0", "--to", "127.0.0.1:9", "--log-form", "all"]
        one = subprocess.run(words, capture_output=True, text=True, timeout=60)
        checks.same((one.returncode, one.stderr), (2, "fault value: --log-form all: events or packets\n"), f"{side}: another form")
    path = stage.room / "drawn.log"
    path.write_text("0 events\n1 session 1a2b3c4d 96 1a2b3c4e 97 0\n")
    plot = pathlib.Path(__file__).resolve().parents[2] / "tools/plot"
    one = subprocess.run([plot, path, "--counts"], capture_output=True, text=True, timeout=120)
    told = "line 1: this is a log of events: one of packets is written by --log-form packets\n"
    checks.same((one.returncode, one.stderr), (1, told), "what draws it")


def rotated(checks, stage):
    """Behind a rotation the log goes on in a new file, each line in one of both, whole; a restart adds to what there is."""
    player, path, control = End(stage), stage.room / "one.log", stage.room / "one.sock"
    words = "--log", path, "--log-form", "packets", "--control", control
    sender = stage.send(player.at, *words, log=False)
    app, old = App(stage, sender.at, number=0), []
    for turn in range(4):
        app.stream(plain(200, first=200 * turn), 1000)
        all_sent(stage, control, 200 * (turn + 1))
        path.rename(stage.room / f"one.log.{turn}")
        old.append(stage.room / f"one.log.{turn}")
        checks.same(ctl(stage, control, "reopen"), (0, "reopen\n", ""), f"reopen {turn}")
        soon(path.exists)
    app.stream(plain(200, first=800), 1000)
    all_sent(stage, control, 1000)
    asks(stage, control, b"stop\n")
    ends(checks, "rotated", sender)
    lines = [one for part in (*old, path) for one in words_of(part)]
    sent = [int(one[2]) - 65536 for one in lines if one[1] == "sent"]
    checks.same(sent, list(range(1000)), "what is in the files, one behind the other")
    checks.count(all(part.stat().st_size for part in (*old, path)), "a file is empty")
    again = stage.send(player.at, *words, "--packets", 10, log=False)
    before = path.read_bytes()
    App(stage, again.at, number=5000).stream(plain(10), 1000)
    ends(checks, "again", again)
    checks.count(path.read_bytes().startswith(before) and len(words_of(path)) >= len(before.splitlines()) + 10, "a restart writes the log anew")


def unopened(checks, stage):
    """Where the log can't be opened anew it goes on where it is, and that is told; without one there is nothing to open."""
    player, folder, control = End(stage), stage.room / "folder", stage.room / "two.sock"
    folder.mkdir()
    sender = stage.send(player.at, "--log", folder / "a.log", "--log-form", "packets", "--control", control, log=False)
    app = App(stage, sender.at, number=0)
    app.stream(plain(50), 1000)
    all_sent(stage, control, 50)
    folder.rename(stage.room / "elsewhere")
    checks.same(ctl(stage, control, "reopen"), (0, "reopen\n", ""), "reopen where there is no folder")
    app.stream(plain(50, first=50), 1000)
    all_sent(stage, control, 100)
    asks(stage, control, b"stop\n")
    ends(checks, "unopened", sender)
    sent = [one for one in words_of(stage.room / "elsewhere/a.log") if one[1] == "sent"]
    checks.same(len(sent), 100, "what is in the file that was there")
    told = "the log can't be opened anew, and goes on where it is: No such file or directory (os error 2)"
    checks.same(sender.errors().splitlines().count(told), 1, f"told: {sender.errors()!r}")
    bare = stage.send(player.at, "--control", control, log=False)
    checks.same(ctl(stage, control, "reopen"), (1, "fault request: reopen has no --log to open\n", ""), "reopen without a log")
    asks(stage, control, b"stop\n")
    ends(checks, "bare", bare)


@on_time(0.3)
def halted(checks, stage):
    """A FIFO that nobody reads takes lines as long as it has room, and holds no packet up."""
    player, path, many = End(stage), stage.room / "fifo", 2000
    os.mkfifo(path)
    receiver = stage.receive(player.at, "--log", path, "--log-form", "packets", log=False)
    sender = stage.send(receiver.at)
    reader = os.open(path, os.O_RDONLY | os.O_NONBLOCK)
    App(stage, sender.at, number=0).stream(plain(many), 1000)
    checks.count(player.waits_for(many, 10), f"a log that halts: {len(player.came)} of {many} played")
    told = "the log can't be written, and loses lines until it can"
    checks.same(receiver.errors().splitlines().count(told), 1, "a log that halts: told")
    kept = os.read(reader, 1 << 20)
    os.close(reader)
    lines = kept.decode().splitlines()
    checks.count(10 < len(lines) and all(re.match(r"\d+ [a-z]+", one) for one in lines), f"a log that halts: {lines[:3]}")
    checks.count(kept.endswith(b"\n"), "a line is torn")


@on_time(0.1)
def unread(checks, stage):
    """Standard error that nobody reads holds no packet up; how many lines it did not take is told once it takes one."""
    player, port, many = End(stage), free_port(), 1000
    reader, writer = os.pipe()
    fcntl.fcntl(writer, SIZE, PAGE)
    words = [stage.program, "receive", "--listen", f"127.0.0.1:{port}", "--to", f"127.0.0.1:{player.at[1]}", "--stats", "1", "--seconds", "12"]
    run = subprocess.Popen(words, stdin=subprocess.DEVNULL, stderr=writer)
    os.close(writer)
    came = os.read(reader, PAGE).decode()
    checks.count(came.startswith("listening at "), f"standard error begins with {came[:80]!r}")
    sender = stage.send(("127.0.0.1", port))
    App(stage, sender.at, number=0).stream(plain(many), 400)
    checks.count(player.waits_for(many, 10), f"standard error that nobody reads: {len(player.came)} of {many} played")
    said = os.read(reader, PAGE).decode()
    more = []
    thread = threading.Thread(target=lambda: more.extend(iter(lambda: os.read(reader, PAGE), b"")))
    thread.start()
    checks.same(run.wait(30), 0, "its status")
    thread.join()
    os.close(reader)
    lines = (said + b"".join(more).decode()).splitlines()
    untold = [int(one.split(" ")[5]) for one in lines if re.fullmatch(r"standard error took none of \d+ lines before the last one", one)]
    counts = [one for one in lines if counts_of(one, "receive")]
    checks.count(len(untold) == 1 and untold[0] >= 1, f"how many lines were not told: {lines}")
    checks.count(10 <= len(counts) + sum(untold) <= 15, f"lines in all: {lines}")


if __name__ == "__main__":
    part(events, far_ahead, quiet, forms, rotated, unopened, halted, unread)
