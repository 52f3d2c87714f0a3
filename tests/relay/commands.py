#!/usr/bin/env python3
"""The command line, faults with their words and statuses, help, lines of counts, and the log of a relay that is killed.

    commands.py PROGRAM"""
import contextlib
import os
import pathlib
import re
import signal
import subprocess
import threading
import time

import ledger
from base import address, counts_of, ends, part, soon
from net import App, End, free_port, udp
from rtp import plain

PLACES = ("--listen", "127.0.0.1:0", "--to", "127.0.0.1:9")
SIDES = "send", "receive"
NUMBERS = {  # what each option takes at its bounds, and what it refuses
    "loss": ("0 1000 0% 10% 100%", "1001 -1 x 01 101% % 1.5% 10%%"), "seed": ("0 18446744073709551615", "18446744073709551616 x"),
    "type": ("0 63 96 127", "128 x -1"), "rtx-type": ("98 127", "95 128 x"), "first": ("0 65535", "65536 x"),
    "ssrc": ("0 ffffffff 1A2b3C4d", "123456789 xyz 0x1"), "rtx-ssrc": ("0 ffffffff", "123456789 xyz"),
    "packets": ("1", "x -1"), "stream": ("1 18446744073709551615", "0 x"),
    "peer": ("127.0.0.1 ::1 localhost:5004,[::1]:6 10.0.0.0/8 0.0.0.0/0,::/0 2001:db8::/128", "10.0.0.0/33 ::/129 10.0.0.0/x localhost/8 /8 10.0.0.0/"), "seconds": ("1 1s", "x -1 1.5 0m 1ms 1d s"),
    "stats": ("1 1s 1m 1h", "x 0s"), "socket-buffer": ("4096 4KiB 4MiB 1073741824", "4095 1073741825 x 3KiB 4MB 1025MiB")}
OF_SIDE = {"send": {"rate": ("0 8 1% 200% 8k 2M", "x -1 % 0% 100001% 1.5% 5%% M 2G 1.5M 2m"), "min-resend": ("0 20 20ms 1s", "x 1m ms 1.5s"), "deadline": ("0 20 20ms 1s", "x 20us"), "history": ("1 8192", "0 8193 x"), "rtx-first": ("0 65535", "65536 x")},
           "receive": {"latency": ("0 1 200ms 2s", "x -1 200us 1.5s ms 18446744073709552s"), "window": ("1 8192", "0 8193 x")}}


def runs(stage, *words):
    """Status, output and error output of the program."""
    words = [stage.program, *map(str, words)]
    one = subprocess.run(words, stdin=subprocess.DEVNULL, capture_output=True, text=True, timeout=60)
    return one.returncode, one.stdout, one.stderr


def helps(checks, stage):
    """Help and the version are the only output."""
    for words in (["--help"], ["send", "--help"], ["receive", "--help"], ["ctl", "--help"]):
        status, out, err = runs(stage, *words)
        checks.count(status == 0 and out and not err, f"{words}: {status} {out[:50]!r} {err[:50]!r}")
    status, out, err = runs(stage, "--version")
    good = status == 0 and re.fullmatch(r"gozdrit-relay \d+\.\d+\.\d+\n", out) and not err
    checks.count(good, f"--version: {status} {out!r} {err!r}")
    for side in SIDES:
        out, options = runs(stage, side, "--help")[1], [*NUMBERS, *OF_SIDE[side], "listen", "to", "from", "log", "log-form", "control", "metrics", "key-file", "profile"]
        checks.same([one for one in options if f"--{one}" not in out], [], f"options that {side} --help lacks")


def lines(checks, stage):
    """Command lines without what is wanted, or with what is unknown: status 2, and what is wrong on the error output."""
    wrong = [[], ["play"], ["send"], ["receive"], ["--listen", "127.0.0.1:0"]]
    wrong += [[side, *PLACES, *more] for side in SIDES for more in (["--fast"], ["word"], ["--seed"], ["--log"])]
    wrong += [[side, *PLACES[:2]] for side in SIDES] + [[side, *PLACES[2:]] for side in SIDES]
    wrong += [["send", *PLACES, "--latency", "5"], ["receive", *PLACES, "--rate", "5"], ["send", *PLACES, "--window", "5"],
              ["receive", *PLACES, "--history", "5"], ["receive", *PLACES, "--rtx-first", "5"]]
    for words in wrong:
        status, out, err = runs(stage, *words)
        checks.count(status == 2 and not out and err.startswith("error: "), f"{words}: {status} {out[:50]!r} {err[:80]!r}")


def refused(checks, stage, side, option, value):
    """One line names the option whose value is refused."""
    given = {"--listen": PLACES[1], "--to": PLACES[3], "--seconds": "1", f"--{option}": value}
    status, out, err = runs(stage, side, *(f"{one}={given[one]}" for one in given))
    given = rf"{re.escape(value)}: " if option != "peer" else ": "
    good = status == 2 and not out and re.fullmatch(rf"fault value: --{option} ?{given}[^\n]+\n", err)
    checks.count(good, f"{side} --{option}={value}: {status} {out[:50]!r} {err[:80]!r}")


def values(checks, stage):
    """Values past their bounds are refused."""
    for side in SIDES:
        for option, (_, bad) in {**NUMBERS, **OF_SIDE[side]}.items():
            for value in bad.split():
                refused(checks, stage, side, option, value)
    for words in (["--type", "64"], ["--type", "95"], ["--ssrc", "5", "--rtx-ssrc", "00000005"], ["--type", "97", "--rtx-type", "97"]):
        for side in SIDES:
            status, out, err = runs(stage, side, *PLACES, "--seconds", 1, *words)
            good = status == 2 and not out and re.fullmatch(r"fault value: [^\n]+\n", err)
            checks.count(good, f"{side} {words}: {status} {out[:50]!r} {err[:80]!r}")


def nowhere(checks, stage):
    """What is no address can't be found."""
    for side in SIDES:
        for option in ("listen", "to", "from"):
            for value in ("nowhere", "127.0.0.1", "127.0.0.1:", "127.0.0.1:65536", "127.0.0.1:x"):
                given = {"--listen": PLACES[1], "--to": PLACES[3], "--seconds": "1", f"--{option}": value}
                status, out, err = runs(stage, side, *(f"{one}={given[one]}" for one in given))
                told = status, out, err
                checks.same(told, (3, "", f"can't find {value}\n"), f"{side} --{option}={value}")


def forms(checks, stage):
    """A fault of a value names the option, the value, the form and the bounds."""
    rate = "kilobits a second, as 2000, 2000k or 2M, or a share from 1% to 100000%"
    for side, option, value, form in (("receive", "latency", "200us", "milliseconds from 0 on, as 200, 200ms or 2s"), ("send", "rate", "2G", rate),
                                      ("send", "loss", "x", "so many of 1000 from 0 to 1000, as 100 or 10%"),
                                      ("receive", "seconds", "0", "seconds from 1 to 1000000000, as 90, 90s, 5m or 2h"),
                                      ("receive", "window", "8193", "a number from 1 to 8192"),
                                      ("send", "socket-buffer", "1", "octets from 4096 to 1073741824, as 65536, 64KiB or 4MiB"),
                                      ("send", "ssrc", "0x1", "an SSRC, by one to eight hexadecimal digits")):
        checks.same(runs(stage, side, *PLACES, f"--{option}", value), (2, "", f"fault value: --{option} {value}: {form}\n"), f"{side} --{option}")


def units(checks, stage):
    """What a unit says is what the relay does: a tenth is drawn alike by both forms, and latency and rate are those of the plain number."""
    far, logs = End(stage), []
    for words in (("--loss", "100"), ("--loss", "10%")):
        sender = stage.send(far.at, *words, "--seed", 7, "--packets", 60)
        app = App(stage, sender.at, number=0)
        for one in plain(60):
            app.send(one)
            time.sleep(0.005)
        ends(checks, f"{words}", sender)
        logs.append([one for one in sender.logged("lost") if int(one[1]) < 60])
    checks.same(logs[1], logs[0], "what a tenth loses")
    checks.count(logs[0], "a tenth loses nothing")
    for latency, least, most in (("300ms", 0.25, 1), ("2s", 1.8, 3)):
        player = End(stage)
        receiver = stage.receive(player.at, "--latency", latency, "--packets", 3)
        app = App(stage, receiver.at, number=0)
        app.send(plain(1)[0])
        app.number = 2
        app.send(plain(1, first=2)[0])
        player.waits_for(2)
        ends(checks, f"latency {latency}", receiver)
        took = player.came[1][0] - player.came[0][0] if len(player.came) > 1 else 0
        checks.count(least < took < most, f"latency {latency}: a gap took {took} seconds")


def families(checks, stage):
    """What is sent from and what is sent to have one family, and what leaves does not come back."""
    wrong = {("--from", "[::1]:0", "--to", "127.0.0.1:9"): "--from [::1]:0 has no address of the family of --to 127.0.0.1:9",
             ("--from", "127.0.0.1:0", "--to", "[::1]:9"): "--from 127.0.0.1:0 has no address of the family of --to [::1]:9"}
    for side in SIDES:
        for words, text in wrong.items():
            told = runs(stage, side, "--listen", "127.0.0.1:0", *words, "--seconds", 1)
            checks.same(told, (2, "", f"fault value: {text}\n"), f"{side} {words}")
        for listen, to in (("127.0.0.1", "127.0.0.1"), ("0.0.0.0", "127.0.0.1"), ("[::1]", "[::1]"), ("*", "localhost")):
            port = free_port()
            told = runs(stage, side, "--listen", f"{listen}:{port}", "--to", f"{to}:{port}", "--seconds", 1)
            text = f"fault value: --listen {listen}:{port} is where --to {to}:{port} sends\n"
            checks.same(told, (2, "", text), f"{side} from {listen} to {to}")


def anywhere(checks, stage):
    """A port alone is at any address of this machine."""
    for side in SIDES:
        for word, wanted in ((":{}", "0.0.0.0"), ("*:{}", "0.0.0.0"), ("[::]:{}", "::")):
            port, far = free_port(), End(stage, "::1" if wanted == "::" else "127.0.0.1")
            one = getattr(stage, side)(far.at, "--seconds", 2, listen=word.format(port), log=False)
            checks.same(one.at, (wanted, port), f"{side} --listen {word}")
            App(stage, ("::1" if wanted == "::" else "127.0.0.1", port), number=0).send(plain(1)[0])
            checks.count(far.waits_for(1, 5), f"{side} --listen {word}: nothing came")
            checks.same(one.status(), 0, f"{side} --listen {word}")


def names(checks, stage):
    """Each address of a name is tried: of the family that is sent from, and where one is taken the next one."""
    hosts, script, program = stage.room / "hosts", stage.room / "named", stage.program
    hosts.write_text("127.0.0.1 both.example\n::1 both.example\n")
    # Written by another process: a program that is started meanwhile by another scene would hold it open for writing, and it could not be run.
    text = f"#!/bin/sh\nexec unshare -m sh -c 'mount --bind {hosts} /etc/hosts && exec \"$0\" \"$@\"' {program} \"$@\"\n"
    subprocess.run(["install", "-m", "755", "/dev/stdin", script], input=text, text=True, check=True)
    stage.program = str(script)
    if runs(stage, "--version")[0]:
        print("skipped: no name can be given two addresses")
        return
    for one in ("127.0.0.1", "::1"):
        relay = stage.send(("both.example", 9), "--from", address(one, 0), "--seconds", 1, log=False)
        checks.same(relay.to, (one, 9), f"to a name from {one}")
    port = free_port()
    words = {"listen": f"both.example:{port}", "log": False}
    first = stage.receive(("127.0.0.1", 9), "--seconds", 2, **words)
    second = stage.receive(("127.0.0.1", 9), "--seconds", 2, **words)
    checks.same({first.at, second.at}, {("127.0.0.1", port), ("::1", port)}, "a name whose first address is taken")


def bounds(checks, stage):
    """Values at their bounds are taken, and so is a value behind an equals sign."""
    started = []
    for side in SIDES:
        for option, (good, _) in {**NUMBERS, **OF_SIDE[side]}.items():
            for value in good.split():
                words = [f"--{option}={value}"] + (["--seconds", "1"] if option != "seconds" else [])
                started.append((words, getattr(stage, side)(("127.0.0.1", 9), *words, log=False)))
    for words, one in started:
        checks.count(one.status() == 0 and one.counts(), f"{one.side} {words}: {one.run.returncode} {one.errors()[-200:]!r}")


def places(checks, stage):
    """A port that is taken, and files that can't be opened."""
    taken = stage.keep(udp())
    port = taken.getsockname()[1]
    for side in SIDES:
        wrong = {
            f"can't bind 127.0.0.1:{port}: in use\n": ("--listen", f"127.0.0.1:{port}", *PLACES[2:]),
            f"can't open {stage.room}/none/log\n": (*PLACES, "--log", f"{stage.room}/none/log"),
            f"can't open {stage.room}\n": (*PLACES, "--log", stage.room)}
        for text, words in wrong.items():
            status, out, err = runs(stage, side, *words, "--seconds", 1)
            err = err.splitlines(True)[-1:]  # behind the line that tells the sockets, where these were had
            checks.same((status, out, err), (3, "", [text]), f"{side} {words}")
        status, out, err = runs(stage, side, *PLACES, "--from", f"127.0.0.1:{port}", "--seconds", 1)
        checks.same((status, out, err), (3, "", f"can't bind 127.0.0.1:{port}: in use\n"), f"{side} --from a port in use")


def full(checks, stage):
    """A log that takes nothing is told once, and the stream goes on; at the end it is 3."""
    for side in SIDES:
        other = End(stage)
        relay = getattr(stage, side)(other.at, "--log", "/dev/full", "--log-form", "packets", "--packets", 200, log=False)
        App(stage, relay.at).stream(plain(200), 1000)
        status = relay.status()
        lines = relay.errors().splitlines()
        told = status, re.sub(r"\d+", "N", lines[-1]), relay.output()
        checks.same(told, (3, "can't write /dev/full: N lines are lost", ""), f"{side} into /dev/full")
        checks.same(lines.count("the log can't be written, and loses lines until it can"), 1, f"{side} into /dev/full: told")
        checks.count(len(other.came) >= 200, f"{side} into /dev/full: {len(other.came)} of 200 packets")


def statistics(checks, stage):
    """Each second a line of counts, which rise, and the last one at the end."""
    player = End(stage)
    sender, receiver = stage.pair(player, "--stats", 1, "--packets", 150)
    App(stage, sender.at).stream(plain(150), 50)
    ends(checks, "counts each second", sender, receiver)
    for relay, word in ((sender, "sent"), (receiver, "played")):
        found = relay.lines()
        counts = [counts_of(one, relay.side) for one in found if not one.startswith("session 1a2b3c4d ")]
        good = len(counts) == len(found) - 1 and 4 <= len(counts) <= relay.lasted + 2 and all(counts)
        checks.count(good, f"lines of {relay.side}: {found}")
        numbers = [one[word] for one in counts if one]
        rises = numbers == sorted(numbers) and numbers[0] < numbers[-1] == 150
        checks.count(rises, f"the counts of {relay.side} rise: {numbers}")
    quiet = stage.send(player.at, "--seconds", 2)
    ends(checks, "counts at the end alone", quiet)
    checks.same(len(quiet.lines()), 1, "lines without --stats")


def terminal(checks, stage):
    """Where the error output is a terminal there is a line of counts each second."""
    for side in SIDES:
        ours, theirs = os.openpty()
        one = subprocess.Popen([stage.program, side, *PLACES, "--seconds", "3"], stdin=theirs, stdout=theirs, stderr=theirs)
        os.close(theirs)
        said = b""
        with contextlib.suppress(OSError):  # which is how a terminal ends
            while piece := os.read(ours, 4096):
                said += piece
        os.close(ours)
        found = [counts_of(line.strip(), side) for line in said.decode().splitlines()[1:] if not line.startswith("the system keeps ")]
        checks.count(one.wait(60) == 0 and 3 <= len(found) <= 5 and all(found), f"{side} at a terminal says {said}")


def killed(checks, stage):
    """The log of a relay that is killed has whole lines, and all of what was done before. A signal ends it as the system does."""
    for number in (signal.SIGKILL, signal.SIGKILL, signal.SIGTERM, signal.SIGINT):
        player = End(stage)
        sender, receiver = stage.pair(player, "--loss", 50)
        app = App(stage, sender.at)
        app.stream(plain(100, 1000), 1000)
        name = f"killed by {number.name}"
        checks.count(soon(lambda: len(sender.logged("sent")) == 100, 10), f"{name}: {len(sender.logged('sent'))} lines while it runs")
        speaker = threading.Thread(target=app.stream, args=(plain(600, 1000, first=100), 2000))
        speaker.start()
        time.sleep(0.15)
        for relay in (sender, receiver):
            checks.same(relay.stop(number), -number, f"{name}: how {relay.side} ended")
            moments = ledger.whole(checks, name, relay)
            checks.count(len(moments) > 90, f"{name}: {len(moments)} lines of {relay.side}")
        speaker.join()
        checks.count(len(player.came) <= len(receiver.logged("play")) + 1, f"{name}: {len(player.came)} came, which the log lacks")


def limits(checks, stage):
    """A log that is there already is added to, and moments count from the program's start."""
    path = pathlib.Path(stage.room / "old.log")
    old = "an old line\n" * 1000
    path.write_text(old)
    player = End(stage)
    sender = stage.send(player.at, "--packets", 1, "--log", path, "--log-form", "packets", log=False)
    time.sleep(0.5)
    before = time.monotonic() - sender.began
    App(stage, sender.at).send(plain(1)[0])
    ends(checks, "an old log", sender)
    text = path.read_text()
    first = text[len(old):].split(" ")[0]
    checks.count(text.startswith(old) and first.isdigit(), f"an old log goes on with {text[len(old):][:40]!r}")
    checks.count(first.isdigit() and 450 <= int(first) <= 1000 * before + 10000, f"a log begins at {first} after {before} seconds")


if __name__ == "__main__":
    part(helps, lines, values, forms, units, families, anywhere, names, nowhere, bounds, places, full, statistics, terminal, killed, limits)
