#!/usr/bin/python3
"""The model of a run against logs: the examples, logs of relays made of them, and random scripts through rtxtool."""
import glob
import random
import subprocess

import checks
import counting
from pictures import relay, sim


def text(name):
    """The text of a file."""
    return checks.get(name).decode()


def counts_of(run):
    """The counts of a run as by_grep has them."""
    return {**{kind: len(marks) for kind, marks in run.marks.items()}, "refused": run.counts.get("refused", 0)}


def against(name, script, log):
    """A log of sim: counts, repairs and windows are those that were counted otherwise."""
    run = sim.read(log.encode(), script.encode())
    checks.same(f"{name}: counts", counts_of(run), counting.by_grep(script, log))
    checks.same(f"{name}: repairs", run.repairs, counting.repairs(script, log))
    moments = [line.split()[-1] for line in script.splitlines()[1:]]
    words = [(int(moment), line.split()[0], line.split()[1:]) for moment, line in zip(moments, log.splitlines())
             if line.split()[0] in ("taken", "play", "gap")]
    checks.same(f"{name}: windows", run.held, counting.windows(words))
    return run


def examples():
    """Every example, through the tool's own --counts too."""
    for name in sorted(glob.glob(checks.ROOT + "/examples/*.log")):
        script = name[:-4] + ".script"
        against(name[len(checks.ROOT) + 1 :], text(script), text(name))
        wanted = counting.by_grep(text(script), text(name))
        status, out, err = checks.tool("plot", name, "--counts")
        told = {line.rsplit(" ", 1)[0]: int(line.rsplit(" ", 1)[1]) for line in out.splitlines()}
        checks.same(f"{name}: what is told", {kind: told.get(kind, 0) for kind in wanted}, wanted)
        checks.same(f"{name}: status", (status, err), (0, ""))


def rows():
    """Small runs, by hand: marks with their moments and places."""
    def read(name):
        folder = checks.ROOT + "/examples/"
        return sim.read(checks.get(folder + name + ".log"), checks.get(folder + name + ".script"))

    run = read("repair")
    checks.same("repair: sent", run.marks["sent"], [(0, 131071), (0, 131072), (0, 131073)])
    checks.same("repair: asked", run.marks["asked"], [(5, 131072)])
    checks.same("repair: retransmitted", run.marks["retransmitted"], [(6, 131072)])
    checks.same("repair: lost", run.marks["lost"], [(0, 131072)])
    checks.same("repair: played", run.marks["played"], [(7, 131071), (7, 131072), (7, 131073)])
    checks.same("repair: repairs", run.repairs, [(7, 2)])
    checks.same("repair: window", run.held, [(0, 1, 0), (5, 3, 1), (7, 3, 0), (7, 2, 0), (7, 1, 0), (7, 0, 0)])
    checks.same("overrun: places", read("overrun").marks["overrun"], [(0, 65537), (0, 65538)])
    checks.same("loss: given up", read("loss").marks["given up"], [(105, 65538)])
    checks.same("learning: lost", read("learning").marks["lost"][0][1], 65538)
    script = b"config 65535 5 8 8 100 20 3 2\nS 0 0 0 aa - -\nS 0 0 0 bb - -\nD 1 3\nP 4\n"
    log = b"sent 131071 0 00\nsent 131072 1 00\ntaken 65536 0\nplay 65536 0 0 bb - -\n"
    checks.same("the receiver's places become the sender's", sim.read(log, script).marks["played"], [(4, 131072)])


def generator():
    """tools/outage writes the examples, and rtxtool prints their logs (tests/program)."""
    for name in ("burst", "outage"):
        checks.same(f"tools/outage {name}", checks.tool("outage", name), (0, text(f"{checks.ROOT}/examples/{name}.script"), ""))
    checks.same("tools/outage of no name", checks.tool("outage", "none")[0], 2)
    run = sim.read(*[checks.get(f"{checks.ROOT}/examples/burst.{end}") for end in ("log", "script")])
    checks.same("the burst is wholly repaired", (len(run.marks["given up"]), len(run.repairs) > 0), (0, True))
    run = sim.read(*[checks.get(f"{checks.ROOT}/examples/outage.{end}") for end in ("log", "script")])
    places = [place for _, place in run.marks["played"]]
    up = [place for _, place in run.marks["given up"]]
    checks.same("the outage has gaps, and goes on", (len(up) > 9, max(places) > max(up), min(places) < min(up)), (True,) * 3)


def timed(script, log):
    """The lines of a log with moments before them: a send's is that of the event above."""
    now, found = 0, []
    for event, line in zip(script.splitlines()[1:], log.splitlines()):
        words = event.split()
        now = int(words[-1]) if words[0] in "ADPI" else now
        found.append((now, words, line.split()))
    return found


def of_receiver(script, log):
    """The log of a receiving relay in the same run: its own lines, with its own indices."""
    lines, index = [], 0
    for now, _, line in timed(script, log):
        if line[0] in ("taken", "play", "gap"):
            lines.append((now, line))
        elif line[0] == "ask" and line[1] != "none":
            lines.append((now, ["ask", str(index), line[2]]))
            index += 1
    return lines


def relays():
    """Both sides of the two long examples as relays would log them."""
    for name in ("burst", "outage"):
        script, log = [text(f"{checks.ROOT}/examples/{name}.{end}") for end in ("script", "log")]
        wanted = counting.by_grep(script, log)
        receiver = of_receiver(script, log)
        data = "".join(f"{now} {' '.join(line)}\n" for now, line in receiver)
        run = relay.read(("0 session 11111111 96 22222222 97 -\n" + data + "9999 rtt 4").encode())
        for kind in ("played", "asked", "given up"):
            checks.same(f"{name} at a receiver: {kind}", len(run.marks[kind]), wanted[kind])
        checks.same(f"{name} at a receiver: window", run.held, counting.windows([(now, line[0], line[1:]) for now, line in receiver]))
        checks.same(f"{name} at a receiver: repairs", run.repairs, asked_for(receiver))
        came = {words[1] for _, words, _ in timed(script, log) if words[0] == "D"}
        lines = []
        for now, _, line in timed(script, log):
            if line[0] in ("sent", "repair") and line[1] != "none":
                lines += [f"{now} {' '.join(line)}\n"] + ([f"{now} lost {line[2]}\n"] if line[2] not in came else [])
        run = relay.read("".join(lines).encode())
        for kind in ("sent", "retransmitted", "lost"):
            checks.same(f"{name} at a sender: {kind}", len(run.marks[kind]), wanted[kind])
        first = {line[1]: now for now, _, line in timed(script, log) if line[0] == "sent"}
        checks.same(f"{name} at a sender: repairs", run.repairs,
                    [(now, now - first[line[1]]) for now, _, line in timed(script, log) if line[0] == "repair"])


def asked_for(receiver):
    """When what had been asked for was taken, and how long after a place above it."""
    found, asked, taken = [], set(), []
    for now, line in receiver:
        if line[0] == "ask":
            asked |= counting.numbers_of(line[2])
        elif line[0] == "taken":
            above = [before for before, place in taken if place > int(line[1])]
            if above and int(line[1]) % 65536 in asked:
                found.append((now, now - above[0]))
            taken.append((now, int(line[1])))
    return found


def relay_rows():
    """Lines of relays that sim has not."""
    nack = "81cd00033333333311111111"
    log = f"5 session 11111111 96 - 97 9\n10 taken 65547 0\n11 ask 0 {nack}00090001\n11 lost 0\n20 taken 65545 0\n25 rtt 9\n" \
          "26 play 65545 0 0 - - -\n27 gap 65546\n28 held\n28 moved\n29 held\n30 restarted 70000\n30 overrun 3\n30 abandoned 2\n30 skipped 7\n31 play 70000 0 0 - - -\n" \
          "32 stray\n33 refused 1\n33 padding 32\n33 unasked 32\n34 ta"
    run = relay.read(log.encode())
    checks.same("a signalled first number", run.held[0], (10, 3, 2))
    checks.same("asked places", run.marks["asked"], [(11, 65545), (11, 65546)])
    checks.same("a lost ask", (run.marks["ask lost"], run.marks["lost"]), ([(11, 65545), (11, 65546)], []))
    checks.same("what was asked for", (run.repairs, run.marks["retransmitted"]), ([(20, 10)], [(20, 65545)]))
    checks.same("a round-trip time", run.trips, [(25, 9)])
    checks.same("a restart", run.held[-2:], [(30, 1, 0), (31, 0, 0)])
    checks.same("the rest", run.counts, {"held": 2, "moved": 1, "restarted": 1, "abandoned": 2, "skipped": 7, "stray": 1, "refused": 1, "padding": 1, "unasked": 1})
    log = f"1 taken 65536 0\n2 taken 105536 0\n3 ask 0 {nack}00010000\n"
    checks.same("an ask far below the highest place", relay.read(log.encode()).marks["asked"], [(3, 65537)])
    log = "1 sent 65537 0 00\n2 marked 3\n3 repair 65537 1 00\n3 lost 1\n4 tail 0\n5 tail 1\n6 unsent\n7 marked 2\n8 passed\n9 crowded 3\n"
    run = relay.read(log.encode())
    checks.same("a sender's marks", (run.marks["lost"], run.repairs), ([(3, 65537)], [(3, 2)]))
    checks.same("a sender's counts", run.counts, {"marked": 5, "tail": 1, "unsent": 1, "passed": 1, "crowded": 3})
    checks.same("a sender has no window", run.held, [])
    checks.same("what a repair is", ("sent" in run.repaired_by, "noticed" in relay.read(b"1 gap 5\n").repaired_by), (True, True))


def random_script(seed):
    """Events in no order that a network would have."""
    draw = random.Random(seed)
    first, history, window, retry = [draw.choice(some) for some in ((0, 1, 65530, 65535), (1, 4, 64), (2, 8, 64), (1, 20))]
    lines = [f"config {first} 5 {history} {window} 40 {retry} 3 2"]
    wire, now = 0, 0
    for _ in range(draw.randrange(400)):
        now += draw.randrange(4)
        letter = draw.choice("SSSDDDDPPAR")
        wire += letter in "SR"
        lines.append({"S": "S 1 0 0 aa - -", "R": "R", "A": f"A {now}", "P": f"P {now}",
                      "D": f"D {max(0, wire - draw.choice((0, 1, 1, 2, 3, 9)))} {now}"}[letter])
    return "\n".join(lines) + "\nP 9999\n"


def random_runs():
    """Random scripts; some have no packet at all."""
    for seed in range(60):
        script = random_script(seed)
        log = subprocess.run([checks.PROGRAM, "sim", "-"], input=script.encode(), capture_output=True, check=True).stdout
        run = sim.read(log, script.encode())
        checks.same(f"seed {seed}: counts", counts_of(run), counting.by_grep(script, log.decode()))
        checks.same(f"seed {seed}: repairs", run.repairs, counting.repairs(script, log.decode()))
        words = [(int(event.split()[-1]), line.split()[0], line.split()[1:]) for event, line in
                 zip(script.splitlines()[1:], log.decode().splitlines()) if event[0] in "DP"]
        checks.same(f"seed {seed}: windows", run.held, counting.windows(words))


examples()
rows()
generator()
relays()
relay_rows()
if checks.has_program():
    random_runs()
checks.end()
