#!/usr/bin/env python3
"""Several payload types under one SSRC: a codec beside another one, comfort noise, events of a telephone.

    payload_types.py PROGRAM"""
import random
import subprocess

from base import ends, on_time, part, soon
from net import App, End, Path
from rtp import Content, drawn, index, nack, original, packet, parse, plain, repair

MEDIA, RTX = 0x1a2b3c4d, 0x1a2b3c4e
PAIRS = {96: 97, 101: 102, 0: 103}
WORDS = ("--type", "96:97,101:102,0:103")
KINDS = list(PAIRS)


def turns(seed, count):
    """So many types, in any order, each of them among them."""
    draw = random.Random(seed)
    return [*KINDS, *(draw.choice(KINDS) for _ in range(count - len(KINDS)))]


def pour(app, contents, kinds, rate, padded=0):
    """Sends contents, each under a type of its own."""
    for i, (content, kind) in enumerate(zip(contents, kinds)):
        app.kind = kind
        app.stream([content], rate, padded if i % 3 == 0 else 0)


def fitting(seed, count):
    """Contents in which every field varies, with room for a type behind the payload."""
    return [one for one in drawn(seed, count + 60) if len(one.payload) < 1200][:count]


def exact(checks, name, player, contents, kinds, first):
    """The player has each packet as the application sent it, its type among it, and nothing else."""
    came = player.packets()
    wrong = next((i for i, (one, content, kind) in enumerate(zip(came, contents, kinds)) if not one or (one.content, one.kind) != (content, kind)), None)
    checks.count(wrong is None, f"{name}: packet {wrong} came as {came[wrong] if wrong is not None else ''}, type {kinds[wrong or 0]}")
    checks.same(len(came), len(contents), f"{name}: how many came")
    checks.same([one.number for one in came], [first + i & 65535 for i in range(len(came))], f"{name}: numbers")
    checks.same({one.ssrc for one in came}, {MEDIA}, f"{name}: SSRCs")


def on_the_wire(checks, name, path, contents, kinds, first):
    """Between the relays each packet is under its own type, with its own payload and no octet more, and each retransmission under the type that
    belongs to that of its original. How many retransmissions there were."""
    forth = [one for one in (parse(octets) for way, octets in path.passed if way == "forth") if one]
    media = {one.number: (one.kind, one.content) for one in forth if one.ssrc == MEDIA}
    checks.count(media == {first + at & 65535: one for at, one in enumerate(zip(kinds, contents))}, f"{name}: media on the wire")
    again = [(one.kind, *original(one)) for one in forth if one.ssrc != MEDIA]
    wrong = [one for one in again if (one[0], one[2]) != (PAIRS[media[one[1]][0]], media[one[1]][1])]
    checks.same(wrong[:1], [], f"{name}: a retransmission on the wire")
    return len(again)


@on_time(0.1)
def lossy(checks, stage):
    """One in ten datagrams is lost both ways: all is played, each packet under the type that it was sent under."""
    name, draw, many = "lossy", random.Random(3), 1500
    player = End(stage)
    receiver = stage.receive(player.at, *WORDS, "--latency", 4000)
    path = Path(stage, receiver.at, lambda way, octets: () if draw.random() < 0.1 else (0.002,))
    sender = stage.send(path.at, *WORDS)
    contents, kinds = fitting(4, many), turns(4, many)
    app = App(stage, sender.at, number=65000)
    pour(app, contents[:-20], kinds, 1000, 3)
    path.rule = lambda way, octets: (0.002,)  # what tells of the last one may be lost too
    pour(app, contents[-20:], kinds[-20:], 100)
    player.waits_for(many)
    exact(checks, name, player, contents, kinds, 65000)
    again = on_the_wire(checks, name, path, contents, kinds, 65000)
    checks.count(again > 50, f"{name}: {again} retransmissions")
    checks.same((sender.counts().get("unsent", 0), receiver.counts().get("gaps", 0)), (0, 0), f"{name}: unsent and gaps")


def asked(checks, stage):
    """What is retransmitted to who asks: under the type that belongs to its original's, with that one's payload."""
    name, far = "asked", End(stage)
    sender = stage.send(far.at, *WORDS, "--packets", 30)
    contents, kinds = fitting(5, 30), turns(5, 30)
    app = App(stage, sender.at, number=10)
    pour(app, contents, kinds, 500)
    soon(lambda: sum(one.ssrc == MEDIA for one in far.packets()) == 30)
    far.send(nack(MEDIA, range(10, 40)), ("127.0.0.1", sender.source[1]))
    soon(lambda: {original(one)[0] for one in far.packets() if one.ssrc == RTX} == set(range(10, 40)))
    came = {original(one)[0]: (one.kind, original(one)[1]) for one in far.packets() if one.ssrc == RTX}
    checks.same(came, {10 + i: (PAIRS[kind], content) for i, (kind, content) in enumerate(zip(kinds, contents))}, f"{name}: retransmissions")
    ends(checks, name, sender)


def from_others(checks, stage):
    """A far side that is no relay: its media and retransmissions under all types are taken, and under others refused and counted."""
    name, player, far = "from others", End(stage), End(stage)
    receiver = stage.receive(player.at, *WORDS, "--packets", 40, "--latency", 5000)
    contents, kinds = fitting(6, 40), turns(6, 40)
    for i in range(40):
        if i % 10 != 5:
            far.send(packet(kinds[i], 100 + i, MEDIA, contents[i], i % 4 if contents[i].payload else 0), receiver.at)
        if i == 20:
            far.send(packet(98, 100 + 25, MEDIA, Content(1, 1, b"a type of none")), receiver.at)
    checks.count(far.waits_for(1), f"{name}: nothing was asked for")
    far.send(repair(120, 0, RTX, 105, Content(1, 1, b"a type of no retransmissions")), receiver.at)
    far.send(repair(98, 1, RTX, 105, Content(1, 1, b"a type of none")), receiver.at)
    for at, i in enumerate(range(5, 40, 10)):
        far.send(repair(PAIRS[kinds[i]], 2 + at, RTX, 100 + i, contents[i]), receiver.at)
    player.waits_for(40)
    exact(checks, name, player, contents, kinds, 100)
    ends(checks, name, receiver)
    wanted = {"taken": 40, "repaired": 4, "played": 40, "gaps": 0, "refused": 3}
    checks.same({one: receiver.counts().get(one) for one in wanted}, wanted, f"{name}: counts")


def others(checks, stage):
    """What an application sends under a type of none is not sent, and counted; and what is too long with its type is told."""
    name, far = "others", End(stage)
    sender = stage.send(far.at, *WORDS, "--packets", 3)
    bare = stage.send(far.at)
    checks.same(sender.longest, bare.longest - 1, f"{name}: a payload has an octet less than without types")
    app = App(stage, sender.at, number=0)
    for kind, length in (96, 10), (98, 10), (97, 10), (101, sender.longest), (101, sender.longest + 1), (96, sender.longest + 1), (0, sender.longest):
        app.kind = kind
        app.send(Content(7, 0, bytes(length)))
    ends(checks, name, sender)
    checks.same([(one.kind, len(one.content.payload)) for one in far.packets() if one.ssrc == MEDIA],
                [(96, 10), (101, sender.longest), (0, sender.longest)], f"{name}: what left")
    checks.same((sender.counts().get("sent"), sender.counts().get("unsent")), (3, 4), f"{name}: sent and unsent")
    line = f"left out 1 packets whose payload has more than {sender.longest} octets: make relay PAYLOAD=N builds a relay that carries N"
    checks.count(line in sender.errors(), f"{name}: {sender.errors()}")
    bare.stop()


def one_pair(checks, stage):
    """One pair is what --type and --rtx-type say: nothing else changes."""
    name, far = "one pair", End(stage)
    sender = stage.send(far.at, "--type", "100:120", "--packets", 20)
    app = App(stage, sender.at, kind=100, number=0)
    contents = drawn(7, 20)
    app.stream(contents, 500)
    app.kind = 96
    app.send(contents[0])
    soon(lambda: len(far.came) >= 20)
    far.send(nack(MEDIA, [3]), ("127.0.0.1", sender.source[1]))
    soon(lambda: any(original(one)[0] == 3 for one in far.packets() if one.ssrc == RTX))
    ends(checks, name, sender)
    media = [one for one in far.packets() if one.ssrc == MEDIA]
    checks.same([(one.kind, one.content) for one in media], [(100, one) for one in contents], f"{name}: what left")
    checks.same({one.kind for one in far.packets() if one.ssrc == RTX}, {120}, f"{name}: retransmissions")
    checks.count("type 100 rtx-ssrc 1a2b3c4e rtx-type 120 " in sender.errors(), f"{name}: {sender.errors()}")
    checks.same(sender.longest % 10, 0, f"{name}: a payload is as long as without a pair")


@on_time(0.1)
def under_a_key(checks, stage):
    """Types and a key go together."""
    name, draw, many = "under a key", random.Random(8), 400
    file = stage.room / "key"
    file.write_text("000102030405060708090a0b0c0d0e0f101112131415161718191a1b1c1d")
    file.chmod(0o600)
    player = End(stage)
    receiver = stage.receive(player.at, *WORDS, "--latency", 4000, "--key-file", file)
    path = Path(stage, receiver.at, lambda way, octets: () if draw.random() < 0.1 else (0.002,))
    sender = stage.send(path.at, *WORDS, "--key-file", file)
    contents, kinds = fitting(8, many), turns(8, many)
    app = App(stage, sender.at, number=5)
    path.rule, rule = (lambda way, octets: (0.002,)), path.rule
    pour(app, contents[:20], kinds, 200)  # the session begins, and its sender is asked
    path.rule = rule
    pour(app, contents[20:-20], kinds[20:], 1000)
    path.rule = lambda way, octets: (0.002,)
    pour(app, contents[-20:], kinds[-20:], 100)
    player.waits_for(many)
    came = player.packets()
    checks.same(len(came), many, f"{name}: how many came")
    checks.count([(one.kind, one.content) for one in came] == list(zip(kinds, contents)), f"{name}: what came")


def faults(checks, stage):
    """What is no pairs of a session is refused, with what they are."""
    told = "a payload type, or up to 16 pairs of one and that of its retransmissions, no type twice, as 96:97,101:102"
    many = ",".join(f"{i}:{96 + i}" for i in range(17))
    for side in "send", "receive":
        words = [stage.program, side, "--listen", "127.0.0.1:0", "--to", "127.0.0.1:9", "--seconds", "1"]
        for form in "96:97,", ",96:97", "96:97,101", "96:96", "96:97,96:98", "96:97,97:98", "96:97,98:97", "64:97", "96:95", "128:97", "96:128", "96:97:98", "a:97", many:
            one = subprocess.run([*words, "--type", form], capture_output=True, text=True, timeout=60)
            checks.same((one.returncode, one.stderr), (2, f"fault value: --type {form}: {told}\n"), f"{side} --type {form}")
        one = subprocess.run([*words, "--type", "96,97"], capture_output=True, text=True, timeout=60)
        checks.same((one.returncode, one.stderr), (2, "fault value: --type 96,97: a number from 0 to 127\n"), f"{side}: no pairs")
        for form in "96:97", "96:97,98:99":
            one = subprocess.run([*words, "--type", form, "--rtx-type", "97"], capture_output=True, text=True, timeout=60)
            wanted = "fault value: --rtx-type 97: the pairs of --type have the types of the retransmissions\n"
            checks.same((one.returncode, one.stderr), (2, wanted), f"{side} --type {form} --rtx-type")
        one = subprocess.run([*words, "--type", many[:many.rindex(",")]], capture_output=True, text=True, timeout=60)
        checks.same(one.returncode, 0, f"{side}: sixteen pairs: {one.stderr}")


if __name__ == "__main__":
    part(lossy, asked, from_others, others, one_pair, under_a_key, faults)
