"""Whether the logs of both relays agree with their counts, with what was sent, and with what came to the player."""
from base import COUNTS
from rtp import packet, parse

FORMS = {
    "send": {"sent": 4, "repair": 4, "lost": 2, "marked": 2, "tail": 2, "refused": 2, "unsent": 1, "passed": 1, "crowded": 2, "stray": 1, "session": 6},
    "receive": {"taken": 3, "held": 1, "restarted": 2, "overrun": 2, "abandoned": 2, "skipped": 2, "refused": 2, "padding": 2, "unasked": 2, "play": 7, "gap": 2, "ask": 3, "lost": 2, "rtt": 2, "stray": 1,
                "moved": 1, "session": 6},
}


def whole(checks, name, relay):
    """Every line is a line of this side's log, with as many words as it has, behind moments that rise."""
    text = relay.log.read_text()
    lines = [one.split(" ") for one in text.splitlines()]
    bad = [one for one in lines if len(one) < 2 or FORMS[relay.side].get(one[1]) != len(one) - 1 or "" in one]
    checks.count(text.endswith("\n") or not text, f"{name}: the log of {relay.side} ends in a line: {text[-60:]!r}")
    checks.same(bad[:3], [], f"{name}: lines of {relay.side} that are none")
    moments = [int(one[0]) for one in lines if one[0].isdigit()]
    checks.count(moments == sorted(moments) and len(moments) == len(lines), f"{name}: the moments of {relay.side} rise")
    return moments


def wire(checks, name, relay):
    """The datagrams that left for the far side have indices from 0 on, and each that was lost is told right behind its line. It
    gives the octets that left, and those of them that were lost."""
    left, lost, last, wrong = [], [], None, []
    for one in relay.words():
        if one[0] in ("sent", "repair", "ask"):
            wrong += [one[:-1]] if one[-2] != str(len(left)) else []
            left.append(one[-1])
            last = one[-2]
            continue
        if one[0] == "lost":
            wrong += [one] if one[1] != last else []
            lost.append(left[-1] if left else "")
        last = None
    checks.same(wrong[:3], [], f"{name}: indices of {relay.side} that are not in their order")
    checks.count(left, f"{name}: no datagram is in the log of {relay.side}")
    checks.same(len(lost), relay.counts().get("lost"), f"{name}: lost datagrams of {relay.side}")
    return [bytes.fromhex(one) for one in left], [bytes.fromhex(one) for one in lost]


def sums(checks, name, relay):
    """The last line's counts are what the log comes to."""
    lines, counts = relay.words(), relay.counts()
    many = {word: sum(one[0] == word for one in lines) for word in FORMS[relay.side]}
    if relay.side == "send":
        told = {"sent": many["sent"], "unsent": many["unsent"], "retransmitted": many["repair"], "refused": many["refused"],
                "stray": many["stray"], "lost": many["lost"],
                "marked": sum(int(one[1]) for one in lines if one[0] == "marked")}
    else:
        behind = {word: sum(int(one[1]) for one in lines if one[0] == word) for word in ("overrun", "abandoned", "skipped")}
        overran = sum(int(one[2]) for one in lines if one[0] == "taken")
        checks.count(behind["overrun"] >= overran, f"{name}: {behind} in the log, where {overran} were overrun")
        told = {**behind, "played": many["play"], "gaps": many["gap"], "asked": many["ask"], "refused": many["refused"],
                "padding": many["padding"], "unasked": many["unasked"], "stray": many["stray"], "lost": many["lost"], "taken": many["taken"], "moved": many["moved"],
                "restarts": many["restarted"] + max(0, many["session"] - 1)}
    for word, number in told.items():
        checks.same(counts.get(word), number, f"{name}: the count {word} of {relay.side}, beside its log")
    checks.count(set(counts) == set(COUNTS[relay.side]), f"{name}: the counts of {relay.side}: {counts}")


def sent(checks, name, relay, contents, ssrc, kind, first):
    """The log of the sending relay has these contents at places that rise by one, each as the datagram that it is."""
    lines = relay.logged("sent")
    wanted = [(str(65536 + first + i), packet(kind, first + i, ssrc, one).hex()) for i, one in enumerate(contents)]
    came = [(one[1], one[3]) for one in lines]
    wrong = next((i for i, pair in enumerate(zip(came, wanted)) if pair[0] != pair[1]), None)
    checks.count(came == wanted, f"{name}: the log has {len(came)} packets sent of {len(wanted)}, and the {wrong}th is wrong")


def played(checks, name, relay, player):
    """The log of the receiving relay has what came to the player, in its order, at places that rise."""
    lines, came = relay.logged("play"), [parse(one).content.words() for one in player.octets()]
    checks.count([one[2:] for one in lines] == came, f"{name}: {len(lines)} lines of the log play what came, {len(came)} packets")
    places = [int(one[1]) for one in lines]
    checks.count(all(one < other for one, other in zip(places, places[1:])), f"{name}: the places rise")
    return places
