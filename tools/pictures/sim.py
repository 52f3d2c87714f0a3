"""A run from a log of `rtxtool sim` and its script: each line of the log answers one event of the script."""
from pictures import script
from pictures.run import Run
from pictures.words import CONTENT, COUNT, INDEX, PLACE, octets, split, values
from refusals import Refused

LINES = {
    "sent": (PLACE, INDEX, octets),
    "repair": (PLACE, INDEX, octets),
    "ask": (INDEX, octets),
    "marked": (COUNT,),
    "taken": (PLACE, COUNT),
    "play": (PLACE, *CONTENT),
    "gap": (PLACE,),
    "wait": (),
    "nothing": (),
    "refused": (COUNT,),
}
ANSWERS = {
    "S": ("sent", "refused"),
    "R": ("repair",),
    "A": ("ask",),
    "D": ("taken", "marked", "refused", "nothing"),
    "P": ("play", "gap", "wait"),
    "I": ("taken", "marked", "refused"),
}


def answers(log, events):
    """The lines of a log as words with their values, one for each event."""
    lines, cut = split(log)
    if not lines:
        raise Refused("line 1", "there is nothing to draw")
    found = []
    for at, words in enumerate(lines, 1):
        if at > len(events):
            raise Refused(f"line {at}", "the script has no event for it")
        none = words[0] in ("repair", "ask") and words[1:] == ["none"]
        line = [] if none else values(f"line {at}", words, LINES)
        if words[0] not in ANSWERS[events[at - 1][0]]:
            raise Refused(f"line {at}", f"'{words[0]}' answers no event '{events[at - 1][0]}', which the script has there")
        found.append(("nothing" if none else words[0], line))
    if len(found) < len(events) and not cut:
        raise Refused(f"line {len(found) + 1}", "the log ends, and the script goes on")
    return found


def find_shift(events, lines):
    """How far the sender's places are above the receiver's: of the first datagram of the wire that the receiver took."""
    places = {}
    for (letter, event), (word, line) in zip(events, lines):
        if word in ("sent", "repair"):
            places[line[1]] = line[0]
        if letter == "D" and word == "taken" and event[0] in places:
            return places[event[0]] - line[0]
    return 0


def read(log, script_data):
    """The run that a log and its script tell."""
    try:
        events = script.read(script_data)
    except Refused as refused:
        raise Refused("the script", refused) from None
    lines = answers(log, events)
    run = Run(find_shift(events, lines))
    delivered = set()
    for at, ((letter, event), (word, line)) in enumerate(zip(events, lines), 1):
        where, moment = f"line {at}", event[-1]
        if letter == "D":
            delivered.add(event[0])
        tell(run, where, moment, word, line, run.on_wire.get(event[0], ("",))[0] == "retransmitted")
    for index in sorted(set(run.on_wire) - delivered):
        run.lost(f"line {len(lines)}", index)
    return run


def tell(run, where, moment, word, line, by_repair):
    """Tells a run of one line."""
    if word == "sent":
        run.sent(where, moment, line[0], line[1])
    elif word == "repair":
        run.repair(where, moment, line[0], line[1])
    elif word == "ask":
        run.ask(where, moment, *line)
    elif word == "taken":
        run.taken(moment, *line, by_repair)
    elif word == "play":
        run.passes(where, moment, line[0], "played")
    elif word == "gap":
        run.passes(where, moment, line[0], "given up")
    elif word == "refused":
        run.tally("refused")
