"""A run from a log of `gozdrit-relay`, whose lines begin with their moment. Each of the two sides has a log of its own."""
import re

from pictures.run import Run
from pictures.words import (CONTENT, COUNT, INDEX, MOMENT, PLACE, SSRC, number, octets, or_none, split, text, values)
from refusals import Refused

LINES = {
    "sent": (PLACE, INDEX, octets),
    "repair": (PLACE, INDEX, octets),
    "lost": (INDEX,),
    "marked": (COUNT,),
    "tail": (number(0, 1),),
    "refused": (COUNT,),
    "padding": (COUNT,),
    "unasked": (COUNT,),
    "unsent": (),
    "passed": (),
    "crowded": (COUNT,),
    "stray": (),
    "session": (text(SSRC), number(0, 127), or_none(text(SSRC)), number(0, 127), or_none(number(0, 65535))),
    "taken": (PLACE, COUNT),
    "held": (),
    "moved": (),
    "restarted": (PLACE,),
    "overrun": (COUNT,),
    "abandoned": (COUNT,),
    "skipped": (COUNT,),
    "play": (PLACE, *CONTENT),
    "gap": (PLACE,),
    "ask": (INDEX, octets),
    "rtt": (COUNT,),
}
SENDS = ("sent", "repair", "marked", "tail", "unsent", "passed", "crowded")
RECEIVES = ("padding", "unasked", "taken", "held", "moved", "restarted", "overrun", "abandoned", "skipped", "play", "gap", "ask", "rtt")


def is_one(log):
    """Whether a log is a relay's: its first line begins with a moment."""
    return re.match(rb"[0-9]+ ", log) is not None


def read(log):
    """The run as one side's log tells it."""
    lines, _ = split(log)
    if not lines:
        raise Refused("line 1", "there is nothing to draw")
    run, side = Run(), None
    for at, words in enumerate(lines, 1):
        where, moment = f"line {at}", MOMENT(words[0])
        if moment is None or len(words) < 2:
            raise Refused(where, "a line begins with a moment and a word")
        if words[1] == "events":
            raise Refused(where, "this is a log of events: one of packets is written by --log-form packets")
        line = values(where, words[1:], LINES)
        is_side = "sends" if words[1] in SENDS else "receives" if words[1] in RECEIVES else side
        if side not in (None, is_side):
            raise Refused(where, f"'{words[1]}' stands in no log of a relay that {side}")
        side = is_side
        tell(run, where, moment, words[1], line)
    if side == "sends":
        end_of_sender(run)
    return run


def tell(run, where, moment, word, line):
    """Tells a run of one line."""
    if word == "sent":
        run.sent(where, moment, line[0], line[1])
    elif word == "repair":
        run.repair(where, moment, line[0], line[1])
    elif word == "lost":
        run.lost(where, line[0])
    elif word == "session":
        if line[4] != "-" and run.window.highest is None:
            run.window.begin(65536 + line[4])
    elif word == "taken":
        run.taken(moment, *line, None)
    elif word == "restarted":
        run.restarted(moment, line[0])
    elif word == "play":
        run.passes(where, moment, line[0], "played")
    elif word == "gap":
        run.passes(where, moment, line[0], "given up")
    elif word == "ask":
        run.ask(where, moment, *line)
    elif word == "rtt":
        run.trips.append((moment, line[0]))
    elif word != "overrun":  # the line of what was taken tells these
        run.tally(word, line[0] if word in ("marked", "tail", "abandoned", "skipped", "crowded") else 1)


def end_of_sender(run):
    """A sender learns neither when a loss was noticed nor what was taken: a repair took from the first sending on."""
    run.repaired_by = "sent → retransmitted"
    for moment, place in run.marks["retransmitted"]:
        if place in run.first_sent:
            run.repairs.append((moment, moment - run.first_sent[place]))
