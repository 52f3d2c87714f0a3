"""The events of a script with their moments. A log of `sim` has none."""
import re

from pictures.words import CONTENT, COUNT, INDEX, MOMENT, number, octets, split, text, values
from refusals import Refused

CONFIG = (number(0, 65535),) * 2 + (number(1, 8192),) * 2 + (COUNT, number(1, 2**64 - 1)) + (number(1, 255),) * 2
EVENTS = {
    "S": (CONTENT[0], CONTENT[1], number(0, 255), *CONTENT[2:]),
    "R": (),
    "A": (MOMENT,),
    "D": (INDEX, MOMENT),
    "P": (MOMENT,),
    "I": (text(re.compile("[rs]")), octets, MOMENT),
}


def read(data):
    """The events as pairs of a letter and its values with the moment behind them.

    A send and a retransmission have no moment in a script: theirs is that of the last event above that has one, or, where
    none is above, of the first one below."""
    lines, cut = split(data)
    if not lines or lines[0][0] != "config":
        raise Refused("line 1", "a script begins with its config line")
    if lines[0][9:] == ["learn"]:
        lines[0].pop()
    values("line 1", lines[0], {"config": CONFIG})
    events = [(words[0], values(f"line {at}", words, EVENTS)) for at, words in enumerate(lines[1:], 2)]
    if cut:
        raise Refused(f"line {len(lines) + 1}", "the last line lacks its line feed")
    moments = [found[-1] for letter, found in events if letter in "ADPI"]
    now = moments[0] if moments else 0
    for letter, found in events:
        if letter in "SR":
            found.append(now)
        now = found[-1]
    return events
