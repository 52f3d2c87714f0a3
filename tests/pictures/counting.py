"""What a log shows, counted from its text alone, and by other means than the tools: the guard of their model."""


def numbers_of(datagram):
    """The sequence numbers of a NACK in hexadecimal, as a set."""
    found = set()
    for at in range(24, len(datagram), 8):
        pid, blp = int(datagram[at : at + 4], 16), f"{int(datagram[at + 4 : at + 8], 16):016b}"
        found.add(pid)
        found |= {(pid + 16 - bit) & 0xFFFF for bit, digit in enumerate(blp) if digit == "1"}
    return found


def by_grep(script, log):
    """The counts of a log of sim, by the words that its lines and its script's begin with."""
    lines, events = [[line.split() for line in text.splitlines()] for text in (log, script)]
    came = {event[1] for event in events if event[0] == "D"}
    of = {word: [line for line in lines if line[0] == word and line[1:] != ["none"]] for word in
          ("sent", "repair", "ask", "play", "gap", "taken", "refused")}
    return {
        "sent": len(of["sent"]),
        "played": len(of["play"]),
        "asked": sum(len(numbers_of(line[2])) for line in of["ask"]),
        "retransmitted": len(of["repair"]),
        "lost": sum(line[2] not in came for line in of["sent"] + of["repair"]),
        "ask lost": sum(len(numbers_of(line[2])) for line in of["ask"] if line[1] not in came),
        "given up": len(of["gap"]),
        "overrun": sum(int(line[2]) for line in of["taken"]),
        "refused": len(of["refused"]),
    }


def repairs(script, log):
    """Moments and durations of repairs: for each retransmission that was taken, when a place above it was taken first."""
    events = [line.split() for line in script.splitlines()[1:]]
    lines = [line.split() for line in log.splitlines()]
    ours = {line[2] for line in lines if line[0] == "repair" and line[1] != "none"}
    taken = [(int(event[-1]), int(line[1]), event[0] == "D" and event[1] in ours) for event, line in zip(events, lines)
             if line[0] == "taken"]
    found = []
    for at, (moment, place, is_repair) in enumerate(taken):
        above = [before for before, other, _ in taken[:at] if other > place]
        if is_repair and above:
            found.append((moment, moment - above[0]))
    return found


def windows(words):
    """What the window spans after each line that moves it, from sets of places: words are (moment, word, values)."""
    cursor, held, top, found = None, set(), -1, []
    for moment, word, line in words:
        if word == "taken":
            place = int(line[0])
            cursor = place if cursor is None else cursor
            held.add(place)
            top = max(top, place)
            cursor += int(line[1])
        elif word in ("play", "gap"):
            cursor = int(line[0]) + 1
        else:
            continue
        span = range(cursor, top + 1)
        found.append((moment, len(span), sum(place not in held for place in span)))
    return found
