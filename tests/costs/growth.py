"""How the turns of a receiver grow with what is missing, which no compiler changes."""
from callgrind import count

# A packet comes each turn, nothing can be played, nothing is to be asked for yet, and the next moment is read.
WAITS = "window=8192 asked=1 retry=100000 step=1 asks=1 payload=1200 turns=200"
CALLS = {"the next moment": "gozdrit_next_timeout", "a NACK": "gozdrit_nack", "a play": "gozdrit_play", "a turn": ""}
LEVEL, BESIDE_NONE = 1.3, 1.5  # times what they take with a hundred missing; times what a turn takes with none


def turns(program):
    """Whether calls and whole turns take no more with thousands missing, in one gap or each by itself: pairs of that and words."""
    kinds = {"in a gap": ("burst={}", 4000), "one by one": ("lone={} apart=2", 3900)}
    states = [(words.format(missing), missing) for words, most in kinds.values() for missing in (most, 100)]
    states.append(("plays=0", 0))
    told, phases = count(program, given="".join(f"{WAITS} {words}\n" for words, _ in states))
    counts = [int(line.split()[0]) for line in told.splitlines()]
    yield counts == [missing for _, missing in states], f"the states of the growth: {counts} are missing"
    none = taken(phases.pop())
    for (kind, (_, many)), most, least in zip(kinds.items(), phases[::2], phases[1::2]):
        for name, call in CALLS.items():
            more, less = taken(most, call), taken(least, call)
            yield 0 < more <= LEVEL * less, f"{name}: {more} instructions with {many} missing {kind}, and {less} with 100"
        yield taken(most) <= BESIDE_NONE * none, f"a turn: {taken(most)} instructions with {many} missing {kind}, and {none} with none"


def taken(phase, call=""):
    """The instructions of a call in a phase, or of all."""
    return sum(cost for name, cost in phase.items() if name.startswith(call))
